//! Why a call is refused.

use core::{error::Error, fmt};

/// Why a call is refused. The variants stand in the order of judging: of all that apply the first is given.
///
/// ```
/// use lictor::{fmath, Refusal};
/// let refusal = fmath::norm(&[3.0], 2).unwrap_err();
/// assert_eq!(refusal, Refusal::Short);
/// assert_eq!(refusal.number(), 11);
/// assert_eq!(refusal.to_string(), "refused with 11: a slice is too short");
/// ```
#[derive(Clone, Copy, Debug, PartialEq, Eq, Hash)]
#[non_exhaustive]
pub enum Refusal {
    /// 1: dim, `pos_dim`, a zone count, a term count, a feature bit, a window length, a trail's head or a trail's count is out of size.
    Size,
    /// 2: a configuration number, or one derived from it, is not finite or is out of its range.
    Number,
    /// 3: substeps, commit, braking steps or horizon ticks are out of range.
    Steps,
    /// 4: a zone's two channels are equal, one is at or above `aux_count`, or two zones name the same pair in the same order.
    Channels,
    /// 15: a round table, and dim or `pos_dim` is below 2.
    Shape,
    /// 17: a calibration's mask or one of its counted terms names Stall, which is not computed.
    Withdrawn,
    /// 5: a chunk has no rows or no width.
    Empty,
    /// 6: a chunk has over 64 rows.
    TooLong,
    /// 7: a chunk's rows are over 8 wide.
    TooWide,
    /// 8: a chunk executes more rows than it has.
    ExecExceedsHorizon,
    /// 9: a chunk has other than rows times width numbers.
    LenMismatch,
    /// 10: a chunk's width differs from the configuration's dim.
    Width,
    /// 11: a slice is too short; a last command under [`Gripper::LastCommand`](crate::config::Gripper::LastCommand) alone.
    Short,
    /// 12: a number of an input slice, of a trail, of held features or of scores is not finite; of a last command under
    /// [`Gripper::LastCommand`](crate::config::Gripper::LastCommand) alone.
    NotFinite,
    /// 13: a computed number is not finite.
    Computed {
        /// Of a forecast or a run the place of that number, counted from 1; everywhere else 0.
        place: usize,
    },
    /// 255, the boundary's own: a code, a flag or a count that its field cannot hold. No call of this crate gives it: its types hold what
    /// fits.
    Misfit,
    /// A number that this version of the crate does not know: the archive is of another version.
    Unknown {
        /// The number that the library gave.
        number: u8,
    },
}

/// What a call gives: its value, or why it is refused.
pub type Answer<T> = Result<T, Refusal>;

impl Refusal {
    /// The refusals that have a number of their own, in the order of judging, the boundary's last; a place is 0.
    pub const ALL: [Self; 16] = [
        Self::Size,
        Self::Number,
        Self::Steps,
        Self::Channels,
        Self::Shape,
        Self::Withdrawn,
        Self::Empty,
        Self::TooLong,
        Self::TooWide,
        Self::ExecExceedsHorizon,
        Self::LenMismatch,
        Self::Width,
        Self::Short,
        Self::NotFinite,
        Self::Computed { place: 0 },
        Self::Misfit,
    ];

    /// The number of the table of refusals, as `include/lictor.h` and the desk's cards have it.
    ///
    /// ```
    /// assert_eq!(lictor::Refusal::Computed { place: 7 }.number(), 13);
    /// ```
    #[must_use]
    pub const fn number(self) -> u8 {
        match self {
            Self::Size => 1,
            Self::Number => 2,
            Self::Steps => 3,
            Self::Channels => 4,
            Self::Shape => 15,
            Self::Withdrawn => 17,
            Self::Empty => 5,
            Self::TooLong => 6,
            Self::TooWide => 7,
            Self::ExecExceedsHorizon => 8,
            Self::LenMismatch => 9,
            Self::Width => 10,
            Self::Short => 11,
            Self::NotFinite => 12,
            Self::Computed { .. } => 13,
            Self::Misfit => 255,
            Self::Unknown { number } => number,
        }
    }

    /// The place of a forecast's or a run's number that is not finite, counted from 1; 0 for every other refusal.
    ///
    /// ```
    /// assert_eq!(lictor::Refusal::Computed { place: 7 }.place(), 7);
    /// assert_eq!(lictor::Refusal::Short.place(), 0);
    /// ```
    #[must_use]
    pub const fn place(self) -> usize {
        match self {
            Self::Computed { place } => place,
            _ => 0,
        }
    }

    /// What the refusal stands for, in a few words.
    ///
    /// ```
    /// assert_eq!(lictor::Refusal::Empty.text(), "the chunk is empty");
    /// ```
    #[must_use]
    pub const fn text(self) -> &'static str {
        match self {
            Self::Size => {
                "a dimension, zone count, term count, feature bit, window length or trail index is out of size"
            }
            Self::Number => "a configuration number is not finite or out of its range",
            Self::Steps => "a count of steps or ticks is out of range",
            Self::Channels => "a zone's channels are equal, past the declared ones or another's pair",
            Self::Shape => "a round table, and a dimension is below 2",
            Self::Withdrawn => "the calibration's mask or a counted term names Stall, which is not computed",
            Self::Empty => "the chunk is empty",
            Self::TooLong => "the chunk has too many rows",
            Self::TooWide => "the chunk's rows are too wide",
            Self::ExecExceedsHorizon => "the chunk executes more rows than it has",
            Self::LenMismatch => "the chunk's numbers are not rows times width",
            Self::Width => "the chunk's width is not the configured dimension",
            Self::Short => "a slice is too short",
            Self::NotFinite => "an input number is not finite",
            Self::Computed { .. } => "a computed number is not finite",
            Self::Misfit => "a code or a flag is none of its kind, or a count does not fit its field",
            Self::Unknown { .. } => "no refusal that this version knows has this number",
        }
    }

    /// The refusal that the library means by a number, which is not 0, and a place.
    #[cold]
    fn of(number: u64, place: u64) -> Self {
        let number = number as u8;
        match Self::ALL.into_iter().find(|refusal| refusal.number() == number) {
            Some(Self::Computed { .. }) => Self::Computed { place: place as usize },
            Some(refusal) => refusal,
            None => Self::Unknown { number },
        }
    }
}

impl fmt::Display for Refusal {
    fn fmt(&self, f: &mut fmt::Formatter<'_>) -> fmt::Result {
        write!(f, "refused with {}: {}", self.number(), self.text())?;
        match self.place() {
            0 => Ok(()),
            place => write!(f, ", at place {place}"),
        }
    }
}

impl Error for Refusal {}

/// The value where the library's number is 0.
pub(crate) fn given<T>(number: u64, value: T) -> Answer<T> {
    given_at(number, 0, value)
}

/// The value where the library's number is 0, else the refusal with its place.
pub(crate) fn given_at<T>(number: u64, place: u64, value: T) -> Answer<T> {
    match number {
        0 => Ok(value),
        n => Err(Refusal::of(n, place)),
    }
}

#[cfg(test)]
mod tests {
    use super::*;

    #[test]
    fn each_number_is_the_librarys_and_comes_back() {
        for refusal in Refusal::ALL {
            assert_eq!(given(refusal.number().into(), ()), Err(refusal));
        }
        let mut numbers = Refusal::ALL.map(Refusal::number);
        numbers.sort_unstable();
        assert!(numbers.windows(2).all(|pair| pair[0] < pair[1]) && numbers[0] == 1);
    }

    #[test]
    fn a_place_comes_with_13_alone() {
        assert_eq!(given_at(13, 4, ()), Err(Refusal::Computed { place: 4 }));
        assert_eq!(given_at(12, 4, ()), Err(Refusal::NotFinite));
        assert_eq!(given_at(0, 4, 7), Ok(7));
    }

    #[test]
    fn a_number_of_another_version_is_told() {
        assert_eq!(given(14, ()), Err(Refusal::Unknown { number: 14 }));
    }
}

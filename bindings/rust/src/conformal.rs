//! The gate: scores held against a calibration.

use crate::{
    raw,
    refusal::{given, Answer},
};

/// The numbers of the features in a mask, and in a time bin's part of a table.
pub mod feature {
    /// How far a chunk and the one before it are apart where they overlap.
    pub const TCE: usize = 0;
    /// The same, beside how much the new chunk moves.
    pub const ACC: usize = 1;
    /// Minus the mean step of a chunk.
    pub const ACM_NEG: usize = 2;
    /// The jerk of a chunk, beside how much it moves.
    pub const NJR: usize = 3;
    /// How far the first row is from the position.
    pub const REACH: usize = 4;
    /// The greatest step of a chunk.
    pub const SPEED_PEAK: usize = 5;
    /// How much of the way of the trail led nowhere.
    pub const PATH_INEFF: usize = 6;
    /// Stall, which is not computed: 0.0, never valid, and refused in a calibration with
    /// [`Withdrawn`](crate::Refusal::Withdrawn).
    pub const STALL: usize = 7;
    /// The first of the caller's own scalars.
    pub const EXT0: usize = 8;
    /// The second.
    pub const EXT1: usize = 9;
    /// The third.
    pub const EXT2: usize = 10;
    /// The fourth.
    pub const EXT3: usize = 11;
}

/// What the gate holds scores against. A [`Config`](crate::config::Config) has it and lends it by
/// [`calibration`](crate::config::Config::calibration).
///
/// ```
/// use lictor::conformal::{feature, Calibration};
/// // reach alone, at every time of an episode, tripping above 0.25
/// let calibration = Calibration {
///     center: [0.0; 192],
///     scale: [1.0; 192],
///     tau: 0.25,
///     mask: 1 << feature::REACH,
///     n_terms: 1,
///     terms: [1 << feature::REACH, 0, 0, 0, 0, 0, 0, 0],
/// };
/// // Stall is not computed, and a table that names it is refused
/// let old = Calibration { mask: 1 << feature::REACH | 1 << feature::STALL, ..calibration };
/// assert_eq!(lictor::conformal::trip(&old, &Default::default()), Err(lictor::Refusal::Withdrawn));
/// ```
#[derive(Clone, Copy, Debug, PartialEq)]
pub struct Calibration {
    /// The center of feature j in time bin b, at b x 12 + j.
    pub center: [f64; 192],
    /// Its scale there, above 0.
    pub scale: [f64; 192],
    /// Above this aggregate the gate trips.
    pub tau: f64,
    /// The features that count, a bit each.
    pub mask: u32,
    /// How many of the terms count, at most 8.
    pub n_terms: u8,
    /// The terms, a bit for each feature of one; the least of a term's features is its value.
    pub terms: [u32; 8],
}

/// What is known of a tick.
#[derive(Clone, Copy, Debug, Default, PartialEq)]
pub struct Scores {
    /// The features, by their numbers.
    pub f: [f64; 12],
    /// The features in units of the calibration.
    pub z: [f64; 12],
    /// Their aggregate, the greatest of the live terms; negative infinity where none is live.
    pub s: f64,
    /// The features that are there, a bit each.
    pub valid: u32,
    /// The features above tau, a bit each.
    pub fired: u32,
}

impl Scores {
    pub(crate) fn numbers(&self) -> [f64; 25] {
        let mut numbers = [self.s; 25];
        numbers[..12].copy_from_slice(&self.f);
        numbers[12..24].copy_from_slice(&self.z);
        numbers
    }

    pub(crate) fn marks(&self) -> [u64; 2] {
        [self.valid.into(), self.fired.into()]
    }

    pub(crate) fn take(&mut self, numbers: &[f64; 25], marks: [u64; 2]) {
        self.f.copy_from_slice(&numbers[..12]);
        self.z.copy_from_slice(&numbers[12..24]);
        self.s = numbers[24];
        (self.valid, self.fired) = (marks[0] as u32, marks[1] as u32);
    }
}

/// Puts f in units of the calibration; a bin above 15 is 15.
///
/// ```
/// # use lictor::conformal::Calibration;
/// use lictor::conformal::{aggregate, standardise, trip, Scores};
/// # let calibration = Calibration { center: [0.0; 192], scale: [0.5; 192], tau: 2.0, mask: 3, n_terms: 2, terms: [3, 1, 0, 0, 0, 0, 0, 0] };
/// let mut scores = Scores { valid: 3, ..Scores::default() };
/// scores.f[..2].copy_from_slice(&[1.0, 0.5]);
/// standardise(&calibration, 0, &mut scores)?; // scales of 0.5
/// assert_eq!(scores.z[..2], [2.0, 1.0]);
/// assert_eq!(aggregate(&calibration, &mut scores)?, 2.0); // the terms are {0, 1} and {0}
/// assert!(!trip(&calibration, &scores)?); // tau is 2
/// # Ok::<(), lictor::Refusal>(())
/// ```
///
/// # Errors
///
/// [`Size`](crate::Refusal::Size), [`Number`](crate::Refusal::Number) and [`Withdrawn`](crate::Refusal::Withdrawn) for the calibration,
/// [`NotFinite`](crate::Refusal::NotFinite), [`Computed`](crate::Refusal::Computed).
pub fn standardise(cal: &Calibration, bin: usize, sc: &mut Scores) -> Answer<()> {
    let (mut numbers, mut marks) = (sc.numbers(), sc.marks());
    let Calibration { center, scale, tau, mask, n_terms, terms } = cal;
    // SAFETY: the tables are live; the numbers and marks are ours alone.
    let number =
        unsafe { raw::lictor_standardise(center, scale, *tau, *mask, *n_terms, terms, bin, &mut numbers, &mut marks) };
    given(number, ())?;
    sc.take(&numbers, marks);
    Ok(())
}

/// Sets s and fired from z, and gives s. [`standardise`] has an example.
///
/// # Errors
///
/// As [`standardise`], without [`Computed`](crate::Refusal::Computed).
pub fn aggregate(cal: &Calibration, sc: &mut Scores) -> Answer<f64> {
    let (mut numbers, mut marks) = (sc.numbers(), sc.marks());
    let Calibration { center, scale, tau, mask, n_terms, terms } = cal;
    // SAFETY: the tables are live; the numbers and marks are ours alone.
    let number =
        unsafe { raw::lictor_aggregate(center, scale, *tau, *mask, *n_terms, terms, &mut numbers, &mut marks) };
    given(number, ())?;
    sc.take(&numbers, marks);
    Ok(sc.s)
}

/// Whether s is above tau. [`standardise`] has an example.
///
/// # Errors
///
/// As [`aggregate`].
pub fn trip(cal: &Calibration, sc: &Scores) -> Answer<bool> {
    let (numbers, marks, mut trips) = (sc.numbers(), sc.marks(), 0);
    let Calibration { center, scale, tau, mask, n_terms, terms } = cal;
    // SAFETY: the tables, numbers and marks are live; the place is ours alone.
    let number = unsafe { raw::lictor_trip(center, scale, *tau, *mask, *n_terms, terms, &numbers, &marks, &mut trips) };
    given(number, trips == 1)
}

/// The time bin of tick `t`, of 16 over the horizon: (t - 1) x 16 / `horizon_ticks` rounded down, at most 15. Ticks are numbered
/// from 1; tick 0, which has no chunk, is in bin 0 too.
///
/// ```
/// # use lictor::conformal::time_bin;
/// assert_eq!([0, 1, 13, 14, 200].map(|t| time_bin(t, 200)), [Ok(0), Ok(0), Ok(0), Ok(1), Ok(15)]);
/// ```
///
/// # Errors
///
/// [`Steps`](crate::Refusal::Steps) for a horizon of 0 ticks.
pub fn time_bin(t: u32, horizon_ticks: u32) -> Answer<usize> {
    let mut bin = 0;
    // SAFETY: the place is live and ours alone.
    let number = unsafe { raw::lictor_time_bin(t, horizon_ticks, &mut bin) };
    given(number, bin as usize)
}

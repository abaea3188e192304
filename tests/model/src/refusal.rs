//! Why a call is refused: a number of the scope document's table or of a request after it and, for 13 from the forecast, its
//! place.

use crate::checked::NotFinite;

pub const SIZE: u8 = 1;
pub const NUMBER: u8 = 2;
pub const STEPS: u8 = 3;
pub const CHANNELS: u8 = 4;
pub const SHAPE: u8 = 15;
pub const WITHDRAWN: u8 = 17;
pub const EMPTY: u8 = 5;
pub const TOO_LONG: u8 = 6;
pub const TOO_WIDE: u8 = 7;
pub const EXEC_EXCEEDS_HORIZON: u8 = 8;
pub const LEN_MISMATCH: u8 = 9;
pub const WIDTH: u8 = 10;
pub const SHORT: u8 = 11;
pub const NOT_FINITE: u8 = 12;
pub const COMPUTED: u8 = 13;

/// The order of judging, which is written here apart from the port's and is not that of the numerals.
pub const ORDER: [u8; 15] = [
    SIZE,
    NUMBER,
    STEPS,
    CHANNELS,
    SHAPE,
    WITHDRAWN,
    EMPTY,
    TOO_LONG,
    TOO_WIDE,
    EXEC_EXCEEDS_HORIZON,
    LEN_MISMATCH,
    WIDTH,
    SHORT,
    NOT_FINITE,
    COMPUTED,
];

#[derive(Clone, Copy, Debug, PartialEq, Eq)]
pub struct Refusal {
    pub number: u8,
    pub place: usize,
}

impl From<NotFinite> for Refusal {
    /// Outside the forecast 13's place is 0.
    fn from(_: NotFinite) -> Self {
        Refusal { number: COMPUTED, place: 0 }
    }
}

/// `number` where its condition holds.
pub fn when(condition: bool, number: u8) -> Option<u8> {
    condition.then_some(number)
}

/// The first of the numbers that apply, or acceptance when none does.
pub fn judged(numbers: &[Option<u8>]) -> Result<(), Refusal> {
    match first(numbers) {
        Some(number) => Err(Refusal { number, place: 0 }),
        None => Ok(()),
    }
}

/// Of the numbers that apply the one that is judged first.
pub fn first(numbers: &[Option<u8>]) -> Option<u8> {
    ORDER.into_iter().find(|n| numbers.contains(&Some(*n)))
}

/// 12 when some number of the slice is not finite, read or not.
pub fn not_finite(v: &[f64]) -> Option<u8> {
    when(v.iter().any(|x| !x.is_finite()), NOT_FINITE)
}

/// 11 when the slice is shorter than asked.
pub fn shorter(v: &[f64], n: usize) -> Option<u8> {
    when(v.len() < n, SHORT)
}

//! Least, greatest, clamp, root, norm and distance.

use crate::{
    raw,
    refusal::{given, Answer},
};

/// `a` where it is strictly less, else `b`.
///
/// ```
/// assert_eq!(lictor::fmath::min(1.0, 2.0), 1.0);
/// ```
#[must_use]
pub fn min(a: f64, b: f64) -> f64 {
    // SAFETY: numbers go by value.
    unsafe { raw::lictor_min(a, b) }
}

/// `a` where it is strictly greater, else `b`.
///
/// ```
/// assert_eq!(lictor::fmath::max(1.0, 2.0), 2.0);
/// ```
#[must_use]
pub fn max(a: f64, b: f64) -> f64 {
    // SAFETY: numbers go by value.
    unsafe { raw::lictor_max(a, b) }
}

/// `lo` below lo, `hi` above hi, else `x`.
///
/// ```
/// assert_eq!(lictor::fmath::clamp(3.0, 0.0, 2.0), 2.0);
/// ```
#[must_use]
pub fn clamp(x: f64, lo: f64, hi: f64) -> f64 {
    // SAFETY: numbers go by value.
    unsafe { raw::lictor_clamp(x, lo, hi) }
}

/// What [`clamp`] gives, and the side that it was moved to: -1 raised to `lo`, 1 lowered to `hi`, 0 untouched. A NaN is untouched, and so,
/// where `lo` is at most `hi`, is a number on a limit (the two zeros are one, and it keeps its sign). `lo` is tried first.
///
/// ```
/// use lictor::fmath::clamp_side;
/// assert_eq!(clamp_side(3.0, 0.0, 2.0), (2.0, 1));
/// assert_eq!(clamp_side(-3.0, 0.0, 2.0), (0.0, -1));
/// assert_eq!(clamp_side(2.0, 0.0, 2.0), (2.0, 0)); // a touched limit
/// let (zero, side) = clamp_side(-0.0, 0.0, 2.0);
/// assert!(zero.is_sign_negative() && side == 0);
/// ```
#[must_use]
pub fn clamp_side(x: f64, lo: f64, hi: f64) -> (f64, i64) {
    let mut side = 0;
    // SAFETY: numbers go by value, and the place is live and ours alone.
    let value = unsafe { raw::lictor_clamp_side(x, lo, hi, &mut side) };
    (value, side)
}

/// The root to nearest.
///
/// ```
/// assert_eq!(lictor::fmath::sqrt(2.0), Ok(2f64.sqrt()));
/// ```
///
/// # Errors
///
/// [`Computed`](crate::Refusal::Computed) below zero, at an infinity and at a NaN.
pub fn sqrt(x: f64) -> Answer<f64> {
    let mut root = 0.0;
    // SAFETY: the place is live and ours alone.
    let number = unsafe { raw::lictor_sqrt(x, &mut root) };
    given(number, root)
}

/// The length of the first `n` coordinates.
///
/// ```
/// assert_eq!(lictor::fmath::norm(&[3.0, 4.0], 2), Ok(5.0));
/// ```
///
/// # Errors
///
/// [`Short`](crate::Refusal::Short), [`NotFinite`](crate::Refusal::NotFinite), [`Computed`](crate::Refusal::Computed).
pub fn norm(v: &[f64], n: usize) -> Answer<f64> {
    let mut norm = 0.0;
    // SAFETY: the slice is live, and the place is ours alone.
    let number = unsafe { raw::lictor_norm(v.as_ptr(), v.len(), n, &mut norm) };
    given(number, norm)
}

/// The distance over the first `n` coordinates.
///
/// ```
/// assert_eq!(lictor::fmath::dist(&[1.0, 1.0], &[4.0, 5.0], 2), Ok(5.0));
/// ```
///
/// # Errors
///
/// As [`norm`].
pub fn dist(a: &[f64], b: &[f64], n: usize) -> Answer<f64> {
    let mut dist = 0.0;
    // SAFETY: the slices are live, and the place is ours alone.
    let number = unsafe { raw::lictor_dist(a.as_ptr(), a.len(), b.as_ptr(), b.len(), n, &mut dist) };
    given(number, dist)
}

//! Module 1.

use crate::{
    checked,
    refusal::{judged, not_finite, shorter},
    Refusal,
};

pub fn sqrt(x: f64) -> Result<f64, Refusal> {
    Ok(checked::root(x)?)
}

pub fn norm(v: &[f64], n: usize) -> Result<f64, Refusal> {
    judged(&[shorter(v, n), not_finite(v)])?;
    Ok(checked::norm(v, n)?)
}

pub fn dist(a: &[f64], b: &[f64], n: usize) -> Result<f64, Refusal> {
    judged(&[shorter(a, n), shorter(b, n), not_finite(a), not_finite(b)])?;
    Ok(checked::dist(a, b, n)?)
}

/// The first where it is strictly less, else the second.
pub fn min(a: f64, b: f64) -> f64 {
    if a < b {
        a
    } else {
        b
    }
}

/// The first where it is strictly greater, else the second.
pub fn max(a: f64, b: f64) -> f64 {
    if a > b {
        a
    } else {
        b
    }
}

/// lo if x < lo, hi if x > hi, else x.
pub fn clamp(x: f64, lo: f64, hi: f64) -> f64 {
    if x < lo {
        lo
    } else if x > hi {
        hi
    } else {
        x
    }
}

/// -1 where clamp raises x to lo, 1 where it lowers it to hi, 0 where it is untouched; lo is tried first.
pub fn side(x: f64, lo: f64, hi: f64) -> i64 {
    if x < lo {
        -1
    } else if x > hi {
        1
    } else {
        0
    }
}

/// The value with its side.
pub fn clamp_side(x: f64, lo: f64, hi: f64) -> (f64, i64) {
    (clamp(x, lo, hi), side(x, lo, hi))
}

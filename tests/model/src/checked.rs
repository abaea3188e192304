//! Arithmetic in which every number that is evaluated is finite, or the evaluation ends. A rule that is written with
//! these operations gives refusal 13 exactly when some number that it evaluates is not finite.

/// A computed number is an infinity or a NaN.
#[derive(Clone, Copy, Debug, PartialEq, Eq)]
pub struct NotFinite;

pub type Checked = Result<f64, NotFinite>;

pub fn finite(x: f64) -> Checked {
    if x.is_finite() {
        Ok(x)
    } else {
        Err(NotFinite)
    }
}

pub fn add(a: f64, b: f64) -> Checked {
    finite(a + b)
}

pub fn sub(a: f64, b: f64) -> Checked {
    finite(a - b)
}

pub fn mul(a: f64, b: f64) -> Checked {
    finite(a * b)
}

pub fn div(a: f64, b: f64) -> Checked {
    finite(a / b)
}

/// The root of a zero is that zero; below zero, at an infinity or a NaN there is none. For x above 0 the scaled
/// whole X in [2^104, 2^106) has the one R with (2R-1)^2 < 4X < (2R+1)^2; the exponent is half of the scaled one.
pub fn root(x: f64) -> Checked {
    if x == 0.0 {
        return Ok(x);
    }
    if !x.is_finite() || x < 0.0 {
        return Err(NotFinite);
    }
    let (mantissa, exponent) = apart(x);
    // x = mantissa 2^exponent; an even scaled exponent, and X of 105 or 106 bits
    let mut shift = 105 - (128 - (mantissa as u128).leading_zeros() as i32);
    if (exponent - shift) % 2 != 0 {
        shift += 1;
    }
    let scaled = (mantissa as u128) << shift;
    let half = (exponent - shift) / 2;
    Ok(together(nearest_root(scaled), half))
}

/// The whole mantissa and the exponent: x = mantissa 2^exponent, for x above 0.
fn apart(x: f64) -> (u64, i32) {
    let bits = x.to_bits();
    let fraction = bits & ((1 << 52) - 1);
    match (bits >> 52) as i32 {
        0 => (fraction, -1074),
        e => (fraction | 1 << 52, e - 1075),
    }
}

/// The number r 2^exponent, for r in [2^52, 2^53) and a result that is not subnormal.
fn together(r: u64, exponent: i32) -> f64 {
    f64::from_bits((((exponent + 1075) as u64) << 52) | (r - (1 << 52)))
}

/// The only R with (2R-1)^2 < 4X < (2R+1)^2: a guess, moved until the two inequalities hold.
fn nearest_root(x: u128) -> u64 {
    let mut r = (x as f64).sqrt() as u128;
    while (2 * r + 1) * (2 * r + 1) <= 4 * x {
        r += 1;
    }
    while (2 * r - 1) * (2 * r - 1) >= 4 * x {
        r -= 1;
    }
    r as u64
}

/// The root of the squares of the first n numbers, summed left to right from 0.0.
pub fn norm(v: &[f64], n: usize) -> Checked {
    let mut sum = 0.0;
    for x in &v[..n] {
        sum = add(sum, mul(*x, *x)?)?;
    }
    root(sum)
}

/// The same over the differences.
pub fn dist(a: &[f64], b: &[f64], n: usize) -> Checked {
    let mut sum = 0.0;
    for (x, y) in a[..n].iter().zip(&b[..n]) {
        let d = sub(*x, *y)?;
        sum = add(sum, mul(d, d)?)?;
    }
    root(sum)
}

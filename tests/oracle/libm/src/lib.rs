//! A shim: the processor's square root, correctly rounded as IEEE 754-2019 asks.

#[inline]
pub fn sqrt(x: f64) -> f64 {
    x.sqrt()
}

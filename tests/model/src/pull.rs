//! The pull that a leash, a reach and a round table share.

use crate::checked::{add, dist, div, mul, sub, NotFinite};

/// 1 - 2^-36.
pub const SHRINK: f64 = 1.0 - 1.0 / 68719476736.0;

/// Shortens the first n coordinates of a - q to the limit where they are longer.
pub fn pull(a: &mut [f64], q: &[f64], n: usize, limit: f64) -> Result<(), NotFinite> {
    let length = dist(a, q, n)?;
    if length > limit {
        let factor = div(mul(limit, SHRINK)?, length)?;
        for c in 0..n {
            a[c] = add(q[c], mul(sub(a[c], q[c])?, factor)?)?;
        }
    }
    Ok(())
}

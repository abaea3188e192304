//! Module 3.

use crate::{
    checked::{add, dist, Checked},
    refusal::{judged, not_finite, when, SIZE},
    Refusal, Trail, MAX_POS, TRAIL_W,
};

/// 2^n - 1 for a window length n in 1..63.
pub fn mask(n: u8) -> Result<u64, Refusal> {
    judged(&[when(!(1..=63).contains(&n), SIZE)])?;
    Ok((1 << n) - 1)
}

pub fn push(bits: u64, hit: bool, mask: u64) -> u64 {
    ((bits << 1) | hit as u64) & mask
}

/// The number of ones.
pub fn hits(bits: u64) -> u8 {
    (0..64).filter(|i| bits >> i & 1 == 1).count() as u8
}

/// 1 for the head and the count.
pub fn judge_size(t: &Trail) -> Option<u8> {
    when(t.head > 31 || t.len > 32, SIZE)
}

/// 12 for any of its 256 numbers.
pub fn judge_numbers(t: &Trail) -> Option<u8> {
    not_finite(&t.buf)
}

/// Records the first d numbers of p as the newest sample; d is cut to 8 and to p's length.
pub fn trail_push(t: &mut Trail, p: &[f64], d: usize) -> Result<(), Refusal> {
    judged(&[judge_size(t), judge_numbers(t), not_finite(p)])?;
    let d = d.min(MAX_POS).min(p.len());
    let start = t.head as usize * MAX_POS;
    t.buf[start..start + d].copy_from_slice(&p[..d]);
    t.head = (t.head + 1) % TRAIL_W as u8;
    t.len = (t.len + 1).min(TRAIL_W as u8);
    Ok(())
}

/// The sample k steps older than the newest.
fn back(t: &Trail, k: usize) -> &[f64] {
    let slot = (t.head as usize + TRAIL_W - 1 - k) % TRAIL_W;
    &t.buf[slot * MAX_POS..(slot + 1) * MAX_POS]
}

/// The distance from the oldest to the newest of the last w samples.
pub fn net_of(t: &Trail, d: usize, w: usize) -> Checked {
    if !(1..=TRAIL_W).contains(&w) || (t.len as usize) < w {
        return Ok(0.0);
    }
    dist(back(t, 0), back(t, w - 1), d.min(MAX_POS))
}

/// The consecutive distances over the last w samples, summed oldest to newest.
pub fn path_of(t: &Trail, d: usize, w: usize) -> Checked {
    if !(2..=TRAIL_W).contains(&w) || (t.len as usize) < w {
        return Ok(0.0);
    }
    let mut sum = 0.0;
    for k in (1..w).rev() {
        sum = add(sum, dist(back(t, k), back(t, k - 1), d.min(MAX_POS))?)?;
    }
    Ok(sum)
}

pub fn net(t: &Trail, d: usize, w: usize) -> Result<f64, Refusal> {
    judged(&[judge_size(t), judge_numbers(t)])?;
    Ok(net_of(t, d, w)?)
}

pub fn path(t: &Trail, d: usize, w: usize) -> Result<f64, Refusal> {
    judged(&[judge_size(t), judge_numbers(t)])?;
    Ok(path_of(t, d, w)?)
}

/// How many samples are held.
pub fn trail_len(t: &Trail) -> Result<usize, Refusal> {
    judged(&[judge_size(t), judge_numbers(t)])?;
    Ok(t.len as usize)
}

/// Resets head and length only.
pub fn trail_clear(t: &mut Trail) -> Result<(), Refusal> {
    judged(&[judge_size(t), judge_numbers(t)])?;
    t.head = 0;
    t.len = 0;
    Ok(())
}

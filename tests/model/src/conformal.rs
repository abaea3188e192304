//! Module 8.

use crate::{
    checked::{div, sub},
    envelope::judge_calibration,
    fmath::{max, min},
    refusal::{judged, when, STEPS},
    tier1::judge_scores,
    Calibration, Refusal, Scores, BINS, NFEAT,
};

fn has(bits: u32, j: usize) -> bool {
    bits >> j & 1 == 1
}

/// z of each masked and valid feature, 0.0 of the others; a bin above 15 is 15.
pub fn standardise(cal: &Calibration, bin: usize, sc: &mut Scores) -> Result<(), Refusal> {
    judged(&[judge_calibration(cal), judge_scores(sc)])?;
    let live = cal.mask & sc.valid;
    let row = bin.min(BINS - 1) * NFEAT;
    let mut z = [0.0; NFEAT];
    for j in (0..NFEAT).filter(|j| has(live, *j)) {
        z[j] = div(sub(sc.f[j], cal.center[row + j])?, cal.scale[row + j])?;
    }
    sc.z = z;
    Ok(())
}

/// s is the greatest over live terms of the least z of the term; fired has the live features with z above tau.
pub fn aggregate(cal: &Calibration, sc: &mut Scores) -> Result<f64, Refusal> {
    judged(&[judge_calibration(cal), judge_scores(sc)])?;
    let live = cal.mask & sc.valid;
    let mut s = f64::NEG_INFINITY;
    for term in &cal.terms[..cal.n_terms as usize] {
        if *term != 0 && term & live == *term {
            let zs = (0..NFEAT).filter(|j| has(*term, *j)).map(|j| sc.z[j]);
            s = max(s, zs.fold(f64::INFINITY, min));
        }
    }
    let fired = (0..NFEAT).filter(|j| has(live, *j) && sc.z[*j] > cal.tau);
    sc.fired = fired.fold(0, |m, j| m | 1 << j);
    sc.s = s;
    Ok(s)
}

pub fn trip(cal: &Calibration, sc: &Scores) -> Result<bool, Refusal> {
    judged(&[judge_calibration(cal), judge_scores(sc)])?;
    Ok(sc.s > cal.tau)
}

/// (t - 1) x 16 / horizon_ticks rounded down, at most 15; t 0 falls in bin 0.
pub fn time_bin(t: u32, horizon_ticks: u32) -> Result<usize, Refusal> {
    judged(&[when(horizon_ticks == 0, STEPS)])?;
    let bin = match t {
        0 => 0,
        _ => ((t - 1) as u64 * BINS as u64 / horizon_ticks as u64).min(BINS as u64 - 1),
    };
    Ok(bin as usize)
}

//! Module 4: what is derived from the raw configuration, the walls among it, and refusals 1 to 4, 15 and 17 of it.

use crate::{
    fmath::min,
    refusal::{first, judged, when, CHANNELS, NUMBER, SIZE, STEPS, WITHDRAWN},
    workspace::{self, first_boxed},
    Calibration, Derived, FuseConfig, Refusal, MAX_D, MAX_POS, MAX_SUBSTEPS, MAX_TERMS, MAX_ZONES, NFEAT, STALL,
};

/// The derived numbers as they come, finite or not; dim and pos_dim are in size.
fn derived(c: &FuseConfig) -> Derived {
    let inv_dt = 1.0 / c.dt;
    let inv_dt2 = inv_dt * inv_dt;
    let mut d = Derived {
        inv_dt,
        inv_dt2,
        inv_dt3: inv_dt2 * inv_dt,
        step_max: c.v_max * c.dt,
        box_lo: [0.0; MAX_POS],
        box_hi: [0.0; MAX_POS],
        inv_norm_scale: [0.0; MAX_D],
        norm_scale_iso: f64::INFINITY,
    };
    for i in first_boxed(c)..c.pos_dim {
        d.box_lo[i] = c.box_lo[i] + c.margin;
        d.box_hi[i] = c.box_hi[i] - c.margin;
    }
    for i in 0..c.dim {
        d.inv_norm_scale[i] = 1.0 / c.norm_scale[i];
        d.norm_scale_iso = min(d.norm_scale_iso, c.norm_scale[i]);
    }
    d
}

fn above_zero(x: f64) -> bool {
    x.is_finite() && x > 0.0
}

fn not_below_zero(x: f64) -> bool {
    x.is_finite() && x >= 0.0
}

/// Whether the mask or a counted term is such.
fn names(c: &Calibration, such: impl Fn(u32) -> bool) -> bool {
    let counted = &c.terms[..(c.n_terms as usize).min(MAX_TERMS)];
    such(c.mask) || counted.iter().any(|t| such(*t))
}

/// 1 of a calibration: over 8 terms, or a bit above 11 in a counted term or the mask.
fn judge_calibration_size(c: &Calibration) -> Option<u8> {
    when(c.n_terms as usize > MAX_TERMS || names(c, |bits| bits >> NFEAT != 0), SIZE)
}

/// 2 of a calibration: every table entry and tau finite, every scale above 0.
fn judge_calibration_numbers(c: &Calibration) -> Option<u8> {
    let fine = c.center.iter().all(|x| x.is_finite()) && c.scale.iter().all(|x| above_zero(*x)) && c.tau.is_finite();
    when(!fine, NUMBER)
}

/// 17 of a calibration: Stall in a counted term or the mask, which could never be live.
fn judge_calibration_features(c: &Calibration) -> Option<u8> {
    when(names(c, |bits| bits >> STALL & 1 == 1), WITHDRAWN)
}

/// The calibration itself, as module 8's entries take it.
pub fn judge_calibration(c: &Calibration) -> Option<u8> {
    first(&[judge_calibration_size(c), judge_calibration_numbers(c), judge_calibration_features(c)])
}

/// 2 of what is read whatever the sizes are.
fn judge_numbers(c: &FuseConfig) -> Option<u8> {
    let b = &c.brake;
    let above = [c.dt, b.dt, b.k_v, c.v_max, c.a_max, c.j_max, c.reach_max];
    let zones = c.zones.counted().iter().all(|z| above_zero(z.v_max) && not_below_zero(z.radius));
    let fine = above.iter().all(|x| above_zero(*x)) && not_below_zero(b.k_p) && not_below_zero(c.margin) && zones;
    when(!fine, NUMBER)
}

/// 2 of the arrays and of what is derived, over dim and pos_dim.
fn judge_arrays(c: &FuseConfig) -> Option<u8> {
    let d = derived(c);
    let scalars = [d.inv_dt, d.inv_dt2, d.inv_dt3, d.step_max, d.norm_scale_iso];
    let axis = |i: usize| {
        let raw = c.box_lo[i].is_finite() && c.box_hi[i].is_finite();
        raw && d.box_lo[i].is_finite() && d.box_hi[i].is_finite() && d.box_lo[i] <= d.box_hi[i]
    };
    let norm =
        |i: usize| c.norm_center[i].is_finite() && above_zero(c.norm_scale[i]) && d.inv_norm_scale[i].is_finite();
    let fine = scalars.iter().all(|x| x.is_finite()) && (first_boxed(c)..c.pos_dim).all(axis) && (0..c.dim).all(norm);
    when(!fine, NUMBER)
}

fn judge_steps(c: &FuseConfig) -> Option<u8> {
    let b = &c.brake;
    let all = (b.commit as usize + b.brake_steps as usize) * b.substeps as usize;
    let ticks = c.calibrated && c.horizon_ticks == 0;
    when(!(1..=64).contains(&b.substeps) || b.commit > 64 || all > MAX_SUBSTEPS || ticks, STEPS)
}

/// 4 of each counted zone, and of any two that name the same pair in the same order.
fn judge_channels(c: &FuseConfig) -> Option<u8> {
    let pairs: Vec<(u8, u8)> = c.zones.counted().iter().map(|z| (z.a0, z.a1)).collect();
    let bad = |&(a0, a1): &(u8, u8)| a0 == a1 || a0 as usize >= c.aux_count || a1 as usize >= c.aux_count;
    let repeated = (1..pairs.len()).any(|i| pairs[..i].contains(&pairs[i]));
    when(repeated || pairs.iter().any(bad), CHANNELS)
}

/// The whole configuration, whether or not an entry reads that part: the first of 1 to 4, 15 and 17.
pub fn judge(c: &FuseConfig) -> Option<u8> {
    let sized = (1..=MAX_D).contains(&c.dim) && (1..=MAX_POS).contains(&c.pos_dim);
    if !sized {
        return Some(SIZE);
    }
    let zones = when(c.zones.count > MAX_ZONES, SIZE);
    let calibration = if c.calibrated { judge_calibration(&c.cal) } else { None };
    let shape = [workspace::judge_numbers(c), workspace::judge_shape(c)];
    let others = [zones, calibration, judge_numbers(c), judge_arrays(c), judge_steps(c), judge_channels(c)];
    first(&[&others[..], &shape].concat())
}

/// What an accepted configuration derives.
pub fn derive(c: &FuseConfig) -> Result<Derived, Refusal> {
    judged(&[judge(c)])?;
    Ok(derived(c))
}

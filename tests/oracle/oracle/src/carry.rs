//! Arguments and answers carried between the port's sizes and the Rust's, feature by feature by name.

use lictor_core as rust;
use lictor_detect::tier1;
use model::{
    AbsentCamera, ActionKind, BrakeKind, Calibration, ChunkBuf, ChunkView, ClampMode, Derived, FuseConfig, Gripper,
    Scores, Tier1Rt, BINS, HELD, MAX_D, MAX_H, NFEAT, STALL,
};

use crate::trail;

/// The Rust's number of each feature of the scope document.
const RUST_FEAT: [usize; NFEAT] = {
    use rust::Feat::*;
    let names = [Tce, Acc, AcmNeg, Njr, Reach, SpeedPeak, PathIneff, Stall, Ext0, Ext1, Ext2, Ext3];
    let mut numbers = [0; NFEAT];
    let mut j = 0;
    while j < NFEAT {
        numbers[j] = names[j] as usize;
        j += 1;
    }
    numbers
};

/// Bits by name; those above the features stay where they are.
fn bits(b: u32) -> u32 {
    (0..NFEAT).filter(|j| b >> j & 1 == 1).fold(b >> NFEAT << NFEAT, |m, j| m | 1 << RUST_FEAT[j])
}

fn bits_back(b: u32) -> u32 {
    (0..NFEAT).filter(|j| b >> RUST_FEAT[*j] & 1 == 1).fold(b >> NFEAT << NFEAT, |m, j| m | 1 << j)
}

fn by_name(v: &[f64]) -> [f64; NFEAT] {
    let mut r = [0.0; NFEAT];
    for (j, x) in v.iter().enumerate() {
        r[RUST_FEAT[j]] = *x;
    }
    r
}

fn by_name_back(v: &[f64; NFEAT]) -> [f64; NFEAT] {
    RUST_FEAT.map(|j| v[j])
}

pub fn scores(sc: &Scores) -> rust::Scores {
    rust::Scores { f: by_name(&sc.f), z: by_name(&sc.z), s: sc.s, valid: bits(sc.valid), fired: bits(sc.fired) }
}

pub fn scores_back(sc: &rust::Scores) -> Scores {
    let (valid, fired) = (bits_back(sc.valid), bits_back(sc.fired));
    Scores { f: by_name_back(&sc.f), z: by_name_back(&sc.z), s: sc.s, valid, fired }
}

/// The Rust computes Stall and the port does not, so that eleven features are compared: Stall as the port has it, 0.0 and not
/// valid.
pub fn without_stall(mut sc: Scores) -> Scores {
    sc.f[STALL] = 0.0;
    sc.valid &= !(1 << STALL);
    sc
}

/// Sixteen bins, one tick each, so that a tick is its bin and the Rust takes one above 15 as 15.
pub fn calibration(c: &Calibration) -> rust::CalibrationC {
    let mut r = rust::CalibrationC::DISARMED;
    r.t_grid = BINS as u16;
    r.horizon_ticks = BINS as u32;
    for b in 0..BINS {
        r.center[b] = by_name(&c.center[b * NFEAT..(b + 1) * NFEAT]);
        r.scale[b] = by_name(&c.scale[b * NFEAT..(b + 1) * NFEAT]);
    }
    r.mask = bits(c.mask);
    r.gate = rust::GateSpec { n_terms: c.n_terms, terms: c.terms.map(bits) };
    r.tau = c.tau;
    r
}

pub fn chunk_view(v: ChunkView<'_>) -> rust::ChunkView<'_> {
    rust::ChunkView {
        seq: v.seq,
        t_emit: v.t_emit,
        horizon: v.horizon,
        dim: v.dim,
        exec_steps: v.exec_steps,
        data: v.data,
    }
}

pub fn chunk_buf(b: &ChunkBuf) -> rust::ChunkBuf {
    let mut r = rust::ChunkBuf::new();
    r.copy_from(rust::ChunkView {
        seq: b.seq,
        t_emit: b.t_emit,
        horizon: b.horizon,
        dim: b.dim,
        exec_steps: b.exec_steps,
        data: &b.data,
    });
    if !b.filled {
        r.clear();
    }
    r
}

/// Header and all numbers: a copy of the buffer is given the largest sizes of the port to show them. The header of an
/// unfilled buffer cannot be read; nothing but what fills a buffer writes one, so it is still that of `was`.
pub fn chunk_buf_back(r: &rust::ChunkBuf, was: &ChunkBuf) -> ChunkBuf {
    let mut b = ChunkBuf { filled: false, ..*was };
    if let Some(v) = r.view() {
        (b.seq, b.t_emit, b.filled) = (v.seq, v.t_emit, true);
        (b.horizon, b.dim, b.exec_steps) = (v.horizon, v.dim, v.exec_steps);
    }
    let mut whole = r.clone();
    let (horizon, dim) = (MAX_H as u16, MAX_D as u16);
    whole.copy_from(rust::ChunkView { seq: 0, t_emit: 0, horizon, dim, exec_steps: 0, data: &[] });
    b.data.copy_from_slice(whole.view().expect("filled by the copy").data);
    b
}

pub fn tier1_rt(rt: &Tier1Rt) -> tier1::Tier1Rt {
    tier1::Tier1Rt {
        prev: chunk_buf(&rt.prev),
        have_prev: rt.have_prev,
        trail: trail::to_rust(&rt.trail),
        held: by_name(&rt.held),
        held_valid: bits(rt.held_valid),
    }
}

pub fn tier1_rt_back(r: &tier1::Tier1Rt, was: &Tier1Rt) -> Tier1Rt {
    let mut held = [0.0; HELD];
    held.copy_from_slice(&by_name_back(&r.held)[..HELD]);
    let (prev, trail) = (chunk_buf_back(&r.prev, &was.prev), trail::from_rust(&r.trail));
    Tier1Rt { prev, have_prev: r.have_prev, trail, held, held_valid: bits_back(r.held_valid) }
}

pub fn action_kind(k: ActionKind) -> rust::ActionKind {
    match k {
        ActionKind::EePosition => rust::ActionKind::EePosition,
        ActionKind::EeDelta => rust::ActionKind::EeDelta,
        ActionKind::JointPosition => rust::ActionKind::JointPosition,
        ActionKind::JointVelocity => rust::ActionKind::JointVelocity,
        ActionKind::Other => rust::ActionKind::Other,
    }
}

pub fn brake(cfg: &FuseConfig) -> rust::BrakeModel {
    let b = &cfg.brake;
    rust::BrakeModel {
        kind: match b.kind {
            BrakeKind::PdSecondOrder => rust::BrakeKind::PdSecondOrder,
            BrakeKind::FirstOrderDecay => rust::BrakeKind::FirstOrderDecay,
            BrakeKind::BoundedAccel => rust::BrakeKind::BoundedAccel,
            BrakeKind::JerkLimited => rust::BrakeKind::JerkLimited,
            BrakeKind::ZeroVelocityHold => rust::BrakeKind::ZeroVelocityHold,
        },
        k_p: b.k_p,
        k_v: b.k_v,
        substeps: b.substeps,
        dt: b.dt,
        commit_steps: b.commit,
        brake_steps: b.brake_steps,
        react_ticks: b.react,
    }
}

/// The Rust has one zone or none, none where the camera does not show it, and no choice: a configuration that says anything else is not
/// carried over, by `config` or by `compile`, so that no run against the Rust is under the new choice or has several zones.
pub fn contact(cfg: &FuseConfig) -> Option<rust::ContactLimit> {
    assert!(
        cfg.absent_camera == AbsentCamera::NoZone,
        "the Rust has AbsentCamera::NoZone alone, and is asked under {:?}",
        cfg.absent_camera
    );
    assert!(cfg.zones.count <= 1, "the Rust has one zone or none, and is asked with {}", cfg.zones.count);
    let zone = cfg.zones.counted().first();
    zone.map(|z| rust::ContactLimit { radius: z.radius, v_max: z.v_max, aux_center: [z.a0, z.a1] })
}

/// The walls of each axis, which are all that the Rust has of a workspace, and past pos_dim a box of 0..0: a configuration with a disc or with
/// another mode of the gripper is not carried over, by `config` or by `compile`, so that no run against the Rust has a round table or a last
/// command.
pub fn walls(cfg: &FuseConfig) -> (&[f64], &[f64]) {
    assert!(!cfg.shape.disc, "the Rust has the box alone, and is asked with {:?}", cfg.shape);
    assert!(
        cfg.gripper == Gripper::ToZero,
        "the Rust has Gripper::ToZero alone, and is asked in the mode {:?}",
        cfg.gripper
    );
    let pos_dim = cfg.pos_dim.min(model::MAX_POS);
    (&cfg.box_lo[..pos_dim], &cfg.box_hi[..pos_dim])
}

pub fn clamp_mode(cfg: &FuseConfig) -> rust::ClampMode {
    match cfg.clamp {
        ClampMode::Off => rust::ClampMode::Off,
        ClampMode::Project => rust::ClampMode::Project,
    }
}

/// Nothing that is ported reads it.
pub const HYSTERESIS: rust::Hysteresis = rust::Hysteresis {
    k: 1,
    n: 1,
    warn_margin: 0.0,
    clear_ticks: 1,
    clamp_streak_to_brake: 1,
    max_clamps_per_episode: 1,
    stop_confirm_ticks: 1,
    v_stop_eps: 0.0,
    brake_timeout_ticks: 1,
    rearm: rust::RearmPolicy::Auto,
    rearm_hold: 1,
    max_rearms: 1,
    escalate_after_hold_ticks: 1,
    handoff_timeout_ticks: 1,
    watchdog_ticks: 1,
};

/// The first numbers of a wider array that is 0.0 past them.
fn wide<const N: usize>(v: &[f64]) -> [f64; N] {
    let mut r = [0.0; N];
    r[..v.len()].copy_from_slice(v);
    r
}

/// What `compile` would give if it refused nothing: its arithmetic on the raw numbers. `compile` itself is compared
/// with module 4's derived numbers where it accepts.
pub fn config(c: &FuseConfig) -> rust::FuseConfig {
    let (dim, pos_dim) = (c.dim.min(model::MAX_D), c.pos_dim.min(model::MAX_POS));
    let inv_dt = 1.0 / c.dt;
    let inv_dt2 = inv_dt * inv_dt;
    let mut r = rust::FuseConfig {
        envelope_digest: [0; 32],
        embodiment_digest: [0; 32],
        calib_digest: None,
        mode: rust::FuseMode::Enforce,
        kind: action_kind(c.kind),
        dim,
        pos_dim,
        horizon: MAX_H,
        exec: 0,
        overlap: MAX_H,
        dt: c.dt,
        inv_dt,
        inv_dt2,
        inv_dt3: inv_dt2 * inv_dt,
        norm_center: wide(&c.norm_center[..dim]),
        inv_norm_scale: [0.0; rust::MAX_D],
        norm_scale_iso: f64::INFINITY,
        box_lo: [0.0; rust::MAX_POS],
        box_hi: [0.0; rust::MAX_POS],
        v_max: c.v_max,
        a_max: c.a_max,
        j_max: c.j_max,
        reach_max: c.reach_max,
        step_max: c.v_max * c.dt,
        contact: contact(c),
        brake: brake(c),
        clamp: clamp_mode(c),
        hyst: HYSTERESIS,
        window_mask: 1,
        tier0_enabled: c.armed,
        n_operators: 0,
        calib: if c.calibrated { calibration(&c.cal) } else { rust::CalibrationC::DISARMED },
    };
    derive_axes(c, &mut r);
    r
}

fn derive_axes(c: &FuseConfig, r: &mut rust::FuseConfig) {
    let (lo, hi) = walls(c);
    for i in 0..r.pos_dim {
        r.box_lo[i] = lo[i] + c.margin;
        r.box_hi[i] = hi[i] - c.margin;
    }
    for i in 0..r.dim {
        r.inv_norm_scale[i] = 1.0 / c.norm_scale[i];
        r.norm_scale_iso = rust::fmath::min(r.norm_scale_iso, c.norm_scale[i]);
    }
}

/// The derived numbers of a compiled configuration.
pub fn derived(r: &rust::FuseConfig) -> Derived {
    let mut d = Derived {
        inv_dt: r.inv_dt,
        inv_dt2: r.inv_dt2,
        inv_dt3: r.inv_dt3,
        step_max: r.step_max,
        box_lo: [0.0; model::MAX_POS],
        box_hi: [0.0; model::MAX_POS],
        inv_norm_scale: [0.0; model::MAX_D],
        norm_scale_iso: r.norm_scale_iso,
    };
    d.box_lo.copy_from_slice(&r.box_lo[..model::MAX_POS]);
    d.box_hi.copy_from_slice(&r.box_hi[..model::MAX_POS]);
    d.inv_norm_scale.copy_from_slice(&r.inv_norm_scale[..model::MAX_D]);
    d
}

//! `compile` itself, on an envelope made from the raw configuration.

use lictor_core::{EmbodimentManifest, FuseMode, SafetyEnvelope, TripMask};
use model::{Calibration, Derived, FuseConfig, MAX_D};

use crate::carry;

/// What `compile` derives, or its refusal in words. The control period is den / num, which has to be the raw dt for
/// the two to be comparable; calibrations are left out, since their shape differs.
pub fn compile(c: &FuseConfig, num: u32, den: u32) -> Result<Derived, String> {
    envelope(c, num, den).compile(FuseMode::Enforce, None).map(|r| carry::derived(&r)).map_err(|e| e.to_string())
}

/// Whether `compile` takes this calibration with the configuration, at a control period of 1.
pub fn compile_calibrated(c: &FuseConfig, cal: &Calibration) -> Result<(), String> {
    let mut cal = carry::calibration(cal);
    cal.horizon_ticks = 1;
    envelope(c, 1, 1).compile(FuseMode::Enforce, Some(cal)).map(|_| ()).map_err(|e| e.to_string())
}

/// Whether `compile` takes the configuration with this many ticks in its manifest, at a control period of 1.
pub fn compile_with_ticks(c: &FuseConfig, horizon_ticks: u32) -> Result<(), String> {
    let mut envelope = envelope(c, 1, 1);
    envelope.embodiment.horizon_ticks = horizon_ticks;
    envelope.compile(FuseMode::Enforce, None).map(|_| ()).map_err(|e| e.to_string())
}

fn envelope(c: &FuseConfig, num: u32, den: u32) -> SafetyEnvelope {
    let (lo, hi) = carry::walls(c);
    SafetyEnvelope {
        schema: "lictor-envelope/v1".into(),
        envelope_id: "harness".into(),
        embodiment: manifest(c, num, den),
        box_lo: lo.to_vec(),
        box_hi: hi.to_vec(),
        margin: c.margin,
        v_max: c.v_max,
        a_max: c.a_max,
        j_max: c.j_max,
        reach_max: c.reach_max,
        contact: carry::contact(c),
        brake: carry::brake(c),
        clamp_mode: carry::clamp_mode(c),
        hysteresis: carry::HYSTERESIS,
        tier0_enabled: TripMask::names(c.armed & TripMask::TIER0_SOFT).map(String::from).collect(),
        gate: Vec::new(),
        operators: Vec::new(),
        fit: None,
        fail_closed: true,
    }
}

fn manifest(c: &FuseConfig, num: u32, den: u32) -> EmbodimentManifest {
    let dim = c.dim.min(MAX_D);
    EmbodimentManifest {
        id: "harness".into(),
        units: "m".into(),
        action_kind: carry::action_kind(c.kind),
        action_dim: c.dim as u16,
        pos_dim: c.pos_dim as u16,
        horizon: 64,
        exec_steps: 1,
        control_hz_num: num,
        control_hz_den: den,
        provides_vel: true,
        horizon_ticks: 1,
        norm_center: c.norm_center[..dim].to_vec(),
        norm_scale: c.norm_scale[..dim].to_vec(),
        aux_layout: (0..c.aux_count.min(32)).map(|i| format!("aux{i}")).collect(),
        ext_names: Vec::new(),
    }
}

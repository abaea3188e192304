//! The inputs that both sides are timed on. Each is accepted.

use differential::rng::Rng;
use model::{
    AbsentCamera, BrakeModel, Calibration, ChunkBuf, ChunkView, ClampMode, ContactLimit, FuseConfig, Gripper, Scores,
    Shape, Tier1Rt, Trail, Zones, NAMED,
};

/// Numbers in [0, 1), the same in every run.
pub fn numbers(n: usize) -> Vec<f64> {
    let mut rng = Rng::new(n as u64);
    (0..n).map(|_| rng.unit()).collect()
}

/// Numbers in [-4, 4), about half of them beyond a wall of the box.
pub fn about_the_walls(n: usize) -> Vec<f64> {
    numbers(n).iter().map(|x| 8.0 * x - 4.0).collect()
}

pub fn chunk(dim: usize, data: &[f64]) -> ChunkView<'_> {
    let horizon = (data.len() / dim) as u16;
    ChunkView { seq: 1, t_emit: 1, horizon, dim: dim as u16, exec_steps: 1, data }
}

/// Under the old choice, which is the Rust's.
fn boxed(dim: usize) -> FuseConfig {
    let (box_lo, box_hi, absent_camera) = ([-2.0; 8], [2.0; 8], AbsentCamera::NoZone);
    FuseConfig { dim, pos_dim: dim, dt: 0.1, box_lo, box_hi, absent_camera, ..FuseConfig::PLAIN }
}

/// 64 rows of 64 substeps.
pub fn second_order(dim: usize) -> FuseConfig {
    let brake =
        BrakeModel { k_p: 100.0, k_v: 20.0, dt: 0.01, substeps: 64, commit: 64, react: 1, ..FuseConfig::PLAIN.brake };
    FuseConfig { brake, ..boxed(dim) }
}

/// Positions of seven axes, and a gripper past them.
pub fn gripping(gripper: Gripper) -> FuseConfig {
    FuseConfig { pos_dim: 7, gripper, ..boxed(8) }
}

/// Everything armed, the position inside the slow zone, limits that some rows exceed.
pub fn all_armed(dim: usize) -> FuseConfig {
    let zones = Zones::of(&[ContactLimit { radius: 5.0, v_max: 4.0, a0: 0, a1: 1 }]);
    FuseConfig { armed: 63, clamp: ClampMode::Project, v_max: 8.0, zones, aux_count: 2, ..boxed(dim) }
}

/// The same with none to four zones, the position inside each of them.
pub fn zoned(dim: usize, count: usize) -> FuseConfig {
    let zones = [(4.0, 0), (5.0, 2), (6.0, 4), (7.0, 6)];
    let zones = zones.map(|(v_max, a0)| ContactLimit { radius: 5.0, v_max, a0, a1: a0 + 1 });
    FuseConfig { zones: Zones::of(&zones[..count]), aux_count: 8, ..all_armed(dim) }
}

/// The same on a round table, beyond which some of the numbers in [0, 1) lie and most of those about the walls.
pub fn round(cfg: FuseConfig) -> FuseConfig {
    FuseConfig { shape: Shape::disc([0.5, 0.5], 0.5), ..cfg }
}

/// What the camera sends: every centre near the position.
pub fn camera(cfg: &FuseConfig) -> Vec<f64> {
    vec![0.5; cfg.aux_count]
}

/// Everything armed, 64 rows of 64 substeps, and a calibration.
pub fn tick() -> FuseConfig {
    let brake = second_order(8).brake;
    FuseConfig { brake, calibrated: true, cal: calibration(), horizon_ticks: 300, ..all_armed(8) }
}

/// A kept chunk one step older than the new one, and a full trail.
pub fn state(data: &[f64]) -> Tier1Rt {
    let mut rt = Tier1Rt { have_prev: true, ..Tier1Rt::NEW };
    rt.prev = ChunkBuf { t_emit: 0, horizon: (data.len() / 8) as u16, dim: 8, filled: true, ..ChunkBuf::NEW };
    rt.prev.data[..data.len()].copy_from_slice(data);
    rt.trail = Trail { len: 32, ..Trail::NEW };
    rt.trail.buf.copy_from_slice(&numbers(256));
    rt
}

/// The eleven features that can be named, in four terms.
pub fn calibration() -> Calibration {
    let terms = [0x007, 0x038, 0x140, 0xe00, 0, 0, 0, 0];
    Calibration { mask: NAMED, n_terms: 4, terms, tau: 3.0, ..Calibration::DISARMED }
}

pub fn scores() -> Scores {
    let mut sc = Scores { valid: NAMED, ..Scores::NEW };
    sc.f.copy_from_slice(&numbers(12));
    sc
}

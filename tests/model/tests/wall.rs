//! The scope document's numbers to keep on the wall, and the edges of its table.

use model::*;

/// A card's configuration: one axis, second-order kind, k_p 2, k_v 1, dt 0.5, 2 substeps, commit 1.
fn card(hi: f64, brake_steps: u16) -> FuseConfig {
    let brake =
        BrakeModel { k_p: 2.0, dt: 0.5, substeps: 2, commit: 1, brake_steps, react: 1, ..FuseConfig::PLAIN.brake };
    FuseConfig { box_lo: [-1.0; 8], box_hi: [hi; 8], norm_center: [1.0; 8], brake, ..FuseConfig::PLAIN }
}

fn forecast(cfg: &FuseConfig, from: usize) -> (Result<BrakeOut, Refusal>, Vec<f64>) {
    let ch = ChunkView { seq: 0, t_emit: 0, horizon: 4, dim: 1, exec_steps: 1, data: &[1.0; 4] };
    let mut slacks = vec![7.0; 6];
    let r = brake::brake_feasible(cfg, &[0.0], &[0.0], ch, from, &mut slacks);
    (r, slacks)
}

fn answered(count: usize, margin: f64, stop_dist: f64) -> Result<BrakeOut, Refusal> {
    Ok(BrakeOut { count, feasible: margin >= 0.0, margin, stop_dist })
}

#[test]
fn the_cards() {
    let kept = |a: [f64; 4]| [a[0], a[1], a[2], a[3], 7.0, 7.0].to_vec();
    assert_eq!(forecast(&card(2.0, 1), 0), (answered(4, 0.75, 1.25), kept([1.5, 1.0, 0.75, 0.75])));
    assert_eq!(forecast(&card(1.0, 1), 0), (answered(4, -0.25, 1.25), kept([0.5, 0.0, -0.25, -0.25])));
    assert_eq!(forecast(&card(1.25, 1), 0).0, answered(4, 0.0, 1.25));
    assert_eq!(forecast(&card(2.0, 0), 1), (answered(0, f64::INFINITY, 0.0), vec![7.0; 6]));
}

#[test]
fn the_roots() {
    assert_eq!(fmath::sqrt(25.0), Ok(5.0));
    assert_eq!(fmath::sqrt(2.0).map(f64::to_bits), Ok(0x3ff6a09e667f3bcd));
    assert_eq!(fmath::sqrt(f64::from_bits(1)), Ok(2f64.powi(-537)));
    assert_eq!(fmath::sqrt(-0.0).map(f64::to_bits), Ok((-0.0f64).to_bits()));
    for x in [-1.0, f64::INFINITY, f64::NAN] {
        assert_eq!(fmath::sqrt(x), Err(Refusal { number: 13, place: 0 }));
    }
}

#[test]
fn the_leash() {
    let mut cfg = card(2.0, 1);
    (cfg.dim, cfg.pos_dim, cfg.v_max, cfg.armed, cfg.clamp) = (2, 2, 5.0, SPEED, ClampMode::Project);
    let tiny = 2f64.powi(-36);
    let mut out = [0.0; 2];
    let far = ChunkView { seq: 0, t_emit: 0, horizon: 1, dim: 2, exec_steps: 1, data: &[6.0, 8.0] };
    let r = tier0::check_chunk(&cfg, &[0.0, 0.0], &[], far, &mut out);
    assert_eq!(r, Ok(Tier0Out { trips: SPEED, clamped_dims: 3, peak_speed: 10.0, low_dims: 0, high_dims: 0 }));
    assert_eq!(out, [3.0 - 3.0 * tiny, 4.0 - 4.0 * tiny]);
    let near = ChunkView { data: &[3.0, 4.0], ..far };
    let r = tier0::check_chunk(&cfg, &[0.0, 0.0], &[], near, &mut out);
    let untouched = Tier0Out { trips: 0, clamped_dims: 0, peak_speed: 5.0, low_dims: 0, high_dims: 0 };
    assert_eq!((r, out), (Ok(untouched), [3.0, 4.0]));
}

#[test]
fn the_window_and_the_gate() {
    let m = window::mask(3).unwrap();
    let bits = [true, false, true, true].iter().fold(0, |b, hit| window::push(b, *hit, m));
    assert_eq!((bits, window::hits(bits)), (3, 2));
    let mut cal = Calibration::DISARMED;
    (cal.mask, cal.n_terms, cal.terms[0], cal.terms[1], cal.tau) = (3, 2, 3, 1, 2.0);
    let mut sc = Scores::NEW;
    (sc.z[0], sc.z[1], sc.valid) = (2.0, 1.0, 3);
    assert_eq!(conformal::aggregate(&cal, &mut sc), Ok(2.0));
    assert_eq!(conformal::trip(&cal, &sc), Ok(false));
    sc.valid = 0;
    assert_eq!(conformal::aggregate(&cal, &mut sc), Ok(f64::NEG_INFINITY));
}

#[test]
fn the_time_bins_and_the_steps() {
    assert_eq!([12, 13, 14, 200].map(|t| conformal::time_bin(t, 200)), [Ok(0), Ok(0), Ok(1), Ok(15)]);
    let mut cfg = card(2.0, 0);
    (cfg.brake.commit, cfg.brake.substeps) = (64, 64);
    assert_eq!(envelope::judge(&cfg), None);
    cfg.brake.brake_steps = 1;
    assert_eq!(envelope::judge(&cfg), Some(3));
}

/// A row's Euler step has the row's place, and its slack is then not written.
#[test]
fn an_euler_step_has_its_rows_place() {
    let mut cfg = card(2.0, 0);
    (cfg.kind, cfg.dt, cfg.v_max) = (ActionKind::JointVelocity, 1e156, 1e-156);
    (cfg.brake.kind, cfg.brake.k_v, cfg.brake.react) = (BrakeKind::FirstOrderDecay, 1e300, 0);
    let ch = ChunkView { seq: 0, t_emit: 0, horizon: 1, dim: 1, exec_steps: 1, data: &[1e153] };
    let mut slacks = [7.0; 2];
    let r = brake::brake_feasible(&cfg, &[0.0], &[0.0], ch, 0, &mut slacks);
    assert_eq!((r, slacks), (Err(Refusal { number: 13, place: 2 }), [1.0, 7.0]));
}

/// What the stop distance computes has the place after the last entry.
#[test]
fn the_stop_distance_has_the_place_after_the_last() {
    let mut cfg = card(2.0, 0);
    cfg.brake.dt = 1.0;
    (cfg.brake.k_p, cfg.brake.substeps) = (1e160, 1);
    assert_eq!(forecast(&cfg, 0).0, Err(Refusal { number: 13, place: 2 }));
    assert_eq!(forecast(&cfg, 0).1[1], 7.0);
}

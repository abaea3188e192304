//! The smallest input for each line of docs/DIFFERENCES.md: what the published Rust answers, and what the documents have
//! the port answer, by its model.

use std::panic::catch_unwind;

use differential::port::{BrakeAction, HoldAction};
use model::*;

const MAX: f64 = f64::MAX;

fn refused<T>(number: u8) -> Result<T, Refusal> {
    refused_at(number, 0)
}

fn refused_at<T>(number: u8, place: usize) -> Result<T, Refusal> {
    Err(Refusal { number, place })
}

/// One axis or more in a box of -1..1, under the old choice, which is the Rust's.
fn boxed(dim: usize) -> FuseConfig {
    let (box_lo, box_hi, absent_camera) = ([-1.0; 8], [1.0; 8], AbsentCamera::NoZone);
    FuseConfig { dim, pos_dim: dim, box_lo, box_hi, absent_camera, ..FuseConfig::PLAIN }
}

fn rows(dim: usize, data: &[f64]) -> ChunkView<'_> {
    let horizon = (data.len() / dim) as u16;
    ChunkView { seq: 0, t_emit: 0, horizon, dim: dim as u16, exec_steps: 0, data }
}

/// Trips of the Rust, and the model's answer without its rows.
fn checked(cfg: &FuseConfig, pos: &[f64], aux: &[f64], ch: ChunkView<'_>) -> (u32, Result<u32, Refusal>) {
    let mut out = [0.0; 65];
    let rust = oracle::check_chunk(cfg, pos, aux, ch, &mut out).trips;
    (rust, tier0::check_chunk(cfg, pos, aux, ch, &mut out).map(|r| r.trips))
}

/// What the Rust finds of an action from position 0, with its first coordinate in the output; the model's answer.
fn checked_action(
    cfg: &FuseConfig,
    aux: &[f64],
    prev: &[f64],
    a: &[f64],
) -> (oracle::rust::tier0::Tier0Out, f64, Result<Tier0Out, Refusal>) {
    let (mut out, mut kept) = ([7.0], [7.0]);
    let rust = oracle::check_action(cfg, &[0.0], aux, prev, a, &mut out);
    let model = tier0::check_action(cfg, &[0.0], aux, prev, a, &mut kept);
    assert!(model.is_ok() || kept == [7.0], "a refusal writes nothing");
    (rust, out[0], model)
}

/// Feasible and margin of the Rust, and the model's answer.
fn forecast(cfg: &FuseConfig, p: &[f64], v: &[f64], ch: ChunkView<'_>) -> (bool, f64, Result<BrakeOut, Refusal>) {
    let (rust, _, _) = oracle::brake_feasible(cfg, p, v, ch, 0);
    (rust.feasible, rust.margin, brake::brake_feasible(cfg, p, v, ch, 0, &mut [0.0; 64]))
}

// ---- the Rust goes on where a number is not finite: fail-open ----

#[test]
fn a_feasible_forecast_with_a_nan_axis() {
    let mut cfg = boxed(2);
    (cfg.brake.k_p, cfg.brake.k_v, cfg.brake.commit) = (MAX, MAX, 1);
    let (feasible, margin, model) = forecast(&cfg, &[0.0, 0.0], &[2.0, 0.0], rows(2, &[2.0, 0.0]));
    assert_eq!((feasible, margin, model), (true, 1.0, refused_at(13, 1)));
}

#[test]
fn a_feasible_forecast_from_a_nan_position() {
    let (feasible, margin, model) = forecast(&boxed(2), &[f64::NAN, 0.0], &[0.0, 0.0], rows(2, &[0.0, 0.0]));
    assert_eq!((feasible, margin, model), (true, f64::INFINITY, refused(12)));
    let mut cfg = boxed(2);
    cfg.brake.commit = 1;
    let (feasible, margin, model) = forecast(&cfg, &[f64::NAN, 0.0], &[0.0, 0.0], rows(2, &[0.0, 0.0]));
    assert_eq!((feasible, margin, model), (true, 1.0, refused(12)));
}

#[test]
fn a_stopping_distance_lost_under_an_infinite_divisor() {
    let mut cfg = boxed(1);
    (cfg.a_max, cfg.brake.kind) = (1e308, BrakeKind::BoundedAccel);
    let v = 1e154;
    (cfg.box_lo[0], cfg.box_hi[0]) = (-0.25, 0.25);
    let (feasible, margin, model) = forecast(&cfg, &[0.0], &[v], rows(1, &[0.0]));
    assert_eq!(v * v / cfg.a_max / 2.0, 0.5, "what the plant still travels");
    assert_eq!((feasible, margin, model), (true, 0.25, refused_at(13, 1)));
}

#[test]
fn a_brake_that_does_not_brake() {
    let cfg = FuseConfig { kind: ActionKind::JointVelocity, a_max: MAX, ..boxed(1) };
    let v = [1e200];
    let mut out = [0.0];
    oracle::brake_action(&cfg, &[], &v, &mut out);
    assert_eq!(out, v, "the speed goes out as it came in, although a_max stops it in one tick");
    assert_eq!(brake::brake_action(&cfg, &[], &v, &[], &mut out), refused(13));
}

#[test]
fn a_brake_to_the_upper_corner() {
    let (cfg, p) = (boxed(1), [f64::NAN]);
    let mut out = [0.0];
    oracle::brake_action(&cfg, &p, &[0.0], &mut out);
    assert_eq!(out, [1.0]);
    assert_eq!(brake::brake_action(&cfg, &p, &[0.0], &[], &mut out), refused(12));
    out = [0.0];
    oracle::hold_action(&cfg, &p, &mut out);
    assert_eq!(out, [1.0]);
    assert_eq!(brake::hold_action(&cfg, &p, &[], &mut out), refused(12));
}

#[test]
fn a_nan_row_that_raises_nothing() {
    let cfg = FuseConfig { armed: 63, ..boxed(1) };
    assert_eq!(checked(&cfg, &[0.0], &[], rows(1, &[f64::NAN; 3])), (0, refused(12)));
}

#[test]
fn a_nan_action_predecessor_or_position_that_raises_nothing() {
    let cfg = FuseConfig { armed: SPEED | REACH, ..boxed(1) };
    let nan = [f64::NAN];
    assert_eq!(checked(&cfg, &nan, &[], rows(1, &[9.0])), (0, refused(12)));
    assert_eq!(checked(&cfg, &[0.0], &[], rows(1, &[9.0])), (SPEED | REACH, Ok(SPEED | REACH)));
    let speed = FuseConfig { armed: SPEED, ..cfg };
    for (prev, a) in [(&nan, &[9.0]), (&[0.0], &nan)] {
        let (rust, _, model) = checked_action(&speed, &[], prev, a);
        assert_eq!((rust.trips, model), (0, refused(12)));
    }
}

#[test]
fn a_slow_zone_around_a_nan() {
    let zones = Zones::of(&[ContactLimit { radius: 1.0, v_max: 1.0, a0: 0, a1: 1 }]);
    let cfg = FuseConfig { armed: CONTACT, zones, aux_count: 2, ..boxed(2) };
    let far = rows(2, &[9.0, 0.0]);
    assert_eq!(checked(&cfg, &[0.0, 0.0], &[f64::NAN, 0.0], far), (0, refused(12)));
    assert_eq!(checked(&cfg, &[0.0, 0.0], &[0.0, 0.0], far), (CONTACT, Ok(CONTACT)));
}

#[test]
fn a_jerk_that_is_not_raised() {
    let cfg = FuseConfig { armed: JERK, ..boxed(1) };
    assert_eq!(checked(&cfg, &[0.0], &[], rows(1, &[1e150, 1e149, 0.0])), (JERK, Ok(JERK)));
    assert_eq!(checked(&cfg, &[0.0], &[], rows(1, &[MAX, MAX / 2.0, 0.0])), (0, refused(13)));
}

#[test]
fn a_slow_zone_that_is_not_seen() {
    let zones = Zones::of(&[ContactLimit { radius: 1e250, v_max: 1.0, a0: 0, a1: 1 }]);
    let cfg = FuseConfig { armed: CONTACT, zones, aux_count: 2, ..boxed(2) };
    let (pos, centre) = ([1e200, 0.0], [0.0, 0.0]);
    assert_eq!(checked(&cfg, &pos, &centre, rows(2, &[1e200, 0.0])), (0, refused(13)));
    assert_eq!(checked(&cfg, &[1e100, 0.0], &centre, rows(2, &[2e100, 0.0])), (CONTACT, Ok(CONTACT)));
}

#[test]
fn a_step_too_long_to_measure() {
    let cfg = FuseConfig { armed: SPEED, clamp: ClampMode::Project, ..boxed(1) };
    let (rust, out, model) = checked_action(&cfg, &[], &[0.0], &[1e200]);
    assert_eq!((rust.trips, rust.peak_speed, out), (SPEED, f64::INFINITY, 0.0), "pulled onto its predecessor");
    assert_eq!(model, refused(13));
}

#[test]
fn a_gate_that_drops_a_nan() {
    let cal = Calibration { mask: 3, n_terms: 1, terms: [3, 0, 0, 0, 0, 0, 0, 0], tau: 1.0, ..Calibration::DISARMED };
    let mut sc = Scores { valid: 3, ..Scores::NEW };
    sc.z[0] = f64::NAN;
    assert_eq!(oracle::aggregate(&cal, &mut sc.clone()), 0.0);
    assert_eq!(conformal::aggregate(&cal, &mut sc), refused(12));
}

/// A gate that asks for one feature, and trips where it is above 0.
fn gated(feature: usize) -> Calibration {
    let bit = 1 << feature;
    Calibration { mask: bit, n_terms: 1, terms: [bit, 0, 0, 0, 0, 0, 0, 0], ..Calibration::DISARMED }
}

#[test]
fn an_external_scalar_that_is_a_nan() {
    let (cfg, ext, cal) = (boxed(1), [f64::NAN], gated(EXT0));
    let mut rust = Scores::NEW;
    oracle::features(&cfg, &mut Tier1Rt::NEW.clone(), &[], &ext, None, &mut rust);
    assert!(rust.f[EXT0].is_nan() && rust.valid == 1 << EXT0);
    oracle::standardise(&cal, 0, &mut rust);
    assert!(oracle::aggregate(&cal, &mut rust).is_nan() && !oracle::trip(&cal, &rust));
    let mut sc = Scores::NEW;
    assert_eq!(tier1::features(&cfg, &mut Tier1Rt::NEW.clone(), &[], &ext, None, &mut sc), refused(12));
    sc.f[EXT0] = f64::NAN;
    assert_eq!(conformal::standardise(&cal, 0, &mut sc), refused(12));
}

#[test]
fn a_score_that_is_a_nan() {
    let sc = Scores { s: f64::NAN, ..Scores::NEW };
    assert!(!oracle::trip(&Calibration::DISARMED, &sc));
    assert_eq!(conformal::trip(&Calibration::DISARMED, &sc), refused(12));
}

// ---- the Rust's other numbers that are not finite ----

#[test]
fn a_brake_right_despite_an_overflow() {
    let cfg = FuseConfig { kind: ActionKind::JointVelocity, a_max: MAX, dt: 2.0, ..boxed(1) };
    let mut out = [7.0];
    oracle::brake_action(&cfg, &[], &[1.0], &mut out);
    assert_eq!(out, [0.0], "an infinite deceleration leaves no speed");
    assert_eq!(brake::brake_action(&cfg, &[], &[1.0], &[], &mut out), refused(13));
}

#[test]
fn a_brake_from_a_nan_speed() {
    let cfg = FuseConfig { kind: ActionKind::JointVelocity, ..boxed(1) };
    let mut out = [7.0];
    oracle::brake_action(&cfg, &[], &[f64::NAN], &mut out);
    assert!(out[0].is_nan());
    assert_eq!(brake::brake_action(&cfg, &[], &[f64::NAN], &[], &mut out), refused(12));
}

#[test]
fn a_nan_in_the_trail() {
    let mut t = Trail::NEW;
    let mut rust = t;
    oracle::trail_push(&mut rust, &[f64::NAN], 1);
    assert!(oracle::net(&rust, 1, 1).is_nan());
    assert_eq!(window::trail_push(&mut t, &[f64::NAN], 1), refused(12));
    assert_eq!(window::net(&rust, 1, 1), refused(12));
}

#[test]
fn a_root_without_a_number() {
    assert!(oracle::sqrt(-1.0).is_nan());
    assert_eq!(fmath::sqrt(-1.0), refused(13));
    assert_eq!(oracle::sqrt(f64::INFINITY), f64::INFINITY);
    assert_eq!(fmath::sqrt(f64::INFINITY), refused(13));
}

#[test]
fn a_norm_of_an_overflow() {
    assert_eq!(oracle::norm(&[1e200], 1), f64::INFINITY);
    assert_eq!(fmath::norm(&[1e200], 1), refused(13));
}

#[test]
fn a_norm_of_a_nan() {
    assert!(oracle::norm(&[f64::NAN], 1).is_nan());
    assert_eq!(fmath::norm(&[f64::NAN], 1), refused(12));
}

#[test]
fn a_score_of_an_overflow() {
    let cal = Calibration { mask: 1, center: [-MAX; 192], ..Calibration::DISARMED };
    let mut sc = Scores { valid: 1, ..Scores::NEW };
    sc.f[0] = MAX;
    let mut rust = sc;
    oracle::standardise(&cal, 0, &mut rust);
    assert_eq!(rust.z[0], f64::INFINITY);
    assert_eq!(conformal::standardise(&cal, 0, &mut sc), refused(13));
}

// ---- formulas ----

/// The Rust's own Stall where it is valid, and the model's answer with its valid bits, after 20 samples or fewer of which all but
/// the newest are 0.
fn stalled(cfg: &FuseConfig, samples: u8, newest: f64) -> (Option<f64>, Result<(f64, u32), Refusal>) {
    let mut rt = Tier1Rt { trail: Trail { len: samples, head: samples, ..Trail::NEW }, ..Tier1Rt::NEW };
    rt.trail.buf[(samples as usize - 1) * MAX_POS] = newest;
    let mut sc = Scores::NEW;
    let model = tier1::features(cfg, &mut rt.clone(), &[], &[], None, &mut sc);
    (oracle::stall(cfg, &rt), model.map(|()| (sc.f[STALL], sc.valid)))
}

#[test]
fn stall_is_not_computed() {
    let path_ineff_alone = Ok((0.0, 1 << PATH_INEFF));
    assert_eq!(stalled(&boxed(1), 20, 0.0), (Some(1.0), path_ineff_alone));
    assert_eq!(stalled(&boxed(1), 19, 0.0), (None, Ok((0.0, 0))));
    // a denominator of 0, an infinite speed, an infinite quotient
    let cases = [(1e20, 1e-308, 0.0, "NaN"), (1e-10, 1e300, 0.0, "1"), (1.0, 1e-308, 1e10, "0")];
    for (dt, scale, newest, stall) in cases {
        let cfg = FuseConfig { dt, norm_scale: [scale; 8], ..boxed(1) };
        oracle::take_raised();
        let (rust, model) = stalled(&cfg, 20, newest);
        assert_eq!(oracle::take_raised(), oracle::FLAGS_READ, "a number on the way that is not finite");
        assert_eq!((rust.map(|x| x.to_string()).as_deref(), model), (Some(stall), path_ineff_alone));
    }
}

#[test]
fn clamp_between_crossed_limits_and_at_a_nan() {
    assert_eq!((oracle::rust::fmath::clamp(5.0, 3.0, 1.0), fmath::clamp(5.0, 3.0, 1.0)), (3.0, 1.0));
    assert_eq!(oracle::rust::fmath::clamp(f64::NAN, 0.0, 1.0), 1.0);
    assert!(fmath::clamp(f64::NAN, 0.0, 1.0).is_nan());
}

/// One axis between -1 and 1, the box alone armed: the Rust says that the axis moved, and the documents at which walls.
#[test]
fn no_side_of_a_wall() {
    let cfg = FuseConfig { armed: WORKSPACE, clamp: ClampMode::Project, ..boxed(1) };
    for (data, due) in [(&[2.0][..], (0, 1)), (&[-2.0], (1, 0)), (&[-2.0, 2.0], (1, 1))] {
        let mut out = [0.0; 2];
        let rust = oracle::check_chunk(&cfg, &[0.0], &[], rows(1, data), &mut out);
        let model = tier0::check_chunk(&cfg, &[0.0], &[], rows(1, data), &mut out).expect("a chunk that is accepted");
        assert_eq!((rust.clamped_dims, model.clamped_dims, (model.low_dims, model.high_dims)), (1, 1, due));
    }
    let (mut rust, mut out) = ([0.0], [0.0]);
    oracle::brake_action(&cfg, &[2.0], &[], &mut rust);
    assert_eq!(brake::brake_action(&cfg, &[2.0], &[], &[], &mut out), Ok(WallMarks { low_dims: 0, high_dims: 1 }));
    assert_eq!((rust, out), ([1.0], [1.0]));
    assert_eq!((oracle::rust::fmath::clamp(2.0, 0.0, 1.0), fmath::clamp_side(2.0, 0.0, 1.0)), (1.0, (1.0, 1)));
}

/// CONTACT alone armed, and a zone in which a step of 1 is allowed.
fn zoned(pos_dim: usize) -> FuseConfig {
    let zones = Zones::of(&[ContactLimit { radius: 1.0, v_max: 1.0, a0: 0, a1: 1 }]);
    FuseConfig { pos_dim, armed: CONTACT, zones, aux_count: 2, clamp: ClampMode::Project, ..boxed(2) }
}

/// What the model and the linked port answer to a chunk, which is one.
fn checked_by_both(cfg: &FuseConfig, pos: &[f64], aux: &[f64], ch: ChunkView<'_>) -> Result<(u32, f64), Refusal> {
    let [model, port] =
        [tier0::check_chunk, differential::linked::port().check_chunk.expect("an entry")].map(|check| {
            let mut out = [0.0; 2];
            check(cfg, pos, aux, ch, &mut out).map(|r| (r.trips, out[0]))
        });
    assert_eq!(model, port);
    port
}

/// A step of 2 from the origin: trips and the row that goes out, of the Rust, and of the port under the old and the new choice.
fn stepped(pos_dim: usize, pos: &[f64], aux: &[f64]) -> [Result<(u32, f64), Refusal>; 3] {
    let (old, ch, mut out) = (zoned(pos_dim), rows(2, &[2.0, 0.0]), [0.0; 2]);
    let new = FuseConfig { absent_camera: AbsentCamera::Slow, ..old };
    let rust = oracle::check_chunk(&old, pos, aux, ch, &mut out).trips;
    [Ok((rust, out[0])), checked_by_both(&old, pos, aux, ch), checked_by_both(&new, pos, aux, ch)]
}

/// The Rust and the old choice have no zone where the camera does not show it or the position has one coordinate; the new one is inside it.
/// Where the zone is seen, and where there is none, the three are one.
#[test]
fn a_zone_that_the_camera_does_not_show() {
    let (slowed, passed) = (Ok((CONTACT, 2.0 * ((1.0 - 1.0 / 68719476736.0) / 2.0))), Ok((0, 2.0)));
    for aux in [&[][..], &[9.0]] {
        assert_eq!(stepped(2, &[0.0; 2], aux), [passed, passed, slowed]);
    }
    assert_eq!(stepped(1, &[0.0], &[9.0; 2]), [passed, passed, slowed]);
    assert_eq!(stepped(2, &[0.0; 2], &[9.0; 2]), [passed; 3]);
    assert_eq!(stepped(2, &[0.0; 2], &[0.0; 2]), [slowed; 3]);
}

/// The step of such a zone is evaluated under the new choice alone: 13 where it is not finite.
#[test]
fn a_step_of_a_zone_that_the_camera_does_not_show() {
    let mut old = FuseConfig { dt: 2.0, ..zoned(2) };
    old.zones.list[0].v_max = MAX;
    let ch = rows(2, &[2.0, 0.0]);
    assert_eq!(checked(&old, &[0.0; 2], &[], ch), (0, Ok(0)));
    assert_eq!(checked_by_both(&old, &[0.0; 2], &[], ch), Ok((0, 2.0)));
    let new = FuseConfig { absent_camera: AbsentCamera::Slow, ..old };
    assert_eq!(checked_by_both(&new, &[0.0; 2], &[], ch), refused(13));
}

/// A step of 2 from inside two zones, in which one of 2 and one of 1 is allowed: the Rust has either alone, and by the first the row passes.
/// The port has both, in either order, and the lesser holds.
#[test]
fn a_second_zone() {
    let (slowed, passed) = (Ok((CONTACT, 2.0 * ((1.0 - 1.0 / 68719476736.0) / 2.0))), Ok((0, 2.0)));
    let (cfg, ch) = (zoned(2), rows(2, &[2.0, 0.0]));
    let slow = cfg.zones.list[0];
    let fast = ContactLimit { v_max: 2.0, a0: 1, a1: 0, ..slow };
    let with = |zones: &[ContactLimit]| FuseConfig { zones: Zones::of(zones), ..zoned(2) };
    for (zone, alone) in [(fast, passed), (slow, slowed)] {
        let mut out = [0.0; 2];
        let rust = oracle::check_chunk(&with(&[zone]), &[0.0; 2], &[0.0; 2], ch, &mut out).trips;
        assert_eq!((Ok((rust, out[0])), checked_by_both(&with(&[zone]), &[0.0; 2], &[0.0; 2], ch)), (alone, alone));
    }
    for both in [[fast, slow], [slow, fast]] {
        assert_eq!(checked_by_both(&with(&both), &[0.0; 2], &[0.0; 2], ch), slowed);
        let asked = catch_unwind(|| oracle::check_chunk(&with(&both), &[0.0; 2], &[0.0; 2], ch, &mut [0.0; 2]));
        assert!(asked.is_err(), "the Rust is not asked with two");
    }
}

/// The corner (1, 1) of a table of radius 1: the Rust has the box round it, in which the corner is, and by the port it is beyond the edge. The
/// forecast and the rows that brake and hold part there, too; on the axes they do not.
#[test]
fn a_corner_that_a_round_table_has_not() {
    let port = differential::linked::port();
    let cfg = FuseConfig { armed: WORKSPACE, clamp: ClampMode::Project, ..boxed(2) };
    let disc = FuseConfig { shape: Shape::disc([0.0; 2], 1.0), ..cfg };
    let pulled = (1.0 - 1.0 / 68719476736.0) / 2f64.sqrt();
    let (corner, edge) = ([1.0, 1.0], [1.0, 0.0]);
    assert_eq!(checked(&cfg, &[0.0; 2], &[], rows(2, &corner)), (0, Ok(0)));
    assert_eq!(checked_by_both(&disc, &[0.0; 2], &[], rows(2, &corner)), Ok((WORKSPACE, pulled)));
    assert_eq!(checked(&cfg, &[0.0; 2], &[], rows(2, &edge)), (0, Ok(0)));
    assert_eq!(checked_by_both(&disc, &[0.0; 2], &[], rows(2, &edge)), Ok((0, 1.0)));

    let closed = |c: &FuseConfig| FuseConfig { brake: BrakeModel { kind: BrakeKind::BoundedAccel, ..c.brake }, ..*c };
    assert_eq!(forecast(&closed(&cfg), &corner, &[0.0; 2], rows(2, &corner)).1, 0.0);
    let (mut rust, mut sent) = ([7.0; 2], [7.0; 2]);
    oracle::hold_action(&cfg, &corner, &mut rust);
    assert_eq!(rust, corner);
    for hold in [brake::hold_action, port.hold_action.expect("an entry")] {
        assert_eq!(hold(&disc, &corner, &[], &mut sent), Ok(WallMarks::default()));
        assert_eq!(sent, [pulled; 2]);
    }
    for feasible in [brake::brake_feasible, port.brake_feasible.expect("an entry")] {
        let told = |p: [f64; 2]| feasible(&closed(&disc), &p, &[0.0; 2], rows(2, &p), 0, &mut [0.0]).map(|r| r.margin);
        assert_eq!([told(corner), told(edge)], [Ok(1.0 - 2f64.sqrt()), Ok(0.0)]);
    }
    assert!(catch_unwind(|| oracle::config(&disc)).is_err(), "the Rust is not asked with a disc");
}

/// A gripper on the second of two axes, past pos_dim, which a command of 1 has closed: the Rust opens it, and so does the port in the Rust's
/// mode, whatever is lent; in the new mode it stays closed. There a last command is judged, for a velocity, too, which opens it all the same.
#[test]
fn a_gripper_that_keeps_its_screw() {
    let port = differential::linked::port();
    let (zeros, closed, nan) = ([0.0; 2], [0.0, 1.0], [f64::NAN, 1.0]);
    let cfg = FuseConfig { dim: 2, ..boxed(1) };
    for kind in [ActionKind::EePosition, ActionKind::EeDelta] {
        let dropped = FuseConfig { kind, ..cfg };
        let kept = FuseConfig { gripper: Gripper::LastCommand, ..dropped };
        let (mut held, mut braked) = ([7.0; 2], [7.0; 2]);
        oracle::hold_action(&dropped, &[], &mut held);
        oracle::brake_action(&dropped, &[], &[], &mut braked);
        assert_eq!([held, braked], [zeros; 2]);
        for (brake, hold) in [
            (brake::brake_action as BrakeAction, brake::hold_action as HoldAction),
            (port.brake_action.expect("an entry"), port.hold_action.expect("an entry")),
        ] {
            let sent = |cfg: &FuseConfig, last: &[f64]| {
                let (mut held, mut braked) = ([7.0; 2], [7.0; 2]);
                let answers = [hold(cfg, &[], last, &mut held), brake(cfg, &[], &[], last, &mut braked)];
                assert_eq!((answers[0], held), (answers[1], braked));
                answers[0].map(|_| held)
            };
            let row = if kind == ActionKind::EeDelta { zeros } else { closed };
            assert_eq!([sent(&dropped, &[]), sent(&dropped, &closed), sent(&dropped, &nan)], [Ok(zeros); 3]);
            assert_eq!(
                [sent(&kept, &closed), sent(&kept, &closed[..1]), sent(&kept, &nan)],
                [Ok(row), refused(11), refused(12)]
            );
        }
        assert!(catch_unwind(|| oracle::config(&kept)).is_err(), "the Rust is not asked in the new mode");
    }
}

/// A box move that a short leash takes back: nothing of it is left in the Rust's answer.
#[test]
fn a_box_move_that_is_taken_back() {
    let cfg = FuseConfig { armed: WORKSPACE | SPEED, clamp: ClampMode::Project, v_max: 1e-20, ..boxed(1) };
    let mut out = [0.0];
    let rust = oracle::check_action(&cfg, &[0.0], &[], &[2.0], &[2.0], &mut out);
    assert_eq!((rust.trips, rust.clamped_dims, out), (WORKSPACE, 0, [2.0]));
    let model = tier0::check_action(&cfg, &[0.0], &[], &[2.0], &[2.0], &mut out).expect("an action that is accepted");
    assert_eq!((model.clamped_dims, model.low_dims, model.high_dims, out), (0, 0, 1, [2.0]));
}

/// One axis in a box of 0..0, with damping alone. The Rust has the substep in a forecast of one row, and there the stop distance, too, which a run
/// does not compute.
#[test]
fn a_run_under_one_setpoint() {
    let mut cfg = FuseConfig { absent_camera: AbsentCamera::NoZone, ..FuseConfig::PLAIN };
    cfg.brake.k_p = 0.0;
    let (mut p, mut v, mut slacks) = ([0.0], [1.0], [7.0; 2]);
    let rust = oracle::run_towards_a_row(&cfg, &[0.0], &p, &v, 1);
    let model = brake::run_towards(&cfg, &[0.0], &mut p, &mut v, 1, &mut slacks);
    assert_eq!((model, p, v, slacks), (Ok(Ran { count: 1, margin: 0.0 }), [0.0], [0.0], [0.0, 7.0]));
    assert_eq!((rust.answer, rust.slacks, rust.place), (Ran { count: 1, margin: 0.0 }, vec![0.0], None));

    (cfg.brake.dt, cfg.brake.commit) = (2.0, 1);
    let (p, v) = ([0.0], [-1e291]);
    let (_, _, place) = oracle::brake_feasible(&cfg, &p, &v, rows(1, &[0.0]), 0);
    let forecast = brake::brake_feasible(&cfg, &p, &v, rows(1, &[0.0]), 0, &mut slacks);
    assert_eq!((place, forecast), (Some(2), refused_at(13, 2)));
    assert!(brake::run_towards(&cfg, &[0.0], &mut p.clone(), &mut v.clone(), 1, &mut slacks).is_ok());
}

#[test]
fn a_zero_on_a_zero_limit() {
    let signs = |clamp: fn(f64, f64, f64) -> f64| {
        let cases = [(0.0, -1.0, -0.0), (-0.0, -1.0, 0.0), (0.0, -0.0, 1.0), (-0.0, 0.0, 1.0)];
        cases.map(|(x, lo, hi)| clamp(x, lo, hi).is_sign_negative())
    };
    assert_eq!(signs(oracle::rust::fmath::clamp), [true, false, false, true], "the sign of the high limit");
    assert_eq!(signs(fmath::clamp), [false, true, false, true], "the sign that came");
}

/// A row of -0.0 in a box of 0..0, which raises nothing: the Rust sends the high wall's 0.0 and says that nothing was moved, by chunk and by
/// action. The port sends the row as it came. So it is with 0.0 on a high wall at -0.0.
#[test]
fn a_calm_row_on_a_zero_wall() {
    let port = differential::linked::port();
    let (armed, clamp, absent_camera) = (WORKSPACE, ClampMode::Project, AbsentCamera::NoZone);
    let cfg = FuseConfig { armed, clamp, absent_camera, ..FuseConfig::PLAIN };
    for (came, wall) in [(-0.0f64, 0.0f64), (0.0, -0.0)] {
        let cfg = FuseConfig { box_hi: [wall; 8], ..cfg };
        let (mut chunk, mut action) = ([7.0], [7.0]);
        let of_chunk = oracle::check_chunk(&cfg, &[0.0], &[], rows(1, &[came]), &mut chunk);
        let of_action = oracle::check_action(&cfg, &[0.0], &[], &[0.0], &[came], &mut action);
        for (rust, went) in [(of_chunk, chunk[0]), (of_action, action[0])] {
            assert_eq!((rust.trips, rust.clamped_dims, went.to_bits()), (0, 0, wall.to_bits()));
        }
        for check in [tier0::check_chunk, port.check_chunk.expect("an entry")] {
            let found = check(&cfg, &[0.0], &[], rows(1, &[came]), &mut chunk).expect("a chunk that is accepted");
            assert_eq!((found.trips, found.clamped_dims, chunk[0].to_bits()), (0, 0, came.to_bits()));
        }
        for check in [tier0::check_action, port.check_action.expect("an entry")] {
            let found = check(&cfg, &[0.0], &[], &[0.0], &[came], &mut action).expect("an action that is accepted");
            assert_eq!((found.trips, found.clamped_dims, action[0].to_bits()), (0, 0, came.to_bits()));
        }
    }
}

// ---- numbers, sizes and shapes ----

#[test]
fn feature_bits_five_to_seven() {
    use oracle::rust::Feat;
    let rust = [Feat::SpeedPeak as usize, Feat::PathIneff as usize, Feat::Stall as usize];
    assert_eq!((rust, [SPEED_PEAK, PATH_INEFF, STALL]), ([7, 5, 6], [5, 6, 7]));
}

#[test]
fn nine_coordinates() {
    assert_eq!(oracle::fill(&mut ChunkBuf::NEW.clone(), 0, 0, 1, 9, 0, &[0.0; 9]), Ok(()));
    assert_eq!(chunk::fill(&mut ChunkBuf::NEW.clone(), 0, 0, 1, 9, 0, &[0.0; 9]), refused(7));
}

#[test]
fn a_fill_with_a_nan() {
    assert_eq!(oracle::fill(&mut ChunkBuf::NEW.clone(), 0, 0, 1, 1, 0, &[f64::NAN]), Ok(()));
    assert_eq!(chunk::fill(&mut ChunkBuf::NEW.clone(), 0, 0, 1, 1, 0, &[f64::NAN]), refused(12));
    let mut buf = ChunkBuf::NEW;
    oracle::copy_from(&mut buf, rows(1, &[f64::NAN]));
    assert!(buf.filled && buf.data[0].is_nan());
    assert_eq!(chunk::copy_from(&mut buf, rows(1, &[f64::NAN])), refused(12));
}

#[test]
fn a_copy_of_a_short_view() {
    let short = ChunkView { horizon: 2, ..rows(1, &[1.0]) };
    let mut buf = ChunkBuf::NEW;
    oracle::copy_from(&mut buf, short);
    assert_eq!((buf.horizon, buf.filled), (2, true));
    assert_eq!(chunk::copy_from(&mut buf, short), refused(9));
}

#[test]
fn a_view_of_no_chunk() {
    let buf = ChunkBuf { seq: 3, ..ChunkBuf::NEW };
    assert!(oracle::view(&buf).is_none());
    let seen = chunk::view(&buf);
    assert_eq!((seen.seq, seen.horizon, seen.dim, seen.data.len()), (3, 0, 0, 0));
}

/// The Rust's sizes are private, but `copy_from` takes any.
#[test]
fn a_held_chunk_larger_than_its_buffer() {
    let buf = ChunkBuf { horizon: 65, dim: 32, filled: true, ..ChunkBuf::NEW };
    assert!(catch_unwind(|| oracle::view(&buf)).is_err());
    let seen = chunk::view(&buf);
    assert_eq!((seen.horizon, seen.dim, seen.data.len()), (65, 32, 0));
    assert!(catch_unwind(|| oracle::fill_row(&mut buf.clone(), 64, 1.0)).is_err());
    assert!(chunk::row_mut(&mut buf.clone(), 64).is_empty());
    let long = ChunkBuf { horizon: 513, dim: 1, ..buf };
    assert_eq!(oracle::fill_row(&mut long.clone(), 512, 1.0), 1, "a row in the Rust's buffer");
    assert!(chunk::row_mut(&mut long.clone(), 512).is_empty());
}

#[test]
fn a_held_chunk_that_does_not_fit() {
    let rt = Tier1Rt { prev: ChunkBuf { dim: 1, filled: true, ..ChunkBuf::NEW }, have_prev: true, ..Tier1Rt::NEW };
    let one = rows(1, &[0.0]);
    let (valid, model) = featured(&boxed(1), &rt, Some(one));
    assert_eq!((valid & 1 << TCE, model), (0, refused(5)));
    assert!(!oracle::reset(&rt).prev.filled);
    assert_eq!(tier1::reset(&mut rt.clone()), refused(5));
}

/// The features that the Rust finds valid without a position, and the model's answer.
fn featured(cfg: &FuseConfig, rt: &Tier1Rt, new: Option<ChunkView<'_>>) -> (u32, Result<(), Refusal>) {
    let mut rust = Scores::NEW;
    oracle::features(cfg, &mut rt.clone(), &[], &[], new, &mut rust);
    (rust.valid, tier1::features(cfg, &mut rt.clone(), &[], &[], new, &mut Scores::NEW.clone()))
}

#[test]
fn a_chunk_of_another_width() {
    let cfg = FuseConfig { armed: WORKSPACE, ..boxed(2) };
    let narrow = rows(1, &[0.0]);
    assert_eq!(checked(&cfg, &[0.0, 0.0], &[], narrow), (0, refused(10)));
    assert_eq!(featured(&cfg, &Tier1Rt::NEW, Some(narrow)), (1 << SPEED_PEAK, refused(10)));
    let (feasible, margin, model) = forecast(&closed(2), &[0.0, 9.0], &[0.0, 0.0], narrow);
    assert_eq!((feasible, margin, model), (true, 1.0, refused(10)), "the second axis is left out");
}

/// A kind that inspects the start.
fn closed(dim: usize) -> FuseConfig {
    let mut cfg = boxed(dim);
    cfg.brake.kind = BrakeKind::BoundedAccel;
    cfg
}

#[test]
fn a_short_position() {
    let cfg = FuseConfig { armed: WORKSPACE, ..boxed(1) };
    assert_eq!(checked(&cfg, &[], &[], rows(1, &[9.0])), (0, refused(11)));
    let (feasible, margin, model) = forecast(&closed(1), &[], &[9.0], rows(1, &[0.0]));
    assert_eq!((feasible, margin, model), (true, f64::INFINITY, refused(11)));
}

#[test]
fn a_short_velocity() {
    let (feasible, margin, model) = forecast(&closed(1), &[9.0], &[], rows(1, &[0.0]));
    assert_eq!((feasible, margin, model), (true, f64::INFINITY, refused(11)));
    let (feasible, margin, _) = forecast(&closed(1), &[9.0], &[0.0], rows(1, &[0.0]));
    assert_eq!((feasible, margin), (false, -8.0));
}

#[test]
fn a_short_predecessor() {
    let cfg = FuseConfig { armed: SPEED, ..boxed(1) };
    let (rust, out, model) = checked_action(&cfg, &[], &[], &[9.0]);
    assert_eq!((rust.trips, out), (0, 7.0), "nothing is checked or written");
    assert_eq!(model, refused(11));
    oracle::brake_action(&cfg, &[0.0], &[0.0], &mut []);
    assert_eq!(brake::brake_action(&cfg, &[0.0], &[0.0], &[], &mut []), refused(11));
    oracle::hold_action(&cfg, &[0.0], &mut []);
    assert_eq!(brake::hold_action(&cfg, &[0.0], &[], &mut []), refused(11));
}

#[test]
fn an_output_for_the_rows_alone() {
    let (cfg, ch) = (boxed(1), ChunkView { seq: 3, ..rows(1, &[0.0]) });
    let mut buf = oracle::rust::ChunkBuf::new();
    let seen = oracle::obs(&[0.0], &[], &[]);
    oracle::rust::tier0::check_chunk(&oracle::config(&cfg), seen, oracle::chunk_view(ch), &mut buf);
    assert_eq!(buf.view().map(|v| v.seq), Some(3));
    assert_eq!(tier0::check_chunk(&cfg, &[0.0], &[], ch, &mut []), refused(11));
}

#[test]
fn a_chunk_that_does_not_fit_its_sizes() {
    let cfg = FuseConfig { armed: WORKSPACE, ..boxed(1) };
    assert_eq!(checked(&cfg, &[0.0], &[], rows(1, &[])), (0, refused(5)));
    assert_eq!(checked(&cfg, &[0.0], &[], ChunkView { exec_steps: 2, ..rows(1, &[9.0]) }), (WORKSPACE, refused(8)));
    assert_eq!(checked(&cfg, &[0.0], &[], ChunkView { horizon: 2, ..rows(1, &[9.0]) }), (WORKSPACE, refused(9)));
    let mut long = [0.0; 65];
    long[64] = 9.0;
    assert_eq!(checked(&cfg, &[0.0], &[], rows(1, &long)), (0, refused(6)), "the last row is not checked");
    assert_eq!(featured(&cfg, &Tier1Rt::NEW, Some(rows(1, &[]))), (0, refused(5)));
    let mut cfg = cfg;
    cfg.brake.commit = 1;
    let (feasible, margin, model) = forecast(&cfg, &[0.0], &[0.0], ChunkView { horizon: 1, ..rows(1, &[]) });
    assert_eq!((feasible, margin, model), (true, 1.0, refused(9)), "a row that is not there moves nothing");
}

#[test]
fn a_nan_that_is_not_read() {
    let cfg = FuseConfig { armed: WORKSPACE, ..boxed(1) };
    assert_eq!(checked(&cfg, &[0.0], &[f64::NAN], rows(1, &[9.0])), (WORKSPACE, refused(12)));
    assert_eq!(checked(&cfg, &[0.0, f64::NAN], &[], rows(1, &[9.0])), (WORKSPACE, refused(12)));
    let (rust, _, model) = checked_action(&cfg, &[], &[0.0, f64::NAN], &[9.0, f64::NAN]);
    assert_eq!((rust.trips, model), (WORKSPACE, refused(12)));
    let (feasible, margin, model) = forecast(&boxed(1), &[0.0], &[0.0, f64::NAN], rows(1, &[f64::NAN]));
    assert_eq!((feasible, margin, model), (true, f64::INFINITY, refused(12)));
    assert_eq!((oracle::norm(&[5.0, f64::NAN], 1), fmath::norm(&[5.0, f64::NAN], 1)), (5.0, refused(12)));
    let mut out = [7.0];
    let velocities = FuseConfig { kind: ActionKind::JointVelocity, ..boxed(1) };
    oracle::hold_action(&velocities, &[f64::NAN], &mut out);
    assert_eq!((out, brake::hold_action(&velocities, &[f64::NAN], &[], &mut out.clone())), ([0.0], refused(12)));
}

#[test]
fn a_nan_score_that_is_not_read() {
    let (cal, mut sc) = (Calibration::DISARMED, Scores { s: f64::NAN, ..Scores::NEW });
    assert_eq!(oracle::aggregate(&cal, &mut sc.clone()), f64::NEG_INFINITY);
    assert_eq!(conformal::aggregate(&cal, &mut sc.clone()), refused(12));
    sc.f[0] = f64::NAN;
    let mut rust = sc;
    oracle::standardise(&cal, 0, &mut rust);
    assert_eq!((rust.z, conformal::standardise(&cal, 0, &mut sc)), ([0.0; NFEAT], refused(12)));
}

#[test]
fn a_nan_that_is_held_and_not_read() {
    let mut trail = Trail::NEW;
    trail.buf[255] = f64::NAN;
    assert_eq!((oracle::net(&trail, 8, 1), window::net(&trail, 8, 1)), (0.0, refused(12)));
    assert_eq!((oracle::path(&trail, 8, 2), window::path(&trail, 8, 2)), (0.0, refused(12)));
    assert_eq!((oracle::trail_len(&trail), window::trail_len(&trail)), ((0, true), refused(12)));
    let mut pushed = trail;
    assert_eq!(window::trail_push(&mut pushed, &[1.0], 1), refused(12));
    oracle::trail_push(&mut pushed, &[1.0], 1);
    assert_eq!((pushed.head, pushed.len), (1, 1));
    assert_eq!(window::trail_clear(&mut pushed), refused(12));
    oracle::trail_clear(&mut pushed);
    assert_eq!((pushed.head, pushed.len), (0, 0));
    let prev = ChunkBuf { data: [f64::NAN; 512], horizon: 1, dim: 1, filled: true, ..ChunkBuf::NEW };
    let held = [f64::NAN; HELD];
    for rt in [Tier1Rt { trail, ..Tier1Rt::NEW }, Tier1Rt { held, ..Tier1Rt::NEW }, Tier1Rt { prev, ..Tier1Rt::NEW }] {
        assert_eq!(featured(&boxed(1), &rt, None), (0, refused(12)));
        assert_eq!(oracle::reset(&rt).held, [0.0; HELD]);
        assert_eq!(tier1::reset(&mut rt.clone()), refused(12));
    }
}

#[test]
fn a_norm_past_its_slice() {
    assert!(catch_unwind(|| oracle::norm(&[], 1)).is_err());
    assert_eq!(fmath::norm(&[], 1), refused(11));
}

#[test]
fn a_trail_out_of_size() {
    let trail = Trail { head: 32, ..Trail::NEW };
    assert!(catch_unwind(|| oracle::trail_push(&mut trail.clone(), &[1.0], 1)).is_err());
    assert_eq!(window::trail_push(&mut trail.clone(), &[1.0], 1), refused(1));
    assert_eq!((oracle::net(&trail, 1, 1), window::net(&trail, 1, 1)), (0.0, refused(1)));
    let trail = Trail { len: 33, ..Trail::NEW };
    assert_eq!((oracle::trail_len(&trail), window::trail_len(&trail)), ((33, false), refused(1)));
}

#[test]
fn a_trail_of_nine_coordinates() {
    let (start, end) = ([0.0; 9], [0.0, 0.0, 0.0, 0.0, 0.0, 0.0, 0.0, 0.0, 1.0]);
    let (mut rust, mut t) = (oracle::rust::window::Trail::new(), Trail::NEW);
    for p in [start, end] {
        rust.push(&p, 9);
        assert_eq!(window::trail_push(&mut t, &p, 9), Ok(()));
    }
    assert_eq!((rust.net(9, 2), window::net(&t, 9, 2)), (1.0, Ok(0.0)));
}

#[test]
fn nine_terms_and_a_bit_above_eleven() {
    let nine = Calibration { n_terms: 9, ..Calibration::DISARMED };
    assert_eq!(oracle::aggregate(&nine, &mut Scores::NEW.clone()), f64::NEG_INFINITY);
    assert_eq!(conformal::aggregate(&nine, &mut Scores::NEW.clone()), refused(1));
    let high = Calibration { mask: 1 << 12, ..Calibration::DISARMED };
    assert_eq!(oracle::aggregate(&high, &mut Scores::NEW.clone()), f64::NEG_INFINITY);
    assert_eq!(conformal::aggregate(&high, &mut Scores::NEW.clone()), refused(1));
}

#[test]
fn a_calibration_that_names_stall() {
    let mask = Calibration { mask: 1 << STALL, ..Calibration::DISARMED };
    let term = Calibration { n_terms: 1, terms: [1 << STALL, 0, 0, 0, 0, 0, 0, 0], ..Calibration::DISARMED };
    for cal in [mask, term] {
        let (mut rust, mut sc) = (Scores::NEW, Scores::NEW);
        oracle::standardise(&cal, 0, &mut rust);
        assert_eq!((oracle::aggregate(&cal, &mut rust), oracle::trip(&cal, &rust)), (f64::NEG_INFINITY, false));
        assert_eq!(conformal::standardise(&cal, 0, &mut sc), refused(17));
        assert_eq!(conformal::aggregate(&cal, &mut sc), refused(17));
        assert_eq!(conformal::trip(&cal, &sc), refused(17));
    }
    let mut rust = Scores { valid: 1 << STALL, ..Scores::NEW };
    rust.f[STALL] = 1.0;
    oracle::standardise(&gated(STALL), 0, &mut rust);
    assert_eq!(oracle::aggregate(&gated(STALL), &mut rust), 1.0, "a feature like another");
    assert_eq!((rust.z[STALL], rust.fired), (1.0, 1 << STALL));
}

#[test]
fn a_scale_of_zero_and_an_infinite_tau() {
    let flat = Calibration { scale: [0.0; 192], mask: 1, ..Calibration::DISARMED };
    let mut sc = Scores { valid: 1, ..Scores::NEW };
    let mut rust = sc;
    oracle::standardise(&flat, 0, &mut rust);
    assert!(rust.z[0].is_nan());
    assert_eq!(conformal::standardise(&flat, 0, &mut sc), refused(2));
    sc.s = 1.0;
    for tau in [f64::INFINITY, f64::NAN] {
        let never = Calibration { tau, ..Calibration::DISARMED };
        assert!(!oracle::trip(&never, &sc));
        assert_eq!(conformal::trip(&never, &sc), refused(2));
    }
}

#[test]
fn a_negative_scale_and_a_center_that_is_a_nan() {
    let mut sc = Scores { valid: 1, ..Scores::NEW };
    sc.f[0] = 3.0;
    let turned = Calibration { scale: [-1.0; 192], ..gated(TCE) };
    let unread = Calibration { center: [f64::NAN; 192], ..Calibration::DISARMED };
    for (cal, z) in [(turned, -3.0), (unread, 0.0)] {
        let mut rust = sc;
        oracle::standardise(&cal, 0, &mut rust);
        assert_eq!((rust.z[0], conformal::standardise(&cal, 0, &mut sc.clone())), (z, refused(2)));
    }
}

/// Each entry judges the whole configuration; the Rust's functions judge none.
#[test]
fn a_configuration_made_by_hand() {
    let crossed = FuseConfig { box_lo: [1.0; 8], box_hi: [-1.0; 8], ..boxed(1) };
    let mut out = [0.0];
    oracle::hold_action(&crossed, &[0.0], &mut out);
    assert_eq!((out, brake::hold_action(&crossed, &[0.0], &[], &mut out.clone())), ([1.0], refused(2)));
    let unread = FuseConfig { j_max: f64::NAN, armed: WORKSPACE, ..boxed(1) };
    assert_eq!(checked(&unread, &[0.0], &[], rows(1, &[9.0])), (WORKSPACE, refused(2)));
    let stalled = FuseConfig { calibrated: true, cal: gated(STALL), horizon_ticks: 1, armed: WORKSPACE, ..boxed(1) };
    assert_eq!(checked(&stalled, &[0.0], &[], rows(1, &[9.0])), (WORKSPACE, refused(17)));
}

/// The first of 200 ticks at which the two are in different bins, and the least input at which they are; asked for the tick
/// before, the Rust is in the port's.
#[test]
fn ticks_numbered_from_one() {
    let rust = |t, horizon_ticks| oracle::rust::bin_of(t, horizon_ticks, BINS as u16);
    assert_eq!((rust(13, 200), conformal::time_bin(13, 200)), (1, Ok(0)));
    assert!((0..13).all(|t| Ok(rust(t, 200)) == conformal::time_bin(t, 200)));
    assert_eq!((rust(1, 1), conformal::time_bin(1, 1)), (15, Ok(0)));
    assert!((1..=400).all(|t| Ok(rust(t - 1, 200)) == conformal::time_bin(t, 200)));
}

#[test]
fn no_ticks_and_a_hundred_bins() {
    assert_eq!(oracle::rust::bin_of(0, 0, BINS as u16), 0);
    assert_eq!(conformal::time_bin(0, 0), refused(3));
    assert_eq!((oracle::rust::T_GRID, BINS), (100, 16));
}

// ---- what `validate` refuses and the port does not ----

/// `compile` refuses what module 4 accepts, and accepts the same with one thing put right.
fn only_the_rust_refuses(bad: FuseConfig, good: FuseConfig) {
    assert_eq!(envelope::judge(&bad), None);
    assert!(oracle::compile(&bad, 1, 1).is_err());
    assert_eq!(envelope::judge(&good), None);
    assert_eq!(oracle::compile(&good, 1, 1).err(), None);
}

/// A configuration that `compile` accepts: the second-order kind with its period kept.
fn compiled() -> FuseConfig {
    let mut cfg = boxed(1);
    cfg.brake.commit = 1;
    cfg
}

#[test]
fn a_box_without_room() {
    only_the_rust_refuses(FuseConfig { box_lo: [1.0; 8], ..compiled() }, compiled());
}

#[test]
fn no_gain_on_position() {
    let mut bad = compiled();
    bad.brake.k_p = 0.0;
    only_the_rust_refuses(bad, compiled());
}

#[test]
fn a_zone_without_radius() {
    let zones = |radius| Zones::of(&[ContactLimit { radius, v_max: 1.0, a0: 0, a1: 1 }]);
    let cfg = |radius| FuseConfig { zones: zones(radius), aux_count: 2, ..compiled() };
    only_the_rust_refuses(cfg(0.0), cfg(1.0));
}

#[test]
fn no_committed_row() {
    let mut bad = compiled();
    bad.brake.commit = 0;
    only_the_rust_refuses(bad, compiled());
}

#[test]
fn unequal_dims() {
    only_the_rust_refuses(FuseConfig { dim: 2, ..compiled() }, FuseConfig { dim: 2, pos_dim: 2, ..compiled() });
}

#[test]
fn substeps_that_do_not_fill_the_period() {
    let mut bad = compiled();
    bad.brake.substeps = 2;
    let mut good = bad;
    good.brake.dt = 0.5;
    only_the_rust_refuses(bad, good);
}

#[test]
fn the_second_order_kind_without_position_actions() {
    for kind in [ActionKind::JointVelocity, ActionKind::EeDelta, ActionKind::Other] {
        only_the_rust_refuses(FuseConfig { kind, ..compiled() }, compiled());
    }
}

#[test]
fn zero_velocity_hold_without_velocity_actions() {
    let mut bad = compiled();
    bad.brake.kind = BrakeKind::ZeroVelocityHold;
    for kind in [ActionKind::EePosition, ActionKind::JointPosition, ActionKind::Other] {
        only_the_rust_refuses(FuseConfig { kind, ..bad }, FuseConfig { kind: ActionKind::EeDelta, ..bad });
    }
}

#[test]
fn contact_armed_without_a_zone() {
    only_the_rust_refuses(FuseConfig { armed: CONTACT, ..compiled() }, compiled());
}

#[test]
fn seventeen_aux_numbers() {
    only_the_rust_refuses(FuseConfig { aux_count: 17, ..compiled() }, FuseConfig { aux_count: 16, ..compiled() });
}

#[test]
fn no_ticks_without_a_calibration() {
    assert_eq!(envelope::judge(&FuseConfig { horizon_ticks: 0, ..compiled() }), None);
    assert!(oracle::compile_with_ticks(&compiled(), 0).is_err());
    assert_eq!(oracle::compile_with_ticks(&compiled(), 1), Ok(()));
}

/// The gate's mask is asked for by `compile`; here any mask of the eleven features that may be named stands beside any terms.
#[test]
fn a_mask_that_is_not_the_gates() {
    let cal = Calibration { mask: 1, ..Calibration::DISARMED };
    assert_eq!(envelope::judge_calibration(&cal), None);
    assert!(oracle::compile_calibrated(&compiled(), &cal).is_err());
    assert_eq!(oracle::compile_calibrated(&compiled(), &Calibration::DISARMED), Ok(()));
}

// ---- what the port refuses and `compile` does not ----

/// Module 4 refuses with this number what `compile` accepts.
fn only_the_port_refuses(cfg: FuseConfig, number: u8) {
    assert_eq!(envelope::judge(&cfg), Some(number));
    assert_eq!(oracle::compile(&cfg, 1, 1).err(), None);
}

#[test]
fn a_derived_number_that_is_not_finite() {
    only_the_port_refuses(FuseConfig { norm_scale: [5e-324; 8], ..compiled() }, 2);
}

#[test]
fn sixty_five_substeps() {
    let mut cfg = compiled();
    (cfg.brake.substeps, cfg.brake.dt) = (65, 1.0 / 65.0);
    only_the_port_refuses(cfg, 3);
}

#[test]
fn more_than_4096_substeps_in_all() {
    let mut cfg = compiled();
    cfg.brake.brake_steps = 4096;
    only_the_port_refuses(cfg, 3);
}

#[test]
fn a_zone_with_one_channel_twice() {
    let zones = Zones::of(&[ContactLimit { radius: 1.0, v_max: 1.0, a0: 0, a1: 0 }]);
    only_the_port_refuses(FuseConfig { zones, aux_count: 1, ..compiled() }, 4);
}

#[test]
fn a_calibration_out_of_size_or_range() {
    let nine = Calibration { n_terms: 9, ..Calibration::DISARMED };
    let flat = Calibration { scale: [0.0; 192], ..Calibration::DISARMED };
    let unknown = Calibration { center: [f64::NAN; 192], ..Calibration::DISARMED };
    let never = Calibration { tau: f64::INFINITY, ..Calibration::DISARMED };
    for (cal, number) in [(nine, 1), (gated(12), 1), (flat, 2), (unknown, 2), (never, 2), (gated(STALL), 17)] {
        assert_eq!(envelope::judge_calibration(&cal), Some(number));
        assert_eq!(oracle::compile_calibrated(&compiled(), &cal), Ok(()));
    }
}

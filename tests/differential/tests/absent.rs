//! A camera that does not show the zone, and a position too short to measure from: the linked checks and the model at cases that are written
//! by hand, under both choices.

use differential::{linked, port::Port};
use model::*;

/// The checks of both sides, by name.
fn sides() -> [(&'static str, Port); 2] {
    let (check_chunk, check_action) = (Some(tier0::check_chunk as _), Some(tier0::check_action as _));
    [("the model", Port { check_chunk, check_action, ..Port::default() }), ("the port", linked::port())]
}

const SLOW: AbsentCamera = AbsentCamera::Slow;
const NO_ZONE: AbsentCamera = AbsentCamera::NoZone;
const TINY: f64 = f64::from_bits(1);

/// Two axes with CONTACT alone armed, and a zone of radius 3 in which a step of 2 is allowed.
fn zoned(absent_camera: AbsentCamera, a0: u8, a1: u8) -> FuseConfig {
    let zones = Zones::of(&[ContactLimit { radius: 3.0, v_max: 4.0, a0, a1 }]);
    let (aux_count, clamp, dt) = (256, ClampMode::Project, 0.5);
    FuseConfig { dim: 2, pos_dim: 2, dt, armed: CONTACT, zones, aux_count, clamp, absent_camera, ..FuseConfig::PLAIN }
}

/// The zone of a configuration that has one.
fn with_zone(cfg: FuseConfig, change: impl Fn(&mut ContactLimit)) -> FuseConfig {
    let mut zones = cfg.zones;
    change(zones.counted_mut().first_mut().expect("a zone is configured"));
    FuseConfig { zones, ..cfg }
}

/// Trips and the row that goes out, from the origin to a point, by a chunk and by an action on both sides; a refusal leaves the output.
fn stepped(cfg: &FuseConfig, pos: &[f64], aux: &[f64], to: [f64; 2]) -> Result<(u32, [f64; 2]), u8> {
    let view = ChunkView { seq: 0, t_emit: 0, horizon: 1, dim: 2, exec_steps: 0, data: &to };
    let answers = sides().map(|(_, port)| {
        let (mut rows, mut out) = ([7.0; 2], [7.0; 2]);
        let chunk = port.check_chunk.expect("an entry")(cfg, pos, aux, view, &mut rows);
        let action = port.check_action.expect("an entry")(cfg, pos, aux, &[0.0; 2], &to, &mut out);
        assert_eq!((chunk, rows), (action, out), "a chunk of one row from the origin is an action");
        assert!(action.is_ok() || out == [7.0; 2], "a refusal writes nothing");
        action.map(|r| (r.trips, out)).map_err(|r| r.number)
    });
    assert_eq!(answers[0], answers[1], "the model and the port: {cfg:?}, {pos:?}, {aux:?}");
    answers[0]
}

/// A step of 3 inside the zone: it trips, and is shortened to just below 2.
fn slowed() -> Result<(u32, [f64; 2]), u8> {
    Ok((CONTACT, [3.0 * (2.0 * (1.0 - 1.0 / 68719476736.0) / 3.0), 0.0]))
}

/// The same step where there is no zone.
fn passed() -> Result<(u32, [f64; 2]), u8> {
    Ok((0, [3.0, 0.0]))
}

const STEP: [f64; 2] = [3.0, 0.0];

/// From none to more than long enough, for channels in either order, next to one another and not, and the last ones that there are.
#[test]
fn every_length_of_a_message() {
    for (a0, a1) in [(0, 1), (1, 0), (0, 2), (2, 0), (1, 3), (3, 1), (4, 0), (254, 255), (255, 3)] {
        let enough = a0.max(a1) as usize + 1;
        for length in 0..enough + 3 {
            let (far, near) = (vec![9.0; length], vec![0.0; length]);
            let seen = length >= enough;
            let at = |choice, aux: &[f64]| stepped(&zoned(choice, a0, a1), &[0.0; 2], aux, STEP);
            let case = format!("{length} numbers for channels {a0} and {a1}");
            assert_eq!(at(SLOW, &far), if seen { passed() } else { slowed() }, "{case}");
            assert_eq!(at(SLOW, &near), slowed(), "{case}");
            assert_eq!(at(NO_ZONE, &far), passed(), "{case}");
            assert_eq!(at(NO_ZONE, &near), if seen { slowed() } else { passed() }, "{case}");
        }
    }
}

/// The lent length counts, whatever pos_dim is; what is below pos_dim is 11.
#[test]
fn every_length_of_a_position() {
    for (choice, unseen) in [(SLOW, slowed()), (NO_ZONE, passed())] {
        let (one, two) = (FuseConfig { pos_dim: 1, ..zoned(choice, 0, 1) }, zoned(choice, 0, 1));
        for (aux, seen) in [(&[9.0; 2][..], passed()), (&[0.0; 2], slowed()), (&[9.0], unseen), (&[], unseen)] {
            let from = |cfg: &FuseConfig, n: usize| stepped(cfg, &[0.0; 4][..n], aux, STEP);
            assert_eq!([from(&one, 0), from(&one, 1), from(&one, 2), from(&one, 3)], [Err(11), unseen, seen, seen]);
            assert_eq!([from(&two, 0), from(&two, 1), from(&two, 2), from(&two, 3)], [Err(11), Err(11), seen, seen]);
        }
    }
}

/// A step on the zone's own, and one step of a number to either side.
#[test]
fn a_step_on_the_limit() {
    for (x, trips) in [(2f64.next_down(), 0), (2.0, 0), (2f64.next_up(), CONTACT)] {
        let to = |choice| stepped(&zoned(choice, 0, 1), &[0.0; 2], &[], [x, 0.0]).map(|(trips, _)| trips);
        assert_eq!((to(SLOW), to(NO_ZONE)), (Ok(trips), Ok(0)));
    }
}

/// A configuration without a zone and one that does not arm CONTACT are slow nowhere.
#[test]
fn no_zone_and_not_armed() {
    for choice in [SLOW, NO_ZONE] {
        let zone = zoned(choice, 0, 1);
        for aux in [&[][..], &[0.0], &[0.0; 2], &[9.0; 3]] {
            assert_eq!(stepped(&FuseConfig { zones: Zones::NONE, ..zone }, &[0.0; 2], aux, STEP), passed());
            assert_eq!(stepped(&FuseConfig { zones: Zones::NONE, pos_dim: 1, ..zone }, &[0.0], aux, STEP), passed());
            for armed in [0, WORKSPACE | ACCEL | JERK, !CONTACT & !SPEED & !REACH] {
                let wide = FuseConfig { box_lo: [-9.0; 8], box_hi: [9.0; 8], armed, ..zone };
                assert_eq!(stepped(&wide, &[0.0; 2], aux, STEP), passed());
                assert_eq!(stepped(&FuseConfig { pos_dim: 1, ..wide }, &[0.0], aux, STEP), passed());
            }
        }
    }
}

/// Nothing else is moved by the choice: under ClampMode Off the row goes out as it came, and beside a shorter leash of SPEED the zone's is
/// not the least.
#[test]
fn beside_clamp_off_and_speed() {
    let off = FuseConfig { clamp: ClampMode::Off, ..zoned(SLOW, 0, 1) };
    assert_eq!(stepped(&off, &[0.0; 2], &[], STEP), Ok((CONTACT, STEP)));
    let fast = |v_max| FuseConfig { armed: CONTACT | SPEED, v_max, ..zoned(SLOW, 0, 1) };
    let least = |v_max| stepped(&fast(v_max), &[0.0; 2], &[], STEP);
    assert_eq!(least(8.0), slowed(), "a step of 4 is no limit here");
    let (trips, out) = least(2.0).expect("accepted");
    assert_eq!(trips, CONTACT | SPEED);
    assert!(out[0] < 1.0 && out[0] > 0.99);
}

/// The zone's speed times dt is evaluated for a zone that counts as one the arm is in, and 13 where it is not finite; its distance is not.
#[test]
fn what_is_computed() {
    let fast = |choice, armed| with_zone(FuseConfig { armed, dt: 2.0, ..zoned(choice, 0, 1) }, |z| z.v_max = f64::MAX);
    for aux in [&[][..], &[0.0]] {
        let at = |choice, armed| stepped(&fast(choice, armed), &[0.0; 2], aux, STEP);
        assert_eq!([at(SLOW, CONTACT), at(SLOW, 0), at(NO_ZONE, CONTACT)], [Err(13), passed(), passed()]);
    }
    let half = with_zone(fast(SLOW, CONTACT), |z| z.v_max = f64::MAX / 2.0);
    assert_eq!(stepped(&half, &[0.0; 2], &[], STEP), passed(), "the largest step");
    assert_eq!(
        stepped(&fast(NO_ZONE, CONTACT), &[0.0; 2], &[0.0; 2], STEP),
        Err(13),
        "a zone that is seen, under either"
    );
    assert_eq!(stepped(&fast(NO_ZONE, CONTACT), &[0.0; 2], &[9.0; 2], STEP), passed());
    for (choice, unseen) in [(SLOW, slowed()), (NO_ZONE, passed())] {
        let one = FuseConfig { pos_dim: 1, ..zoned(choice, 0, 1) };
        let at = |pos: &[f64], aux: &[f64]| stepped(&one, pos, aux, STEP);
        assert_eq!([at(&[0.0; 2], &[1e200, 0.0]), at(&[0.0, 1e200], &[0.0; 2])], [Err(13); 2]);
        assert_eq!([at(&[0.0; 2], &[1e200]), at(&[0.0, 1e200], &[0.0])], [unseen; 2]);
        assert_eq!([at(&[0.0], &[1e200, 0.0]), at(&[0.0], &[0.0, 1e200])], [unseen; 2]);
    }
}

/// All of aux is judged, and before anything is computed.
#[test]
fn a_number_that_is_not_finite() {
    for choice in [SLOW, NO_ZONE] {
        for bad in [f64::NAN, f64::INFINITY, f64::NEG_INFINITY] {
            let fast = with_zone(FuseConfig { dt: 2.0, ..zoned(choice, 1, 2) }, |z| z.v_max = f64::MAX);
            for aux in [&[bad][..], &[0.0, bad], &[bad, 0.0], &[0.0, 0.0, 0.0, bad]] {
                assert_eq!(stepped(&fast, &[0.0; 2], aux, STEP), Err(12));
                assert_eq!(stepped(&FuseConfig { pos_dim: 1, ..fast }, &[0.0], aux, STEP), Err(12));
            }
        }
    }
}

/// A zone is judged whether or not it is seen, under either choice.
#[test]
fn a_zone_that_is_refused() {
    for choice in [SLOW, NO_ZONE] {
        let zone = zoned(choice, 0, 1);
        let refused = |cfg: FuseConfig, number: u8| assert_eq!(stepped(&cfg, &[0.0; 2], &[], STEP), Err(number));
        refused(with_zone(zone, |z| z.v_max = 0.0), 2);
        refused(with_zone(zone, |z| z.radius = -TINY), 2);
        refused(with_zone(zone, |z| z.a1 = 0), 4);
        refused(FuseConfig { aux_count: 1, ..zone }, 4);
        assert_eq!(stepped(&with_zone(zone, |z| z.radius = 0.0), &[0.0; 2], &[0.0; 2], STEP), slowed());
    }
}

/// Every row of a chunk is held to the zone's step, from the position through each row before.
#[test]
fn every_row_of_a_chunk() {
    let data = [1.0, 0.0, 4.0, 0.0, 4.0, 1.0];
    let view = ChunkView { seq: 0, t_emit: 0, horizon: 3, dim: 2, exec_steps: 0, data: &data };
    for (side, port) in sides() {
        let check = port.check_chunk.expect("an entry");
        let mut out = [7.0; 6];
        let slow = check(&zoned(SLOW, 0, 1), &[0.0; 2], &[0.0], view, &mut out).expect(side);
        assert_eq!((slow.trips, slow.clamped_dims, slow.peak_speed), (CONTACT, 0b01, 6.0), "{side}");
        assert_eq!((&out[..2], &out[4..]), (&data[..2], &data[4..]), "{side}: rows that are near enough");
        assert!(out[2] < 3.0 && 2.99 < out[2] && out[3] == 0.0, "{side}: the second is pulled to the first");
        let none = check(&zoned(NO_ZONE, 0, 1), &[0.0; 2], &[0.0], view, &mut out).expect(side);
        assert_eq!((none.trips, none.clamped_dims, none.peak_speed, out), (0, 0, 6.0, data), "{side}");
    }
}

//! Several slow zones of one arm: the linked checks and the model at cases that are written by hand, and the exported functions themselves,
//! to which what stands past the count comes as it is.

use differential::{
    entries::tier0::{check_action_with_several_zones, check_chunk_with_several_zones, CheckActionIn, CheckChunkIn},
    exported, linked,
    port::{CheckAction, CheckChunk, Port},
};
use model::*;

/// The checks of both sides, by name.
fn sides() -> [(&'static str, Port); 2] {
    let (check_chunk, check_action) = (Some(tier0::check_chunk as _), Some(tier0::check_action as _));
    [("the model", Port { check_chunk, check_action, ..Port::default() }), ("the port", linked::port())]
}

const SLOW: AbsentCamera = AbsentCamera::Slow;
const NO_ZONE: AbsentCamera = AbsentCamera::NoZone;

/// A zone of radius 3 in which a step is allowed, with dt 0.5.
fn zone(step: f64, a0: u8, a1: u8) -> ContactLimit {
    ContactLimit { radius: 3.0, v_max: 2.0 * step, a0, a1 }
}

/// Two axes with CONTACT alone armed, and zones on channels of a camera that declares sixteen.
fn zoned(zones: &[ContactLimit]) -> FuseConfig {
    let (zones, aux_count, clamp, dt) = (Zones::of(zones), 16, ClampMode::Project, 0.5);
    FuseConfig { dim: 2, pos_dim: 2, dt, armed: CONTACT, zones, aux_count, clamp, ..FuseConfig::PLAIN }
}

fn under(absent_camera: AbsentCamera, cfg: &FuseConfig) -> FuseConfig {
    FuseConfig { absent_camera, ..*cfg }
}

/// Four zones, each on two channels of its own, with these steps.
fn four(steps: [f64; 4]) -> [ContactLimit; 4] {
    let [a, b, c, d] = steps;
    [zone(a, 0, 1), zone(b, 2, 3), zone(c, 4, 5), zone(d, 6, 7)]
}

/// A message that has those four centres: at the arm for a set of them, and far away for the others.
fn message(inside: usize) -> Vec<f64> {
    (0..8).map(|channel| if inside >> (channel / 2) & 1 == 1 { 0.0 } else { 9.0 }).collect()
}

/// Trips and the row that goes out, from the origin to a point, by a chunk and by an action on both sides; a refusal leaves the output.
fn stepped_from(cfg: &FuseConfig, pos: &[f64], aux: &[f64], to: [f64; 2]) -> Result<(u32, [f64; 2]), u8> {
    let view = ChunkView { seq: 0, t_emit: 0, horizon: 1, dim: 2, exec_steps: 0, data: &to };
    let answers = sides().map(|(_, port)| {
        let (mut rows, mut out) = ([7.0; 2], [7.0; 2]);
        let chunk = port.check_chunk.expect("an entry")(cfg, pos, aux, view, &mut rows);
        let before = if pos.len() < 2 { [0.0; 2] } else { [pos[0], pos[1]] };
        let action = port.check_action.expect("an entry")(cfg, pos, aux, &before, &to, &mut out);
        assert_eq!((chunk, rows), (action, out), "a chunk of one row from the position is an action");
        assert!(action.is_ok() || out == [7.0; 2], "a refusal writes nothing");
        action.map(|r| (r.trips, out)).map_err(|r| r.number)
    });
    assert_eq!(answers[0], answers[1], "the model and the port: {cfg:?}, {pos:?}, {aux:?}");
    answers[0]
}

fn stepped(cfg: &FuseConfig, aux: &[f64], x: f64) -> Result<(u32, [f64; 2]), u8> {
    stepped_from(cfg, &[0.0; 2], aux, [x, 0.0])
}

/// A step of 9 that trips CONTACT, and is shortened to just below this one.
fn slowed(step: f64) -> Result<(u32, [f64; 2]), u8> {
    Ok((CONTACT, [9.0 * (step * (1.0 - 1.0 / 68719476736.0) / 9.0), 0.0]))
}

fn passed() -> Result<(u32, [f64; 2]), u8> {
    Ok((0, [9.0, 0.0]))
}

/// The steps 1 to 4 in each of their 24 orders.
fn orders() -> Vec<[f64; 4]> {
    let fours = (0u8..=255).map(|n| [n & 3, n >> 2 & 3, n >> 4 & 3, n >> 6]);
    let all_differ = |four: &[u8; 4]| (0..4).all(|step| four.contains(&step));
    fours.filter(all_differ).map(|four| four.map(|step| f64::from(step + 1))).collect()
}

/// Every count and every set of zones that the arm is inside: the least step of those that are counted, neither the first nor the last one's.
#[test]
fn the_least_step_of_those_that_the_arm_is_inside() {
    assert_eq!(orders().len(), 24);
    for (steps, count) in orders().into_iter().flat_map(|steps| (0..=4).map(move |count| (steps, count))) {
        let cfg = zoned(&four(steps)[..count]);
        for inside in 0..16 {
            let least = (0..count).filter(|k| inside >> k & 1 == 1).map(|k| steps[k]).reduce(f64::min);
            assert_eq!(stepped(&cfg, &message(inside), 9.0), least.map_or(passed(), slowed), "{inside:04b} {cfg:?}");
        }
    }
}

/// A step on the least one is no trip, and the next number is; the steps of the other zones are not exceeded by it.
#[test]
fn a_step_on_the_limit_of_any_zone() {
    for (k, x) in (0..4).flat_map(|k| [2f64.next_down(), 2.0, 2f64.next_up()].map(|x| (k, x))) {
        let mut steps = [4.0; 4];
        steps[k] = 2.0;
        let trips = stepped(&zoned(&four(steps)), &message(0b1111), x).map(|(trips, _)| trips);
        assert_eq!(trips, Ok(if x > 2.0 { CONTACT } else { 0 }), "zone {k}, step {x}");
    }
}

/// The radius of each zone is its own: on it the arm is inside, and the next number away outside.
#[test]
fn an_arm_on_the_edge_of_any_zone() {
    for k in 0..4 {
        let mut zones = four([1.0; 4]);
        (0..4).for_each(|i| zones[i].radius = [1.0, 2.0, 4.0, 0.5][i]);
        let radius = zones[k].radius;
        for (x, due) in [(radius.next_down(), slowed(1.0)), (radius, slowed(1.0)), (radius.next_up(), passed())] {
            let mut aux = message(0);
            (aux[2 * k], aux[2 * k + 1]) = (0.0, -x);
            assert_eq!(stepped(&zoned(&zones), &aux, 9.0), due, "zone {k} at {x}");
        }
    }
}

/// The same two channels in either order are two zones with two centres.
#[test]
fn zones_on_swapped_channels() {
    let cfg = zoned(&[zone(2.0, 0, 1), zone(1.0, 1, 0)]);
    let aux = [8.0, 0.0];
    let to = |pos: [f64; 2]| {
        stepped_from(&cfg, &pos, &aux, [pos[0] + 9.0, pos[1]]).map(|(trips, out)| (trips, (out[0] - pos[0]).round()))
    };
    assert_eq!(to([8.0, 0.0]), Ok((CONTACT, 2.0)), "the first one's centre");
    assert_eq!(to([0.0, 8.0]), Ok((CONTACT, 1.0)), "the second one's");
    assert_eq!([to([8.0, 8.0]), to([0.0, 0.0])], [Ok((0, 9.0)); 2]);
}

/// Radii that overlap: the arm is inside one, both or neither.
#[test]
fn overlapping_radii() {
    let cfg = zoned(&[zone(2.0, 0, 1), zone(1.0, 2, 3)]);
    // centres at -2 and 2, and a radius of 3 each
    let aux = [-2.0, 0.0, 2.0, 0.0];
    for (x, left) in [(-6.0, 9.0), (-3.0, 2.0), (-1.5, 2.0), (0.0, 1.0), (1.0, 1.0), (3.0, 1.0), (6.0, 9.0)] {
        let out = stepped_from(&cfg, &[x, 0.0], &aux, [x, 9.0]).map(|(_, out)| out[1].round());
        assert_eq!(out, Ok(left), "at {x}");
    }
}

/// A message of every length, for zones whose channels stand in another order than the zones: each is seen or not by its own.
#[test]
fn a_message_that_shows_some_zones() {
    let zones = [zone(4.0, 6, 7), zone(3.0, 0, 1), zone(2.0, 5, 2), zone(1.0, 3, 4)];
    let needs = [8, 2, 6, 5];
    for (length, count) in (0..10).flat_map(|length| (0..=4).map(move |count| (length, count))) {
        let cfg = zoned(&zones[..count]);
        let least = |such: &dyn Fn(usize) -> bool| {
            let steps = (0..count).filter(|k| such(needs[*k])).map(|k| 4.0 - k as f64);
            steps.reduce(f64::min).map_or(passed(), slowed)
        };
        let at = |choice, aux: &[f64]| stepped(&under(choice, &cfg), aux, 9.0);
        let (far, near) = (vec![9.0; length], vec![0.0; length]);
        assert_eq!(at(SLOW, &far), least(&|need| length < need), "{length} numbers for {count}");
        assert_eq!(at(NO_ZONE, &far), passed(), "{length} numbers for {count}");
        assert_eq!(at(SLOW, &near), least(&|_| true), "{length} numbers for {count}");
        assert_eq!(at(NO_ZONE, &near), least(&|need| length >= need), "{length} numbers for {count}");
    }
}

/// One coordinate is too few for every zone.
#[test]
fn a_position_too_short_for_all() {
    let cfg = FuseConfig { pos_dim: 1, ..zoned(&four([3.0, 1.0, 2.0, 4.0])) };
    let at =
        |choice, pos: &[f64]| stepped_from(&under(choice, &cfg), pos, &message(0), [9.0, 0.0]).map(|(trips, _)| trips);
    assert_eq!([at(SLOW, &[0.0]), at(NO_ZONE, &[0.0])], [Ok(CONTACT), Ok(0)]);
    assert_eq!([at(SLOW, &[0.0; 2]), at(NO_ZONE, &[0.0; 2])], [Ok(0); 2], "two that are lent are enough");
}

/// SPEED's step is one of those that the least is taken of, wherever it stands among the zones'.
#[test]
fn the_leash_beside_speed() {
    for (v_max, step) in [(1.0, 0.5), (2.5, 1.25), (6.0, 1.5), (40.0, 1.5)] {
        let cfg = FuseConfig { armed: CONTACT | SPEED, v_max, ..zoned(&four([2.0, 1.5, 3.0, 1.0])[..3]) };
        let (trips, out) = stepped(&cfg, &message(0b111), 9.0).expect("accepted");
        assert_eq!(trips, CONTACT | if v_max < 18.0 { SPEED } else { 0 });
        assert!(out[0] < step && step - out[0] < 1e-9, "{} for {step}", out[0]);
        let outside = stepped(&cfg, &message(0), 9.0).expect("accepted");
        assert_eq!(outside.0, if v_max < 18.0 { SPEED } else { 0 });
    }
}

/// 13 from the distance of any zone that is seen, before, between and after zones that decide by themselves.
#[test]
fn a_distance_that_is_not_finite() {
    for (k, count) in (0..4).flat_map(|k| (0..=4).map(move |count| (k, count))) {
        let cfg = zoned(&four([1.0; 4])[..count]);
        for inside in [0b0000, 0b1111] {
            let mut aux = message(inside);
            aux[2 * k + 1] = -1e200;
            let others = if inside != 0 && count > 0 { slowed(1.0) } else { passed() };
            let due = if k < count { Err(13) } else { others };
            assert_eq!(stepped(&cfg, &aux, 9.0), due, "zone {k} of {count}, inside {inside:04b}");
            assert_eq!(
                stepped(&FuseConfig { armed: SPEED | REACH, v_max: 99.0, reach_max: 99.0, ..cfg }, &aux, 9.0),
                passed()
            );
            // a message that ends before that number: the zone is not seen, and its distance not computed
            aux.truncate(2 * k + 1);
            assert!(stepped(&cfg, &aux, 9.0).is_ok());
        }
    }
}

/// 13 from the step of any zone that the arm is inside, seen or by the choice, and of none that it is outside.
#[test]
fn a_step_that_is_not_finite() {
    for (k, count) in (0..4).flat_map(|k| (0..=4).map(move |count| (k, count))) {
        let mut zones = four([1.0; 4]);
        zones[k].v_max = f64::MAX;
        let cfg = FuseConfig { dt: 2.0, ..zoned(&zones[..count]) };
        let number = |choice, aux: &[f64]| stepped(&under(choice, &cfg), aux, 9.0).err();
        let due = (k < count).then_some(13);
        for choice in [SLOW, NO_ZONE] {
            assert_eq!(number(choice, &message(0b1111)), due, "zone {k} of {count}");
            assert_eq!(number(choice, &message(1 << k)), due, "zone {k} of {count}");
            assert_eq!(number(choice, &message(0b1111 & !(1 << k))), None, "zone {k} of {count}");
        }
        let short = &message(0)[..2 * k];
        assert_eq!((number(SLOW, short), number(NO_ZONE, short)), (due, None), "zone {k} of {count}");
        zones[k].v_max = f64::MAX / 2.0;
        let most = FuseConfig { dt: 2.0, ..zoned(&zones[..count]) };
        assert!(stepped(&most, &message(0b1111), 9.0).is_ok(), "the largest step");
    }
}

/// No zone is slow where CONTACT is not armed, or none is counted.
#[test]
fn not_armed_and_none_counted() {
    for (armed, choice) in [0, SPEED | REACH | ACCEL | JERK].into_iter().flat_map(|a| [(a, SLOW), (a, NO_ZONE)]) {
        let wide = FuseConfig { v_max: 99.0, a_max: 99.0, j_max: 999.0, reach_max: 99.0, ..zoned(&four([1.0; 4])) };
        let cfg = FuseConfig { armed, absent_camera: choice, ..wide };
        let none = FuseConfig { armed: armed | CONTACT, zones: Zones { count: 0, ..cfg.zones }, ..cfg };
        for aux in [message(0b1111), message(0), vec![]] {
            assert_eq!([stepped(&cfg, &aux, 9.0), stepped(&none, &aux, 9.0)], [passed(); 2]);
        }
    }
}

/// A configuration that is refused, by both sides and both checks, armed or not.
#[test]
fn zones_that_are_refused() {
    for (armed, k) in [0, CONTACT].into_iter().flat_map(|armed| (0..4).map(move |k| (armed, k))) {
        let with = |change: fn(&mut ContactLimit)| {
            let mut zones = four([1.0; 4]);
            change(&mut zones[k]);
            stepped(&FuseConfig { armed, ..zoned(&zones) }, &[], 0.5).err()
        };
        assert_eq!(with(|_| ()), None);
        assert_eq!(
            [with(|z| z.v_max = 0.0), with(|z| z.radius = -5e-324), with(|z| z.radius = f64::NAN)],
            [Some(2); 3]
        );
        assert_eq!([with(|z| z.a1 = z.a0), with(|z| z.a0 = 16), with(|z| z.a1 = 255)], [Some(4); 3]);
        for other in (0..4).filter(|other| *other != k) {
            let mut zones = four([1.0, 2.0, 3.0, 4.0]);
            (zones[k].a0, zones[k].a1) = (zones[other].a0, zones[other].a1);
            assert_eq!(stepped(&FuseConfig { armed, ..zoned(&zones) }, &[], 0.5), Err(4), "{k} as {other}");
            (zones[k].a0, zones[k].a1) = (zones[other].a1, zones[other].a0);
            assert!(stepped(&FuseConfig { armed, ..zoned(&zones) }, &[], 0.5).is_ok(), "{k} as {other}, swapped");
        }
    }
    let five = [&four([1.0; 4])[..], &[zone(1.0, 8, 9)]].concat();
    assert_eq!(stepped(&zoned(&five), &[], 0.5), Err(1));
    assert_eq!(stepped(&zoned(&five[1..]), &[], 0.5), Ok((0, [0.5, 0.0])), "any four of them");
}

/// Every row of a chunk is held to the least step, from the position through each row before.
#[test]
fn every_row_of_a_chunk() {
    let data = [1.0, 0.0, 4.0, 0.0, 4.0, 1.0];
    let view = ChunkView { seq: 0, t_emit: 0, horizon: 3, dim: 2, exec_steps: 0, data: &data };
    for (side, port) in sides() {
        let check = port.check_chunk.expect("an entry");
        let mut out = [7.0; 6];
        let cfg = zoned(&four([4.0, 3.5, 2.0, 1.5]));
        let both = check(&cfg, &[0.0; 2], &message(0b0111), view, &mut out).expect(side);
        assert_eq!((both.trips, both.clamped_dims, both.peak_speed), (CONTACT, 0b01, 6.0), "{side}");
        assert!(out[..2] == data[..2] && out[2] < 3.0 && 2.99 < out[2] && out[4..] == data[4..], "{side}: {out:?}");
        let wide = check(&cfg, &[0.0; 2], &message(0b0011), view, &mut out).expect(side);
        assert_eq!((wide.trips, wide.clamped_dims, out), (0, 0, data), "{side}");
    }
}

/// The answer and the output, in which a NaN that is left is itself.
type Told = (Result<Tier0Out, Refusal>, Vec<u64>);

fn told(answer: Result<Tier0Out, Refusal>, out: &[f64]) -> Told {
    (answer, out.iter().map(|x| if *x == 0.0 { 0 } else { x.to_bits() }).collect())
}

fn chunk_by(check: CheckChunk, i: &CheckChunkIn) -> Told {
    let mut out = i.out.clone();
    let answer = check(&i.cfg, &i.pos, &i.aux, i.ch.view(), &mut out);
    told(answer, &out)
}

fn action_by(check: CheckAction, i: &CheckActionIn) -> Told {
    let mut out = i.out.clone();
    let answer = check(&i.cfg, &i.pos, &i.aux, &i.prev, &i.a, &mut out);
    told(answer, &out)
}

/// The generated inputs through the exported functions themselves, where what stands past the count comes in as it is. Many of them would be
/// answered otherwise if it were read.
#[test]
fn what_stands_past_the_count_is_not_read() {
    assert!(lictor::environment_ok());
    let (port, exported) = (Port::default(), exported::port());
    let (exported_chunk, exported_action) =
        (exported.check_chunk.expect("an entry"), exported.check_action.expect("an entry"));
    let (chunks, actions) = (check_chunk_with_several_zones(&port), check_action_with_several_zones(&port));
    let model_chunk = |i: &CheckChunkIn| chunk_by(tier0::check_chunk, i);
    let model_action = |i: &CheckActionIn| action_by(tier0::check_action, i);
    let mut otherwise = [[0; 2]; 4];
    for call in 0..60_000 {
        let (mut ch, mut a) = (chunks.input(5, call), actions.input(5, call));
        let (wants, counts) = ((model_chunk(&ch), model_action(&a)), [ch.cfg.zones.count, a.cfg.zones.count]);
        assert_eq!(chunk_by(exported_chunk, &ch), wants.0, "{ch:?}");
        assert_eq!(action_by(exported_action, &a), wants.1, "{a:?}");
        (ch.cfg.zones.count, a.cfg.zones.count) = (4, 4);
        for (k, other) in [model_chunk(&ch) != wants.0, model_action(&a) != wants.1].into_iter().enumerate() {
            if let Some(met) = otherwise.get_mut(counts[k]) {
                met[k] += other as u32;
            }
        }
    }
    assert!(otherwise.iter().flatten().all(|n| *n > 300), "{otherwise:?}");
}

//! Round tables: the model, the linked entries and the exported functions themselves at cases that are written by hand, and on generated
//! inputs in which what a shape does not read is anything.

use differential::{
    entries::{brake as forecasts, envelope as derived, tier0 as checks, towards},
    exported, linked,
    port::Port,
    run::Entry,
};
use model::*;

/// The entries of the three sides, by name.
fn sides() -> [(&'static str, Port); 3] {
    let model = Port {
        derive: Some(envelope::derive),
        check_chunk: Some(tier0::check_chunk),
        check_action: Some(tier0::check_action),
        brake_feasible: Some(brake::brake_feasible),
        brake_action: Some(brake::brake_action),
        hold_action: Some(brake::hold_action),
        ..Port::default()
    };
    [("the model", model), ("the port", linked::port()), ("the exported functions", exported::port())]
}

/// What every side answers.
fn alike<T: PartialEq + std::fmt::Debug>(call: impl Fn(&Port) -> T) -> T {
    let [(_, model), others @ ..] = sides();
    let due = call(&model);
    for (side, port) in others {
        assert_eq!(call(&port), due, "{side} and the model");
    }
    due
}

/// 1 - 2^-36.
const SHRINK: f64 = 1.0 - 1.0 / 68719476736.0;
const COMPUTED: Refusal = Refusal { number: 13, place: 0 };
const NONE: WallMarks = WallMarks { low_dims: 0, high_dims: 0 };

/// Three axes: a round table, and a height between -1 and 1. What is not read would be refused.
fn table(center: [f64; 2], radius: f64) -> FuseConfig {
    const WALL: f64 = 1.0;
    FuseConfig {
        dim: 3,
        pos_dim: 3,
        box_lo: [f64::NAN, f64::INFINITY, -WALL, 0.0, 0.0, 0.0, 0.0, 0.0],
        box_hi: [f64::NAN, f64::NEG_INFINITY, WALL, 0.0, 0.0, 0.0, 0.0, 0.0],
        shape: Shape::disc(center, radius),
        armed: WORKSPACE,
        clamp: ClampMode::Project,
        v_max: 1e300,
        reach_max: 1e300,
        ..FuseConfig::PLAIN
    }
}

/// The answer to rows from a position, and the rows that go out; one row is asked as an action, too.
fn checked(c: &FuseConfig, from: [f64; 3], rows: &[[f64; 3]]) -> Result<(Tier0Out, Vec<[f64; 3]>), Refusal> {
    let data = rows.concat();
    let view = ChunkView { seq: 0, t_emit: 0, horizon: rows.len() as u16, dim: 3, exec_steps: 0, data: &data };
    alike(|port| {
        let mut out = vec![7.0; data.len()];
        let chunk = port.check_chunk.expect("an entry")(c, &from, &[], view, &mut out);
        if rows.len() == 1 {
            let (mut one, mut before) = (vec![7.0; 3], rows[0]);
            before[..c.pos_dim].copy_from_slice(&from[..c.pos_dim]);
            let action = port.check_action.expect("an entry")(c, &from, &[], &before, &rows[0], &mut one);
            assert_eq!((action, &one), (chunk, &out), "a chunk of one row from the position is an action");
        }
        assert!(chunk.is_ok() || out.iter().all(|x| *x == 7.0), "a refusal writes nothing");
        chunk.map(|r| (r, out.chunks(3).map(|row| row.try_into().expect("three axes")).collect()))
    })
}

/// Trips, clamped, low and high masks of a row, and where it goes.
fn moved(c: &FuseConfig, from: [f64; 3], row: [f64; 3]) -> ([u32; 4], [f64; 3]) {
    let (r, out) = checked(c, from, &[row]).expect("accepted");
    ([r.trips, r.clamped_dims, r.low_dims, r.high_dims], out[0])
}

/// A point at distance n from the origin, pulled onto a table of this radius there.
fn pulled(point: [f64; 2], n: f64, radius: f64) -> [f64; 2] {
    point.map(|x| x * (radius * SHRINK / n))
}

/// On the edge nothing is raised and nothing moved, and the next number is both; no mask is set, and the margin changes nothing.
#[test]
fn the_edge() {
    for margin in [0.0, 0.5, 1.0] {
        let c = FuseConfig { margin, ..table([0.0; 2], 5.0) };
        for row in [[0.0, 0.0, 0.0], [3.0, 4.0, 0.0], [-5.0, 0.0, 0.0], [0.0, 5f64.next_down(), 0.0]] {
            assert_eq!(moved(&c, [0.0; 3], row), ([0; 4], row), "{row:?}");
        }
        let [x, y] = pulled([6.0, -8.0], 10.0, 5.0);
        assert_eq!(moved(&c, [0.0; 3], [6.0, -8.0, 0.0]), ([WORKSPACE, 0b011, 0, 0], [x, y, 0.0]));
        let over = 5f64.next_up();
        let [x, _] = pulled([over, 0.0], over, 5.0);
        assert_eq!(moved(&c, [0.0; 3], [over, 0.0, 0.0]), ([WORKSPACE, 0b001, 0, 0], [x, 0.0, 0.0]));
    }
}

/// The factor is 1 - 2^-36 of the radius, so that the pulled point does not trip again where nothing is lost beside the centre.
#[test]
fn a_pulled_point_lies_on_the_table() {
    let c = table([0.0; 2], 5.0);
    for row in [[6.0, 8.0, 0.0], [5f64.next_up(), 0.0, 0.0], [1e150, -1e150, 0.0], [-0.1, 5.1, 0.0]] {
        let (marks, out) = moved(&c, [0.0; 3], row);
        assert_eq!(marks[0], WORKSPACE, "{row:?}");
        assert_eq!(moved(&c, [0.0; 3], out), ([0; 4], out), "{row:?}");
    }
}

/// And it may lie past the edge: about 2^53 numbers are 2 apart.
#[test]
fn a_pulled_point_past_the_edge() {
    let far = 2f64.powi(53);
    let c = table([far, 0.0], 1.5);
    let from = [far, 0.0, 0.0];
    let past = [far + 2.0, 0.0, 0.0];
    assert_eq!(moved(&c, from, [far + 4.0, 0.0, 0.0]), ([WORKSPACE, 1, 0, 0], past));
    assert_eq!(moved(&c, from, past).0[0], WORKSPACE, "a distance of 2");
    let held = alike(|port| {
        let mut out = [7.0; 3];
        port.hold_action.expect("an entry")(&c, &[far + 4.0], &[], &mut out).map(|w| (w, out))
    });
    assert_eq!(held, Ok((NONE, past)));
}

/// A further axis has its walls, which the margin moves, and its bits in the masks; the first two have none.
#[test]
fn further_axes() {
    let c = table([0.0; 2], 5.0);
    assert_eq!(moved(&c, [0.0; 3], [0.0, 0.0, 1.0]), ([0; 4], [0.0, 0.0, 1.0]));
    assert_eq!(moved(&c, [0.0; 3], [0.0, 0.0, 1f64.next_up()]), ([WORKSPACE, 0b100, 0, 0b100], [0.0, 0.0, 1.0]));
    assert_eq!(moved(&c, [0.0; 3], [0.0, 0.0, -2.0]), ([WORKSPACE, 0b100, 0b100, 0], [0.0, 0.0, -1.0]));
    let [x, y] = pulled([6.0, 8.0], 10.0, 5.0);
    assert_eq!(moved(&c, [0.0; 3], [6.0, 8.0, 9.0]), ([WORKSPACE, 0b111, 0, 0b100], [x, y, 1.0]));
    let narrower = FuseConfig { margin: 0.25, ..c };
    assert_eq!(moved(&narrower, [0.0; 3], [0.0, 5.0, 1.0]), ([WORKSPACE, 0b100, 0, 0b100], [0.0, 5.0, 0.75]));
    // an action wider than the position: what is past pos_dim has no box
    let two = FuseConfig { pos_dim: 2, ..c };
    assert_eq!(moved(&two, [0.0; 3], [3.0, 4.0, 9.0]), ([0; 4], [3.0, 4.0, 9.0]));
}

/// Under ClampMode Off the rows go out as they came and no mask is set; without WORKSPACE nothing is raised, moved or measured.
#[test]
fn off_and_unarmed() {
    let off = FuseConfig { clamp: ClampMode::Off, ..table([0.0; 2], 5.0) };
    assert_eq!(moved(&off, [0.0; 3], [6.0, 8.0, 9.0]), ([WORKSPACE, 0, 0, 0], [6.0, 8.0, 9.0]));
    for clamp in [ClampMode::Off, ClampMode::Project] {
        let unarmed = FuseConfig { armed: !WORKSPACE & 63, clamp, a_max: 1e300, j_max: 1e300, ..off };
        assert_eq!(moved(&unarmed, [0.0; 3], [6.0, 8.0, 9.0]), ([0; 4], [6.0, 8.0, 9.0]));
    }
}

/// Where WORKSPACE is armed the distance of every row counts for 13, under either mode, before and after a row that is outside, and where a
/// further axis is outside already.
#[test]
fn a_distance_that_is_not_finite() {
    // every step between the rows is finite, and the last row's distance from the centre is not
    let (near, beyond, far) = ([0.0; 3], [0.0, 1e100, 9.0], [1e154, 0.0, 0.0]);
    for clamp in [ClampMode::Off, ClampMode::Project] {
        let c = FuseConfig { clamp, ..table([-1e154, 0.0], 1e154) };
        for rows in [
            &[far][..],
            &[[1e154, 0.0, 9.0]],
            &[near, far],
            &[far, near],
            &[beyond, far],
            &[far, beyond],
            &[near, beyond, far, near],
        ] {
            assert_eq!(checked(&c, near, rows).map(|_| ()), Err(COMPUTED), "{rows:?}");
            let unarmed = FuseConfig { armed: SPEED | REACH, ..c };
            assert!(checked(&unarmed, near, rows).is_ok(), "{rows:?}");
        }
        assert!(checked(&c, near, &[near, beyond]).is_ok());
        assert!(checked(&c, far, &[near]).is_ok(), "the position is not measured");
    }
}

/// The pull comes before the leash and the reach, so that the leash starts from the pulled point.
#[test]
fn the_order_of_the_moves() {
    let leashed = |from: [f64; 2], to: [f64; 2], step: f64| {
        let (dx, dy) = (to[0] - from[0], to[1] - from[1]);
        let factor = step * SHRINK / (dx * dx + dy * dy).sqrt();
        [from[0] + dx * factor, from[1] + dy * factor, 0.0]
    };
    let on_table = pulled([6.0, 8.0], 10.0, 5.0);
    let from = [0.0, 4.0, 0.0];
    let speed = FuseConfig { armed: WORKSPACE | SPEED, v_max: 0.5, ..table([0.0; 2], 5.0) };
    assert_eq!(moved(&speed, from, [6.0, 8.0, 0.0]).1, leashed([0.0, 4.0], on_table, 0.5));
    let reach = FuseConfig { armed: WORKSPACE | REACH, reach_max: 0.5, ..table([0.0; 2], 5.0) };
    assert_eq!(moved(&reach, from, [6.0, 8.0, 0.0]).1, leashed([0.0, 4.0], on_table, 0.5));
    // a leash that brings a row back to where it stood, beyond the table
    let still = FuseConfig { armed: WORKSPACE | SPEED, v_max: 1e-200, ..table([0.0; 2], 5.0) };
    assert_eq!(moved(&still, [6.0, 8.0, 0.0], [6.0, 8.0, 0.0]), ([WORKSPACE, 0, 0, 0], [6.0, 8.0, 0.0]));
}

/// What an arm on a table is forecast: the answer, or its number and place, and the slacks.
fn forecast(c: &FuseConfig, p: &[f64], v: &[f64], rows: &[f64], from: usize) -> (Result<BrakeOut, Refusal>, [f64; 6]) {
    let view = ChunkView {
        seq: 0,
        t_emit: 0,
        horizon: (rows.len() / c.dim) as u16,
        dim: c.dim as u16,
        exec_steps: 0,
        data: rows,
    };
    alike(|port| {
        let mut slacks = [7.0; 6];
        (port.brake_feasible.expect("an entry")(c, p, v, view, from, &mut slacks), slacks)
    })
}

/// The closed kinds at rest: the radius less the distance, the least with the further axes; and less the stopping radius.
#[test]
fn the_slack_of_the_closed_kinds() {
    for kind in differential::part::BRAKES.into_iter().skip(1) {
        let mut c = table([0.0; 2], 6.0);
        c.brake.kind = kind;
        for (p, due) in [
            ([3.0, 4.0, 0.0], 1.0),
            ([3.0, 4.0, 0.75], 0.25),
            ([3.0, 4.0, -0.75], 0.25),
            ([0.0, 6.0, 0.0], 0.0),
            ([6.0, 8.0, 0.0], -4.0),
            ([6.0, 8.0, 9.0], -8.0),
        ] {
            let (r, slacks) = forecast(&c, &p, &[0.0; 3], &[0.0; 3], 0);
            let feasible = due >= 0.0;
            assert_eq!(r, Ok(BrakeOut { count: 1, feasible, margin: due, stop_dist: 0.0 }), "{kind:?} {p:?}");
            assert_eq!(slacks, [due, 7.0, 7.0, 7.0, 7.0, 7.0]);
            // a speed of 2, with a_max, j_max and k_v 1: a stopping radius of 2 or 3
            let stop = if kind == BrakeKind::JerkLimited { 3.0 } else { 2.0 };
            let (r, _) = forecast(&c, &p, &[2.0, 0.0, 0.0], &[0.0; 3], 0);
            assert_eq!(r.map(|r| r.margin), Ok(due - stop), "{kind:?} {p:?}");
        }
    }
}

/// A step of the second-order kind: from (3, 4) at rest, with k_p 1 and k_v 1, one substep of 1 to the row. The slack is of the new place.
#[test]
fn the_slack_of_the_second_order_kind() {
    let mut c = table([0.0; 2], 6.0);
    c.brake = BrakeModel { commit: 1, brake_steps: 1, ..c.brake };
    let (r, slacks) = forecast(&c, &[0.0; 3], &[0.0; 3], &[3.0, 4.0, 0.0], 0);
    // at (3, 4) with a velocity of (3, 4), which the damper takes off where it holds
    assert_eq!(slacks[..2], [1.0, 1.0]);
    assert_eq!(r, Ok(BrakeOut { count: 2, feasible: true, margin: 1.0, stop_dist: 5.0 }));
    // beyond the table: the setpoint is the pulled point
    let (r, slacks) = forecast(&c, &[0.0; 3], &[0.0; 3], &[6.0, 8.0, 0.0], 0);
    let [x, y] = pulled([6.0, 8.0], 10.0, 6.0);
    let far = |x: f64, y: f64| (x * x + y * y).sqrt();
    let step = |at: f64, set: f64| at + ((set - at) - at + at);
    assert_eq!(slacks[..2], [-4.0, 6.0 - far(step(6.0, x), step(8.0, y))]);
    assert_eq!(r.map(|r| (r.count, r.feasible, r.margin)), Ok((2, false, -4.0)));
}

/// A slack is not negative exactly when the computed distance is at most the radius: of the exact one that is false.
#[test]
fn the_computed_distance() {
    for ([x, y], radius) in
        [([2f64.powi(-538), 0.0], 2f64.powi(-540)), ([0.13436424411240122, 0.8474337369372327], 0.8580196318239459)]
    {
        let mut c = table([0.0; 2], radius);
        c.brake.kind = BrakeKind::FirstOrderDecay;
        let (r, slacks) = forecast(&c, &[x, y, 0.0], &[0.0; 3], &[0.0; 3], 0);
        assert!(r.is_ok_and(|r| r.feasible) && slacks[0] >= 0.0, "{x}, {y}");
        assert_eq!(moved(&c, [0.0; 3], [x, y, 0.0]), ([0; 4], [x, y, 0.0]), "touched, and no more");
        let smaller = table([0.0; 2], if y == 0.0 { 5e-324 } else { radius.next_down() });
        let trips = moved(&smaller, [0.0; 3], [x, y, 0.0]).0[0];
        assert_eq!(trips, if y == 0.0 { 0 } else { WORKSPACE }, "the distance is 0, or the radius");
    }
}

/// The setpoint is made whatever brake_steps is: a distance in it that is not finite has the place of the first substep after the rows.
#[test]
fn the_place_of_the_setpoint() {
    let first = Err(Refusal { number: 13, place: 1 });
    for (brake_steps, commit, substeps) in [(0, 0, 1), (0, 2, 3), (1, 0, 1), (1, 2, 3)] {
        let mut c = table([0.0; 2], 6.0);
        c.brake = BrakeModel { brake_steps, commit, substeps, ..c.brake };
        let boxed = FuseConfig {
            shape: Shape { disc: false, center: [f64::NAN; 2], radius: -1.0 },
            box_lo: [-1.0; 8],
            box_hi: [1.0; 8],
            ..c
        };
        for from in [commit as usize, commit as usize + 1, usize::MAX] {
            for p in [[1e200, 0.0, 0.0], [0.0, -1e200, 0.0], [1e154, -1e154, 0.0]] {
                assert_eq!(
                    forecast(&c, &p, &[0.0; 3], &[0.0; 3], from),
                    (first, [7.0; 6]),
                    "{:?} from {from}",
                    c.brake
                );
                if brake_steps == 0 {
                    let none = Ok(BrakeOut { count: 0, feasible: true, margin: f64::INFINITY, stop_dist: 0.0 });
                    assert_eq!(
                        forecast(&boxed, &p, &[0.0; 3], &[0.0; 3], from),
                        (none, [7.0; 6]),
                        "a box computes nothing"
                    );
                }
            }
        }
    }
    // after a row the same distance was a slack before, so that 13 has the slack's place
    let mut c = table([0.0; 2], 6.0);
    c.brake = BrakeModel { commit: 2, brake_steps: 0, k_p: 1e100, ..c.brake };
    let (r, slacks) = forecast(&c, &[0.0; 3], &[0.0; 3], &[1.0, 0.0, 0.0], 0);
    assert_eq!(r, Err(Refusal { number: 13, place: 2 }));
    assert_eq!(slacks[1..], [7.0; 5]);
}

/// Brake and hold, alike: the row and the masks.
fn held(c: &FuseConfig, p: &[f64]) -> Result<(WallMarks, [f64; 3]), Refusal> {
    alike(|port| {
        let (mut held, mut braked) = ([7.0; 3], [7.0; 3]);
        let hold = port.hold_action.expect("an entry")(c, p, &[], &mut held);
        let brake = port.brake_action.expect("an entry")(c, p, &[], &[], &mut braked);
        assert_eq!((brake, braked), (hold, held), "a position is braked as it is held");
        assert!(hold.is_ok() || held == [7.0; 3], "a refusal writes nothing");
        hold.map(|walls| (walls, held))
    })
}

/// A position is moved onto the table whatever is armed and whatever the clamp mode.
#[test]
fn brake_and_hold() {
    for (armed, clamp) in [(0, ClampMode::Off), (63, ClampMode::Off), (0, ClampMode::Project), (63, ClampMode::Project)]
    {
        let c = FuseConfig { armed, clamp, ..table([0.0; 2], 5.0) };
        assert_eq!(held(&c, &[3.0, 4.0, 1.0]), Ok((NONE, [3.0, 4.0, 1.0])));
        let [x, y] = pulled([6.0, 8.0], 10.0, 5.0);
        assert_eq!(held(&c, &[6.0, 8.0]), Ok((NONE, [x, y, 0.0])));
        assert_eq!(held(&c, &[6.0, 8.0, -9.0]), Ok((WallMarks { low_dims: 4, high_dims: 0 }, [x, y, -1.0])));
        assert_eq!([held(&c, &[1e200]), held(&c, &[0.0, -1e200]), held(&c, &[1e154, 1e154])], [Err(COMPUTED); 3]);
        // what a position lacks is 0.0, which lies beyond a table that is elsewhere
        let away = FuseConfig { shape: Shape::disc([0.0, 10.0], 5.0), ..c };
        for short in [&[][..], &[0.0], &[0.0, 0.0]] {
            assert_eq!(held(&away, short), Ok((NONE, [0.0, 10.0 + -10.0 * (5.0 * SHRINK / 10.0), 0.0])));
        }
        let elsewhere = FuseConfig { shape: Shape::disc([1e200, 0.0], 5.0), ..c };
        assert_eq!(held(&elsewhere, &[]), Err(COMPUTED));
        assert_eq!(held(&elsewhere, &[1e200]), Ok((NONE, [1e200, 0.0, 0.0])));
        let two = FuseConfig { pos_dim: 2, ..c };
        assert_eq!(held(&two, &[3.0, 4.0, 9.0]), Ok((NONE, [3.0, 4.0, 0.0])), "past pos_dim a box of 0..0");
        for kind in [ActionKind::EeDelta, ActionKind::JointVelocity] {
            let velocity = FuseConfig { kind, ..c };
            let walls =
                alike(|port| port.hold_action.expect("an entry")(&velocity, &[1e200, 8.0, 9.0], &[], &mut [7.0; 3]));
            assert_eq!(walls, Ok(NONE), "a velocity is not measured");
        }
    }
}

/// What a configuration is answered by every entry that is listed.
fn judged(c: &FuseConfig) -> Result<Derived, u8> {
    let number = alike(|port| port.derive.expect("an entry")(c).map_err(|r| r.number));
    let hold =
        alike(|port| port.hold_action.expect("an entry")(c, &[], &[], &mut [0.0; 8]).map_err(|r| r.number).err());
    assert_eq!(number.err(), hold);
    number
}

#[test]
fn what_is_derived() {
    let d = judged(&FuseConfig { margin: 0.25, ..table([0.0; 2], 5.0) }).expect("accepted");
    assert_eq!(d.box_lo, [0.0, 0.0, -0.75, 0.0, 0.0, 0.0, 0.0, 0.0]);
    assert_eq!(d.box_hi, [0.0, 0.0, 0.75, 0.0, 0.0, 0.0, 0.0, 0.0]);
    let boxed = FuseConfig { shape: Shape::BOX, box_lo: [-1.0; 8], box_hi: [1.0; 8], ..table([0.0; 2], 5.0) };
    let d = judged(&boxed).expect("accepted");
    assert_eq!((&d.box_lo[..4], &d.box_hi[..4]), (&[-1.0, -1.0, -1.0, 0.0][..], &[1.0, 1.0, 1.0, 0.0][..]));
}

/// 2 and 15 on both sides of their edges, and 15 between 4 and 17.
#[test]
fn tables_that_are_refused() {
    let number = |change: &dyn Fn(&mut FuseConfig)| {
        let mut c = FuseConfig { shape: Shape::disc([0.0; 2], 5.0), ..FuseConfig::WHOLE };
        change(&mut c);
        judged(&c).err()
    };
    assert_eq!(number(&|_| ()), None);
    for (x, due) in
        [(0.0, Some(2)), (-0.0, Some(2)), (-1.0, Some(2)), (f64::INFINITY, Some(2)), (5e-324, None), (f64::MAX, None)]
    {
        assert_eq!(number(&|c| c.shape.radius = x), due, "radius {x}");
        assert_eq!(number(&|c| (c.shape.disc, c.shape.radius) = (false, x)), None, "radius {x} of a box");
    }
    for x in [f64::NAN, f64::INFINITY, f64::NEG_INFINITY] {
        assert_eq!([number(&|c| c.shape.center[0] = x), number(&|c| c.shape.center[1] = x)], [Some(2); 2]);
        assert_eq!(number(&|c| (c.shape.disc, c.shape.center) = (false, [x, x])), None);
        assert_eq!(number(&|c| (c.box_lo[0], c.box_hi[1]) = (x, x)), None, "walls of a disc");
        assert_eq!(number(&|c| (c.shape.disc, c.box_lo[0]) = (false, x)), Some(2), "walls of a box");
    }
    for (dim, pos_dim, due) in
        [(1, 1, Some(15)), (1, 2, Some(15)), (2, 1, Some(15)), (2, 2, None), (8, 1, Some(15)), (1, 8, Some(15))]
    {
        assert_eq!(number(&|c| (c.dim, c.pos_dim) = (dim, pos_dim)), due, "{dim}, {pos_dim}");
        assert_eq!(number(&|c| (c.dim, c.pos_dim, c.shape.disc) = (dim, pos_dim, false)), None, "{dim}, {pos_dim}");
    }
    assert_eq!(number(&|c| (c.dim, c.aux_count) = (1, 0)), Some(4));
    assert_eq!(number(&|c| (c.dim, c.cal.mask) = (1, 1 << STALL)), Some(15));
    assert_eq!(number(&|c| (c.dim, c.shape.radius) = (1, 0.0)), Some(2));
}

/// What is not read of a shape, made what no shape takes.
fn unread(c: &mut FuseConfig) -> bool {
    match c.shape.disc {
        true => {
            c.box_lo[..2].fill(f64::NAN);
            c.box_hi[..2].fill(-1.0);
        }
        false => c.shape = Shape { disc: false, center: [f64::NAN; 2], radius: -1.0 },
    }
    c.shape.disc
}

/// The generated inputs through the exported functions themselves, where what is not read comes in as it is, and once more with numbers there
/// that would be refused.
fn held_to_the_model<I: Clone + std::fmt::Debug + 'static>(
    entry: fn(&Port) -> Entry<I>,
    cfg: impl Fn(&mut I) -> &mut FuseConfig,
) {
    let entry = entry(&exported::port());
    let port = entry.port.as_ref().expect("an entry");
    let shown = |o: differential::run::Outcome| {
        let bits = |v: &[f64]| v.iter().map(|x| if *x == 0.0 { 0 } else { x.to_bits() }).collect::<Vec<_>>();
        (o.answer.map(|s| (bits(&s.numbers), s.counts, s.added)), bits(&o.buffers.numbers))
    };
    let mut accepted = [0; 2];
    for call in 0..40_000 {
        let mut input = entry.input(7, call);
        let due = shown((entry.model)(&input));
        assert_eq!(shown(port(&input)), due, "{}: {input:?}", entry.name);
        let disc = unread(cfg(&mut input));
        assert_eq!(shown((entry.model)(&input)), due, "{}, by the model: {input:?}", entry.name);
        assert_eq!(shown(port(&input)), due, "{}: {input:?}", entry.name);
        accepted[disc as usize] += due.0.is_ok() as u32;
    }
    assert!(accepted.iter().all(|n| *n > 1000), "{}: {accepted:?}", entry.name);
}

#[test]
fn what_a_shape_does_not_read() {
    assert!(lictor::environment_ok());
    held_to_the_model(derived::derive_on_a_round_table, |c| c);
    held_to_the_model(checks::check_chunk_on_a_round_table, |i| &mut i.cfg);
    held_to_the_model(checks::check_action_on_a_round_table, |i| &mut i.cfg);
    held_to_the_model(forecasts::brake_feasible_on_a_round_table, |i| &mut i.cfg);
    held_to_the_model(towards::run_towards_on_a_round_table, |i| &mut i.cfg);
    held_to_the_model(forecasts::brake_action_on_a_round_table, |i| &mut i.cfg);
    held_to_the_model(forecasts::hold_action_on_a_round_table, |i| &mut i.cfg);
}

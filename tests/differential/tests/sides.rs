//! Which side a number was clamped to, and the low and high masks: the linked entries and the model at cases that are written by hand, and
//! the exported functions' lent marks, which a refusal leaves as they were.

use differential::{linked, port::Port};
use model::*;

/// The entries of both sides, by name.
fn sides() -> [(&'static str, Port); 2] {
    let model = Port {
        clamp: Some(fmath::clamp),
        clamp_side: Some(fmath::clamp_side),
        check_chunk: Some(tier0::check_chunk),
        check_action: Some(tier0::check_action),
        brake_action: Some(brake::brake_action),
        hold_action: Some(brake::hold_action),
        ..Port::default()
    };
    [("the model", model), ("the port", linked::port())]
}

/// Walls at -1 and 1: a box of -1.5 to 1.5 less the margin.
fn boxed(dim: usize, pos_dim: usize) -> FuseConfig {
    let (box_lo, box_hi) = ([-1.5; MAX_POS], [1.5; MAX_POS]);
    let (armed, clamp) = (WORKSPACE, ClampMode::Project);
    FuseConfig { dim, pos_dim, box_lo, box_hi, margin: 0.5, armed, clamp, ..FuseConfig::PLAIN }
}

fn rows(dim: usize, data: &[f64]) -> ChunkView<'_> {
    let horizon = (data.len() / dim) as u16;
    ChunkView { seq: 0, t_emit: 0, horizon, dim: dim as u16, exec_steps: 0, data }
}

/// Low, high and moved masks of a chunk, on both sides.
fn chunk(cfg: &FuseConfig, pos: &[f64], data: &[f64], due: (u32, u32, u32)) {
    seen_chunk(cfg, pos, &[], data, due);
}

/// The same where the camera sees something.
fn seen_chunk(cfg: &FuseConfig, pos: &[f64], aux: &[f64], data: &[f64], due: (u32, u32, u32)) {
    for (side, port) in sides() {
        let check = port.check_chunk.expect("an entry");
        let r = check(cfg, pos, aux, rows(cfg.dim, data), &mut vec![0.0; data.len()]).expect(side);
        assert_eq!((r.low_dims, r.high_dims, r.clamped_dims), due, "{side}: {data:?}");
    }
}

/// The same of an action.
fn action(cfg: &FuseConfig, pos: &[f64], prev: &[f64], a: &[f64], due: (u32, u32, u32)) {
    for (side, port) in sides() {
        let check = port.check_action.expect("an entry");
        let r = check(cfg, pos, &[], prev, a, &mut [0.0; MAX_D]).expect(side);
        assert_eq!((r.low_dims, r.high_dims, r.clamped_dims), due, "{side}: {a:?}");
    }
}

/// Low and high masks and the row of a brake and of a hold, on both sides.
fn stopped(cfg: &FuseConfig, p: &[f64], (low_dims, high_dims): (u32, u32), row: &[f64]) {
    for (side, port) in sides() {
        let (mut braked, mut held) = (vec![7.0; cfg.dim], vec![7.0; cfg.dim]);
        let marks = Ok(WallMarks { low_dims, high_dims });
        assert_eq!(port.brake_action.expect("an entry")(cfg, p, &[], &[], &mut braked), marks, "{side}: {p:?}");
        assert_eq!(port.hold_action.expect("an entry")(cfg, p, &[], &mut held), marks, "{side}: {p:?}");
        assert_eq!((&braked[..], &held[..]), (row, row), "{side}: {p:?}");
    }
}

#[test]
fn clamp_and_its_side() {
    const TINY: f64 = f64::from_bits(1);
    let (below, above) = (1f64.next_down(), 2f64.next_up());
    let beside = [(below, -1), (1.0, 0), (1f64.next_up(), 0), (2f64.next_down(), 0), (2.0, 0), (above, 1)];
    let far = [(f64::INFINITY, 1), (f64::NEG_INFINITY, -1), (f64::NAN, 0), (f64::MAX, 1), (-f64::MAX, -1)];
    let between = |lo: f64, hi: f64, cases: &[(f64, i64)]| {
        for ((name, port), &(x, due)) in sides().iter().flat_map(|side| cases.iter().map(move |case| (side, case))) {
            let (value, side) = port.clamp_side.expect("an entry")(x, lo, hi);
            let want = [lo, x, hi][(due + 1) as usize];
            assert_eq!((value.to_bits(), side), (want.to_bits(), due), "{name}: {x:?} between {lo:?} and {hi:?}");
            assert_eq!(port.clamp.expect("an entry")(x, lo, hi).to_bits(), want.to_bits(), "{name}: {x:?}");
        }
    };
    between(1.0, 2.0, &beside);
    between(1.0, 2.0, &far);
    for zero in [0.0, -0.0] {
        between(zero, 1.0, &[(0.0, 0), (-0.0, 0), (TINY, 0), (-TINY, -1)]);
        between(-1.0, zero, &[(0.0, 0), (-0.0, 0), (TINY, 1), (-TINY, 0)]);
        between(zero, -zero, &[(0.0, 0), (-0.0, 0), (TINY, 1), (-TINY, -1)]);
    }
    between(3.0, 1.0, &[(2.0, -1), (3.0, 1), (5.0, 1), (1.0, -1), (f64::NAN, 0)]);
    between(f64::NAN, 1.0, &[(-5.0, 0), (5.0, 1)]);
    between(0.0, f64::NAN, &[(-5.0, -1), (5.0, 0)]);
}

#[test]
fn a_touched_wall_and_one_step_beyond() {
    for (x, due) in [(-1.0, (0, 0, 0)), (1.0, (0, 0, 0)), (-1f64.next_up(), (1, 0, 1)), (1f64.next_up(), (0, 1, 1))] {
        chunk(&boxed(1, 1), &[0.0], &[x], due);
        action(&boxed(1, 1), &[0.0], &[0.0], &[x], due);
        stopped(&boxed(1, 1), &[x], (due.0, due.1), &[x.clamp(-1.0, 1.0)]);
    }
}

#[test]
fn any_row_and_both_bits_on_one_axis() {
    chunk(&boxed(2, 2), &[0.0; 2], &[-2.0, 0.0, 2.0, 2.0, 0.0, 0.0], (0b01, 0b11, 0b11));
    let many: Vec<f64> = (0..64).flat_map(|i| if i == 31 { [2.0; 8] } else { [0.0; 8] }).collect();
    chunk(&boxed(8, 8), &[0.0; 8], &many, (0, 0xff, 0xff));
}

#[test]
fn neither_under_off_or_unarmed_and_both_in_brake_and_hold() {
    let off = FuseConfig { clamp: ClampMode::Off, ..boxed(1, 1) };
    let unarmed = FuseConfig { armed: 0, ..boxed(1, 1) };
    for cfg in [off, unarmed] {
        chunk(&cfg, &[0.0], &[-2.0, 2.0], (0, 0, 0));
        action(&cfg, &[0.0], &[0.0], &[2.0], (0, 0, 0));
        stopped(&cfg, &[2.0], (0, 1), &[1.0]);
        stopped(&cfg, &[-2.0], (1, 0), &[-1.0]);
    }
}

#[test]
fn cut_at_pos_dim_and_at_dim() {
    chunk(&boxed(3, 1), &[0.0], &[2.0, 2.0, -2.0], (0, 1, 1));
    action(&boxed(3, 1), &[0.0], &[0.0; 3], &[-2.0, 2.0, -2.0], (1, 0, 1));
    stopped(&boxed(3, 1), &[2.0, 2.0, -2.0], (0, 1), &[1.0, 0.0, 0.0]);
    chunk(&boxed(1, 3), &[0.0; 3], &[-2.0], (1, 0, 1));
    stopped(&boxed(1, 3), &[-2.0, -2.0, -2.0], (1, 0), &[-1.0]);
}

#[test]
fn a_short_position_against_a_wall_above_and_below_zero() {
    let above = FuseConfig { box_lo: [0.0; MAX_POS], ..boxed(2, 2) };
    stopped(&above, &[], (0b11, 0), &[0.5, 0.5]);
    stopped(&above, &[0.75], (0b10, 0), &[0.75, 0.5]);
    let below = FuseConfig { box_hi: [0.0; MAX_POS], ..boxed(2, 2) };
    stopped(&below, &[], (0, 0b11), &[-0.5, -0.5]);
    let touching = FuseConfig { box_lo: [-0.5; MAX_POS], ..boxed(2, 2) };
    stopped(&touching, &[-0.25], (0b01, 0), &[0.0, 0.0]);
}

#[test]
fn velocity_kinds() {
    for (kind, due, row) in [
        (ActionKind::JointVelocity, (0, 0), [0.0, 0.0]),
        (ActionKind::EeDelta, (0, 0), [0.0, 0.0]),
        (ActionKind::JointPosition, (1, 2), [-1.0, 1.0]),
        (ActionKind::Other, (1, 2), [-1.0, 1.0]),
    ] {
        stopped(&FuseConfig { kind, ..boxed(2, 2) }, &[-2.0, 2.0], due, &row);
    }
}

/// The checks do not ask for the kind.
#[test]
fn velocity_kinds_in_the_checks() {
    for kind in [ActionKind::JointVelocity, ActionKind::EeDelta] {
        chunk(&FuseConfig { kind, ..boxed(1, 1) }, &[0.0], &[2.0], (0, 1, 1));
        action(&FuseConfig { kind, ..boxed(1, 1) }, &[0.0], &[0.0], &[2.0], (0, 1, 1));
    }
}

/// From 2 a row at 2 is lowered to 1, and a leash or a reach of 1e-20 brings it back: moved by no bit of clamped_dims, and yet at its high
/// wall. A row that they alone move has no side.
#[test]
fn leash_and_reach() {
    let leash = |v_max| FuseConfig { armed: WORKSPACE | SPEED, v_max, ..boxed(1, 1) };
    let reach = |reach_max| FuseConfig { armed: WORKSPACE | REACH, reach_max, ..boxed(1, 1) };
    for cfg in [leash(1e-20), reach(1e-20)] {
        chunk(&cfg, &[2.0], &[2.0], (0, 1, 0));
        action(&cfg, &[2.0], &[2.0], &[2.0], (0, 1, 0));
        chunk(&cfg, &[-2.0], &[-2.0], (1, 0, 0));
    }
    for cfg in [leash(0.5), reach(0.5)] {
        chunk(&cfg, &[0.0], &[0.75], (0, 0, 1));
        action(&cfg, &[0.0], &[0.0], &[-0.75], (0, 0, 1));
        // raised by the box, then lowered past where it came from: the box alone has a side
        chunk(&cfg, &[-9.0], &[-2.0], (1, 0, 1));
    }
}

/// The leash of a slow zone alone, likewise; outside the zone there is none.
#[test]
fn the_leash_of_a_slow_zone() {
    let zone = |v_max| {
        let zones = Zones::of(&[ContactLimit { radius: 1.0, v_max, a0: 0, a1: 1 }]);
        FuseConfig { armed: WORKSPACE | CONTACT, zones, aux_count: 2, ..boxed(2, 2) }
    };
    seen_chunk(&zone(1e-20), &[2.0, 0.0], &[2.0, 0.0], &[2.0, 0.0], (0, 0b01, 0));
    seen_chunk(&zone(1e-20), &[2.0, 0.0], &[9.0, 9.0], &[2.0, 0.0], (0, 0b01, 0b01));
    seen_chunk(&zone(0.5), &[0.0, 0.0], &[0.0, 0.0], &[0.75, 0.0], (0, 0, 0b01));
}

extern "C" {
    fn lictor_check_chunk(
        numbers: &[f64; 53],
        counts: &[u64; 35],
        center: &[f64; 192],
        scale: &[f64; 192],
        position: *const f64,
        position_count: usize,
        aux: *const f64,
        aux_count: usize,
        rows: *const f64,
        rows_count: usize,
        horizon: u16,
        dim: u16,
        exec_steps: u16,
        out: *mut f64,
        out_count: usize,
        marks: &mut [u64; 4],
        peak_speed: &mut f64,
    ) -> u64;
    fn lictor_check_action(
        numbers: &[f64; 53],
        counts: &[u64; 35],
        center: &[f64; 192],
        scale: &[f64; 192],
        position: *const f64,
        position_count: usize,
        aux: *const f64,
        aux_count: usize,
        previous: *const f64,
        previous_count: usize,
        action: *const f64,
        action_count: usize,
        out: *mut f64,
        out_count: usize,
        marks: &mut [u64; 4],
        peak_speed: &mut f64,
    ) -> u64;
    fn lictor_brake_action(
        numbers: &[f64; 53],
        counts: &[u64; 35],
        center: &[f64; 192],
        scale: &[f64; 192],
        position: *const f64,
        position_count: usize,
        velocity: *const f64,
        velocity_count: usize,
        last: *const f64,
        last_count: usize,
        out: *mut f64,
        out_count: usize,
        walls: &mut [u64; 2],
    ) -> u64;
    fn lictor_hold_action(
        numbers: &[f64; 53],
        counts: &[u64; 35],
        center: &[f64; 192],
        scale: &[f64; 192],
        position: *const f64,
        position_count: usize,
        last: *const f64,
        last_count: usize,
        out: *mut f64,
        out_count: usize,
        walls: &mut [u64; 2],
    ) -> u64;
}

/// What the four exported functions answer to one row of one coordinate at `x`, with the kind's code and room in the output, and the marks
/// that they were lent, which held any bits before.
fn lent(x: f64, kind: u64, room: usize) -> [(u64, Vec<u64>); 4] {
    let (mut numbers, mut counts) = ([1.0; 53], [0; 35]);
    numbers[5..6].fill(0.0); // margin
    numbers[27..35].fill(-1.0); // box_lo
    counts[0..1].fill(1); // dim
    counts[1..2].fill(1); // pos_dim
    counts[2..3].fill(kind); // kind
    counts[3..4].fill(1); // clamp
    counts[8..9].fill(1); // substeps
    counts[20..21].fill(1); // armed
    let (table, zero, row, mut out, mut speed) = ([1.0; 192], [0.0], [x], [7.0], 7.0);
    let (z, r, o) = (zero.as_ptr(), row.as_ptr(), out.as_mut_ptr());
    let (mut chunk, mut action) = ([u64::MAX, 1 << 63, 0x5555, 3], [u64::MAX, 1 << 63, 0x5555, 3]);
    let (mut braked, mut held) = ([u64::MAX, 1 << 63], [u64::MAX, 1 << 63]);
    let (n, c, t, s) = (&numbers, &counts, &table, &mut speed);
    // SAFETY: the arrays are as long as include/lictor.h says and each stands by itself; the slices are at least as long as is said.
    unsafe {
        let first = lictor_check_chunk(n, c, t, t, z, 1, z, 0, r, 1, 1, 1, 0, o, room, &mut chunk, s);
        let second = lictor_check_action(n, c, t, t, z, 1, z, 0, z, 1, r, 1, o, room, &mut action, s);
        let third = lictor_brake_action(n, c, t, t, r, 1, z, 0, z, 0, o, room, &mut braked);
        let fourth = lictor_hold_action(n, c, t, t, r, 1, z, 0, o, room, &mut held);
        [(first, chunk.to_vec()), (second, action.to_vec()), (third, braked.to_vec()), (fourth, held.to_vec())]
    }
}

#[test]
fn lent_marks_are_all_written_where_a_call_is_accepted() {
    let of = |low, high| {
        [(0, vec![1, 1, low, high]), (0, vec![1, 1, low, high]), (0, vec![low, high]), (0, vec![low, high])]
    };
    assert_eq!(lent(-2.0, 0, 1), of(1, 0));
    assert_eq!(lent(2.0, 0, 1), of(0, 1));
    assert_eq!(lent(1.0, 0, 1).map(|(_, marks)| marks), [vec![0; 4], vec![0; 4], vec![0; 2], vec![0; 2]]);
    for velocities in [1, 3] {
        let [chunk, action, braked, held] = lent(2.0, velocities, 1);
        assert_eq!([chunk, action], [(0, vec![1, 1, 0, 1]), (0, vec![1, 1, 0, 1])]);
        assert_eq!([braked, held], [(0, vec![0, 0]), (0, vec![0, 0])]);
    }
}

#[test]
fn lent_marks_stay_where_a_call_is_refused() {
    let (check, walls) = (vec![u64::MAX, 1 << 63, 0x5555, 3], vec![u64::MAX, 1 << 63]);
    let of =
        |number| [(number, check.clone()), (number, check.clone()), (number, walls.clone()), (number, walls.clone())];
    assert_eq!(lent(2.0, 0, 0), of(11));
    assert_eq!(lent(f64::NAN, 0, 1), of(12));
    assert_eq!(lent(2.0, 5, 1), of(255));
    // a step too long to measure, which brake and hold do not take
    let [chunk, action, braked, held] = lent(1e200, 0, 1);
    assert_eq!([chunk, action], [(13, check.clone()), (13, check.clone())]);
    assert_eq!([braked, held], [(0, vec![0, 1]), (0, vec![0, 1])]);
}

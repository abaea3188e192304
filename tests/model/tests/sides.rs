//! Which side a number was clamped to, and the low and high masks of the checks, the brake and the hold: worked cases on both sides of
//! each condition of the request.

use model::*;

const TINY: f64 = f64::from_bits(1);

/// The side, and bit for bit the value that clamp gives.
fn sided(x: f64, lo: f64, hi: f64, value: f64, side: i64) {
    let (found, on) = fmath::clamp_side(x, lo, hi);
    assert_eq!((found.to_bits(), on), (value.to_bits(), side), "{x:?} between {lo:?} and {hi:?}");
    assert_eq!(fmath::clamp(x, lo, hi).to_bits(), found.to_bits(), "{x:?} between {lo:?} and {hi:?}");
}

#[test]
fn one_step_beside_each_limit() {
    for (lo, hi) in [(1.0, 2.0), (-2.0, -1.0), (-1.0, 1.0), (TINY, 1.0), (-f64::MAX, f64::MAX.next_down())] {
        sided(f64::next_down(lo), lo, hi, lo, -1);
        for inside in [lo, lo.next_up(), f64::next_down(hi), hi] {
            sided(inside, lo, hi, inside, 0);
        }
        sided(hi.next_up(), lo, hi, hi, 1);
    }
    sided(1.5, 1.5, 1.5, 1.5, 0);
}

#[test]
fn zeros_of_either_sign_on_zero_limits() {
    for limit in [0.0, -0.0] {
        for zero in [0.0, -0.0] {
            sided(zero, limit, 1.0, zero, 0);
            sided(zero, -1.0, limit, zero, 0);
            sided(zero, limit, -limit, zero, 0);
        }
        sided(-TINY, limit, 1.0, limit, -1);
        sided(TINY, limit, 1.0, TINY, 0);
        sided(TINY, -1.0, limit, limit, 1);
        sided(-TINY, -1.0, limit, -TINY, 0);
    }
}

#[test]
fn a_nan_is_untouched_and_no_limit() {
    let other = f64::from_bits(0xfff8_0000_dead_beef);
    for nan in [f64::NAN, other] {
        sided(nan, 0.0, 1.0, nan, 0);
        sided(nan, 1.0, 0.0, nan, 0);
        sided(-5.0, nan, 1.0, -5.0, 0);
        sided(5.0, nan, 1.0, 1.0, 1);
        sided(5.0, 0.0, nan, 5.0, 0);
        sided(-5.0, 0.0, nan, 0.0, -1);
    }
}

#[test]
fn crossed_limits_try_the_low_one_first() {
    sided(2.0, 3.0, 1.0, 3.0, -1);
    sided(3.0, 3.0, 1.0, 1.0, 1);
    sided(5.0, 3.0, 1.0, 1.0, 1);
    sided(1.0, 3.0, 1.0, 3.0, -1);
}

#[test]
fn infinities() {
    let far = f64::INFINITY;
    sided(far, 0.0, 1.0, 1.0, 1);
    sided(-far, 0.0, 1.0, 0.0, -1);
    sided(far, 0.0, far, far, 0);
    sided(-far, -far, 0.0, -far, 0);
    sided(f64::MAX, far, far, far, -1);
    sided(-f64::MAX, -far, -far, -far, 1);
}

/// The walls at -1 and 1, moved inward by a margin of 0.5.
fn boxed(dim: usize, pos_dim: usize) -> FuseConfig {
    let (box_lo, box_hi) = ([-1.5; MAX_POS], [1.5; MAX_POS]);
    let (armed, clamp) = (WORKSPACE, ClampMode::Project);
    FuseConfig { dim, pos_dim, box_lo, box_hi, margin: 0.5, armed, clamp, ..FuseConfig::PLAIN }
}

/// Low, high and moved masks of a chunk from a position.
fn chunk_from(cfg: &FuseConfig, pos: &[f64], data: &[f64]) -> (u32, u32, u32) {
    let (horizon, dim) = ((data.len() / cfg.dim) as u16, cfg.dim as u16);
    let ch = ChunkView { seq: 0, t_emit: 0, horizon, dim, exec_steps: 0, data };
    let r = tier0::check_chunk(cfg, pos, &[], ch, &mut vec![0.0; data.len()]).expect("a chunk that is accepted");
    (r.low_dims, r.high_dims, r.clamped_dims)
}

fn chunk(cfg: &FuseConfig, data: &[f64]) -> (u32, u32, u32) {
    chunk_from(cfg, &[0.0; MAX_POS], data)
}

/// The same of an action from a predecessor and a position.
fn action(cfg: &FuseConfig, pos: &[f64], prev: &[f64], a: &[f64]) -> (u32, u32, u32) {
    let r = tier0::check_action(cfg, pos, &[], prev, a, &mut [0.0; MAX_D]).expect("an action that is accepted");
    (r.low_dims, r.high_dims, r.clamped_dims)
}

#[test]
fn a_wall_that_is_touched_sets_no_bit() {
    let one = boxed(1, 1);
    for (x, due) in [(-1.0, (0, 0, 0)), (1.0, (0, 0, 0)), (-1f64.next_up(), (1, 0, 1)), (1f64.next_up(), (0, 1, 1))] {
        assert_eq!(chunk(&one, &[x]), due, "{x:?}");
        assert_eq!(action(&one, &[0.0], &[0.0], &[x]), due, "{x:?}");
    }
}

#[test]
fn a_bit_means_any_row() {
    let two = boxed(2, 2);
    assert_eq!(chunk(&two, &[-2.0, 0.0, 0.0, 2.0]), (0b01, 0b10, 0b11));
    assert_eq!(chunk(&two, &[-2.0, 0.0, 2.0, 0.0]), (0b01, 0b01, 0b01), "one axis may have both");
    assert_eq!(chunk(&two, &[0.0, 2.0, 0.0, -2.0, 0.0, 0.0]), (0b10, 0b10, 0b10), "and the last row neither");
}

#[test]
fn bits_end_at_the_lesser_of_the_two_sizes() {
    assert_eq!(chunk(&boxed(3, 1), &[2.0, 2.0, -2.0]), (0, 0b001, 0b001));
    assert_eq!(action(&boxed(3, 2), &[0.0; 2], &[0.0; 3], &[-2.0, 2.0, -2.0]), (0b001, 0b010, 0b011));
    assert_eq!(chunk(&boxed(1, 3), &[-2.0]), (1, 0, 1));
    let eight = [-2.0, 2.0, -2.0, 2.0, -2.0, 2.0, -2.0, 2.0];
    assert_eq!(chunk(&boxed(8, 8), &eight), (0x55, 0xaa, 0xff));
}

#[test]
fn neither_without_projection_or_with_the_box_unarmed() {
    let off = FuseConfig { clamp: ClampMode::Off, ..boxed(1, 1) };
    let unarmed = FuseConfig { armed: !WORKSPACE, ..boxed(1, 1) };
    for (cfg, moved) in [(off, 0), (unarmed, 1)] {
        assert_eq!(chunk(&cfg, &[-2.0, 2.0]), (0, 0, moved));
        assert_eq!(action(&cfg, &[0.0], &[0.0], &[2.0]), (0, 0, moved));
    }
}

#[test]
fn leash_and_reach_set_neither() {
    let inside = [0.75];
    let leashed = FuseConfig { armed: WORKSPACE | SPEED, v_max: 0.5, ..boxed(1, 1) };
    assert_eq!((chunk(&leashed, &inside), action(&leashed, &[0.0], &[0.0], &inside)), ((0, 0, 1), (0, 0, 1)));
    let reached = FuseConfig { armed: WORKSPACE | REACH, reach_max: 0.5, ..boxed(1, 1) };
    assert_eq!((chunk(&reached, &inside), action(&reached, &[0.0], &[0.0], &inside)), ((0, 0, 1), (0, 0, 1)));
}

/// From 2 a row at 2 is lowered to its wall at 1, and a limit that is lost beside 2 pulls it back to where it came from.
#[test]
fn a_bit_stays_where_the_coordinate_is_brought_back() {
    let (here, less) = ([2.0], 1e-20);
    let leashed = FuseConfig { armed: WORKSPACE | SPEED, v_max: less, ..boxed(1, 1) };
    let reached = FuseConfig { armed: WORKSPACE | REACH, reach_max: less, ..boxed(1, 1) };
    for cfg in [leashed, reached] {
        assert_eq!(chunk_from(&cfg, &here, &here), (0, 1, 0));
        assert_eq!(action(&cfg, &here, &here, &here), (0, 1, 0));
    }
}

/// What brake and hold answer alike: low and high masks, and the row. The masks are the same where the last command is written past pos_dim.
fn braked(cfg: &FuseConfig, p: &[f64]) -> (u32, u32, Vec<f64>) {
    let (mut row, mut held, last) = (vec![7.0; cfg.dim], vec![7.0; cfg.dim], [-9.0; MAX_D]);
    let marks = brake::brake_action(cfg, p, &[], &[], &mut row).expect("a brake that is accepted");
    assert_eq!(brake::hold_action(cfg, p, &[], &mut held), Ok(marks));
    assert_eq!(row, held);
    let kept = FuseConfig { gripper: Gripper::LastCommand, ..*cfg };
    assert_eq!(brake::brake_action(&kept, p, &[], &last, &mut held), Ok(marks));
    assert_eq!(brake::hold_action(&kept, p, &last, &mut held), Ok(marks));
    (marks.low_dims, marks.high_dims, row)
}

#[test]
fn brake_and_hold_at_their_walls() {
    let three = boxed(3, 3);
    assert_eq!(braked(&three, &[-2.0, 2.0, 0.0]), (0b001, 0b010, vec![-1.0, 1.0, 0.0]));
    assert_eq!(braked(&three, &[-1.0, 1.0, 1f64.next_up()]), (0, 0b100, vec![-1.0, 1.0, 1.0]));
}

#[test]
fn brake_and_hold_whatever_is_armed_and_clamped() {
    for (armed, clamp) in [(0, ClampMode::Off), (63, ClampMode::Off), (0, ClampMode::Project)] {
        assert_eq!(braked(&FuseConfig { armed, clamp, ..boxed(1, 1) }, &[2.0]), (0, 1, vec![1.0]));
    }
}

#[test]
fn an_axis_past_pos_dim_is_moved_and_sets_no_bit() {
    assert_eq!(braked(&boxed(3, 1), &[2.0, 3.0, -3.0]), (0, 1, vec![1.0, 0.0, 0.0]));
    assert_eq!(braked(&boxed(1, 3), &[-2.0, 3.0, -3.0]), (1, 0, vec![-1.0]));
}

#[test]
fn a_missing_coordinate_counts_as_zero() {
    let above = FuseConfig { box_lo: [0.0; MAX_POS], ..boxed(2, 2) };
    assert_eq!(braked(&above, &[]), (0b11, 0, vec![0.5, 0.5]));
    assert_eq!(braked(&above, &[0.75]), (0b10, 0, vec![0.75, 0.5]));
    let below = FuseConfig { box_hi: [0.0; MAX_POS], ..boxed(2, 2) };
    assert_eq!(braked(&below, &[-0.75]), (0, 0b10, vec![-0.75, -0.5]));
    let touching = FuseConfig { box_lo: [-0.5; MAX_POS], ..boxed(1, 1) };
    assert_eq!(braked(&touching, &[]), (0, 0, vec![0.0]));
}

#[test]
fn velocity_kinds_report_neither() {
    for kind in [ActionKind::JointVelocity, ActionKind::EeDelta] {
        assert_eq!(braked(&FuseConfig { kind, ..boxed(2, 2) }, &[-2.0, 2.0]), (0, 0, vec![0.0, 0.0]));
    }
    for kind in [ActionKind::EePosition, ActionKind::JointPosition, ActionKind::Other] {
        assert_eq!(braked(&FuseConfig { kind, ..boxed(2, 2) }, &[-2.0, 2.0]), (0b01, 0b10, vec![-1.0, 1.0]));
    }
}

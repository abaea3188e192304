//! A gripper past pos_dim: the model, the linked entries and the exported functions themselves at cases that are written by hand, in both modes,
//! and on generated inputs what the two modes have in common.

use differential::{
    entries::brake::{brake_action_with_a_gripper, hold_action_with_a_gripper, BrakeIn},
    exported, linked,
    part::KINDS,
    port::{BrakeAction, HoldAction, Port},
    run::{Call, Entry},
};
use model::*;

/// The entries of the three sides, by name.
fn sides() -> [(&'static str, BrakeAction, HoldAction); 3] {
    let of = |port: Port| (port.brake_action.expect("an entry"), port.hold_action.expect("an entry"));
    let ((linked_brake, linked_hold), (exported_brake, exported_hold)) = (of(linked::port()), of(exported::port()));
    [
        ("the model", brake::brake_action, brake::hold_action),
        ("the port", linked_brake, linked_hold),
        ("the exported functions", exported_brake, exported_hold),
    ]
}

/// Masks and the bits of the row, or the number.
type Sent = Result<(WallMarks, Vec<u64>), u8>;

fn bits(row: &[f64]) -> Vec<u64> {
    row.iter().map(|x| x.to_bits()).collect()
}

/// What every side answers to a brake and to a hold; a refusal leaves an output of any length as it was, and so does an accepted call what is
/// past dim.
fn sent_into(c: &FuseConfig, p: &[f64], v: &[f64], last: &[f64], room: usize) -> [Sent; 2] {
    let answers = sides().map(|(side, brake, hold)| {
        let (mut braked, mut held) = (vec![7.0; room], vec![7.0; room]);
        let answers = [brake(c, p, v, last, &mut braked), hold(c, p, last, &mut held)];
        let shown = answers.into_iter().zip([braked, held]).map(|(answer, row)| {
            let written = if answer.is_ok() { c.dim } else { 0 };
            assert!(row[written..].iter().all(|x| *x == 7.0), "{side} writes past its row: {c:?}");
            answer.map(|walls| (walls, bits(&row[..written]))).map_err(|r| {
                assert_eq!(r.place, 0);
                r.number
            })
        });
        shown.collect::<Vec<Sent>>()
    });
    assert_eq!(answers[0], answers[1], "the model and the port: {c:?}, {p:?}, {last:?}");
    assert_eq!(answers[0], answers[2], "the model and the exported functions: {c:?}, {p:?}, {last:?}");
    let [model, ..] = answers;
    model.try_into().expect("a brake and a hold")
}

/// A brake at rest and a hold, which answer alike.
fn sent(c: &FuseConfig, p: &[f64], last: &[f64]) -> Sent {
    let [brake, hold] = sent_into(c, p, &[], last, c.dim);
    assert_eq!(brake, hold, "{c:?}");
    hold
}

/// The number alone, 0 where it is accepted.
fn number(c: &FuseConfig, p: &[f64], last: &[f64]) -> u8 {
    sent(c, p, last).err().unwrap_or(0)
}

const NONE: WallMarks = WallMarks { low_dims: 0, high_dims: 0 };

/// Walls at -1 and 1, in the mode LastCommand.
fn gripping(dim: usize, pos_dim: usize) -> FuseConfig {
    let (box_lo, box_hi, gripper) = ([-1.0; MAX_POS], [1.0; MAX_POS], Gripper::LastCommand);
    FuseConfig { dim, pos_dim, box_lo, box_hi, gripper, ..FuseConfig::PLAIN }
}

/// The same in the Rust's mode.
fn to_zero(c: &FuseConfig) -> FuseConfig {
    FuseConfig { gripper: Gripper::ToZero, ..*c }
}

fn velocity(kind: ActionKind) -> bool {
    [ActionKind::EeDelta, ActionKind::JointVelocity].contains(&kind)
}

/// Every pair of sizes.
fn sizes() -> impl Iterator<Item = (usize, usize)> {
    (1..=8).flat_map(|dim| (1..=8).map(move |pos_dim| (dim, pos_dim)))
}

/// Numbers that are no wall, no zero and told from one another.
const LAST: [f64; 10] = [20.0, 21.0, 22.0, 23.0, 24.0, 25.0, 26.0, 27.0, 28.0, 29.0];

/// A screw held by the last of three axes, closed by a command of 0.25: the arm brakes outside its walls, and the gripper stays as it is.
#[test]
fn a_screw_that_is_kept() {
    let c = gripping(3, 2);
    let (p, last, walls) = ([5.0, -5.0, 0.75], [0.5, 0.5, 0.25], WallMarks { low_dims: 0b10, high_dims: 0b01 });
    assert_eq!(sent(&c, &p, &last), Ok((walls, bits(&[1.0, -1.0, 0.25]))));
    assert_eq!(sent(&to_zero(&c), &p, &last), Ok((walls, bits(&[1.0, -1.0, 0.0]))));
    assert_eq!(sent(&to_zero(&c), &p, &[]), Ok((walls, bits(&[1.0, -1.0, 0.0]))), "where nothing is lent");
}

/// The wall within pos_dim, and past it 0 or the last command, with no bit in a mask.
#[test]
fn every_pair_of_sizes_and_every_kind() {
    for ((dim, pos_dim), kind) in sizes().flat_map(|size| KINDS.map(|kind| (size, kind))) {
        let c = FuseConfig { kind, ..gripping(dim, pos_dim) };
        let within = |past: fn(usize) -> f64| {
            bits(&(0..dim).map(|j| if j < pos_dim { 1.0 } else { past(j) }).collect::<Vec<_>>())
        };
        let marks = WallMarks { low_dims: 0, high_dims: (1 << dim.min(pos_dim)) - 1 };
        let (kept, opened) = match velocity(kind) {
            true => ((NONE, bits(&[0.0; 8][..dim])), (NONE, bits(&[0.0; 8][..dim]))),
            false => ((marks, within(|j| 20.0 + j as f64)), (marks, within(|_| 0.0))),
        };
        assert_eq!(sent(&c, &[5.0; 8], &LAST), Ok(kept), "{kind:?} {dim}, {pos_dim}");
        assert_eq!(sent(&to_zero(&c), &[5.0; 8], &LAST), Ok(opened), "{kind:?} {dim}, {pos_dim}");
    }
}

/// Bit for bit, whatever the position has there and whatever the walls would be.
#[test]
fn the_last_command_as_it_came() {
    let c = FuseConfig { box_lo: [-1.0, f64::NAN, 3.0, 0.0, 0.0, 0.0, 0.0, 0.0], ..gripping(3, 1) };
    for x in [0.0, -0.0, 5e-324, -5e-324, 0.5, -1.0, 9.0, f64::MAX, -f64::MAX] {
        for p in [&[][..], &[0.5], &[0.5, 3.0, -3.0], &[0.5, -0.0, 0.0, 4.0]] {
            let first = p.first().copied().unwrap_or(0.0);
            assert_eq!(sent(&c, p, &[7.0, x, -x]), Ok((NONE, bits(&[first, x, -x]))), "{x:?} from {p:?}");
        }
    }
}

/// Neither what is armed nor the clamp mode matters, and neither does the kind of brake.
#[test]
fn whatever_is_armed_and_clamped() {
    for (armed, clamp) in [(0, ClampMode::Off), (63, ClampMode::Off), (0, ClampMode::Project), (63, ClampMode::Project)]
    {
        for kind in differential::part::BRAKES {
            let c = FuseConfig { armed, clamp, ..gripping(2, 1) };
            let c = FuseConfig { brake: BrakeModel { kind, ..c.brake }, ..c };
            assert_eq!(sent(&c, &[0.5, 9.0], &[7.0, 3.0]), Ok((NONE, bits(&[0.5, 3.0]))));
        }
    }
}

/// A velocity and a displacement are ramped down in both modes alike, past pos_dim as within it: from 5 by an a_max of 2 in half a second.
#[test]
fn velocities_in_both_modes() {
    for (kind, due) in [(ActionKind::JointVelocity, 4.0), (ActionKind::EeDelta, 2.0)] {
        let c = FuseConfig { kind, dt: 0.5, a_max: 2.0, ..gripping(3, 1) };
        let [kept, opened] = [c, to_zero(&c)].map(|c| {
            let [brake, hold] = sent_into(&c, &[9.0; 3], &[0.0, 3.0, -4.0], &LAST, 4);
            assert_eq!(hold, Ok((NONE, bits(&[0.0; 3]))), "{kind:?}");
            brake.expect("accepted")
        });
        assert_eq!(kept, opened, "{kind:?}");
        let [_, x, y] = kept.1[..] else { panic!("three axes") };
        let ramped = [x, y].map(|x| f64::from_bits(x) / due * 5.0);
        assert!((ramped[0] - 3.0).abs() < 1e-8 && (ramped[1] + 4.0).abs() < 1e-8, "{kind:?} {ramped:?}");
    }
}

/// 11 on both sides of dim in the new mode, for every kind and every pair of sizes; in the Rust's mode no length is judged.
#[test]
fn every_length_of_a_last_command() {
    for ((dim, pos_dim), kind) in sizes().flat_map(|size| KINDS.map(|kind| (size, kind))) {
        let c = FuseConfig { kind, ..gripping(dim, pos_dim) };
        for length in 0..=10 {
            let due = if length < dim { 11 } else { 0 };
            assert_eq!(number(&c, &[], &LAST[..length]), due, "{kind:?} {dim}, {pos_dim}: {length}");
            assert_eq!(number(&to_zero(&c), &[], &LAST[..length]), 0, "{kind:?} {dim}, {pos_dim}: {length}");
        }
    }
}

/// 12 for any of its numbers, read or not, for every kind; in the Rust's mode none is judged.
#[test]
fn a_last_command_that_is_not_finite() {
    for ((dim, pos_dim), kind) in sizes().flat_map(|size| KINDS.map(|kind| (size, kind))) {
        let c = FuseConfig { kind, ..gripping(dim, pos_dim) };
        for (place, bad) in
            (0..dim + 2).flat_map(|place| [f64::NAN, f64::INFINITY, f64::NEG_INFINITY].map(|x| (place, x)))
        {
            let mut last = LAST[..dim + 2].to_vec();
            last[place] = bad;
            let case = format!("{kind:?} {dim}, {pos_dim}: {bad} at {place}");
            assert_eq!(number(&c, &[], &last), 12, "{case}");
            assert_eq!(number(&c, &[], &last[..dim]), if place < dim { 12 } else { 0 }, "{case}, of dim numbers");
            assert_eq!(number(&to_zero(&c), &[], &last), 0, "{case}");
        }
    }
    for bad in [0x7ff0_0000_0000_0001, 0xfff8_0000_dead_beef, 0x7fff_ffff_ffff_ffff] {
        assert_eq!(number(&gripping(1, 1), &[], &[f64::from_bits(bad)]), 12, "{bad:x}");
    }
}

/// Three axes of a round table of radius 5 and a height between -1 and 1; what is not read would be refused.
fn table(dim: usize, pos_dim: usize) -> FuseConfig {
    let mut c = FuseConfig { shape: Shape::disc([0.0; 2], 5.0), ..gripping(dim, pos_dim) };
    c.box_lo[..2].fill(f64::NAN);
    c.box_hi[..2].fill(-9.0);
    c
}

/// On a round table the first two axes are pulled, the third has its walls, and past pos_dim stands the last command.
#[test]
fn at_a_round_table() {
    let shrink = 1.0 - 1.0 / 68719476736.0;
    let [x, y] = [6.0, 8.0].map(|x| x * (5.0 * shrink / 10.0));
    let (p, last) = ([6.0, 8.0, 9.0, 9.0], [-8.0, -7.0, -6.0, -0.0]);
    let high = WallMarks { low_dims: 0, high_dims: 0b100 };
    assert_eq!(sent(&table(4, 3), &p, &last), Ok((high, bits(&[x, y, 1.0, -0.0]))));
    assert_eq!(sent(&table(4, 2), &p, &last), Ok((NONE, bits(&[x, y, -6.0, -0.0]))));
    assert_eq!(sent(&table(2, 4), &p, &last), Ok((NONE, bits(&[x, y]))));
    assert_eq!(sent(&to_zero(&table(4, 3)), &p, &[f64::NAN]), Ok((high, bits(&[x, y, 1.0, 0.0]))));
    assert_eq!(sent(&to_zero(&table(4, 2)), &p, &[f64::NAN]), Ok((NONE, bits(&[x, y, 0.0, 0.0]))));
    for c in [table(4, 3), to_zero(&table(4, 3))] {
        assert_eq!(number(&c, &[1e200, 0.0, 0.0], &last), 13, "a position that cannot be measured");
        assert_eq!(number(&FuseConfig { kind: ActionKind::EeDelta, ..c }, &[1e200, 0.0, 0.0], &last), 0);
    }
}

/// Both entries' numbers with an output of this length.
fn numbers(c: &FuseConfig, p: &[f64], v: &[f64], last: &[f64], room: usize) -> [u8; 2] {
    sent_into(c, p, v, last, room).map(|answer| answer.err().unwrap_or(0))
}

/// The configuration's number, then 11 of the output or the last command, then 12 of any input, then 13.
#[test]
fn the_order_of_judging() {
    let (nan, far) = (f64::NAN, [1e200, 0.0, 0.0]);
    let c = table(4, 3);
    let zone = |v_max, a1| Zones::of(&[ContactLimit { radius: 1.0, v_max, a0: 0, a1 }]);
    let stall = Calibration { mask: 1 << STALL, ..Calibration::DISARMED };
    for (refused, due) in [
        (FuseConfig { pos_dim: 9, ..c }, 1),
        (FuseConfig { dim: 9, ..c }, 1),
        (FuseConfig { dt: 0.0, ..c }, 2),
        (FuseConfig { zones: zone(0.0, 1), aux_count: 2, ..c }, 2),
        (FuseConfig { brake: BrakeModel { substeps: 0, ..c.brake }, ..c }, 3),
        (FuseConfig { zones: zone(1.0, 0), aux_count: 2, ..c }, 4),
        (FuseConfig { pos_dim: 1, ..c }, 15),
        (FuseConfig { calibrated: true, cal: stall, horizon_ticks: 1, ..c }, 17),
    ] {
        for (last, room) in [(&[nan; 3][..], 3), (&[nan; 3], 4), (&[nan; 9], 9), (&[0.0; 9], 3), (&[0.0; 9], 9)] {
            assert_eq!(numbers(&refused, &far, &[nan], last, room), [due; 2]);
            assert_eq!(numbers(&to_zero(&refused), &far, &[nan], last, room), [due; 2]);
        }
    }
    // 11 before every 12, whichever of the two buffers is short
    for (last, room) in [(&[nan; 3][..], 4), (&[nan; 4], 3), (&[0.0; 3], 4), (&[0.0; 4], 3), (&[nan; 3], 3), (&[], 0)] {
        assert_eq!(numbers(&c, &[nan], &[nan], last, room), [11; 2], "{last:?} and {room}");
        assert_eq!(numbers(&c, &far, &[], last, room), [11; 2], "{last:?} and {room}");
        let due = if room < 4 { 11 } else { 13 };
        assert_eq!(numbers(&to_zero(&c), &far, &[], last, room), [due; 2], "{last:?} and {room}, in the Rust's mode");
    }
    // 12 before 13
    assert_eq!(numbers(&c, &far, &[], &[0.0, 0.0, 0.0, 0.0, nan], 4), [12; 2]);
    assert_eq!(numbers(&c, &far, &[nan], &[0.0; 4], 4), [12, 13], "a hold takes no velocity");
    assert_eq!(numbers(&c, &far, &[], &[0.0; 4], 4), [13; 2]);
    assert_eq!(numbers(&to_zero(&c), &far, &[], &[nan; 5], 4), [13; 2]);
    // a velocity of which the norm is not finite
    let fast = FuseConfig { kind: ActionKind::JointVelocity, ..gripping(1, 1) };
    let braked = |c: &FuseConfig, last: &[f64]| numbers(c, &[], &[1e200], last, 1);
    assert_eq!([braked(&fast, &[]), braked(&fast, &[nan]), braked(&fast, &[0.0, nan])], [[11; 2], [12; 2], [12; 2]]);
    assert_eq!([braked(&fast, &[0.0]), braked(&to_zero(&fast), &[nan])], [[13, 0]; 2]);
}

/// Masks and signs of an answer, or the refusal, and the row, in which the two zeros are one.
fn shown(call: &Call<BrakeIn>, i: &BrakeIn) -> (Result<Vec<i64>, Refusal>, Vec<u64>) {
    let outcome = call(i);
    (outcome.answer.map(|shown| shown.added), as_numbers(&outcome.buffers.numbers))
}

/// The bits, in which the two zeros are one.
fn as_numbers(row: &[f64]) -> Vec<u64> {
    row.iter().map(|x| if *x == 0.0 { 0 } else { x.to_bits() }).collect()
}

/// What the two modes have in common, on the generated inputs through the exported functions: in the Rust's mode the last command may be anything;
/// where both are accepted the masks are the same, and the rows but for the last command past pos_dim; and what the Rust's mode refuses the new
/// one does, too.
fn the_modes_beside_one_another(entry: Entry<BrakeIn>) {
    let port = entry.port.as_ref().expect("an entry");
    let mut met = [0; 3];
    for call in 0..40_000 {
        let input = entry.input(7, call);
        let due = shown(&entry.model, &input);
        assert_eq!(shown(port, &input), due, "{}: {input:?}", entry.name);
        let opened = BrakeIn { cfg: to_zero(&input.cfg), last: vec![f64::NAN; 3], ..input.clone() };
        let plain = shown(port, &opened);
        for last in [vec![], vec![f64::INFINITY; 20], input.last.clone()] {
            assert_eq!(shown(port, &BrakeIn { last, ..opened.clone() }), plain, "{}: {opened:?}", entry.name);
        }
        let kept = BrakeIn { cfg: FuseConfig { gripper: Gripper::LastCommand, ..input.cfg }, ..input.clone() };
        let (answer, row) = shown(port, &kept);
        match (&plain.0, &answer) {
            (Ok(opened_marks), Ok(marks)) => {
                let FuseConfig { dim, pos_dim, kind, .. } = kept.cfg;
                let within = if velocity(kind) { dim } else { dim.min(pos_dim) };
                assert_eq!(
                    (&row[..within], &row[dim..]),
                    (&plain.1[..within], &plain.1[dim..]),
                    "{}: {kept:?}",
                    entry.name
                );
                assert_eq!(marks[..2], opened_marks[..], "{}: {kept:?}", entry.name);
                assert_eq!(row[within..dim], as_numbers(&kept.last[within..dim]), "{}: {kept:?}", entry.name);
                met[(within < dim) as usize] += 1;
            }
            (Ok(_), Err(r)) => {
                let short = kept.last.len() < kept.cfg.dim;
                assert_eq!(r.number, if short { 11 } else { 12 }, "{}: {kept:?}", entry.name);
                met[2] += 1;
            }
            (Err(r), answer) => {
                let number = answer.as_ref().err().map(|r| r.number);
                let sooner = matches!((r.number, number), (12, Some(11)) | (13, Some(11 | 12)));
                assert!(sooner || number == Some(r.number), "{}: {kept:?}", entry.name);
            }
        }
    }
    assert!(met.iter().all(|n| *n > 1000), "{}: {met:?}", entry.name);
}

#[test]
fn what_the_two_modes_have_in_common() {
    assert!(lictor::environment_ok());
    the_modes_beside_one_another(brake_action_with_a_gripper(&exported::port()));
    the_modes_beside_one_another(hold_action_with_a_gripper(&exported::port()));
    the_modes_beside_one_another(brake_action_with_a_gripper(&linked::port()));
    the_modes_beside_one_another(hold_action_with_a_gripper(&linked::port()));
}

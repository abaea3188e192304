//! What brake and hold write past `pos_dim` in both modes, and when the last command is judged.

use lictor::{
    brake::{brake_action, hold_action, WallMarks},
    config::{ActionKind, BrakeKind, BrakeModel, Config, ConfigBuilder, FuseConfig, Gripper, Shape},
    Answer, Refusal,
};

const BRAKE: BrakeModel = BrakeModel {
    kind: BrakeKind::PdSecondOrder,
    k_p: 2.0,
    k_v: 1.0,
    dt: 0.5,
    substeps: 2,
    commit: 1,
    brake_steps: 1,
    react_ticks: 1,
};

const KINDS: [ActionKind; 5] = [
    ActionKind::EePosition,
    ActionKind::EeDelta,
    ActionKind::JointPosition,
    ActionKind::JointVelocity,
    ActionKind::Other,
];

/// Where the arm stands and how it moves, beyond a wall on four axes, and the row that was sent, of which no number is one of those.
const POSITION: [f64; 9] = [5.0, -5.0, 0.25, 2.0, -3.0, 0.5, -0.5, 0.125, 0.0];
const VELOCITY: [f64; 9] = [0.5, -0.5, 0.25, 2.0, 1.0, -1.0, 0.5, 0.25, 0.0];
const SENT: [f64; 9] = [0.75, -0.0, 5e-324, -0.875, 9.0, -0.0, f64::MAX, -7.0, 3.0];

/// Walls at -1 and 1, and so many axes of a row and of a position.
fn arm(dim: usize, pos_dim: usize) -> ConfigBuilder {
    let limits = Config::builder().dt(1.0).v_max(9.0).a_max(0.5).j_max(9.0).reach_max(9.0);
    limits.walls([-1.0; 8], [1.0; 8]).brake(BRAKE).dim(dim).pos_dim(pos_dim)
}

/// The bits of what brake, or hold, writes over nine sevens, and its marks.
fn written(builder: &ConfigBuilder, holds: bool, last: &[f64]) -> (Answer<WallMarks>, [u64; 9]) {
    let (config, mut row) = (builder.build().unwrap(), [7.0; 9]);
    let given = if holds {
        hold_action(&config, &POSITION, last, &mut row)
    } else {
        brake_action(&config, &POSITION, &VELOCITY, last, &mut row)
    };
    (given, row.map(f64::to_bits))
}

/// Calls `check` with an arm of every kind, with dim above, at and below `pos_dim`, at a box and on a round table; it brakes, and it holds.
fn of_every_arm(check: impl Fn(&ConfigBuilder, ActionKind, usize, usize, bool)) {
    for (dim, pos_dim) in [(1, 1), (2, 1), (4, 2), (8, 1), (8, 3), (3, 3), (8, 8), (2, 4), (1, 8)] {
        for (kind, shape) in KINDS
            .into_iter()
            .flat_map(|kind| [(kind, Shape::Box), (kind, Shape::Disc { center: [0.25, 0.5], radius: 0.75 })])
        {
            if shape != Shape::Box && (dim < 2 || pos_dim < 2) {
                continue;
            }
            for holds in [false, true] {
                check(&arm(dim, pos_dim).kind(kind).shape(shape), kind, dim, pos_dim, holds);
            }
        }
    }
}

#[test]
fn a_form_without_a_gripper_sends_it_to_zero() {
    assert_eq!(Gripper::default(), Gripper::ToZero);
    assert_eq!(ConfigBuilder::START.gripper, Gripper::ToZero);
    let mut row = [7.0; 3];
    let walls = hold_action(&arm(3, 2).build().unwrap(), &[0.5; 3], &[], &mut row);
    assert_eq!((walls, row), (Ok(WallMarks::default()), [0.5, 0.5, 0.0]));
    // what is set replaces what was set
    let replaced = arm(3, 2).gripper(Gripper::LastCommand).gripper(Gripper::ToZero).build().unwrap();
    assert_eq!(hold_action(&replaced, &[0.5; 3], &[], &mut row), Ok(WallMarks::default()));
}

#[test]
fn a_closed_gripper_stays_closed() {
    let (config, mut row) = (arm(4, 2).gripper(Gripper::LastCommand).build().unwrap(), [7.0; 5]);
    let walls = brake_action(&config, &[5.0, -5.0, 0.25], &[], &[0.5, 0.5, 0.75, -2.0], &mut row);
    assert_eq!((walls, row), (Ok(WallMarks { low_dims: 0b10, high_dims: 0b01 }), [1.0, -1.0, 0.75, -2.0, 7.0]));
    let walls = hold_action(&config, &[0.25], &[0.5, 0.5, 9.0, 1e300], &mut row);
    assert_eq!((walls, row), (Ok(WallMarks::default()), [0.25, 0.0, 9.0, 1e300, 7.0]));
}

/// Past `pos_dim` a row of positions is the last command, bit for bit; everything else is the row of the other mode, and so are the marks.
#[test]
fn past_pos_dim_of_a_position_alone() {
    of_every_arm(|arm, kind, dim, pos_dim, holds| {
        let (walls, mut due) = written(arm, holds, &[]);
        assert!(walls.is_ok());
        if !matches!(kind, ActionKind::EeDelta | ActionKind::JointVelocity) {
            for j in pos_dim..dim {
                assert_eq!(due[j], 0);
                due[j] = SENT[j].to_bits();
            }
        }
        for len in [dim, dim + 1] {
            let kept = written(&arm.gripper(Gripper::LastCommand), holds, &SENT[..len]);
            assert_eq!(kept, (walls, due), "{kind:?}, {dim} of {pos_dim}, {len} lent, holds {holds}");
        }
    });
}

/// A short one and one that is not finite, within dim and past it, read or not, are refused in the new mode, and make no difference in the other.
#[test]
fn the_last_command_is_judged_in_its_mode_alone() {
    of_every_arm(|arm, kind, dim, pos_dim, holds| {
        let (zeroed, kept) = (&arm.gripper(Gripper::ToZero), &arm.gripper(Gripper::LastCommand));
        let due = written(zeroed, holds, &[]);
        for len in 0..=dim + 1 {
            for (at, spoiled) in [(len, 0.0), (0, f64::NAN), (dim - 1, f64::INFINITY), (dim, f64::NEG_INFINITY)] {
                let mut last = SENT[..len].to_vec();
                if let Some(number) = last.get_mut(at) {
                    *number = spoiled;
                }
                let case = format!("{kind:?}, {dim} of {pos_dim}, holds {holds}, {last:?}");
                assert_eq!(written(zeroed, holds, &last), due, "{case}");
                let (given, row) = written(kept, holds, &last);
                if len < dim {
                    assert_eq!((given, row), (Err(Refusal::Short), [7f64.to_bits(); 9]), "{case}");
                } else if at < len {
                    assert_eq!((given, row), (Err(Refusal::NotFinite), [7f64.to_bits(); 9]), "{case}");
                } else {
                    assert_eq!(given, due.0, "{case}");
                }
            }
        }
    });
}

/// The configuration, then a length, then a number as it came, then one that is computed.
#[test]
fn refusals_keep_their_order() {
    let table = arm(3, 2).gripper(Gripper::LastCommand).shape(Shape::Disc { center: [0.0; 2], radius: 1.0 });
    let (lost, spoiled) = ([1e200, 0.0], [0.0, 0.0, f64::NAN]);
    let hold =
        |builder: ConfigBuilder, pos: &[f64], last: &[f64]| hold_action(&builder.build()?, pos, last, &mut [0.0; 3]);
    let unfit = Config::unjudged(&FuseConfig { gripper: Gripper::LastCommand, ..ConfigBuilder::START });
    assert_eq!(hold_action(&unfit, &[], &[], &mut []), Err(Refusal::Size));
    assert_eq!(hold(table, &[f64::NAN], &spoiled[1..]), Err(Refusal::Short));
    assert_eq!(hold(table, &lost, &spoiled), Err(Refusal::NotFinite));
    assert_eq!(hold(table, &lost, &[0.0; 3]), Err(Refusal::Computed { place: 0 }));
    assert_eq!(hold(table.gripper(Gripper::ToZero), &lost, &spoiled), Err(Refusal::Computed { place: 0 }));
    let short = hold_action(&table.build().unwrap(), &lost, &spoiled, &mut [0.0; 2]);
    assert_eq!(short, Err(Refusal::Short));
}

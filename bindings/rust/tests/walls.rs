//! Which wall an axis was stopped at: each mask in the field of its name, for the first min(dim, `pos_dim`) axes alone.

use lictor::{
    brake::{brake_action, hold_action, WallMarks},
    chunk::ChunkView,
    config::{trip, ActionKind, BrakeKind, BrakeModel, ClampMode, Config, ConfigBuilder},
    fmath::{clamp, clamp_side},
    tier0::{check_action, check_chunk, Tier0Out},
    Refusal,
};

const BRAKE: BrakeModel = BrakeModel {
    kind: BrakeKind::PdSecondOrder,
    k_p: 2.0,
    k_v: 1.0,
    dt: 0.5,
    substeps: 2,
    commit: 1,
    brake_steps: 1,
    react_ticks: 1,
};

/// Four axes between walls at -1 and 1, the box alone armed.
fn arm() -> ConfigBuilder {
    let limits = Config::builder().axes(4).dt(1.0).v_max(9.0).a_max(9.0).j_max(9.0).reach_max(9.0);
    limits.walls([-1.0; 8], [1.0; 8]).brake(BRAKE).armed(trip::WORKSPACE)
}

#[test]
fn each_mark_has_its_field() {
    let found = check_action(&arm().build().unwrap(), &[0.0; 4], &[], &[0.0; 4], &[-2.0, 2.0, 2.0, 0.0], &mut [0.0; 4]);
    let due =
        Tier0Out { trips: 1, clamped_dims: 0b0111, peak_speed: 12f64.sqrt(), low_dims: 0b0001, high_dims: 0b0110 };
    assert_eq!(found, Ok(due));
}

#[test]
fn any_row_up_to_pos_dim_under_project_with_the_box_armed() {
    let rows = [-2.0, 2.0, 0.0, 1.0, 2.0, 0.0, -2.0, -1.0];
    let walls = |builder: ConfigBuilder| {
        let found = check_chunk(&builder.build()?, &[0.0; 4], &[], ChunkView::new(0, 0, 4, 1, &rows), &mut [0.0; 8])?;
        Ok::<_, Refusal>((found.low_dims, found.high_dims))
    };
    assert_eq!(walls(arm()), Ok((0b0101, 0b0011)));
    assert_eq!(walls(arm().pos_dim(2)), Ok((0b0001, 0b0011)));
    assert_eq!(walls(arm().clamp(ClampMode::Off)), Ok((0, 0)));
    assert_eq!(walls(arm().armed(trip::ALL - trip::WORKSPACE)), Ok((0, 0)));
}

#[test]
fn brake_and_hold_whatever_is_armed() {
    let walls = |builder: ConfigBuilder| {
        let (config, position) = (builder.build()?, [-2.0, 2.0, 2.0, 1.0]);
        let braked = brake_action(&config, &position, &[0.0; 4], &[], &mut [0.0; 4])?;
        assert_eq!(hold_action(&config, &position, &[], &mut [0.0; 4]), Ok(braked));
        Ok::<_, Refusal>((braked.low_dims, braked.high_dims))
    };
    assert_eq!(walls(arm().armed(0).clamp(ClampMode::Off)), Ok((0b0001, 0b0110)));
    assert_eq!(walls(arm().pos_dim(2)), Ok((0b0001, 0b0010)));
    assert_eq!(walls(arm().kind(ActionKind::EeDelta)), Ok((0, 0)));
    let short = hold_action(&arm().walls([0.5; 8], [1.0; 8]).build().unwrap(), &[0.75], &[], &mut [0.0; 4]);
    assert_eq!(short, Ok(WallMarks { low_dims: 0b1110, high_dims: 0 }));
}

#[test]
fn a_side_beside_the_value_of_clamp() {
    for (x, side) in [(-1.5, -1), (-1.0, 0), (0.0, 0), (1.0, 0), (1.5, 1), (f64::NAN, 0)] {
        let (value, found) = clamp_side(x, -1.0, 1.0);
        assert_eq!((value.to_bits(), found), (clamp(x, -1.0, 1.0).to_bits(), side), "{x}");
    }
}

//! Does the guard smooth my rows? No (docs/TRAINEES.md): where none of SPEED, CONTACT, WORKSPACE and REACH is raised they come out bit for bit as
//! they went in, and ACCEL and JERK move none. Tried on an arm of two axes.

use lictor::{
    chunk::ChunkView,
    config::{trip, BrakeKind, BrakeModel, Config, ConfigBuilder, Contact},
    tier0, Refusal,
};

/// Everything armed: a step and a reach of 1 allowed, walls at 0 and 1, and a slow zone in which a step of 1 is allowed, too.
const ARM: ConfigBuilder = Config::builder()
    .axes(2)
    .dt(1.0)
    .v_max(1.0)
    .a_max(1.5)
    .j_max(3.0)
    .reach_max(1.0)
    .walls([0.0; 8], [1.0; 8])
    .aux_count(2)
    .contact(Contact { radius: 1.0, v_max: 1.0, a0: 0, a1: 1 })
    .brake(BrakeModel {
        kind: BrakeKind::PdSecondOrder,
        k_p: 2.0,
        k_v: 1.0,
        dt: 0.5,
        substeps: 2,
        commit: 1,
        brake_steps: 1,
        react_ticks: 1,
    });

/// What the guard answers to three rows from the origin, the camera seeing the tray there, and whether each number comes out with all its bits.
fn unchanged(arm: &Config, rows: &[f64; 6]) -> Result<(tier0::Tier0Out, bool), Refusal> {
    let mut out = [7.0; 6];
    let found = tier0::check_chunk(arm, &[0.0, 0.0], &[0.0, 0.0], ChunkView::new(0, 1, 2, 1, rows), &mut out)?;
    Ok((found, out.map(f64::to_bits) == rows.map(f64::to_bits)))
}

fn main() -> Result<(), Refusal> {
    let arm = ARM.build()?;

    // Rows that touch: the second ends on the high wall of one axis and, as a -0.0, on the low wall of the other; the step to the third is all
    // that is allowed. Nothing is raised, nothing was moved, and the zero keeps its sign.
    let (found, same) = unchanged(&arm, &[0.5, 0.0, 1.0, -0.0, 1.0, 1.0])?;
    assert_eq!((found.trips, found.clamped_dims, same), (0, 0, true));

    // Rows that swing from wall to wall: more acceleration and more jerk than is allowed. Both are raised, for the control box to decide what to
    // do; the rows come out as they went in.
    let (found, same) = unchanged(&arm, &[1.0, 0.0, 0.0, 0.0, 1.0, 0.0])?;
    assert_eq!((found.trips, found.clamped_dims, same), (trip::ACCEL | trip::JERK, 0, true));

    // Rows are moved where one of them exceeds a limit, and a moved row need not be calm. The arm stands outside its box, at -3, and the row is
    // inside, three steps away: SPEED is raised, and the leash pulls the row to one step from the arm, out of the box.
    let (arm, outside, mut out) = (ARM.armed(trip::WORKSPACE | trip::SPEED).build()?, [-3.0, 0.0], [7.0; 2]);
    let found = tier0::check_action(&arm, &outside, &[], &outside, &[0.0, 0.0], &mut out)?;
    assert_eq!((found.trips, found.clamped_dims, found.low_dims), (trip::SPEED, 0b01, 0));
    assert!(-2.001 < out[0] && out[0] < -2.0);

    // Handed in again, that row is raised for the wall that it is beyond. The box moves it, and the leash brings it back to where it was.
    let (sent, mut again) = (out, [7.0; 2]);
    let found = tier0::check_action(&arm, &outside, &[], &outside, &sent, &mut again)?;
    assert_eq!((found.trips, found.clamped_dims, found.low_dims), (trip::WORKSPACE, 0, 0b01));
    assert_eq!(again.map(f64::to_bits), sent.map(f64::to_bits));
    println!("calm rows come out as they went in");
    Ok(())
}

//! Four beliefs about the guard that do not hold (docs/TRAINEES.md), tried on a plane of 2 x 2 metres.

use lictor::{
    brake,
    chunk::ChunkView,
    config::{trip, AbsentCamera, BrakeKind, BrakeModel, Config, ConfigBuilder, Contact, Shape},
    tier0, Refusal,
};

/// Everything armed, a step of 1 allowed, no slow zone.
const ARM: ConfigBuilder = Config::builder()
    .axes(2)
    .dt(1.0)
    .v_max(1.0)
    .a_max(1.0)
    .j_max(1.0)
    .reach_max(4.0)
    .walls([-1.0; 8], [1.0; 8])
    .aux_count(2)
    .brake(BrakeModel {
        kind: BrakeKind::PdSecondOrder,
        k_p: 2.0,
        k_v: 1.0,
        dt: 0.5,
        substeps: 2,
        commit: 1,
        brake_steps: 1,
        react_ticks: 1,
    });

fn main() -> Result<(), Refusal> {
    let (arm, origin, mut out) = (ARM.build()?, [0.0, 0.0], [0.0; 2]);

    // An empty contact box means slow everywhere? The camera sees the hand at the arm, and a step of 1 passes: no zone configured means slow
    // nowhere.
    let found = tier0::check_action(&arm, &origin, &[0.0, 0.0], &origin, &[1.0, 0.0], &mut out)?;
    assert_eq!((found.trips & trip::CONTACT, out), (0, [1.0, 0.0]));
    // What does mean it is a zone whose camera is silent: the same step trips, unless the arm is said to have no camera on purpose.
    let zoned = ARM.contact(Contact { radius: 0.25, v_max: 0.5, a0: 0, a1: 1 });
    let (place, row, half_a_message) = ([-0.5, 0.0], [0.5, 0.0], [0.75]);
    let silent = tier0::check_action(&zoned.build()?, &place, &half_a_message, &place, &row, &mut out)?;
    assert_eq!((silent.trips, out[0] < 0.0), (trip::CONTACT, true));
    let without = zoned.absent_camera(AbsentCamera::NoZone).build()?;
    let passed = tier0::check_action(&without, &place, &half_a_message, &place, &row, &mut out)?;
    assert_eq!((passed.trips, out), (0, row));

    // Two coordinates may share a camera channel? The configuration is refused with 4, armed or not.
    let shared = ARM.armed(0).contact(Contact { radius: 1.0, v_max: 0.5, a0: 1, a1: 1 });
    assert_eq!(shared.build().unwrap_err(), Refusal::Channels);
    // Two zones may not share both of theirs in the same order either; in the other order they are another zone's.
    let zone = Contact { radius: 1.0, v_max: 0.5, a0: 0, a1: 1 };
    assert_eq!(ARM.zones(&[zone, zone]).build().unwrap_err(), Refusal::Channels);
    assert!(ARM.zones(&[zone, Contact { a0: 1, a1: 0, ..zone }]).build().is_ok());

    // Touching a limit trips it? The step of 1 above is the limit, and ends on the wall; a longer one trips.
    assert_eq!(found.trips, 0);
    let longer = tier0::check_action(&arm, &origin, &[], &[-0.5, 0.0], &[0.75, 0.0], &mut out)?;
    assert_eq!(longer.trips, trip::SPEED);

    // The forecast inspects where the arm stands now? It stands a metre outside the box, and the forecast is feasible.
    let rows = ChunkView::new(0, 1, 2, 1, &[0.0, 0.0]);
    let told = brake::brake_feasible(&arm, &[2.0, 0.0], &origin, rows, 0, &mut [0.0; 4])?;
    assert!(told.feasible);
    // On a round table neither, unless the start is too far from the centre to be measured: where the arm would hold is computed.
    let table = ARM.shape(Shape::Disc { center: origin, radius: 1.0 }).build()?;
    assert!(brake::brake_feasible(&table, &[2.0, 0.0], &origin, rows, 0, &mut [0.0; 4])?.feasible);
    let lost = brake::brake_feasible(&table, &[1e200, 0.0], &origin, rows, 1, &mut [0.0; 4]);
    assert_eq!(lost, Err(Refusal::Computed { place: 1 }));
    println!("none of the four beliefs holds");
    Ok(())
}

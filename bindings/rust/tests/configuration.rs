//! What the crate itself does with a configuration: its defaults, its judging, and that no part of it gets lost on the way to the library.

use lictor::{
    brake,
    chunk::ChunkView,
    config::{
        trip, AbsentCamera, ActionKind, BrakeKind, BrakeModel, ClampMode, Config, ConfigBuilder, Contact, FuseConfig,
        Shape, Zones,
    },
    conformal::{self, Calibration, Scores},
    tier0, Refusal,
};

const BRAKE: BrakeModel = BrakeModel {
    kind: BrakeKind::PdSecondOrder,
    k_p: 2.0,
    k_v: 1.0,
    dt: 0.5,
    substeps: 2,
    commit: 1,
    brake_steps: 4,
    react_ticks: 1,
};

const CALIBRATION: Calibration =
    Calibration { center: [0.0; 192], scale: [1.0; 192], tau: 2.0, mask: 0xf7f, n_terms: 1, terms: [1; 8] };

/// An arm on a plane, every part of which is set.
fn arm() -> ConfigBuilder {
    Config::builder()
        .axes(2)
        .dt(0.5)
        .v_max(1.0)
        .a_max(4.0)
        .j_max(32.0)
        .reach_max(1.0)
        .walls([-1.0; 8], [1.0; 8])
        .brake(BRAKE)
}

#[test]
fn what_belongs_to_the_arm_has_no_default() {
    const START: FuseConfig = ConfigBuilder::START;
    let whole = FuseConfig {
        dim: 2,
        pos_dim: 2,
        dt: 0.5,
        v_max: 1.0,
        a_max: 4.0,
        j_max: 32.0,
        reach_max: 1.0,
        box_lo: [-1.0; 8],
        box_hi: [1.0; 8],
        brake: BRAKE,
        ..START
    };
    assert!(Config::new(&whole).is_ok() && arm().build().is_ok());
    let missing = vec![
        (FuseConfig { dim: START.dim, ..whole }, Refusal::Size),
        (FuseConfig { pos_dim: START.pos_dim, ..whole }, Refusal::Size),
        (FuseConfig { dt: START.dt, ..whole }, Refusal::Number),
        (FuseConfig { v_max: START.v_max, ..whole }, Refusal::Number),
        (FuseConfig { a_max: START.a_max, ..whole }, Refusal::Number),
        (FuseConfig { j_max: START.j_max, ..whole }, Refusal::Number),
        (FuseConfig { reach_max: START.reach_max, ..whole }, Refusal::Number),
        (FuseConfig { box_lo: START.box_lo, ..whole }, Refusal::Number),
        (FuseConfig { box_hi: START.box_hi, ..whole }, Refusal::Number),
        (FuseConfig { brake: BrakeModel { k_p: START.brake.k_p, ..BRAKE }, ..whole }, Refusal::Number),
        (FuseConfig { brake: BrakeModel { k_v: START.brake.k_v, ..BRAKE }, ..whole }, Refusal::Number),
        (FuseConfig { brake: BrakeModel { dt: START.brake.dt, ..BRAKE }, ..whole }, Refusal::Number),
        (FuseConfig { brake: BrakeModel { substeps: START.brake.substeps, ..BRAKE }, ..whole }, Refusal::Steps),
    ];
    for (i, (config, refusal)) in missing.iter().enumerate() {
        assert_eq!(Config::new(config).unwrap_err(), *refusal, "missing part {i}");
    }
}

#[test]
fn each_part_of_the_builder_comes_to_the_library() {
    let zone = Contact { radius: 1.0, v_max: 0.5, a0: 0, a1: 1 };
    assert!(arm().contact(zone).aux_count(2).build().is_ok());
    let unfit = vec![
        (arm().dim(9), Refusal::Size),
        (arm().pos_dim(9), Refusal::Size),
        (arm().dt(0.0), Refusal::Number),
        (arm().v_max(0.0), Refusal::Number),
        (arm().a_max(0.0), Refusal::Number),
        (arm().j_max(0.0), Refusal::Number),
        (arm().reach_max(0.0), Refusal::Number),
        (arm().margin(-1.0), Refusal::Number),
        (arm().margin(1.5), Refusal::Number),
        (arm().shape(Shape::Disc { center: [0.0; 2], radius: 0.0 }), Refusal::Number),
        (arm().dim(1).shape(Shape::Disc { center: [0.0; 2], radius: 1.0 }), Refusal::Shape),
        (arm().norm([f64::NAN; 8], [1.0; 8]), Refusal::Number),
        (arm().norm([0.0; 8], [0.0; 8]), Refusal::Number),
        (arm().walls([2.0; 8], [1.0; 8]), Refusal::Number),
        (arm().brake(BrakeModel { substeps: 65, ..BRAKE }), Refusal::Steps),
        (arm().contact(zone), Refusal::Channels),
        (arm().contact(Contact { radius: -1.0, ..zone }).aux_count(2), Refusal::Number),
        (arm().calibration(CALIBRATION, 0), Refusal::Steps),
        (arm().calibration(Calibration { n_terms: 9, ..CALIBRATION }, 200), Refusal::Size),
        (arm().calibration(Calibration { scale: [0.0; 192], ..CALIBRATION }, 200), Refusal::Number),
    ];
    for (i, (builder, refusal)) in unfit.iter().enumerate() {
        assert_eq!(builder.build().unwrap_err(), *refusal, "unfit part {i}");
    }
}

#[test]
fn kind_clamp_and_armed_come_to_the_library() {
    let check = |builder: ConfigBuilder| {
        let mut out = [0.0; 2];
        let chunk = ChunkView::new(0, 0, 2, 1, &[5.0, 0.0]);
        let found = tier0::check_chunk(&builder.build()?, &[0.0, 0.0], &[], chunk, &mut out)?;
        Ok::<_, Refusal>((found.trips, out[0] < 1.0))
    };
    let exceeded = trip::WORKSPACE | trip::SPEED | trip::REACH;
    assert_eq!(check(arm()), Ok((exceeded, true)));
    assert_eq!(check(arm().clamp(ClampMode::Off)), Ok((exceeded, false)));
    assert_eq!(check(arm().armed(trip::SPEED)), Ok((trip::SPEED, true)));
    // a bit that is no check arms nothing
    assert_eq!(check(arm().armed(!trip::ALL)), Ok((0, false)));
    let hold = |kind| {
        let mut row = [7.0; 2];
        brake::hold_action(&arm().kind(kind).build()?, &[0.5, 0.5], &[], &mut row)?;
        Ok::<_, Refusal>(row)
    };
    assert_eq!(hold(ActionKind::EePosition), Ok([0.5, 0.5]));
    assert_eq!(hold(ActionKind::JointVelocity), Ok([0.0, 0.0]));
}

/// A zone of half the arm's speed, on two of three channels: a step of 0.5 is longer than it allows.
fn zoned(a0: u8, a1: u8) -> ConfigBuilder {
    arm().armed(trip::CONTACT).contact(Contact { radius: 0.25, v_max: 0.5, a0, a1 }).aux_count(3)
}

/// The trips of a step of 0.5 from the origin, by a chunk and by an action, and whether the row was moved.
fn stepped(builder: &ConfigBuilder, pos: &[f64], aux: &[f64]) -> Result<(u32, bool), Refusal> {
    let (config, step) = (builder.build()?, [0.5, 0.0]);
    let (mut rows, mut out) = ([0.0; 2], [0.0; 2]);
    let chunk = tier0::check_chunk(&config, pos, aux, ChunkView::new(0, 0, 2, 1, &step), &mut rows)?;
    let action = tier0::check_action(&config, pos, aux, &[0.0; 2], &step, &mut out)?;
    assert_eq!((chunk, rows), (action, out));
    Ok((action.trips, action.clamped_dims != 0))
}

#[test]
fn a_form_without_a_tick_is_slow() {
    assert_eq!(AbsentCamera::default(), AbsentCamera::Slow);
    assert_eq!(ConfigBuilder::START.absent_camera, AbsentCamera::Slow);
    // what a builder is not told
    assert_eq!(stepped(&zoned(0, 2), &[0.0; 2], &[]), Ok((trip::CONTACT, true)));
    let said = zoned(0, 2).absent_camera(AbsentCamera::default());
    assert_eq!(stepped(&said, &[0.0; 2], &[]), Ok((trip::CONTACT, true)));
}

#[test]
fn a_silent_camera_by_the_choice() {
    let (inside, outside) = ([0.25, 9.0, 0.0], [0.5, 9.0, 0.0]);
    for (choice, unseen) in [(AbsentCamera::Slow, (trip::CONTACT, true)), (AbsentCamera::NoZone, (0, false))] {
        let builder = zoned(0, 2).absent_camera(choice);
        for short in 0..3 {
            let turned = zoned(2, 0).absent_camera(choice);
            assert_eq!(stepped(&builder, &[0.0; 2], &outside[..short]), Ok(unseen), "{choice:?}, {short} channels");
            assert_eq!(stepped(&turned, &[0.0; 2], &outside[..short]), Ok(unseen), "{choice:?}, {short} channels");
        }
        // a camera that is there decides by itself
        assert_eq!(stepped(&builder, &[0.0; 2], &inside), Ok((trip::CONTACT, true)), "{choice:?}");
        assert_eq!(stepped(&builder, &[0.0; 2], &outside), Ok((0, false)), "{choice:?}");
        // one coordinate, whatever the camera says; two of an arm that has one
        assert_eq!(stepped(&builder.pos_dim(1), &[0.0], &outside), Ok(unseen), "{choice:?}");
        assert_eq!(stepped(&builder.pos_dim(1), &[0.0; 2], &outside), Ok((0, false)), "{choice:?}");
        // no zone and no arming are slow nowhere
        assert_eq!(stepped(&arm().absent_camera(choice), &[0.0; 2], &[]), Ok((0, false)), "{choice:?}");
        let unarmed = builder.armed(trip::ALL - trip::CONTACT - trip::ACCEL - trip::JERK);
        assert_eq!(stepped(&unarmed, &[0.0; 2], &[]), Ok((0, false)), "{choice:?}");
        assert_eq!(stepped(&builder, &[0.0; 2], &[f64::NAN]), Err(Refusal::NotFinite), "{choice:?}");
    }
}

/// A zone of radius 0.25 on two channels of its own, of eight.
fn tray(k: u8) -> Contact {
    Contact { radius: 0.25, v_max: 0.5, a0: 2 * k, a1: 2 * k + 1 }
}

#[test]
fn five_zones_are_refused_by_the_library() {
    let trays = [0, 1, 2, 3, 4, 5].map(tray);
    for n in 0..=trays.len() {
        let due = if n > 4 { Some(Refusal::Size) } else { None };
        assert_eq!(arm().aux_count(12).zones(&trays[..n]).build().err(), due, "{n}");
        assert_eq!(Zones::of(&trays[..n]) == Zones::NONE, n == 0);
    }
    assert_ne!(Zones::of(&trays[..4]), Zones::of(&trays[..5]), "the fifth is counted");
    assert_eq!((Zones::default(), ConfigBuilder::START.zones), (Zones::NONE, Zones::NONE));
}

/// What is set replaces what was set, whether by `zones` or by `contact`: the slow zone that stood there slows nothing.
#[test]
fn zones_that_are_set_replace_those_before() {
    let (slow, fast) = (tray(0), Contact { v_max: 2.0, ..tray(1) });
    let builder = arm().armed(trip::CONTACT).aux_count(4);
    assert_eq!(stepped(&builder.contact(slow), &[0.0; 2], &[0.0; 4]), Ok((trip::CONTACT, true)));
    for replaced in [
        builder.contact(slow).contact(fast),
        builder.contact(slow).zones(&[fast]),
        builder.zones(&[fast, slow]).contact(fast),
        builder.zones(&[slow; 5]).zones(&[fast]),
    ] {
        assert_eq!(stepped(&replaced, &[0.0; 2], &[0.0; 4]), Ok((0, false)));
    }
    assert!(builder.contact(slow).contact(slow).build().is_ok(), "one zone, and no repeated pair");
}

#[test]
fn every_zone_is_judged_armed_or_not() {
    for (k, armed) in (0..4).flat_map(|k| [(k, 0), (k, trip::ALL)]) {
        let with = |change: fn(&mut Contact)| {
            let mut trays = [0, 1, 2, 3].map(tray);
            change(&mut trays[k]);
            arm().armed(armed).aux_count(8).zones(&trays).build().err()
        };
        assert_eq!(with(|_| ()), None);
        assert_eq!(with(|z| z.v_max = 0.0), Some(Refusal::Number), "zone {k}");
        assert_eq!(with(|z| z.radius = -1.0), Some(Refusal::Number), "zone {k}");
        assert_eq!(with(|z| z.radius = f64::NAN), Some(Refusal::Number), "zone {k}");
        assert_eq!(with(|z| z.a1 = z.a0), Some(Refusal::Channels), "zone {k}");
        assert_eq!(with(|z| z.a0 = 8), Some(Refusal::Channels), "zone {k}");
        assert_eq!(with(|z| z.a1 = 255), Some(Refusal::Channels), "zone {k}");
    }
}

#[test]
fn a_repeated_pair_is_refused_and_a_swapped_one_is_not() {
    for (i, j) in [(0, 1), (0, 2), (0, 3), (1, 2), (1, 3), (2, 3)] {
        let with = |pair: fn(Contact) -> (u8, u8)| {
            let mut trays = [0, 1, 2, 3].map(tray);
            (trays[j].a0, trays[j].a1) = pair(trays[i]);
            arm().aux_count(8).zones(&trays).build().err()
        };
        assert_eq!(with(|z| (z.a0, z.a1)), Some(Refusal::Channels), "zones {i} and {j}");
        assert_eq!(with(|z| (z.a1, z.a0)), None, "zones {i} and {j}");
    }
}

/// A step of 0.5 from the origin: each zone that the arm is inside holds it, wherever it stands in the list, and none that it is outside.
#[test]
fn any_zone_that_the_arm_is_inside_holds_it() {
    for slow in 0..4 {
        let mut trays = [0, 1, 2, 3].map(|k| Contact { v_max: 2.0, ..tray(k) });
        trays[slow].v_max = 0.5;
        for inside in 0..16_usize {
            let at = |k: usize| if inside >> k & 1 == 1 { 0.0 } else { 9.0 };
            let aux: Vec<f64> = (0..8).map(|channel| at(channel / 2)).collect();
            let builder = arm().armed(trip::CONTACT).aux_count(8).zones(&trays);
            let held = inside >> slow & 1 == 1;
            let due = if held { (trip::CONTACT, true) } else { (0, false) };
            assert_eq!(stepped(&builder, &[0.0; 2], &aux), Ok(due), "zone {slow} of {inside:04b}");
            // a message that ends before the slow zone's channels: by the choice, for that zone
            let (short, old) = (&vec![9.0; 2 * slow + 1], builder.absent_camera(AbsentCamera::NoZone));
            assert_eq!(stepped(&builder, &[0.0; 2], short), Ok((trip::CONTACT, true)), "zone {slow}");
            assert_eq!(stepped(&old, &[0.0; 2], short), Ok((0, false)), "zone {slow}");
        }
    }
}

/// A round table of radius 5 about this centre, and a height between -1 and 1. The walls of the first two axes would be refused.
fn table(x: f64, y: f64) -> ConfigBuilder {
    let (mut lo, mut hi) = ([-1.0; 8], [1.0; 8]);
    lo[..2].fill(f64::NAN);
    hi[..2].fill(f64::NEG_INFINITY);
    let shape = Shape::Disc { center: [x, y], radius: 5.0 };
    arm().axes(3).v_max(1e300).reach_max(1e300).walls(lo, hi).armed(trip::WORKSPACE).shape(shape)
}

/// Trips, the clamped, the low and the high mask of a row from the origin, and the row that goes out; by a chunk and by an action.
fn sent(builder: &ConfigBuilder, row: [f64; 3]) -> Result<([u32; 4], [f64; 3]), Refusal> {
    let (config, origin) = (builder.build()?, [0.0; 3]);
    let (mut rows, mut out) = ([7.0; 3], [7.0; 3]);
    let chunk = tier0::check_chunk(&config, &origin, &[], ChunkView::new(0, 0, 3, 1, &row), &mut rows);
    let action = tier0::check_action(&config, &origin, &[], &origin, &row, &mut out);
    assert_eq!((chunk, rows), (action, out));
    let found = action?;
    Ok(([found.trips, found.clamped_dims, found.low_dims, found.high_dims], out))
}

#[test]
fn a_form_without_a_shape_is_a_box() {
    assert_eq!(Shape::default(), Shape::Box);
    assert_eq!(ConfigBuilder::START.shape, Shape::Box);
    // what is set replaces what was set
    let boxed = arm().shape(Shape::Disc { center: [0.0; 2], radius: 5.0 }).shape(Shape::Box).build().unwrap();
    assert_eq!(boxed.derive().unwrap().box_hi[..3], [1.0, 1.0, 0.0]);
    assert_eq!(table(0.0, 0.0).build().unwrap().derive().unwrap().box_hi[..3], [0.0, 0.0, 1.0]);
    assert_eq!(table(0.0, 0.0).shape(Shape::Box).build().unwrap_err(), Refusal::Number);
}

/// The centre in its order, the radius and what is beyond it; no wall of the table's two axes, and those of the third.
#[test]
fn a_round_table_comes_to_the_library() {
    let pulled = 5.0 * (1.0 - 1.0 / 68_719_476_736.0) / 10.0;
    assert_eq!(sent(&table(0.0, 0.0), [3.0, 4.0, 1.0]), Ok(([0; 4], [3.0, 4.0, 1.0])));
    let far = ([trip::WORKSPACE, 0b111, 0, 0b100], [6.0 * pulled, 8.0 * pulled, 1.0]);
    assert_eq!(sent(&table(0.0, 0.0), [6.0, 8.0, 9.0]), Ok(far));
    assert_eq!(sent(&table(3.0, 0.0), [8.0, 0.0, 0.0]), Ok(([0; 4], [8.0, 0.0, 0.0])));
    assert_eq!(sent(&table(0.0, 3.0), [0.0, 8.0, 0.0]), Ok(([0; 4], [0.0, 8.0, 0.0])));
    assert_eq!(sent(&table(0.0, 3.0), [8.0, 0.0, 0.0]).map(|(marks, _)| marks[0]), Ok(trip::WORKSPACE));
    // the margin moves the third axis alone
    assert_eq!(sent(&table(0.0, 0.0).margin(0.5), [3.0, 4.0, 0.5]), Ok(([0; 4], [3.0, 4.0, 0.5])));
    let off = ([trip::WORKSPACE, 0, 0, 0], [6.0, 8.0, 9.0]);
    assert_eq!(sent(&table(0.0, 0.0).clamp(ClampMode::Off), [6.0, 8.0, 9.0]), Ok(off));
    assert_eq!(sent(&table(0.0, 0.0).armed(0), [6.0, 8.0, 9.0]), Ok(([0; 4], [6.0, 8.0, 9.0])));
    // the step of 1e154 is finite, and the distance is not
    let away = table(-1e154, 0.0).clamp(ClampMode::Off);
    assert_eq!(sent(&away, [1e154, 0.0, 0.0]), Err(Refusal::Computed { place: 0 }));
}

#[test]
fn a_round_table_is_refused_by_the_library() {
    let with = |center, radius| table(0.0, 0.0).shape(Shape::Disc { center, radius }).build().err();
    for radius in [f64::NAN, f64::INFINITY, -1.0, -0.0, 0.0] {
        assert_eq!(with([0.0; 2], radius), Some(Refusal::Number), "radius {radius}");
    }
    for x in [f64::NAN, f64::INFINITY, f64::NEG_INFINITY] {
        assert_eq!([with([x, 0.0], 1.0), with([0.0, x], 1.0)], [Some(Refusal::Number); 2], "centre {x}");
    }
    assert_eq!([with([0.0; 2], 5e-324), with([f64::MAX; 2], f64::MAX)], [None; 2]);
    for (dim, pos_dim) in [(1, 1), (1, 2), (2, 1), (2, 2), (8, 1), (1, 8), (8, 2), (2, 8)] {
        let due = if dim < 2 || pos_dim < 2 { Some(Refusal::Shape) } else { None };
        assert_eq!(table(0.0, 0.0).dim(dim).pos_dim(pos_dim).build().err(), due, "{dim}, {pos_dim}");
    }
    let flat = table(0.0, 0.0).axes(1);
    let zone = Contact { radius: 1.0, v_max: 0.5, a0: 0, a1: 0 };
    let stall = Calibration { mask: 1 << conformal::feature::STALL, ..CALIBRATION };
    assert_eq!(flat.contact(zone).build().unwrap_err(), Refusal::Channels, "15 comes after 4");
    assert_eq!(flat.calibration(stall, 200).build().unwrap_err(), Refusal::Shape, "and before 17");
}

/// The forecast, the brake and the hold on a round table: slacks from the edge, rows on it, and 13 with its place.
#[test]
fn an_arm_stops_on_a_round_table() {
    let config = table(0.0, 0.0).build().unwrap();
    let rows = ChunkView::new(0, 0, 3, 1, &[0.0; 3]);
    let closed =
        table(0.0, 0.0).brake(BrakeModel { kind: BrakeKind::BoundedAccel, commit: 0, ..BRAKE }).build().unwrap();
    let margin = |p: [f64; 3]| brake::brake_feasible(&closed, &p, &[0.0; 3], rows, 0, &mut [0.0]).map(|r| r.margin);
    assert_eq!(
        [margin([3.0, 0.0, 0.5]), margin([3.0, 4.0, 0.0]), margin([6.0, 8.0, 0.0])],
        [Ok(0.5), Ok(0.0), Ok(-5.0)]
    );
    // at a speed of 2, with a_max 4 and one tick of 0.5 to react: half a metre to stop and one on the way
    let moving = brake::brake_feasible(&closed, &[0.0; 3], &[0.0, 2.0, 0.0], rows, 0, &mut [0.0]).map(|r| r.margin);
    assert_eq!(moving, Ok(1.0 - 1.5), "by the third axis");
    let tall = table(0.0, 0.0).walls([-99.0; 8], [99.0; 8]).brake(BrakeModel {
        kind: BrakeKind::BoundedAccel,
        commit: 0,
        ..BRAKE
    });
    let moving = brake::brake_feasible(&tall.build().unwrap(), &[3.0, 0.0, 0.0], &[0.0, 2.0, 0.0], rows, 0, &mut [0.0]);
    assert_eq!(moving.map(|r| r.margin), Ok(2.0 - 1.5), "by the table");
    for brake_steps in [0, 1] {
        let model = BrakeModel { commit: 1, brake_steps, ..BRAKE };
        let config = table(0.0, 0.0).brake(model).build().unwrap();
        let (mut slacks, lost) = ([7.0; 4], [1e200, 0.0, 0.0]);
        let told = brake::brake_feasible(&config, &lost, &[0.0; 3], rows, 1, &mut slacks);
        assert_eq!((told, slacks), (Err(Refusal::Computed { place: 1 }), [7.0; 4]));
    }
    let (pulled, mut row) = (5.0 * (1.0 - 1.0 / 68_719_476_736.0) / 10.0, [7.0; 3]);
    let walls = brake::hold_action(&config, &[6.0, 8.0, -9.0], &[], &mut row).unwrap();
    assert_eq!((walls.low_dims, walls.high_dims, row), (0b100, 0, [6.0 * pulled, 8.0 * pulled, -1.0]));
    let kept = row;
    let braked = brake::brake_action(&config, &[0.0, 1e200], &[], &[], &mut row);
    assert_eq!((braked, row), (Err(Refusal::Computed { place: 0 }), kept));
}

#[test]
fn the_calibration_is_handed_over_once() {
    let config = arm().calibration(CALIBRATION, 200).build().unwrap();
    assert_eq!(config.calibration(), Some(&CALIBRATION));
    assert_eq!(config.time_bin(14), conformal::time_bin(14, 200));
    let mut scores = Scores { valid: 1, ..Scores::default() };
    scores.f[0] = 3.0;
    conformal::standardise(config.calibration().unwrap(), 0, &mut scores).unwrap();
    assert_eq!(conformal::aggregate(config.calibration().unwrap(), &mut scores), Ok(3.0));
    assert_eq!(conformal::trip(config.calibration().unwrap(), &scores), Ok(true));
    assert_eq!(arm().build().unwrap().calibration(), None);
}

#[test]
fn a_calibration_that_names_stall_is_refused() {
    let stall = 1 << conformal::feature::STALL;
    let built = |calibration| arm().calibration(calibration, 200).build().err();
    assert_eq!(built(CALIBRATION), None);
    assert_eq!(built(Calibration { mask: CALIBRATION.mask | stall, ..CALIBRATION }), Some(Refusal::Withdrawn));
    assert_eq!(built(Calibration { terms: [stall; 8], ..CALIBRATION }), Some(Refusal::Withdrawn));
    assert_eq!(built(Calibration { terms: [1, stall, 0, 0, 0, 0, 0, 0], ..CALIBRATION }), None);
}

#[test]
fn a_configuration_that_is_not_judged_is_refused_by_each_call() {
    let unfit = Config::unjudged(&ConfigBuilder::START);
    let chunk = ChunkView::new(0, 0, 2, 1, &[0.0, 0.0]);
    assert_eq!(tier0::check_chunk(&unfit, &[0.0; 2], &[], chunk, &mut [0.0; 2]), Err(Refusal::Size));
    assert_eq!(brake::brake_action(&unfit, &[], &[], &[], &mut [0.0; 2]), Err(Refusal::Size));
}

#[test]
fn a_chunk_that_does_not_come_out_even_is_refused() {
    let config = arm().build().unwrap();
    let check = |dim, data: &[f64]| {
        tier0::check_chunk(&config, &[0.0; 2], &[], ChunkView::new(0, 0, dim, 0, data), &mut [0.0; 200]).map(|_| ())
    };
    assert_eq!(check(2, &[0.0; 128]), Ok(()));
    assert_eq!(check(2, &[0.0; 3]), Err(Refusal::LenMismatch));
    assert_eq!(check(0, &[0.0; 2]), Err(Refusal::Empty));
    assert_eq!(check(2, &[]), Err(Refusal::Empty));
    assert_eq!(check(2, &[0.0; 130]), Err(Refusal::TooLong));
    // two rows more than 16 bits hold
    assert_eq!(check(1, &vec![0.0; 65_538]), Err(Refusal::TooLong));
    assert_eq!(check(1, &[0.0; 2]), Err(Refusal::Width));
}

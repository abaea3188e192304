//! A run towards one setpoint: what it writes and what it keeps, whose gains it has, what it refuses, and that two of them make one.

use lictor::{
    brake::{brake_feasible, run_towards, Ran},
    chunk::ChunkView,
    config::{BrakeKind, BrakeModel, Config, ConfigBuilder, FuseConfig, Shape},
    fmath, Answer, Refusal,
};

const BRAKE: BrakeModel = BrakeModel {
    kind: BrakeKind::PdSecondOrder,
    k_p: 2.25,
    k_v: 1.3,
    dt: 0.1,
    substeps: 7,
    commit: 1,
    brake_steps: 0,
    react_ticks: 1,
};

const KINDS: [BrakeKind; 5] = [
    BrakeKind::PdSecondOrder,
    BrakeKind::FirstOrderDecay,
    BrakeKind::BoundedAccel,
    BrakeKind::JerkLimited,
    BrakeKind::ZeroVelocityHold,
];

const AIM: [f64; 9] = [0.5, -0.25, 0.75, 1.5, -1.25, 0.0, -0.0, 0.3, 9.0];
const POSITION: [f64; 9] = [0.1, 0.2, -0.3, 0.4, -0.5, 0.6, 0.7, -0.8, 7.0];
const VELOCITY: [f64; 9] = [1.0, -0.9, 0.8, 0.7, 0.6, -0.5, 0.4, 0.3, 7.0];

/// Walls at -1 and 1, and so many axes of a row and of a position.
fn arm(dim: usize, pos_dim: usize) -> ConfigBuilder {
    let limits = Config::builder().dt(1.0).v_max(9.0).a_max(0.5).j_max(9.0).reach_max(9.0);
    limits.walls([-1.0; 8], [1.0; 8]).margin(0.125).brake(BRAKE).dim(dim).pos_dim(pos_dim)
}

/// The same, and on a round table where there are two axes for it.
fn shapes(arm: &ConfigBuilder) -> impl Iterator<Item = ConfigBuilder> {
    let round = arm.shape(Shape::Disc { center: [0.25, 0.5], radius: 0.75 });
    [*arm, round].into_iter().filter(|arm| arm.build().is_ok())
}

/// What a run answers, and the bits of the position, the velocity and the slacks that it leaves.
#[derive(Clone, Debug, PartialEq)]
struct Left {
    answer: Answer<(usize, u64)>,
    plant: [[f64; 9]; 2],
    slacks: Vec<f64>,
}

impl Left {
    fn bits(&self) -> Vec<u64> {
        self.plant.iter().flatten().chain(&self.slacks).map(|x| x.to_bits()).collect()
    }
}

/// `n` substeps with room for as many and two more.
fn run(config: &Config, aim: &[f64], [mut pos, mut vel]: [[f64; 9]; 2], n: usize) -> Left {
    let mut slacks = vec![7.0; n + 2];
    let ran = run_towards(config, aim, &mut pos, &mut vel, n, &mut slacks);
    Left { answer: ran.map(|Ran { count, margin }| (count, margin.to_bits())), plant: [pos, vel], slacks }
}

#[test]
fn the_numbers_of_a_run() {
    let brake = BrakeModel { k_p: 2.0, k_v: 1.0, dt: 0.5, ..BRAKE };
    let config = arm(1, 1).margin(0.0).walls([-1.0; 8], [2.0; 8]).brake(brake).build().unwrap();
    let (mut pos, mut vel, mut slacks) = ([0.0], [0.0], [7.0; 4]);
    let ran = run_towards(&config, &[1.0], &mut pos, &mut vel, 3, &mut slacks);
    let due = (Ok(Ran { count: 3, margin: 0.75 }), [1.25], [0.5], [1.5, 1.0, 0.75, 7.0]);
    assert_eq!((ran, pos, vel, slacks), due);
}

/// The axes that a row and a position both have are moved; what is lent past them, and past the substeps, stays.
#[test]
fn what_is_not_the_runs_stays() {
    assert_eq!((shapes(&arm(2, 1)).count(), shapes(&arm(2, 2)).count()), (1, 2));
    for (dim, pos_dim) in [(1, 1), (2, 1), (8, 3), (3, 3), (8, 8), (2, 4), (1, 8)] {
        for config in shapes(&arm(dim, pos_dim)).map(|arm| arm.build().unwrap()) {
            let (live, left) = (dim.min(pos_dim), run(&config, &AIM, [POSITION, VELOCITY], 5));
            assert!(left.answer.is_ok());
            for (now, before) in left.plant.iter().zip([POSITION, VELOCITY]) {
                for (j, (now, before)) in now.iter().zip(before).enumerate() {
                    assert_eq!(now.to_bits() == before.to_bits(), j >= live, "axis {j} of {dim} and {pos_dim}");
                }
            }
            assert!(left.slacks[..5].iter().all(|s| *s < 1.0) && left.slacks[5..] == [7.0; 2]);
            // none changes nothing
            let none = run(&config, &AIM, [POSITION, VELOCITY], 0);
            assert_eq!((none.answer, none.plant), (Ok((0, f64::INFINITY.to_bits())), [POSITION, VELOCITY]));
            assert_eq!(none.slacks, [7.0; 2]);
        }
    }
}

#[test]
fn every_kind_has_its_gains() {
    for arm in shapes(&arm(3, 3)) {
        let of = |brake| run(&arm.brake(brake).build().unwrap(), &AIM, [POSITION, VELOCITY], 9);
        let due = of(BRAKE);
        for kind in KINDS {
            assert_eq!(of(BrakeModel { kind, ..BRAKE }).bits(), due.bits(), "{kind:?}");
            for other in
                [BrakeModel { k_p: 2.5, ..BRAKE }, BrakeModel { k_v: 1.5, ..BRAKE }, BrakeModel { dt: 0.2, ..BRAKE }]
            {
                let left = of(BrakeModel { kind, ..other });
                assert!(left.plant != due.plant && left.slacks[0].to_bits() != due.slacks[0].to_bits(), "{kind:?}");
            }
        }
    }
}

/// One committed row that is held for all its substeps is such a run, bit for bit.
#[test]
fn a_row_of_a_forecast() {
    for config in shapes(&arm(3, 3)).map(|arm| arm.build().unwrap()) {
        let (left, mut slacks) = (run(&config, &AIM[..3], [POSITION, VELOCITY], 7), [7.0; 9]);
        let row = ChunkView::new(0, 1, 3, 1, &AIM[..3]);
        let told = brake_feasible(&config, &POSITION, &VELOCITY, row, 0, &mut slacks).unwrap();
        assert_eq!(left.answer, Ok((told.count, told.margin.to_bits())));
        assert_eq!(left.slacks.iter().map(|s| s.to_bits()).collect::<Vec<_>>(), slacks.map(f64::to_bits));
    }
}

/// Accepted or refused, at every split.
#[test]
fn two_runs_make_one() {
    const WHOLE: usize = 24;
    for (arm, k_p) in
        shapes(&arm(3, 4)).chain(shapes(&arm(4, 2))).flat_map(|arm| [2.25, 1e40, 1e200].map(|k_p| (arm, k_p)))
    {
        let config = arm.brake(BrakeModel { k_p, ..BRAKE }).build().unwrap();
        let whole = run(&config, &AIM, [POSITION, VELOCITY], WHOLE);
        assert_eq!(whole.answer.is_ok(), k_p < 1e40);
        // the least slack is neither the first nor the last
        let least = whole.answer.map_or(f64::NEG_INFINITY, |(_, margin)| f64::from_bits(margin));
        assert!(least < whole.slacks[0] && least < whole.slacks[WHOLE - 1]);
        for m in 0..=WHOLE {
            let first = run(&config, &AIM, [POSITION, VELOCITY], m);
            let Ok((_, margin)) = first.answer else {
                assert_eq!((first.answer, first.plant), (whole.answer, whole.plant), "{m} of {WHOLE}");
                assert_eq!(first.slacks[..m], whole.slacks[..m]);
                continue;
            };
            let second = run(&config, &AIM, first.plant, WHOLE - m);
            let (place, least) = match second.answer {
                Ok((_, after)) => (0, Ok((WHOLE, fmath::min(f64::from_bits(margin), f64::from_bits(after)).to_bits()))),
                Err(refusal) => (m + refusal.place(), Err(Refusal::Computed { place: m + refusal.place() })),
            };
            assert_eq!(whole.answer, least, "{m} of {WHOLE}");
            assert_eq!(whole.plant, if place == 0 { second.plant } else { [POSITION, VELOCITY] });
            let entries = first.slacks[..m].iter().chain(&second.slacks);
            assert!(entries.map(|s| s.to_bits()).eq(whole.slacks.iter().map(|s| s.to_bits())), "{m} of {WHOLE}");
        }
    }
}

/// The configuration, then a length, then a number as it came, read or not, then one that is computed. Nothing is written, save the slacks before
/// a place.
#[test]
fn refusals_keep_their_order() {
    let refused = |config: &Config, lens: [usize; 3], spoiled: Option<(usize, usize)>, n: usize, room: usize| {
        let mut lent = [AIM, POSITION, VELOCITY];
        if let Some((slice, at)) = spoiled {
            lent[slice][at] = f64::NAN;
        }
        let ([aim, mut pos, mut vel], mut slacks) = (lent, [7.0; 4]);
        let [a, p, v] = lens;
        let ran = run_towards(config, &aim[..a], &mut pos[..p], &mut vel[..v], n, &mut slacks[..room]);
        if ran.is_err() {
            let (now, before) =
                ([pos, vel].map(|x| x.map(f64::to_bits)), [lent[1], lent[2]].map(|x| x.map(f64::to_bits)));
            assert_eq!((now, slacks), (before, [7.0; 4]));
        }
        ran.map(|ran| ran.count)
    };
    let unfit = Config::unjudged(&FuseConfig { brake: BRAKE, ..ConfigBuilder::START });
    assert_eq!(refused(&unfit, [0; 3], None, 4, 0), Err(Refusal::Size));
    for arm in shapes(&arm(4, 3)) {
        let config = arm.build().unwrap();
        assert_eq!(refused(&config, [4, 3, 3], None, 4, 4), Ok(4));
        for (lens, n, room) in
            [([3, 3, 3], 4, 4), ([4, 2, 3], 4, 4), ([4, 3, 2], 4, 4), ([4, 3, 3], 4, 3), ([4, 3, 3], usize::MAX, 4)]
        {
            assert_eq!(refused(&config, lens, None, n, room), Err(Refusal::Short));
            assert_eq!(refused(&config, lens, Some((0, 0)), n, room), Err(Refusal::Short));
        }
        for slice in 0..3 {
            for at in [0, 2, 4, 8] {
                assert_eq!(refused(&config, [9; 3], Some((slice, at)), 0, 0), Err(Refusal::NotFinite));
                let mut lens = [9; 3];
                lens[slice] = at.max(4);
                assert_eq!(refused(&config, lens, Some((slice, at.max(4))), 4, 4), Ok(4));
            }
        }
        let steep = arm.brake(BrakeModel { k_p: f64::MAX, k_v: f64::MAX, ..BRAKE }).build().unwrap();
        assert_eq!(refused(&steep, [4, 3, 3], None, 4, 4), Err(Refusal::Computed { place: 1 }));
        assert_eq!(refused(&steep, [4, 3, 3], None, 0, 4), Ok(0));
        assert_eq!(refused(&steep, [4, 3, 9], Some((2, 8)), 4, 4), Err(Refusal::NotFinite));
    }
}

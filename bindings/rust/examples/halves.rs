//! May a forecast be run in two halves (docs/TRAINEES.md)? Under one setpoint yes, and no bit differs. Across the point where the rows end no: the
//! setpoint is made there, and a forecast from further on makes another. Tried on an arm of two axes, in a box and on a round table.

use lictor::{
    brake::{brake_feasible, hold_action, run_towards, Ran},
    chunk::ChunkView,
    config::{BrakeKind, BrakeModel, Config, ConfigBuilder, Shape},
    fmath, Answer, Refusal,
};

/// One row of 4 substeps, and 2 braking steps of as many after it.
const BRAKE: BrakeModel = BrakeModel {
    kind: BrakeKind::PdSecondOrder,
    k_p: 2.3,
    k_v: 1.7,
    dt: 0.1,
    substeps: 4,
    commit: 1,
    brake_steps: 2,
    react_ticks: 1,
};

const ARM: ConfigBuilder = Config::builder()
    .axes(2)
    .dt(1.0)
    .v_max(1.0)
    .a_max(1.0)
    .j_max(1.0)
    .reach_max(4.0)
    .walls([-1.0; 8], [1.0; 8])
    .brake(BRAKE);

/// The substeps of a row and of the braking after it.
const ROW: usize = 4;
const WHOLE: usize = 12;

/// The row that is followed, which is the setpoint until it ends.
const AIM: [f64; 2] = [0.3, 0.4];

/// A position and a velocity.
#[derive(Clone, Copy)]
struct Plant {
    pos: [f64; 2],
    vel: [f64; 2],
}

/// So fast that the arm is nearest to a wall, or to the edge, on its way.
const START: Plant = Plant { pos: [0.1, -0.2], vel: [1.9, 0.3] };

impl Plant {
    /// As many substeps as there are slacks, from this plant to the one that they leave.
    fn run(&mut self, arm: &Config, aim: &[f64; 2], slacks: &mut [f64]) -> Answer<Ran> {
        run_towards(arm, aim, &mut self.pos, &mut self.vel, slacks.len(), slacks)
    }

    fn bits(self) -> [[u64; 2]; 2] {
        [self.pos, self.vel].map(|numbers| numbers.map(f64::to_bits))
    }
}

fn bits(numbers: &[f64]) -> Vec<u64> {
    numbers.iter().map(|x| x.to_bits()).collect()
}

/// Runs 12 substeps at once, and in two halves of which the first has `m`. Compares them, and gives what the whole answers.
fn compared(arm: &Config, m: usize) -> Answer<Ran> {
    let (mut whole, mut halves, mut slacks, mut entries) = (START, START, [7.0; WHOLE], [7.0; WHOLE]);
    let told = whole.run(arm, &AIM, &mut slacks);
    let (before, after) = entries.split_at_mut(m);
    match halves.run(arm, &AIM, before) {
        Ok(first) => match halves.run(arm, &AIM, after) {
            Ok(second) => {
                let told = told.expect("both halves are accepted, and so is the whole");
                assert_eq!(halves.bits(), whole.bits());
                assert_eq!(first.count + second.count, told.count);
                assert_eq!(fmath::min(first.margin, second.margin).to_bits(), told.margin.to_bits());
                assert!(told.margin < slacks[0] && told.margin < slacks[WHOLE - 1]);
            }
            Err(refusal) => assert_eq!(told, Err(Refusal::Computed { place: m + refusal.place() })),
        },
        Err(refusal) => assert_eq!(told, Err(refusal)),
    }
    // the entries of the first half and then those of the second; where a place is refused, those before it, and the plant stays
    assert_eq!(bits(&entries), bits(&slacks));
    assert!(told.is_ok() || whole.bits() == START.bits());
    told
}

fn main() -> Answer<()> {
    for (table, arm) in
        [("in a box", ARM), ("on a round table", ARM.shape(Shape::Disc { center: [0.0; 2], radius: 1.0 }))]
    {
        let config = arm.build()?;
        let mut margin = 0.0;
        for m in 0..=WHOLE {
            margin = compared(&config, m)?.margin;
        }
        println!("{table}: 12 substeps, split anywhere, leave the same plant and the same slacks, the least of them {margin}");

        // No substep changes nothing, and has no slack.
        let mut still = START;
        assert_eq!(still.run(&config, &AIM, &mut []), Ok(Ran { count: 0, margin: f64::INFINITY }));
        assert_eq!(still.bits(), START.bits());

        // So steep a gain throws the arm out of every number. The whole is refused with 13 at a place; a first half that has the place is refused
        // there too, and else the second half is, as many substeps earlier as the first has.
        let steep = arm.brake(BrakeModel { k_p: 1e60, ..BRAKE }).build()?;
        let lost = compared(&steep, 0).unwrap_err();
        assert!(matches!(lost, Refusal::Computed { place: 2..WHOLE }));
        for m in 1..=WHOLE {
            assert_eq!(compared(&steep, m), Err(lost));
        }
        println!("{table}, too steep: the whole is {lost}, and so is the half that has this place");
    }
    signs()?;
    across_the_end_of_the_rows()
}

/// The least slack is the lesser of the first and the second, in this order. The first axis stands at 0.0 on a wall at -0.0, its slack is -0.0;
/// in the second substep the other axis touches its own, with a slack of 0.0. The two are one number.
fn signs() -> Answer<()> {
    let mut high = [1.0; 8];
    high[0] = -0.0;
    let arm = ARM.walls([-1.0; 8], high).brake(BrakeModel { k_p: 2.0, k_v: 1.0, dt: 0.5, ..BRAKE }).build()?;
    let still = Plant { pos: [0.0; 2], vel: [0.0; 2] };
    let (mut whole, mut halves, aim) = (still, still, [0.0, 1.0]);
    let told = whole.run(&arm, &aim, &mut [7.0; 2])?.margin;
    let (first, second) = (halves.run(&arm, &aim, &mut [7.0])?.margin, halves.run(&arm, &aim, &mut [7.0])?.margin);
    assert_eq!(fmath::min(first, second).to_bits(), told.to_bits());
    let swapped = fmath::min(second, first);
    assert_eq!((told.to_bits(), swapped.to_bits()), (0f64.to_bits(), (-0f64).to_bits()));
    println!(
        "the least slack is {told:?}, of {first:?} and then {second:?}; with the two swapped it would be {swapped:?}"
    );
    Ok(())
}

/// A forecast has two setpoints, the row and the position that the row leaves. Run with each as far as it goes, it is the forecast; a second
/// forecast that starts in the middle of the braking holds the position there, and comes to other slacks.
fn across_the_end_of_the_rows() -> Answer<()> {
    let (arm, row) = (ARM.build()?, ChunkView::new(0, 1, 2, 1, &AIM));
    let mut slacks = [7.0; WHOLE];
    let whole = brake_feasible(&arm, &START.pos, &START.vel, row, 0, &mut slacks)?;
    assert_eq!(whole.count, WHOLE);

    let (mut plant, mut entries, mut held) = (START, [7.0; WHOLE], [7.0; 2]);
    plant.run(&arm, &AIM, &mut entries[..ROW])?;
    hold_action(&arm, &plant.pos, &[], &mut held)?;
    plant.run(&arm, &held, &mut entries[ROW..2 * ROW])?;
    let middle = plant;
    plant.run(&arm, &held, &mut entries[2 * ROW..])?;
    assert_eq!(bits(&entries), bits(&slacks));

    let (half, mut again, mut other) =
        (ARM.brake(BrakeModel { brake_steps: 1, ..BRAKE }).build()?, [7.0; WHOLE], [7.0; 2]);
    assert_eq!(brake_feasible(&half, &START.pos, &START.vel, row, 0, &mut again)?.count, 2 * ROW);
    assert_eq!(brake_feasible(&half, &middle.pos, &middle.vel, row, 1, &mut again[2 * ROW..])?.count, ROW);
    hold_action(&half, &middle.pos, &[], &mut other)?;
    assert_eq!(bits(&again[..2 * ROW]), bits(&slacks[..2 * ROW]));
    for (one, two) in slacks.iter().zip(&again).skip(2 * ROW) {
        assert!(one.to_bits() != two.to_bits());
    }
    println!("a forecast of 12 holds {held:?}, where the row ends, and its last slacks are {:?}", &slacks[2 * ROW..]);
    println!("a forecast from its ninth holds {other:?}, and has {:?}: it is no second half", &again[2 * ROW..]);
    Ok(())
}

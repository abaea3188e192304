//! One control tick of a packing arm over a table: from the position that was measured and the chunk that was planned to the
//! row that goes to the motors, whose gripper stays closed also where the arm brakes or holds; and a row of the same arm over a turntable.
//! `examples/tick.c` is the same in C.

use lictor::{
    brake,
    chunk::ChunkView,
    config::{trip, BrakeKind, BrakeModel, Config, ConfigBuilder, Contact, Gripper, Shape},
    conformal::{self, feature, Calibration, Scores},
    tier0,
    tier1::{self, Tier1},
    window::{self, Window},
    Answer,
};

/// Two axes along the table, and its height; a row has the gripper after them, past `pos_dim`; a chunk has four rows.
const AXES: usize = 3;
const WIDTH: usize = AXES + 1;
const ROWS: usize = 4;

/// Where the gripper holds its screw.
const CLOSED: f64 = 0.75;

/// The camera tells where two trays stand on the table, two numbers each. The second tray's zone is the slower one: steps of 0.25 and of 0.125.
const CHANNELS: usize = 4;
const TRAYS: [Contact; 2] =
    [Contact { radius: 0.25, v_max: 0.5, a0: 0, a1: 1 }, Contact { radius: 0.25, v_max: 0.25, a0: 2, a1: 3 }];

/// The window holds 3 ticks, and 2 hits stop the arm.
const PUSHES: u8 = 3;
const STOPS: u8 = 2;

struct Guard {
    config: Config,
    state: Tier1,
    scores: Scores,
    window: Window,
    slacks: [f64; 64],
}

/// What was measured at tick `t`, numbered from 1, and what the camera sent.
struct Measured<'a> {
    t: u32,
    pos: &'a [f64],
    vel: &'a [f64],
    aux: &'a [f64; CHANNELS],
}

/// The arm's limits, brake and calibration.
fn arm() -> ConfigBuilder {
    let calibration = Calibration {
        center: [0.0; 192],
        scale: [1.0; 192],
        tau: 0.25,
        mask: 1 << feature::REACH,
        n_terms: 1,
        terms: [1 << feature::REACH, 0, 0, 0, 0, 0, 0, 0],
    };
    let brake = BrakeModel {
        kind: BrakeKind::PdSecondOrder,
        k_p: 2.0,
        k_v: 1.0,
        dt: 0.5,
        substeps: 2,
        commit: 1,
        brake_steps: 4,
        react_ticks: 1,
    };
    Config::builder()
        .dim(WIDTH)
        .pos_dim(AXES)
        .gripper(Gripper::LastCommand)
        .dt(0.5)
        .v_max(1.0)
        .a_max(4.0)
        .j_max(32.0)
        .reach_max(1.0)
        .walls([-1.0; 8], [1.0; 8])
        .brake(brake)
        .calibration(calibration, 200)
}

impl Guard {
    /// The arm with a slow zone round each tray, judged.
    fn new() -> Answer<Self> {
        let config = arm().zones(&TRAYS).aux_count(CHANNELS).build()?;
        let (state, scores, window) = (Tier1::new(), Scores::default(), Window::default());
        Ok(Self { config, state, scores, window, slacks: [0.0; 64] })
    }

    /// The row to send: the planned one where no limit trips, few of the last scores were hits, and the arm can still stop;
    /// else the one that brakes, with the gripper as in the last row.
    fn tick(
        &mut self,
        m: &Measured<'_>,
        planned: ChunkView<'_>,
        last: &[f64; WIDTH],
    ) -> Answer<(&'static str, [f64; WIDTH])> {
        self.state.trail.push(m.pos, AXES)?;
        tier1::features(&self.config, &mut self.state, m.pos, &[], Some(planned), &mut self.scores)?;
        let calibration = self.config.calibration().expect("the configuration has one");
        conformal::standardise(calibration, self.config.time_bin(m.t)?, &mut self.scores)?;
        conformal::aggregate(calibration, &mut self.scores)?;
        let hit = conformal::trip(calibration, &self.scores)?;
        self.window.push(hit, window::mask(PUSHES)?);

        let (mut projected, mut row) = ([0.0; ROWS * WIDTH], [0.0; WIDTH]);
        let found = tier0::check_chunk(&self.config, m.pos, m.aux, planned, &mut projected)?;
        log_walls(m.t, "chunk", found.low_dims, found.high_dims);
        if found.trips & trip::CONTACT != 0 {
            println!("tick {}: chunk, too fast beside a tray", m.t);
        }
        let rows = ChunkView { data: &projected, ..planned };
        let forecast = brake::brake_feasible(&self.config, m.pos, m.vel, rows, 0, &mut self.slacks)?;
        let calm = found.trips == 0 && self.window.hits() < STOPS && forecast.feasible;
        if calm && rows.action(0, &mut row) == row.len() {
            return Ok(("follow", row));
        }
        let walls = brake::brake_action(&self.config, m.pos, m.vel, last, &mut row)?;
        log_walls(m.t, "brake", walls.low_dims, walls.high_dims);
        Ok(("brake", row))
    }
}

/// The same arm over a turntable, whose edge is 0.75 from its middle, without the trays; its height keeps its walls. Follows a row to (x, y), or
/// brakes where it is beyond the edge.
fn turntable(x: f64, y: f64) -> Answer<()> {
    let config = arm().shape(Shape::Disc { center: [0.0, 0.0], radius: 0.75 }).build()?;
    let (pos, vel, last) = ([0.25, 0.25, 0.0], [0.0; AXES], [0.25, 0.25, 0.0, CLOSED]);
    let (mut row, mut deed) = ([0.0; WIDTH], "follow");
    let found = tier0::check_action(&config, &pos, &[], &last, &[x, y, 0.0, CLOSED], &mut row)?;
    if found.trips & trip::WORKSPACE != 0 {
        deed = "beyond the edge, brake";
        brake::brake_action(&config, &pos, &vel, &last, &mut row)?;
    }
    println!("turntable: {deed} {}", shown(&row));
    Ok(())
}

/// The row that goes to the motors.
fn shown([x, y, z, gripper]: &[f64; WIDTH]) -> String {
    format!("{x} {y} {z}, gripper {gripper}")
}

/// Writes to the log which axes the box stopped at which wall, in the chunk or in a row that brakes or holds. Axes are counted
/// from 0, as the masks' bits and the box's entries are: axis 2 is bit 2, and its high wall is `box_hi[2]` less the margin.
fn log_walls(t: u32, what: &str, low_dims: u32, high_dims: u32) {
    for axis in 0..AXES {
        for (dims, wall) in [(low_dims, "low"), (high_dims, "high")] {
            if dims >> axis & 1 == 1 {
                println!("tick {t}: {what}, axis {axis} at its {wall} wall");
            }
        }
    }
}

/// The rows of a chunk, the gripper closed: where they start along the first axis, and their steps there and up.
fn straight(first: f64, step: f64, up: f64) -> [f64; ROWS * WIDTH] {
    let mut rows = [0.0; ROWS * WIDTH];
    for (row, i) in rows.chunks_mut(WIDTH).zip([0.0, 1.0, 2.0, 3.0]) {
        row.copy_from_slice(&[first + step * i, 0.0, up * i, CLOSED]);
    }
    rows
}

fn main() -> Answer<()> {
    assert!(lictor::environment_ok(), "the processor does not round to nearest, or takes small numbers for 0");
    let mut guard = Guard::new()?;
    // the row that was sent last. It is a copy of what was written: a brake or a hold reads it while it writes the next row, and the two may
    // not overlap
    let mut last = [0.0, 0.0, 0.0, CLOSED];
    // each tick's position and speed along the first axis, its chunk, and how far to the side the trays stand: in tick 8 the arm is inside
    // both zones, and its step of 0.1875 is too long for the second
    let ticks = [
        (0.0, 0.0, straight(0.125, 0.125, 0.0), 0.5),
        (0.125, 0.25, straight(0.25, 0.5, 0.0), 0.5),
        (0.125, 8.0, straight(0.25, 0.125, 0.0), 0.5),
        (0.25, 0.0, straight(0.75, 0.0, 0.0), 0.5),
        (0.25, 0.0, straight(0.75, 0.0, 0.0), 0.5),
        (0.25, 0.0, straight(0.25, 0.0, 0.5), 0.5),
        (-1.25, 0.0, straight(-1.0, 0.0, 0.0), 0.5),
        (0.0, 0.0, straight(0.1875, 0.0, 0.0), 0.125),
        (f64::NAN, 0.0, straight(0.25, 0.0, 0.0), 0.5),
    ];
    for (t, (pos, vel, data, side)) in (1..).zip(&ticks) {
        let aux = [0.125, *side, -0.125, *side];
        let measured = Measured { t, pos: &[*pos, 0.0, 0.0], vel: &[*vel, 0.0, 0.0], aux: &aux };
        let planned = ChunkView::new(t, t, 4, 1, data);
        last = match guard.tick(&measured, planned, &last) {
            Ok((deed, row)) => {
                println!("tick {t}: {deed} {}", shown(&row));
                row
            }
            Err(refusal) => {
                let mut row = [0.0; WIDTH];
                let walls = brake::hold_action(&guard.config, &last[..AXES], &last, &mut row)?;
                log_walls(t, "hold", walls.low_dims, walls.high_dims);
                println!("tick {t}: refused with {}, hold {}", refusal.number(), shown(&row));
                row
            }
        };
    }
    // both rows are between the walls, and the second is 0.79 from the middle
    turntable(0.5, 0.5)?;
    turntable(0.75, 0.25)
}

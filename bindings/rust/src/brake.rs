//! Whether the arm can still stop inside its workspace, a run towards one setpoint, and the rows that brake and hold.

use crate::{
    chunk::ChunkView,
    config::Config,
    raw,
    refusal::{given, given_at, Answer},
};

/// A forecast.
#[derive(Clone, Copy, Debug, PartialEq)]
pub struct BrakeOut {
    /// How many slacks it wrote.
    pub count: usize,
    /// The least of them; infinity where there is none.
    pub margin: f64,
    /// Whether none of them is negative.
    pub feasible: bool,
    /// How far the arm comes.
    pub stop_dist: f64,
}

/// A run towards one setpoint.
#[derive(Clone, Copy, Debug, PartialEq)]
pub struct Ran {
    /// How many slacks it wrote: one for each substep.
    pub count: usize,
    /// The least of them; infinity where there is none.
    pub margin: f64,
}

/// At which wall the position of a row that brakes or holds was stopped. Bit j is coordinate j, counted from 0, of the first
/// min(dim, `pos_dim`): an axis past `pos_dim` sets none, whatever the row has there. A position that touches its wall sets
/// none, a round table sets none of its two axes, and what a short position lacks counts as 0. Both are 0 for the velocity kinds, `EeDelta`
/// and `JointVelocity`; what is armed, the clamp mode, the gripper mode and the last command do not matter.
#[derive(Clone, Copy, Debug, Default, PartialEq, Eq)]
pub struct WallMarks {
    /// A bit for each axis that was raised to its low wall.
    pub low_dims: u32,
    /// A bit for each axis that was lowered to its high wall.
    pub high_dims: u32,
}

impl WallMarks {
    fn of(marks: [u64; 2]) -> Self {
        Self { low_dims: marks[0] as u32, high_dims: marks[1] as u32 }
    }
}

/// Forecasts from row `from` of a chunk through the committed rows and the braking after them. The slacks are written in
/// order over the first `count` numbers of `slacks`. Where it is refused with 13, the slacks before the refusal's place are
/// written.
///
/// A slack is how far a position is from the nearest wall or, on a round table, from its edge, and negative beyond it; the closed kinds take
/// their stopping radius off that. The second-order brake holds the position that the rows leave, moved inside its workspace: on a round table
/// that is computed also for `brake_steps` 0, at the place of the first substep after the rows.
///
/// ```
/// # use lictor::config::{BrakeKind, BrakeModel, Config};
/// # let brake = BrakeModel {
/// #     kind: BrakeKind::PdSecondOrder, k_p: 2.0, k_v: 1.0, dt: 0.5, substeps: 2, commit: 1, brake_steps: 1, react_ticks: 1,
/// # };
/// # let builder = Config::builder().axes(1).dt(1.0).v_max(1.0).a_max(9.0).j_max(9.0).reach_max(99.0).brake(brake);
/// use lictor::{brake::brake_feasible, chunk::ChunkView, Refusal};
/// let config = builder.walls([-1.0; 8], [1.0; 8]).build()?;
/// let (planned, mut slacks) = (ChunkView::new(0, 1, 1, 1, &[1.0]), [0.0; 4]);
/// let forecast = brake_feasible(&config, &[0.0], &[0.0], planned, 0, &mut slacks)?;
/// assert_eq!((forecast.count, forecast.feasible, forecast.margin), (4, false, -0.25));
/// assert_eq!(slacks[0], 0.5);
/// // room for every slack that may be written is asked for before any is
/// assert_eq!(brake_feasible(&config, &[0.0], &[0.0], planned, 0, &mut []), Err(Refusal::Short));
/// # Ok::<(), lictor::Refusal>(())
/// ```
///
/// # Errors
///
/// [`Size`](crate::Refusal::Size) to [`Computed`](crate::Refusal::Computed), the last with its place.
pub fn brake_feasible(
    c: &Config,
    pos: &[f64],
    vel: &[f64],
    ch: ChunkView<'_>,
    from: usize,
    slacks: &mut [f64],
) -> Answer<BrakeOut> {
    let (mut marks, mut distances, mut place) = ([0; 2], [0.0; 2], 0);
    // SAFETY: the arrays and slices are live; `slacks` is lent to us alone, and the places are ours.
    let number = unsafe {
        raw::lictor_brake_feasible(
            &c.numbers,
            &c.counts,
            &c.gate.center,
            &c.gate.scale,
            pos.as_ptr(),
            pos.len(),
            vel.as_ptr(),
            vel.len(),
            ch.data.as_ptr(),
            ch.data.len(),
            ch.horizon,
            ch.dim,
            ch.exec_steps,
            from,
            slacks.as_mut_ptr(),
            slacks.len(),
            &mut marks,
            &mut distances,
            &mut place,
        )
    };
    let [margin, stop_dist] = distances;
    given_at(number, place, BrakeOut { count: marks[0] as usize, margin, feasible: marks[1] == 1, stop_dist })
}

/// Runs `n` substeps towards one setpoint from a position and a velocity, whose first min(dim, `pos_dim`) numbers become those after the last
/// one. The slacks are written in order over the first `n` numbers of `slacks`. Where it is refused with 13, the slacks before the refusal's
/// place are written, and nothing else: the place is the first substep, counted from 1, that computes a number that is not finite, its slack's
/// numbers too.
///
/// It is the run that [`brake_feasible`] makes for the second-order brake, towards each row and then towards the setpoint that it makes where
/// the rows end. Here no setpoint is made, and no stop distance computed. The gains are those of the brake, whatever its kind, and no stopping
/// radius is taken off. `n` is bounded by the room in `slacks` alone.
///
/// Two runs make one: m substeps, and then n from where they end towards the same setpoint, are m + n at once, bit for bit. The position and the
/// velocity are the same, the slacks are those of the first and then those of the second, and the margin is the
/// [`min`](crate::fmath::min) of the first and the second; with the two swapped a zero's sign may differ. Where the first is refused with 13 the
/// whole is at the same place, and where the second is at place k the whole is at m + k. A forecast may not be split so across the point where
/// its rows end (`examples/halves.rs`).
///
/// ```
/// # use lictor::config::{BrakeKind, BrakeModel, Config};
/// # let brake = BrakeModel {
/// #     kind: BrakeKind::PdSecondOrder, k_p: 2.0, k_v: 1.0, dt: 0.5, substeps: 2, commit: 1, brake_steps: 1, react_ticks: 1,
/// # };
/// # let builder = Config::builder().axes(1).dt(1.0).v_max(1.0).a_max(9.0).j_max(9.0).reach_max(99.0).brake(brake);
/// use lictor::{brake::{run_towards, Ran}, Refusal};
/// let config = builder.walls([-1.0; 8], [1.0; 8]).build()?;
/// let (mut pos, mut vel, mut slacks) = ([0.0], [0.0], [0.0; 3]);
/// assert_eq!(run_towards(&config, &[1.0], &mut pos, &mut vel, 3, &mut slacks), Ok(Ran { count: 3, margin: -0.25 }));
/// assert_eq!((pos, vel, slacks), ([1.25], [0.5], [0.5, 0.0, -0.25]));
/// // two, and then one from where they end
/// let (mut pos, mut vel) = ([0.0], [0.0]);
/// assert_eq!(run_towards(&config, &[1.0], &mut pos, &mut vel, 2, &mut slacks), Ok(Ran { count: 2, margin: 0.0 }));
/// assert_eq!(run_towards(&config, &[1.0], &mut pos, &mut vel, 1, &mut slacks), Ok(Ran { count: 1, margin: -0.25 }));
/// assert_eq!((pos, vel), ([1.25], [0.5]));
/// // none change nothing, and one more than there is room for is refused
/// assert_eq!(run_towards(&config, &[1.0], &mut pos, &mut vel, 0, &mut []), Ok(Ran { count: 0, margin: f64::INFINITY }));
/// assert_eq!(run_towards(&config, &[1.0], &mut pos, &mut vel, 4, &mut slacks), Err(Refusal::Short));
/// # Ok::<(), lictor::Refusal>(())
/// ```
///
/// # Errors
///
/// [`Size`](crate::Refusal::Size) to [`Withdrawn`](crate::Refusal::Withdrawn); [`Short`](crate::Refusal::Short) for a setpoint below dim, a
/// position or a velocity below `pos_dim`, and slacks below `n`; [`NotFinite`](crate::Refusal::NotFinite) for any number of the first three, read
/// or not; [`Computed`](crate::Refusal::Computed) with its place.
pub fn run_towards(
    c: &Config,
    setpoint: &[f64],
    pos: &mut [f64],
    vel: &mut [f64],
    n: usize,
    slacks: &mut [f64],
) -> Answer<Ran> {
    let (mut count, mut margin, mut place) = (0, 0.0, 0);
    // SAFETY: the arrays and slices are live; `pos`, `vel` and `slacks` are lent to us alone, and the places are ours.
    let number = unsafe {
        raw::lictor_run_towards(
            &c.numbers,
            &c.counts,
            &c.gate.center,
            &c.gate.scale,
            setpoint.as_ptr(),
            setpoint.len(),
            pos.as_mut_ptr(),
            pos.len(),
            vel.as_mut_ptr(),
            vel.len(),
            n,
            slacks.as_mut_ptr(),
            slacks.len(),
            &mut count,
            &mut margin,
            &mut place,
        )
    };
    given_at(number, place, Ran { count: count as usize, margin })
}

/// The row that brakes, over the first dim numbers of `out`: the position moved inside its workspace, or the velocity ramped down. Gives the
/// walls that stopped it. A short position or velocity counts as 0 past its end.
///
/// `last` is the last command, the row that was sent before. Under [`Gripper::LastCommand`](crate::config::Gripper::LastCommand) a row of
/// positions has its numbers past `pos_dim`; for every kind, read or not, it needs dim numbers or more, and all of them finite. Under
/// [`Gripper::ToZero`](crate::config::Gripper::ToZero) it is neither judged nor read: `&[]` may be passed. It cannot be `out` itself: a caller
/// who keeps the last row in one array has the next one written to another, and copies it after the call.
///
/// ```
/// # use lictor::config::{BrakeKind, BrakeModel, Config};
/// # let brake = BrakeModel {
/// #     kind: BrakeKind::PdSecondOrder, k_p: 2.0, k_v: 1.0, dt: 0.5, substeps: 2, commit: 1, brake_steps: 1, react_ticks: 1,
/// # };
/// # let builder = Config::builder().axes(3).dt(1.0).v_max(1.0).a_max(9.0).j_max(9.0).reach_max(99.0).brake(brake);
/// # use lictor::config::ActionKind;
/// let config = builder.walls([-1.0; 8], [1.0; 8]).build()?;
/// let mut row = [0.0; 3];
/// let walls = lictor::brake::brake_action(&config, &[5.0, -5.0, 1.0], &[0.0; 3], &[], &mut row)?;
/// assert_eq!(row, [1.0, -1.0, 1.0]); // inside its box
/// assert_eq!((walls.low_dims, walls.high_dims), (0b010, 0b001)); // the third axis touches its wall
/// // a velocity that is ramped down meets no wall
/// let velocities = builder.walls([-1.0; 8], [1.0; 8]).kind(ActionKind::JointVelocity).build()?;
/// let walls = lictor::brake::brake_action(&velocities, &[5.0, -5.0, 1.0], &[0.0; 3], &[], &mut row)?;
/// assert_eq!((walls.low_dims, walls.high_dims), (0, 0));
/// # Ok::<(), lictor::Refusal>(())
/// ```
///
/// A gripper on the last axis keeps its screw:
///
/// ```
/// # use lictor::config::{BrakeKind, BrakeModel, Config};
/// # let brake = BrakeModel {
/// #     kind: BrakeKind::PdSecondOrder, k_p: 2.0, k_v: 1.0, dt: 0.5, substeps: 2, commit: 1, brake_steps: 1, react_ticks: 1,
/// # };
/// # let builder = Config::builder().dt(1.0).v_max(1.0).a_max(9.0).j_max(9.0).reach_max(99.0).brake(brake);
/// use lictor::{brake::brake_action, config::Gripper, Refusal};
/// let arm = builder.pos_dim(2).dim(3).walls([-1.0; 8], [1.0; 8]).gripper(Gripper::LastCommand).build()?;
/// let (mut row, sent) = ([0.0; 3], [0.5, 0.5, 0.75]);
/// brake_action(&arm, &[5.0, 0.25, 0.5], &[0.0; 3], &sent, &mut row)?;
/// assert_eq!(row, [1.0, 0.25, 0.75]);
/// // the whole row is asked for, and all of its numbers are judged, though one of them is read
/// assert_eq!(brake_action(&arm, &[5.0, 0.25, 0.5], &[0.0; 3], &sent[..2], &mut row), Err(Refusal::Short));
/// assert_eq!(brake_action(&arm, &[5.0, 0.25, 0.5], &[0.0; 3], &[f64::NAN, 0.5, 0.75], &mut row), Err(Refusal::NotFinite));
/// # Ok::<(), lictor::Refusal>(())
/// ```
///
/// # Errors
///
/// [`Size`](crate::Refusal::Size) to [`Withdrawn`](crate::Refusal::Withdrawn), [`Short`](crate::Refusal::Short) to
/// [`Computed`](crate::Refusal::Computed).
pub fn brake_action(c: &Config, pos: &[f64], vel: &[f64], last: &[f64], out: &mut [f64]) -> Answer<WallMarks> {
    let mut walls = [0; 2];
    // SAFETY: the arrays and slices are live; `out` is lent to us alone, and the place is ours.
    let number = unsafe {
        raw::lictor_brake_action(
            &c.numbers,
            &c.counts,
            &c.gate.center,
            &c.gate.scale,
            pos.as_ptr(),
            pos.len(),
            vel.as_ptr(),
            vel.len(),
            last.as_ptr(),
            last.len(),
            out.as_mut_ptr(),
            out.len(),
            &mut walls,
        )
    };
    given(number, WallMarks::of(walls))
}

/// The row that holds, over the first dim numbers of `out`: the latched position moved inside its workspace, or no velocity. Gives the walls
/// that stopped it. `last` is the last command, as [`brake_action`] takes it.
///
/// ```
/// # use lictor::config::{BrakeKind, BrakeModel, Config};
/// # let brake = BrakeModel {
/// #     kind: BrakeKind::PdSecondOrder, k_p: 2.0, k_v: 1.0, dt: 0.5, substeps: 2, commit: 1, brake_steps: 1, react_ticks: 1,
/// # };
/// # let builder = Config::builder().axes(1).dt(1.0).v_max(1.0).a_max(9.0).j_max(9.0).reach_max(99.0).brake(brake);
/// let config = builder.walls([-1.0; 8], [1.0; 8]).build()?;
/// let mut row = [0.0];
/// let walls = lictor::brake::hold_action(&config, &[0.5], &[], &mut row)?;
/// assert_eq!((row, walls), ([0.5], lictor::brake::WallMarks::default()));
/// // a position that is missing counts as 0, which lies below a low wall above 0
/// let above = builder.walls([0.5; 8], [1.0; 8]).build()?;
/// let walls = lictor::brake::hold_action(&above, &[], &[], &mut row)?;
/// assert_eq!((row, walls.low_dims, walls.high_dims), ([0.5], 1, 0));
/// # Ok::<(), lictor::Refusal>(())
/// ```
///
/// On a round table the position is measured from the centre, so that one too far away to measure is refused.
///
/// ```
/// # use lictor::config::{BrakeKind, BrakeModel, Config};
/// # let brake = BrakeModel {
/// #     kind: BrakeKind::PdSecondOrder, k_p: 2.0, k_v: 1.0, dt: 0.5, substeps: 2, commit: 1, brake_steps: 1, react_ticks: 1,
/// # };
/// # let builder = Config::builder().axes(2).dt(1.0).v_max(1.0).a_max(9.0).j_max(9.0).reach_max(99.0).brake(brake);
/// use lictor::{brake::{hold_action, WallMarks}, config::Shape, Refusal};
/// let table = builder.shape(Shape::Disc { center: [0.0, 0.0], radius: 5.0 }).build()?;
/// let mut row = [0.0; 2];
/// assert_eq!(hold_action(&table, &[6.0, 8.0], &[], &mut row), Ok(WallMarks::default()));
/// assert!(row[0] < 3.0 && 2.999 < row[0]);
/// assert_eq!(hold_action(&table, &[1e200, 0.0], &[], &mut row), Err(Refusal::Computed { place: 0 }));
/// # Ok::<(), lictor::Refusal>(())
/// ```
///
/// # Errors
///
/// As [`brake_action`].
pub fn hold_action(c: &Config, pos: &[f64], last: &[f64], out: &mut [f64]) -> Answer<WallMarks> {
    let mut walls = [0; 2];
    // SAFETY: the arrays and slices are live; `out` is lent to us alone, and the place is ours.
    let number = unsafe {
        raw::lictor_hold_action(
            &c.numbers,
            &c.counts,
            &c.gate.center,
            &c.gate.scale,
            pos.as_ptr(),
            pos.len(),
            last.as_ptr(),
            last.len(),
            out.as_mut_ptr(),
            out.len(),
            &mut walls,
        )
    };
    given(number, WallMarks::of(walls))
}

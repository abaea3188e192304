//! The checks: limits held against planned rows, which are projected inside them.

use crate::{
    chunk::ChunkView,
    config::Config,
    raw,
    refusal::{given, Answer},
};

/// What a check finds. Bit j of the last three masks is coordinate j, counted from 0.
///
/// `low_dims` and `high_dims` tell of the box alone, row by row as it came, on the first min(dim, `pos_dim`) coordinates. Neither the
/// leash nor the reach sets one, and one stays where they bring the coordinate back, which `clamped_dims` then may not tell. A row
/// that touches its wall sets none, and a round table sets none of its two axes. Under [`ClampMode::Off`](crate::config::ClampMode) and where `WORKSPACE` is not armed both are 0.
#[derive(Clone, Copy, Debug, PartialEq)]
pub struct Tier0Out {
    /// The limits that a row as it came strictly exceeds, bits of [`trip`](crate::config::trip).
    pub trips: u32,
    /// A bit for each coordinate that was moved in any row.
    pub clamped_dims: u32,
    /// The greatest speed.
    pub peak_speed: f64,
    /// A bit for each axis that the box raised to its low wall in any row; an axis may be in `high_dims` too.
    pub low_dims: u32,
    /// A bit for each axis that the box lowered to its high wall in any row.
    pub high_dims: u32,
}

impl Tier0Out {
    fn of(marks: [u64; 4], peak_speed: f64) -> Self {
        let [trips, clamped_dims, low_dims, high_dims] = marks.map(|mark| mark as u32);
        Self { trips, clamped_dims, peak_speed, low_dims, high_dims }
    }
}

/// Checks a chunk from a position. The projected rows are written over the first horizon x dim numbers of `out`. Where none of `SPEED`,
/// `CONTACT`, `WORKSPACE` and `REACH` is raised, they are the rows bit for bit as they came, and of the masks only `trips` may have a bit:
/// `ACCEL` and `JERK` move no row.
///
/// An arm without a camera lends `&[]`: where it has no slow zone it is slow nowhere, and where it has some, with `CONTACT` armed, it is slow
/// everywhere, unless it says [`AbsentCamera::NoZone`](crate::config::AbsentCamera). So it is by each zone of whose two channels `aux` lacks
/// one, and by all where `pos` has one coordinate; the distance of such a zone is not computed. Lend what the camera sent in this tick, and
/// nothing where it sent nothing: an older message, or zeros in its place, is a camera that sees. Where `CONTACT` is armed,
/// [`Computed`](crate::Refusal::Computed) comes from the distance of any counted zone that is seen, and from the step of any that the arm is
/// inside. Where `WORKSPACE` is armed, so does it from every row's distance to the centre of a round table, under either clamp mode.
///
/// ```
/// # use lictor::config::{BrakeKind, BrakeModel, Config};
/// # let brake = BrakeModel {
/// #     kind: BrakeKind::PdSecondOrder, k_p: 2.0, k_v: 1.0, dt: 0.5, substeps: 2, commit: 1, brake_steps: 1, react_ticks: 1,
/// # };
/// # let builder = Config::builder().axes(2).dt(1.0).a_max(9.0).j_max(9.0).reach_max(99.0).walls([-9.0; 8], [9.0; 8]).brake(brake);
/// use lictor::{chunk::ChunkView, config::trip, tier0};
/// let config = builder.v_max(5.0).armed(trip::SPEED).build()?; // a step of 5
/// let mut out = [0.0; 2];
/// let found = tier0::check_chunk(&config, &[0.0, 0.0], &[], ChunkView::new(0, 1, 2, 1, &[6.0, 8.0]), &mut out)?;
/// assert_eq!((found.trips, found.peak_speed), (trip::SPEED, 10.0));
/// assert!(out[0] < 3.0 && 2.999 < out[0]); // pulled back to a step just below 5
/// assert_eq!((found.clamped_dims, found.low_dims, found.high_dims), (0b11, 0, 0)); // by the leash, not by a wall
/// # Ok::<(), lictor::Refusal>(())
/// ```
///
/// The box alone, with walls at -9 and 9: the first axis passes both, the second its high one, and the third touches.
///
/// ```
/// # use lictor::config::{BrakeKind, BrakeModel, Config};
/// # let brake = BrakeModel {
/// #     kind: BrakeKind::PdSecondOrder, k_p: 2.0, k_v: 1.0, dt: 0.5, substeps: 2, commit: 1, brake_steps: 1, react_ticks: 1,
/// # };
/// # let builder = Config::builder().axes(3).dt(1.0).v_max(5.0).a_max(9.0).j_max(9.0).reach_max(99.0).walls([-9.0; 8], [9.0; 8]).brake(brake);
/// # use lictor::{chunk::ChunkView, config::{trip, ClampMode}, tier0};
/// let rows = ChunkView::new(0, 1, 3, 1, &[-10.0, 10.0, 9.0, 10.0, 0.0, -9.0]);
/// let (config, mut out) = (builder.armed(trip::WORKSPACE).build()?, [0.0; 6]);
/// let found = tier0::check_chunk(&config, &[0.0; 3], &[], rows, &mut out)?;
/// assert_eq!((found.low_dims, found.high_dims, found.clamped_dims), (0b001, 0b011, 0b011));
/// assert_eq!(out, [-9.0, 9.0, 9.0, 9.0, 0.0, -9.0]);
/// // nothing is moved under ClampMode::Off, and no bit set
/// let off = builder.armed(trip::WORKSPACE).clamp(ClampMode::Off).build()?;
/// let found = tier0::check_chunk(&off, &[0.0; 3], &[], rows, &mut out)?;
/// assert_eq!((found.trips, found.low_dims, found.high_dims), (trip::WORKSPACE, 0, 0));
/// # Ok::<(), lictor::Refusal>(())
/// ```
///
/// A round table of radius 5, and a height that keeps its walls: the first row passes both, the second touches both.
///
/// ```
/// # use lictor::config::{BrakeKind, BrakeModel, Config};
/// # let brake = BrakeModel {
/// #     kind: BrakeKind::PdSecondOrder, k_p: 2.0, k_v: 1.0, dt: 0.5, substeps: 2, commit: 1, brake_steps: 1, react_ticks: 1,
/// # };
/// # let builder = Config::builder().axes(3).dt(1.0).v_max(5.0).a_max(9.0).j_max(9.0).reach_max(99.0).walls([-9.0; 8], [9.0; 8]).brake(brake);
/// # use lictor::{chunk::ChunkView, config::{trip, Shape}, tier0};
/// let rows = ChunkView::new(0, 1, 3, 1, &[6.0, 8.0, 10.0, 3.0, 4.0, 9.0]);
/// let table = Shape::Disc { center: [0.0, 0.0], radius: 5.0 };
/// let (config, mut out) = (builder.armed(trip::WORKSPACE).shape(table).build()?, [0.0; 6]);
/// let found = tier0::check_chunk(&config, &[0.0; 3], &[], rows, &mut out)?;
/// assert_eq!((found.trips, found.clamped_dims), (trip::WORKSPACE, 0b111));
/// assert_eq!((found.low_dims, found.high_dims), (0, 0b100)); // of the table no side is told
/// assert!(out[0] < 3.0 && 2.999 < out[0]); // towards the centre, to just below the radius
/// assert_eq!(out[2..], [9.0, 3.0, 4.0, 9.0]);
/// # Ok::<(), lictor::Refusal>(())
/// ```
///
/// # Errors
///
/// [`Size`](crate::Refusal::Size) to [`Computed`](crate::Refusal::Computed).
pub fn check_chunk(c: &Config, pos: &[f64], aux: &[f64], ch: ChunkView<'_>, out: &mut [f64]) -> Answer<Tier0Out> {
    let (mut marks, mut peak_speed) = ([0; 4], 0.0);
    // SAFETY: the arrays and slices are live; `out` is lent to us alone, and the places are ours.
    let number = unsafe {
        raw::lictor_check_chunk(
            &c.numbers,
            &c.counts,
            &c.gate.center,
            &c.gate.scale,
            pos.as_ptr(),
            pos.len(),
            aux.as_ptr(),
            aux.len(),
            ch.data.as_ptr(),
            ch.data.len(),
            ch.horizon,
            ch.dim,
            ch.exec_steps,
            out.as_mut_ptr(),
            out.len(),
            &mut marks,
            &mut peak_speed,
        )
    };
    given(number, Tier0Out::of(marks, peak_speed))
}

/// Checks one action against the one before it, without ACCEL and JERK. The projected action is written over the first dim
/// numbers of `out`; where nothing is raised it is the action bit for bit as it came. `aux` and `pos` are read as by [`check_chunk`].
///
/// ```
/// # use lictor::config::{BrakeKind, BrakeModel, Config};
/// # let brake = BrakeModel {
/// #     kind: BrakeKind::PdSecondOrder, k_p: 2.0, k_v: 1.0, dt: 0.5, substeps: 2, commit: 1, brake_steps: 1, react_ticks: 1,
/// # };
/// # let builder = Config::builder().axes(2).dt(1.0).a_max(9.0).j_max(9.0).reach_max(99.0).walls([-9.0; 8], [9.0; 8]).brake(brake);
/// use lictor::{config::trip, tier0};
/// let config = builder.v_max(5.0).armed(trip::SPEED).build()?;
/// let mut out = [0.0; 2];
/// // a step of 5 touches the limit and does not exceed it
/// let found = tier0::check_action(&config, &[0.0, 0.0], &[], &[0.0, 0.0], &[3.0, 4.0], &mut out)?;
/// assert_eq!((found.trips, out), (0, [3.0, 4.0]));
/// # Ok::<(), lictor::Refusal>(())
/// ```
///
/// # Errors
///
/// [`Size`](crate::Refusal::Size) to [`Withdrawn`](crate::Refusal::Withdrawn), [`Short`](crate::Refusal::Short) to
/// [`Computed`](crate::Refusal::Computed).
pub fn check_action(
    c: &Config,
    pos: &[f64],
    aux: &[f64],
    prev: &[f64],
    action: &[f64],
    out: &mut [f64],
) -> Answer<Tier0Out> {
    let (mut marks, mut peak_speed) = ([0; 4], 0.0);
    // SAFETY: the arrays and slices are live; `out` is lent to us alone, and the places are ours.
    let number = unsafe {
        raw::lictor_check_action(
            &c.numbers,
            &c.counts,
            &c.gate.center,
            &c.gate.scale,
            pos.as_ptr(),
            pos.len(),
            aux.as_ptr(),
            aux.len(),
            prev.as_ptr(),
            prev.len(),
            action.as_ptr(),
            action.len(),
            out.as_mut_ptr(),
            out.len(),
            &mut marks,
            &mut peak_speed,
        )
    };
    given(number, Tier0Out::of(marks, peak_speed))
}

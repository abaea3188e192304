//! The features of a tick, each larger the less ordinary the motion is, and the state between ticks.

use crate::{
    chunk::{ChunkBuf, ChunkView},
    config::Config,
    conformal::Scores,
    raw,
    refusal::{given, Answer},
    window::Trail,
};

/// What is held between ticks.
///
/// ```
/// use lictor::tier1::Tier1;
/// let mut state = Tier1::new();
/// state.trail.push(&[0.0, 0.0], 2)?; // each tick's position
/// state.reset()?; // between episodes
/// assert_eq!(state, Tier1::new());
/// # Ok::<(), lictor::Refusal>(())
/// ```
#[derive(Clone, Copy, Debug, PartialEq)]
pub struct Tier1 {
    /// The chunk before.
    pub prev: ChunkBuf,
    /// Whether a chunk came before.
    pub have_prev: bool,
    /// The trail, to which each tick's position is pushed.
    pub trail: Trail,
    /// The features of the last chunk, by their numbers.
    pub held: [f64; 6],
    /// Those of them that are there, a bit each.
    pub held_valid: u32,
}

impl Default for Tier1 {
    fn default() -> Self {
        Self::new()
    }
}

impl Tier1 {
    /// Nothing is held yet.
    #[must_use]
    pub fn new() -> Self {
        let (prev, trail, held) = (ChunkBuf::new(), Trail::new(), [0.0; 6]);
        let mut rt = Self { prev, have_prev: false, trail, held, held_valid: 0 };
        rt.laid_out(|l| {
            // SAFETY: the arrays are ours alone.
            unsafe { raw::lictor_tier1_new(l.before, l.header, l.trail, l.samples, l.held, l.kept) }
        });
        rt
    }

    /// Lets go of the chunk before, the trail and the held features, as between episodes.
    ///
    /// # Errors
    ///
    /// [`Size`](crate::Refusal::Size), [`Empty`](crate::Refusal::Empty) to [`LenMismatch`](crate::Refusal::LenMismatch) for the chunk
    /// before, [`NotFinite`](crate::Refusal::NotFinite): the state was written over.
    pub fn reset(&mut self) -> Answer<()> {
        let number = self.laid_out(|l| {
            // SAFETY: the arrays are ours alone.
            unsafe { raw::lictor_tier1_reset(l.before, l.header, l.trail, l.samples, l.held, l.kept) }
        });
        given(number, ())
    }

    /// A call that is lent the state's arrays; what it leaves in the counts is taken over.
    fn laid_out<T>(&mut self, call: impl FnOnce(Parts<'_>) -> T) -> T {
        let (mut header, mut samples) = (self.prev.header(), self.trail.marks());
        let mut kept = [self.have_prev.into(), self.held_valid.into()];
        let said = call(Parts {
            before: &mut self.prev.data,
            header: &mut header,
            trail: &mut self.trail.buf,
            samples: &mut samples,
            held: &mut self.held,
            kept: &mut kept,
        });
        self.prev.take(header);
        self.trail.take(samples);
        (self.have_prev, self.held_valid) = (kept[0] == 1, kept[1] as u32);
        said
    }
}

/// The state as the library takes it.
struct Parts<'a> {
    before: &'a mut [f64; 512],
    header: &'a mut [u64; 6],
    trail: &'a mut [f64; 256],
    samples: &'a mut [u64; 2],
    held: &'a mut [f64; 6],
    kept: &'a mut [u64; 2],
}

/// The features of a tick, in the scores' f and valid; the rest of the scores stays. A new chunk replaces all held features,
/// invalid ones too, and the chunk before; the trail stays. At most four of the external scalars are read.
///
/// ```
/// # use lictor::config::{BrakeKind, BrakeModel, Config};
/// # let brake = BrakeModel {
/// #     kind: BrakeKind::PdSecondOrder, k_p: 2.0, k_v: 1.0, dt: 0.5, substeps: 2, commit: 1, brake_steps: 1, react_ticks: 1,
/// # };
/// # let builder = Config::builder().axes(1).dt(1.0).v_max(1.0).a_max(9.0).j_max(9.0).reach_max(99.0).walls([-9.0; 8], [9.0; 8]).brake(brake);
/// use lictor::{chunk::ChunkView, conformal::{feature, Scores}, tier1::{features, Tier1}};
/// let config = builder.build()?;
/// let (mut state, mut scores) = (Tier1::new(), Scores::default());
/// let planned = ChunkView::new(0, 1, 1, 1, &[2.0, 3.0, 4.0, 5.0]);
/// features(&config, &mut state, &[0.0], &[9.0], Some(planned), &mut scores)?;
/// assert_eq!(scores.f[feature::REACH], 2.0);
/// assert_eq!(scores.f[feature::EXT0], 9.0);
/// // a tick without a chunk keeps the features of the last one
/// features(&config, &mut state, &[0.5], &[], None, &mut scores)?;
/// assert_eq!(scores.f[feature::REACH], 2.0);
/// # Ok::<(), lictor::Refusal>(())
/// ```
///
/// # Errors
///
/// [`Size`](crate::Refusal::Size) to [`Width`](crate::Refusal::Width), [`NotFinite`](crate::Refusal::NotFinite),
/// [`Computed`](crate::Refusal::Computed).
pub fn features(
    c: &Config,
    rt: &mut Tier1,
    pos: &[f64],
    ext: &[f64],
    new: Option<ChunkView<'_>>,
    sc: &mut Scores,
) -> Answer<()> {
    let ch = new.unwrap_or(ChunkView::new(0, 0, 0, 0, &[]));
    let (mut numbers, mut marks) = (sc.numbers(), sc.marks());
    let number = rt.laid_out(|l| {
        // SAFETY: the arrays and slices are live; the state, the numbers and the marks are ours alone.
        unsafe {
            raw::lictor_features(
                &c.numbers,
                &c.counts,
                &c.gate.center,
                &c.gate.scale,
                l.before,
                l.header,
                l.trail,
                l.samples,
                l.held,
                l.kept,
                pos.as_ptr(),
                pos.len(),
                ext.as_ptr(),
                ext.len(),
                new.is_some().into(),
                ch.seq,
                ch.t_emit,
                ch.horizon,
                ch.dim,
                ch.exec_steps,
                ch.data.as_ptr(),
                ch.data.len(),
                &mut numbers,
                &mut marks,
            )
        }
    });
    given(number, ())?;
    sc.take(&numbers, marks);
    Ok(())
}

//! Chunks of planned actions: the view of lent rows, and storage that is held whole.

use crate::{
    raw,
    refusal::{given, Answer},
};

/// A chunk whose rows stay the caller's: row i starts at i x dim. Nothing is judged before a call that it is lent to.
///
/// ```
/// use lictor::chunk::ChunkView;
/// let planned = ChunkView::new(7, 40, 2, 1, &[0.0, 0.0, 0.5, 0.5]);
/// let same = ChunkView {
///     seq: 7, t_emit: 40, horizon: 2, dim: 2, exec_steps: 1, data: &[0.0, 0.0, 0.5, 0.5],
/// };
/// assert_eq!(planned, same);
/// ```
#[derive(Clone, Copy, Debug, PartialEq)]
pub struct ChunkView<'a> {
    /// The planner's number of the chunk.
    pub seq: u32,
    /// The control tick at which the planner emitted it.
    pub t_emit: u32,
    /// How many rows it has, 1 to 64.
    pub horizon: u16,
    /// How wide a row is, 1 to 8 and the configuration's dim.
    pub dim: u16,
    /// How many rows are to be executed before the next chunk, at most the horizon.
    pub exec_steps: u16,
    /// The rows, horizon x dim numbers.
    pub data: &'a [f64],
}

impl<'a> ChunkView<'a> {
    /// The chunk of all rows of `data`, each `dim` wide. What does not come out even, or is too long, is refused by the call that it is
    /// lent to, as a chunk with those sizes is.
    ///
    /// ```
    /// use lictor::{chunk::{ChunkBuf, ChunkView}, Refusal};
    /// assert_eq!(ChunkView::new(0, 0, 2, 1, &[0.0; 6]).horizon, 3);
    /// let uneven = ChunkView::new(0, 0, 2, 1, &[0.0; 5]);
    /// assert_eq!(ChunkBuf::new().copy_from(uneven), Err(Refusal::LenMismatch));
    /// ```
    #[must_use]
    pub const fn new(seq: u32, t_emit: u32, dim: u16, exec_steps: u16, data: &'a [f64]) -> Self {
        let rows = if dim == 0 { 0 } else { data.len() / dim as usize };
        let horizon = if rows > u16::MAX as usize { u16::MAX } else { rows as u16 };
        Self { seq, t_emit, horizon, dim, exec_steps, data }
    }

    /// The length of row `i`, the last row at or past the horizon, or 0 where there is none. Its numbers are copied where
    /// `row` has room for them.
    ///
    /// ```
    /// let planned = lictor::chunk::ChunkView::new(0, 0, 2, 1, &[0.0, 0.0, 0.5, 0.25]);
    /// let mut row = [0.0; 2];
    /// assert_eq!(planned.action(9, &mut row), 2);
    /// assert_eq!(row, [0.5, 0.25]);
    /// ```
    #[must_use = "0 where there is no such row"]
    pub fn action(&self, i: usize, row: &mut [f64]) -> usize {
        let (data, h, d) = (self.data, self.horizon, self.dim);
        // SAFETY: both slices are live, and `row` is lent to us alone.
        unsafe { raw::lictor_action(data.as_ptr(), data.len(), h, d, i, row.as_mut_ptr(), row.len()) }
    }
}

/// A chunk that is held: 512 numbers, of which the first horizon x dim are its rows.
///
/// ```
/// use lictor::chunk::{ChunkBuf, ChunkView};
/// let mut held = ChunkBuf::new();
/// held.copy_from(ChunkView::new(7, 40, 1, 1, &[0.25, 0.5]))?;
/// assert!(held.filled);
/// assert_eq!(held.view().data, [0.25, 0.5]);
/// # Ok::<(), lictor::Refusal>(())
/// ```
#[derive(Clone, Copy, Debug, PartialEq)]
pub struct ChunkBuf {
    /// The rows, and past them what stood there before.
    pub data: [f64; 512],
    /// As in [`ChunkView`], and so are the next four.
    pub seq: u32,
    /// The control tick at which the planner emitted it.
    pub t_emit: u32,
    /// How many rows it has.
    pub horizon: u16,
    /// How wide a row is.
    pub dim: u16,
    /// How many rows are to be executed.
    pub exec_steps: u16,
    /// Whether a chunk is held.
    pub filled: bool,
}

impl Default for ChunkBuf {
    fn default() -> Self {
        Self::new()
    }
}

impl ChunkBuf {
    /// No chunk yet.
    ///
    /// ```
    /// assert!(!lictor::chunk::ChunkBuf::new().filled);
    /// ```
    #[must_use]
    pub const fn new() -> Self {
        Self { data: [0.0; 512], seq: 0, t_emit: 0, horizon: 0, dim: 0, exec_steps: 0, filled: false }
    }

    pub(crate) fn header(&self) -> [u64; 6] {
        let sizes = [self.horizon, self.dim, self.exec_steps].map(u64::from);
        [self.seq.into(), self.t_emit.into(), sizes[0], sizes[1], sizes[2], self.filled.into()]
    }

    pub(crate) fn take(&mut self, header: [u64; 6]) {
        let [seq, t_emit, horizon, dim, exec_steps, filled] = header;
        (self.seq, self.t_emit) = (seq as u32, t_emit as u32);
        (self.horizon, self.dim, self.exec_steps) = (horizon as u16, dim as u16, exec_steps as u16);
        self.filled = filled == 1;
    }

    /// Copies a chunk in; the numbers past its own stay.
    ///
    /// ```
    /// use lictor::{chunk::{ChunkBuf, ChunkView}, Refusal};
    /// let mut held = ChunkBuf::new();
    /// assert_eq!(held.copy_from(ChunkView::new(0, 0, 1, 3, &[0.25, 0.5])), Err(Refusal::ExecExceedsHorizon));
    /// assert!(!held.filled);
    /// ```
    ///
    /// # Errors
    ///
    /// [`Empty`](crate::Refusal::Empty) to [`LenMismatch`](crate::Refusal::LenMismatch), [`NotFinite`](crate::Refusal::NotFinite).
    pub fn copy_from(&mut self, v: ChunkView<'_>) -> Answer<()> {
        let (rows, mut header) = (v.data, [0; 6]);
        // SAFETY: the rows are live; the numbers and the header are lent to us alone.
        let number = unsafe {
            raw::lictor_fill(
                &mut self.data,
                &mut header,
                v.seq,
                v.t_emit,
                v.horizon,
                v.dim,
                v.exec_steps,
                rows.as_ptr(),
                rows.len(),
            )
        };
        given(number, ())?;
        self.take(header);
        Ok(())
    }

    /// The chunk is held no more; its numbers stay.
    ///
    /// ```
    /// use lictor::chunk::{ChunkBuf, ChunkView};
    /// let mut held = ChunkBuf::new();
    /// held.copy_from(ChunkView::new(0, 0, 1, 1, &[0.25]))?;
    /// held.clear();
    /// assert_eq!(held.view().horizon, 0);
    /// # Ok::<(), lictor::Refusal>(())
    /// ```
    pub fn clear(&mut self) {
        self.filled = false;
    }

    /// The view of what is held; sizes 0 and no rows where nothing is.
    ///
    /// ```
    /// assert!(lictor::chunk::ChunkBuf::new().view().data.is_empty());
    /// ```
    #[must_use]
    pub fn view(&self) -> ChunkView<'_> {
        // SAFETY: the numbers are live.
        let held = unsafe { raw::lictor_held_rows(&self.data, self.horizon, self.dim, self.filled.into()) };
        let data = &self.data[..held];
        let sizes = (self.horizon, self.dim, self.exec_steps);
        let (horizon, dim, exec_steps) = if self.filled { sizes } else { (0, 0, 0) };
        ChunkView { seq: self.seq, t_emit: self.t_emit, horizon, dim, exec_steps, data }
    }

    /// Writes numbers over row `i`, the last row at or past the horizon, as many as both have.
    ///
    /// ```
    /// use lictor::chunk::{ChunkBuf, ChunkView};
    /// let mut held = ChunkBuf::new();
    /// held.copy_from(ChunkView::new(0, 0, 2, 1, &[0.0; 4]))?;
    /// held.set_row(1, &[0.5, 0.25]);
    /// assert_eq!(held.view().data, [0.0, 0.0, 0.5, 0.25]);
    /// # Ok::<(), lictor::Refusal>(())
    /// ```
    pub fn set_row(&mut self, i: usize, row: &[f64]) {
        let (data, h, d) = (&mut self.data, self.horizon, self.dim);
        // SAFETY: both slices are live, and the numbers are lent to us alone.
        unsafe { raw::lictor_set_row(data.as_mut_ptr(), data.len(), h, d, i, row.as_ptr(), row.len()) }
    }
}

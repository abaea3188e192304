//! The hit window, how many of the last pushes were hits; and the trail of the last positions.

use crate::{
    raw,
    refusal::{given, Answer},
};

/// The mask of a window of `n` pushes.
///
/// ```
/// assert_eq!(lictor::window::mask(3), Ok(7));
/// ```
///
/// # Errors
///
/// [`Size`](crate::Refusal::Size) outside 1..63.
pub fn mask(n: u8) -> Answer<u64> {
    let mut mask = 0;
    // SAFETY: the place is live and ours alone.
    let number = unsafe { raw::lictor_mask(n, &mut mask) };
    given(number, mask)
}

/// The last pushes, a bit each, the newest lowest.
///
/// ```
/// use lictor::window::{mask, Window};
/// let (mut window, three) = (Window::default(), mask(3)?);
/// for hit in [true, false, true, true] {
///     window.push(hit, three);
/// }
/// assert_eq!((window.bits, window.hits()), (3, 2));
/// # Ok::<(), lictor::Refusal>(())
/// ```
#[derive(Clone, Copy, Debug, Default, PartialEq, Eq)]
pub struct Window {
    /// The pushes; 0 is a new window.
    pub bits: u64,
}

impl Window {
    /// The bits move up by one, the hit comes in lowest, and the mask is put on.
    pub fn push(&mut self, hit: bool, mask: u64) {
        // SAFETY: numbers go by value.
        self.bits = unsafe { raw::lictor_push(self.bits, hit.into(), mask) };
    }

    /// How many of the bits are set.
    #[must_use]
    pub fn hits(&self) -> u8 {
        // SAFETY: numbers go by value.
        unsafe { raw::lictor_hits(self.bits) as u8 }
    }
}

/// A ring of the last 32 positions, 8 numbers to a slot.
///
/// ```
/// use lictor::window::Trail;
/// let mut trail = Trail::new();
/// for position in [[0.0, 0.0], [3.0, 0.0], [3.0, 4.0]] {
///     trail.push(&position, 2)?;
/// }
/// assert_eq!((trail.net(2, 3)?, trail.path(2, 3)?), (5.0, 7.0));
/// assert_eq!((trail.len()?, trail.is_empty()?), (3, false));
/// trail.clear()?;
/// assert!(trail.is_empty()?);
/// # Ok::<(), lictor::Refusal>(())
/// ```
#[derive(Clone, Copy, Debug, PartialEq)]
pub struct Trail {
    /// The samples, slot by slot.
    pub buf: [f64; 256],
    /// The slot that is written next, at most 31.
    pub head: u8,
    /// How many samples are held, at most 32.
    pub len: u8,
}

impl Default for Trail {
    fn default() -> Self {
        Self::new()
    }
}

impl Trail {
    /// No sample yet.
    #[must_use]
    pub const fn new() -> Self {
        Self { buf: [0.0; 256], head: 0, len: 0 }
    }

    pub(crate) fn marks(&self) -> [u64; 2] {
        [self.head.into(), self.len.into()]
    }

    pub(crate) fn take(&mut self, marks: [u64; 2]) {
        (self.head, self.len) = (marks[0] as u8, marks[1] as u8);
    }

    /// Records the first `d` coordinates of a position, at most 8 and as many as there are.
    ///
    /// # Errors
    ///
    /// [`Size`](crate::Refusal::Size), [`NotFinite`](crate::Refusal::NotFinite), for the trail too.
    pub fn push(&mut self, p: &[f64], d: usize) -> Answer<()> {
        let mut marks = self.marks();
        // SAFETY: the position is live; the numbers and marks are ours alone.
        let number = unsafe { raw::lictor_trail_push(&mut self.buf, &mut marks, p.as_ptr(), p.len(), d) };
        self.take(marks);
        given(number, ())
    }

    /// Lets go of the samples; the numbers stay.
    ///
    /// # Errors
    ///
    /// [`Size`](crate::Refusal::Size), [`NotFinite`](crate::Refusal::NotFinite): the trail was written over.
    pub fn clear(&mut self) -> Answer<()> {
        let mut marks = self.marks();
        // SAFETY: the numbers and marks are ours alone.
        let number = unsafe { raw::lictor_trail_clear(&mut self.buf, &mut marks) };
        self.take(marks);
        given(number, ())
    }

    /// The distance from the oldest to the newest of the last `w` samples; 0 for too few samples or a `w` out of range.
    ///
    /// # Errors
    ///
    /// As [`clear`](Self::clear), and [`Computed`](crate::Refusal::Computed).
    pub fn net(&self, d: usize, w: usize) -> Answer<f64> {
        let mut net = 0.0;
        // SAFETY: the numbers are live, and the place is ours alone.
        let number = unsafe { raw::lictor_trail_net(&self.buf, &self.marks(), d, w, &mut net) };
        given(number, net)
    }

    /// The length of the way between them, sample by sample, likewise.
    ///
    /// # Errors
    ///
    /// As [`net`](Self::net).
    pub fn path(&self, d: usize, w: usize) -> Answer<f64> {
        let mut path = 0.0;
        // SAFETY: the numbers are live, and the place is ours alone.
        let number = unsafe { raw::lictor_trail_path(&self.buf, &self.marks(), d, w, &mut path) };
        given(number, path)
    }

    /// How many samples are held.
    ///
    /// # Errors
    ///
    /// As [`clear`](Self::clear).
    pub fn len(&self) -> Answer<usize> {
        let mut len = 0;
        // SAFETY: the numbers are live, and the place is ours alone.
        let number = unsafe { raw::lictor_trail_len(&self.buf, &self.marks(), &mut len) };
        given(number, len as usize)
    }

    /// Whether none is held.
    ///
    /// # Errors
    ///
    /// As [`clear`](Self::clear).
    pub fn is_empty(&self) -> Answer<bool> {
        let mut empty = 0;
        // SAFETY: the numbers are live, and the place is ours alone.
        let number = unsafe { raw::lictor_trail_is_empty(&self.buf, &self.marks(), &mut empty) };
        given(number, empty == 1)
    }
}

//! Module 2.

use core::ops::Range;

use crate::{
    refusal::{judged, not_finite, when, EMPTY, EXEC_EXCEEDS_HORIZON, LEN_MISMATCH, TOO_LONG, TOO_WIDE},
    ChunkBuf, ChunkView, Refusal, MAX_D, MAX_H,
};

/// 5 to 9, in `fill`'s order.
pub fn judge(h: u16, d: u16, exec: u16, len: usize) -> Option<u8> {
    let found = [
        when(h == 0 || d == 0, EMPTY),
        when(h as usize > MAX_H, TOO_LONG),
        when(d as usize > MAX_D, TOO_WIDE),
        when(exec > h, EXEC_EXCEEDS_HORIZON),
        when(len != h as usize * d as usize, LEN_MISMATCH),
    ];
    found.into_iter().flatten().next()
}

pub fn judge_view(v: &ChunkView<'_>) -> Option<u8> {
    judge(v.horizon, v.dim, v.exec_steps, v.data.len())
}

/// A held chunk if filled; its rows are as long as its sizes say.
pub fn judge_held(b: &ChunkBuf) -> Option<u8> {
    let n = b.horizon as usize * b.dim as usize;
    if b.filled {
        judge(b.horizon, b.dim, b.exec_steps, n)
    } else {
        None
    }
}

pub fn fill(buf: &mut ChunkBuf, seq: u32, t_emit: u32, h: u16, d: u16, exec: u16, src: &[f64]) -> Result<(), Refusal> {
    judged(&[judge(h, d, exec, src.len()), not_finite(src)])?;
    buf.data[..src.len()].copy_from_slice(src);
    *buf = ChunkBuf { data: buf.data, seq, t_emit, horizon: h, dim: d, exec_steps: exec, filled: true };
    Ok(())
}

pub fn copy_from(buf: &mut ChunkBuf, v: ChunkView<'_>) -> Result<(), Refusal> {
    fill(buf, v.seq, v.t_emit, v.horizon, v.dim, v.exec_steps, v.data)
}

/// The part of a row: the last row at or past the horizon, empty without rows or where the row runs past the data.
pub fn row(h: u16, d: u16, len: usize, i: usize) -> Range<usize> {
    if h == 0 || d == 0 {
        return 0..0;
    }
    let start = i.min(h as usize - 1) * d as usize;
    let end = start + d as usize;
    if end <= len {
        start..end
    } else {
        0..0
    }
}

pub fn action<'a>(v: &ChunkView<'a>, i: usize) -> &'a [f64] {
    &v.data[row(v.horizon, v.dim, v.data.len(), i)]
}

/// The part of the buffer's own numbers.
pub fn row_mut(buf: &mut ChunkBuf, i: usize) -> &mut [f64] {
    let part = row(buf.horizon, buf.dim, buf.data.len(), i);
    &mut buf.data[part]
}

/// The header and the rows of a filled buffer; an unfilled one has sizes 0.
pub fn view(buf: &ChunkBuf) -> ChunkView<'_> {
    let (seq, t_emit) = (buf.seq, buf.t_emit);
    if buf.filled {
        ChunkView { seq, t_emit, horizon: buf.horizon, dim: buf.dim, exec_steps: buf.exec_steps, data: buf.rows() }
    } else {
        ChunkView { seq, t_emit, horizon: 0, dim: 0, exec_steps: 0, data: &[] }
    }
}

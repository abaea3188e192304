//! Module 2.

use model::{chunk as rule, ChunkBuf, MAX_D};

use super::{accepted, count, none, nothing, numbers};
use crate::{
    input::{chunk, chunk_buf, ChunkIn},
    number::Field,
    part::Part,
    port::{CopyFrom, Fill, FillRow, Port, View},
    rng::Rng,
    run::{Entry, Outcome, Shown},
};

/// All of a buffer: its numbers, header and flag.
pub fn shown(b: &ChunkBuf) -> Shown {
    let header = [b.seq as u64, b.t_emit as u64, b.horizon as u64, b.dim as u64, b.exec_steps as u64, b.filled as u64];
    Shown { numbers: b.data.to_vec(), counts: header.to_vec(), ..Shown::default() }
}

#[derive(Clone, Debug)]
pub struct FillIn {
    pub buf: ChunkBuf,
    pub src: ChunkIn,
}

fn generate(rng: &mut Rng) -> FillIn {
    let field = Field::new(rng);
    let dim = rng.within(1, MAX_D);
    FillIn { buf: chunk_buf(rng, field, dim), src: chunk(rng, field, dim) }
}

/// The old buffer is only written: whether its sizes fit does not matter, so that they are left alone.
fn parts(i: &mut FillIn) -> Vec<Part<'_>> {
    vec![Part::Chunk(&mut i.src), Part::Table(&mut i.buf.data, 0.0), Part::Flag(&mut i.buf.filled)]
}

fn filled(f: Fill, i: &FillIn) -> Outcome {
    let (mut buf, c) = (i.buf, &i.src);
    let answer = f(&mut buf, c.seq, c.t_emit, c.horizon, c.dim, c.exec_steps, &c.data);
    Outcome { answer: answer.map(|()| Shown::default()), buffers: shown(&buf) }
}

fn copied(f: CopyFrom, i: &FillIn) -> Outcome {
    let mut buf = i.buf;
    let answer = f(&mut buf, i.src.view());
    Outcome { answer: answer.map(|()| Shown::default()), buffers: shown(&buf) }
}

pub fn fill(port: &Port) -> Entry<FillIn> {
    Entry {
        name: "fill",
        generate,
        parts,
        narrower: none,
        before: |i| shown(&i.buf),
        model: Box::new(|i| filled(rule::fill, i)),
        rust: Box::new(|i| {
            let (mut buf, c) = (i.buf, &i.src);
            oracle::fill(&mut buf, c.seq, c.t_emit, c.horizon, c.dim, c.exec_steps, &c.data).ok()?;
            Some(Outcome { answer: Ok(Shown::default()), buffers: shown(&buf) })
        }),
        port: port.fill.map(|f| Box::new(move |i: &FillIn| filled(f, i)) as _),
    }
}

pub fn copy_from(port: &Port) -> Entry<FillIn> {
    Entry {
        name: "copy_from",
        generate,
        parts,
        narrower: none,
        before: |i| shown(&i.buf),
        model: Box::new(|i| copied(rule::copy_from, i)),
        rust: Box::new(|i| {
            let mut buf = i.buf;
            oracle::copy_from(&mut buf, i.src.view());
            Some(Outcome { answer: Ok(Shown::default()), buffers: shown(&buf) })
        }),
        port: port.copy_from.map(|f| Box::new(move |i: &FillIn| copied(f, i)) as _),
    }
}

#[derive(Clone, Debug)]
pub struct ActionIn {
    ch: ChunkIn,
    i: usize,
}

/// Refuses nothing, so that damaged views are compared with the Rust too.
pub fn action(port: &Port) -> Entry<ActionIn> {
    Entry {
        name: "action",
        generate: |rng| {
            let dim = rng.within(1, MAX_D);
            let ch = chunk(rng, Field(1.0), dim);
            let h = ch.horizon as usize;
            let i = rng.pick(&[0, 1, h.saturating_sub(1), h, h + 1, usize::MAX]);
            ActionIn { ch, i }
        },
        parts: |i| vec![Part::Chunk(&mut i.ch), Part::Usize(&mut i.i)],
        narrower: none,
        before: nothing,
        model: Box::new(|i| accepted(numbers(rule::action(&i.ch.view(), i.i)))),
        rust: Box::new(|i| Some(accepted(numbers(oracle::action(i.ch.view(), i.i))))),
        port: port.action.map(|f| Box::new(move |i: &ActionIn| accepted(numbers(&f(&i.ch.view(), i.i)))) as _),
    }
}

#[derive(Clone, Debug)]
pub struct RowIn {
    buf: ChunkBuf,
    i: usize,
}

fn row_in(rng: &mut Rng) -> RowIn {
    let dim = rng.within(1, MAX_D);
    let mut buf = chunk_buf(rng, Field(1.0), dim);
    // a cleared buffer keeps its header
    buf.filled &= !rng.one_in(4);
    let h = buf.horizon as usize;
    RowIn { buf, i: rng.pick(&[0, 1, h.saturating_sub(1), h, h + 1, usize::MAX]) }
}

/// The header's sizes stay such as `fill` gives: at others the Rust, with its larger buffer, may panic.
fn row_parts(i: &mut RowIn) -> Vec<Part<'_>> {
    let b = &mut i.buf;
    vec![Part::Usize(&mut i.i), Part::Table(&mut b.data, 0.0), Part::U32(&mut b.seq), Part::U32(&mut b.t_emit)]
}

/// The buffer after a number is written all over the row, and the row's length.
fn row_filled(f: FillRow, i: &RowIn) -> Outcome {
    let mut buf = i.buf;
    let answer = Ok(count(f(&mut buf, i.i, 7.0) as u64));
    Outcome { answer, buffers: shown(&buf) }
}

/// The model's row, with a number written all over it.
fn model_filled(b: &mut ChunkBuf, i: usize, x: f64) -> usize {
    let row = rule::row_mut(b, i);
    row.fill(x);
    row.len()
}

pub fn row_mut(port: &Port) -> Entry<RowIn> {
    Entry {
        name: "row_mut",
        generate: row_in,
        parts: row_parts,
        narrower: none,
        before: |i| shown(&i.buf),
        model: Box::new(|i| row_filled(model_filled, i)),
        rust: Box::new(|i| Some(row_filled(oracle::fill_row, i))),
        port: port.row_mut.map(|f| Box::new(move |i: &RowIn| row_filled(f, i)) as _),
    }
}

fn viewed(f: View, i: &RowIn) -> Outcome {
    let v = f(&i.buf);
    let header = [v.seq as u64, v.t_emit as u64, v.horizon as u64, v.dim as u64, v.exec_steps as u64];
    accepted(Shown { numbers: v.data.to_vec(), counts: header.to_vec(), ..Shown::default() })
}

/// The Rust has no view of an unfilled buffer.
pub fn view(port: &Port) -> Entry<RowIn> {
    Entry {
        name: "view",
        generate: row_in,
        parts: row_parts,
        narrower: none,
        before: nothing,
        model: Box::new(|i| viewed(rule::view, i)),
        rust: Box::new(|i| {
            let seen = oracle::view(&i.buf)?;
            Some(viewed(rule::view, &RowIn { buf: seen, i: i.i }))
        }),
        port: port.view.map(|f| Box::new(move |i: &RowIn| viewed(f, i)) as _),
    }
}

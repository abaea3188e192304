//! Module 3.

use model::{window as rule, Trail};

use super::{accepted, all_finite, count, none, nothing, number, plain};
use crate::{
    input::{trail, trail_parts},
    number::Field,
    part::Part,
    port::{Hits, Mask, Port, Push, TrailNumber, TrailPush},
    rng::Rng,
    run::{Entry, Outcome, Shown},
};

pub fn mask(port: &Port) -> Entry<u8> {
    Entry {
        name: "mask",
        generate: |rng| rng.bits() as u8,
        parts: |n| vec![Part::U8(n)],
        narrower: none,
        before: nothing,
        model: Box::new(|n| plain(rule::mask(*n), count)),
        rust: Box::new(|n| Some(accepted(count((1u64 << n) - 1)))),
        port: port.mask.map(|f| Box::new(move |n: &u8| plain(f(*n), count)) as _),
    }
}

#[derive(Clone, Debug)]
pub struct PushIn {
    bits: u64,
    hit: bool,
    mask: u64,
}

fn pushed(push: Push, hits: Hits, i: &PushIn) -> Outcome {
    let bits = push(i.bits, i.hit, i.mask);
    accepted(Shown { counts: vec![bits, hits(bits) as u64], ..Shown::default() })
}

/// push with any bits and any mask, and hits.
pub fn push(port: &Port) -> Entry<PushIn> {
    Entry {
        name: "push hits",
        generate: |rng| {
            let mask = if rng.one_in(3) { rng.bits() } else { (1 << rng.within(1, 63)) - 1 };
            PushIn { bits: rng.bits() >> rng.below(64), hit: rng.one_in(2), mask }
        },
        parts: |i| vec![Part::U64(&mut i.bits), Part::Flag(&mut i.hit), Part::U64(&mut i.mask)],
        narrower: none,
        before: nothing,
        model: Box::new(|i| pushed(rule::push, rule::hits, i)),
        rust: Box::new(|i| Some(pushed(oracle::push, oracle::hits, i))),
        port: port.push.zip(port.hits).map(|(p, h)| Box::new(move |i: &PushIn| pushed(p, h, i)) as _),
    }
}

#[derive(Clone, Debug)]
pub struct WindowRun {
    n: u8,
    pushes: Vec<f64>,
}

/// From new with one n throughout: bits and hits after each push; a push is true where its number isn't 0.
fn window_pushed(mask: Mask, push: Push, hits: Hits, i: &WindowRun) -> Outcome {
    plain(mask(i.n), |m| {
        let mut bits = 0;
        let mut counts = Vec::new();
        for x in &i.pushes {
            bits = push(bits, *x != 0.0, m);
            counts.push(hits(bits) as u64);
        }
        Shown { counts, ..Shown::default() }
    })
}

/// hits is the number of true among the last n pushes.
fn last_true(i: &WindowRun) -> Outcome {
    let true_among = |end: usize| {
        let start = end.saturating_sub(i.n as usize);
        i.pushes[start..end].iter().filter(|x| **x != 0.0).count() as u64
    };
    plain(rule::mask(i.n), |_| Shown { counts: (1..=i.pushes.len()).map(true_among).collect(), ..Shown::default() })
}

pub fn window_run(port: &Port) -> Entry<WindowRun> {
    let linked = port.mask.zip(port.push).zip(port.hits);
    Entry {
        name: "window run",
        generate: |rng| {
            let n = if rng.one_in(2) { rng.within(1, 6) } else { rng.within(1, 63) };
            let pushes = (0..rng.below(150)).map(|_| rng.below(2) as f64).collect();
            WindowRun { n: n as u8, pushes }
        },
        parts: |i| vec![Part::U8(&mut i.n), Part::Slice(&mut i.pushes)],
        narrower: none,
        before: nothing,
        model: Box::new(last_true),
        rust: Box::new(|i| Some(window_pushed(rule::mask, oracle::push, oracle::hits, i))),
        port: linked.map(|((m, p), h)| Box::new(move |i: &WindowRun| window_pushed(m, p, h, i)) as _),
    }
}

/// All of a trail.
pub fn shown(t: &Trail) -> Shown {
    Shown { numbers: t.buf.to_vec(), counts: vec![t.head as u64, t.len as u64], ..Shown::default() }
}

#[derive(Clone, Debug)]
pub struct TrailPushIn {
    trail: Trail,
    p: Vec<f64>,
    d: usize,
}

fn trail_pushed(f: TrailPush, i: &TrailPushIn) -> Outcome {
    let mut t = i.trail;
    let answer = f(&mut t, &i.p, i.d);
    Outcome { answer: answer.map(|()| Shown::default()), buffers: shown(&t) }
}

pub fn trail_push(port: &Port) -> Entry<TrailPushIn> {
    Entry {
        name: "trail push",
        generate: |rng| {
            let field = Field::new(rng);
            let n = rng.below(11);
            TrailPushIn { trail: trail(rng, field), p: field.numbers(rng, n), d: rng.below(11) }
        },
        parts: |i| {
            let mut parts = trail_parts(&mut i.trail);
            parts.extend([Part::Slice(&mut i.p), Part::Usize(&mut i.d)]);
            parts
        },
        narrower: none,
        before: |i| shown(&i.trail),
        model: Box::new(|i| trail_pushed(rule::trail_push, i)),
        rust: Box::new(|i| {
            let mut t = i.trail;
            oracle::trail_push(&mut t, &i.p, i.d);
            Some(Outcome { answer: Ok(Shown::default()), buffers: shown(&t) })
        }),
        port: port.trail_push.map(|f| Box::new(move |i: &TrailPushIn| trail_pushed(f, i)) as _),
    }
}

#[derive(Clone, Debug)]
pub struct TrailIn {
    trail: Trail,
    d: usize,
    w: usize,
}

fn trail_in(rng: &mut Rng) -> TrailIn {
    let field = Field::new(rng);
    let trail = trail(rng, field);
    let w = rng.pick(&[0, 1, 2, 3, 19, 20, 21, 31, 32, 33, trail.len as usize, trail.len as usize + 1, usize::MAX]);
    TrailIn { trail, d: rng.below(11), w }
}

fn trail_in_parts(i: &mut TrailIn) -> Vec<Part<'_>> {
    let mut parts = trail_parts(&mut i.trail);
    parts.extend([Part::Usize(&mut i.d), Part::Usize(&mut i.w)]);
    parts
}

fn trail_number(
    name: &'static str,
    rule: TrailNumber,
    rust: fn(&Trail, usize, usize) -> f64,
    port: Option<TrailNumber>,
) -> Entry<TrailIn> {
    Entry {
        name,
        generate: trail_in,
        parts: trail_in_parts,
        narrower: none,
        before: nothing,
        model: Box::new(move |i| plain(rule(&i.trail, i.d, i.w), number)),
        rust: Box::new(move |i| Some(accepted(number(rust(&i.trail, i.d, i.w))))),
        port: port.map(|f| Box::new(move |i: &TrailIn| plain(f(&i.trail, i.d, i.w), number)) as _),
    }
}

pub fn net(port: &Port) -> Entry<TrailIn> {
    trail_number("net", rule::net, oracle::net, port.net)
}

pub fn path(port: &Port) -> Entry<TrailIn> {
    trail_number("path", rule::path, oracle::path, port.path)
}

pub fn trail_len(port: &Port) -> Entry<Trail> {
    let counted = |(n, empty): (usize, bool)| Shown { counts: vec![n as u64, empty.into()], ..Shown::default() };
    Entry {
        name: "trail len",
        generate: |rng| {
            let field = Field::new(rng);
            trail(rng, field)
        },
        parts: trail_parts,
        narrower: none,
        before: nothing,
        model: Box::new(move |i| plain(rule::trail_len(i).map(|n| (n, n == 0)), counted)),
        rust: Box::new(move |i| Some(accepted(counted(oracle::trail_len(i))))),
        port: port.trail_len.map(|f| Box::new(move |i: &Trail| plain(f(i), counted)) as _),
    }
}

pub fn trail_clear(port: &Port) -> Entry<Trail> {
    let cleared = |f: fn(&mut Trail) -> Result<(), model::Refusal>, i: &Trail| {
        let mut t = *i;
        let answer = f(&mut t);
        Outcome { answer: answer.map(|()| Shown::default()), buffers: shown(&t) }
    };
    Entry {
        name: "trail clear",
        generate: |rng| {
            let field = Field::new(rng);
            trail(rng, field)
        },
        parts: trail_parts,
        narrower: none,
        before: shown,
        model: Box::new(move |i| cleared(rule::trail_clear, i)),
        rust: Box::new(|i| {
            let mut t = *i;
            oracle::trail_clear(&mut t);
            Some(Outcome { answer: Ok(Shown::default()), buffers: shown(&t) })
        }),
        port: port.trail_clear.map(|f| Box::new(move |i: &Trail| cleared(f, i)) as _),
    }
}

#[derive(Clone, Debug)]
pub struct TrailRun {
    d: usize,
    w: usize,
    /// the pushed positions, one number each for all coordinates
    samples: Vec<f64>,
}

/// A run of pushes from new with net and path after each.
fn trail_ran(push: TrailPush, net: TrailNumber, path: TrailNumber, i: &TrailRun) -> Outcome {
    let mut t = Trail::NEW;
    let mut seen = Vec::new();
    let mut step = |x: &f64| {
        push(&mut t, &[*x, x / 2.0, 1.0 - x], i.d)?;
        seen.extend([net(&t, i.d, i.w)?, path(&t, i.d, i.w)?]);
        Ok(())
    };
    let answer = i.samples.iter().try_for_each(&mut step);
    let answer =
        answer.map(|()| Shown { numbers: seen, counts: vec![t.head as u64, t.len as u64], ..Shown::default() });
    Outcome { answer, buffers: Shown::default() }
}

pub fn trail_run(port: &Port) -> Entry<TrailRun> {
    let linked = port.trail_push.zip(port.net).zip(port.path);
    Entry {
        name: "trail run",
        generate: |rng| {
            let (field, n) = (Field(1.0), rng.below(80));
            TrailRun { d: rng.within(1, 3), w: rng.within(1, 32), samples: field.numbers(rng, n) }
        },
        parts: |i| vec![Part::Usize(&mut i.d), Part::Usize(&mut i.w), Part::Slice(&mut i.samples)],
        narrower: none,
        before: nothing,
        model: Box::new(|i| trail_ran(rule::trail_push, rule::net, rule::path, i)),
        rust: Box::new(|i| {
            let push: TrailPush = |t, p, d| {
                oracle::trail_push(t, p, d);
                Ok(())
            };
            let net: TrailNumber = |t, d, w| {
                let x = oracle::net(t, d, w);
                all_finite().map(|()| x)
            };
            let path: TrailNumber = |t, d, w| {
                let x = oracle::path(t, d, w);
                all_finite().map(|()| x)
            };
            Some(trail_ran(push, net, path, i))
        }),
        port: linked.map(|((p, n), l)| Box::new(move |i: &TrailRun| trail_ran(p, n, l, i)) as _),
    }
}

//! Module 1.

use std::time::Instant;

use model::fmath as rule;
use oracle::rust::fmath as rust;

use super::{accepted, none, nothing, number, numbers, plain};
use crate::{
    input::at_least,
    number::{broken, Field},
    part::Part,
    port::{Clamp, ClampSide, Port, Sqrt, Two},
    rng::Rng,
    run::{Budget, Entry, Outcome, Report, Shown, Task},
};

/// A pattern for the root: any bits, squares and their neighbours, small ones, subnormal ones.
fn pattern(rng: &mut Rng) -> f64 {
    match rng.below(8) {
        0..=2 => f64::from_bits(rng.bits()),
        3 => f64::from_bits(rng.bits() >> 1),
        4 => f64::from_bits(rng.bits() >> rng.within(12, 63)),
        5 => {
            let r = f64::from_bits(1023 << 52 | rng.bits() >> 12 >> rng.below(52) << rng.below(26));
            let ulps = rng.below(5) as u64;
            f64::from_bits((r * r).to_bits() + ulps - 2)
        }
        6 => rng.below(1 << 20) as f64 / 1024.0,
        _ => Field(1.0).above(rng) * 2f64.powi(rng.below(2040) as i32 - 1020),
    }
}

pub fn sqrt(port: &Port) -> Entry<f64> {
    Entry {
        name: "sqrt",
        generate: pattern,
        parts: |x| vec![Part::Num(x)],
        narrower: none,
        before: nothing,
        model: Box::new(|x| plain(rule::sqrt(*x), number)),
        // an argument that is not finite raises no flag
        rust: Box::new(|x| x.is_finite().then(|| accepted(number(oracle::sqrt(*x))))),
        port: port.sqrt.map(|f| Box::new(move |x: &f64| plain(f(*x), number)) as _),
    }
}

/// The root against the processor's, bit for bit, on ten times as many patterns as another entry has calls.
pub fn patterns(port: &Port) -> Task {
    let f = port.sqrt;
    Task { name: "sqrt patterns", linked: f.is_some(), run: Box::new(move |b| run_patterns(f, b)) }
}

fn run_patterns(port: Option<Sqrt>, budget: &Budget) -> Report {
    let start = Instant::now();
    let mut report = Report { name: "sqrt patterns", linked: port.is_some(), ..Report::default() };
    let mut rng = Rng::new(budget.seed);
    for call in 0..budget.calls * 10 {
        if call % 4096 == 0 && start.elapsed() > budget.time {
            break;
        }
        let x = pattern(&mut rng);
        let processor = if x.is_finite() && x >= 0.0 { Ok(x.sqrt().to_bits()) } else { Err(13) };
        let model = rule::sqrt(x).map(f64::to_bits).map_err(|r| r.number);
        let ported = port.map(|f| f(x).map(f64::to_bits).map_err(|r| r.number));
        if model != processor || ported.is_some_and(|p| p != processor) {
            let bits = x.to_bits();
            report.failure = Some(format!(
                "sqrt of {x:?} (bits {bits:#x}): processor {processor:x?}, model {model:x?}, port {ported:x?}"
            ));
            break;
        }
        report.calls += 1;
        report.against_port += port.is_some() as u64;
        match processor {
            Ok(_) => (report.accepted, report.against_rust) = (report.accepted + 1, report.against_rust + 1),
            Err(n) => report.refused[n as usize] += 1,
        }
    }
    report.seconds = start.elapsed().as_secs_f64();
    report
}

#[derive(Clone, Debug)]
pub struct NormIn {
    pub v: Vec<f64>,
    pub n: usize,
}

pub fn norm(port: &Port) -> Entry<NormIn> {
    Entry {
        name: "norm",
        generate: |rng| {
            let (field, n) = (Field::new(rng), rng.below(10));
            NormIn { v: at_least(rng, field, n), n }
        },
        parts: |i| vec![Part::Slice(&mut i.v), Part::Usize(&mut i.n)],
        narrower: |i| {
            vec![NormIn { v: i.v[..i.v.len().saturating_sub(1)].to_vec(), n: i.n.saturating_sub(1) }; i.n.min(1)]
        },
        before: nothing,
        model: Box::new(|i| plain(rule::norm(&i.v, i.n), number)),
        rust: Box::new(|i| Some(accepted(number(oracle::norm(&i.v, i.n))))),
        port: port.norm.map(|f| Box::new(move |i: &NormIn| plain(f(&i.v, i.n), number)) as _),
    }
}

#[derive(Clone, Debug)]
pub struct DistIn {
    pub a: Vec<f64>,
    pub b: Vec<f64>,
    pub n: usize,
}

pub fn dist(port: &Port) -> Entry<DistIn> {
    Entry {
        name: "dist",
        generate: |rng| {
            let (field, n) = (Field::new(rng), rng.below(10));
            DistIn { a: at_least(rng, field, n), b: at_least(rng, field, n), n }
        },
        parts: |i| vec![Part::Slice(&mut i.a), Part::Slice(&mut i.b), Part::Usize(&mut i.n)],
        narrower: none,
        before: nothing,
        model: Box::new(|i| plain(rule::dist(&i.a, &i.b, i.n), number)),
        rust: Box::new(|i| Some(accepted(number(oracle::dist(&i.a, &i.b, i.n))))),
        port: port.dist.map(|f| Box::new(move |i: &DistIn| plain(f(&i.a, &i.b, i.n), number)) as _),
    }
}

#[derive(Clone, Debug)]
pub struct OrderIn {
    pub x: f64,
    pub lo: f64,
    pub hi: f64,
}

/// The least, the greatest, and what is clamped.
fn ordered(min: Two, max: Two, clamp: Clamp, i: &OrderIn) -> Shown {
    numbers(&[min(i.x, i.lo), max(i.x, i.lo), clamp(i.x, i.lo, i.hi)])
}

/// The same with the side of clamp. Its value and clamp's own are shown by their bits, so that a zero keeps its sign and a NaN is the
/// one that came.
fn sided(min: Two, max: Two, clamp: Clamp, clamp_side: ClampSide, i: &OrderIn) -> Outcome {
    let (value, side) = clamp_side(i.x, i.lo, i.hi);
    let bits = [value, clamp(i.x, i.lo, i.hi)].map(|x| x.to_bits() as i64);
    accepted(Shown { added: vec![side, bits[0], bits[1]], ..ordered(min, max, clamp, i) })
}

fn order_in(rng: &mut Rng) -> OrderIn {
    let field = Field::new(rng);
    let lo = field.number(rng);
    let hi = if rng.one_in(4) { field.number(rng) } else { lo + field.above(rng) };
    let x = match rng.below(4) {
        0 => broken(rng, lo),
        1 => broken(rng, hi),
        _ => field.number(rng),
    };
    OrderIn { x, lo, hi }
}

/// min, max and clamp, with its side, which the Rust has not. The Rust's clamp is another one at a NaN and where lo exceeds hi.
pub fn order(port: &Port) -> Entry<OrderIn> {
    let linked = port.min.zip(port.max).zip(port.clamp).zip(port.clamp_side);
    Entry {
        name: "min max clamp",
        generate: order_in,
        parts: |i| vec![Part::Num(&mut i.x), Part::Num(&mut i.lo), Part::Num(&mut i.hi)],
        narrower: none,
        before: nothing,
        model: Box::new(|i| sided(rule::min, rule::max, rule::clamp, rule::clamp_side, i)),
        rust: Box::new(|i| {
            (!i.x.is_nan() && i.lo <= i.hi).then(|| accepted(ordered(rust::min, rust::max, rust::clamp, i)))
        }),
        port: linked
            .map(|(((min, max), clamp), side)| Box::new(move |i: &OrderIn| sided(min, max, clamp, side, i)) as _),
    }
}

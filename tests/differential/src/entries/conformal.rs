//! Module 8.

use model::{conformal as rule, Calibration, Scores};

use super::{accepted, count, none, nothing, number, plain};
use crate::{
    input::{bin, calibration, calibration_parts, scores, scores_parts},
    number::{at_limit, Field},
    part::Part,
    port::{Aggregate, Port, Standardise},
    rng::Rng,
    run::{Entry, Outcome, Shown},
};

#[derive(Clone, Debug)]
pub struct GateIn {
    pub cal: Calibration,
    pub bin: usize,
    pub sc: Scores,
}

/// All of a score.
fn shown(sc: &Scores) -> Shown {
    let numbers = sc.f.iter().chain(&sc.z).chain([&sc.s]).copied().collect();
    Shown { numbers, counts: vec![sc.valid as u64, sc.fired as u64], ..Shown::default() }
}

fn generate(rng: &mut Rng) -> GateIn {
    let field = Field::new(rng);
    let (mut cal, sc) = (calibration(rng, field), scores(rng, field));
    if rng.one_in(3) {
        let at = rng.pick(&[sc.s, sc.z[0], sc.z[11]]);
        cal.tau = at_limit(rng, at);
    }
    GateIn { cal, bin: bin(rng), sc }
}

fn parts(i: &mut GateIn) -> Vec<Part<'_>> {
    let mut parts = calibration_parts(&mut i.cal);
    parts.extend(scores_parts(&mut i.sc));
    parts.push(Part::Usize(&mut i.bin));
    parts
}

fn standardised(f: Standardise, i: &GateIn) -> Outcome {
    let mut sc = i.sc;
    let answer = f(&i.cal, i.bin, &mut sc);
    Outcome { answer: answer.map(|()| Shown::default()), buffers: shown(&sc) }
}

fn aggregated(f: Aggregate, i: &GateIn) -> Outcome {
    let mut sc = i.sc;
    let answer = f(&i.cal, &mut sc);
    Outcome { answer: answer.map(number), buffers: shown(&sc) }
}

pub fn standardise(port: &Port) -> Entry<GateIn> {
    Entry {
        name: "standardise",
        generate,
        parts,
        narrower: none,
        before: |i| shown(&i.sc),
        model: Box::new(|i| standardised(rule::standardise, i)),
        rust: Box::new(|i| {
            let rust: Standardise = |c, b, s| {
                oracle::standardise(c, b, s);
                Ok(())
            };
            Some(standardised(rust, i))
        }),
        port: port.standardise.map(|f| Box::new(move |i: &GateIn| standardised(f, i)) as _),
    }
}

pub fn aggregate(port: &Port) -> Entry<GateIn> {
    Entry {
        name: "aggregate",
        generate,
        parts,
        narrower: none,
        before: |i| shown(&i.sc),
        model: Box::new(|i| aggregated(rule::aggregate, i)),
        rust: Box::new(|i| Some(aggregated(|c, s| Ok(oracle::aggregate(c, s)), i))),
        port: port.aggregate.map(|f| Box::new(move |i: &GateIn| aggregated(f, i)) as _),
    }
}

pub fn trip(port: &Port) -> Entry<GateIn> {
    Entry {
        name: "trip",
        generate,
        parts,
        narrower: none,
        before: nothing,
        model: Box::new(|i| plain(rule::trip(&i.cal, &i.sc), |t| count(t as u64))),
        rust: Box::new(|i| Some(accepted(count(oracle::trip(&i.cal, &i.sc) as u64)))),
        port: port.trip.map(|f| Box::new(move |i: &GateIn| plain(f(&i.cal, &i.sc), |t| count(t as u64))) as _),
    }
}

#[derive(Clone, Debug)]
pub struct TimeIn {
    pub t: u32,
    pub horizon_ticks: u32,
}

pub fn time_bin(port: &Port) -> Entry<TimeIn> {
    Entry {
        name: "time_bin",
        generate: |rng| {
            let horizon_ticks = if rng.one_in(4) { rng.bits() as u32 } else { rng.below(400) as u32 };
            let t = if rng.one_in(4) { rng.bits() as u32 } else { rng.below(horizon_ticks as usize + 3) as u32 };
            TimeIn { t, horizon_ticks }
        },
        parts: |i| vec![Part::U32(&mut i.t), Part::U32(&mut i.horizon_ticks)],
        narrower: none,
        before: nothing,
        model: Box::new(|i| plain(rule::time_bin(i.t, i.horizon_ticks), |b| count(b as u64))),
        rust: Box::new(|i| Some(accepted(count(oracle::time_bin(i.t, i.horizon_ticks) as u64)))),
        port: port
            .time_bin
            .map(|f| Box::new(move |i: &TimeIn| plain(f(i.t, i.horizon_ticks), |b| count(b as u64))) as _),
    }
}

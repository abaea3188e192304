//! A run under one setpoint.

use model::{
    brake as rule, envelope::derive, fmath::clamp, refusal::COMPUTED, FuseConfig, Ran, Refusal, Shape, MAX_POS,
};
use oracle::RustRun;

use super::numbers;
use crate::{
    input::{
        at_least, config, config_parts, config_parts_with_shape, lay_edge, lay_on_table, lay_table, lay_walls,
        narrower_config,
    },
    number::{at_limit, filler, Field},
    part::Part,
    port::{Port, RunTowards},
    rng::Rng,
    run::{Entry, Outcome, Shown},
};

#[derive(Clone, Debug)]
pub struct RunIn {
    pub cfg: FuseConfig,
    pub setpoint: Vec<f64>,
    pub p: Vec<f64>,
    pub v: Vec<f64>,
    pub n: usize,
    pub slacks: Vec<f64>,
}

impl RunIn {
    /// The axes that move.
    pub fn live(&self) -> usize {
        self.cfg.dim.min(self.cfg.pos_dim)
    }

    /// What the model answers to this input with n substeps, and enough entries for them.
    pub fn answer(&self, n: usize) -> Result<Ran, Refusal> {
        rule::run_towards(&self.cfg, &self.setpoint, &mut self.p.clone(), &mut self.v.clone(), n, &mut vec![0.0; n])
    }
}

/// Few substeps mostly, sometimes none or many, seldom more than a forecast may have.
fn substeps(rng: &mut Rng) -> usize {
    match rng.below(400) {
        0 => rng.within(4000, 4200),
        1..=20 => rng.within(20, 200),
        21..=60 => 0,
        _ => rng.within(1, 8),
    }
}

fn generate_sound(rng: &mut Rng) -> RunIn {
    let field = Field::new(rng);
    let cfg = config(rng, field);
    let (setpoint, n) = (at_least(rng, field, cfg.dim), substeps(rng));
    let (p, v) = (at_least(rng, field, cfg.pos_dim), at_least(rng, field, cfg.pos_dim));
    RunIn { cfg, setpoint, p, v, n, slacks: Vec::new() }
}

/// Entries for the substeps, or a few more; of sixteen inputs one has a slice that is one number short, and one a number that is not finite.
fn lend(rng: &mut Rng, mut i: RunIn) -> RunIn {
    let more = rng.pick(&[0, 0, 1, 5]);
    i.slacks = filler(rng, i.n + more);
    let FuseConfig { dim, pos_dim, .. } = i.cfg;
    match rng.below(16) {
        0 => {
            let least = [dim, pos_dim, pos_dim, i.n];
            let k = rng.below(least.len());
            [&mut i.setpoint, &mut i.p, &mut i.v, &mut i.slacks][k].truncate(least[k].saturating_sub(1));
        }
        1 => {
            let mut slices = [&mut i.setpoint, &mut i.p, &mut i.v];
            let lent = &mut slices[rng.below(3)];
            let at = rng.below(lent.len());
            lent[at] = rng.pick(&[f64::NAN, f64::INFINITY, f64::NEG_INFINITY]);
        }
        _ => (),
    }
    i
}

fn generate(rng: &mut Rng) -> RunIn {
    let mut i = generate_sound(rng);
    match rng.below(16) {
        0 | 1 => lay_overflow(rng, &mut i),
        2 | 3 => lay_box(rng, &mut i),
        4 => lay_zeros(rng, &mut i),
        5 | 6 => {
            let c = rng.below(i.live());
            lay_walls(rng, &mut i.cfg, c, vec![&mut i.p[c], &mut i.setpoint[c]]);
            i.v[c] = rng.pick(&[0.0, -0.0]);
        }
        _ => (),
    }
    lend(rng, i)
}

/// A wall of the box where the least slack is, so that the margin is 0 or a step to either side.
fn lay_box(rng: &mut Rng, i: &mut RunIn) {
    if let Some(r) = i.answer(i.n).ok().filter(|r| r.margin.is_finite()) {
        i.cfg.margin = 0.0;
        for c in 0..i.cfg.pos_dim {
            i.cfg.box_lo[c] = at_limit(rng, i.cfg.box_lo[c] + r.margin);
            i.cfg.box_hi[c] = at_limit(rng, i.cfg.box_hi[c] - r.margin);
        }
    }
}

/// The radius where the least slack is, so that the margin is 0 or a step to either side.
fn lay_radius(rng: &mut Rng, i: &mut RunIn) {
    if let Ok(r) = i.answer(i.n) {
        let radius = at_limit(rng, i.cfg.shape.radius - r.margin);
        if radius > 0.0 && radius.is_finite() {
            i.cfg.shape.radius = radius;
        }
    }
}

/// A gain so large that the plant soon leaves the format, or a plant that drifts to where a slack alone does: far from a wall at the other end
/// of the format, or from the centre of a table. The substeps end before the first number that is not finite, with it or after it.
fn lay_overflow(rng: &mut Rng, i: &mut RunIn) {
    const SOON: usize = 24;
    if rng.one_in(2) {
        i.cfg.brake.k_p = rng.pick(&[1e30, 1e100, 1e200, 1e300]);
    } else {
        let (c, drift) = match i.cfg.shape.disc {
            true => (rng.below(2), rng.pick(&[1e153, 4e153, 1e154])),
            false => (rng.below(i.live()), rng.pick(&[1e291, 4e291, 1e292])),
        };
        (i.cfg.brake.k_p, i.cfg.brake.k_v, i.cfg.brake.dt, i.cfg.margin) = (0.0, 1e-9, 0.5, 0.0);
        (i.p[c], i.v[c]) = (0.0, drift * rng.pick(&[1.0, -1.0]));
        if !i.cfg.shape.disc {
            (i.cfg.box_lo[c], i.cfg.box_hi[c]) = (-f64::MAX, f64::MAX);
        }
    }
    if let Err(Refusal { number: COMPUTED, place }) = i.answer(SOON) {
        i.n = place - 1 + rng.pick(&[0, 1, 1, 2, 7]);
    }
}

/// An axis beside a low wall at 0, with a velocity of a step of the format or two, so that its slacks are zeros of either sign.
fn lay_zeros(rng: &mut Rng, i: &mut RunIn) {
    let c = rng.below(i.live());
    (i.cfg.brake.k_p, i.cfg.brake.k_v, i.cfg.brake.dt, i.cfg.margin) = (1.0, rng.pick(&[1.0, 4.0, 8.0]), 0.25, 0.0);
    (i.cfg.box_lo[c], i.cfg.box_hi[c]) = (0.0, 1.0);
    (i.p[c], i.setpoint[c]) = (rng.pick(&[0.0, -0.0]), 0.0);
    i.v[c] = rng.pick(&[5e-324, -5e-324, 1e-323, -1e-323]);
    // the other axes stay where they are, between walls that are farther
    for other in (0..i.cfg.pos_dim).filter(|other| *other != c) {
        (i.cfg.box_lo[other], i.cfg.box_hi[other], i.p[other], i.v[other]) = (-1.0, 1.0, 0.0, 0.0);
        i.setpoint.iter_mut().skip(other).take(1).for_each(|a| *a = 0.0);
    }
}

/// A run about a round table; of three one has a further axis about its walls.
fn generate_on_a_round_table(rng: &mut Rng) -> RunIn {
    let mut i = generate_sound(rng);
    lay_table(rng, Field(1.0), &mut i.cfg);
    if i.live() > 2 && rng.one_in(3) {
        let c = rng.within(2, i.live() - 1);
        lay_walls(rng, &mut i.cfg, c, vec![&mut i.p[c]]);
    }
    lay_on_table(rng, &i.cfg.shape, &mut i.p);
    lay_on_table(rng, &i.cfg.shape, &mut i.setpoint);
    if rng.one_in(4) {
        i.v.fill(0.0);
    }
    // a disc of one axis is refused
    let fits = i.cfg.shape.disc && i.live() > 1;
    match rng.below(8) {
        0 => lay_edge(rng, &mut i.cfg.shape, &i.p),
        1 | 2 if fits => lay_radius(rng, &mut i),
        3 if fits => lay_overflow(rng, &mut i),
        _ => (),
    }
    lend(rng, i)
}

/// The start moved inside its box, over the live axes.
fn inside(i: &RunIn) -> Option<Vec<f64>> {
    let d = derive(&i.cfg).ok()?;
    Some((0..i.live()).map(|c| clamp(i.p[c], d.box_lo[c], d.box_hi[c])).collect())
}

/// A run towards the start moved inside its box, as a forecast brakes where no row is left; of two starts one has an axis about its walls.
fn generate_towards_the_start(rng: &mut Rng) -> RunIn {
    let mut i = generate_sound(rng);
    match rng.below(6) {
        0 => lay_overflow(rng, &mut i),
        1..=3 => {
            let c = rng.below(i.live());
            lay_walls(rng, &mut i.cfg, c, vec![&mut i.p[c]]);
        }
        _ => (),
    }
    if let Some(at) = inside(&i) {
        i.setpoint[..at.len()].copy_from_slice(&at);
    }
    lend(rng, i)
}

fn parts(i: &mut RunIn) -> Vec<Part<'_>> {
    parts_and(config_parts, i)
}

fn parts_with_shape(i: &mut RunIn) -> Vec<Part<'_>> {
    parts_and(config_parts_with_shape, i)
}

fn parts_and(config: fn(&mut FuseConfig) -> Vec<Part<'_>>, i: &mut RunIn) -> Vec<Part<'_>> {
    let mut parts = vec![
        Part::Slice(&mut i.setpoint),
        Part::Slice(&mut i.p),
        Part::Slice(&mut i.v),
        Part::Usize(&mut i.n),
        Part::Slice(&mut i.slacks),
    ];
    parts.extend(config(&mut i.cfg));
    parts
}

/// One axis less; or one of the two sizes less; or a substep less with its entry; or a slice without its first number.
fn narrower(i: &RunIn) -> Vec<RunIn> {
    let FuseConfig { dim, pos_dim, .. } = i.cfg;
    let with = |cfg: FuseConfig| RunIn { cfg, ..i.clone() };
    let mut all = Vec::new();
    if (2..=MAX_POS).contains(&dim) {
        all.push(with(narrower_config(&i.cfg)));
        all.push(with(FuseConfig { dim: dim - 1, ..i.cfg }));
    }
    if (2..=MAX_POS).contains(&pos_dim) {
        all.push(with(FuseConfig { pos_dim: pos_dim - 1, ..i.cfg }));
    }
    if i.n > 0 && !i.slacks.is_empty() {
        all.push(RunIn { n: i.n - 1, slacks: i.slacks[1..].to_vec(), ..i.clone() });
    }
    for k in 0..3 {
        let mut less = i.clone();
        let lent = [&mut less.setpoint, &mut less.p, &mut less.v].into_iter().nth(k).expect("three slices");
        if !lent.is_empty() {
            lent.remove(0);
            all.push(less);
        }
    }
    all
}

/// All that is lent to be written, as numbers and by its bits; the entries first, of which a 13 keeps those before its place.
fn lent(slacks: &[f64], p: &[f64], v: &[f64]) -> Shown {
    let all = [slacks, p, v].concat();
    Shown { added: all.iter().map(|x| x.to_bits() as i64).collect(), ..numbers(&all) }
}

fn shown(r: Ran) -> Shown {
    Shown { numbers: vec![r.margin], counts: vec![r.count as u64], added: vec![r.margin.to_bits() as i64] }
}

fn ran(f: RunTowards, i: &RunIn) -> Outcome {
    let (mut p, mut v, mut slacks) = (i.p.clone(), i.v.clone(), i.slacks.clone());
    let answer = f(&i.cfg, &i.setpoint, &mut p, &mut v, i.n, &mut slacks);
    Outcome { answer: answer.map(shown), buffers: lent(&slacks, &p, &v) }
}

/// A way to have a run of the published forecast: a configuration, a row, position, velocity and substeps.
type Asked = fn(&FuseConfig, &[f64], &[f64], &[f64], u16) -> RustRun;

/// What the published forecast shows of this run.
fn rust_ran(i: &RunIn, run: Asked) -> Option<Outcome> {
    let r = run(&i.cfg, &i.setpoint[..i.cfg.dim], &i.p, &i.v, u16::try_from(i.n).ok()?);
    let (mut p, mut v, mut slacks) = (i.p.clone(), i.v.clone(), i.slacks.clone());
    let written = r.place.map_or(r.slacks.len(), |k| k - 1);
    slacks[..written].copy_from_slice(&r.slacks[..written]);
    let answer = match r.place {
        Some(place) => Err(Refusal { number: COMPUTED, place }),
        None => {
            p[..r.plant.p.len()].copy_from_slice(&r.plant.p);
            v[..r.plant.v.len()].copy_from_slice(&r.plant.v);
            Ok(Shown { added: vec![], ..shown(r.answer) })
        }
    };
    Some(Outcome { answer, buffers: Shown { added: vec![], ..lent(&slacks, &p, &v) } })
}

/// Bit for bit the model's and, as numbers, the published forecast's of the second-order kind with one row that is held for the substeps.
pub fn run_towards(port: &Port) -> Entry<RunIn> {
    Entry {
        name: "run_towards",
        generate,
        parts,
        narrower,
        before: |i| lent(&i.slacks, &i.p, &i.v),
        model: Box::new(|i| ran(rule::run_towards, i)),
        rust: Box::new(|i| rust_ran(i, oracle::run_towards_a_row)),
        port: port.run_towards.map(|f| Box::new(move |i: &RunIn| ran(f, i)) as _),
    }
}

/// The same entry about a round table. The Rust has the box alone, and is asked there.
pub fn run_towards_on_a_round_table(port: &Port) -> Entry<RunIn> {
    Entry {
        name: "run_towards on a round table",
        generate: generate_on_a_round_table,
        parts: parts_with_shape,
        rust: Box::new(|i| match i.cfg.shape {
            Shape { disc: false, .. } => rust_ran(i, oracle::run_towards_a_row),
            _ => None,
        }),
        ..run_towards(port)
    }
}

/// The same entry towards the start moved inside, beside the published forecast's braking steps with no row left. Where a broken part has
/// parted the setpoint from the start the Rust is not asked.
pub fn run_towards_the_start(port: &Port) -> Entry<RunIn> {
    Entry {
        name: "run_towards the start",
        generate: generate_towards_the_start,
        rust: Box::new(|i| {
            let bits = |v: &[f64]| v.iter().map(|x| x.to_bits()).collect::<Vec<_>>();
            let same = inside(i).is_some_and(|at| bits(&at) == bits(&i.setpoint[..at.len()]));
            same.then(|| rust_ran(i, oracle::run_towards_the_start)).flatten()
        }),
        ..run_towards(port)
    }
}

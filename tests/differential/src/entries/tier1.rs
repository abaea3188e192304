//! Module 6.

use model::{tier1 as rule, window, FuseConfig, Refusal, Scores, Tier1Rt, Trail, MAX_D};

use super::{all_finite, chunk::shown as chunk_shown, none, nothing, window::shown as trail_shown};
use crate::{
    input::{
        chunk, chunk_buf, chunk_buf_parts, config, config_parts, held, narrower_config, scores, scores_parts, trail,
        trail_parts, ChunkIn,
    },
    number::Field,
    part::Part,
    port::{Features, Port, Reset, TrailPush},
    rng::Rng,
    run::{Entry, Outcome, Shown},
};

#[derive(Clone, Debug)]
pub struct FeaturesIn {
    pub cfg: FuseConfig,
    pub rt: Tier1Rt,
    pub pos: Vec<f64>,
    pub ext: Vec<f64>,
    pub new: Option<ChunkIn>,
    pub sc: Scores,
}

/// All of the state and of the scores.
fn shown(rt: &Tier1Rt, sc: &Scores) -> Shown {
    let mut s = chunk_shown(&rt.prev);
    let t = trail_shown(&rt.trail);
    s.numbers.extend(t.numbers.iter().chain(&rt.held).chain(&sc.f).chain(&sc.z).chain([&sc.s]));
    s.counts.extend(t.counts);
    s.counts.extend([rt.have_prev as u64, rt.held_valid as u64, sc.valid as u64, sc.fired as u64]);
    s
}

fn state(rng: &mut Rng, field: Field, dim: usize) -> Tier1Rt {
    Tier1Rt {
        prev: chunk_buf(rng, field, dim),
        have_prev: !rng.one_in(6),
        trail: trail(rng, field),
        held: held(rng, field),
        held_valid: rng.below(256) as u32,
    }
}

fn generate(rng: &mut Rng) -> FeaturesIn {
    let field = Field::new(rng);
    let cfg = config(rng, field);
    let rt = state(rng, field, cfg.dim);
    let (pos, ext) = (rng.within(cfg.pos_dim.saturating_sub(2), cfg.pos_dim + 1), rng.below(7));
    let new = (!rng.one_in(4)).then(|| chunk(rng, field, cfg.dim));
    let (pos, ext) = (field.numbers(rng, pos), field.numbers(rng, ext));
    let mut input = FeaturesIn { cfg, rt, pos, ext, new, sc: scores(rng, field) };
    if rng.one_in(16) {
        lay_stall(rng, &mut input);
    }
    input
}

/// A control period and a scale at which the Rust's Stall has a denominator of 0, an infinite speed or an infinite quotient, and
/// no chunk, whose features have the scale for a divisor, too.
fn lay_stall(rng: &mut Rng, i: &mut FeaturesIn) {
    let (dt, scale) = rng.pick(&[(1e20, 1e-308), (1e-10, 1e300), (1.0, 1e-308)]);
    i.cfg.dt = dt;
    i.cfg.norm_scale[..i.cfg.dim].fill(scale);
    i.new = None;
}

fn parts(i: &mut FeaturesIn) -> Vec<Part<'_>> {
    let mut parts = vec![
        Part::Slice(&mut i.pos),
        Part::Slice(&mut i.ext),
        Part::Flag(&mut i.rt.have_prev),
        Part::Table(&mut i.rt.held, 0.0),
        Part::Bits(&mut i.rt.held_valid),
    ];
    parts.extend(i.new.as_mut().map(Part::Chunk));
    parts.extend(chunk_buf_parts(&mut i.rt.prev));
    parts.extend(trail_parts(&mut i.rt.trail));
    parts.extend(scores_parts(&mut i.sc));
    parts.extend(config_parts(&mut i.cfg));
    parts
}

fn narrower(i: &FeaturesIn) -> Vec<FeaturesIn> {
    let mut smaller = Vec::new();
    if i.new.is_some() {
        smaller.push(FeaturesIn { new: None, ..i.clone() });
    }
    if i.rt != Tier1Rt::NEW {
        smaller.push(FeaturesIn { rt: Tier1Rt::NEW, ..i.clone() });
    }
    if let Some(ch) = i.new.as_ref().and_then(ChunkIn::narrower) {
        let mut rt = i.rt;
        rt.prev.dim = rt.prev.dim.min(ch.dim);
        smaller.push(FeaturesIn { cfg: narrower_config(&i.cfg), rt, new: Some(ch), ..i.clone() });
    }
    smaller
}

fn computed(f: Features, i: &FeaturesIn) -> Outcome {
    let (mut rt, mut sc) = (i.rt, i.sc);
    let answer = f(&i.cfg, &mut rt, &i.pos, &i.ext, i.new.as_ref().map(ChunkIn::view), &mut sc);
    Outcome { answer: answer.map(|()| Shown::default()), buffers: shown(&rt, &sc) }
}

/// The Rust, in the model's shape: 13 where its flags show a number that is not finite.
fn rust_features(
    cfg: &FuseConfig,
    rt: &mut Tier1Rt,
    pos: &[f64],
    ext: &[f64],
    new: Option<model::ChunkView<'_>>,
    sc: &mut Scores,
) -> Result<(), Refusal> {
    oracle::features(cfg, rt, pos, ext, new, sc);
    all_finite()
}

pub fn features(port: &Port) -> Entry<FeaturesIn> {
    Entry {
        name: "features",
        generate,
        parts,
        narrower,
        before: |i| shown(&i.rt, &i.sc),
        model: Box::new(|i| computed(rule::features, i)),
        rust: Box::new(|i| Some(computed(rust_features, i))),
        port: port.features.map(|f| Box::new(move |i: &FeaturesIn| computed(f, i)) as _),
    }
}

fn let_go(f: Reset, i: &Tier1Rt) -> Outcome {
    let mut rt = *i;
    let answer = f(&mut rt);
    Outcome { answer: answer.map(|()| Shown::default()), buffers: shown(&rt, &Scores::NEW) }
}

pub fn reset(port: &Port) -> Entry<Tier1Rt> {
    Entry {
        name: "reset",
        generate: |rng| {
            let (field, dim) = (Field::new(rng), rng.within(1, MAX_D));
            state(rng, field, dim)
        },
        parts: |i| {
            let mut parts = chunk_buf_parts(&mut i.prev);
            parts.extend(trail_parts(&mut i.trail));
            parts.extend([Part::Flag(&mut i.have_prev), Part::Table(&mut i.held, 0.0), Part::Bits(&mut i.held_valid)]);
            parts
        },
        narrower: none,
        before: |i| shown(i, &Scores::NEW),
        model: Box::new(|i| let_go(rule::reset, i)),
        rust: Box::new(|i| Some(let_go(rust_reset, i))),
        port: port.reset.map(|f| Box::new(move |i: &Tier1Rt| let_go(f, i)) as _),
    }
}

/// The Rust, in the model's shape.
fn rust_reset(rt: &mut Tier1Rt) -> Result<(), Refusal> {
    *rt = oracle::reset(rt);
    Ok(())
}

/// One tick: the position is pushed, then the features are computed.
#[derive(Clone, Debug)]
pub struct Tick {
    pos: Vec<f64>,
    ext: Vec<f64>,
    new: Option<ChunkIn>,
}

#[derive(Clone, Debug)]
pub struct Episode {
    cfg: FuseConfig,
    ticks: Vec<Tick>,
}

/// Ticks from a new state: chunks with every overlap, gaps, and now and then an earlier emit time.
fn generate_episode(rng: &mut Rng) -> Episode {
    let field = Field(1.0);
    let cfg = config(rng, field);
    let mut emit = rng.below(5);
    let tick = |t: usize, rng: &mut Rng| {
        let due = t == 0 || rng.one_in(4);
        emit = if rng.one_in(12) { emit.saturating_sub(2) } else { emit + rng.below(4) };
        let new = due.then(|| {
            let h = rng.within(1, 8);
            let data = field.numbers(rng, h * cfg.dim);
            let (horizon, dim) = (h as u16, cfg.dim as u16);
            ChunkIn { seq: t as u32, t_emit: emit as u32, horizon, dim, exec_steps: 0, data }
        });
        let ext = rng.below(5);
        Tick { pos: field.numbers(rng, cfg.pos_dim), ext: field.numbers(rng, ext), new }
    };
    let ticks = rng.within(1, 45);
    Episode { cfg, ticks: (0..ticks).scan(tick, |tick, t| Some(tick(t, rng))).collect() }
}

/// All of the state and of the scores after every tick, up to the first refusal.
fn ran(push: TrailPush, f: Features, i: &Episode) -> Outcome {
    let (mut rt, mut sc) = (Tier1Rt::NEW, Scores::NEW);
    let mut seen = Shown::default();
    let mut tick = |t: &Tick| {
        push(&mut rt.trail, &t.pos, i.cfg.pos_dim)?;
        f(&i.cfg, &mut rt, &t.pos, &t.ext, t.new.as_ref().map(ChunkIn::view), &mut sc)?;
        let s = shown(&rt, &sc);
        seen.numbers.extend(s.numbers);
        seen.counts.extend(s.counts);
        Ok(())
    };
    let answer = i.ticks.iter().try_for_each(&mut tick);
    Outcome { answer: answer.map(|()| seen), buffers: Shown::default() }
}

fn rust_push(t: &mut Trail, p: &[f64], d: usize) -> Result<(), Refusal> {
    oracle::trail_push(t, p, d);
    Ok(())
}

pub fn episode(port: &Port) -> Entry<Episode> {
    let linked = port.trail_push.zip(port.features);
    Entry {
        name: "episode",
        generate: generate_episode,
        parts: |i| {
            let mut parts = config_parts(&mut i.cfg);
            for t in &mut i.ticks {
                parts.extend([Part::Slice(&mut t.pos), Part::Slice(&mut t.ext)]);
                parts.extend(t.new.as_mut().map(Part::Chunk));
            }
            parts
        },
        narrower: |i| {
            let n = i.ticks.len();
            let cut = |a: usize, b: usize| Episode { ticks: i.ticks[a..b].to_vec(), ..i.clone() };
            if n > 1 {
                vec![cut(0, n / 2), cut(0, n - 1), cut(1, n)]
            } else {
                vec![]
            }
        },
        before: nothing,
        model: Box::new(|i| ran(window::trail_push, rule::features, i)),
        rust: Box::new(|i| Some(ran(rust_push, rust_features, i))),
        port: linked.map(|(p, f)| Box::new(move |i: &Episode| ran(p, f, i)) as _),
    }
}

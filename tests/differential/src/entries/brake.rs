//! Module 7.

use model::{
    brake as rule, refusal::COMPUTED, ActionKind, BrakeKind, BrakeOut, FuseConfig, Gripper, Refusal, WallMarks, MAX_D,
};

use super::numbers;
use crate::{
    input::{
        at_least, chunk, config, config_parts, config_parts_with_gripper, config_parts_with_shape, last_command,
        lay_edge, lay_gripper, lay_on_table, lay_table, lay_walls, narrower_config, ChunkIn,
    },
    number::{at_limit, filler, Field},
    part::Part,
    port::{BrakeAction, BrakeFeasible, HoldAction, Port},
    rng::Rng,
    run::{Entry, Outcome, Shown},
};

#[derive(Clone, Debug)]
pub struct ForecastIn {
    pub cfg: FuseConfig,
    pub p: Vec<f64>,
    pub v: Vec<f64>,
    pub ch: ChunkIn,
    pub from: usize,
    pub slacks: Vec<f64>,
}

fn shown(r: BrakeOut) -> Shown {
    Shown { numbers: vec![r.margin, r.stop_dist], counts: vec![r.count as u64, r.feasible as u64], ..Shown::default() }
}

fn generate(rng: &mut Rng) -> ForecastIn {
    let field = Field::new(rng);
    let mut cfg = config(rng, field);
    let from = match rng.below(12) {
        0 => usize::MAX,
        1..=3 => rng.within(0, cfg.brake.commit as usize + 1),
        _ => 0,
    };
    let ch = chunk(rng, field, cfg.dim);
    let (p, v) = (at_least(rng, field, cfg.pos_dim), at_least(rng, field, cfg.pos_dim));
    let more = rng.pick(&[0, 0, 1, 5]);
    let slacks = filler(rng, rule::count_of(&cfg, from) + more);
    if rng.one_in(4) {
        lay_box(rng, &mut cfg, &p, &v, &ch, from);
    }
    ForecastIn { cfg, p, v, ch, from, slacks }
}

/// A wall of the box where the least slack is, so that the margin is 0 or a step to either side.
fn lay_box(rng: &mut Rng, cfg: &mut FuseConfig, p: &[f64], v: &[f64], ch: &ChunkIn, from: usize) {
    let mut slacks = vec![0.0; rule::count_of(cfg, from)];
    if let Ok(r) = rule::brake_feasible(cfg, p, v, ch.view(), from, &mut slacks) {
        if r.margin.is_finite() {
            cfg.margin = 0.0;
            for c in 0..cfg.pos_dim {
                cfg.box_lo[c] = at_limit(rng, cfg.box_lo[c] + r.margin);
                cfg.box_hi[c] = at_limit(rng, cfg.box_hi[c] - r.margin);
            }
        }
    }
}

/// The radius where the least slack is, so that the margin is 0 or a step to either side, as far as the setpoint stays.
fn lay_disc(rng: &mut Rng, i: &mut ForecastIn) {
    let mut slacks = vec![0.0; rule::count_of(&i.cfg, i.from)];
    if let Ok(r) = rule::brake_feasible(&i.cfg, &i.p, &i.v, i.ch.view(), i.from, &mut slacks) {
        let radius = at_limit(rng, i.cfg.shape.radius - r.margin);
        if radius > 0.0 && radius.is_finite() {
            i.cfg.shape.radius = radius;
        }
    }
}

/// A forecast that starts about a round table, to rows about it; of four one has no braking steps, of four one no row left, and of three
/// one a further axis about its walls.
fn generate_on_a_round_table(rng: &mut Rng) -> ForecastIn {
    let mut i = generate(rng);
    lay_table(rng, Field(1.0), &mut i.cfg);
    if rng.one_in(4) {
        i.cfg.brake.brake_steps = 0;
    }
    if rng.one_in(4) {
        i.from = i.cfg.brake.commit as usize + rng.pick(&[0, 0, 1, 1 << 40]);
    }
    let (d, nb) = (i.cfg.dim, i.cfg.dim.min(i.cfg.pos_dim));
    if nb > 2 && rng.one_in(3) {
        let c = rng.within(2, nb - 1);
        lay_walls(rng, &mut i.cfg, c, vec![&mut i.p[c]]);
    }
    lay_on_table(rng, &i.cfg.shape, &mut i.p);
    if i.ch.dim as usize == d {
        i.ch.data.chunks_mut(d).for_each(|row| lay_on_table(rng, &i.cfg.shape, row));
    }
    if rng.one_in(4) {
        i.v.fill(0.0);
    }
    match rng.below(6) {
        0 => lay_edge(rng, &mut i.cfg.shape, &i.p),
        1 | 2 if i.cfg.shape.disc => lay_disc(rng, &mut i),
        _ => (),
    }
    let more = rng.pick(&[0, 0, 1, 5]);
    i.slacks = filler(rng, rule::count_of(&i.cfg, i.from) + more);
    i
}

fn parts(i: &mut ForecastIn) -> Vec<Part<'_>> {
    parts_and(config_parts, i)
}

fn parts_with_shape(i: &mut ForecastIn) -> Vec<Part<'_>> {
    parts_and(config_parts_with_shape, i)
}

fn parts_and(config: fn(&mut FuseConfig) -> Vec<Part<'_>>, i: &mut ForecastIn) -> Vec<Part<'_>> {
    let mut parts = vec![
        Part::Slice(&mut i.p),
        Part::Slice(&mut i.v),
        Part::Chunk(&mut i.ch),
        Part::Usize(&mut i.from),
        Part::Slice(&mut i.slacks),
    ];
    parts.extend(config(&mut i.cfg));
    parts
}

fn narrower(i: &ForecastIn) -> Vec<ForecastIn> {
    let ch = i.ch.narrower();
    ch.map(|ch| ForecastIn { cfg: narrower_config(&i.cfg), ch, ..i.clone() }).into_iter().collect()
}

fn forecast(f: BrakeFeasible, i: &ForecastIn) -> Outcome {
    let mut slacks = i.slacks.clone();
    let answer = f(&i.cfg, &i.p, &i.v, i.ch.view(), i.from, &mut slacks);
    Outcome { answer: answer.map(shown), buffers: numbers(&slacks) }
}

/// The Rust's answer with the slacks on their way into its margin, or 13 with the place that its flags show.
fn rust_forecast(i: &ForecastIn) -> Outcome {
    let (answer, seen, place) = oracle::brake_feasible(&i.cfg, &i.p, &i.v, i.ch.view(), i.from);
    let mut slacks = i.slacks.clone();
    let written = place.map_or(seen.len(), |k| k - 1);
    slacks[..written].copy_from_slice(&seen[..written]);
    let answer = match place {
        Some(place) => Err(Refusal { number: COMPUTED, place }),
        None => Ok(shown(answer)),
    };
    Outcome { answer, buffers: numbers(&slacks) }
}

pub fn brake_feasible(port: &Port) -> Entry<ForecastIn> {
    Entry {
        name: "brake_feasible",
        generate,
        parts,
        narrower,
        before: |i| numbers(&i.slacks),
        model: Box::new(|i| forecast(rule::brake_feasible, i)),
        rust: Box::new(|i| Some(rust_forecast(i))),
        port: port.brake_feasible.map(|f| Box::new(move |i: &ForecastIn| forecast(f, i)) as _),
    }
}

/// The same entry about a round table. The Rust has the box alone, and is asked there.
pub fn brake_feasible_on_a_round_table(port: &Port) -> Entry<ForecastIn> {
    Entry {
        name: "brake_feasible on a round table",
        generate: generate_on_a_round_table,
        parts: parts_with_shape,
        rust: Box::new(|i| if i.cfg.shape.disc { None } else { Some(rust_forecast(i)) }),
        ..brake_feasible(port)
    }
}

#[derive(Clone, Debug)]
pub struct BrakeIn {
    pub cfg: FuseConfig,
    pub p: Vec<f64>,
    pub v: Vec<f64>,
    pub last: Vec<f64>,
    pub out: Vec<f64>,
}

/// Position and velocity of any length, short ones among them; the last command is no argument in the Rust's mode, and is left out.
fn generate_action(rng: &mut Rng) -> BrakeIn {
    let field = Field::new(rng);
    let mut cfg = config(rng, field);
    cfg.brake.kind = rng.pick(&[BrakeKind::PdSecondOrder, cfg.brake.kind]);
    let (np, nv) = (rng.within(0, 10), rng.within(0, 10));
    let (p, v) = (field.numbers(rng, np), field.numbers(rng, nv));
    if rng.one_in(4) {
        cfg.a_max = at_limit(rng, oracle::rust::fmath::norm(&v, nv.min(cfg.dim)) / cfg.dt);
    }
    let out = cfg.dim + rng.pick(&[0, 0, 1, 2]);
    BrakeIn { cfg, p, v, last: Vec::new(), out: filler(rng, out) }
}

/// A position with a coordinate that is laid about its walls, where it has that one.
fn generate_at_walls(rng: &mut Rng) -> BrakeIn {
    let mut i = generate_action(rng);
    let c = rng.below(i.cfg.dim.min(i.cfg.pos_dim));
    lay_walls(rng, &mut i.cfg, c, i.p.get_mut(c).into_iter().collect());
    i
}

/// A position about a round table, mostly one that has both of its coordinates; of four one of a kind that brakes a velocity.
fn generate_action_on_a_round_table(rng: &mut Rng) -> BrakeIn {
    let mut i = generate_action(rng);
    lay_table(rng, Field(1.0), &mut i.cfg);
    let nb = i.cfg.dim.min(i.cfg.pos_dim);
    if nb > 2 && rng.one_in(3) {
        let c = rng.within(2, nb - 1);
        lay_walls(rng, &mut i.cfg, c, i.p.get_mut(c).into_iter().collect());
    }
    lay_on_table(rng, &i.cfg.shape, &mut i.p);
    if rng.one_in(4) {
        lay_edge(rng, &mut i.cfg.shape, &i.p);
    }
    i
}

/// A brake with a gripper, in a box or at a round table; of sixteen outputs one is too short.
fn generate_with_a_gripper(rng: &mut Rng) -> BrakeIn {
    let mut i = if rng.one_in(2) { generate_at_walls(rng) } else { generate_action_on_a_round_table(rng) };
    lay_gripper(rng, &mut i.cfg);
    let field = Field::new(rng);
    i.last = last_command(rng, field, &i.cfg);
    if rng.one_in(16) {
        i.out.truncate(rng.below(i.cfg.dim));
    }
    i
}

fn action_parts(i: &mut BrakeIn) -> Vec<Part<'_>> {
    action_parts_and(config_parts, i)
}

fn action_parts_with_shape(i: &mut BrakeIn) -> Vec<Part<'_>> {
    action_parts_and(config_parts_with_shape, i)
}

fn action_parts_and(config: fn(&mut FuseConfig) -> Vec<Part<'_>>, i: &mut BrakeIn) -> Vec<Part<'_>> {
    let mut parts = vec![Part::Slice(&mut i.p), Part::Slice(&mut i.v), Part::Slice(&mut i.out)];
    parts.extend(config(&mut i.cfg));
    parts
}

/// The last command stands last, so that it is what a failure shows, and not the walls.
fn action_parts_with_gripper(i: &mut BrakeIn) -> Vec<Part<'_>> {
    let mut parts = vec![Part::Slice(&mut i.p), Part::Slice(&mut i.v), Part::Slice(&mut i.out)];
    parts.extend(config_parts_with_gripper(&mut i.cfg));
    parts.push(Part::Slice(&mut i.last));
    parts
}

fn narrower_action(i: &BrakeIn) -> Vec<BrakeIn> {
    vec![BrakeIn { cfg: narrower_config(&i.cfg), ..i.clone() }; (i.cfg.dim > 1) as usize]
}

/// One axis less, each in turn, or a last command without its first number.
fn narrower_with_gripper(i: &BrakeIn) -> Vec<BrakeIn> {
    let axes = if i.cfg.dim > 1 { i.cfg.dim.min(MAX_D) } else { 0 };
    let mut all: Vec<BrakeIn> = (0..axes).rev().filter_map(|k| without_axis(i, k)).collect();
    if let [_, rest @ ..] = &i.last[..] {
        all.push(BrakeIn { last: rest.to_vec(), ..i.clone() });
    }
    all
}

/// The same without an axis, where the position keeps one.
fn without_axis(i: &BrakeIn, k: usize) -> Option<BrakeIn> {
    let mut less = i.clone();
    let BrakeIn { cfg, p, v, last, .. } = &mut less;
    (cfg.dim, cfg.pos_dim) = (cfg.dim - 1, cfg.pos_dim - (k < cfg.pos_dim) as usize);
    for axes in [&mut cfg.box_lo, &mut cfg.box_hi, &mut cfg.norm_center, &mut cfg.norm_scale] {
        axes[k..].rotate_left(1);
    }
    for lent in [p, v, last] {
        if k < lent.len() {
            lent.remove(k);
        }
    }
    (less.cfg.pos_dim > 0).then_some(less)
}

/// What is written of the last command, which is compared bit for bit: as numbers, and here by its sign.
fn kept_signs(cfg: &FuseConfig, out: &[f64]) -> Vec<i64> {
    let velocity = matches!(cfg.kind, ActionKind::JointVelocity | ActionKind::EeDelta);
    match (cfg.gripper, velocity) {
        (Gripper::LastCommand, false) => {
            let kept = out.get(cfg.pos_dim..cfg.dim).unwrap_or_default();
            kept.iter().map(|x| x.is_sign_negative() as i64).collect()
        }
        _ => Vec::new(),
    }
}

fn written(cfg: &FuseConfig, answer: Result<WallMarks, Refusal>, out: Vec<f64>) -> Outcome {
    let shown = |w: WallMarks| {
        let masks = vec![w.low_dims as i64, w.high_dims as i64];
        Shown { added: [masks, kept_signs(cfg, &out)].concat(), ..Shown::default() }
    };
    Outcome { answer: answer.map(shown), buffers: numbers(&out) }
}

/// What the published code writes: it answers nothing.
fn rust_written(out: Vec<f64>) -> Outcome {
    Outcome { answer: Ok(Shown::default()), buffers: numbers(&out) }
}

fn braked(f: BrakeAction, i: &BrakeIn) -> Outcome {
    let mut out = i.out.clone();
    written(&i.cfg, f(&i.cfg, &i.p, &i.v, &i.last, &mut out), out)
}

fn held(f: HoldAction, i: &BrakeIn) -> Outcome {
    let mut out = i.out.clone();
    written(&i.cfg, f(&i.cfg, &i.p, &i.last, &mut out), out)
}

pub fn brake_action(port: &Port) -> Entry<BrakeIn> {
    Entry {
        name: "brake_action",
        generate: generate_action,
        parts: action_parts,
        narrower: narrower_action,
        before: |i| numbers(&i.out),
        model: Box::new(|i| braked(rule::brake_action, i)),
        rust: Box::new(|i| {
            let mut out = i.out.clone();
            oracle::brake_action(&i.cfg, &i.p, &i.v, &mut out);
            Some(rust_written(out))
        }),
        port: port.brake_action.map(|f| Box::new(move |i: &BrakeIn| braked(f, i)) as _),
    }
}

pub fn hold_action(port: &Port) -> Entry<BrakeIn> {
    Entry {
        name: "hold_action",
        generate: generate_action,
        parts: action_parts,
        narrower: narrower_action,
        before: |i| numbers(&i.out),
        model: Box::new(|i| held(rule::hold_action, i)),
        rust: Box::new(|i| {
            let mut out = i.out.clone();
            oracle::hold_action(&i.cfg, &i.p, &mut out);
            Some(rust_written(out))
        }),
        port: port.hold_action.map(|f| Box::new(move |i: &BrakeIn| held(f, i)) as _),
    }
}

/// The two entries with a position about its walls. Their inputs stand apart, so that those of `brake_action` stay the kept sample's.
pub fn brake_action_at_walls(port: &Port) -> Entry<BrakeIn> {
    Entry { name: "brake_action at walls", generate: generate_at_walls, ..brake_action(port) }
}

pub fn hold_action_at_walls(port: &Port) -> Entry<BrakeIn> {
    Entry { name: "hold_action at walls", generate: generate_at_walls, ..hold_action(port) }
}

/// The two entries with a position about a round table. The Rust has the box alone, and is asked there.
pub fn brake_action_on_a_round_table(port: &Port) -> Entry<BrakeIn> {
    on_a_round_table("brake_action on a round table", brake_action(port))
}

pub fn hold_action_on_a_round_table(port: &Port) -> Entry<BrakeIn> {
    on_a_round_table("hold_action on a round table", hold_action(port))
}

fn on_a_round_table(name: &'static str, whole: Entry<BrakeIn>) -> Entry<BrakeIn> {
    let rust = whole.rust;
    Entry {
        name,
        generate: generate_action_on_a_round_table,
        parts: action_parts_with_shape,
        rust: Box::new(move |i| if i.cfg.shape.disc { None } else { rust(i) }),
        ..whole
    }
}

/// The two entries with a gripper. The Rust has one mode and the box alone, and is asked there, whatever the last command is.
pub fn brake_action_with_a_gripper(port: &Port) -> Entry<BrakeIn> {
    with_a_gripper("brake_action with a gripper", brake_action(port))
}

pub fn hold_action_with_a_gripper(port: &Port) -> Entry<BrakeIn> {
    with_a_gripper("hold_action with a gripper", hold_action(port))
}

fn with_a_gripper(name: &'static str, whole: Entry<BrakeIn>) -> Entry<BrakeIn> {
    let rust = whole.rust;
    Entry {
        name,
        generate: generate_with_a_gripper,
        parts: action_parts_with_gripper,
        narrower: narrower_with_gripper,
        rust: Box::new(move |i| match (i.cfg.gripper, i.cfg.shape.disc) {
            (Gripper::ToZero, false) => rust(i),
            _ => None,
        }),
        ..whole
    }
}

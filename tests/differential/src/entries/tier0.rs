//! Module 5.

use model::{
    tier0 as rule, AbsentCamera, ClampMode, ContactLimit, FuseConfig, Refusal, Shape, Tier0Out, Zones, CONTACT, MAX_D,
    MAX_ZONES, REACH, SPEED, WORKSPACE,
};

use crate::{
    input::{
        at_least, chunk, config, config_parts_with_choice, config_parts_with_shape, config_parts_with_zones, lay_edge,
        lay_far_out, lay_on_table, lay_table, lay_walls, narrower_config, ChunkIn,
    },
    number::{at_limit, filler, Field},
    part::{Part, CHOICES},
    port::{CheckAction, CheckChunk, Port},
    rng::Rng,
    run::{Entry, Outcome, Shown},
};

use super::{number, numbers};

fn shown(r: Tier0Out) -> Shown {
    Shown {
        numbers: vec![r.peak_speed],
        counts: vec![r.trips as u64, r.clamped_dims as u64],
        added: vec![r.low_dims as i64, r.high_dims as i64],
    }
}

/// What is left where no check is raised that moves a row, which is compared bit for bit: as numbers, and here by its signs.
fn calm_signs(answer: &Result<Tier0Out, Refusal>, out: &[f64]) -> Vec<i64> {
    match answer {
        Ok(found) if found.trips & (WORKSPACE | SPEED | REACH | CONTACT) == 0 => {
            out.iter().map(|x| x.is_sign_negative() as i64).collect()
        }
        _ => Vec::new(),
    }
}

fn outcome(answer: Result<Tier0Out, Refusal>, out: Vec<f64>) -> Outcome {
    let buffers = Shown { added: calm_signs(&answer, &out), ..numbers(&out) };
    Outcome { answer: answer.map(shown), buffers }
}

/// What the published code answers, which has no masks of sides.
fn rust_outcome(r: oracle::rust::tier0::Tier0Out, out: Vec<f64>) -> Outcome {
    let counts = vec![r.trips as u64, r.clamped_dims as u64];
    Outcome { answer: Ok(Shown { counts, ..number(r.peak_speed) }), buffers: numbers(&out) }
}

#[derive(Clone, Debug)]
pub struct CheckChunkIn {
    pub cfg: FuseConfig,
    pub pos: Vec<f64>,
    pub aux: Vec<f64>,
    pub ch: ChunkIn,
    pub out: Vec<f64>,
}

/// A limit laid exactly on what it limits, or one step to either side.
fn lay_limits(rng: &mut Rng, cfg: &mut FuseConfig, pos: &[f64], aux: &[f64], rows: &[&[f64]]) {
    let d = cfg.dim;
    let nb = d.min(cfg.pos_dim);
    let fits = rows.iter().all(|r| r.len() == d) && pos.len() >= nb && !rows.is_empty();
    if !fits {
        return;
    }
    let mut before = [0.0; MAX_D];
    before[..d].copy_from_slice(rows[0]);
    before[..nb].copy_from_slice(&pos[..nb]);
    let i = rng.below(rows.len());
    let row = rows[i];
    let prev = if i == 0 { &before[..d] } else { rows[i - 1] };
    let c = rng.below(nb);
    cfg.dt = rng.pick(&[1.0, 0.5, 0.25, cfg.dt]);
    match rng.below(7) {
        0 => cfg.v_max = at_limit(rng, oracle::rust::fmath::dist(row, prev, d) / cfg.dt),
        1 => cfg.reach_max = at_limit(rng, oracle::rust::fmath::dist(rows[0], pos, nb)),
        2 => cfg.a_max = at_limit(rng, change(rows, &before, i, &[1.0, -2.0, 1.0], d) / cfg.dt / cfg.dt),
        3 => cfg.j_max = at_limit(rng, change(rows, &before, i, &[-1.0, 3.0, -3.0, 1.0], d) / cfg.dt / cfg.dt / cfg.dt),
        4 => (cfg.box_lo[c], cfg.margin) = (at_limit(rng, row[c]), 0.0),
        5 => (cfg.box_hi[c], cfg.margin) = (at_limit(rng, row[c]), 0.0),
        _ => lay_zone(rng, cfg, pos, aux, oracle::rust::fmath::dist(row, prev, d)),
    }
}

/// The zone's radius on the distance to its centre, or its speed on a step.
fn lay_zone(rng: &mut Rng, cfg: &mut FuseConfig, pos: &[f64], aux: &[f64], step: f64) {
    let Some(zone) = cfg.zones.counted_mut().first_mut() else {
        return;
    };
    if let (true, Some(x), Some(y)) = (pos.len() >= 2, aux.get(zone.a0 as usize), aux.get(zone.a1 as usize)) {
        let away = oracle::rust::fmath::dist(pos, &[*x, *y], 2);
        if rng.one_in(2) {
            zone.radius = at_limit(rng, away);
        } else {
            (zone.radius, zone.v_max) = (away + 1.0, at_limit(rng, step / cfg.dt));
        }
    }
}

/// The length of a difference of consecutive rows from the one before row i on, with the given factors.
fn change(rows: &[&[f64]], before: &[f64], i: usize, factors: &[f64], d: usize) -> f64 {
    let at = |k: usize| if k == 0 { &before[..d] } else { rows[(k - 1).min(rows.len() - 1)] };
    let diff =
        |c: usize| factors.iter().rev().enumerate().fold(0.0, |s, (k, f)| s + f * at(i + factors.len() - 1 - k)[c]);
    oracle::rust::fmath::norm(&(0..d).map(diff).collect::<Vec<_>>(), d)
}

fn generate(rng: &mut Rng) -> CheckChunkIn {
    let field = Field::new(rng);
    let mut cfg = config(rng, field);
    let ch = chunk(rng, field, cfg.dim);
    let pos = at_least(rng, field, cfg.pos_dim);
    let aux = field.numbers(rng, cfg.aux_count);
    let out = ch.horizon as usize * cfg.dim + rng.pick(&[0, 0, 1, 9]);
    if rng.one_in(3) {
        let rows: Vec<&[f64]> = ch.data.chunks((ch.dim as usize).max(1)).collect();
        lay_limits(rng, &mut cfg, &pos, &aux, &rows);
    }
    CheckChunkIn { cfg, pos, aux, ch, out: filler(rng, out) }
}

/// One coordinate of the rows laid about its walls, or beyond one where `starts` stand, to which a leash or a reach that is lost beside
/// them brings the first row back.
fn lay_rows(rng: &mut Rng, cfg: &mut FuseConfig, c: usize, starts: Vec<&mut f64>, rows: Vec<&mut f64>) {
    let mostly = !rng.one_in(8);
    if mostly {
        (cfg.clamp, cfg.armed) = (ClampMode::Project, cfg.armed | WORKSPACE);
    }
    if !rng.one_in(3) {
        return lay_walls(rng, cfg, c, rows);
    }
    let (lo, hi) = (cfg.box_lo[c], cfg.box_hi[c]);
    let beyond = rng.pick(&[lo - 1.0 - lo.abs(), hi + 1.0 + hi.abs()]);
    if rng.one_in(2) {
        (cfg.armed, cfg.v_max) = (cfg.armed | SPEED, 1e-200);
    } else {
        (cfg.armed, cfg.reach_max) = (cfg.armed & !SPEED & !CONTACT | REACH, 1e-200);
    }
    for x in starts.into_iter().chain(rows.into_iter().take(1)) {
        *x = beyond;
    }
}

/// A chunk with a coordinate that is laid about its walls.
fn generate_at_walls(rng: &mut Rng) -> CheckChunkIn {
    let mut i = generate(rng);
    let (d, nb) = (i.cfg.dim, i.cfg.dim.min(i.cfg.pos_dim));
    if i.ch.dim as usize == d {
        let c = rng.below(nb);
        let rows = i.ch.data.iter_mut().skip(c).step_by(d).collect();
        lay_rows(rng, &mut i.cfg, c, vec![&mut i.pos[c]], rows);
    }
    i
}

/// A zone on two channels, seldom none, under either choice, mostly armed; a message of any length from none to more than long enough; of
/// three positions one of an arm with one coordinate, lent alone or with more behind it. Of six inputs one has a centre or a position
/// whose distance is not finite, one a zone whose step is not, and of twelve one a NaN in the message, read or not.
fn lay_camera(rng: &mut Rng, cfg: &mut FuseConfig, pos: &mut Vec<f64>, aux: &mut Vec<f64>) {
    let field = Field(1.0);
    cfg.absent_camera = rng.pick(&CHOICES);
    let channels = rng.pick(&[(0, 1), (1, 0), (0, 2), (2, 0), (1, 3), (3, 1), (2, 3), (0, 5), (4, 0), (254, 255)]);
    let (a0, a1): (u8, u8) = channels;
    let enough = a0.max(a1) as usize + 1;
    let (radius, v_max) = (2.0 * field.above(rng), field.above(rng));
    cfg.aux_count = enough + rng.below(3);
    cfg.zones = if rng.one_in(8) { Zones::NONE } else { Zones::of(&[ContactLimit { radius, v_max, a0, a1 }]) };
    cfg.armed = if rng.one_in(6) { cfg.armed & !CONTACT } else { cfg.armed | CONTACT };
    let length = if rng.one_in(8) { enough + rng.below(9) } else { rng.within(0, enough) };
    *aux = field.numbers(rng, length);
    if rng.one_in(3) {
        cfg.pos_dim = 1;
        let lent = rng.pick(&[1, 1, 2, 3]);
        pos.resize_with(lent, || field.number(rng));
    }
    match rng.below(12) {
        0 => [a0, a1].iter().for_each(|a| aux.iter_mut().skip(*a as usize).take(1).for_each(|x| *x = 1e200)),
        1 => pos.iter_mut().skip(cfg.pos_dim).for_each(|x| *x = 1e200),
        2 | 3 => {
            cfg.zones.counted_mut().iter_mut().for_each(|z| z.v_max = f64::MAX);
            cfg.dt = 2.0;
        }
        4 if !aux.is_empty() => {
            let at = rng.below(aux.len());
            aux[at] = f64::NAN;
        }
        _ => (),
    }
}

/// The zone's speed laid on a step, and its radius on the distance where there is one.
fn lay_slow_step(rng: &mut Rng, cfg: &mut FuseConfig, pos: &[f64], aux: &[f64], step: f64) {
    if rng.one_in(2) {
        lay_zone(rng, cfg, pos, aux, step);
    }
    let speed = at_limit(rng, step / cfg.dt);
    let zone = cfg.zones.counted_mut().first_mut();
    if let Some(zone) = zone.filter(|z| z.v_max < f64::MAX && 0.0 < speed && speed < f64::MAX) {
        if !rng.one_in(3) {
            zone.v_max = speed;
        }
    }
}

/// A chunk with a camera that may not show the zone.
fn generate_short_camera(rng: &mut Rng) -> CheckChunkIn {
    let mut i = generate(rng);
    lay_camera(rng, &mut i.cfg, &mut i.pos, &mut i.aux);
    let (d, nb) = (i.cfg.dim, i.cfg.dim.min(i.cfg.pos_dim));
    if i.ch.dim as usize == d && !i.ch.data.is_empty() {
        let step = oracle::rust::fmath::dist(&i.ch.data, &i.pos, nb);
        lay_slow_step(rng, &mut i.cfg, &i.pos, &i.aux, step);
    }
    i
}

/// Pairs that four zones are given, from the first on: apart, on few channels in either order, and the last channels that there are.
const PAIRS: [[(u8, u8); MAX_ZONES]; 5] = [
    [(0, 1), (2, 3), (4, 5), (6, 7)],
    [(6, 7), (4, 5), (2, 3), (0, 1)],
    [(0, 1), (1, 0), (0, 2), (2, 1)],
    [(1, 0), (2, 0), (0, 1), (1, 2)],
    [(3, 0), (0, 3), (1, 2), (254, 255)],
];

/// What may stand past the count: nothing, what would be refused, another's pair, zones that would stop the arm, and any others.
fn past_the_count(rng: &mut Rng, zones: &mut Zones) {
    let (first, odd) = (zones.list[0], rng.below(6));
    let past = zones.count.min(MAX_ZONES)..;
    for zone in &mut zones.list[past] {
        *zone = match odd {
            0 => ContactLimit::UNUSED,
            1 => ContactLimit { radius: f64::NAN, v_max: -1.0, a0: 255, a1: 255 },
            2 => ContactLimit { v_max: f64::INFINITY, ..*zone },
            3 => first,
            4 => ContactLimit { radius: f64::MAX, v_max: 5e-324, ..*zone },
            _ => *zone,
        };
    }
}

/// Any count of zones, seldom five, under either choice, mostly armed; a message that is long enough for all of them or ends before; the arm
/// inside some of them, of three radii one about the distance. Of twelve inputs one has a centre too far to measure, one a zone whose step
/// is not finite, one a pair twice and one a position for an arm of one coordinate.
fn lay_zones(rng: &mut Rng, cfg: &mut FuseConfig, pos: &mut Vec<f64>, aux: &mut Vec<f64>) {
    let field = Field(1.0);
    let pairs = rng.pick(&PAIRS);
    let zone = |(a0, a1)| ContactLimit { radius: 2.0 * field.above(rng), v_max: field.above(rng), a0, a1 };
    cfg.zones = Zones::of(&pairs.map(zone));
    cfg.zones.count = rng.pick(&[0, 1, 1, 1, 2, 2, 2, 3, 3, 3, 3, 4, 4, 4, 4, 4]);
    cfg.absent_camera = rng.pick(&CHOICES);
    cfg.armed = if rng.one_in(8) { cfg.armed & !CONTACT } else { cfg.armed | CONTACT };
    let enough = pairs.iter().map(|(a0, a1)| a0.max(a1)).max().map_or(0, |a| *a as usize + 1);
    cfg.aux_count = enough + rng.below(3);
    *aux = field.numbers(rng, enough);
    for (a0, a1) in pairs {
        if let (false, &[x, y, ..]) = (rng.one_in(3), &pos[..]) {
            (aux[a0 as usize], aux[a1 as usize]) = (x + field.number(rng) / 8.0, y);
        }
    }
    for z in &mut cfg.zones.list {
        let away = match pos[..] {
            [x, y, ..] => oracle::rust::fmath::dist(&[x, y], &[aux[z.a0 as usize], aux[z.a1 as usize]], 2),
            _ => 1.0,
        };
        z.radius = if rng.one_in(3) { at_limit(rng, away).max(0.0) } else { z.radius };
    }
    if rng.one_in(3) {
        aux.truncate(rng.below(enough.min(9) + 1));
    }
    lay_odd_zones(rng, cfg, pos, aux);
}

/// The seldom ones.
fn lay_odd_zones(rng: &mut Rng, cfg: &mut FuseConfig, pos: &mut Vec<f64>, aux: &mut [f64]) {
    let (one, other) = (rng.below(MAX_ZONES), rng.below(MAX_ZONES));
    match rng.below(12) {
        0 => aux.iter_mut().skip(cfg.zones.list[one].a0 as usize).take(1).for_each(|x| *x = 1e200),
        1 => (cfg.zones.list[one].v_max, cfg.dt) = (f64::MAX, 2.0),
        2 => (cfg.zones.list[one].a0, cfg.zones.list[one].a1) = (cfg.zones.list[other].a0, cfg.zones.list[other].a1),
        3 => {
            cfg.pos_dim = 1;
            let lent = rng.pick(&[1, 1, 2]);
            pos.resize(lent, 0.0);
        }
        4 if rng.one_in(2) => cfg.zones.count = 5,
        _ => (),
    }
    past_the_count(rng, &mut cfg.zones);
}

/// The speeds of some zones laid on a step, on twice or on half of it.
fn lay_slow_steps(rng: &mut Rng, cfg: &mut FuseConfig, step: f64) {
    let laid = rng.below(1 << MAX_ZONES);
    let dt = cfg.dt;
    for (k, zone) in cfg.zones.counted_mut().iter_mut().enumerate() {
        let speed = at_limit(rng, step / dt);
        if laid >> k & 1 == 1 && zone.v_max < f64::MAX && 0.0 < speed && speed < f64::MAX {
            zone.v_max = rng.pick(&[speed, speed, 2.0 * speed, speed / 2.0]);
        }
    }
}

/// A chunk with several zones.
fn generate_several_zones(rng: &mut Rng) -> CheckChunkIn {
    let mut i = generate(rng);
    lay_zones(rng, &mut i.cfg, &mut i.pos, &mut i.aux);
    let (d, nb) = (i.cfg.dim, i.cfg.dim.min(i.cfg.pos_dim));
    if i.ch.dim as usize == d && !i.ch.data.is_empty() {
        let step = oracle::rust::fmath::dist(&i.ch.data, &i.pos, nb);
        lay_slow_steps(rng, &mut i.cfg, step);
    }
    i
}

/// What is laid about a round table's edge beside its rows: its radius, or the step or the reach that brings a row back.
fn lay_moves(rng: &mut Rng, cfg: &mut FuseConfig, row: &[f64]) {
    if !cfg.shape.disc {
        return;
    }
    match rng.below(6) {
        0 | 1 => lay_edge(rng, &mut cfg.shape, row),
        2 => (cfg.armed, cfg.v_max) = (cfg.armed | SPEED, cfg.shape.radius.min(1e100)),
        3 => (cfg.armed, cfg.reach_max) = (cfg.armed | REACH, cfg.shape.radius),
        _ => (),
    }
    if rng.one_in(3) {
        cfg.clamp = ClampMode::Off;
    } else if rng.one_in(2) {
        (cfg.clamp, cfg.armed) = (ClampMode::Project, cfg.armed & (WORKSPACE | SPEED));
    }
}

/// A chunk with its rows about a round table, and of three one with a further axis about its walls.
fn generate_on_a_round_table(rng: &mut Rng) -> CheckChunkIn {
    let mut i = generate(rng);
    lay_table(rng, Field(1.0), &mut i.cfg);
    let (d, nb) = (i.cfg.dim, i.cfg.dim.min(i.cfg.pos_dim));
    if i.ch.dim as usize != d || i.ch.data.is_empty() {
        return i;
    }
    if nb > 2 && rng.one_in(3) {
        let c = rng.within(2, nb - 1);
        lay_walls(rng, &mut i.cfg, c, i.ch.data.iter_mut().skip(c).step_by(d).collect());
    }
    i.ch.data.chunks_mut(d).for_each(|row| lay_on_table(rng, &i.cfg.shape, row));
    lay_on_table(rng, &i.cfg.shape, &mut i.pos);
    if rng.one_in(8) {
        lay_far_out(rng, i.ch.data.chunks_mut(d).chain([&mut i.pos[..]]));
    }
    let row = rng.below(i.ch.horizon as usize) * d;
    lay_moves(rng, &mut i.cfg, &i.ch.data[row..row + d]);
    i
}

fn parts(i: &mut CheckChunkIn) -> Vec<Part<'_>> {
    let mut parts = parts_with_choice(i);
    parts.pop();
    parts
}

fn parts_with_shape(i: &mut CheckChunkIn) -> Vec<Part<'_>> {
    parts_and(config_parts_with_shape, i)
}

fn parts_with_choice(i: &mut CheckChunkIn) -> Vec<Part<'_>> {
    parts_and(config_parts_with_choice, i)
}

fn parts_with_zones(i: &mut CheckChunkIn) -> Vec<Part<'_>> {
    parts_and(config_parts_with_zones, i)
}

fn parts_and(config: fn(&mut FuseConfig) -> Vec<Part<'_>>, i: &mut CheckChunkIn) -> Vec<Part<'_>> {
    let mut parts =
        vec![Part::Slice(&mut i.pos), Part::Slice(&mut i.aux), Part::Chunk(&mut i.ch), Part::Slice(&mut i.out)];
    parts.extend(config(&mut i.cfg));
    parts
}

fn narrower(i: &CheckChunkIn) -> Vec<CheckChunkIn> {
    let ch = i.ch.narrower();
    ch.map(|ch| CheckChunkIn { cfg: narrower_config(&i.cfg), ch, ..i.clone() }).into_iter().collect()
}

/// Where no single part is smaller: a table of radius 1 about the origin, with every row on its edge or the next number beyond it.
fn on_the_unit_table(shape: &Shape, rows: &[f64], dim: usize) -> Vec<(Shape, Vec<f64>)> {
    const UNIT: Shape = Shape::disc([0.0; 2], 1.0);
    if !shape.disc || *shape == UNIT || dim < 2 {
        return Vec::new();
    }
    let moved = |y: f64| {
        let mut rows = rows.to_vec();
        rows.chunks_mut(dim).filter(|row| row.len() == dim).for_each(|row| (row[0], row[1]) = (0.0, y));
        (UNIT, rows)
    };
    [1.0, 1f64.next_up()].map(moved).into()
}

fn narrower_on_a_round_table(i: &CheckChunkIn) -> Vec<CheckChunkIn> {
    let unit = on_the_unit_table(&i.cfg.shape, &i.ch.data, i.ch.dim as usize).into_iter().map(|(shape, data)| {
        CheckChunkIn { cfg: FuseConfig { shape, ..i.cfg }, ch: ChunkIn { data, ..i.ch.clone() }, ..i.clone() }
    });
    narrower(i).into_iter().chain(unit).collect()
}

fn checked(f: CheckChunk, i: &CheckChunkIn) -> Outcome {
    let mut out = i.out.clone();
    outcome(f(&i.cfg, &i.pos, &i.aux, i.ch.view(), &mut out), out)
}

pub fn check_chunk(port: &Port) -> Entry<CheckChunkIn> {
    Entry {
        name: "check_chunk",
        generate,
        parts,
        narrower,
        before: |i| numbers(&i.out),
        model: Box::new(|i| checked(rule::check_chunk, i)),
        rust: Box::new(|i| {
            let mut out = i.out.clone();
            let answer = oracle::check_chunk(&i.cfg, &i.pos, &i.aux, i.ch.view(), &mut out);
            Some(rust_outcome(answer, out))
        }),
        port: port.check_chunk.map(|f| Box::new(move |i: &CheckChunkIn| checked(f, i)) as _),
    }
}

/// The same entry, its rows about the walls. Its inputs stand apart, so that those of `check_chunk` stay the kept sample's.
pub fn check_chunk_at_walls(port: &Port) -> Entry<CheckChunkIn> {
    Entry { name: "check_chunk at walls", generate: generate_at_walls, ..check_chunk(port) }
}

/// The same entry, with a camera that may not show the zone, under either choice. The Rust has the old one alone, and is asked there.
pub fn check_chunk_with_a_short_camera(port: &Port) -> Entry<CheckChunkIn> {
    let whole = check_chunk(port);
    let rust = whole.rust;
    Entry {
        name: "check_chunk with a short camera",
        generate: generate_short_camera,
        parts: parts_with_choice,
        rust: Box::new(move |i| if old(&i.cfg) { rust(i) } else { None }),
        ..whole
    }
}

/// The same entry, with any count of zones, under either choice. The Rust is asked with one zone or none, under the old choice.
pub fn check_chunk_with_several_zones(port: &Port) -> Entry<CheckChunkIn> {
    Entry {
        name: "check_chunk with several zones",
        generate: generate_several_zones,
        parts: parts_with_zones,
        ..check_chunk_with_a_short_camera(port)
    }
}

/// The same entry, its rows about a round table. The Rust has the box alone, and is asked there.
pub fn check_chunk_on_a_round_table(port: &Port) -> Entry<CheckChunkIn> {
    let whole = check_chunk(port);
    let rust = whole.rust;
    Entry {
        name: "check_chunk on a round table",
        generate: generate_on_a_round_table,
        parts: parts_with_shape,
        narrower: narrower_on_a_round_table,
        rust: Box::new(move |i| if i.cfg.shape.disc { None } else { rust(i) }),
        ..whole
    }
}

/// Whether the Rust has the configuration's choice and its zones.
fn old(cfg: &FuseConfig) -> bool {
    cfg.absent_camera == AbsentCamera::NoZone && cfg.zones.count <= 1
}

#[derive(Clone, Debug)]
pub struct CheckActionIn {
    pub cfg: FuseConfig,
    pub pos: Vec<f64>,
    pub aux: Vec<f64>,
    pub prev: Vec<f64>,
    pub a: Vec<f64>,
    pub out: Vec<f64>,
}

fn generate_action(rng: &mut Rng) -> CheckActionIn {
    let field = Field::new(rng);
    let mut cfg = config(rng, field);
    let d = cfg.dim;
    let (pos, aux) = (at_least(rng, field, cfg.pos_dim), field.numbers(rng, cfg.aux_count));
    let (prev, a) = (at_least(rng, field, d), at_least(rng, field, d));
    if rng.one_in(3) {
        lay_limits(rng, &mut cfg, &pos, &aux, &[&prev[..d], &a[..d]]);
    }
    let out = d + rng.pick(&[0, 0, 1, 2]);
    CheckActionIn { cfg, pos, aux, prev, a, out: filler(rng, out) }
}

/// An action with a coordinate that is laid about its walls.
fn generate_action_at_walls(rng: &mut Rng) -> CheckActionIn {
    let mut i = generate_action(rng);
    let c = rng.below(i.cfg.dim.min(i.cfg.pos_dim));
    lay_rows(rng, &mut i.cfg, c, vec![&mut i.pos[c], &mut i.prev[c]], vec![&mut i.a[c]]);
    i
}

/// An action with a camera that may not show the zone.
fn generate_action_with_a_short_camera(rng: &mut Rng) -> CheckActionIn {
    let mut i = generate_action(rng);
    lay_camera(rng, &mut i.cfg, &mut i.pos, &mut i.aux);
    let step = oracle::rust::fmath::dist(&i.a, &i.prev, i.cfg.dim);
    lay_slow_step(rng, &mut i.cfg, &i.pos, &i.aux, step);
    i
}

/// An action with several zones.
fn generate_action_with_several_zones(rng: &mut Rng) -> CheckActionIn {
    let mut i = generate_action(rng);
    lay_zones(rng, &mut i.cfg, &mut i.pos, &mut i.aux);
    let step = oracle::rust::fmath::dist(&i.a, &i.prev, i.cfg.dim);
    lay_slow_steps(rng, &mut i.cfg, step);
    i
}

/// An action about a round table, and of three one with a further axis about its walls.
fn generate_action_on_a_round_table(rng: &mut Rng) -> CheckActionIn {
    let mut i = generate_action(rng);
    lay_table(rng, Field(1.0), &mut i.cfg);
    let nb = i.cfg.dim.min(i.cfg.pos_dim);
    if nb > 2 && rng.one_in(3) {
        let c = rng.within(2, nb - 1);
        lay_walls(rng, &mut i.cfg, c, vec![&mut i.a[c]]);
    }
    for point in [&mut i.a, &mut i.prev, &mut i.pos] {
        lay_on_table(rng, &i.cfg.shape, point);
    }
    if rng.one_in(8) {
        lay_far_out(rng, [&mut i.a[..], &mut i.prev, &mut i.pos]);
    }
    lay_moves(rng, &mut i.cfg, &i.a);
    i
}

fn action_parts(i: &mut CheckActionIn) -> Vec<Part<'_>> {
    let mut parts = action_parts_with_choice(i);
    parts.pop();
    parts
}

fn action_parts_with_shape(i: &mut CheckActionIn) -> Vec<Part<'_>> {
    action_parts_and(config_parts_with_shape, i)
}

fn action_parts_with_choice(i: &mut CheckActionIn) -> Vec<Part<'_>> {
    action_parts_and(config_parts_with_choice, i)
}

fn action_parts_with_zones(i: &mut CheckActionIn) -> Vec<Part<'_>> {
    action_parts_and(config_parts_with_zones, i)
}

fn action_parts_and(config: fn(&mut FuseConfig) -> Vec<Part<'_>>, i: &mut CheckActionIn) -> Vec<Part<'_>> {
    let mut parts = vec![
        Part::Slice(&mut i.pos),
        Part::Slice(&mut i.aux),
        Part::Slice(&mut i.prev),
        Part::Slice(&mut i.a),
        Part::Slice(&mut i.out),
    ];
    parts.extend(config(&mut i.cfg));
    parts
}

fn narrower_action(i: &CheckActionIn) -> Vec<CheckActionIn> {
    vec![CheckActionIn { cfg: narrower_config(&i.cfg), ..i.clone() }; (i.cfg.dim > 1) as usize]
}

fn checked_action(f: CheckAction, i: &CheckActionIn) -> Outcome {
    let mut out = i.out.clone();
    outcome(f(&i.cfg, &i.pos, &i.aux, &i.prev, &i.a, &mut out), out)
}

pub fn check_action(port: &Port) -> Entry<CheckActionIn> {
    Entry {
        name: "check_action",
        generate: generate_action,
        parts: action_parts,
        narrower: narrower_action,
        before: |i| numbers(&i.out),
        model: Box::new(|i| checked_action(rule::check_action, i)),
        rust: Box::new(|i| {
            let mut out = i.out.clone();
            let answer = oracle::check_action(&i.cfg, &i.pos, &i.aux, &i.prev, &i.a, &mut out);
            Some(rust_outcome(answer, out))
        }),
        port: port.check_action.map(|f| Box::new(move |i: &CheckActionIn| checked_action(f, i)) as _),
    }
}

/// The same entry, its action about the walls.
pub fn check_action_at_walls(port: &Port) -> Entry<CheckActionIn> {
    Entry { name: "check_action at walls", generate: generate_action_at_walls, ..check_action(port) }
}

/// The same entry, with a camera that may not show the zone, under either choice.
pub fn check_action_with_a_short_camera(port: &Port) -> Entry<CheckActionIn> {
    let whole = check_action(port);
    let rust = whole.rust;
    Entry {
        name: "check_action with a short camera",
        generate: generate_action_with_a_short_camera,
        parts: action_parts_with_choice,
        rust: Box::new(move |i| if old(&i.cfg) { rust(i) } else { None }),
        ..whole
    }
}

/// The same entry, with any count of zones, under either choice.
pub fn check_action_with_several_zones(port: &Port) -> Entry<CheckActionIn> {
    Entry {
        name: "check_action with several zones",
        generate: generate_action_with_several_zones,
        parts: action_parts_with_zones,
        ..check_action_with_a_short_camera(port)
    }
}

/// The same entry, its action about a round table. The Rust has the box alone, and is asked there.
pub fn check_action_on_a_round_table(port: &Port) -> Entry<CheckActionIn> {
    let whole = check_action(port);
    let rust = whole.rust;
    Entry {
        name: "check_action on a round table",
        generate: generate_action_on_a_round_table,
        parts: action_parts_with_shape,
        narrower: |i| {
            let unit = on_the_unit_table(&i.cfg.shape, &i.a, i.a.len()).into_iter();
            let unit = unit.map(|(shape, a)| CheckActionIn { cfg: FuseConfig { shape, ..i.cfg }, a, ..i.clone() });
            narrower_action(i).into_iter().chain(unit).collect()
        },
        rust: Box::new(move |i| if i.cfg.shape.disc { None } else { rust(i) }),
        ..whole
    }
}

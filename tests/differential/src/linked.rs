//! The port as a customer has it, through `bindings/rust`: the model's arguments taken over into the binding's, and its
//! answer back.

use lictor::{brake, chunk, config, conformal, fmath, tier0, tier1, window};
use model::{
    AbsentCamera, ActionKind, BrakeKind, BrakeOut, Calibration, ChunkBuf, ChunkView, ClampMode, ContactLimit, Derived,
    FuseConfig, Gripper, Ran, Scores, Shape, Tier0Out, Tier1Rt, Trail, WallMarks, Zones, MAX_ZONES,
};

use crate::port::{Answer, Port};

/// What the static library has. An entry that is named here is compared in every run, and timed by `bench`.
pub fn port() -> Port {
    Port {
        sqrt: Some(|x| answer(fmath::sqrt(x))),
        norm: Some(|v, n| answer(fmath::norm(v, n))),
        dist: Some(|a, b, n| answer(fmath::dist(a, b, n))),
        min: Some(fmath::min),
        max: Some(fmath::max),
        clamp: Some(fmath::clamp),
        clamp_side: Some(fmath::clamp_side),
        fill: Some(|b, seq, t_emit, horizon, dim, exec_steps, data| {
            copy_from(b, ChunkView { seq, t_emit, horizon, dim, exec_steps, data })
        }),
        copy_from: Some(copy_from),
        action: Some(action),
        row_mut: Some(fill_row),
        view: Some(view),
        mask: Some(|n| answer(window::mask(n))),
        push: Some(push),
        hits: Some(|bits| window::Window { bits }.hits()),
        trail_push: Some(|t, p, d| on_trail(t, |lent| lent.push(p, d))),
        net: Some(|t, d, w| answer(trail(t).net(d, w))),
        path: Some(|t, d, w| answer(trail(t).path(d, w))),
        trail_len: Some(|t| answer(trail(t).len().and_then(|n| Ok((n, trail(t).is_empty()?))))),
        trail_clear: Some(|t| on_trail(t, |lent| lent.clear())),
        derive: Some(|c| answer(config(c).derive()).map(derived)),
        check_chunk: Some(|c, pos, aux, ch, out| found(tier0::check_chunk(&config(c), pos, aux, chunk_view(&ch), out))),
        check_action: Some(|c, pos, aux, prev, a, out| found(tier0::check_action(&config(c), pos, aux, prev, a, out))),
        features: Some(features),
        reset: Some(|rt| on_state(rt, |lent| answer(lent.reset()))),
        brake_feasible: Some(|c, p, v, ch, from, slacks| {
            answer(brake::brake_feasible(&config(c), p, v, chunk_view(&ch), from, slacks)).map(forecast)
        }),
        run_towards: Some(|c, setpoint, p, v, n, slacks| {
            answer(brake::run_towards(&config(c), setpoint, p, v, n, slacks)).map(ran)
        }),
        brake_action: Some(|c, p, v, last, out| walls(brake::brake_action(&config(c), p, v, last, out))),
        hold_action: Some(|c, p, last, out| walls(brake::hold_action(&config(c), p, last, out))),
        standardise: Some(|c, bin, sc| on_scores(sc, |s| conformal::standardise(&calibration(c), bin, s))),
        aggregate: Some(|c, sc| on_scores(sc, |s| conformal::aggregate(&calibration(c), s))),
        trip: Some(|c, sc| answer(conformal::trip(&calibration(c), &scores(sc)))),
        time_bin: Some(|t, ticks| answer(conformal::time_bin(t, ticks))),
    }
}

fn answer<T>(a: lictor::Answer<T>) -> Answer<T> {
    a.map_err(|r| model::Refusal { number: r.number(), place: r.place() })
}

fn found(a: lictor::Answer<tier0::Tier0Out>) -> Answer<Tier0Out> {
    answer(a).map(|r| {
        let tier0::Tier0Out { trips, clamped_dims, peak_speed, low_dims, high_dims } = r;
        Tier0Out { trips, clamped_dims, peak_speed, low_dims, high_dims }
    })
}

fn walls(a: lictor::Answer<brake::WallMarks>) -> Answer<WallMarks> {
    answer(a).map(|w| WallMarks { low_dims: w.low_dims, high_dims: w.high_dims })
}

fn forecast(r: brake::BrakeOut) -> BrakeOut {
    BrakeOut { count: r.count, margin: r.margin, feasible: r.feasible, stop_dist: r.stop_dist }
}

fn ran(r: brake::Ran) -> Ran {
    Ran { count: r.count, margin: r.margin }
}

pub fn chunk_view<'a>(v: &ChunkView<'a>) -> chunk::ChunkView<'a> {
    let ChunkView { seq, t_emit, horizon, dim, exec_steps, data } = *v;
    chunk::ChunkView { seq, t_emit, horizon, dim, exec_steps, data }
}

fn chunk_buf(b: &ChunkBuf) -> chunk::ChunkBuf {
    let ChunkBuf { data, seq, t_emit, horizon, dim, exec_steps, filled } = *b;
    chunk::ChunkBuf { data, seq, t_emit, horizon, dim, exec_steps, filled }
}

fn keep(b: &mut ChunkBuf, from: &chunk::ChunkBuf) {
    let chunk::ChunkBuf { data, seq, t_emit, horizon, dim, exec_steps, filled } = *from;
    *b = ChunkBuf { data, seq, t_emit, horizon, dim, exec_steps, filled };
}

fn copy_from(b: &mut ChunkBuf, v: ChunkView<'_>) -> Answer<()> {
    let mut buf = chunk_buf(b);
    let said = buf.copy_from(chunk_view(&v));
    keep(b, &buf);
    answer(said)
}

fn action(v: &ChunkView<'_>, i: usize) -> Vec<f64> {
    let mut row = vec![0.0; v.dim as usize];
    let n = chunk_view(v).action(i, &mut row);
    row.truncate(n);
    row
}

fn fill_row(b: &mut ChunkBuf, i: usize, x: f64) -> usize {
    let mut buf = chunk_buf(b);
    let row = vec![x; buf.dim as usize];
    buf.set_row(i, &row);
    let ChunkBuf { seq, t_emit, horizon, dim, exec_steps, .. } = *b;
    let all = chunk::ChunkView { seq, t_emit, horizon, dim, exec_steps, data: &buf.data };
    let n = all.action(i, &mut []);
    keep(b, &buf);
    n
}

fn view(b: &ChunkBuf) -> ChunkView<'_> {
    let buf = chunk_buf(b);
    let v = buf.view();
    let (data, horizon, dim) = (&b.data[..v.data.len()], v.horizon, v.dim);
    ChunkView { seq: v.seq, t_emit: v.t_emit, horizon, dim, exec_steps: v.exec_steps, data }
}

fn push(bits: u64, hit: bool, mask: u64) -> u64 {
    let mut w = window::Window { bits };
    w.push(hit, mask);
    w.bits
}

fn trail(t: &Trail) -> window::Trail {
    let Trail { buf, head, len } = *t;
    window::Trail { buf, head, len }
}

fn keep_trail(t: &mut Trail, from: &window::Trail) {
    let window::Trail { buf, head, len } = *from;
    *t = Trail { buf, head, len };
}

/// A call that is lent a trail.
fn on_trail(t: &mut Trail, call: impl Fn(&mut window::Trail) -> lictor::Answer<()>) -> Answer<()> {
    let mut lent = trail(t);
    let said = call(&mut lent);
    keep_trail(t, &lent);
    answer(said)
}

pub fn state(rt: &Tier1Rt) -> tier1::Tier1 {
    let Tier1Rt { have_prev, held, held_valid, .. } = *rt;
    tier1::Tier1 { prev: chunk_buf(&rt.prev), have_prev, trail: trail(&rt.trail), held, held_valid }
}

/// A call that is lent the state.
fn on_state(rt: &mut Tier1Rt, call: impl FnOnce(&mut tier1::Tier1) -> Answer<()>) -> Answer<()> {
    let mut lent = state(rt);
    let said = call(&mut lent);
    keep(&mut rt.prev, &lent.prev);
    keep_trail(&mut rt.trail, &lent.trail);
    (rt.have_prev, rt.held, rt.held_valid) = (lent.have_prev, lent.held, lent.held_valid);
    said
}

fn features(
    c: &FuseConfig,
    rt: &mut Tier1Rt,
    pos: &[f64],
    ext: &[f64],
    new: Option<ChunkView<'_>>,
    sc: &mut Scores,
) -> Answer<()> {
    let (c, new) = (config(c), new.as_ref().map(chunk_view));
    on_state(rt, |lent| on_scores(sc, |s| tier1::features(&c, lent, pos, ext, new, s)))
}

pub fn calibration(c: &Calibration) -> conformal::Calibration {
    let Calibration { center, scale, tau, mask, n_terms, terms } = *c;
    conformal::Calibration { center, scale, tau, mask, n_terms, terms }
}

pub fn scores(sc: &Scores) -> conformal::Scores {
    let Scores { f, z, s, valid, fired } = *sc;
    conformal::Scores { f, z, s, valid, fired }
}

/// A call that is lent scores.
fn on_scores<T>(sc: &mut Scores, call: impl FnOnce(&mut conformal::Scores) -> lictor::Answer<T>) -> Answer<T> {
    let mut lent = scores(sc);
    let said = call(&mut lent);
    let conformal::Scores { f, z, s, valid, fired } = lent;
    *sc = Scores { f, z, s, valid, fired };
    answer(said)
}

fn kind(k: ActionKind) -> config::ActionKind {
    match k {
        ActionKind::EePosition => config::ActionKind::EePosition,
        ActionKind::EeDelta => config::ActionKind::EeDelta,
        ActionKind::JointPosition => config::ActionKind::JointPosition,
        ActionKind::JointVelocity => config::ActionKind::JointVelocity,
        ActionKind::Other => config::ActionKind::Other,
    }
}

fn brake_kind(k: BrakeKind) -> config::BrakeKind {
    match k {
        BrakeKind::PdSecondOrder => config::BrakeKind::PdSecondOrder,
        BrakeKind::FirstOrderDecay => config::BrakeKind::FirstOrderDecay,
        BrakeKind::BoundedAccel => config::BrakeKind::BoundedAccel,
        BrakeKind::JerkLimited => config::BrakeKind::JerkLimited,
        BrakeKind::ZeroVelocityHold => config::BrakeKind::ZeroVelocityHold,
    }
}

fn brake(b: &model::BrakeModel) -> config::BrakeModel {
    let model::BrakeModel { kind, k_p, k_v, dt, substeps, commit, brake_steps, react } = *b;
    let kind = brake_kind(kind);
    config::BrakeModel { kind, k_p, k_v, dt, substeps, commit, brake_steps, react_ticks: react }
}

/// The zones that are counted, and where those are more than are held as many of the last, so that the count comes to the library. What
/// stands past the count does not come to it by the binding.
fn zones(z: &Zones) -> config::Zones {
    let contact = |z: &ContactLimit| config::Contact { radius: z.radius, v_max: z.v_max, a0: z.a0, a1: z.a1 };
    let mut all: Vec<config::Contact> = z.counted().iter().map(contact).collect();
    all.resize(z.count, contact(&z.list[MAX_ZONES - 1]));
    config::Zones::of(&all)
}

/// The box or the disc. What stands in the centre and the radius of a box does not come to the library by the binding.
fn shape(s: &Shape) -> config::Shape {
    match s.disc {
        false => config::Shape::Box,
        true => config::Shape::Disc { center: s.center, radius: s.radius },
    }
}

/// The configuration as the library takes it, not judged: each entry is compared on what it has to refuse, too.
pub fn config(c: &FuseConfig) -> config::Config {
    config::Config::unjudged(&config::FuseConfig {
        kind: kind(c.kind),
        dim: c.dim,
        pos_dim: c.pos_dim,
        dt: c.dt,
        v_max: c.v_max,
        a_max: c.a_max,
        j_max: c.j_max,
        reach_max: c.reach_max,
        margin: c.margin,
        norm_center: c.norm_center,
        norm_scale: c.norm_scale,
        box_lo: c.box_lo,
        box_hi: c.box_hi,
        shape: shape(&c.shape),
        zones: zones(&c.zones),
        absent_camera: match c.absent_camera {
            AbsentCamera::Slow => config::AbsentCamera::Slow,
            AbsentCamera::NoZone => config::AbsentCamera::NoZone,
        },
        gripper: match c.gripper {
            Gripper::ToZero => config::Gripper::ToZero,
            Gripper::LastCommand => config::Gripper::LastCommand,
        },
        brake: brake(&c.brake),
        clamp: match c.clamp {
            ClampMode::Off => config::ClampMode::Off,
            ClampMode::Project => config::ClampMode::Project,
        },
        armed: c.armed,
        aux_count: c.aux_count,
        calibration: c.calibrated.then(|| calibration(&c.cal)),
        horizon_ticks: c.horizon_ticks,
    })
}

fn derived(d: config::Derived) -> Derived {
    let config::Derived { inv_dt, inv_dt2, inv_dt3, step_max, norm_scale_iso, box_lo, box_hi, inv_norm_scale } = d;
    Derived { inv_dt, inv_dt2, inv_dt3, step_max, box_lo, box_hi, inv_norm_scale, norm_scale_iso }
}

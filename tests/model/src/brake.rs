//! Module 7.

use crate::{
    checked::{add, dist, div, mul, norm, sub, Checked, NotFinite},
    chunk::{self, action},
    envelope::{self, derive},
    fmath::{max, min},
    refusal::{first, judged, not_finite, shorter, when, COMPUTED, SHORT, WIDTH},
    workspace, ActionKind, BrakeKind, BrakeOut, ChunkView, Derived, FuseConfig, Gripper, Ran, Refusal, WallMarks,
    MAX_POS,
};

const EPS: f64 = 1e-9;

/// Position and velocity of the live axes.
#[derive(Clone, Copy)]
struct Plant {
    p: [f64; MAX_POS],
    v: [f64; MAX_POS],
    n: usize,
}

impl Plant {
    /// The plant that stands at p and moves with v.
    fn at(cfg: &FuseConfig, p: &[f64], v: &[f64]) -> Self {
        let n = cfg.dim.min(cfg.pos_dim);
        let mut plant = Plant { p: [0.0; MAX_POS], v: [0.0; MAX_POS], n };
        plant.p[..n].copy_from_slice(&p[..n]);
        plant.v[..n].copy_from_slice(&v[..n]);
        plant
    }
}

/// Committed rows from..commit.
fn rows_of(cfg: &FuseConfig, from: usize) -> usize {
    (cfg.brake.commit as usize).saturating_sub(from)
}

/// The number of slacks that are written if every computed number is finite.
pub fn count_of(cfg: &FuseConfig, from: usize) -> usize {
    match cfg.brake.kind {
        BrakeKind::PdSecondOrder => (rows_of(cfg, from) + cfg.brake.brake_steps as usize) * cfg.brake.substeps as usize,
        _ => 1 + rows_of(cfg, from),
    }
}

pub fn brake_feasible(
    cfg: &FuseConfig,
    p0: &[f64],
    v0: &[f64],
    ch: ChunkView<'_>,
    from: usize,
    slacks: &mut [f64],
) -> Result<BrakeOut, Refusal> {
    judged(&[
        envelope::judge(cfg),
        chunk::judge_view(&ch),
        when(ch.dim as usize != cfg.dim, WIDTH),
        shorter(p0, cfg.pos_dim),
        shorter(v0, cfg.pos_dim),
        when(slacks.len() < count_of(cfg, from), SHORT),
        not_finite(p0),
        not_finite(v0),
        not_finite(ch.data),
    ])?;
    let derived = derive(cfg)?;
    let plant = Plant::at(cfg, p0, v0);
    let mut list = List { slacks, count: 0 };
    let done = match cfg.brake.kind {
        BrakeKind::PdSecondOrder => second_order(cfg, &derived, plant, &ch, from, &mut list, p0),
        _ => closed(cfg, &derived, plant, &ch, from, &mut list, p0),
    };
    let stop_dist = done.map_err(|NotFinite| list.refusal())?;
    let margin = list.margin();
    Ok(BrakeOut { count: list.count, feasible: margin >= 0.0, margin, stop_dist })
}

/// n substeps under one setpoint from a plant, with the gains of whatever brake is configured; the plant that is reached is written over the live
/// axes of the given one. No setpoint is made here, and no stop distance.
pub fn run_towards(
    cfg: &FuseConfig,
    setpoint: &[f64],
    p: &mut [f64],
    v: &mut [f64],
    n: usize,
    slacks: &mut [f64],
) -> Result<Ran, Refusal> {
    judged(&[
        envelope::judge(cfg),
        shorter(setpoint, cfg.dim),
        shorter(p, cfg.pos_dim),
        shorter(v, cfg.pos_dim),
        shorter(slacks, n),
        not_finite(setpoint),
        not_finite(p),
        not_finite(v),
    ])?;
    let derived = derive(cfg)?;
    let mut list = List { slacks, count: 0 };
    let plant = run(cfg, &derived, Plant::at(cfg, p, v), setpoint, n, &mut list);
    let plant = plant.map_err(|NotFinite| list.refusal())?;
    p[..plant.n].copy_from_slice(&plant.p[..plant.n]);
    v[..plant.n].copy_from_slice(&plant.v[..plant.n]);
    Ok(Ran { count: list.count, margin: list.margin() })
}

/// The lent entries and how many of them are written. What fails next has the place after those.
struct List<'a> {
    slacks: &'a mut [f64],
    count: usize,
}

impl List<'_> {
    fn write(&mut self, slack: f64) {
        self.slacks[self.count] = slack;
        self.count += 1;
    }

    /// 13 at the place of what has failed.
    fn refusal(&self) -> Refusal {
        Refusal { number: COMPUTED, place: self.count + 1 }
    }

    /// The least of what is written, infinity for none.
    fn margin(&self) -> f64 {
        self.slacks[..self.count].iter().fold(f64::INFINITY, |m, s| min(m, *s))
    }
}

/// acc = k_p(a-p) - k_v v; v = v + acc dt; p = p + v dt with the new v.
fn substep(cfg: &FuseConfig, plant: &Plant, a: &[f64]) -> Result<Plant, NotFinite> {
    let b = &cfg.brake;
    let mut next = *plant;
    for c in 0..plant.n {
        let acc = sub(mul(b.k_p, sub(a[c], plant.p[c])?)?, mul(b.k_v, plant.v[c])?)?;
        next.v[c] = add(plant.v[c], mul(acc, b.dt)?)?;
        next.p[c] = add(plant.p[c], mul(next.v[c], b.dt)?)?;
    }
    Ok(next)
}

/// n substeps under one setpoint, with a slack written after each; gives the plant that is reached.
fn run(
    cfg: &FuseConfig,
    derived: &Derived,
    mut plant: Plant,
    setpoint: &[f64],
    n: usize,
    list: &mut List<'_>,
) -> Result<Plant, NotFinite> {
    for _ in 0..n {
        plant = substep(cfg, &plant, setpoint)?;
        list.write(workspace::slack(cfg, derived, plant.n, &plant.p)?);
    }
    Ok(plant)
}

/// The second-order kind: a run towards each row and then one towards the setpoint; gives the stop distance. The setpoint is made whatever the braking steps are,
/// so that what is not finite in it has the place of the first substep after the rows.
fn second_order(
    cfg: &FuseConfig,
    derived: &Derived,
    mut plant: Plant,
    ch: &ChunkView<'_>,
    from: usize,
    list: &mut List<'_>,
    p0: &[f64],
) -> Checked {
    let substeps = cfg.brake.substeps as usize;
    for i in from..from + rows_of(cfg, from) {
        plant = run(cfg, derived, plant, action(ch, i), substeps, list)?;
    }
    let mut setpoint = plant.p;
    workspace::move_inside(cfg, derived, plant.n, &mut setpoint)?;
    plant = run(cfg, derived, plant, &setpoint, cfg.brake.brake_steps as usize * substeps, list)?;
    add(dist(&plant.p, p0, plant.n)?, 0.0)
}

/// What the plant still travels: d_stop and what it goes in the reaction time.
fn radius(cfg: &FuseConfig, plant: &Plant, react: f64) -> Checked {
    let nv = norm(&plant.v, plant.n)?;
    let bounded = || div(mul(nv, nv)?, mul(2.0, cfg.a_max)?);
    let d_stop = match cfg.brake.kind {
        BrakeKind::FirstOrderDecay => div(nv, cfg.brake.k_v)?,
        BrakeKind::BoundedAccel | BrakeKind::ZeroVelocityHold => bounded()?,
        BrakeKind::JerkLimited => add(bounded()?, div(mul(nv, cfg.a_max)?, mul(2.0, cfg.j_max)?)?)?,
        BrakeKind::PdSecondOrder => 0.0,
    };
    add(d_stop, mul(nv, react)?)
}

/// The velocity of one coordinate that a row commands, by action kind.
fn commanded(cfg: &FuseConfig, a: f64, p: f64, g: f64) -> Checked {
    match cfg.kind {
        ActionKind::JointVelocity => Ok(a),
        ActionKind::EeDelta => div(a, cfg.dt),
        ActionKind::EePosition | ActionKind::JointPosition | ActionKind::Other => mul(g, sub(a, p)?),
    }
}

/// A closed kind: writes one slack for the start and one for each row, and gives the stop distance. A row's slack
/// is written after its Euler step, since both have the row's place.
fn closed(
    cfg: &FuseConfig,
    derived: &Derived,
    mut plant: Plant,
    ch: &ChunkView<'_>,
    from: usize,
    list: &mut List<'_>,
    p0: &[f64],
) -> Checked {
    let react = mul(cfg.brake.react as f64, cfg.dt)?;
    let g = div(cfg.brake.k_p, cfg.brake.k_v)?;
    let slack = |plant: &Plant| workspace::slack_within(cfg, derived, plant.n, &plant.p, radius(cfg, plant, react)?);
    list.write(slack(&plant)?);
    for i in from..from + rows_of(cfg, from) {
        for c in 0..plant.n {
            plant.v[c] = commanded(cfg, action(ch, i)[c], plant.p[c], g)?;
        }
        let here = slack(&plant)?;
        for c in 0..plant.n {
            plant.p[c] = add(plant.p[c], mul(plant.v[c], cfg.dt)?)?;
        }
        list.write(here);
    }
    let end = radius(cfg, &plant, react)?;
    add(dist(&plant.p, p0, plant.n)?, end)
}

fn position_kind(kind: ActionKind) -> bool {
    !matches!(kind, ActionKind::JointVelocity | ActionKind::EeDelta)
}

/// 11 and 12 of the last command, which is an argument in the mode LastCommand alone: for every kind, and also where no axis is past pos_dim.
fn judge_last(cfg: &FuseConfig, last: &[f64]) -> Option<u8> {
    match cfg.gripper {
        Gripper::ToZero => None,
        Gripper::LastCommand => first(&[shorter(last, cfg.dim), not_finite(last)]),
    }
}

/// Each coordinate of p, 0.0 past its end, moved inside its workspace, and in the mode LastCommand the last command past pos_dim. The sides are
/// those of the coordinates that have walls.
fn inside(cfg: &FuseConfig, derived: &Derived, p: &[f64], last: &[f64], out: &mut [f64]) -> Result<WallMarks, Refusal> {
    let mut row = [0.0; MAX_POS];
    let there = p.len().min(MAX_POS);
    row[..there].copy_from_slice(&p[..there]);
    let marks = workspace::walls(cfg, derived, |c| row[c]);
    workspace::move_inside(cfg, derived, cfg.dim, &mut row)?;
    if cfg.gripper == Gripper::LastCommand {
        let past = cfg.pos_dim.min(cfg.dim)..cfg.dim;
        row[past.clone()].copy_from_slice(&last[past]);
    }
    out[..cfg.dim].copy_from_slice(&row[..cfg.dim]);
    Ok(marks)
}

/// The factor of the ramp to zero, times dt for displacements.
fn ramp(cfg: &FuseConfig, v: &[f64]) -> Checked {
    let nv = norm(v, cfg.dim.min(v.len()))?;
    let f = max(0.0, sub(1.0, div(mul(cfg.a_max, cfg.dt)?, add(nv, EPS)?)?)?);
    if cfg.kind == ActionKind::EeDelta {
        mul(f, cfg.dt)
    } else {
        Ok(f)
    }
}

pub fn brake_action(
    cfg: &FuseConfig,
    p: &[f64],
    v: &[f64],
    last: &[f64],
    out: &mut [f64],
) -> Result<WallMarks, Refusal> {
    judged(&[envelope::judge(cfg), shorter(out, cfg.dim), not_finite(p), not_finite(v), judge_last(cfg, last)])?;
    let derived = derive(cfg)?;
    if position_kind(cfg.kind) {
        return inside(cfg, &derived, p, last, out);
    }
    let scale = ramp(cfg, v)?;
    let mut ramped = [0.0; MAX_POS];
    for (o, x) in ramped[..cfg.dim].iter_mut().zip(v) {
        *o = mul(*x, scale)?;
    }
    out[..cfg.dim].copy_from_slice(&ramped[..cfg.dim]);
    Ok(WallMarks::default())
}

pub fn hold_action(cfg: &FuseConfig, p: &[f64], last: &[f64], out: &mut [f64]) -> Result<WallMarks, Refusal> {
    judged(&[envelope::judge(cfg), shorter(out, cfg.dim), not_finite(p), judge_last(cfg, last)])?;
    let derived = derive(cfg)?;
    if position_kind(cfg.kind) {
        return inside(cfg, &derived, p, last, out);
    }
    out[..cfg.dim].fill(0.0);
    Ok(WallMarks::default())
}

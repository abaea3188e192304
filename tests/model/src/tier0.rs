//! Module 5.

use crate::{
    checked::{add, dist, mul, norm, sub, NotFinite},
    chunk,
    envelope::{self, derive},
    fmath::{max, min},
    pull::pull,
    refusal::{judged, not_finite, shorter, when, WIDTH},
    workspace, AbsentCamera, ChunkView, ClampMode, ContactLimit, Derived, FuseConfig, Refusal, Tier0Out, WallMarks,
    ACCEL, CONTACT, JERK, MAX_D, REACH, SPEED, WORKSPACE,
};

type Row = [f64; MAX_D];

/// What a check reads besides the rows.
struct Check<'a> {
    cfg: &'a FuseConfig,
    derived: Derived,
    pos: &'a [f64],
    /// min(dim, pos_dim)
    nb: usize,
    /// the step of each zone that the arm is inside, where CONTACT is armed
    slow: Vec<f64>,
}

impl<'a> Check<'a> {
    fn new(cfg: &'a FuseConfig, derived: Derived, pos: &'a [f64], aux: &[f64]) -> Result<Self, NotFinite> {
        let slow = contact_steps(cfg, pos, aux)?;
        Ok(Self { cfg, derived, pos, nb: cfg.dim.min(cfg.pos_dim), slow })
    }

    fn armed(&self, bit: u32) -> bool {
        self.cfg.armed & bit != 0
    }

    /// SPEED, CONTACT and WORKSPACE of a row that is a step of length n away.
    fn trips_of_step(&self, a: &[f64], n: f64) -> Result<u32, NotFinite> {
        let mut trips = 0;
        if self.armed(SPEED) && n > self.derived.step_max {
            trips |= SPEED;
        }
        if self.slow.iter().any(|step| n > *step) {
            trips |= CONTACT;
        }
        if self.armed(WORKSPACE) && workspace::outside(self.cfg, &self.derived, self.nb, a)? {
            trips |= WORKSPACE;
        }
        Ok(trips)
    }

    fn trips_of_reach(&self, a: &[f64]) -> Result<u32, NotFinite> {
        if self.armed(REACH) && dist(a, self.pos, self.nb)? > self.cfg.reach_max {
            return Ok(REACH);
        }
        Ok(0)
    }

    /// The least armed step: SPEED's, and that of each zone that the arm is inside.
    fn leash(&self) -> Option<f64> {
        let speed = self.armed(SPEED).then_some(self.derived.step_max);
        speed.into_iter().chain(self.slow.iter().copied()).reduce(min)
    }

    /// The sides that the walls move a row to, as the row came; none where the workspace is not armed, or where no row is moved.
    fn walls(&self, raw: &[f64]) -> WallMarks {
        if self.cfg.clamp == ClampMode::Off || !self.armed(WORKSPACE) {
            return WallMarks::default();
        }
        workspace::walls(self.cfg, &self.derived, |c| raw[c])
    }

    /// A row projected: workspace, leash towards q, and with `first` the reach pull.
    fn project(&self, first: bool, q: &[f64], mut a: Row) -> Result<Row, NotFinite> {
        if self.armed(WORKSPACE) {
            workspace::move_inside(self.cfg, &self.derived, self.nb, &mut a)?;
        }
        if let Some(step) = self.leash() {
            pull(&mut a, q, self.cfg.dim, step)?;
        }
        if first && self.armed(REACH) {
            pull(&mut a, self.pos, self.nb, self.cfg.reach_max)?;
        }
        Ok(a)
    }
}

/// The zone's centre as the camera gives it, where aux has both channels and the position two coordinates to measure from.
fn seen(zone: &ContactLimit, pos: &[f64], aux: &[f64]) -> Option<[f64; 2]> {
    let channel = |a: u8| aux.get(a as usize).copied();
    let centre = [channel(zone.a0)?, channel(zone.a1)?];
    (pos.len() >= 2).then_some(centre)
}

/// Whether the arm is inside a zone: at most the radius away from a centre that is seen, and by the choice where none is.
fn inside(cfg: &FuseConfig, zone: &ContactLimit, pos: &[f64], aux: &[f64]) -> Result<bool, NotFinite> {
    match seen(zone, pos, aux) {
        Some(centre) => Ok(dist(pos, &centre, 2)? <= zone.radius),
        None => Ok(cfg.absent_camera == AbsentCamera::Slow),
    }
}

/// Where CONTACT is armed, the speed times dt of each counted zone that the arm is inside. No zone is passed over because of another.
pub fn contact_steps(cfg: &FuseConfig, pos: &[f64], aux: &[f64]) -> Result<Vec<f64>, NotFinite> {
    let mut steps = Vec::new();
    if cfg.armed & CONTACT != 0 {
        for zone in cfg.zones.counted() {
            if inside(cfg, zone, pos, aux)? {
                steps.push(mul(zone.v_max, cfg.dt)?);
            }
        }
    }
    Ok(steps)
}

/// A bit for each coordinate that differs as a number.
fn moved(raw: &[f64], a: &[f64], d: usize) -> u32 {
    (0..d).filter(|c| a[*c] != raw[*c]).fold(0, |m, c| m | 1 << c)
}

fn row_of(a: &[f64]) -> Row {
    let mut row = [0.0; MAX_D];
    row[..a.len()].copy_from_slice(a);
    row
}

pub fn check_chunk(
    cfg: &FuseConfig,
    pos: &[f64],
    aux: &[f64],
    ch: ChunkView<'_>,
    out: &mut [f64],
) -> Result<Tier0Out, Refusal> {
    judged(&[
        envelope::judge(cfg),
        chunk::judge_view(&ch),
        when(ch.dim as usize != cfg.dim, WIDTH),
        shorter(pos, cfg.pos_dim),
        shorter(out, ch.horizon as usize * cfg.dim),
        not_finite(pos),
        not_finite(aux),
        not_finite(ch.data),
    ])?;
    let check = Check::new(cfg, derive(cfg)?, pos, aux)?;
    let rows: Vec<&[f64]> = ch.data.chunks(cfg.dim).collect();
    let mut before = row_of(rows[0]);
    before[..check.nb].copy_from_slice(&pos[..check.nb]);

    let mut res = trips_of_rows(&check, &rows, &before)?;
    for raw in &rows {
        let walls = check.walls(raw);
        res.low_dims |= walls.low_dims;
        res.high_dims |= walls.high_dims;
    }
    if cfg.clamp == ClampMode::Off {
        out[..ch.data.len()].copy_from_slice(ch.data);
        return Ok(res);
    }
    let mut projected = Vec::new();
    let mut q = before;
    for (i, raw) in rows.iter().enumerate() {
        q = check.project(i == 0, &q, row_of(raw))?;
        res.clamped_dims |= moved(raw, &q, cfg.dim);
        projected.extend_from_slice(&q[..cfg.dim]);
    }
    out[..projected.len()].copy_from_slice(&projected);
    Ok(res)
}

/// The trips of the raw rows and the greatest step's speed; `before` stands before row 0.
fn trips_of_rows(check: &Check<'_>, rows: &[&[f64]], before: &Row) -> Result<Tier0Out, NotFinite> {
    let d = check.cfg.dim;
    let at = |i: usize| if i == 0 { &before[..d] } else { rows[i - 1] };
    let mut trips = 0;
    let mut peak = 0.0;
    for (i, a) in rows.iter().enumerate() {
        let n = dist(a, at(i), d)?;
        peak = max(peak, n);
        trips |= check.trips_of_step(a, n)?;
    }
    let mut diff = [0.0; MAX_D];
    if check.armed(ACCEL) {
        for i in 0..rows.len().saturating_sub(1) {
            for c in 0..d {
                diff[c] = add(sub(at(i + 2)[c], mul(2.0, at(i + 1)[c])?)?, at(i)[c])?;
            }
            if mul(norm(&diff, d)?, check.derived.inv_dt2)? > check.cfg.a_max {
                trips |= ACCEL;
            }
        }
    }
    if check.armed(JERK) {
        for i in 0..rows.len().saturating_sub(2) {
            for c in 0..d {
                let upper = sub(at(i + 3)[c], mul(3.0, at(i + 2)[c])?)?;
                diff[c] = sub(add(upper, mul(3.0, at(i + 1)[c])?)?, at(i)[c])?;
            }
            if mul(norm(&diff, d)?, check.derived.inv_dt3)? > check.cfg.j_max {
                trips |= JERK;
            }
        }
    }
    trips |= check.trips_of_reach(rows[0])?;
    let peak_speed = mul(peak, check.derived.inv_dt)?;
    Ok(Tier0Out { trips, clamped_dims: 0, peak_speed, low_dims: 0, high_dims: 0 })
}

pub fn check_action(
    cfg: &FuseConfig,
    pos: &[f64],
    aux: &[f64],
    prev: &[f64],
    a: &[f64],
    out: &mut [f64],
) -> Result<Tier0Out, Refusal> {
    judged(&[
        envelope::judge(cfg),
        shorter(pos, cfg.pos_dim),
        shorter(prev, cfg.dim),
        shorter(a, cfg.dim),
        shorter(out, cfg.dim),
        not_finite(pos),
        not_finite(aux),
        not_finite(prev),
        not_finite(a),
    ])?;
    let check = Check::new(cfg, derive(cfg)?, pos, aux)?;
    let n = dist(a, prev, cfg.dim)?;
    let trips = check.trips_of_step(a, n)? | check.trips_of_reach(a)?;
    let WallMarks { low_dims, high_dims } = check.walls(a);
    let mut res = Tier0Out { trips, clamped_dims: 0, peak_speed: mul(n, check.derived.inv_dt)?, low_dims, high_dims };
    let mut row = row_of(&a[..cfg.dim]);
    if cfg.clamp == ClampMode::Project {
        row = check.project(true, prev, row)?;
        res.clamped_dims = moved(a, &row, cfg.dim);
    }
    out[..cfg.dim].copy_from_slice(&row[..cfg.dim]);
    Ok(res)
}

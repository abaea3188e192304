//! Module 6.

use crate::{
    checked::{add, dist, div, mul, norm, root, sub, Checked, NotFinite},
    chunk,
    envelope::{self, derive},
    fmath::max,
    refusal::{judged, not_finite, when, NOT_FINITE, WIDTH},
    window::{judge_numbers, judge_size, net_of, path_of},
    ChunkBuf, ChunkView, Derived, FuseConfig, Refusal, Scores, Tier1Rt, ACC, ACM_NEG, EXT0, HELD, MAX_D, MAX_EXT,
    NFEAT, NJR, PATH_INEFF, PE_WINDOW, REACH_FEAT, SPEED_PEAK, TCE,
};

const EPS: f64 = 1e-9;

/// 12 of a score: f and z finite, s no NaN.
pub fn judge_scores(sc: &Scores) -> Option<u8> {
    let bad = sc.f.iter().chain(&sc.z).any(|x| !x.is_finite()) || sc.s.is_nan();
    when(bad, NOT_FINITE)
}

/// 12 of the state: the trail, the held features and the rows of a filled chunk.
fn judge_state(rt: &Tier1Rt) -> Option<u8> {
    let rows = if rt.prev.filled { not_finite(rt.prev.rows()) } else { None };
    judge_numbers(&rt.trail).or(not_finite(&rt.held)).or(rows)
}

/// Forgets the chunk before, the trail's samples and the held features.
pub fn reset(rt: &mut Tier1Rt) -> Result<(), Refusal> {
    judged(&[judge_size(&rt.trail), chunk::judge_held(&rt.prev), judge_state(rt)])?;
    rt.prev.filled = false;
    (rt.trail.head, rt.trail.len) = (0, 0);
    *rt = Tier1Rt { prev: rt.prev, trail: rt.trail, ..Tier1Rt::NEW };
    Ok(())
}

pub fn features(
    cfg: &FuseConfig,
    rt: &mut Tier1Rt,
    pos: &[f64],
    ext: &[f64],
    new: Option<ChunkView<'_>>,
    sc: &mut Scores,
) -> Result<(), Refusal> {
    judged(&[
        envelope::judge(cfg),
        judge_size(&rt.trail),
        new.and_then(|v| chunk::judge_view(&v)),
        chunk::judge_held(&rt.prev),
        new.and_then(|v| when(v.dim as usize != cfg.dim, WIDTH)),
        not_finite(pos),
        not_finite(ext),
        new.and_then(|v| not_finite(v.data)),
        judge_state(rt),
        judge_scores(sc),
    ])?;
    let derived = derive(cfg)?;
    let (held, held_valid) = match new {
        Some(v) => boundary(cfg, &derived, rt, pos, &v)?,
        None => (rt.held, rt.held_valid),
    };
    let (f, valid) = ticked(cfg, rt, ext, held, held_valid)?;
    if let Some(v) = new {
        rt.held = held;
        rt.held_valid = held_valid;
        chunk::copy_from(&mut rt.prev, v)?;
        rt.have_prev = true;
    }
    sc.f = f;
    sc.valid = valid;
    Ok(())
}

/// All twelve features of this tick, 0.0 where not valid, and their bits. Nothing computes Stall, which is 0.0 and never valid.
fn ticked(
    cfg: &FuseConfig,
    rt: &Tier1Rt,
    ext: &[f64],
    held: [f64; HELD],
    held_valid: u32,
) -> Result<([f64; NFEAT], u32), NotFinite> {
    let mut f = [0.0; NFEAT];
    let mut valid = held_valid & ((1 << HELD) - 1);
    for j in 0..HELD {
        if valid >> j & 1 == 1 {
            f[j] = held[j];
        }
    }
    if rt.trail.len as usize >= PE_WINDOW {
        let n = net_of(&rt.trail, cfg.pos_dim, PE_WINDOW)?;
        let p = path_of(&rt.trail, cfg.pos_dim, PE_WINDOW)?;
        f[PATH_INEFF] = sub(1.0, div(n, max(p, EPS))?)?;
        valid |= 1 << PATH_INEFF;
    }
    for (k, x) in ext.iter().take(MAX_EXT).enumerate() {
        f[EXT0 + k] = *x;
        valid |= 1 << (EXT0 + k);
    }
    Ok((f, valid))
}

/// The rows of a chunk as (a - center) / scale, the quotient taken by its inverse.
fn normalised(cfg: &FuseConfig, derived: &Derived, data: &[f64]) -> Result<Vec<Row>, NotFinite> {
    data.chunks(cfg.dim).map(|a| normalised_row(cfg, derived, a)).collect()
}

type Row = [f64; MAX_D];

fn normalised_row(cfg: &FuseConfig, derived: &Derived, a: &[f64]) -> Result<Row, NotFinite> {
    let mut row = [0.0; MAX_D];
    for (c, x) in a.iter().enumerate() {
        row[c] = mul(sub(*x, cfg.norm_center[c])?, derived.inv_norm_scale[c])?;
    }
    Ok(row)
}

/// The six features of a new chunk and their bits; an invalid one is 0.0.
fn boundary(
    cfg: &FuseConfig,
    derived: &Derived,
    rt: &Tier1Rt,
    pos: &[f64],
    new: &ChunkView<'_>,
) -> Result<([f64; HELD], u32), NotFinite> {
    let d = cfg.dim;
    let h = new.horizon as usize;
    let nb = d.min(cfg.pos_dim).min(pos.len());
    let mut held = [0.0; HELD];
    let mut valid = 0;
    let mut set = |j: usize, x: f64| {
        held[j] = x;
        valid |= 1 << j;
    };
    if let Some((s, l)) = overlap(rt, new) {
        let old = normalised(cfg, derived, &rt.prev.rows()[s * d..(s + l) * d])?;
        let rows = normalised(cfg, derived, &new.data[..l * d])?;
        let num = squared_errors(&old, &rows, d)?;
        set(TCE, root(div(num, (l * d) as f64)?)?);
        set(ACC, root(div(num, add(squared_steps(&rows, d)?, EPS)?)?)?);
    }
    if h >= 2 {
        let rows = normalised(cfg, derived, new.data)?;
        set(ACM_NEG, acm_neg(&rows, d)?);
        if h >= 4 {
            set(NJR, njr(&rows, d)?);
        }
    }
    if nb > 0 {
        set(REACH_FEAT, div(dist(new.data, pos, nb)?, derived.norm_scale_iso)?);
    }
    set(SPEED_PEAK, div(speed_peak(new.data, d, &pos[..nb])?, derived.norm_scale_iso)?);
    Ok((held, valid))
}

/// The shift and the number of rows that the kept chunk and the new one share, where there are at least 2.
fn overlap(rt: &Tier1Rt, new: &ChunkView<'_>) -> Option<(usize, usize)> {
    let prev: &ChunkBuf = &rt.prev;
    if !rt.have_prev || !prev.filled || prev.dim != new.dim || new.t_emit < prev.t_emit {
        return None;
    }
    let s = (new.t_emit - prev.t_emit) as usize;
    let l = (prev.horizon as usize).checked_sub(s)?.min(new.horizon as usize);
    (l >= 2).then_some((s, l))
}

/// The sum of the squared differences of two chunks' rows, row by row, coordinate by coordinate.
fn squared_errors(old: &[Row], new: &[Row], d: usize) -> Checked {
    let mut sum = 0.0;
    for (a, b) in old.iter().zip(new) {
        for c in 0..d {
            let e = sub(a[c], b[c])?;
            sum = add(sum, mul(e, e)?)?;
        }
    }
    Ok(sum)
}

/// The sum of the squared first differences, row by row, coordinate by coordinate.
fn squared_steps(rows: &[Row], d: usize) -> Checked {
    let mut sum = 0.0;
    for pair in rows.windows(2) {
        for c in 0..d {
            let e = sub(pair[1][c], pair[0][c])?;
            sum = add(sum, mul(e, e)?)?;
        }
    }
    Ok(sum)
}

/// The mean step, negated.
fn acm_neg(rows: &[Row], d: usize) -> Checked {
    let mut sum = 0.0;
    let mut diff = [0.0; MAX_D];
    for pair in rows.windows(2) {
        for c in 0..d {
            diff[c] = sub(pair[1][c], pair[0][c])?;
        }
        sum = add(sum, norm(&diff, d)?)?;
    }
    Ok(-div(sum, (rows.len() - 1) as f64)?)
}

/// The mean squared third difference over 1e-9 and the mean squared first difference.
fn njr(rows: &[Row], d: usize) -> Checked {
    let mut num = 0.0;
    for w in rows.windows(4) {
        for c in 0..d {
            let upper = sub(w[3][c], mul(3.0, w[2][c])?)?;
            let v = sub(add(upper, mul(3.0, w[1][c])?)?, w[0][c])?;
            num = add(num, mul(v, v)?)?;
        }
    }
    let den = div(squared_steps(rows, d)?, (rows.len() - 1) as f64)?;
    div(div(num, (rows.len() - 3) as f64)?, add(EPS, den)?)
}

/// The greatest step between consecutive raw rows; before row 0 stands the position where it has coordinates.
fn speed_peak(data: &[f64], d: usize, pos: &[f64]) -> Checked {
    let mut before = [0.0; MAX_D];
    before[..d].copy_from_slice(&data[..d]);
    before[..pos.len()].copy_from_slice(pos);
    let mut peak = max(0.0, dist(&data[..d], &before, d)?);
    for pair in data.windows(2 * d).step_by(d) {
        peak = max(peak, dist(&pair[d..], &pair[..d], d)?);
    }
    Ok(peak)
}

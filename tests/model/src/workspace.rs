//! The workspace: the box, or a round table over the first two coordinates with the box for the others. No other file knows which of the
//! two it is.

use crate::{
    checked::{dist, sub, Checked, NotFinite},
    fmath::{clamp, min, side},
    pull::pull,
    refusal::{when, NUMBER, SHAPE},
    Derived, FuseConfig, WallMarks,
};

/// The axes that a round table has.
const TABLE: usize = 2;

/// The first axis that has walls.
pub fn first_boxed(c: &FuseConfig) -> usize {
    if c.shape.disc {
        TABLE
    } else {
        0
    }
}

/// 2 of the shape: with a disc a centre that is not finite, and a radius that is not finite and above 0.
pub fn judge_numbers(c: &FuseConfig) -> Option<u8> {
    let s = &c.shape;
    let fine = s.center.iter().all(|x| x.is_finite()) && s.radius.is_finite() && s.radius > 0.0;
    when(s.disc && !fine, NUMBER)
}

/// 15: a disc, and fewer than two coordinates of a row or of a position.
pub fn judge_shape(c: &FuseConfig) -> Option<u8> {
    when(c.shape.disc && (c.dim < TABLE || c.pos_dim < TABLE), SHAPE)
}

/// How far a point is from the centre of the round table, where there is one.
fn away(c: &FuseConfig, point: &[f64]) -> Result<Option<f64>, NotFinite> {
    match c.shape.disc {
        true => Ok(Some(dist(point, &c.shape.center, TABLE)?)),
        false => Ok(None),
    }
}

/// Whether one of the first n coordinates lies beyond a wall, or the point beyond the edge. The distance is evaluated whatever the walls say.
pub fn outside(c: &FuseConfig, d: &Derived, n: usize, point: &[f64]) -> Result<bool, NotFinite> {
    let beyond = away(c, point)?.is_some_and(|far| far > c.shape.radius);
    Ok(beyond || (first_boxed(c)..n).any(|i| point[i] < d.box_lo[i] || point[i] > d.box_hi[i]))
}

/// Moves the first n coordinates of a point inside.
pub fn move_inside(c: &FuseConfig, d: &Derived, n: usize, point: &mut [f64]) -> Result<(), NotFinite> {
    if c.shape.disc {
        pull(point, &c.shape.center, TABLE, c.shape.radius)?;
    }
    for i in first_boxed(c)..n {
        point[i] = clamp(point[i], d.box_lo[i], d.box_hi[i]);
    }
    Ok(())
}

/// The sides that the walls move a point to, over the first min(dim, pos_dim) coordinates: those past pos_dim have no box of their own.
pub fn walls(c: &FuseConfig, d: &Derived, point: impl Fn(usize) -> f64) -> WallMarks {
    let mut marks = WallMarks::default();
    for i in first_boxed(c)..c.dim.min(c.pos_dim) {
        match side(point(i), d.box_lo[i], d.box_hi[i]) {
            -1 => marks.low_dims |= 1 << i,
            1 => marks.high_dims |= 1 << i,
            _ => (),
        }
    }
    marks
}

/// The least, over the round table and then the walls of the first n coordinates, of what is left to the edge and to each wall.
pub fn slack(c: &FuseConfig, d: &Derived, n: usize, p: &[f64]) -> Checked {
    let mut least = f64::INFINITY;
    if let Some(far) = away(c, p)? {
        least = min(least, sub(c.shape.radius, far)?);
    }
    for i in first_boxed(c)..n {
        let low = sub(p[i], d.box_lo[i])?;
        least = min(least, min(low, sub(d.box_hi[i], p[i])?));
    }
    Ok(least)
}

/// The same in a workspace that is smaller by the stopping radius r.
pub fn slack_within(c: &FuseConfig, d: &Derived, n: usize, p: &[f64], r: f64) -> Checked {
    let mut least = f64::INFINITY;
    if let Some(far) = away(c, p)? {
        least = min(least, sub(sub(c.shape.radius, far)?, r)?);
    }
    for i in first_boxed(c)..n {
        let low = sub(sub(p[i], r)?, d.box_lo[i])?;
        least = min(least, min(low, sub(sub(d.box_hi[i], p[i])?, r)?));
    }
    Ok(least)
}

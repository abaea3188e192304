//! Good inputs, and their parts.

use model::{
    AbsentCamera, BrakeModel, Calibration, ChunkBuf, ChunkView, ClampMode, ContactLimit, FuseConfig, Gripper, Scores,
    Shape, Trail, Zones, BINS, HELD, MAX_D, MAX_H, NAMED, NFEAT, STALL, WORKSPACE,
};

use crate::{
    number::{at_limit, Field},
    part::{Part, BRAKES, KINDS},
    rng::Rng,
};

/// A chunk that owns its numbers.
#[derive(Clone, Debug)]
pub struct ChunkIn {
    pub seq: u32,
    pub t_emit: u32,
    pub horizon: u16,
    pub dim: u16,
    pub exec_steps: u16,
    pub data: Vec<f64>,
}

impl ChunkIn {
    pub fn view(&self) -> ChunkView<'_> {
        let (seq, t_emit, horizon) = (self.seq, self.t_emit, self.horizon);
        ChunkView { seq, t_emit, horizon, dim: self.dim, exec_steps: self.exec_steps, data: &self.data }
    }

    /// Keeps rows from..to; false where that leaves none or changes nothing.
    pub fn keep_rows(&mut self, from: u16, to: u16) -> bool {
        let d = self.dim as usize;
        let fits = self.data.len() == self.horizon as usize * d;
        if !fits || from >= to || to > self.horizon || to - from == self.horizon {
            return false;
        }
        self.data = self.data[from as usize * d..to as usize * d].to_vec();
        self.horizon = to - from;
        self.exec_steps = self.exec_steps.min(self.horizon);
        true
    }

    /// The same rows without their last coordinate.
    pub fn narrower(&self) -> Option<ChunkIn> {
        let d = self.dim as usize;
        if d < 2 || self.data.len() != self.horizon as usize * d {
            return None;
        }
        let data = self.data.chunks(d).flat_map(|r| r[..d - 1].iter().copied()).collect();
        Some(ChunkIn { dim: self.dim - 1, data, ..self.clone() })
    }
}

/// Few rows mostly, sometimes as many as there may be, seldom one too many or none.
pub fn horizon(rng: &mut Rng) -> usize {
    match rng.below(32) {
        0 => rng.pick(&[0, 65]),
        1..=2 => rng.pick(&[MAX_H - 1, MAX_H]),
        3..=5 => rng.within(6, MAX_H - 2),
        _ => rng.within(1, 5),
    }
}

pub fn chunk(rng: &mut Rng, field: Field, dim: usize) -> ChunkIn {
    let h = horizon(rng);
    let d = if rng.one_in(40) { rng.pick(&[0, MAX_D + 1, 1]) } else { dim };
    ChunkIn {
        seq: rng.below(4) as u32,
        t_emit: rng.below(6) as u32,
        horizon: h as u16,
        dim: d as u16,
        exec_steps: rng.within(0, h) as u16,
        data: field.numbers(rng, h * d),
    }
}

/// A buffer with any numbers and a header that fits, filled or not.
pub fn chunk_buf(rng: &mut Rng, field: Field, dim: usize) -> ChunkBuf {
    let mut b = ChunkBuf::NEW;
    b.filled = !rng.one_in(4);
    if b.filled {
        let c = chunk(rng, field, dim);
        b.horizon = c.horizon.clamp(1, MAX_H as u16);
        b.dim = c.dim.clamp(1, MAX_D as u16);
        (b.seq, b.t_emit, b.exec_steps) = (c.seq, c.t_emit, c.exec_steps.min(b.horizon));
        let n = b.horizon as usize * b.dim as usize;
        b.data[..n].copy_from_slice(&field.numbers(rng, n));
    }
    if rng.one_in(8) {
        b.data[MAX_H * MAX_D - 1] = field.number(rng);
    }
    b
}

pub fn chunk_buf_parts(b: &mut ChunkBuf) -> Vec<Part<'_>> {
    vec![
        Part::Table(&mut b.data, 0.0),
        Part::U32(&mut b.seq),
        Part::U32(&mut b.t_emit),
        Part::U16(&mut b.horizon),
        Part::U16(&mut b.dim),
        Part::U16(&mut b.exec_steps),
        Part::Flag(&mut b.filled),
    ]
}

/// Any head and count that are in size, full trails and trails round the window of 20 among them.
pub fn trail(rng: &mut Rng, field: Field) -> Trail {
    let len = rng.pick(&[0, 1, 2, 18, 19, 20, 21, 31, 32, 32, 32]);
    let head = if rng.one_in(4) { len % 32 } else { rng.below(32) };
    let mut buf = field.array(rng);
    if rng.one_in(6) {
        buf.fill(field.number(rng));
    }
    Trail { buf, head: head as u8, len: len as u8 }
}

pub fn trail_parts(t: &mut Trail) -> Vec<Part<'_>> {
    vec![Part::Table(&mut t.buf, 0.0), Part::U8(&mut t.head), Part::U8(&mut t.len)]
}

/// Of eight calibrations one names Stall, in its mask or in a counted term; terms past the count have any bits.
pub fn calibration(rng: &mut Rng, field: Field) -> Calibration {
    let mut c = Calibration::DISARMED;
    c.center = field.array(rng);
    for x in &mut c.scale {
        *x = field.above(rng);
    }
    c.tau = field.number(rng);
    c.mask = if rng.one_in(2) { NAMED } else { rng.bits() as u32 & NAMED };
    c.n_terms = rng.below(9) as u8;
    for (i, t) in c.terms.iter_mut().enumerate() {
        let spread = (rng.bits() & rng.bits() & rng.bits()) as u32 & NAMED;
        *t = if i < c.n_terms as usize { spread } else { rng.bits() as u32 };
    }
    if rng.one_in(8) {
        name_stall(rng, &mut c);
    }
    c
}

/// Stall in the mask or in a counted term.
fn name_stall(rng: &mut Rng, c: &mut Calibration) {
    match rng.below(c.n_terms as usize + 1) {
        0 => c.mask |= 1 << STALL,
        counted => c.terms[counted - 1] |= 1 << STALL,
    }
}

pub fn calibration_parts(c: &mut Calibration) -> Vec<Part<'_>> {
    let mut parts = vec![
        Part::Table(&mut c.center, 0.0),
        Part::Table(&mut c.scale, 1.0),
        Part::Num(&mut c.tau),
        Part::Bits(&mut c.mask),
        Part::U8(&mut c.n_terms),
    ];
    parts.extend(c.terms.iter_mut().map(Part::Bits));
    parts
}

/// Scores as a caller may have them: any of the twelve features valid, Stall too.
pub fn scores(rng: &mut Rng, field: Field) -> Scores {
    let s = if rng.one_in(4) { f64::NEG_INFINITY } else { field.number(rng) };
    let valid = if rng.one_in(2) { 0xfff } else { rng.below(1 << NFEAT) as u32 };
    Scores { f: field.array(rng), z: field.array(rng), s, valid, fired: rng.below(1 << NFEAT) as u32 }
}

pub fn scores_parts(s: &mut Scores) -> Vec<Part<'_>> {
    vec![
        Part::Table(&mut s.f, 0.0),
        Part::Table(&mut s.z, 0.0),
        Part::Num(&mut s.s),
        Part::Bits(&mut s.valid),
        Part::Bits(&mut s.fired),
    ]
}

pub fn held(rng: &mut Rng, field: Field) -> [f64; HELD] {
    field.array(rng)
}

fn brake(rng: &mut Rng) -> BrakeModel {
    let gains = Field(1.0);
    let (substeps, commit, brake_steps) = match rng.below(300) {
        0 => (64, rng.within(60, 64), rng.below(3)),
        1 => (1, rng.within(0, 64), rng.within(4030, 4097)),
        2 => (rng.within(1, 64), rng.within(0, 64), rng.within(0, 40)),
        _ => (rng.within(1, 4), rng.within(0, 5), rng.below(4)),
    };
    BrakeModel {
        kind: if rng.one_in(2) { BRAKES[0] } else { rng.pick(&BRAKES) },
        k_p: if rng.one_in(8) { 0.0 } else { gains.above(rng) },
        k_v: gains.above(rng),
        dt: rng.pick(&[0.01, 0.1, 0.25, 0.5, 1.0]),
        substeps: substeps as u16,
        commit: commit as u16,
        brake_steps: brake_steps as u16,
        react: rng.below(4) as u16,
    }
}

/// One zone or none, as the Rust has them.
fn contact(rng: &mut Rng, field: Field, aux_count: usize) -> Zones {
    if aux_count < 2 || rng.one_in(3) {
        return Zones::NONE;
    }
    let a0 = rng.below(aux_count);
    let a1 = (a0 + rng.within(1, aux_count - 1)) % aux_count;
    let radius = if rng.one_in(8) { 0.0 } else { 2.0 * field.above(rng) };
    Zones::of(&[ContactLimit { radius, v_max: field.above(rng), a0: a0 as u8, a1: a1 as u8 }])
}

/// The box over pos_dim and the norm over dim; with room the box holds most of the field's numbers.
fn fill_axes(rng: &mut Rng, field: Field, cfg: &mut FuseConfig, room: f64) {
    for i in 0..cfg.pos_dim {
        let at = if room > 1.0 { -9.0 * field.0 } else { field.number(rng) };
        cfg.box_lo[i] = at - cfg.margin;
        cfg.box_hi[i] = if rng.one_in(12) { at + cfg.margin } else { at + cfg.margin + room * field.above(rng) };
    }
    for i in 0..cfg.dim {
        cfg.norm_center[i] = field.number(rng);
        cfg.norm_scale[i] = if rng.one_in(2) { 1.0 } else { field.above(rng) };
    }
}

/// A configuration that is accepted, unless the field's size is too much for a derived number. Of two, one has limits
/// that the field's numbers seldom exceed. It has the box, the old choice, no more than one zone and the gripper's old mode, which is what the
/// Rust has.
pub fn config(rng: &mut Rng, field: Field) -> FuseConfig {
    let room = if rng.one_in(2) { 32.0 } else { 1.0 };
    let dim = rng.within(1, MAX_D);
    let pos_dim = if rng.one_in(3) { rng.within(1, MAX_D) } else { dim };
    let aux_count = rng.below(6);
    let margin = if rng.one_in(2) { 0.0 } else { field.above(rng) / 16.0 };
    let mut cfg = FuseConfig {
        dim,
        pos_dim,
        kind: rng.pick(&KINDS),
        dt: rng.pick(&[0.1, 0.25, 0.5, 1.0, 1.0, 2.0, 0.03]),
        v_max: 2.0 * room * field.above(rng),
        a_max: 4.0 * room * field.above(rng),
        j_max: 8.0 * room * field.above(rng),
        reach_max: 2.0 * room * field.above(rng),
        margin,
        box_lo: [f64::NAN; 8],
        box_hi: [f64::NEG_INFINITY; 8],
        shape: Shape::BOX,
        norm_center: [f64::NAN; 8],
        norm_scale: [-1.0; 8],
        zones: contact(rng, field, aux_count),
        absent_camera: AbsentCamera::NoZone,
        gripper: Gripper::ToZero,
        brake: brake(rng),
        clamp: if rng.one_in(4) { ClampMode::Off } else { ClampMode::Project },
        armed: if rng.one_in(3) { 63 } else { rng.below(128) as u32 },
        aux_count,
        calibrated: rng.one_in(8),
        cal: Calibration { tau: f64::INFINITY, mask: u32::MAX, ..Calibration::DISARMED },
        horizon_ticks: 0,
    };
    fill_axes(rng, field, &mut cfg, room);
    if cfg.calibrated {
        cfg.cal = calibration(rng, Field(1.0));
        cfg.horizon_ticks = rng.within(1, 300) as u32;
    }
    cfg
}

/// All parts but the choice for an absent camera, the shape and the gripper's mode: one part more would change the inputs that the kept sample
/// was made of.
pub fn config_parts(c: &mut FuseConfig) -> Vec<Part<'_>> {
    config_parts_but(c, |part| matches!(part, Part::Absent(_) | Part::Shape(_) | Part::Gripper(_)))
}

/// The same with the choice, which stands last.
pub fn config_parts_with_choice(c: &mut FuseConfig) -> Vec<Part<'_>> {
    config_parts_but(c, |part| matches!(part, Part::Shape(_) | Part::Gripper(_)))
}

/// The same with the shape, which stands last.
pub fn config_parts_with_shape(c: &mut FuseConfig) -> Vec<Part<'_>> {
    config_parts_but(c, |part| matches!(part, Part::Absent(_) | Part::Gripper(_)))
}

/// The same with the shape and the gripper's mode, which stand last.
pub fn config_parts_with_gripper(c: &mut FuseConfig) -> Vec<Part<'_>> {
    config_parts_but(c, |part| matches!(part, Part::Absent(_)))
}

/// All parts but those that are left out.
fn config_parts_but(c: &mut FuseConfig, left_out: fn(&Part<'_>) -> bool) -> Vec<Part<'_>> {
    let mut parts = all_config_parts(c);
    parts.retain(|part| !left_out(part));
    parts
}

/// All parts; the choice, the shape and the gripper's mode last.
fn all_config_parts(c: &mut FuseConfig) -> Vec<Part<'_>> {
    let mut parts = vec![
        Part::Usize(&mut c.dim),
        Part::Usize(&mut c.pos_dim),
        Part::Kind(&mut c.kind),
        Part::Num(&mut c.dt),
        Part::Num(&mut c.v_max),
        Part::Num(&mut c.a_max),
        Part::Num(&mut c.j_max),
        Part::Num(&mut c.reach_max),
        Part::Num(&mut c.margin),
        Part::Table(&mut c.box_lo, 0.0),
        Part::Table(&mut c.box_hi, 0.0),
        Part::Table(&mut c.norm_center, 0.0),
        Part::Table(&mut c.norm_scale, 1.0),
        Part::Contact(&mut c.zones),
        Part::Brake(&mut c.brake.kind),
        Part::Num(&mut c.brake.k_p),
        Part::Num(&mut c.brake.k_v),
        Part::Num(&mut c.brake.dt),
        Part::U16(&mut c.brake.substeps),
        Part::U16(&mut c.brake.commit),
        Part::U16(&mut c.brake.brake_steps),
        Part::U16(&mut c.brake.react),
        Part::Clamp(&mut c.clamp),
        Part::Bits(&mut c.armed),
        Part::Usize(&mut c.aux_count),
        Part::Flag(&mut c.calibrated),
        Part::U32(&mut c.horizon_ticks),
    ];
    parts.extend(calibration_parts(&mut c.cal));
    parts.push(Part::Absent(&mut c.absent_camera));
    parts.push(Part::Shape(&mut c.shape));
    parts.push(Part::Gripper(&mut c.gripper));
    parts
}

/// All parts but the shape and the gripper's mode, with each of several zones in the place of the one.
pub fn config_parts_with_zones(c: &mut FuseConfig) -> Vec<Part<'_>> {
    let several = |part| match part {
        Part::Contact(zones) => Part::Zones(zones),
        other => other,
    };
    config_parts_with_choice(c).into_iter().map(several).collect()
}

/// One coordinate of some points laid about its walls: on one or a step to either side, or about a wall at a zero.
pub fn lay_walls(rng: &mut Rng, cfg: &mut FuseConfig, c: usize, points: Vec<&mut f64>) {
    let by_zero = rng.one_in(2);
    cfg.margin = 0.0;
    if by_zero {
        let zero = rng.pick(&[0.0, -0.0]);
        (cfg.box_lo[c], cfg.box_hi[c]) = rng.pick(&[(zero, 1.0), (-1.0, zero), (zero, -zero)]);
        // a low wall is a -0.0 where the margin is one too
        cfg.margin = rng.pick(&[0.0, -0.0]);
    }
    for x in points {
        let wall = rng.pick(&[cfg.box_lo[c], cfg.box_hi[c]]);
        *x = if by_zero { rng.pick(&[0.0, -0.0, 5e-324, -5e-324]) } else { at_limit(rng, wall) };
    }
}

/// Numbers that may stand where nothing reads them.
const ANYTHING: [f64; 8] = [f64::NAN, f64::INFINITY, f64::NEG_INFINITY, -1.0, 0.0, 0.5, f64::MAX, 1e200];

/// A round table, mostly armed, with anything in the first two walls; of eight workspaces one is a box with anything in its centre and
/// radius. Of sixteen tables one is so large or so small that numbers near 1 are lost beside it.
pub fn lay_table(rng: &mut Rng, field: Field, cfg: &mut FuseConfig) {
    if rng.one_in(8) {
        cfg.shape =
            Shape { disc: false, center: [rng.pick(&ANYTHING), rng.pick(&ANYTHING)], radius: rng.pick(&ANYTHING) };
        return;
    }
    let center = if rng.one_in(3) { [0.0; 2] } else { [field.number(rng), field.number(rng)] };
    let radius = match rng.below(16) {
        0 => rng.pick(&[5e-324, 1e-200, 1e200, f64::MAX]),
        1..=6 => 8.0 * field.above(rng),
        _ => field.above(rng),
    };
    cfg.shape = Shape::disc(center, radius);
    if !rng.one_in(3) {
        for wall in cfg.box_lo[..2].iter_mut().chain(&mut cfg.box_hi[..2]) {
            *wall = rng.pick(&ANYTHING);
        }
    }
    if !rng.one_in(8) {
        cfg.armed |= WORKSPACE;
    }
}

/// The first two coordinates of a point at the centre, on the edge of the table or a step of the format to either side, a little or far
/// beyond it, or so far out that the distance is not finite; of four points one stays where it was, and so does each of a box.
pub fn lay_on_table(rng: &mut Rng, shape: &Shape, point: &mut [f64]) {
    let (true, [x, y, ..]) = (shape.disc, point) else { return };
    let ([cx, cy], r) = (shape.center, shape.radius);
    let (along, across) = rng.pick(&[(1.0, 0.0), (-1.0, 0.0), (0.0, 1.0), (0.0, -1.0), (0.6, 0.8), (-0.8, 0.6)]);
    let at = match rng.below(16) {
        0 | 1 => [cx, cy],
        2..=6 => [at_limit(rng, cx + along * r), at_limit(rng, cy + across * r)],
        7 | 8 => [cx + along * r, cy + across * r].map(|x| x + x / 64.0),
        9 | 10 => [cx + 8.0 * along * r, cy + 8.0 * across * r],
        11 => [rng.pick(&[1e200, -1e200, 1e150, f64::MAX]), cy],
        _ => [*x, *y],
    };
    (*x, *y) = (at[0], at[1]);
}

/// Points about as far out as a distance can be, all the same way: the steps between them are finite, and of some the distance from the centre
/// is not.
pub fn lay_far_out<'a>(rng: &mut Rng, points: impl IntoIterator<Item = &'a mut [f64]>) {
    let (along, way) = (rng.below(2), rng.pick(&[1.0, -1.0]));
    for point in points {
        if let Some(x) = point.get_mut(along) {
            *x = way * rng.pick(&[1e154, 1.3e154, 1.34e154, 1.35e154, 2e154]);
        }
    }
}

/// The radius laid on the distance of a point, so that it is on the edge or a step of the format to either side.
pub fn lay_edge(rng: &mut Rng, shape: &mut Shape, point: &[f64]) {
    if let (true, [x, y, ..]) = (shape.disc, point) {
        let radius = at_limit(rng, oracle::rust::fmath::dist(&[*x, *y], &shape.center, 2));
        if radius > 0.0 && radius.is_finite() {
            shape.radius = radius;
        }
    }
}

/// Of four grippers three are in the new mode, and of three rows two are made wider than the position where there is an axis for that.
pub fn lay_gripper(rng: &mut Rng, cfg: &mut FuseConfig) {
    if !rng.one_in(4) {
        cfg.gripper = Gripper::LastCommand;
    }
    let least = if cfg.shape.disc { 2 } else { 1 };
    let most = cfg.pos_dim.min(cfg.dim - 1);
    if most >= least && !rng.one_in(3) {
        cfg.pos_dim = rng.within(least, most);
    }
}

/// A last command of dim numbers, a few more or fewer, with zeros of either sign, and seldom one that is not finite; in the Rust's mode of any
/// length, and with one that is not finite in every second.
pub fn last_command(rng: &mut Rng, field: Field, cfg: &FuseConfig) -> Vec<f64> {
    let length = match (cfg.gripper, rng.below(8)) {
        (Gripper::LastCommand, 2..) => cfg.dim + rng.pick(&[0, 0, 0, 1, 2]),
        (Gripper::LastCommand, 1) => cfg.dim - 1,
        _ => rng.below(cfg.dim + 3),
    };
    let mut last = field.numbers(rng, length);
    let seldom = if cfg.gripper == Gripper::ToZero { 2 } else { 8 };
    if length > 0 && rng.one_in(seldom) {
        let at = rng.below(length);
        last[at] = rng.pick(&[f64::NAN, f64::INFINITY, f64::NEG_INFINITY]);
    }
    last
}

/// The configuration with dim and pos_dim at most those of one axis less.
pub fn narrower_config(c: &FuseConfig) -> FuseConfig {
    let dim = c.dim.saturating_sub(1).max(1);
    FuseConfig { dim, pos_dim: c.pos_dim.min(dim), ..*c }
}

/// A tick's time bin, seldom past the last.
pub fn bin(rng: &mut Rng) -> usize {
    if rng.one_in(8) {
        rng.pick(&[16, 17, 255, u32::MAX as usize, usize::MAX])
    } else {
        rng.below(BINS)
    }
}

/// A slice of at least n numbers.
pub fn at_least(rng: &mut Rng, field: Field, n: usize) -> Vec<f64> {
    let more = rng.pick(&[0, 0, 0, 1, 2]);
    field.numbers(rng, n + more)
}

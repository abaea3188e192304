//! The parts of an input: one of them is broken to damage a good input, and they are made simpler one by one when a
//! failure is shown.

use model::{AbsentCamera, ActionKind, BrakeKind, ClampMode, ContactLimit, Gripper, Shape, Zones, MAX_ZONES};

use crate::{input::ChunkIn, number::broken, rng::Rng};

pub enum Part<'a> {
    Num(&'a mut f64),
    /// An array, with the number that its entries usually are.
    Table(&'a mut [f64], f64),
    Slice(&'a mut Vec<f64>),
    U8(&'a mut u8),
    U16(&'a mut u16),
    U32(&'a mut u32),
    U64(&'a mut u64),
    Usize(&'a mut usize),
    Bits(&'a mut u32),
    Flag(&'a mut bool),
    Kind(&'a mut ActionKind),
    Brake(&'a mut BrakeKind),
    Clamp(&'a mut ClampMode),
    /// One zone or none.
    Contact(&'a mut Zones),
    /// Any count of zones, and what stands past it.
    Zones(&'a mut Zones),
    Absent(&'a mut AbsentCamera),
    Shape(&'a mut Shape),
    Gripper(&'a mut Gripper),
    Chunk(&'a mut ChunkIn),
}

/// Counts at which something changes.
const EDGES: [u64; 24] =
    [0, 1, 2, 7, 8, 9, 11, 12, 15, 16, 19, 20, 31, 32, 33, 63, 64, 65, 255, 4095, 4096, 4097, 65535, u64::MAX];

fn edge(rng: &mut Rng, n: u64) -> u64 {
    match rng.below(3) {
        0 => n.wrapping_add(1),
        1 => n.wrapping_sub(1),
        _ => rng.pick(&EDGES),
    }
}

impl Part<'_> {
    /// Breaks this part.
    pub fn damage(&mut self, rng: &mut Rng) {
        match self {
            Part::Num(x) => **x = broken(rng, **x),
            Part::Table(v, _) => damage_one(rng, v),
            Part::Slice(v) => damage_slice(rng, v),
            Part::U8(n) => **n = edge(rng, **n as u64) as u8,
            Part::U16(n) => **n = edge(rng, **n as u64) as u16,
            Part::U32(n) => **n = edge(rng, **n as u64) as u32,
            Part::U64(n) => **n = edge(rng, **n),
            Part::Usize(n) => **n = edge(rng, **n as u64) as usize,
            Part::Bits(b) => **b ^= 1 << rng.below(32),
            Part::Flag(f) => **f = !**f,
            Part::Kind(k) => **k = rng.pick(&KINDS),
            Part::Brake(k) => **k = rng.pick(&BRAKES),
            Part::Clamp(m) => **m = rng.pick(&[ClampMode::Off, ClampMode::Project]),
            Part::Contact(z) => damage_contact(rng, z),
            Part::Zones(z) => damage_zones(rng, z),
            Part::Absent(choice) => **choice = rng.pick(&CHOICES),
            Part::Shape(shape) => damage_shape(rng, shape),
            Part::Gripper(mode) => **mode = rng.pick(&GRIPPERS),
            Part::Chunk(c) => damage_chunk(rng, c),
        }
    }

    /// Makes this part simpler in the given way; `None` when there is no such way, false when it changes nothing.
    pub fn simplify(&mut self, way: usize) -> Option<bool> {
        match self {
            Part::Num(x) => simpler_number(x, 0.0, way),
            Part::Table(v, usual) => simpler_table(v, *usual, way),
            Part::Slice(v) => simpler_slice(v, way),
            Part::U8(n) => simpler_count(**n as u64, way, |m| **n = m as u8),
            Part::U16(n) => simpler_count(**n as u64, way, |m| **n = m as u16),
            Part::U32(n) | Part::Bits(n) => simpler_count(**n as u64, way, |m| **n = m as u32),
            Part::U64(n) => simpler_count(**n, way, |m| **n = m),
            Part::Usize(n) => simpler_count(**n as u64, way, |m| **n = m as usize),
            Part::Flag(f) => once(way, *f, false),
            Part::Kind(k) => once(way, *k, ActionKind::EePosition),
            Part::Brake(k) => once(way, *k, BrakeKind::PdSecondOrder),
            Part::Clamp(m) => once(way, *m, ClampMode::Off),
            Part::Contact(z) => simpler_contact(z, way),
            Part::Zones(z) => simpler_zones(z, way),
            Part::Absent(choice) => once(way, *choice, AbsentCamera::Slow),
            Part::Shape(shape) => simpler_shape(shape, way),
            Part::Gripper(mode) => once(way, *mode, Gripper::ToZero),
            Part::Chunk(c) => simpler_chunk(c, way),
        }
    }
}

pub const KINDS: [ActionKind; 5] = [
    ActionKind::EePosition,
    ActionKind::EeDelta,
    ActionKind::JointPosition,
    ActionKind::JointVelocity,
    ActionKind::Other,
];

pub const BRAKES: [BrakeKind; 5] = [
    BrakeKind::PdSecondOrder,
    BrakeKind::FirstOrderDecay,
    BrakeKind::BoundedAccel,
    BrakeKind::JerkLimited,
    BrakeKind::ZeroVelocityHold,
];

pub const CHOICES: [AbsentCamera; 2] = [AbsentCamera::Slow, AbsentCamera::NoZone];

pub const GRIPPERS: [Gripper; 2] = [Gripper::ToZero, Gripper::LastCommand];

fn damage_one(rng: &mut Rng, v: &mut [f64]) {
    if !v.is_empty() {
        let i = rng.below(v.len());
        v[i] = broken(rng, v[i]);
    }
}

fn damage_slice(rng: &mut Rng, v: &mut Vec<f64>) {
    match rng.below(8) {
        0 => drop(v.pop()),
        1 => v.push(1.0),
        2 => v.push(broken(rng, 1.0)),
        3 => v.truncate(rng.below(v.len() + 1)),
        4 => v.extend([0.0; 9]),
        _ => damage_one(rng, v),
    }
}

fn damage_contact(rng: &mut Rng, z: &mut Zones) {
    if z.count == 0 {
        *z = Zones::of(&[ContactLimit { radius: 1.0, v_max: 1.0, a0: 0, a1: 1 }]);
        return;
    }
    match rng.below(5) {
        4 => *z = Zones::NONE,
        field => damage_zone(rng, &mut z.list[0], field),
    }
}

fn damage_zone(rng: &mut Rng, zone: &mut ContactLimit, field: usize) {
    match field {
        0 => zone.radius = broken(rng, zone.radius),
        1 => zone.v_max = broken(rng, zone.v_max),
        2 => zone.a0 = edge(rng, zone.a0 as u64) as u8,
        _ => zone.a1 = edge(rng, zone.a1 as u64) as u8,
    }
}

/// The count moved, a pair made another's in either order, or a field of any zone broken, counted or not.
fn damage_zones(rng: &mut Rng, z: &mut Zones) {
    let (one, other) = (rng.below(MAX_ZONES), rng.below(MAX_ZONES));
    match rng.below(8) {
        0 | 1 => z.count = rng.pick(&[z.count + 1, z.count.saturating_sub(1), 0, 4, 5, 6]),
        2 => (z.list[one].a0, z.list[one].a1) = (z.list[other].a0, z.list[other].a1),
        3 => (z.list[one].a0, z.list[one].a1) = (z.list[other].a1, z.list[other].a0),
        field => damage_zone(rng, &mut z.list[one], field - 4),
    }
}

fn damage_shape(rng: &mut Rng, shape: &mut Shape) {
    match rng.below(6) {
        0 => shape.disc = !shape.disc,
        1 => shape.center[0] = broken(rng, shape.center[0]),
        2 => shape.center[1] = broken(rng, shape.center[1]),
        _ => shape.radius = broken(rng, shape.radius),
    }
}

fn damage_chunk(rng: &mut Rng, c: &mut ChunkIn) {
    match rng.below(6) {
        0 => c.horizon = edge(rng, c.horizon as u64) as u16,
        1 => c.dim = edge(rng, c.dim as u64) as u16,
        2 => c.exec_steps = edge(rng, c.exec_steps as u64) as u16,
        3 => c.t_emit = edge(rng, c.t_emit as u64) as u32,
        _ => damage_slice(rng, &mut c.data),
    }
}

fn once<T: PartialEq>(way: usize, x: &mut T, simple: T) -> Option<bool> {
    if way > 0 {
        return None;
    }
    let changed = *x != simple;
    *x = simple;
    Some(changed)
}

/// How far a number is from a plain one. A change is kept only when this falls, so that shrinking ends.
fn rank(x: f64, usual: f64) -> u32 {
    if x.to_bits() == usual.to_bits() {
        0
    } else if x.to_bits() == 0 {
        1
    } else if x == 1.0 {
        2
    } else if x.trunc() == x && x.abs() < 100.0 {
        3 + x.abs() as u32
    } else if x.is_finite() {
        1000
    } else {
        2000
    }
}

fn simpler_number(x: &mut f64, usual: f64, way: usize) -> Option<bool> {
    let candidate = *[usual, 0.0, 1.0, 2.0, x.trunc(), x.trunc() - 1.0, 3.0].get(way)?;
    if rank(candidate, usual) >= rank(*x, usual) {
        return Some(false);
    }
    *x = candidate;
    Some(true)
}

const WAYS: usize = 7;

fn simpler_entries(v: &mut [f64], usual: f64, way: usize) -> Option<bool> {
    simpler_number(v.get_mut(way / WAYS)?, usual, way % WAYS)
}

fn simpler_table(v: &mut [f64], usual: f64, way: usize) -> Option<bool> {
    if way > 0 {
        return simpler_entries(v, usual, way - 1);
    }
    let changed = v.iter().any(|x| rank(*x, usual) > 0);
    v.fill(usual);
    Some(changed)
}

fn simpler_slice(v: &mut Vec<f64>, way: usize) -> Option<bool> {
    let n = v.len();
    match way {
        0 => v.clear(),
        1 => v.truncate(n / 2),
        2 => drop(v.pop()),
        3 => return simpler_table(v, 0.0, 0),
        _ => return simpler_entries(v, 0.0, way - 4),
    }
    Some(v.len() < n)
}

fn simpler_count(n: u64, way: usize, mut set: impl FnMut(u64)) -> Option<bool> {
    let candidate = *[0, 1, 2, n / 2, n.saturating_sub(1)].get(way)?;
    if candidate >= n {
        return Some(false);
    }
    set(candidate);
    Some(true)
}

fn simpler_contact(z: &mut Zones, way: usize) -> Option<bool> {
    let plain = ContactLimit { radius: 1.0, v_max: 1.0, a0: 0, a1: 1 };
    let zone = z.counted_mut().first_mut()?;
    match way {
        0 => {
            *z = Zones::NONE;
            Some(true)
        }
        1 => once(0, &mut zone.radius, plain.radius),
        2 => once(0, &mut zone.v_max, plain.v_max),
        3 => once(0, &mut zone.a0, plain.a0),
        4 => once(0, &mut zone.a1, plain.a1),
        _ => None,
    }
}

/// Four pairs on few channels.
const PAIRS: [(u8, u8); MAX_ZONES] = [(0, 1), (1, 0), (0, 2), (2, 0)];

/// No zone; one zone less, each in turn; nothing past the count; and then the zones one by one, field by field.
fn simpler_zones(z: &mut Zones, way: usize) -> Option<bool> {
    const PAST: usize = MAX_ZONES + 1;
    const FIELDS: usize = 2 * WAYS + 2;
    let (held, before) = (z.counted().len(), *z);
    match way {
        0 => *z = Zones::NONE,
        1..=MAX_ZONES => {
            if way <= held {
                z.list[way - 1..].rotate_left(1);
                (z.count, z.list[MAX_ZONES - 1]) = (z.count - 1, ContactLimit::UNUSED);
            }
        }
        PAST => z.list[held..].fill(ContactLimit::UNUSED),
        _ => {
            let (k, field) = ((way - PAST - 1) / FIELDS, (way - PAST - 1) % FIELDS);
            let zone = z.list.get_mut(k)?;
            return match field {
                _ if k >= held => Some(false),
                field if field < WAYS => simpler_number(&mut zone.radius, 1.0, field),
                field if field < 2 * WAYS => simpler_number(&mut zone.v_max, 1.0, field - WAYS),
                field if field == 2 * WAYS => once(0, &mut zone.a0, PAIRS[k].0),
                _ => once(0, &mut zone.a1, PAIRS[k].1),
            };
        }
    }
    Some(z.count < before.count || way == PAST && format!("{z:?}") != format!("{before:?}"))
}

/// The box; what the box does not read; and then centre and radius, number by number. The usual radius of a box is that of `BOX`, so that
/// shrinking ends.
fn simpler_shape(shape: &mut Shape, way: usize) -> Option<bool> {
    match way {
        0 => once(0, &mut shape.disc, false),
        1 if shape.disc => Some(false),
        1 => {
            let changed = format!("{shape:?}") != format!("{:?}", Shape::BOX);
            *shape = Shape::BOX;
            Some(changed)
        }
        _ => match (way - 2) / WAYS {
            0 => simpler_number(&mut shape.radius, if shape.disc { 1.0 } else { Shape::BOX.radius }, (way - 2) % WAYS),
            1 => simpler_number(&mut shape.center[0], 0.0, (way - 2) % WAYS),
            2 => simpler_number(&mut shape.center[1], 0.0, (way - 2) % WAYS),
            _ => None,
        },
    }
}

fn simpler_chunk(c: &mut ChunkIn, way: usize) -> Option<bool> {
    match way {
        0 => Some(c.keep_rows(0, c.horizon / 2)),
        1 => Some(c.keep_rows(0, c.horizon.saturating_sub(1))),
        2 => Some(c.keep_rows(1, c.horizon)),
        3 => once(0, &mut c.seq, 0),
        4 => once(0, &mut c.t_emit, 0),
        5 => once(0, &mut c.exec_steps, 0),
        _ => simpler_slice(&mut c.data, way - 6),
    }
}

//! Refusals 1 to 4, 15 and 17 of the configuration at the edge of each condition. The numbers stand here as the scope document's
//! table and requests a, f and h give them, written by hand; the model and the linked entries are both held to them.

use std::fmt::Debug;

use model::{
    brake, conformal, envelope, tier0, tier1, AbsentCamera, ChunkView, ContactLimit, FuseConfig, Gripper, Refusal,
    Scores, Shape, Tier1Rt, Zones, CONTACT, MAX_SUBSTEPS, MAX_ZONES, WORKSPACE,
};

use crate::{
    part::{CHOICES, GRIPPERS, KINDS},
    port::Port,
};

/// A condition in the documents' words, the field, and the number due for each of the field's values.
#[derive(Clone)]
struct Condition {
    words: &'static str,
    field: &'static str,
    cases: Vec<Case>,
}

#[derive(Clone)]
struct Case {
    value: String,
    cfg: FuseConfig,
    due: u8,
}

fn zone(c: &mut FuseConfig) -> &mut ContactLimit {
    c.zones.counted_mut().first_mut().expect("a zone is configured")
}

/// Four zones, each on two channels of its own, of eight; so many of them are counted.
fn four(c: &mut FuseConfig, count: usize) -> &mut [ContactLimit; MAX_ZONES] {
    let zone = |(a0, a1)| ContactLimit { radius: 1.0, v_max: 1.0, a0, a1 };
    (c.zones, c.aux_count) = (Zones::of(&[(0, 1), (2, 3), (4, 5), (6, 7)].map(zone)), 8);
    c.zones.count = count;
    &mut c.zones.list
}

/// The condition with each value set in the accepted configuration.
fn at<T: Copy + Debug>(
    words: &'static str,
    field: &'static str,
    set: impl Fn(&mut FuseConfig, T),
    values: &[(T, u8)],
) -> Condition {
    let case = |&(value, due): &(T, u8)| {
        let mut cfg = FuseConfig::WHOLE;
        set(&mut cfg, value);
        Case { value: format!("{value:?}"), cfg, due }
    };
    Condition { words, field, cases: values.iter().map(case).collect() }
}

/// The same values for several numbers.
fn each(words: &'static str, fields: &[(&'static str, Number)], values: &[(f64, u8)]) -> Vec<Condition> {
    fields.iter().map(|(field, number)| at(words, field, |c, x| *number(c) = x, values)).collect()
}

type Number = fn(&mut FuseConfig) -> &mut f64;

const NAN: f64 = f64::NAN;
const OTHER_NAN: f64 = f64::from_bits(0xfff0_0000_0000_0001);
const INF: f64 = f64::INFINITY;
const MAX: f64 = f64::MAX;
/// Next to the greatest number.
const NEARLY_MAX: f64 = f64::from_bits(0x7fef_ffff_ffff_fffe);
/// The number next to 0.
const TINY: f64 = f64::from_bits(1);
/// The neighbours of 1.
const UNDER_1: f64 = f64::from_bits(0x3fef_ffff_ffff_ffff);
const OVER_1: f64 = f64::from_bits(0x3ff0_0000_0000_0001);
/// 2^970 and its neighbours: half a step of the greatest number.
const HALF_STEP: [f64; 3] = [
    f64::from_bits(0x7c8f_ffff_ffff_ffff),
    f64::from_bits(0x7c90_0000_0000_0000),
    f64::from_bits(0x7c90_0000_0000_0001),
];
/// 2^-1024 and its neighbours: the greatest number whose inverse is infinite.
const NO_INVERSE: [f64; 3] = [
    f64::from_bits(0x0003_ffff_ffff_ffff),
    f64::from_bits(0x0004_0000_0000_0000),
    f64::from_bits(0x0004_0000_0000_0001),
];
/// 2^-512 and its neighbours: the greatest number whose inverse has an infinite square.
const NO_SQUARE: [f64; 3] = [
    f64::from_bits(0x1fef_ffff_ffff_ffff),
    f64::from_bits(0x1ff0_0000_0000_0000),
    f64::from_bits(0x1ff0_0000_0000_0001),
];
/// The greatest number whose inverse has an infinite cube, about 1.77e-103, and its neighbours.
const NO_CUBE: [f64; 3] = [
    f64::from_bits(0x2a99_65fe_a53d_6e3b),
    f64::from_bits(0x2a99_65fe_a53d_6e3c),
    f64::from_bits(0x2a99_65fe_a53d_6e3d),
];

fn sizes() -> Vec<Condition> {
    const DIMS: &[(usize, u8)] =
        &[(0, 1), (1, 0), (2, 0), (7, 0), (8, 0), (9, 1), (0x101, 1), (0x1_0000_0001, 1), (usize::MAX, 1)];
    const BITS: &[(u32, u8)] =
        &[(0, 0), (1 << 10, 0), (1 << 11, 0), (1 << 12, 1), (0xf7f, 0), (0x1f7f, 1), (1 << 31, 1), (u32::MAX, 1)];
    vec![
        at("dim is out of size", "dim", |c, n| c.dim = n, DIMS),
        at("pos_dim is out of size", "pos_dim", |c, n| c.pos_dim = n, DIMS),
        at(
            "zone count (over 4)",
            "zone count",
            |c, n| _ = four(c, n),
            &[(0, 0), (1, 0), (2, 0), (3, 0), (4, 0), (5, 1), (6, 1), (255, 1), (256, 1), (257, 1), (260, 1)],
        ),
        at(
            "zone count (over 4)",
            "(zone count, armed)",
            |c, (n, armed)| (c.armed = armed, four(c, n)).0,
            &[((4, 0), 0), ((4, CONTACT), 0), ((5, 0), 1), ((5, CONTACT), 1)],
        ),
        at("term count (over 8)", "n_terms", |c, n| c.cal.n_terms = n, &[(0, 0), (7, 0), (8, 0), (9, 1), (255, 1)]),
        at("a bit above 11 in a counted term", "terms[0]", |c, b| c.cal.terms[0] = b, BITS),
        at("a bit above 11 in a counted term", "terms[7]", |c, b| c.cal.terms[7] = b, BITS),
        at("a bit above 11 in the calibration mask", "mask", |c, b| c.cal.mask = b, BITS),
        at(
            "a bit above 11 in a counted term",
            "n_terms with bit 12 in terms[0]",
            |c, n| (c.cal.n_terms, c.cal.terms[0]) = (n, 1 << 12),
            &[(0, 0), (1, 1), (2, 1)],
        ),
        at(
            "a bit above 11 in a counted term",
            "n_terms with bit 12 in terms[7]",
            |c, n| (c.cal.n_terms, c.cal.terms[7]) = (n, 1 << 12),
            &[(6, 0), (7, 0), (8, 1), (9, 1)],
        ),
    ]
}

fn above_zero() -> Vec<Condition> {
    const ALONE: [(&str, Number); 9] = [
        ("brake dt", |c| &mut c.brake.dt),
        ("k_v", |c| &mut c.brake.k_v),
        ("v_max", |c| &mut c.v_max),
        ("a_max", |c| &mut c.a_max),
        ("j_max", |c| &mut c.j_max),
        ("reach_max", |c| &mut c.reach_max),
        ("contact v_max", |c| &mut zone(c).v_max),
        ("calibration scale[0]", |c| &mut c.cal.scale[0]),
        ("calibration scale[191]", |c| &mut c.cal.scale[191]),
    ];
    const INVERTED: [(&str, Number); 3] = [
        ("dt", |c| &mut c.dt),
        ("norm_scale[0]", |c| &mut c.norm_scale[0]),
        ("norm_scale[1]", |c| &mut c.norm_scale[1]),
    ];
    const BAD: [(f64, u8); 8] =
        [(NAN, 2), (OTHER_NAN, 2), (INF, 2), (-INF, 2), (-1.0, 2), (-TINY, 2), (-0.0, 2), (0.0, 2)];
    let alone = [&BAD[..], &[(TINY, 0), (1.0, 0), (NEARLY_MAX, 0), (MAX, 0)]].concat();
    // one step above 0 the inverse is infinite
    let inverted = [&BAD[..], &[(TINY, 2), (1.0, 0), (NEARLY_MAX, 0), (MAX, 0)]].concat();
    let words = "isn't finite and above 0";
    [each(words, &ALONE, &alone), each(words, &INVERTED, &inverted)].concat()
}

fn not_below_zero() -> Vec<Condition> {
    const ALONE: [(&str, Number); 2] = [("k_p", |c| &mut c.brake.k_p), ("contact radius", |c| &mut zone(c).radius)];
    const MARGIN: [(&str, Number); 1] = [("margin", |c| &mut c.margin)];
    const NEAR: [(f64, u8); 9] =
        [(NAN, 2), (OTHER_NAN, 2), (INF, 2), (-INF, 2), (-1.0, 2), (-TINY, 2), (-0.0, 0), (0.0, 0), (TINY, 0)];
    let alone = [&NEAR[..], &[(1.0, 0), (NEARLY_MAX, 0), (MAX, 0)]].concat();
    // the box of -1..1 is turned over by a margin above 1
    let margin = [&NEAR[..], &[(1.0, 0), (NEARLY_MAX, 2), (MAX, 2)]].concat();
    let words = "isn't finite or is below 0";
    [each(words, &ALONE, &alone), each(words, &MARGIN, &margin)].concat()
}

fn finite() -> Vec<Condition> {
    const FREE: [(&str, Number); 5] = [
        ("norm_center[0]", |c| &mut c.norm_center[0]),
        ("norm_center[1]", |c| &mut c.norm_center[1]),
        ("calibration center[0]", |c| &mut c.cal.center[0]),
        ("calibration center[191]", |c| &mut c.cal.center[191]),
        ("tau", |c| &mut c.cal.tau),
    ];
    const LO: [(&str, Number); 2] = [("box_lo[0]", |c| &mut c.box_lo[0]), ("box_lo[1]", |c| &mut c.box_lo[1])];
    const HI: [(&str, Number); 2] = [("box_hi[0]", |c| &mut c.box_hi[0]), ("box_hi[1]", |c| &mut c.box_hi[1])];
    const NEAR: [(f64, u8); 8] =
        [(NAN, 2), (OTHER_NAN, 2), (INF, 2), (-INF, 2), (-TINY, 0), (-0.0, 0), (0.0, 0), (TINY, 0)];
    let free = [&NEAR[..], &[(NEARLY_MAX, 0), (MAX, 0), (-NEARLY_MAX, 0), (-MAX, 0)]].concat();
    // the other wall is at 1 or -1
    let lo = [&NEAR[..], &[(NEARLY_MAX, 2), (MAX, 2), (-NEARLY_MAX, 0), (-MAX, 0)]].concat();
    let hi = [&NEAR[..], &[(NEARLY_MAX, 0), (MAX, 0), (-NEARLY_MAX, 2), (-MAX, 2)]].concat();
    let words = "a configuration number isn't finite";
    [each(words, &FREE, &free), each(words, &LO, &lo), each(words, &HI, &hi)].concat()
}

/// Of dt the cube of the inverse is the first to be infinite, so at the edges of the others all is refused.
fn derived() -> Vec<Condition> {
    let of = |[below, on, above]: [f64; 3], due: [u8; 3]| [(below, due[0]), (on, due[1]), (above, due[2])];
    let step = |c: &mut FuseConfig, (v, dt): (f64, f64)| (c.v_max, c.dt) = (v, dt);
    let margin_at = |wall: f64| {
        move |c: &mut FuseConfig, m: f64| {
            (c.box_lo[0], c.box_hi[0]) = (-MAX, MAX);
            (c.box_lo[1], c.box_hi[1], c.margin) = (wall, wall, m);
        }
    };
    let half = MAX / 2.0;
    vec![
        at("a derived number isn't finite", "dt for inv_dt", |c, x| c.dt = x, &of(NO_INVERSE, [2, 2, 2])),
        at("a derived number isn't finite", "dt for inv_dt2", |c, x| c.dt = x, &of(NO_SQUARE, [2, 2, 2])),
        at("a derived number isn't finite", "dt for inv_dt3", |c, x| c.dt = x, &of(NO_CUBE, [2, 2, 0])),
        at(
            "a derived number isn't finite",
            "(v_max, dt) for step_max",
            step,
            &[((MAX, UNDER_1), 0), ((MAX, 1.0), 0), ((MAX, OVER_1), 2), ((UNDER_1, MAX), 0), ((OVER_1, MAX), 2)],
        ),
        at(
            "a derived number isn't finite",
            "(v_max, 2) for step_max",
            step,
            &[((half.next_down(), 2.0), 0), ((half, 2.0), 0), ((half.next_up(), 2.0), 2)],
        ),
        at("a derived step of 0 is finite", "(v_max, dt) for step_max", step, &[((TINY, 0.5), 0), ((TINY, 1.0), 0)]),
        at(
            "the zone's step is no derived number",
            "(contact v_max, dt)",
            |c, (v, dt)| (zone(c).v_max, c.dt) = (v, dt),
            &[((MAX, 1.0), 0), ((MAX, OVER_1), 0), ((MAX, MAX), 0)],
        ),
        at(
            "a derived number isn't finite",
            "norm_scale[0] for its inverse",
            |c, x| c.norm_scale[0] = x,
            &of(NO_INVERSE, [2, 2, 0]),
        ),
        at(
            "a derived number isn't finite",
            "norm_scale[1] for its inverse",
            |c, x| c.norm_scale[1] = x,
            &of(NO_INVERSE, [2, 2, 0]),
        ),
        at("a derived number isn't finite", "margin for box_lo", margin_at(MAX), &of(HALF_STEP, [0, 2, 2])),
        at("a derived number isn't finite", "margin for box_hi", margin_at(-MAX), &of(HALF_STEP, [0, 2, 2])),
    ]
}

fn turned_over() -> Vec<Condition> {
    let words = "a derived box_lo exceeds its box_hi";
    vec![
        at(words, "margin in -1..1", |c, m| c.margin = m, &[(UNDER_1, 0), (1.0, 0), (OVER_1, 2)]),
        at(words, "box_lo[0] below 1", |c, x| c.box_lo[0] = x, &[(UNDER_1, 0), (1.0, 0), (OVER_1, 2)]),
        at(words, "box_lo[1] below 1", |c, x| c.box_lo[1] = x, &[(UNDER_1, 0), (1.0, 0), (OVER_1, 2)]),
        at(words, "box_hi[0] above -1", |c, x| c.box_hi[0] = x, &[(-OVER_1, 2), (-1.0, 0), (-UNDER_1, 0)]),
        at(words, "box_hi[1] above -1", |c, x| c.box_hi[1] = x, &[(-OVER_1, 2), (-1.0, 0), (-UNDER_1, 0)]),
        at(
            words,
            "(box_lo[1], box_hi[1]) at the zeros",
            |c, (lo, hi)| (c.box_lo[1], c.box_hi[1]) = (lo, hi),
            &[((-TINY, -0.0), 0), ((0.0, -0.0), 0), ((-0.0, 0.0), 0), ((TINY, -0.0), 2), ((0.0, -TINY), 2)],
        ),
        at(
            words,
            "(box_lo[7], box_hi[7]) at pos_dim 8",
            |c, (lo, hi)| (c.pos_dim, c.box_lo[7], c.box_hi[7]) = (8, lo, hi),
            &[((UNDER_1, 1.0), 0), ((1.0, 1.0), 0), ((OVER_1, 1.0), 2)],
        ),
    ]
}

/// Entry 2 of each array broken: the box's entries count with pos_dim, the norm's with dim.
fn unread() -> Vec<Condition> {
    const POS_DIMS: &[((usize, usize), u8)] = &[((2, 1), 0), ((2, 2), 0), ((2, 3), 2), ((3, 2), 0), ((8, 2), 0)];
    const DIMS: &[((usize, usize), u8)] = &[((1, 2), 0), ((2, 2), 0), ((3, 2), 2), ((2, 3), 0), ((2, 8), 0)];
    const PAST: [(&str, Number); 8] = [
        ("box_lo[2]", |c| &mut c.box_lo[2]),
        ("box_lo[7]", |c| &mut c.box_lo[7]),
        ("box_hi[2]", |c| &mut c.box_hi[2]),
        ("box_hi[7]", |c| &mut c.box_hi[7]),
        ("norm_center[2]", |c| &mut c.norm_center[2]),
        ("norm_center[7]", |c| &mut c.norm_center[7]),
        ("norm_scale[2]", |c| &mut c.norm_scale[2]),
        ("norm_scale[7]", |c| &mut c.norm_scale[7]),
    ];
    const ANY: [(f64, u8); 9] =
        [(NAN, 0), (OTHER_NAN, 0), (INF, 0), (-INF, 0), (0.0, 0), (-1.0, 0), (TINY, 0), (MAX, 0), (-MAX, 0)];
    let words = "entries past these counts are unread";
    let dims = |c: &mut FuseConfig, (dim, pos_dim): (usize, usize)| (c.dim, c.pos_dim) = (dim, pos_dim);
    let with = |field: &'static str, number: Number, x: f64, counts: &[((usize, usize), u8)]| {
        at(words, field, |c, n| (dims(c, n), *number(c) = x).0, counts)
    };
    let mut all = each(words, &PAST, &ANY);
    all.extend([
        with("(dim, pos_dim) with a NaN in box_lo[2]", |c| &mut c.box_lo[2], NAN, POS_DIMS),
        with("(dim, pos_dim) with a NaN in box_hi[2]", |c| &mut c.box_hi[2], NAN, POS_DIMS),
        with("(dim, pos_dim) with box_lo[2] above box_hi[2]", |c| &mut c.box_lo[2], OVER_1, POS_DIMS),
        with("(dim, pos_dim) with a NaN in norm_center[2]", |c| &mut c.norm_center[2], NAN, DIMS),
        with("(dim, pos_dim) with 0 in norm_scale[2]", |c| &mut c.norm_scale[2], 0.0, DIMS),
        with("(dim, pos_dim) without an inverse of norm_scale[2]", |c| &mut c.norm_scale[2], NO_INVERSE[1], DIMS),
    ]);
    all
}

/// Each entry of an array broken alone, all of them counted.
fn every_entry() -> Vec<Condition> {
    type Entry = fn(&mut FuseConfig, usize);
    let broken = |words: &'static str, field: &'static str, n: usize, due: u8, entry: Entry| {
        let set = |c: &mut FuseConfig, i: usize| ((c.dim, c.pos_dim) = (8, 8), entry(c, i)).1;
        at(words, field, set, &(0..n).map(|i| (i, due)).collect::<Vec<_>>())
    };
    vec![
        broken("every counted term is judged", "terms with bit 12", 8, 1, |c, i| c.cal.terms[i] = 1 << 12),
        broken("every counted term is judged", "terms with bit 7", 8, 17, |c, i| c.cal.terms[i] = 1 << 7),
        broken("every entry to pos_dim is judged", "box_lo as NaN", 8, 2, |c, i| c.box_lo[i] = NAN),
        broken("every entry to pos_dim is judged", "box_hi as NaN", 8, 2, |c, i| c.box_hi[i] = NAN),
        broken("every entry to pos_dim is judged", "box_lo above box_hi", 8, 2, |c, i| c.box_lo[i] = OVER_1),
        broken("every entry to dim is judged", "norm_center as NaN", 8, 2, |c, i| c.norm_center[i] = NAN),
        broken("every entry to dim is judged", "norm_scale as 0", 8, 2, |c, i| c.norm_scale[i] = 0.0),
        broken("every entry to dim is judged", "norm_scale as 2^-1024", 8, 2, |c, i| c.norm_scale[i] = NO_INVERSE[1]),
        broken("every calibration entry is judged", "center as infinite", 192, 2, |c, i| c.cal.center[i] = INF),
        broken("every calibration entry is judged", "scale as 0", 192, 2, |c, i| c.cal.scale[i] = 0.0),
        broken("every calibration entry is judged", "scale as NaN", 192, 2, |c, i| c.cal.scale[i] = NAN),
    ]
}

fn steps() -> Vec<Condition> {
    let words = "(commit + brake_steps) x substeps over 4,096";
    let all = |c: &mut FuseConfig, (commit, brake_steps, substeps): (u16, u16, u16)| {
        (c.brake.commit, c.brake.brake_steps, c.brake.substeps) = (commit, brake_steps, substeps);
    };
    let field = "(commit, brake_steps, substeps)";
    vec![
        at(
            "substeps outside 1..64",
            "substeps",
            |c, n| c.brake.substeps = n,
            &[(0, 3), (1, 0), (2, 0), (63, 0), (64, 0), (65, 3), (257, 3), (65535, 3)],
        ),
        at(
            "commit over 64",
            "commit",
            |c, n| c.brake.commit = n,
            &[(0, 0), (63, 0), (64, 0), (65, 3), (256, 3), (65535, 3)],
        ),
        at(words, field, all, &[((63, 0, 64), 0), ((64, 0, 64), 0), ((64, 1, 64), 3)]),
        at(words, field, all, &[((63, 1, 64), 0), ((63, 2, 64), 3), ((0, 64, 64), 0), ((0, 65, 64), 3)]),
        at(words, field, all, &[((0, 4095, 1), 0), ((0, 4096, 1), 0), ((0, 4097, 1), 3)]),
        at(words, field, all, &[((64, 4031, 1), 0), ((64, 4032, 1), 0), ((64, 4033, 1), 3)]),
        at(words, field, all, &[((0, 65, 63), 0), ((0, 256, 16), 0), ((0, 241, 17), 3)]),
        at(
            "no sum or product wraps",
            field,
            all,
            &[
                ((0, 65535, 1), 3),
                ((1, 65535, 1), 3),
                ((64, 65472, 1), 3),
                ((64, 65535, 64), 3),
                ((0, 32768, 2), 3),
                ((0, 1024, 64), 3),
                ((65535, 1, 1), 3),
                ((65535, 65535, 65535), 3),
                ((0, 65535, 0), 3),
            ],
        ),
        at("horizon_ticks 0", "horizon_ticks", |c, n| c.horizon_ticks = n, &[(0, 3), (1, 0), (2, 0), (u32::MAX, 0)]),
    ]
}

fn channels() -> Vec<Condition> {
    let both = |c: &mut FuseConfig, (a0, a1): (u8, u8)| (zone(c).a0, zone(c).a1) = (a0, a1);
    let counted = |c: &mut FuseConfig, ((a0, a1), n): ((u8, u8), usize)| (both(c, (a0, a1)), c.aux_count = n).0;
    vec![
        at("its two channels are equal", "(a0, a1)", both, &[((0, 1), 0), ((1, 0), 0), ((0, 0), 4), ((1, 1), 4)]),
        at(
            "a channel at or above the aux count",
            "(a0, 1)",
            both,
            &[((0, 1), 0), ((2, 1), 4), ((3, 1), 4), ((255, 1), 4)],
        ),
        at(
            "a channel at or above the aux count",
            "(0, a1)",
            both,
            &[((0, 1), 0), ((0, 2), 4), ((0, 3), 4), ((0, 255), 4)],
        ),
        at(
            "a channel at or above the aux count",
            "aux_count",
            |c, n| c.aux_count = n,
            &[(0, 4), (1, 4), (2, 0), (3, 0), (256, 0), (0x1_0000_0000, 0), (usize::MAX, 0)],
        ),
        at(
            "a channel at or above the aux count",
            "((a0, a1), aux_count)",
            counted,
            &[
                (((254, 255), 254), 4),
                (((254, 255), 255), 4),
                (((254, 255), 256), 0),
                (((255, 254), 255), 4),
                (((255, 255), 256), 4),
            ],
        ),
        at(
            "contact is configured",
            "zone count, with no aux",
            |c, n| (c.zones.count, c.aux_count) = (n, 0),
            &[(1, 4), (0, 0)],
        ),
    ]
}

/// A zone's values with every count of zones, armed or not: what is due where it is counted, and nothing where it is not.
fn counted<T: Copy>(zone: usize, values: &[(T, u8)]) -> Vec<((usize, u32, T), u8)> {
    let settings = (0..=MAX_ZONES).flat_map(|count| [(count, 0), (count, CONTACT)]);
    let with =
        |(count, armed)| values.iter().map(move |(x, due)| ((count, armed, *x), if zone < count { *due } else { 0 }));
    settings.flat_map(with).collect()
}

/// Each number and each channel of each of four zones, which is judged where it is counted and unread past the count.
fn every_zone() -> Vec<Condition> {
    const FIELDS: [[&str; 5]; MAX_ZONES] = [
        ["contact radius", "contact v_max", "contact a0", "contact a1", "contact (a0, a1)"],
        ["contact1 radius", "contact1 v_max", "contact1 a0", "contact1 a1", "contact1 (a0, a1)"],
        ["contact2 radius", "contact2 v_max", "contact2 a0", "contact2 a1", "contact2 (a0, a1)"],
        ["contact3 radius", "contact3 v_max", "contact3 a0", "contact3 a1", "contact3 (a0, a1)"],
    ];
    const BAD: [(f64, u8); 6] = [(NAN, 2), (OTHER_NAN, 2), (INF, 2), (-INF, 2), (-1.0, 2), (-TINY, 2)];
    const PAST: [(u8, u8); 4] = [(7, 0), (8, 4), (9, 4), (255, 4)];
    let radius = [&BAD[..], &[(-0.0, 0), (0.0, 0), (TINY, 0), (MAX, 0)]].concat();
    let v_max = [&BAD[..], &[(-0.0, 2), (0.0, 2), (TINY, 0), (MAX, 0)]].concat();
    let of = |k: usize, [r, v, first, second, both]: [&'static str; 5]| {
        let set = move |c: &mut FuseConfig, (count, armed): (usize, u32), change: &dyn Fn(&mut ContactLimit)| {
            change(&mut four(c, count)[k]);
            c.armed = armed;
        };
        let words = "of each counted zone";
        let pairs = [((0, 7), 0), ((7, 0), 0), ((0, 0), 4), ((7, 7), 4), ((8, 8), 4), ((255, 255), 4)];
        // 7 beside a channel that no other pair has with it
        let low = if k == 3 { 1 } else { 2 * k as u8 };
        vec![
            at(words, r, move |c, (n, a, x)| set(c, (n, a), &|z| z.radius = x), &counted(k, &radius)),
            at(words, v, move |c, (n, a, x)| set(c, (n, a), &|z| z.v_max = x), &counted(k, &v_max)),
            at(words, first, move |c, (n, a, x)| set(c, (n, a), &|z| (z.a0, z.a1) = (x, low)), &counted(k, &PAST)),
            at(words, second, move |c, (n, a, x)| set(c, (n, a), &|z| (z.a0, z.a1) = (low, x)), &counted(k, &PAST)),
            at(words, both, move |c, (n, a, (x, y))| set(c, (n, a), &|z| (z.a0, z.a1) = (x, y)), &counted(k, &pairs)),
        ]
    };
    FIELDS.into_iter().enumerate().flat_map(|(k, fields)| of(k, fields)).collect()
}

/// Any two of four zones: the same pair in the same order, both counted; swapped, and with one channel in common, it is another pair.
fn pairs_of_zones() -> Vec<Condition> {
    const TWO: [(usize, usize, &str); 6] = [
        (0, 1, "contact and contact1"),
        (0, 2, "contact and contact2"),
        (0, 3, "contact and contact3"),
        (1, 2, "contact1 and contact2"),
        (1, 3, "contact1 and contact3"),
        (2, 3, "contact2 and contact3"),
    ];
    type Pair = fn(ContactLimit) -> (u8, u8);
    const PAIRS: [(&str, Pair, u8); 4] = [
        ("a repeated pair", |z| (z.a0, z.a1), 4),
        ("a swapped pair is another", |z| (z.a1, z.a0), 0),
        ("a pair with the same first channel is another", |z| (z.a0, 7 - z.a1), 0),
        ("a pair with the same second channel is another", |z| (7 - z.a0, z.a1), 0),
    ];
    let of = |(words, pair, due): (&'static str, Pair, u8)| {
        TWO.map(|(first, second, field)| {
            let set = |c: &mut FuseConfig, (count, armed, ()): (usize, u32, ())| {
                let list = four(c, count);
                // other numbers, so that it is the channels that are compared
                list[second] = ContactLimit { radius: 2.0, v_max: 3.0, ..list[second] };
                (list[second].a0, list[second].a1) = pair(list[first]);
                c.armed = armed;
            };
            at(words, field, set, &counted(second, &[((), due)]))
        })
    };
    PAIRS.into_iter().flat_map(of).collect()
}

/// Bit 7 between its neighbours, alone and among the others; a bit above 11 comes first.
fn withdrawn() -> Vec<Condition> {
    const BITS: &[(u32, u8)] = &[
        (0, 0),
        (1 << 6, 0),
        (1 << 7, 17),
        (1 << 8, 0),
        (0x7f, 0),
        (0xff, 17),
        (0xf7f, 0),
        (0xfff, 17),
        (1 << 12 | 1 << 7, 1),
        (1 << 31 | 1 << 7, 1),
    ];
    let counted = |field: &'static str, term: usize, values: &[(u8, u8)]| {
        let set = |c: &mut FuseConfig, n: u8| (c.cal.n_terms, c.cal.terms[term]) = (n, 1 << 7);
        at("a counted term has bit 7", field, set, values)
    };
    vec![
        at("the calibration mask has bit 7", "mask", |c, b| c.cal.mask = b, BITS),
        at("a counted term has bit 7", "terms[0]", |c, b| c.cal.terms[0] = b, BITS),
        at("a counted term has bit 7", "terms[7]", |c, b| c.cal.terms[7] = b, BITS),
        counted("n_terms with bit 7 in terms[0]", 0, &[(0, 0), (1, 17), (2, 17)]),
        counted("n_terms with bit 7 in terms[3]", 3, &[(2, 0), (3, 0), (4, 17), (5, 17)]),
        counted("n_terms with bit 7 in terms[7]", 7, &[(6, 0), (7, 0), (8, 17), (9, 1)]),
        at(
            "the calibration mask has bit 7",
            "mask with no terms",
            |c, b| (c.cal.n_terms, c.cal.mask) = (0, b),
            &[(0xf7f, 0), (0xfff, 17)],
        ),
    ]
}

/// The configuration with a round table about the origin.
fn disc(c: &mut FuseConfig) -> &mut FuseConfig {
    c.shape = Shape::disc([0.0; 2], 1.0);
    c
}

/// What a round table has, and what a box has not: its centre and its radius.
fn round() -> Vec<Condition> {
    const CENTRE: [(&str, Number); 2] =
        [("centre[0] of a disc", |c| &mut c.shape.center[0]), ("centre[1] of a disc", |c| &mut c.shape.center[1])];
    const BOXED: [(&str, Number); 3] = [
        ("centre[0] of a box", |c| &mut c.shape.center[0]),
        ("centre[1] of a box", |c| &mut c.shape.center[1]),
        ("radius of a box", |c| &mut c.shape.radius),
    ];
    const ANY: [(f64, u8); 8] =
        [(NAN, 0), (OTHER_NAN, 0), (INF, 0), (-INF, 0), (-1.0, 0), (-TINY, 0), (0.0, 0), (MAX, 0)];
    // no farther than what brake and hold measure
    let centre = [
        (NAN, 2),
        (OTHER_NAN, 2),
        (INF, 2),
        (-INF, 2),
        (-1e150, 0),
        (-TINY, 0),
        (-0.0, 0),
        (0.0, 0),
        (TINY, 0),
        (1e150, 0),
    ];
    let radius = [
        (NAN, 2),
        (OTHER_NAN, 2),
        (INF, 2),
        (-INF, 2),
        (-1.0, 2),
        (-TINY, 2),
        (-0.0, 2),
        (0.0, 2),
        (TINY, 0),
        (1.0, 0),
        (NEARLY_MAX, 0),
        (MAX, 0),
    ];
    let of_disc = |(field, number): (&'static str, Number)| {
        at("a disc's centre isn't finite", field, |c, x| *number(disc(c)) = x, &centre)
    };
    let mut all: Vec<Condition> = CENTRE.into_iter().map(of_disc).collect();
    all.extend(each("a box has no centre and no radius", &BOXED, &ANY));
    all.push(at("a disc's radius isn't finite and above 0", "radius", |c, x| disc(c).shape.radius = x, &radius));
    let armed = |c: &mut FuseConfig, (armed, x): (u32, f64)| (c.armed = armed, disc(c).shape.radius = x).1;
    all.push(at(
        "a disc's radius isn't finite and above 0",
        "(armed, radius)",
        armed,
        &[((0, 0.0), 2), ((WORKSPACE, 0.0), 2), ((0, TINY), 0), ((WORKSPACE, TINY), 0)],
    ));
    all
}

/// The walls of the first two axes are unread with a disc; the others are judged, and the margin is.
fn walls_of_a_disc() -> Vec<Condition> {
    const UNREAD: [(&str, Number); 4] = [
        ("box_lo[0] of a disc", |c| &mut c.box_lo[0]),
        ("box_lo[1] of a disc", |c| &mut c.box_lo[1]),
        ("box_hi[0] of a disc", |c| &mut c.box_hi[0]),
        ("box_hi[1] of a disc", |c| &mut c.box_hi[1]),
    ];
    const ANY: [(f64, u8); 9] =
        [(NAN, 0), (OTHER_NAN, 0), (INF, 0), (-INF, 0), (-2.0, 0), (2.0, 0), (OVER_1, 0), (MAX, 0), (-MAX, 0)];
    let words = "a disc has no walls on the first two axes";
    let unread = |(field, number): (&'static str, Number)| {
        at(words, field, |c, x| ((c.dim, c.pos_dim) = (3, 3), *number(disc(c)) = x).1, &ANY)
    };
    let mut all: Vec<Condition> = UNREAD.into_iter().map(unread).collect();
    let margin = |pos_dim: usize| move |c: &mut FuseConfig, m: f64| (c.pos_dim = pos_dim, disc(c).margin = m).1;
    const JUDGED: [(f64, u8); 4] = [(NAN, 2), (INF, 2), (-TINY, 2), (0.0, 0)];
    all.extend([
        at(
            "every further axis to pos_dim is judged",
            "axis of a disc with box_lo above box_hi",
            |c, i| ((c.dim, c.pos_dim) = (8, 8), disc(c).box_lo[i] = OVER_1).1,
            &[(0, 0), (1, 0), (2, 2), (3, 2), (7, 2)],
        ),
        at(
            "every further axis to pos_dim is judged",
            "(dim, pos_dim) of a disc with a NaN in box_hi[2]",
            |c, n: (usize, usize)| ((c.dim, c.pos_dim) = n, disc(c).box_hi[2] = NAN).1,
            &[((2, 2), 0), ((3, 2), 0), ((8, 2), 0), ((2, 3), 2), ((8, 3), 2)],
        ),
        at(
            "the margin is judged, and moves no disc",
            "margin of a disc on two axes",
            margin(2),
            &[&JUDGED[..], &[(1.0, 0), (OVER_1, 0), (MAX, 0)]].concat(),
        ),
        at(
            "the margin is judged, and moves no disc",
            "margin of a disc on three axes",
            margin(3),
            &[&JUDGED[..], &[(1.0, 0), (OVER_1, 2), (MAX, 2)]].concat(),
        ),
    ]);
    all
}

/// 15 on both sides of both counts; a box has any.
fn axes_of_a_disc() -> Vec<Condition> {
    const DIMS: [((usize, usize), u8); 14] = [
        ((0, 0), 1),
        ((0, 1), 1),
        ((1, 0), 1),
        ((1, 1), 15),
        ((1, 2), 15),
        ((2, 1), 15),
        ((2, 2), 0),
        ((1, 3), 15),
        ((3, 1), 15),
        ((8, 1), 15),
        ((1, 8), 15),
        ((8, 2), 0),
        ((2, 8), 0),
        ((9, 1), 1),
    ];
    let boxed = DIMS.map(|(dims, due)| (dims, if due == 15 { 0 } else { due }));
    let with = |is: bool, armed: u32| {
        move |c: &mut FuseConfig, (dim, pos_dim): (usize, usize)| {
            disc(c).shape.disc = is;
            (c.dim, c.pos_dim, c.armed) = (dim, pos_dim, armed);
        }
    };
    vec![
        at("a disc with dim or pos_dim below 2", "(dim, pos_dim)", with(true, 0), &DIMS),
        at("a disc with dim or pos_dim below 2", "(dim, pos_dim), armed", with(true, WORKSPACE), &DIMS),
        at("a box with dim or pos_dim below 2", "(dim, pos_dim) of a box", with(false, WORKSPACE), &boxed),
    ]
}

/// A configured contact is judged whether its check is armed or not.
fn unarmed() -> Vec<Condition> {
    const BITS: [u32; 3] = [0, !CONTACT & 63, CONTACT];
    let armed = |field: &'static str, due: u8, change: fn(&mut FuseConfig)| {
        let values = BITS.map(|armed| (armed, due));
        at("contact is configured, armed or not", field, |c, armed| (c.armed = armed, change(c)).1, &values)
    };
    vec![
        armed("armed", 0, |_| ()),
        armed("armed, with a radius below 0", 2, |c| zone(c).radius = -TINY),
        armed("armed, with a contact v_max of 0", 2, |c| zone(c).v_max = 0.0),
        armed("armed, with equal channels", 4, |c| zone(c).a1 = 0),
    ]
}

/// Either choice is accepted, with a zone and without, armed or not.
fn choices() -> Vec<Condition> {
    let chosen = |field: &'static str, change: fn(&mut FuseConfig)| {
        let set = |c: &mut FuseConfig, choice: AbsentCamera| (c.absent_camera = choice, change(c)).1;
        at("the configuration has a choice, old or new", field, set, &CHOICES.map(|choice| (choice, 0)))
    };
    vec![
        chosen("absent_camera", |_| ()),
        chosen("absent_camera, with CONTACT armed", |c| c.armed = CONTACT),
        chosen("absent_camera, with no zone", |c| c.zones = Zones::NONE),
        chosen("absent_camera, with no zone and CONTACT armed", |c| (c.zones, c.armed) = (Zones::NONE, CONTACT)),
        chosen("absent_camera, with four zones and CONTACT armed", |c| (c.armed = CONTACT, four(c, 4)).0),
    ]
}

/// Either mode of the gripper is accepted, for each kind, with an axis past pos_dim and without.
fn modes() -> Vec<Condition> {
    let set = |c: &mut FuseConfig, (gripper, kind, pos_dim)| (c.gripper, c.kind, c.pos_dim) = (gripper, kind, pos_dim);
    let values = GRIPPERS.into_iter().flat_map(|mode| KINDS.map(|kind| [1, 2, 3].map(|n| ((mode, kind, n), 0))));
    let values: Vec<_> = values.flatten().collect();
    vec![at("the configuration has a mode, the Rust's or the new one", "(gripper, kind, pos_dim)", set, &values)]
}

/// The condition of a configuration with another choice: what is judged does not depend on it.
fn under(condition: &Condition, name: &str, choose: fn(&mut FuseConfig)) -> Condition {
    let mut other = condition.clone();
    for case in &mut other.cases {
        case.value = format!("{}, {name}", case.value);
        choose(&mut case.cfg);
    }
    other
}

fn clear_flag() -> Vec<Condition> {
    let flag = |field: &'static str, due: u8, change: fn(&mut FuseConfig)| {
        let set = |c: &mut FuseConfig, is: bool| (c.calibrated = is, change(c)).1;
        at("with the flag clear nothing in it is judged", field, set, &[(true, due), (false, 0)])
    };
    vec![
        flag("flag", 0, |_| ()),
        flag("flag, with 9 terms", 1, |c| c.cal.n_terms = 9),
        flag("flag, with bit 12 in a counted term", 1, |c| c.cal.terms[0] = 1 << 12),
        flag("flag, with bit 12 in the mask", 1, |c| c.cal.mask = 1 << 12),
        flag("flag, with a center that isn't finite", 2, |c| c.cal.center[0] = NAN),
        flag("flag, with a scale of 0", 2, |c| c.cal.scale[191] = 0.0),
        flag("flag, with an infinite tau", 2, |c| c.cal.tau = INF),
        flag("flag, with horizon_ticks 0", 3, |c| c.horizon_ticks = 0),
        flag("flag, with bit 7 in a counted term", 17, |c| c.cal.terms[0] = 1 << 7),
        flag("flag, with bit 7 in the mask", 17, |c| c.cal.mask = 1 << 7),
    ]
}

/// Every set of the first four numbers at once, without 15 and 17, with one of them and with both: the first in the order of judging is given.
fn together() -> Vec<Condition> {
    const DUE: [([bool; 4], u8); 16] = [
        ([false, false, false, false], 0),
        ([false, false, false, true], 4),
        ([false, false, true, false], 3),
        ([false, false, true, true], 3),
        ([false, true, false, false], 2),
        ([false, true, false, true], 2),
        ([false, true, true, false], 2),
        ([false, true, true, true], 2),
        ([true, false, false, false], 1),
        ([true, false, false, true], 1),
        ([true, false, true, false], 1),
        ([true, false, true, true], 1),
        ([true, true, false, false], 1),
        ([true, true, false, true], 1),
        ([true, true, true, false], 1),
        ([true, true, true, true], 1),
    ];
    let (mut with_15, mut with_17) = (DUE, DUE);
    (with_15[0].1, with_17[0].1) = (15, 17);
    type Four = [fn(&mut FuseConfig); 4];
    let set = |changes: Four, term: u32, table: bool, c: &mut FuseConfig, which: [bool; 4]| {
        c.cal.terms[0] = term;
        if table {
            // too few axes of a row, and a third wall for the margin
            (disc(c).dim, c.pos_dim) = (1, 3);
        }
        changes.iter().zip(which).filter(|(_, is)| *is).for_each(|(change, _)| change(c));
    };
    let broken = |field: [&'static str; 4], changes: Four| {
        let words = "the first number that applies is given";
        [
            at(words, field[0], |c, which| set(changes, 1, false, c, which), &DUE),
            at(words, field[1], |c, which| set(changes, 1 << 7, false, c, which), &with_17),
            at(words, field[2], |c, which| set(changes, 1, true, c, which), &with_15),
            at(words, field[3], |c, which| set(changes, 1 << 7, true, c, which), &with_15),
        ]
    };
    /// The field alone, with bit 7, on a disc of one axis, and with both.
    macro_rules! ways {
        ($field:literal) => {
            [
                $field,
                concat!($field, ", with bit 7"),
                concat!($field, ", on a disc of one axis"),
                concat!($field, ", on a disc of one axis with bit 7"),
            ]
        };
    }
    let plain: Four = [|c| c.dim = 9, |c| c.dt = 0.0, |c| c.brake.substeps = 0, |c| zone(c).a1 = 0];
    let calibrated: Four =
        [|c| c.cal.mask = 1 << 12, |c| c.cal.tau = NAN, |c| c.horizon_ticks = 0, |c| c.aux_count = 1];
    let derived: Four =
        [|c| c.pos_dim = 0, |c| c.margin = OVER_1, |c| c.brake.brake_steps = 4097, |c| zone(c).a0 = 255];
    let zoned: Four = [
        |c| c.zones.count = 5,
        |c| zone(c).v_max = 0.0,
        |c| c.brake.commit = 65,
        |c| (c.zones.list[1], c.zones.count) = (c.zones.list[0], c.zones.count.max(2)),
    ];
    [
        broken(ways!("[zone count, contact v_max, commit, a pair]"), zoned),
        broken(ways!("[dim, dt, substeps, a1]"), plain),
        broken(ways!("[mask, tau, horizon_ticks, aux_count]"), calibrated),
        broken(ways!("[pos_dim, margin, brake_steps, a0]"), derived),
    ]
    .concat()
}

/// Every condition under the choices that a form without a tick has, and under the other one for an absent camera and for the gripper.
fn table() -> Vec<Condition> {
    let parts = [
        sizes(),
        above_zero(),
        not_below_zero(),
        finite(),
        derived(),
        turned_over(),
        unread(),
        every_entry(),
        steps(),
        channels(),
        every_zone(),
        pairs_of_zones(),
        round(),
        walls_of_a_disc(),
        axes_of_a_disc(),
        withdrawn(),
        unarmed(),
        clear_flag(),
        together(),
    ];
    let unticked = parts.concat();
    let with = |name: &str, choose: fn(&mut FuseConfig)| -> Vec<Condition> {
        unticked.iter().map(|condition| under(condition, name, choose)).collect()
    };
    let camera = with("NoZone", |c| c.absent_camera = AbsentCamera::NoZone);
    let gripper = with("LastCommand", |c| c.gripper = Gripper::LastCommand);
    [unticked, camera, gripper, choices(), modes()].concat()
}

/// What an entry gives for a configuration.
struct Judge {
    entry: &'static str,
    takes: Takes,
    /// The number where the configuration is accepted: 0, or that of another argument. The others are all 0 and long enough.
    accepted: u8,
    number: Box<dyn Fn(&FuseConfig) -> u8>,
}

/// What of a configuration an entry takes.
#[derive(Clone, Copy, PartialEq)]
enum Takes {
    Configuration,
    Calibration,
}

impl Takes {
    /// Whether all that a case has changed is taken.
    fn is_judged(self, c: &FuseConfig) -> bool {
        self == Takes::Configuration || FuseConfig { cal: FuseConfig::WHOLE.cal, ..*c } == FuseConfig::WHOLE
    }
}

fn number<T>(answer: Result<T, Refusal>) -> u8 {
    answer.map_or_else(|r| r.number, |_| 0)
}

const ZEROS: [f64; 8] = [0.0; 8];
const NANS: [f64; 8] = [NAN; 8];

/// One row, as wide as dim where that is a width.
fn row(c: &FuseConfig) -> ChunkView<'static> {
    let dim = c.dim.clamp(1, 8);
    ChunkView { seq: 0, t_emit: 0, horizon: 1, dim: dim as u16, exec_steps: 0, data: &ZEROS[..dim] }
}

/// A chunk of that width without rows, which is 5.
fn no_row(c: &FuseConfig) -> ChunkView<'static> {
    ChunkView { horizon: 0, data: &[], ..row(c) }
}

/// `derive`, and the entries with a configuration and no chunk, each with a position of zeros and one of NaNs.
fn judges_of_positions(port: &Port) -> Vec<Judge> {
    let mut all = Vec::new();
    let mut asked = |entry, accepted, number| all.push(Judge { entry, takes: Takes::Configuration, accepted, number });
    if let Some(f) = port.derive {
        asked("derive", 0, Box::new(move |c: &FuseConfig| number(f(c))) as _);
    }
    for (pos, accepted) in [(ZEROS, 0), (NANS, 12)] {
        if let Some(f) = port.check_action {
            let call = move |c: &FuseConfig| number(f(c, &pos, &[], &ZEROS, &ZEROS, &mut ZEROS.clone()));
            asked("check_action", accepted, Box::new(call));
        }
        if let Some(f) = port.brake_action {
            let call = move |c: &FuseConfig| number(f(c, &pos, &ZEROS, &ZEROS, &mut ZEROS.clone()));
            asked("brake_action", accepted, Box::new(call));
        }
        if let Some(f) = port.run_towards {
            let call = move |c: &FuseConfig| number(f(c, &ZEROS, &mut pos.clone(), &mut ZEROS.clone(), 1, &mut [0.0]));
            asked("run_towards", accepted, Box::new(call));
        }
        if let Some(f) = port.hold_action {
            let call = move |c: &FuseConfig| number(f(c, &pos, &ZEROS, &mut ZEROS.clone()));
            asked("hold_action", accepted, Box::new(call));
        }
    }
    all
}

/// The entries with a configuration and a chunk, each with a row and without.
fn judges_of_chunks(port: &Port) -> Vec<Judge> {
    type Chunk = fn(&FuseConfig) -> ChunkView<'static>;
    let mut all = Vec::new();
    let mut asked = |entry, accepted, number| all.push(Judge { entry, takes: Takes::Configuration, accepted, number });
    for (chunk, accepted) in [(row as Chunk, 0), (no_row, 5)] {
        if let Some(f) = port.check_chunk {
            let call = move |c: &FuseConfig| number(f(c, &ZEROS, &[], chunk(c), &mut ZEROS.clone()));
            asked("check_chunk", accepted, Box::new(call) as _);
        }
        if let Some(f) = port.features {
            let call = move |c: &FuseConfig| {
                let (mut rt, mut sc) = (Tier1Rt::NEW, Scores::NEW);
                number(f(c, &mut rt, &ZEROS, &[], Some(chunk(c)), &mut sc))
            };
            asked("features", accepted, Box::new(call));
        }
        if let Some(f) = port.brake_feasible {
            let call = move |c: &FuseConfig| number(f(c, &ZEROS, &ZEROS, chunk(c), 0, &mut [0.0; MAX_SUBSTEPS]));
            asked("brake_feasible", accepted, Box::new(call));
        }
    }
    all
}

/// Module 8's entries, which take the calibration alone, each with scores of zeros and with one that is a NaN.
fn judges_of_scores(port: &Port) -> Vec<Judge> {
    let mut all = Vec::new();
    let mut asked = |entry, accepted, number| all.push(Judge { entry, takes: Takes::Calibration, accepted, number });
    for (s, accepted) in [(0.0, 0), (NAN, 12)] {
        let sc = Scores { s, ..Scores::NEW };
        if let Some(f) = port.standardise {
            asked("standardise", accepted, Box::new(move |c: &FuseConfig| number(f(&c.cal, 0, &mut sc.clone()))) as _);
        }
        if let Some(f) = port.aggregate {
            asked("aggregate", accepted, Box::new(move |c: &FuseConfig| number(f(&c.cal, &mut sc.clone()))));
        }
        if let Some(f) = port.trip {
            asked("trip", accepted, Box::new(move |c: &FuseConfig| number(f(&c.cal, &sc))));
        }
    }
    all
}

fn judges(port: &Port) -> Vec<Judge> {
    let parts = [judges_of_positions(port), judges_of_chunks(port), judges_of_scores(port)];
    parts.into_iter().flatten().collect()
}

/// Holds the model and the port to the table: what was compared, or every value that is answered otherwise.
pub fn check(port: &Port) -> Result<String, String> {
    let model = Port {
        derive: Some(envelope::derive),
        check_action: Some(tier0::check_action),
        check_chunk: Some(tier0::check_chunk),
        features: Some(tier1::features),
        brake_feasible: Some(brake::brake_feasible),
        run_towards: Some(brake::run_towards),
        brake_action: Some(brake::brake_action),
        hold_action: Some(brake::hold_action),
        standardise: Some(conformal::standardise),
        aggregate: Some(conformal::aggregate),
        trip: Some(conformal::trip),
        ..Port::default()
    };
    let table = table();
    let values: usize = table.iter().map(|c| c.cases.len()).sum();
    let mut said =
        format!("edges: {} conditions, {values} values, each answered by the documents' number", table.len());
    let mut wrong = Vec::new();
    for (side, judges) in [("model", judges(&model)), ("port", judges(port))] {
        for judge in &judges {
            wrong.extend(table.iter().flat_map(|c| c.mistakes(side, judge)));
        }
        let entries: Vec<&str> = judges.iter().filter(|j| j.accepted == 0).map(|j| j.entry).collect();
        said += &format!("; the {side}'s {}", if entries.is_empty() { "none".into() } else { entries.join(", ") });
    }
    match wrong.is_empty() {
        true => Ok(said),
        false => Err(format!("edges, {} answers:\n  {}", wrong.len(), wrong.join("\n  "))),
    }
}

impl Condition {
    fn mistakes(&self, side: &str, judge: &Judge) -> Vec<String> {
        let (words, field, entry) = (self.words, self.field, judge.entry);
        let mistake = |case: &Case| {
            let got = (judge.number)(&case.cfg);
            let (value, due) = (&case.value, if case.due == 0 { judge.accepted } else { case.due });
            (got != due).then(|| format!("{words}: {field} as {value}: {due} is due, the {side}'s {entry} gives {got}"))
        };
        self.cases.iter().filter(|case| judge.takes.is_judged(&case.cfg)).filter_map(mistake).collect()
    }
}

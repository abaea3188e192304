//! The generators reach what matters: every trip on its limit and off it, every side of a wall and of clamp, every way in which a zone is not
//! seen, every zone of several that decides alone, every way on and beside a round table, every last command of a gripper, every length and
//! every place of a run, every kind, every place of 13, and 15 and 17 at every entry.

use std::collections::BTreeMap;

use differential::{
    entries::{brake, conformal, envelope, fmath, tier0, tier1, towards},
    port::Port,
    run::Entry,
};
use model::{
    brake::count_of,
    refusal::{SHAPE, WITHDRAWN},
    tier0 as rule,
};
use model::{
    AbsentCamera, ActionKind, BrakeKind, Calibration, ClampMode, ContactLimit, FuseConfig, Gripper, Refusal, Shape,
    Tier0Out, Zones,
};
use model::{ACCEL, CONTACT, JERK, NFEAT, REACH, SPEED, SPEED_PEAK, STALL, WORKSPACE};

const CALLS: u64 = 60_000;

/// How often each case was met; all of the wanted ones have to be.
struct Met(BTreeMap<String, u32>);

impl Met {
    fn new() -> Self {
        Met(BTreeMap::new())
    }

    fn note(&mut self, case: String) {
        *self.0.entry(case).or_default() += 1;
    }

    fn all(&self, wanted: impl IntoIterator<Item = String>) {
        println!("{:#?}", self.0);
        for case in wanted {
            assert!(self.0.get(&case).is_some_and(|n| *n >= 3), "hardly ever met: {case}");
        }
    }
}

#[test]
fn the_checks() {
    let (chunks, actions) = (tier0::check_chunk(&Port::default()), tier0::check_action(&Port::default()));
    let mut met = Met::new();
    let mut note = |name: &str, cfg: &FuseConfig, h: u16, r: Result<Tier0Out, Refusal>| {
        let Ok(r) = r else { return };
        for bit in [WORKSPACE, SPEED, ACCEL, JERK, REACH, CONTACT] {
            if cfg.armed & bit != 0 {
                met.note(format!("{name} trip {bit} {}", r.trips & bit != 0));
            }
        }
        met.note(format!("{name} {:?} moved {}", cfg.clamp, r.clamped_dims != 0));
        met.note(format!("{name} {:?} armed {}", cfg.clamp, cfg.armed % 64));
        met.note(format!("{name} dim {} pos_dim {}", cfg.dim, cfg.pos_dim));
        met.note(format!("{name} horizon {h}"));
    };
    for call in 0..CALLS {
        let i = chunks.input(1, call);
        let r = rule::check_chunk(&i.cfg, &i.pos, &i.aux, i.ch.view(), &mut i.out.clone());
        note("chunk", &i.cfg, i.ch.horizon, r);
        let i = actions.input(1, call);
        let r = rule::check_action(&i.cfg, &i.pos, &i.aux, &i.prev, &i.a, &mut i.out.clone());
        note("action", &i.cfg, 1, r);
    }
    let trips = |name: &'static str, bits: &'static [u32]| {
        bits.iter().flat_map(move |b| [true, false].map(|t| format!("{name} trip {b} {t}")))
    };
    met.all(trips("chunk", &[1, 2, 4, 8, 16, 32]).chain(trips("action", &[1, 2, 16, 32])));
    met.all(["chunk Project moved true", "action Project moved true", "chunk Off moved false"].map(String::from));
    for name in ["chunk", "action"] {
        let clamps = ["Off", "Project"];
        met.all(clamps.iter().flat_map(|c| (0..64).map(move |m| format!("{name} {c} armed {m}"))));
        met.all((1..=8).flat_map(|d| (1..=8).map(move |p| format!("{name} dim {d} pos_dim {p}"))));
    }
    met.all((1..=64).map(|h| format!("chunk horizon {h}")));
}

/// What a mask of sides says of each axis of an accepted check: which bits it has, and whether the row that went out tells.
fn note_axes(met: &mut Met, name: &str, cfg: &FuseConfig, r: &Tier0Out) {
    let armed = cfg.armed & WORKSPACE != 0;
    met.note(format!("{name} {:?} box armed {armed} any bit {}", cfg.clamp, r.low_dims | r.high_dims != 0));
    for c in 0..cfg.dim.min(cfg.pos_dim) {
        let has = |mask: u32| mask >> c & 1;
        met.note(format!("{name} low {} high {} moved {}", has(r.low_dims), has(r.high_dims), has(r.clamped_dims)));
    }
    for (limit, armed) in [("leash", cfg.armed & SPEED != 0), ("reach", cfg.armed & (SPEED | CONTACT | REACH) == REACH)]
    {
        if armed && (r.low_dims | r.high_dims) & !r.clamped_dims != 0 {
            met.note(format!("{name} brought back by the {limit}"));
        }
    }
}

/// How the coordinates of an accepted call lie to their walls: beyond one, on it or a step inside, or on a zero by its sign.
fn note_touched(met: &mut Met, name: &str, cfg: &FuseConfig, points: &[&[f64]]) {
    for c in 0..cfg.dim.min(cfg.pos_dim) {
        let (lo, hi) = (cfg.box_lo[c] + cfg.margin, cfg.box_hi[c] - cfg.margin);
        for x in points.iter().map(|p| p.get(c).copied().unwrap_or(0.0)) {
            for (wall, at, out) in [("low", lo, lo.next_down()), ("high", hi, hi.next_up())] {
                if x == at && x == 0.0 {
                    met.note(format!("{name} {x:?} on a {wall} wall at {at:?}"));
                } else if x == at || x == out {
                    met.note(format!("{name} on its {wall} wall {}", x == at));
                }
            }
        }
    }
}

/// The cases of `note_touched`.
fn touched(name: &'static str) -> impl Iterator<Item = String> {
    ["low", "high"].into_iter().flat_map(move |wall| {
        let zeros = ["0.0", "-0.0"].map(|x| ["0.0", "-0.0"].map(|at| format!("{name} {x} on a {wall} wall at {at}")));
        zeros.into_iter().flatten().chain([true, false].map(|on| format!("{name} on its {wall} wall {on}")))
    })
}

#[test]
fn the_walls_of_the_checks() {
    let port = Port::default();
    let (chunks, actions) = (tier0::check_chunk_at_walls(&port), tier0::check_action_at_walls(&port));
    let mut met = Met::new();
    for call in 0..CALLS {
        let i = chunks.input(1, call);
        if let Ok(r) = rule::check_chunk(&i.cfg, &i.pos, &i.aux, i.ch.view(), &mut i.out.clone()) {
            note_axes(&mut met, "chunk", &i.cfg, &r);
            note_touched(&mut met, "chunk", &i.cfg, &i.ch.data.chunks(i.cfg.dim).collect::<Vec<_>>());
        }
        let i = actions.input(1, call);
        if let Ok(r) = rule::check_action(&i.cfg, &i.pos, &i.aux, &i.prev, &i.a, &mut i.out.clone()) {
            note_axes(&mut met, "action", &i.cfg, &r);
            note_touched(&mut met, "action", &i.cfg, &[&i.a]);
        }
    }
    for name in ["chunk", "action"] {
        let sides = ["low 1 high 0 moved 1", "low 0 high 1 moved 1", "low 1 high 0 moved 0", "low 0 high 1 moved 0"];
        let none =
            ["low 0 high 0 moved 1", "low 0 high 0 moved 0", "brought back by the leash", "brought back by the reach"];
        let armed = ["Project box armed true any bit true", "Project box armed true any bit false"];
        let unarmed = ["Project box armed false", "Off box armed true", "Off box armed false"];
        met.all(sides.iter().chain(&none).chain(&armed).map(|case| format!("{name} {case}")));
        met.all(unarmed.map(|case| format!("{name} {case} any bit false")));
        met.all(touched(name));
    }
    met.all(["chunk low 1 high 1 moved 1".to_string()]);
}

/// What the camera and the position lack of a zone.
fn lacking(zone: &ContactLimit, pos: &[f64], aux: &[f64]) -> &'static str {
    let has = |a: u8| aux.len() > a as usize;
    match (has(zone.a0), has(zone.a1), aux.is_empty(), pos.len() < 2) {
        (true, true, _, false) => "nothing",
        (true, true, _, true) => "a coordinate",
        (false, true, _, _) => "a0",
        (true, false, _, _) => "a1",
        (false, false, false, _) => "a0 and a1",
        (false, false, true, _) => "a message",
    }
}

/// Whether the distance is not finite where what is missing counts as 0.
fn too_far(zone: &ContactLimit, pos: &[f64], aux: &[f64]) -> bool {
    let [a0, a1] = [zone.a0, zone.a1].map(|a| aux.get(a as usize).copied().unwrap_or(0.0));
    let at = |c: usize| pos.get(c).copied().unwrap_or(0.0);
    model::fmath::dist(&[at(0), at(1)], &[a0, a1], 2).is_err()
}

/// What a check answers under the configuration's choice and under the old one, where it lies between refusals of its arguments.
fn note_camera(
    met: &mut Met,
    name: &str,
    (cfg, pos, aux): (&FuseConfig, &[f64], &[f64]),
    check: impl Fn(&FuseConfig) -> Result<Tier0Out, Refusal>,
) {
    let (choice, armed) = (cfg.absent_camera, cfg.armed & CONTACT != 0);
    let answer = check(cfg);
    let trip = answer.map(|r| r.trips & CONTACT != 0);
    let Some(zone) = cfg.zones.counted().first() else {
        if let Ok(trip) = trip {
            met.note(format!("{name} {choice:?} no zone, message {}, armed {armed}, trip {trip}", !aux.is_empty()));
        }
        return;
    };
    let lacks = lacking(zone, pos, aux);
    match trip {
        Ok(trip) => met.note(format!("{name} {choice:?} lacks {lacks}, armed {armed}, trip {trip}")),
        Err(Refusal { number: 12, .. }) => met.note(format!("{name} {choice:?} lacks {lacks}, 12")),
        Err(Refusal { number: 13, .. }) if lacks != "nothing" => {
            let old = check(&FuseConfig { absent_camera: AbsentCamera::NoZone, ..*cfg });
            met.note(format!("{name} {choice:?} lacks {lacks}, 13 by its step {}", old.is_ok()));
        }
        Err(_) => (),
    }
    if armed && answer.is_ok() && too_far(zone, pos, aux) {
        met.note(format!("{name} {choice:?} lacks {lacks}, too far to measure"));
    }
    if zone.a0.max(zone.a1) == 5 {
        met.note(format!("{name} {choice:?} {} numbers for channel 5", aux.len()));
    }
}

/// Whether the Rust is asked, of the calls that are accepted or 13.
fn note_rust<I: Clone + std::fmt::Debug + 'static>(met: &mut Met, entry: &Entry<I>, i: &I, case: &str) {
    let number = (entry.model)(i).answer.map_or_else(|r| r.number, |_| 0);
    if [0, 13].contains(&number) {
        met.note(format!("{} {case} {number}, Rust asked {}", entry.name, (entry.rust)(i).is_some()));
    }
}

#[test]
fn the_camera_of_the_checks() {
    let port = Port::default();
    let (chunks, actions) =
        (tier0::check_chunk_with_a_short_camera(&port), tier0::check_action_with_a_short_camera(&port));
    let mut met = Met::new();
    for call in 0..CALLS * 2 {
        let i = chunks.input(1, call);
        note_camera(&mut met, "chunk", (&i.cfg, &i.pos, &i.aux), |cfg| {
            rule::check_chunk(cfg, &i.pos, &i.aux, i.ch.view(), &mut i.out.clone())
        });
        note_rust(&mut met, &chunks, &i, &format!("{:?}", i.cfg.absent_camera));
        let i = actions.input(1, call);
        note_camera(&mut met, "action", (&i.cfg, &i.pos, &i.aux), |cfg| {
            rule::check_action(cfg, &i.pos, &i.aux, &i.prev, &i.a, &mut i.out.clone())
        });
        note_rust(&mut met, &actions, &i, &format!("{:?}", i.cfg.absent_camera));
    }
    let names = [chunks.name, actions.name];
    met.all(names.iter().flat_map(|name| [0, 13].map(|number| format!("{name} NoZone {number}, Rust asked true"))));
    met.all(names.iter().flat_map(|name| [0, 13].map(|number| format!("{name} Slow {number}, Rust asked false"))));
    assert!(!met.0.keys().any(|case| case.contains("Slow") && case.contains("Rust asked true")));
    let lacks = ["a0", "a1", "a0 and a1", "a message", "a coordinate"];
    for name in ["chunk", "action"] {
        let new = lacks.iter().flat_map(|l| {
            let trips = [true, false].map(|trip| format!("{name} Slow lacks {l}, armed true, trip {trip}"));
            trips.into_iter().chain([format!("{name} Slow lacks {l}, 13 by its step true")])
        });
        met.all(new);
        met.all(lacks.map(|l| format!("{name} NoZone lacks {l}, armed true, trip false")));
        for choice in ["Slow", "NoZone"] {
            let of = |case: &str| format!("{name} {choice} {case}");
            met.all(lacks.map(|l| of(&format!("lacks {l}, armed false, trip false"))));
            met.all([true, false].map(|trip| of(&format!("lacks nothing, armed true, trip {trip}"))));
            met.all([true, false].map(|seen| of(&format!("no zone, message {seen}, armed true, trip false"))));
            met.all(["a0", "a1", "a0 and a1", "a coordinate", "nothing"].map(|l| of(&format!("lacks {l}, 12"))));
            met.all(["a0", "a1", "a coordinate"].map(|l| of(&format!("lacks {l}, too far to measure"))));
            met.all((0..=9).map(|n| of(&format!("{n} numbers for channel 5"))));
        }
        let none = |case: &str| assert!(!met.0.contains_key(&format!("{name} {case}")), "{name} {case}");
        lacks.iter().for_each(|l| none(&format!("NoZone lacks {l}, armed true, trip true")));
        ["Slow", "NoZone"].iter().for_each(|choice| none(&format!("{choice} lacks nothing, too far to measure")));
    }
}

/// A check's answer, and the rows that go out.
type Checked = (Result<Tier0Out, Refusal>, Vec<f64>);

/// The distance to a zone that is seen, where it is finite.
fn away(zone: &ContactLimit, pos: &[f64], aux: &[f64]) -> Option<f64> {
    let centre = [*aux.get(zone.a0 as usize)?, *aux.get(zone.a1 as usize)?];
    model::fmath::dist(pos, &centre, 2).ok()
}

/// The same zones without one of them.
fn without(zones: &Zones, k: usize) -> Zones {
    let mut less = *zones;
    less.list[k..].rotate_left(1);
    less.count -= 1;
    less
}

/// What one zone of several decides alone: the answer is another where that zone is taken away.
fn note_zone(met: &mut Met, at: &str, k: usize, (cfg, pos, aux): (&FuseConfig, &[f64], &[f64]), pair: [&Checked; 2]) {
    let zone = &cfg.zones.list[k];
    let seen = lacking(zone, pos, aux) == "nothing";
    let ([(answer, out), (other, other_out)], choice) = (pair, cfg.absent_camera);
    match (answer, other) {
        (Err(Refusal { number: 13, .. }), Ok(r)) => {
            let by = if seen && away(zone, pos, aux).is_none() { "distance" } else { "step" };
            let others = r.trips & CONTACT != 0;
            met.note(format!("{at} 13 by the {by} of zone {k}, the others trip {others}"));
            met.note(format!("{at} {choice:?} 13 by the {by} of a zone, seen {seen}"));
        }
        (Err(r), Ok(_)) => met.note(format!("{at} {} by zone {k}", r.number)),
        (Ok(r), Ok(_)) if r.trips != other.map_or(0, |r| r.trips) => {
            met.note(format!("{at} CONTACT by zone {k} alone, seen {seen}"));
        }
        (Ok(_), Ok(_)) if out != other_out => met.note(format!("{at} leash by zone {k}, CONTACT by others")),
        _ => (),
    }
}

/// Where the arm stands to each zone, what each decides, and what would be another answer past the count.
fn note_zones(
    met: &mut Met,
    name: &str,
    (cfg, pos, aux): (&FuseConfig, &[f64], &[f64]),
    step: Option<f64>,
    check: impl Fn(&FuseConfig) -> Checked,
) {
    let (zones, armed, count) = (cfg.zones.counted(), cfg.armed & CONTACT != 0, cfg.zones.count);
    let whole = check(cfg);
    let number = whole.0.map_or_else(|r| r.number, |_| 0);
    met.note(format!("{name} {count} zones, armed {armed}, {number}"));
    let twice = |turn: bool| {
        let turned = |z: &ContactLimit| if turn { (z.a1, z.a0) } else { (z.a0, z.a1) };
        (0..zones.len()).any(|i| zones[..i].iter().any(|z| turned(z) == (zones[i].a0, zones[i].a1)))
    };
    met.note(format!("{name} {count} zones, swapped {}, repeated {}, {number}", twice(true), twice(false)));
    let all = FuseConfig { zones: Zones { count: 4, ..cfg.zones }, ..*cfg };
    if number == 0 && count < 4 {
        let refused = check(&all).0.map_or_else(|r| r.number, |_| 0);
        let other = if refused == 0 && check(&all).0 != whole.0 { "otherwise".into() } else { refused.to_string() };
        met.note(format!("{name} {count} zones, {other} past the count"));
    }
    if !armed || count > 4 {
        return;
    }
    for k in 0..zones.len() {
        let less = check(&FuseConfig { zones: without(&cfg.zones, k), ..*cfg });
        note_zone(met, &format!("{name} {count} zones,"), k, (cfg, pos, aux), [&whole, &less]);
    }
    let Ok(answer) = whole.0 else { return };
    let inside = |z: &&ContactLimit| match lacking(z, pos, aux) {
        "nothing" => away(z, pos, aux).is_some_and(|d| d <= z.radius),
        _ => cfg.absent_camera == AbsentCamera::Slow,
    };
    let steps: Vec<f64> = zones.iter().filter(inside).map(|z| z.v_max * cfg.dt).collect();
    met.note(format!("{name} {count} zones, inside {}, trip {}", steps.len(), answer.trips & CONTACT != 0));
    let seen = zones.iter().filter(|z| lacking(z, pos, aux) == "nothing").count();
    let mixed = seen > 0 && seen < zones.len();
    met.note(format!("{name} {count} zones, {:?} some seen and some not {mixed}", cfg.absent_camera));
    if let (Some(least), true, ClampMode::Project) =
        (steps.iter().copied().reduce(f64::min), cfg.armed & SPEED != 0, cfg.clamp)
    {
        let (first, own) = (steps[0], cfg.v_max * cfg.dt);
        met.note(format!(
            "{name} SPEED's step the least {}, the first zone's {}",
            own < least,
            first == least && first < own
        ));
    }
    for (k, z) in zones.iter().enumerate() {
        if let (Some(d), "nothing") = (away(z, pos, aux), lacking(z, pos, aux)) {
            let side = if d == z.radius {
                "on"
            } else if d == z.radius.next_up() {
                "outside"
            } else {
                "off"
            };
            met.note(format!("{name} the arm {side} the edge of zone {k}"));
        }
        if let (Some(n), true) = (step, inside(&z)) {
            let limit = z.v_max * cfg.dt;
            let side = if n == limit {
                "on"
            } else if n == limit.next_up() {
                "over"
            } else {
                "off"
            };
            met.note(format!("{name} a step {side} that of zone {k}"));
        }
    }
}

#[test]
fn the_zones_of_the_checks() {
    let port = Port::default();
    let (chunks, actions) =
        (tier0::check_chunk_with_several_zones(&port), tier0::check_action_with_several_zones(&port));
    let mut met = Met::new();
    for call in 0..CALLS * 2 {
        let i = chunks.input(1, call);
        let (d, nb) = (i.cfg.dim, i.cfg.dim.min(i.cfg.pos_dim));
        let step = (i.ch.dim as usize == d && i.ch.data.len() >= d && i.pos.len() >= nb)
            .then(|| oracle::rust::fmath::dist(&i.ch.data, &i.pos, nb));
        note_zones(&mut met, "chunk", (&i.cfg, &i.pos, &i.aux), step, |cfg| {
            let mut out = i.out.clone();
            (rule::check_chunk(cfg, &i.pos, &i.aux, i.ch.view(), &mut out), out)
        });
        note_rust(&mut met, &chunks, &i, &format!("{:?} {} zones", i.cfg.absent_camera, i.cfg.zones.count));
        let i = actions.input(1, call);
        let step = (i.a.len() >= i.cfg.dim && i.prev.len() >= i.cfg.dim)
            .then(|| oracle::rust::fmath::dist(&i.a, &i.prev, i.cfg.dim));
        note_zones(&mut met, "action", (&i.cfg, &i.pos, &i.aux), step, |cfg| {
            let mut out = i.out.clone();
            (rule::check_action(cfg, &i.pos, &i.aux, &i.prev, &i.a, &mut out), out)
        });
        note_rust(&mut met, &actions, &i, &format!("{:?} {} zones", i.cfg.absent_camera, i.cfg.zones.count));
    }
    for name in [chunks.name, actions.name] {
        let asked = |choice: &str, count: usize, is: bool| {
            [0, 13].map(|number| format!("{name} {choice} {count} zones {number}, Rust asked {is}"))
        };
        met.all(asked("NoZone", 1, true));
        met.all([format!("{name} NoZone 0 zones 0, Rust asked true")]);
        met.all((1..=4).flat_map(|count| asked("Slow", count, false)));
        met.all((2..=4).flat_map(|count| asked("NoZone", count, false)));
    }
    let few = |case: &String| case.contains("NoZone 0 zones") || case.contains("NoZone 1 zones");
    assert!(met.0.keys().filter(|case| case.contains("Rust asked true")).all(few));
    assert!(!met.0.keys().any(|case| few(case) && case.contains("Rust asked false")));
    ["chunk", "action"].iter().for_each(|name| every_zone_is_met(&met, name));
}

/// What `note_zones` has to have met of one check.
fn every_zone_is_met(met: &Met, name: &str) {
    let of = |case: String| format!("{name} {case}");
    let each = |cases: &dyn Fn(usize, usize) -> Vec<String>| {
        met.all((1..=4).flat_map(|count| (0..count).flat_map(move |k| cases(count, k))).map(of));
    };
    met.all((0..=4).flat_map(|count| [true, false].map(|armed| of(format!("{count} zones, armed {armed}, 0")))));
    met.all([true, false].map(|armed| of(format!("5 zones, armed {armed}, 1"))));
    each(&|count, k| [2, 4].map(|number| format!("{count} zones, {number} by zone {k}")).to_vec());
    each(&|count, k| {
        let other = if count > 1 { vec![true, false] } else { vec![false] };
        let by = |by: &str| -> Vec<String> {
            other.iter().map(|o| format!("{count} zones, 13 by the {by} of zone {k}, the others trip {o}")).collect()
        };
        [by("distance"), by("step")].concat()
    });
    each(&|count, k| {
        [true, false].map(|seen| format!("{count} zones, CONTACT by zone {k} alone, seen {seen}")).to_vec()
    });
    met.all(
        (2..=4)
            .flat_map(|count| (0..count).map(move |k| format!("{count} zones, leash by zone {k}, CONTACT by others")))
            .map(of),
    );
    met.all(
        (0..=4).flat_map(|count| (0..=count).map(move |n| format!("{count} zones, inside {n}, trip false"))).map(of),
    );
    met.all(
        (1..=4).flat_map(|count| (1..=count).map(move |n| format!("{count} zones, inside {n}, trip true"))).map(of),
    );
    for choice in ["Slow", "NoZone"] {
        met.all((2..=4).map(|count| of(format!("{count} zones, {choice} some seen and some not true"))));
    }
    met.all((2..=4).map(|count| of(format!("{count} zones, swapped true, repeated false, 0"))));
    met.all((2..=4).map(|count| of(format!("{count} zones, swapped false, repeated true, 4"))));
    let past = ["2", "4", "otherwise", "13"];
    met.all((0..=3).flat_map(|count| past.map(|other| of(format!("{count} zones, {other} past the count")))));
    let least = ["true, the first zone's false", "false, the first zone's false", "false, the first zone's true"];
    met.all(least.map(|which| of(format!("SPEED's step the least {which}"))));
    let edges = ["the arm on the edge", "the arm outside the edge", "a step on that", "a step over that"];
    met.all((0..4).flat_map(|k| edges.map(|edge| of(format!("{edge} of zone {k}")))));
    assert!(!met.0.keys().any(|case| case.starts_with(name) && case.contains("inside 0, trip true")));
}

#[test]
fn the_walls_of_brake_and_hold() {
    let (port, mut met) = (Port::default(), Met::new());
    for entry in [brake::brake_action_at_walls(&port), brake::hold_action_at_walls(&port)] {
        for call in 0..CALLS {
            let i = entry.input(1, call);
            let Ok(shown) = (entry.model)(&i).answer else { continue };
            let [low_dims, high_dims] = shown.added[..] else { panic!("a low and a high mask") };
            let (name, cfg, n) = (entry.name, &i.cfg, i.cfg.dim.min(i.cfg.pos_dim));
            met.note(format!("{name} {:?} any bit {}", cfg.kind, low_dims | high_dims != 0));
            let velocities = matches!(cfg.kind, ActionKind::JointVelocity | ActionKind::EeDelta);
            if velocities {
                continue;
            }
            note_touched(&mut met, name, cfg, &[&i.p]);
            let armed = cfg.armed & WORKSPACE != 0;
            met.note(format!("{name} {:?} box armed {armed} low {}", cfg.clamp, low_dims != 0));
            met.note(format!("{name} {:?} box armed {armed} high {}", cfg.clamp, high_dims != 0));
            let past = cfg.pos_dim..cfg.dim.min(i.p.len());
            met.note(format!("{name} moved past pos_dim {}", past.into_iter().any(|c| i.p[c] != 0.0)));
            met.note(format!("{name} pos_dim above dim {}", cfg.pos_dim > cfg.dim));
            let missing = (i.p.len()..n).map(|c| (low_dims >> c & 1, high_dims >> c & 1));
            missing.for_each(|(low, high)| met.note(format!("{name} missing low {low} high {high}")));
        }
    }
    for name in ["brake_action at walls", "hold_action at walls"] {
        let position = ["EePosition", "JointPosition", "Other"];
        met.all(position.iter().flat_map(|k| [true, false].map(|bit| format!("{name} {k} any bit {bit}"))));
        met.all(["EeDelta", "JointVelocity"].map(|k| format!("{name} {k} any bit false")));
        let modes = ["Off box armed false", "Off box armed true", "Project box armed false", "Project box armed true"];
        let sides = ["low true", "high true", "low false", "high false"];
        met.all(modes.iter().flat_map(|mode| sides.map(|side| format!("{name} {mode} {side}"))));
        let sizes = ["moved past pos_dim", "pos_dim above dim"];
        met.all(sizes.iter().flat_map(|size| [true, false].map(|is| format!("{name} {size} {is}"))));
        met.all(["low 1 high 0", "low 0 high 1", "low 0 high 0"].map(|side| format!("{name} missing {side}")));
        met.all(touched(name));
    }
}

/// How far a point is from the centre of a table, where that is finite.
fn from_the_centre(shape: &Shape, point: &[f64]) -> Option<f64> {
    model::fmath::dist(point.get(..2)?, &shape.center, 2).ok()
}

/// Where a point stands to the edge of a table.
fn to_the_edge(shape: &Shape, point: &[f64]) -> &'static str {
    match from_the_centre(shape, point) {
        None => "too far to measure",
        Some(0.0) => "at the centre",
        Some(n) if n == shape.radius => "on the edge",
        Some(n) if n == shape.radius.next_up() => "a step beyond the edge",
        Some(n) if n == shape.radius.next_down() => "a step inside the edge",
        Some(n) if n > shape.radius => "beyond",
        Some(_) => "inside",
    }
}

/// What of a configuration is not read, and would be refused if it were.
fn would_be_refused(c: &FuseConfig) -> bool {
    let shape = Shape { disc: !c.shape.disc, ..c.shape };
    let (dim, pos_dim) = (c.dim.max(2), c.pos_dim.max(2));
    let wide = FuseConfig { dim, pos_dim, norm_center: [0.0; 8], norm_scale: [1.0; 8], ..*c };
    model::envelope::judge(&FuseConfig { shape, ..wide }) == Some(2)
}

/// The shape with its number, and what about it that number is for.
fn note_shape(met: &mut Met, name: &str, c: &FuseConfig, number: u8) {
    let shape = if c.shape.disc { "disc" } else { "box" };
    met.note(format!("{name} {shape} {number}"));
    if number == 0 {
        met.note(format!("{name} {shape} accepted, and what is not read would be refused {}", would_be_refused(c)));
        met.note(format!(
            "{name} {shape} pos_dim {} dim",
            ["below", "at", "above"][1 + (c.pos_dim > c.dim) as usize - (c.pos_dim < c.dim) as usize]
        ));
    }
    if c.shape.disc {
        let few = [c.dim < 2, c.pos_dim < 2];
        let stall = c.calibrated && model::envelope::judge_calibration(&c.cal) == Some(WITHDRAWN);
        match number {
            SHAPE => {
                met.note(format!("{name} 15 by dim {}, pos_dim {}", few[0], few[1]));
                met.note(format!("{name} 15, and 17 {stall}"));
            }
            4 if few != [false; 2] => met.note(format!("{name} 4 before 15")),
            2 if few != [false; 2] => met.note(format!("{name} 2 before 15")),
            _ => (),
        }
        let repaired = |change: fn(&mut Shape)| {
            let mut other = *c;
            change(&mut other.shape);
            model::envelope::judge(&other) != Some(2)
        };
        if number == 2 && repaired(|s| s.radius = 1.0) {
            let why = if c.shape.radius.is_finite() { "not above 0" } else { "not finite" };
            met.note(format!("{name} 2 by a radius {why}"));
        }
        if number == 2 && repaired(|s| s.center = [0.0; 2]) {
            met.note(format!("{name} 2 by a centre"));
        }
    }
}

/// What every entry on round tables has to have met of the shapes.
fn every_shape_is_met(met: &Met, name: &str) {
    met.all(["disc", "box"].iter().flat_map(|shape| [0, 1, 2, 3, 4, 17].map(|n| format!("{name} {shape} {n}"))));
    met.all(["disc", "box"].iter().flat_map(|shape| {
        [true, false].map(|is| format!("{name} {shape} accepted, and what is not read would be refused {is}"))
    }));
    met.all(
        ["disc", "box"]
            .iter()
            .flat_map(|shape| ["below", "at", "above"].map(|side| format!("{name} {shape} pos_dim {side} dim"))),
    );
    let few = ["true, pos_dim false", "false, pos_dim true", "true, pos_dim true"];
    met.all(few.map(|few| format!("{name} 15 by dim {few}")));
    met.all(["15, and 17 true", "15, and 17 false", "4 before 15", "2 before 15"].map(|case| format!("{name} {case}")));
    let numbers = ["a radius not above 0", "a radius not finite", "a centre"];
    met.all(numbers.map(|number| format!("{name} 2 by {number}")));
    assert!(!met.0.contains_key(&format!("{name} box 15")));
}

/// Where the rows of a check stand to the table, what is raised and moved there, and what 13 is for.
fn note_table(met: &mut Met, name: &str, cfg: &FuseConfig, rows: &[&[f64]], check: impl Fn(&FuseConfig) -> Checked) {
    let (answer, out) = check(cfg);
    let (armed, project) = (cfg.armed & WORKSPACE != 0, cfg.clamp == ClampMode::Project);
    let sized = rows.iter().all(|row| row.len() == cfg.dim) && cfg.dim.min(cfg.pos_dim) >= 2;
    if !cfg.shape.disc || !sized {
        return;
    }
    let at = format!("{name} {:?} armed {armed}", cfg.clamp);
    match answer {
        Ok(r) => {
            met.note(format!("{at} trip {} of {} axes", r.trips & WORKSPACE != 0, cfg.dim.min(cfg.pos_dim).min(3)));
            rows.iter().for_each(|row| met.note(format!("{at} a row {}", to_the_edge(&cfg.shape, row))));
            met.note(format!("{at} walls low {} high {}", r.low_dims != 0, r.high_dims != 0));
            let beyond = |row: &&&[f64]| from_the_centre(&cfg.shape, row).is_some_and(|n| n > cfg.shape.radius);
            if armed && project && rows.iter().any(|row| beyond(&row)) {
                met.note(format!("{name} pulled, margin {}", cfg.margin != 0.0));
                for (bit, move_) in [(SPEED, "leash"), (REACH, "reach")] {
                    let without = check(&FuseConfig { armed: cfg.armed & !bit, ..*cfg }).1;
                    met.note(format!("{name} pulled, and the {move_} moves it {}", without != out));
                }
            }
        }
        Err(Refusal { number: 13, .. }) if armed => {
            let far = rows.iter().position(|row| from_the_centre(&cfg.shape, row).is_none());
            let alone = check(&FuseConfig { armed: cfg.armed & !WORKSPACE, ..*cfg }).0.is_ok();
            if let (Some(far), true) = (far, alone) {
                let d = model::envelope::derive(cfg).expect("a configuration that is accepted");
                let walled = |row: &[f64]| {
                    (2..cfg.dim.min(cfg.pos_dim)).any(|c| model::fmath::side(row[c], d.box_lo[c], d.box_hi[c]) != 0)
                };
                let before = rows[..far]
                    .iter()
                    .any(|row| walled(row) || from_the_centre(&cfg.shape, row).is_some_and(|n| n > cfg.shape.radius));
                met.note(format!("{name} {:?} 13 by the distance, a row before outside {before}", cfg.clamp));
                met.note(format!("{name} {:?} 13 by the distance, a wall passed {}", cfg.clamp, walled(rows[far])));
            }
        }
        Err(_) => (),
    }
}

#[test]
fn the_round_tables_of_the_checks() {
    let (port, mut met) = (Port::default(), Met::new());
    let (chunks, actions) = (tier0::check_chunk_on_a_round_table(&port), tier0::check_action_on_a_round_table(&port));
    for call in 0..CALLS * 2 {
        let i = chunks.input(1, call);
        let rows: Vec<&[f64]> = i.ch.data.chunks((i.ch.dim as usize).max(1)).collect();
        note_table(&mut met, "chunk", &i.cfg, &rows, |cfg| {
            let mut out = i.out.clone();
            (rule::check_chunk(cfg, &i.pos, &i.aux, i.ch.view(), &mut out), out)
        });
        let number = (chunks.model)(&i).answer.map_or_else(|r| r.number, |_| 0);
        note_shape(&mut met, chunks.name, &i.cfg, number);
        note_rust(&mut met, &chunks, &i, if i.cfg.shape.disc { "disc" } else { "box" });
        let i = actions.input(1, call);
        note_table(&mut met, "action", &i.cfg, &[&i.a[..i.cfg.dim.min(i.a.len())]], |cfg| {
            let mut out = i.out.clone();
            (rule::check_action(cfg, &i.pos, &i.aux, &i.prev, &i.a, &mut out), out)
        });
        let number = (actions.model)(&i).answer.map_or_else(|r| r.number, |_| 0);
        note_shape(&mut met, actions.name, &i.cfg, number);
        note_rust(&mut met, &actions, &i, if i.cfg.shape.disc { "disc" } else { "box" });
    }
    for name in [chunks.name, actions.name] {
        every_shape_is_met(&met, name);
        met.all([0, 13].map(|number| format!("{name} box {number}, Rust asked true")));
        met.all([0, 13].map(|number| format!("{name} disc {number}, Rust asked false")));
    }
    assert!(!met.0.keys().any(|case| case.contains("disc") && case.contains("Rust asked true")));
    for name in ["chunk", "action"] {
        let modes = ["Off armed true", "Project armed true", "Off armed false", "Project armed false"];
        let places =
            ["at the centre", "on the edge", "a step beyond the edge", "a step inside the edge", "beyond", "inside"];
        met.all(modes.iter().flat_map(|mode| places.map(|place| format!("{name} {mode} a row {place}"))));
        met.all(modes[2..].iter().map(|mode| format!("{name} {mode} a row too far to measure")));
        let axes = [2, 3];
        met.all(modes[..2].iter().flat_map(|mode| {
            axes.into_iter()
                .flat_map(move |n| [true, false].map(|trip| format!("{name} {mode} trip {trip} of {n} axes")))
        }));
        let sides = ["low true high false", "low false high true", "low false high false"];
        met.all(sides.map(|side| format!("{name} Project armed true walls {side}")));
        met.all([true, false].map(|margin| format!("{name} pulled, margin {margin}")));
        let moves = ["leash", "reach"];
        met.all(moves.iter().flat_map(|m| [true, false].map(|is| format!("{name} pulled, and the {m} moves it {is}"))));
        let both = ["Off", "Project"];
        met.all(
            both.iter()
                .flat_map(|m| [true, false].map(|is| format!("{name} {m} 13 by the distance, a wall passed {is}"))),
        );
        met.all(both.map(|mode| format!("{name} {mode} 13 by the distance, a row before outside false")));
    }
    met.all(["Off", "Project"].map(|mode| format!("chunk {mode} 13 by the distance, a row before outside true")));
}

#[test]
fn the_round_tables_of_the_forecast() {
    let (entry, mut met) = (brake::brake_feasible_on_a_round_table(&Port::default()), Met::new());
    for call in 0..CALLS * 3 {
        let i = entry.input(1, call);
        let (cfg, kind) = (&i.cfg, format!("{:?}", i.cfg.brake.kind));
        let mut slacks = i.slacks.clone();
        let answer = model::brake::brake_feasible(cfg, &i.p, &i.v, i.ch.view(), i.from, &mut slacks);
        note_shape(&mut met, entry.name, cfg, answer.map_or_else(|r| r.number, |_| 0));
        note_rust(&mut met, &entry, &i, if cfg.shape.disc { "disc" } else { "box" });
        if !cfg.shape.disc {
            continue;
        }
        let rows = (cfg.brake.commit as usize).saturating_sub(i.from);
        match answer {
            Ok(r) => {
                met.note(format!("{kind} feasible {}", r.feasible));
                met.note(format!("{kind} {:?}", cfg.kind));
                met.note(format!("{kind} rows {} braking steps {}", rows > 0, cfg.brake.brake_steps > 0));
                met.note(format!("{kind} from {}", to_the_edge(&cfg.shape, &i.p)));
                if r.margin == 0.0 {
                    met.note(format!("{kind} margin 0"));
                }
                // a slack that a table of another radius has otherwise is the table's, else a wall's
                let wider = FuseConfig { shape: Shape { radius: cfg.shape.radius * 2.0, ..cfg.shape }, ..*cfg };
                let mut other = i.slacks.clone();
                if r.count > 0
                    && model::brake::brake_feasible(&wider, &i.p, &i.v, i.ch.view(), i.from, &mut other).is_ok()
                {
                    met.note(format!("{kind} the first slack by the table {}", other[0] != slacks[0]));
                }
                if kind == "PdSecondOrder" && rows == 0 && cfg.brake.brake_steps > 0 {
                    let pulled = from_the_centre(&cfg.shape, &i.p).is_some_and(|n| n > cfg.shape.radius);
                    met.note(format!("the setpoint is pulled {pulled}"));
                }
            }
            Err(Refusal { number: 13, place }) => {
                let n = count_of(cfg, i.from);
                let at = if place == 1 {
                    "first"
                } else if place <= n {
                    "between"
                } else {
                    "after the last"
                };
                met.note(format!("{kind} 13 {at}"));
                if cfg.brake.kind == BrakeKind::PdSecondOrder
                    && from_the_centre(&cfg.shape, &i.p).is_none()
                    && rows == 0
                {
                    let past = i.from > cfg.brake.commit as usize;
                    met.note(format!(
                        "13 by the setpoint, braking steps {}, from past commit {past}",
                        cfg.brake.brake_steps > 0
                    ));
                }
            }
            Err(_) => (),
        }
    }
    every_shape_is_met(&met, entry.name);
    met.all([0, 13].map(|number| format!("{} box {number}, Rust asked true", entry.name)));
    met.all([0, 13].map(|number| format!("{} disc {number}, Rust asked false", entry.name)));
    assert!(!met.0.keys().any(|case| case.contains("disc") && case.contains("Rust asked true")));
    let kinds = differential::part::BRAKES.map(|k| format!("{k:?}"));
    let cases = ["feasible true", "feasible false", "margin 0", "13 first", "13 between"];
    met.all(kinds.iter().flat_map(|k| cases.map(|c| format!("{k} {c}"))));
    met.all(kinds.iter().flat_map(|k| [true, false].map(|is| format!("{k} the first slack by the table {is}"))));
    let places =
        ["at the centre", "on the edge", "a step beyond the edge", "a step inside the edge", "beyond", "inside"];
    met.all(kinds.iter().flat_map(|k| places.map(|place| format!("{k} from {place}"))));
    met.all(differential::part::KINDS.iter().flat_map(|a| kinds.iter().map(move |k| format!("{k} {a:?}"))));
    let rows = ["rows true braking steps true", "rows true braking steps false", "rows false braking steps true"];
    met.all(rows.into_iter().chain(["rows false braking steps false"]).map(|case| format!("PdSecondOrder {case}")));
    met.all([true, false].map(|is| format!("the setpoint is pulled {is}")));
    let setpoints = [true, false].map(|steps| [true, false].map(|past| (steps, past)));
    met.all(
        setpoints
            .concat()
            .into_iter()
            .map(|(steps, past)| format!("13 by the setpoint, braking steps {steps}, from past commit {past}")),
    );
}

#[test]
fn the_round_tables_of_brake_and_hold() {
    let (port, mut met) = (Port::default(), Met::new());
    for entry in [brake::brake_action_on_a_round_table(&port), brake::hold_action_on_a_round_table(&port)] {
        for call in 0..CALLS * 2 {
            let i = entry.input(1, call);
            let (name, cfg) = (entry.name, &i.cfg);
            let outcome = (entry.model)(&i);
            let number = outcome.answer.as_ref().map_or_else(|r| r.number, |_| 0);
            note_shape(&mut met, name, cfg, number);
            note_rust(&mut met, &entry, &i, if cfg.shape.disc { "disc" } else { "box" });
            if !cfg.shape.disc || number != 0 && number != 13 {
                continue;
            }
            let velocity = matches!(cfg.kind, ActionKind::JointVelocity | ActionKind::EeDelta);
            let at = |c: usize| i.p.get(c).copied().unwrap_or(0.0);
            let place = to_the_edge(&cfg.shape, &[at(0), at(1)]);
            met.note(format!("{name} {:?} {number}", cfg.kind));
            met.note(format!("{name} velocity {velocity} {place} {number}"));
            met.note(format!("{name} lacks {} {place} {number}", 2 - i.p.len().min(2)));
            if let (Ok(shown), false) = (outcome.answer, velocity) {
                let [low, high] = shown.added[..] else { panic!("a low and a high mask") };
                met.note(format!("{name} low {} high {}", low != 0, high != 0));
                met.note(format!("{name} armed {} {:?} {place}", cfg.armed & WORKSPACE != 0, cfg.clamp));
            }
        }
        let name = entry.name;
        every_shape_is_met(&met, name);
        let places =
            ["at the centre", "on the edge", "a step beyond the edge", "a step inside the edge", "beyond", "inside"];
        met.all(places.map(|place| format!("{name} velocity false {place} 0")));
        met.all([
            format!("{name} velocity false too far to measure 13"),
            format!("{name} velocity true too far to measure 0"),
        ]);
        met.all([0, 1, 2].iter().flat_map(|n| ["beyond", "inside"].map(|place| format!("{name} lacks {n} {place} 0"))));
        met.all([0, 1, 2].map(|n| format!("{name} lacks {n} too far to measure 13")));
        met.all(
            ["low true high false", "low false high true", "low false high false"].map(|side| format!("{name} {side}")),
        );
        let modes = ["true Off", "true Project", "false Off", "false Project"];
        met.all(modes.map(|mode| format!("{name} armed {mode} beyond")));
        met.all([format!("{name} box 0, Rust asked true"), format!("{name} disc 0, Rust asked false")]);
        assert!(!met.0.contains_key(&format!("{name} velocity false too far to measure 0")));
    }
    assert!(!met.0.keys().any(|case| case.contains("disc") && case.contains("Rust asked true")));
}

/// How dim lies to pos_dim.
fn to_pos_dim(c: &FuseConfig) -> &'static str {
    match c.dim.cmp(&c.pos_dim) {
        std::cmp::Ordering::Less => "dim below pos_dim",
        std::cmp::Ordering::Equal => "dim at pos_dim",
        std::cmp::Ordering::Greater => "dim above pos_dim",
    }
}

/// Where the last command's first number stands that is not finite.
fn unfit(i: &brake::BrakeIn) -> Option<&'static str> {
    let place = i.last.iter().position(|x| !x.is_finite())?;
    Some(match place {
        j if j >= i.cfg.dim => "past dim",
        j if j >= i.cfg.pos_dim => "past pos_dim",
        _ => "within pos_dim",
    })
}

/// What of a last command is judged and read: its length and its numbers, with the number that is given, in either mode.
fn note_last(met: &mut Met, name: &str, i: &brake::BrakeIn, number: u8, with_zeros: impl Fn(Vec<f64>) -> u8) {
    let (c, mode) = (&i.cfg, format!("{name} {:?}", i.cfg.gripper));
    let shape = if c.shape.disc { "disc" } else { "box" };
    let (short, place) = (i.last.len() < c.dim, unfit(i).unwrap_or("nowhere"));
    met.note(format!("{mode} {number}"));
    if number == 0 {
        met.note(format!("{mode} {shape}, {:?}, {}", c.kind, to_pos_dim(c)));
        met.note(format!("{mode} {:?}, {}, short {short}, not finite {place}", c.kind, to_pos_dim(c)));
        met.note(format!("{mode} dim {} pos_dim {}", c.dim, c.pos_dim));
        met.note(format!("{mode} room {}", i.out.len() - c.dim));
    }
    if (1..=8).contains(&c.dim) {
        met.note(format!("{mode} dim {}, {} numbers", c.dim, i.last.len()));
    }
    // what a last command of zeros, long enough, would be answered
    let otherwise = with_zeros(vec![0.0; c.dim.min(8)]);
    if c.gripper == Gripper::LastCommand && number != otherwise {
        met.note(format!("{mode} {number} and not {otherwise} by the last command"));
        met.note(format!("{mode} {number} by the last command, {:?}, {}", c.kind, to_pos_dim(c)));
        match number {
            11 => met.note(format!("{mode} 11 by the last command, not finite {}", place != "nowhere")),
            _ => met.note(format!("{mode} 12 by the last command, {place}")),
        }
    }
    if number == 11 && i.out.len() < c.dim {
        met.note(format!("{mode} 11 by the output, the last command short {short}, not finite {}", place != "nowhere"));
    }
    if number != 0 && number < 11 || number > 13 {
        met.note(format!("{mode} the configuration's number, the last command short {short}"));
    }
}

/// What is written past pos_dim: the last command beside what the position has there.
fn note_kept(met: &mut Met, name: &str, i: &brake::BrakeIn) {
    for (j, x) in i.last.iter().enumerate().take(i.cfg.dim).skip(i.cfg.pos_dim) {
        let zero = if *x != 0.0 {
            "no zero"
        } else if x.is_sign_negative() {
            "-0.0"
        } else {
            "0.0"
        };
        let there = match i.p.get(j) {
            None => "missing",
            Some(0.0) => "0",
            Some(_) => "elsewhere",
        };
        met.note(format!("{name} keeps {zero}, the position {there}"));
        met.note(format!("{name} keeps axis {j} of {}", i.cfg.dim));
    }
}

#[test]
fn the_grippers_of_brake_and_hold() {
    let (port, mut met) = (Port::default(), Met::new());
    for entry in [brake::brake_action_with_a_gripper(&port), brake::hold_action_with_a_gripper(&port)] {
        let name = entry.name;
        for call in 0..CALLS * 2 {
            let i = entry.input(1, call);
            let answered = |i: &brake::BrakeIn| (entry.model)(i).answer.map_or_else(|r| r.number, |_| 0);
            let number = answered(&i);
            note_last(&mut met, name, &i, number, |last| answered(&brake::BrakeIn { last, ..i.clone() }));
            let velocity = matches!(i.cfg.kind, ActionKind::JointVelocity | ActionKind::EeDelta);
            if number == 0 && !velocity && i.cfg.gripper == Gripper::LastCommand {
                note_kept(&mut met, name, &i);
            }
            let shape = if i.cfg.shape.disc { "disc" } else { "box" };
            note_rust(&mut met, &entry, &i, &format!("{:?} {shape}", i.cfg.gripper));
        }
        every_gripper_is_met(&met, name);
        met.all([format!("{name} ToZero box 0, Rust asked true")]);
        met.all(
            ["ToZero disc", "LastCommand box", "LastCommand disc"].map(|c| format!("{name} {c} 0, Rust asked false")),
        );
        met.all(["ToZero", "LastCommand"].map(|mode| format!("{name} {mode} disc 13, Rust asked false")));
    }
    met.all([
        "brake_action with a gripper ToZero box 13, Rust asked true".to_string(),
        "brake_action with a gripper LastCommand box 13, Rust asked false".to_string(),
    ]);
    let asked = |case: &&String| case.contains("Rust asked true");
    assert!(met.0.keys().filter(asked).all(|case| case.contains("ToZero box")), "the Rust has one mode, and the box");
}

/// What `note_last` and `note_kept` have to have met of one entry.
fn every_gripper_is_met(met: &Met, name: &str) {
    let of = |mode: &str, case: String| format!("{name} {mode} {case}");
    let (modes, sizes) = (["ToZero", "LastCommand"], ["dim below pos_dim", "dim at pos_dim", "dim above pos_dim"]);
    let kinds = differential::part::KINDS.map(|kind| format!("{kind:?}"));
    for mode in modes {
        met.all([0, 1, 2, 3, 4, 11, 12, 13, 15, 17].map(|number| of(mode, number.to_string())));
        for kind in &kinds {
            met.all(
                sizes.iter().flat_map(|size| ["box", "disc"].map(|shape| of(mode, format!("{shape}, {kind}, {size}")))),
            );
        }
        met.all((1..=8).flat_map(|dim| (1..=8).map(move |pos_dim| of(mode, format!("dim {dim} pos_dim {pos_dim}")))));
        met.all((1..=8).flat_map(|dim| (0..=dim + 2).map(move |n| of(mode, format!("dim {dim}, {n} numbers")))));
        met.all([0, 1, 2].map(|room| of(mode, format!("room {room}"))));
        met.all(
            [true, false].map(|short| of(mode, format!("the configuration's number, the last command short {short}"))),
        );
        let both = [(true, true), (true, false), (false, true), (false, false)];
        met.all(both.map(|(short, unfit)| {
            of(mode, format!("11 by the output, the last command short {short}, not finite {unfit}"))
        }));
    }
    // in the Rust's mode any last command is accepted
    for (kind, size) in kinds.iter().flat_map(|kind| sizes.map(|size| (kind, size))) {
        let places = if size == sizes[2] { &["within pos_dim", "past pos_dim"][..] } else { &["within pos_dim"] };
        let accepted =
            |short: bool, place: &str| of("ToZero", format!("{kind}, {size}, short {short}, not finite {place}"));
        met.all(places.iter().chain(&["nowhere"]).flat_map(|place| [true, false].map(|short| accepted(short, place))));
        met.all([accepted(false, "past dim")]);
        let kept = format!("{kind}, {size}, short false, not finite nowhere");
        met.all([of("LastCommand", kept)]);
    }
    // and in the new one it is judged for every kind and every size
    for number in [11, 12] {
        let by = |kind: &String, size: &str| of("LastCommand", format!("{number} by the last command, {kind}, {size}"));
        met.all(kinds.iter().flat_map(|kind| sizes.map(|size| by(kind, size))));
    }
    met.all(
        ["within pos_dim", "past pos_dim", "past dim"]
            .map(|p| of("LastCommand", format!("12 by the last command, {p}"))),
    );
    met.all([true, false].map(|unfit| of("LastCommand", format!("11 by the last command, not finite {unfit}"))));
    let before = ["11 and not 0", "11 and not 12", "11 and not 13", "12 and not 0", "12 and not 13"];
    met.all(before.map(|case| of("LastCommand", format!("{case} by the last command"))));
    let zeros = ["no zero", "0.0", "-0.0"];
    met.all(zeros.iter().flat_map(|zero| {
        ["missing", "0", "elsewhere"].map(|there| format!("{name} keeps {zero}, the position {there}"))
    }));
    met.all((2..=8).flat_map(|dim| (1..dim).map(move |j| format!("{name} keeps axis {j} of {dim}"))));
    let judged = |case: &String| case.starts_with(&format!("{name} LastCommand")) && case.contains(", short ");
    assert!(met.0.keys().filter(|case| judged(case)).all(|case| case.ends_with("short false, not finite nowhere")));
}

#[test]
fn the_round_tables_of_derive() {
    let (entry, mut met) = (envelope::derive_on_a_round_table(&Port::default()), Met::new());
    for call in 0..CALLS * 2 {
        let c = entry.input(1, call);
        note_shape(&mut met, entry.name, &c, (entry.model)(&c).answer.map_or_else(|r| r.number, |_| 0));
    }
    every_shape_is_met(&met, entry.name);
}

#[test]
fn the_sides_of_clamp() {
    let (entry, mut met) = (fmath::order(&Port::default()), Met::new());
    for call in 0..CALLS {
        let fmath::OrderIn { x, lo, hi } = entry.input(1, call);
        let side = model::fmath::side(x, lo, hi);
        if x == 0.0 && (lo == 0.0 || hi == 0.0) {
            let wall = if lo == 0.0 { "low" } else { "high" };
            met.note(format!(
                "{wall} limit at 0, of the sign of x {}",
                if lo == 0.0 { lo } else { hi }.to_bits() == x.to_bits()
            ));
        }
        met.note(format!("crossed {} NaN {} side {side}", lo > hi, x.is_nan()));
        met.note(format!("infinite {} side {side}", x.is_infinite()));
        for (limit, on, out) in [("low", lo, lo.next_down()), ("high", hi, hi.next_up())] {
            if x == on || x == out {
                met.note(format!("{limit} limit touched {} side {side}", x == on));
            }
        }
    }
    met.all([-1, 0, 1].map(|side| format!("crossed false NaN false side {side}")));
    met.all([-1, 1].map(|side| format!("crossed true NaN false side {side}")));
    met.all([-1, 1].map(|side| format!("infinite true side {side}")));
    met.all([true, false].map(|crossed| format!("crossed {crossed} NaN true side 0")));
    met.all(["low limit touched true side 0", "low limit touched false side -1"].map(String::from));
    met.all(["high limit touched true side 0", "high limit touched false side 1"].map(String::from));
    met.all(
        ["low", "high"].iter().flat_map(|l| [true, false].map(|s| format!("{l} limit at 0, of the sign of x {s}"))),
    );
}

#[test]
fn the_forecast() {
    let entry = brake::brake_feasible(&Port::default());
    let mut met = Met::new();
    for call in 0..CALLS * 3 {
        let mut i = entry.input(1, call);
        let kind = format!("{:?}", i.cfg.brake.kind);
        match model::brake::brake_feasible(&i.cfg, &i.p, &i.v, i.ch.view(), i.from, &mut i.slacks) {
            Ok(r) => {
                met.note(format!("{kind} feasible {}", r.feasible));
                met.note(format!("{kind} {:?}", i.cfg.kind));
                if r.margin == 0.0 {
                    met.note(format!("{kind} margin 0"));
                }
            }
            Err(Refusal { number: 13, place }) => {
                let n = count_of(&i.cfg, i.from);
                let at = if place == 1 {
                    "first"
                } else if place <= n {
                    "between"
                } else {
                    "after the last"
                };
                met.note(format!("{kind} 13 {at}"));
            }
            Err(_) => (),
        }
    }
    let kinds = differential::part::BRAKES.map(|k| format!("{k:?}"));
    let cases = ["feasible true", "feasible false", "margin 0", "13 first", "13 between", "13 after the last"];
    met.all(kinds.iter().flat_map(|k| cases.map(|c| format!("{k} {c}"))));
    let actions = differential::part::KINDS.map(|k| format!("{k:?}"));
    met.all(kinds.iter().flat_map(|k| actions.iter().map(move |a| format!("{k} {a}"))));
}

/// The slices of a run, by what it reads of them and by their least length.
const LENT: [&str; 4] = ["setpoint", "position", "velocity", "entries"];

/// Of a run that is refused with 11 or 12: which slice is short alone and by how much, and where the number that is not finite stands.
fn note_unfit(met: &mut Met, name: &str, i: &towards::RunIn, number: u8) {
    let FuseConfig { dim, pos_dim, .. } = i.cfg;
    let lent = [(&i.setpoint, dim), (&i.p, pos_dim), (&i.v, pos_dim), (&i.slacks, i.n)];
    let short: Vec<usize> = (0..4).filter(|k| lent[*k].0.len() < lent[*k].1).collect();
    match (number, &short[..]) {
        (11, [k]) => {
            let by_one = lent[*k].0.len() + 1 == lent[*k].1;
            met.note(format!("{name} 11 by the {} alone, by one {by_one}", LENT[*k]));
        }
        (12, _) => {
            for (k, (slice, least)) in lent.into_iter().enumerate().take(3) {
                for at in (0..slice.len()).filter(|at| !slice[*at].is_finite()) {
                    let place = match at {
                        at if at < i.live() => "on a live axis",
                        at if at < least => "past the live axes",
                        _ => "past its least length",
                    };
                    met.note(format!("{name} 12 in the {} {place}", LENT[k]));
                }
            }
        }
        _ => (),
    }
}

/// What a run is: its sizes, kind and substeps, what it is lent past those, and where 13 is, by the plant or by the slack.
fn note_run(met: &mut Met, name: &str, i: &towards::RunIn) -> u8 {
    let (mut p, mut v, mut slacks) = (i.p.clone(), i.v.clone(), i.slacks.clone());
    let answer = model::brake::run_towards(&i.cfg, &i.setpoint, &mut p, &mut v, i.n, &mut slacks);
    let number = answer.map_or_else(|r| r.number, |_| 0);
    met.note(format!("{name} number {number}"));
    note_unfit(met, name, i, number);
    match answer {
        Ok(r) => {
            met.note(format!("{name} {:?}", i.cfg.brake.kind));
            met.note(format!("{name} {}", to_pos_dim(&i.cfg)));
            let n = [(i.n == 0, "none"), (i.n > 4096, "more than a forecast's"), (true, "some")];
            let many = n.into_iter().find(|(is, _)| *is).map_or("", |(_, many)| many);
            met.note(format!("{name} substeps {many}, entries past them {}", slacks.len() > i.n));
            for (lent, least) in [(&i.setpoint, i.cfg.dim), (&i.p, i.cfg.pos_dim), (&i.v, i.cfg.pos_dim)] {
                met.note(format!("{name} past its least length {}", lent.len() > least));
            }
            if i.n > 0 {
                met.note(format!("{name} margin {}", if r.margin == 0.0 { "0" } else { "of another number" }));
                met.note(format!("{name} margin is the last slack {}", r.margin == slacks[i.n - 1]));
                met.note(format!("{name} margin below 0 {}", r.margin < 0.0));
                let zero = |x: f64| slacks[..i.n].iter().any(|s| s.to_bits() == x.to_bits());
                met.note(format!("{name} slacks of both zeros {}", zero(0.0) && zero(-0.0)));
            }
        }
        Err(Refusal { number: 13, place }) => {
            let at = [(place == 1, "first"), (place == i.n, "last"), (true, "between")];
            let at = at.into_iter().find(|(is, _)| *is).map_or("", |(_, at)| at);
            met.note(format!("{name} 13 {at}"));
            met.note(format!("{name} 13 {:?}", i.cfg.brake.kind));
            // walls and radius from which a slack is finite, so that what is left is the plant's
            let mut near = i.cfg;
            (near.box_lo, near.box_hi, near.margin) = ([-1.0; 8], [1.0; 8], 0.0);
            near.shape.disc = false;
            let other = towards::RunIn { cfg: near, ..i.clone() }.answer(place);
            met.note(format!("{name} 13 by the slack alone {}", other.is_ok()));
        }
        Err(_) => (),
    }
    number
}

/// What every entry of runs has to have met.
fn every_run_is_met(met: &Met, name: &str) {
    met.all([0, 1, 2, 3, 4, 11, 12, 13, 17].map(|number| format!("{name} number {number}")));
    met.all(LENT.iter().flat_map(|k| [true, false].map(|one| format!("{name} 11 by the {k} alone, by one {one}"))));
    let places = ["on a live axis", "past the live axes", "past its least length"];
    met.all(LENT[..3].iter().flat_map(|k| places.map(|place| format!("{name} 12 in the {k} {place}"))));
    met.all(differential::part::BRAKES.iter().flat_map(|k| [format!("{name} {k:?}"), format!("{name} 13 {k:?}")]));
    met.all(["first", "between", "last"].map(|at| format!("{name} 13 {at}")));
    let sizes = ["dim above pos_dim", "dim at pos_dim", "dim below pos_dim"];
    met.all(sizes.map(|size| format!("{name} {size}")));
    let substeps = ["none", "some", "more than a forecast's"];
    met.all(
        substeps
            .iter()
            .flat_map(|n| [true, false].map(|past| format!("{name} substeps {n}, entries past them {past}"))),
    );
    let told = ["past its least length", "margin is the last slack", "margin below 0", "13 by the slack alone"];
    met.all(told.iter().flat_map(|case| [true, false].map(|is| format!("{name} {case} {is}"))));
    met.all(["0", "of another number"].map(|margin| format!("{name} margin {margin}")));
}

#[test]
fn the_runs() {
    let (port, mut met) = (Port::default(), Met::new());
    let entries = [
        towards::run_towards(&port),
        towards::run_towards_the_start(&port),
        towards::run_towards_on_a_round_table(&port),
    ];
    for entry in &entries {
        for call in 0..CALLS * 3 {
            let i = entry.input(1, call);
            let number = note_run(&mut met, entry.name, &i);
            let disc = if i.cfg.shape.disc { "disc" } else { "box" };
            note_rust(&mut met, entry, &i, disc);
            note_shape(&mut met, entry.name, &i.cfg, number);
            if i.cfg.shape.disc && number == 0 && i.n > 0 {
                met.note(format!("a run from {}", to_the_edge(&i.cfg.shape, &i.p)));
                met.note(format!("a run towards {}", to_the_edge(&i.cfg.shape, &i.setpoint)));
            }
        }
        every_run_is_met(&met, entry.name);
    }
    let [row, start, table] = entries.map(|entry| entry.name);
    met.all([true, false].map(|both| format!("{row} slacks of both zeros {both}")));
    met.all([0, 13].map(|number| format!("{row} box {number}, Rust asked true")));
    met.all([0, 13].map(|number| format!("{start} box {number}, Rust asked true")));
    met.all([0, 13].map(|number| format!("{table} box {number}, Rust asked true")));
    met.all([0, 13].map(|number| format!("{table} disc {number}, Rust asked false")));
    let never = |words: [&str; 2]| !met.0.keys().any(|case| words.iter().all(|w| case.contains(w)));
    assert!(never(["disc", "Rust asked true"]) && never([&format!("{row} box"), "Rust asked false"]));
    every_shape_is_met(&met, table);
    let places =
        ["at the centre", "on the edge", "a step beyond the edge", "a step inside the edge", "beyond", "inside"];
    met.all(places.iter().flat_map(|place| [format!("a run from {place}"), format!("a run towards {place}")]));
}

#[test]
fn the_features() {
    let entry = tier1::features(&Port::default());
    let mut met = Met::new();
    for call in 0..CALLS {
        let mut i = entry.input(1, call);
        let (before, had) = (i.rt, i.sc.valid >> STALL & 1);
        let new = i.new.as_ref().map(|c| c.view());
        if model::tier1::features(&i.cfg, &mut i.rt, &i.pos, &i.ext, new, &mut i.sc).is_ok() {
            for j in 0..NFEAT {
                met.note(format!("feature {j} chunk {} valid {}", i.new.is_some(), i.sc.valid >> j & 1));
            }
            met.note(format!("Stall's bit in the caller's scores {had}, held {}", before.held_valid >> STALL & 1));
            oracle::take_raised();
            if let Some(stall) = oracle::stall(&i.cfg, &before) {
                met.note(format!("the Rust's Stall {stall:.0}, of finite numbers {}", !oracle::take_raised()));
            }
        }
    }
    // SpeedPeak is always valid with a chunk, and Stall never
    let computed = |j: &usize| *j != STALL;
    let can_miss = (0..NFEAT).filter(|j| *j != SPEED_PEAK);
    met.all((0..NFEAT).filter(computed).map(|j| format!("feature {j} chunk true valid 1")));
    met.all(can_miss.map(|j| format!("feature {j} chunk true valid 0")));
    let bits = [(0, 0), (0, 1), (1, 0), (1, 1)];
    met.all(bits.map(|(had, held)| format!("Stall's bit in the caller's scores {had}, held {held}")));
    if oracle::FLAGS_READ {
        met.all(["NaN", "0", "1"].map(|stall| format!("the Rust's Stall {stall}, of finite numbers false")));
    }
}

/// Of an entry's inputs: 17 for the mask and for a counted term, and an accepted calibration with Stall in a term past the count.
fn note_stall<I: Clone + std::fmt::Debug + 'static>(
    met: &mut Met,
    entry: Entry<I>,
    taken: impl Fn(&I) -> Option<&Calibration>,
) {
    let has = |bits: u32| bits >> STALL & 1 == 1;
    for call in 0..CALLS {
        let input = entry.input(1, call);
        let Some(cal) = taken(&input) else { continue };
        let (counted, past) = cal.terms.split_at((cal.n_terms as usize).min(8));
        let (mask, counted, past) = (has(cal.mask), counted.iter().any(|t| has(*t)), past.iter().any(|t| has(*t)));
        let number = (entry.model)(&input).answer.map_or_else(|r| r.number, |_| 0);
        let name = entry.name;
        match number {
            WITHDRAWN => met.note(format!("{name} 17 mask {mask} counted {counted}")),
            0 if past => met.note(format!("{name} 0 past the count")),
            4 if mask || counted => met.note(format!("{name} 4 before 17")),
            _ => (),
        }
    }
}

/// The calibration of a configuration whose flag is set.
fn of(cfg: &FuseConfig) -> Option<&Calibration> {
    cfg.calibrated.then_some(&cfg.cal)
}

#[test]
fn calibrations_that_name_stall() {
    let (port, mut met) = (Port::default(), Met::new());
    note_stall(&mut met, envelope::derive(&port), of);
    note_stall(&mut met, tier0::check_chunk(&port), |i| of(&i.cfg));
    note_stall(&mut met, tier0::check_action(&port), |i| of(&i.cfg));
    note_stall(&mut met, tier1::features(&port), |i| of(&i.cfg));
    note_stall(&mut met, brake::brake_feasible(&port), |i| of(&i.cfg));
    note_stall(&mut met, towards::run_towards(&port), |i| of(&i.cfg));
    note_stall(&mut met, brake::brake_action(&port), |i| of(&i.cfg));
    note_stall(&mut met, brake::hold_action(&port), |i| of(&i.cfg));
    let configured = [
        "derive",
        "check_chunk",
        "check_action",
        "features",
        "brake_feasible",
        "run_towards",
        "brake_action",
        "hold_action",
    ];
    met.all(configured.map(|name| format!("{name} 4 before 17")));
    note_stall(&mut met, conformal::standardise(&port), |i| Some(&i.cal));
    note_stall(&mut met, conformal::aggregate(&port), |i| Some(&i.cal));
    note_stall(&mut met, conformal::trip(&port), |i| Some(&i.cal));
    let entries = configured.into_iter().chain(["standardise", "aggregate", "trip"]);
    let cases = ["17 mask true counted false", "17 mask false counted true", "0 past the count"];
    met.all(entries.flat_map(|name| cases.map(|case| format!("{name} {case}"))));
}

//! The harness finds a port that is wrong, and shows it with a small input.

use std::time::Duration;

use differential::{
    edges, entries,
    port::{BrakeFeasible, CheckAction, CheckChunk, Derive, Port, RunTowards},
    run::Budget,
};
use model::{
    brake,
    chunk::action,
    fmath::{self, min},
    refusal::{SHAPE, WITHDRAWN},
    AbsentCamera, ActionKind, BrakeKind, BrakeOut, Calibration, ChunkView, ClampMode, ContactLimit, Derived,
    FuseConfig, Gripper, Ran, Refusal, Scores, Shape, Tier0Out, Tier1Rt, Trail, WallMarks, Zones, ACCEL, CONTACT, JERK,
    MAX_D, NAMED, REACH, SPEED, STALL, WORKSPACE,
};

/// What the run of one entry says with this port.
fn failure(port: Port, name: &str) -> String {
    let tasks = entries::all(&port);
    let task = tasks.iter().find(|t| t.name == name).expect("an entry of that name");
    let report = (task.run)(&Budget { seed: 1, calls: 200_000, time: Duration::from_secs(60) });
    let text = report.failure.expect("the wrong port is found out");
    println!("{text}");
    text
}

/// The second-order kind with the old velocity moving the plant; no setpoint phase, all else from the model.
fn old_velocity(
    cfg: &FuseConfig,
    p0: &[f64],
    v0: &[f64],
    ch: ChunkView<'_>,
    from: usize,
    slacks: &mut [f64],
) -> Result<BrakeOut, Refusal> {
    let right = brake::brake_feasible(cfg, p0, v0, ch, from, slacks)?;
    let b = &cfg.brake;
    if b.kind != BrakeKind::PdSecondOrder || cfg.dim != 1 || b.brake_steps != 0 {
        return Ok(right);
    }
    let (lo, hi) = (cfg.box_lo[0] + cfg.margin, cfg.box_hi[0] - cfg.margin);
    let (mut p, mut v) = (p0[0], v0[0]);
    let mut margin = f64::INFINITY;
    for (k, slack) in slacks[..right.count].iter_mut().enumerate() {
        let a = action(&ch, from + k / b.substeps as usize)[0];
        let acc = b.k_p * (a - p) - b.k_v * v;
        p += v * b.dt;
        v += acc * b.dt;
        *slack = min(p - lo, hi - p);
        margin = min(margin, *slack);
    }
    Ok(BrakeOut { margin, feasible: margin >= 0.0, ..right })
}

#[test]
fn the_old_velocity() {
    let text = failure(Port { brake_feasible: Some(old_velocity), ..Port::default() }, "brake_feasible");
    assert!(!text.contains("dim: 2") && text.contains("substeps: 1, commit: 1"), "a small input");
}

#[test]
fn a_margin_of_zero_that_is_not_feasible() {
    let strict = |cfg: &FuseConfig, p: &[f64], v: &[f64], ch: ChunkView<'_>, from: usize, s: &mut [f64]| {
        brake::brake_feasible(cfg, p, v, ch, from, s).map(|r| BrakeOut { feasible: r.margin > 0.0, ..r })
    };
    failure(Port { brake_feasible: Some(strict), ..Port::default() }, "brake_feasible");
}

#[test]
fn a_place_off_by_one() {
    let early = |cfg: &FuseConfig, p: &[f64], v: &[f64], ch: ChunkView<'_>, from: usize, s: &mut [f64]| {
        let less = |r: Refusal| Refusal { place: r.place.saturating_sub(1), ..r };
        brake::brake_feasible(cfg, p, v, ch, from, s).map_err(less)
    };
    failure(Port { brake_feasible: Some(early), ..Port::default() }, "brake_feasible");
}

#[test]
fn a_refusal_that_writes() {
    let writes = |cfg: &FuseConfig, p: &[f64], v: &[f64], ch: ChunkView<'_>, from: usize, s: &mut [f64]| {
        let r = brake::brake_feasible(cfg, p, v, ch, from, s);
        if let (Err(Refusal { number: 13, place }), true) = (r, s.len() > 1) {
            s[place.min(s.len()) - 1] = 0.5;
        }
        r
    };
    let text = failure(Port { brake_feasible: Some(writes), ..Port::default() }, "brake_feasible");
    assert!(text.contains("changes a buffer"));
}

#[test]
fn a_trip_on_the_limit() {
    let touched = |cal: &Calibration, sc: &Scores| model::conformal::trip(cal, sc).map(|_| sc.s >= cal.tau);
    failure(Port { trip: Some(touched), ..Port::default() }, "trip");
}

/// A time bin made from t and the horizon; a horizon of 0 ticks is refused as ever.
macro_rules! binned {
    ($bin:expr) => {
        |t: u32, horizon_ticks: u32| {
            let bin: fn(u64, u64) -> u64 = $bin;
            model::conformal::time_bin(t, horizon_ticks).map(|_| bin(t as u64, horizon_ticks as u64) as usize)
        }
    };
}

#[test]
fn a_time_bin_beside_the_right_one() {
    let said = |time_bin| failure(Port { time_bin: Some(time_bin), ..Port::default() }, "time_bin");
    said(binned!(|t, h| (t * 16 / h).min(15)));
    said(binned!(|t, h| ((t.max(1) - 1) * 16).div_ceil(h).min(15)));
    let wrapped = said(binned!(|t, h| ((t as u32).wrapping_sub(1) as u64 * 16 / h).min(15)));
    assert!(wrapped.contains("counts [15], not [0]") && wrapped.contains("t: 0,"));
    let too_many = said(binned!(|t, h| ((t.max(1) - 1) * 16 / h).min(16)));
    assert!(too_many.contains("counts [16], not [15]"));
}

#[test]
fn the_leash_to_the_raw_row() {
    let raw = |cfg: &FuseConfig, pos: &[f64], aux: &[f64], ch: ChunkView<'_>, out: &mut [f64]| {
        let r = model::tier0::check_chunk(cfg, pos, aux, ch, out)?;
        for (i, row) in ch.data.chunks(cfg.dim).enumerate().skip(1) {
            let at = i * cfg.dim;
            let before = &ch.data[at - cfg.dim..at];
            let still = FuseConfig { armed: cfg.armed & !model::REACH, ..*cfg };
            let _ = model::tier0::check_action(&still, pos, aux, before, row, &mut out[at..]);
        }
        Ok(r)
    };
    let text = failure(Port { check_chunk: Some(raw), ..Port::default() }, "check_chunk");
    assert!(text.contains("horizon: 2,"), "a small input");
}

/// A check whose trips come from limits nudged by one step: a limit that is touched trips, or no longer does.
macro_rules! nudged {
    ($change:expr) => {
        |cfg: &FuseConfig, pos: &[f64], aux: &[f64], ch: ChunkView<'_>, out: &mut [f64]| {
            let change: fn(&mut FuseConfig) = $change;
            let mut other = *cfg;
            change(&mut other);
            let trips = model::tier0::check_chunk(&other, pos, aux, ch, &mut out.to_vec()).map(|r| r.trips);
            let r = model::tier0::check_chunk(cfg, pos, aux, ch, out)?;
            Ok(model::Tier0Out { trips: trips.unwrap_or(r.trips), ..r })
        }
    };
}

fn nudge_zone(cfg: &mut FuseConfig, change: fn(&mut model::ContactLimit)) {
    cfg.zones.counted_mut().iter_mut().for_each(change);
}

#[test]
fn limits_that_trip_when_touched() {
    let ports: [differential::port::CheckChunk; 8] = [
        nudged!(|c| c.v_max = c.v_max.next_down()),
        nudged!(|c| c.a_max = c.a_max.next_down()),
        nudged!(|c| c.j_max = c.j_max.next_down()),
        nudged!(|c| c.reach_max = c.reach_max.next_down()),
        nudged!(|c| c.box_lo = c.box_lo.map(f64::next_up)),
        nudged!(|c| c.box_hi = c.box_hi.map(f64::next_down)),
        nudged!(|c| nudge_zone(c, |z| z.radius = z.radius.next_down())),
        nudged!(|c| nudge_zone(c, |z| z.v_max = z.v_max.next_down())),
    ];
    for check in ports {
        failure(Port { check_chunk: Some(check), ..Port::default() }, "check_chunk");
    }
}

/// The text of a run that finds other sides than the model's, and shows them.
fn sides_found(port: Port, name: &str, sides: &str) -> String {
    let text = failure(port, name);
    assert!(text.contains(&format!("answers otherwise than the model: added {sides}")), "{sides}");
    text
}

#[test]
fn a_side_of_clamp_that_is_another() {
    let said = |clamp_side: differential::port::ClampSide, sides: &str| {
        let clamp = Port { min: Some(fmath::min), max: Some(fmath::max), clamp: Some(fmath::clamp), ..Port::default() };
        sides_found(Port { clamp_side: Some(clamp_side), ..clamp }, "min max clamp", sides)
    };
    let touched_high = said(|x, lo, hi| (fmath::clamp(x, lo, hi), fmath::side(x, lo, hi.next_down())), "[1, ");
    assert!(touched_high.contains("OrderIn { x: 0.0, lo: 0.0, hi: 0.0 }"), "a small input");
    said(|x, lo, hi| (fmath::clamp(x, lo, hi), fmath::side(x, lo.next_up(), hi)), "[-1, ");
    said(|x, lo, hi| (fmath::clamp(x, lo, hi), -fmath::side(x, lo, hi)), "[");
    // the high limit is tried first
    said(|x, lo, hi| (fmath::clamp(x, lo, hi), (x > hi) as i64 - (x <= hi && x < lo) as i64), "[1, ");
    // the limit's own zero instead of the one that came
    said(
        |x, lo, hi| (if x == lo { fmath::clamp(lo, lo, hi) } else { fmath::clamp(x, lo, hi) }, fmath::side(x, lo, hi)),
        "[0, ",
    );
    said(|x, lo, hi| (fmath::clamp(x, lo, hi), if x.is_nan() { 1 } else { fmath::side(x, lo, hi) }), "[1, ");
}

/// The masks of a point's first n coordinates, by the side of one number.
fn masks(derived: &Derived, n: usize, point: impl Fn(usize) -> f64, side: fn(f64, f64, f64) -> i64) -> WallMarks {
    let with = |want: i64| {
        let at = |c: &usize| side(point(*c), derived.box_lo[*c], derived.box_hi[*c]) == want;
        (0..n).filter(at).fold(0, |m, c| m | 1 << c)
    };
    WallMarks { low_dims: with(-1), high_dims: with(1) }
}

/// The side of a number for which a high wall that is touched has moved it.
fn touched(x: f64, lo: f64, hi: f64) -> i64 {
    fmath::side(x, lo, hi.next_down())
}

fn shared(cfg: &FuseConfig) -> usize {
    cfg.dim.min(cfg.pos_dim)
}

/// What a wrong check makes its masks of: the configuration and what it derives, the rows as they came and as they go out, and the
/// right answer.
struct Seen<'a> {
    cfg: &'a FuseConfig,
    derived: Derived,
    came: Vec<&'a [f64]>,
    went: Vec<&'a [f64]>,
    right: Tier0Out,
}

impl Seen<'_> {
    fn masks(&self, rows: &[&[f64]], n: usize, side: fn(f64, f64, f64) -> i64) -> (u32, u32) {
        let each = rows.iter().map(|row| masks(&self.derived, n, |c| row[c], side));
        each.fold((0, 0), |(low, high), w| (low | w.low_dims, high | w.high_dims))
    }

    /// The masks where the rows are moved into the box.
    fn moved(&self, rows: &[&[f64]], n: usize, side: fn(f64, f64, f64) -> i64) -> (u32, u32) {
        match self.project() && self.box_armed() {
            true => self.masks(rows, n, side),
            false => (0, 0),
        }
    }

    fn project(&self) -> bool {
        self.cfg.clamp == ClampMode::Project
    }

    fn box_armed(&self) -> bool {
        self.cfg.armed & WORKSPACE != 0
    }
}

/// The model's check of a chunk, and of an action, with other masks.
macro_rules! masked {
    ($masks:expr) => {{
        const MASKS: fn(&Seen<'_>) -> (u32, u32) = $masks;
        fn other(cfg: &FuseConfig, rows: &[f64], out: &[f64], right: Tier0Out) -> Result<Tier0Out, Refusal> {
            let derived = model::envelope::derive(cfg)?;
            let (came, went) = (rows.chunks(cfg.dim).collect(), out[..rows.len()].chunks(cfg.dim).collect());
            let (low_dims, high_dims) = MASKS(&Seen { cfg, derived, came, went, right });
            Ok(Tier0Out { low_dims, high_dims, ..right })
        }
        let check_chunk: CheckChunk = |cfg, pos, aux, ch, out| {
            let right = model::tier0::check_chunk(cfg, pos, aux, ch, out)?;
            other(cfg, ch.data, out, right)
        };
        let check_action: CheckAction = |cfg, pos, aux, prev, a, out| {
            let right = model::tier0::check_action(cfg, pos, aux, prev, a, out)?;
            other(cfg, &a[..cfg.dim], out, right)
        };
        Port { check_chunk: Some(check_chunk), check_action: Some(check_action), ..Port::default() }
    }};
}

#[test]
fn masks_of_a_check_that_are_others() {
    let touched = masked!(|s| s.moved(&s.came, shared(s.cfg), touched));
    let swapped = masked!(|s| (s.right.high_dims, s.right.low_dims));
    let leashed = masked!(|s| {
        let moved = s.came.iter().zip(&s.went).flat_map(|(a, b)| a.iter().zip(*b).enumerate());
        moved.fold((s.right.low_dims, s.right.high_dims), |(low, high), (c, (a, b))| {
            (low | ((a < b) as u32) << c, high | ((a > b) as u32) << c)
        })
    });
    let past_pos_dim = masked!(|s| s.moved(&s.came, s.cfg.dim, fmath::side));
    let under_off = masked!(|s| match s.box_armed() {
        true => s.masks(&s.came, shared(s.cfg), fmath::side),
        false => (0, 0),
    });
    let unarmed = masked!(|s| match s.project() {
        true => s.masks(&s.came, shared(s.cfg), fmath::side),
        false => (0, 0),
    });
    let as_it_went = masked!(|s| (s.right.low_dims & s.right.clamped_dims, s.right.high_dims & s.right.clamped_dims));
    for name in ["check_chunk at walls", "check_action at walls"] {
        sides_found(touched, name, "[0, 1], not [0, 0]");
        sides_found(swapped, name, "[");
        sides_found(leashed, name, "[");
        sides_found(past_pos_dim, name, "[");
        let text = sides_found(under_off, name, "[");
        assert!(text.contains("not [0, 0]") && !text.contains("clamp: Project"), "a small input");
        sides_found(unarmed, name, "[");
        sides_found(as_it_went, name, "[0, 0], not [");
    }
}

#[test]
fn a_side_of_the_last_row_alone() {
    let last = masked!(|s| s.moved(&s.came[s.came.len() - 1..], shared(s.cfg), fmath::side));
    let text = sides_found(last, "check_chunk at walls", "[0, 0], not [");
    assert!(text.contains("horizon: 2,"), "a small input");
}

/// What a check is told of the world: the configuration, the position and the camera's message.
struct World {
    cfg: FuseConfig,
    pos: Vec<f64>,
    aux: Vec<f64>,
}

impl World {
    fn has(&self, channel: u8) -> bool {
        self.aux.len() > channel as usize
    }

    /// The zone where one is configured and not seen.
    fn unseen(&self) -> Option<ContactLimit> {
        let zone = self.cfg.zones.counted().first().copied();
        zone.filter(|z| !self.has(z.a0) || !self.has(z.a1) || self.pos.len() < 2)
    }

    fn slow(&self) -> bool {
        self.cfg.absent_camera == AbsentCamera::Slow
    }

    /// A message that has the channel, with this number where it was missing.
    fn add(&mut self, channel: u8, x: f64) {
        if !self.has(channel) {
            self.aux.resize(channel as usize + 1, 0.0);
            self.aux[channel as usize] = x;
        }
    }
}

/// The model's checks in another world than the one that they are told of.
macro_rules! told {
    ($change:expr) => {{
        const CHANGE: fn(&mut World) = $change;
        fn other(cfg: &FuseConfig, pos: &[f64], aux: &[f64]) -> World {
            let mut world = World { cfg: *cfg, pos: pos.to_vec(), aux: aux.to_vec() };
            CHANGE(&mut world);
            world
        }
        let check_chunk: CheckChunk = |cfg, pos, aux, ch, out| {
            let w = other(cfg, pos, aux);
            model::tier0::check_chunk(&w.cfg, &w.pos, &w.aux, ch, out)
        };
        let check_action: CheckAction = |cfg, pos, aux, prev, a, out| {
            let w = other(cfg, pos, aux);
            model::tier0::check_action(&w.cfg, &w.pos, &w.aux, prev, a, out)
        };
        Port { check_chunk: Some(check_chunk), check_action: Some(check_action), ..Port::default() }
    }};
}

/// The texts of both checks' runs with a short camera.
fn camera_found(port: Port) -> [String; 2] {
    ["check_chunk with a short camera", "check_action with a short camera"].map(|name| failure(port, name))
}

#[test]
fn the_new_choice_switches_the_zone_off() {
    for text in camera_found(told!(|w| w.cfg.absent_camera = AbsentCamera::NoZone)) {
        assert!(text.contains("counts [0, 0], not [32, 0]") && text.contains("pos: [0.0], aux: []"), "a small input");
    }
}

#[test]
fn the_old_choice_is_the_default() {
    let swapped = told!(|w| {
        w.cfg.absent_camera = if w.slow() { AbsentCamera::NoZone } else { AbsentCamera::Slow };
    });
    for text in camera_found(swapped) {
        assert!(
            text.contains("counts [0, 0], not [32, 0]") && !text.contains("absent_camera"),
            "a form without a tick"
        );
    }
}

#[test]
fn the_new_choice_slows_where_no_zone_is_configured() {
    let invented = told!(|w| {
        if w.slow() && w.cfg.zones.count == 0 {
            w.cfg.zones = Zones::of(&[ContactLimit { radius: 0.0, v_max: 5e-324, a0: 254, a1: 255 }]);
            w.cfg.aux_count = 256;
        }
    });
    for text in camera_found(invented) {
        assert!(text.contains("the port") && !text.contains("zones:") && text.contains("armed:"), "no zone");
    }
}

#[test]
fn the_new_choice_slows_where_contact_is_not_armed() {
    let armed = told!(|w| {
        if w.slow() && w.unseen().is_some() {
            w.cfg.armed |= CONTACT;
        }
    });
    for text in camera_found(armed) {
        assert!(text.contains("counts [32, 0], not [0, 0]") && !text.contains("armed:"), "nothing is armed");
    }
}

#[test]
fn one_missing_channel_counts_as_present() {
    // the distance is then that of the other coordinate
    let one = told!(|w| {
        if let (Some(z), &[x, y, ..]) = (w.unseen(), &w.pos[..]) {
            if w.has(z.a0) || w.has(z.a1) {
                w.add(z.a0, x);
                w.add(z.a1, y);
            }
        }
    });
    for text in camera_found(one) {
        assert!(text.contains("the model accepts") && text.contains("pos: [0.0, 0.0]"), "a position that is there");
    }
}

#[test]
fn a_distance_from_missing_numbers() {
    let zeros = told!(|w| {
        if let Some(z) = w.unseen() {
            w.add(z.a0, 0.0);
            w.add(z.a1, 0.0);
            if (w.pos.len(), w.cfg.pos_dim) == (1, 1) {
                w.pos.push(0.0);
            }
        }
    });
    for text in camera_found(zeros) {
        assert!(
            text.contains("counts [0, 0], not [32, 0]") && text.contains("2.0], aux: []"),
            "no message, and not at 0"
        );
    }
}

#[test]
fn a_short_position_by_the_old_rule() {
    let old = told!(|w| {
        if w.pos.len() < 2 {
            w.cfg.absent_camera = AbsentCamera::NoZone;
        }
    });
    for text in camera_found(old) {
        assert!(text.contains("pos: [0.0],"), "one coordinate");
    }
}

#[test]
fn pos_dim_for_the_lent_length() {
    let cut = told!(|w| {
        if w.pos.iter().all(|x| x.is_finite()) {
            w.pos.truncate(w.cfg.pos_dim);
        }
    });
    for text in camera_found(cut) {
        assert!(
            text.contains("pos: [0.0, 0.0]") && !text.contains("pos_dim:"),
            "two coordinates of an arm that has one"
        );
    }
}

#[test]
fn a_step_that_is_not_evaluated() {
    let unevaluated = told!(|w| {
        if w.unseen().is_some_and(|z| !(z.v_max * w.cfg.dt).is_finite()) {
            w.cfg.absent_camera = AbsentCamera::NoZone;
        }
    });
    for text in camera_found(unevaluated) {
        assert!(text.contains("the port accepts; the model says Refusal { number: 13, place: 0 }"));
    }
}

/// 13 where the distance is not finite, what is missing counting as 0.
fn measured(cfg: &FuseConfig, pos: &[f64], aux: &[f64]) -> Result<(), Refusal> {
    let at = |v: &[f64], i: usize| v.get(i).copied().unwrap_or(0.0);
    let Some(z) = cfg.zones.counted().first().filter(|_| cfg.armed & CONTACT != 0) else { return Ok(()) };
    let centre = [at(aux, z.a0 as usize), at(aux, z.a1 as usize)];
    fmath::dist(&[at(pos, 0), at(pos, 1)], &centre, 2).map(|_| ())
}

#[test]
fn a_distance_that_is_evaluated_and_dropped() {
    let check_chunk: CheckChunk = |cfg, pos, aux, ch, out| {
        model::tier0::check_chunk(cfg, pos, aux, ch, &mut out.to_vec())?;
        measured(cfg, pos, aux)?;
        model::tier0::check_chunk(cfg, pos, aux, ch, out)
    };
    let check_action: CheckAction = |cfg, pos, aux, prev, a, out| {
        model::tier0::check_action(cfg, pos, aux, prev, a, &mut out.to_vec())?;
        measured(cfg, pos, aux)?;
        model::tier0::check_action(cfg, pos, aux, prev, a, out)
    };
    for text in
        camera_found(Port { check_chunk: Some(check_chunk), check_action: Some(check_action), ..Port::default() })
    {
        assert!(text.contains("the port says Refusal { number: 13, place: 0 }; the model accepts"));
    }
}

#[test]
fn a_message_that_is_not_judged() {
    let unjudged = told!(|w| {
        if w.cfg.zones.counted().first().is_some_and(|z| !w.has(z.a0.max(z.a1))) {
            w.aux.iter_mut().filter(|x| !x.is_finite()).for_each(|x| *x = 0.0);
        }
    });
    for text in camera_found(unjudged) {
        assert!(text.contains("the port accepts; the model says Refusal { number: 12, place: 0 }"));
    }
}

/// The texts of both checks' runs with several zones.
fn zones_found(port: Port) -> [String; 2] {
    ["check_chunk with several zones", "check_action with several zones"].map(|name| failure(port, name))
}

impl World {
    fn sees(&self, zone: &ContactLimit) -> bool {
        self.has(zone.a0) && self.has(zone.a1) && self.pos.len() >= 2
    }

    /// The counted zones that the arm is inside.
    fn inside(&self) -> Vec<ContactLimit> {
        let inside = |z: &&ContactLimit| match self.sees(z) {
            true => {
                let centre = [self.aux[z.a0 as usize], self.aux[z.a1 as usize]];
                fmath::dist(&self.pos, &centre, 2).is_ok_and(|d| d <= z.radius)
            }
            false => self.slow(),
        };
        self.cfg.zones.counted().iter().filter(inside).copied().collect()
    }

    /// Whether two counted zones name the same pair, one of them turned.
    fn names_twice(&self, turned: bool) -> bool {
        let of = |z: &ContactLimit| if turned { (z.a1, z.a0) } else { (z.a0, z.a1) };
        let zones = self.cfg.zones.counted();
        (0..zones.len()).any(|i| zones[..i].iter().any(|z| of(z) == (zones[i].a0, zones[i].a1)))
    }

    fn keep(&mut self, such: impl FnMut(&ContactLimit) -> bool) {
        let mut kept = self.cfg.zones.counted().to_vec();
        kept.retain(such);
        self.cfg.zones = Zones::of(&kept);
    }
}

/// How a wrong check takes the answer that is right and the one of another world.
#[derive(Clone, Copy, PartialEq)]
enum Takes {
    /// Where the right one is accepted, all of the other.
    Accepted,
    /// The other's trips alone.
    Trips,
    /// The other's rows and what is said of them.
    Rows,
    /// The same, where the right one raises no check that moves a row.
    CalmRows,
    /// Where the right one is this refusal, the other.
    Refused(u8),
}

/// None of the checks that move a row is raised.
fn calm(found: &Tier0Out) -> bool {
    found.trips & (WORKSPACE | SPEED | REACH | CONTACT) == 0
}

/// An answer with the rows that go out.
type Row = (Result<Tier0Out, Refusal>, Vec<f64>);

fn taken(takes: Takes, (right, rows): Row, (other, moved): Row) -> Row {
    match (takes, right, other) {
        (Takes::Accepted, Ok(_), Ok(_)) => (other, moved),
        (Takes::Trips, Ok(r), Ok(o)) => (Ok(Tier0Out { trips: o.trips, ..r }), rows),
        (Takes::Rows, Ok(r), Ok(o)) => (Ok(Tier0Out { trips: r.trips, ..o }), moved),
        (Takes::CalmRows, Ok(r), Ok(o)) if calm(&r) => (Ok(Tier0Out { trips: r.trips, ..o }), moved),
        (Takes::Refused(number), Err(r), _) if r.number == number => (other, moved),
        _ => (right, rows),
    }
}

/// The model's checks, of which a part is answered in another world.
macro_rules! mistaken {
    ($takes:expr, $change:expr) => {{
        const CHANGE: fn(&mut World) = $change;
        fn other(cfg: &FuseConfig, pos: &[f64], aux: &[f64]) -> World {
            let mut world = World { cfg: *cfg, pos: pos.to_vec(), aux: aux.to_vec() };
            CHANGE(&mut world);
            world
        }
        let check_chunk: CheckChunk = |cfg, pos, aux, ch, out| {
            let w = other(cfg, pos, aux);
            let asked = |cfg: &FuseConfig, pos: &[f64], aux: &[f64]| {
                let mut rows = out.to_vec();
                (model::tier0::check_chunk(cfg, pos, aux, ch, &mut rows), rows)
            };
            let (answer, rows) = taken($takes, asked(cfg, pos, aux), asked(&w.cfg, &w.pos, &w.aux));
            out.copy_from_slice(&rows);
            answer
        };
        let check_action: CheckAction = |cfg, pos, aux, prev, a, out| {
            let w = other(cfg, pos, aux);
            let asked = |cfg: &FuseConfig, pos: &[f64], aux: &[f64]| {
                let mut row = out.to_vec();
                (model::tier0::check_action(cfg, pos, aux, prev, a, &mut row), row)
            };
            let (answer, row) = taken($takes, asked(cfg, pos, aux), asked(&w.cfg, &w.pos, &w.aux));
            out.copy_from_slice(&row);
            answer
        };
        Port { check_chunk: Some(check_chunk), check_action: Some(check_action), ..Port::default() }
    }};
}

/// Only the first zone that the arm is inside: a slower one after it is passed over, by the trip and by the leash.
#[test]
fn only_the_first_zone_counts() {
    for text in zones_found(mistaken!(Takes::Accepted, |w| {
        let first = w.inside().first().copied();
        w.keep(|z| Some(*z) == first);
    })) {
        assert!(text.contains("zones: Zones { count: 2,"), "two zones");
    }
    for text in zones_found(mistaken!(Takes::Rows, |w| {
        let first = w.inside().first().copied();
        w.keep(|z| Some(*z) == first);
    })) {
        assert!(text.contains("zones: Zones { count: 2,") && text.contains("clamp: Project"), "the leash of two zones");
    }
}

/// The zone that the greatest step is of.
fn fastest(zones: &[ContactLimit]) -> Option<ContactLimit> {
    zones.iter().copied().reduce(|a, b| if b.v_max > a.v_max { b } else { a })
}

#[test]
fn the_greatest_step() {
    let all = mistaken!(Takes::Accepted, |w| {
        let fastest = fastest(&w.inside());
        w.keep(|z| Some(*z) == fastest);
    });
    // a trip only where every zone's step is exceeded, and a leash that is right
    let trips = mistaken!(Takes::Trips, |w| {
        let fastest = fastest(&w.inside());
        w.keep(|z| Some(*z) == fastest);
    });
    // a trip that is right, and a leash of the greatest step
    let rows = mistaken!(Takes::Rows, |w| {
        let fastest = fastest(&w.inside());
        w.keep(|z| Some(*z) == fastest);
    });
    for text in [all, trips, rows].into_iter().flat_map(zones_found) {
        assert!(text.contains("zones: Zones { count: 2,"), "two zones");
    }
}

#[test]
fn the_last_zone_counts() {
    let port = mistaken!(Takes::Accepted, |w| {
        let last = w.inside().last().copied();
        w.keep(|z| Some(*z) == last);
    });
    for text in zones_found(port) {
        assert!(text.contains("zones: Zones { count: 2,"), "two zones");
    }
}

/// Where what stands past the count is accepted it changes the answer, and where it is not it is refused.
#[test]
fn zones_past_the_count_are_read() {
    for text in zones_found(mistaken!(Takes::Accepted, |w| w.cfg.zones.count = w.cfg.zones.count.max(4))) {
        assert!(
            text.contains("the port answers otherwise than the model")
                || text.contains("the port leaves other buffers")
        );
    }
    for text in zones_found(told!(|w| w.cfg.zones.count = w.cfg.zones.count.max(4))) {
        assert!(text.contains("the port says Refusal { number: 2, place: 0 }") && !text.contains("zones:"), "no zone");
    }
}

#[test]
fn a_swapped_pair_is_refused() {
    for text in zones_found(told!(|w| {
        if w.names_twice(true) {
            w.cfg.aux_count = 0;
        }
    })) {
        assert!(text.contains("the port says Refusal { number: 4, place: 0 }"));
        assert!(text.contains("zones: Zones { count: 2,"), "two zones");
        assert!(text.contains("a0: 0, a1: 1 }") && text.contains("a0: 1, a1: 0 }"), "on the same channels");
    }
}

#[test]
fn a_repeated_pair_is_accepted() {
    for text in zones_found(mistaken!(Takes::Refused(4), |w| {
        let mut met = Vec::new();
        w.keep(|z| {
            met.push((z.a0, z.a1));
            !met[..met.len() - 1].contains(&(z.a0, z.a1))
        });
    })) {
        assert!(text.contains("the model says Refusal { number: 4, place: 0 }"));
        assert!(text.contains("zones: Zones { count: 2,"), "two zones");
    }
}

/// Neither its numbers nor its channels.
#[test]
fn the_fourth_zone_is_not_judged() {
    for text in zones_found(mistaken!(Takes::Refused(2), |w| w.cfg.zones.count = w.cfg.zones.count.min(3))) {
        assert!(
            text.contains("the model says Refusal { number: 2, place: 0 }")
                && text.contains("zones: Zones { count: 4,")
        );
    }
    for text in zones_found(mistaken!(Takes::Refused(4), |w| w.cfg.zones.count = w.cfg.zones.count.min(3))) {
        assert!(
            text.contains("the model says Refusal { number: 4, place: 0 }")
                && text.contains("zones: Zones { count: 4,")
        );
    }
}

#[test]
fn five_zones_are_four() {
    for text in zones_found(told!(|w| w.cfg.zones.count = w.cfg.zones.count.min(4))) {
        assert!(
            text.contains("the model says Refusal { number: 1, place: 0 }")
                && text.contains("zones: Zones { count: 5,")
        );
    }
}

/// Zones after the first that the arm is inside are not evaluated, so that what is not finite of them is passed over.
#[test]
fn a_zone_is_skipped_because_another_decides() {
    for text in zones_found(mistaken!(Takes::Refused(13), |w| {
        let (first, mut met) = (w.inside().first().copied(), false);
        w.keep(|z| {
            let before = met;
            met |= Some(*z) == first;
            !before
        });
    })) {
        assert!(text.contains("the port accepts; the model says Refusal { number: 13, place: 0 }"));
        assert!(text.contains("zones: Zones { count: 2,"), "two zones");
    }
}

/// All are seen or not as the first is.
#[test]
fn the_choice_by_the_first_zones_channels() {
    let unseen = mistaken!(Takes::Accepted, |w| {
        if w.cfg.zones.counted().first().is_some_and(|z| !w.sees(z)) {
            w.aux.clear();
        }
    });
    let seen = mistaken!(Takes::Accepted, |w| {
        if w.cfg.zones.counted().first().is_some_and(|z| w.sees(z)) {
            let world = World { cfg: w.cfg, pos: w.pos.clone(), aux: w.aux.clone() };
            w.keep(|z| world.sees(z));
        }
    });
    for text in [unseen, seen].into_iter().flat_map(zones_found) {
        assert!(text.contains("zones: Zones { count: 2,"), "two zones");
    }
}

/// The leash of a zone where SPEED's step is less, and SPEED's where a zone's is less.
#[test]
fn the_leash_of_one_kind() {
    let zones = mistaken!(Takes::Rows, |w| {
        if !w.inside().is_empty() && w.cfg.armed & CONTACT != 0 {
            w.cfg.armed &= !SPEED;
        }
    });
    let speed = mistaken!(Takes::Rows, |w| {
        if w.cfg.armed & SPEED != 0 {
            w.cfg.armed &= !CONTACT;
        }
    });
    for text in [zones, speed].into_iter().flat_map(zones_found) {
        assert!(text.contains("clamp: Project") && text.contains("zones: Zones { count: 1,"), "a zone beside SPEED");
    }
}

/// A field of the others taken from the first, or their channels the other way round.
#[test]
fn fields_of_another_zone() {
    let radius = mistaken!(Takes::Accepted, |w| {
        let first = w.cfg.zones.list[0].radius;
        w.cfg.zones.counted_mut().iter_mut().for_each(|z| z.radius = first);
    });
    let speed = mistaken!(Takes::Accepted, |w| {
        let first = w.cfg.zones.list[0].v_max;
        w.cfg.zones.counted_mut().iter_mut().for_each(|z| z.v_max = first);
    });
    let turned = mistaken!(Takes::Accepted, |w| {
        w.cfg.zones.counted_mut().iter_mut().skip(1).for_each(|z| (z.a0, z.a1) = (z.a1, z.a0));
    });
    for text in [radius, speed, turned].into_iter().flat_map(zones_found) {
        assert!(text.contains("zones: Zones { count: 2,"), "two zones");
    }
}

/// A brake and a hold with other masks, made of the configuration, the position and the right ones.
macro_rules! braked {
    ($masks:expr) => {{
        const MASKS: fn(&FuseConfig, &[f64], WallMarks) -> WallMarks = $masks;
        Port {
            brake_action: Some(|cfg, p, v, last, out| {
                brake::brake_action(cfg, p, v, last, out).map(|w| MASKS(cfg, p, w))
            }),
            hold_action: Some(|cfg, p, last, out| brake::hold_action(cfg, p, last, out).map(|w| MASKS(cfg, p, w))),
            ..Port::default()
        }
    }};
}

/// The masks of a position, 0.0 past its end.
fn position_masks(cfg: &FuseConfig, p: &[f64], n: usize, side: fn(f64, f64, f64) -> i64) -> WallMarks {
    let derived = model::envelope::derive(cfg).expect("a configuration that is accepted");
    masks(&derived, n, |c| p.get(c).copied().unwrap_or(0.0), side)
}

/// Whether brake and hold write positions.
fn positions(cfg: &FuseConfig) -> bool {
    !matches!(cfg.kind, ActionKind::JointVelocity | ActionKind::EeDelta)
}

#[test]
fn masks_of_brake_and_hold_that_are_others() {
    let touched = braked!(|c, p, w| if positions(c) { position_masks(c, p, shared(c), touched) } else { w });
    let swapped = braked!(|_, _, w| WallMarks { low_dims: w.high_dims, high_dims: w.low_dims });
    let past_pos_dim = braked!(|c, p, w| if positions(c) { position_masks(c, p, c.dim, fmath::side) } else { w });
    let not_under_off = braked!(|c, _, w| if c.clamp == ClampMode::Off { WallMarks::default() } else { w });
    let not_unarmed = braked!(|c, _, w| if c.armed & WORKSPACE == 0 { WallMarks::default() } else { w });
    let velocities = braked!(|c, p, _| position_masks(c, p, shared(c), fmath::side));
    let missing = braked!(|_, p, w| {
        let there = (1 << p.len().min(MAX_D)) - 1;
        WallMarks { low_dims: w.low_dims & there, high_dims: w.high_dims & there }
    });
    for name in ["brake_action at walls", "hold_action at walls"] {
        sides_found(touched, name, "[0, 1], not [0, 0]");
        sides_found(swapped, name, "[");
        sides_found(past_pos_dim, name, "[");
        sides_found(not_under_off, name, "[0, 0], not [");
        sides_found(not_unarmed, name, "[0, 0], not [");
        sides_found(velocities, name, "[");
        sides_found(missing, name, "[0, 0], not [");
    }
}

/// A judging of another configuration than the one that is given.
macro_rules! judged {
    ($change:expr) => {
        |cfg: &FuseConfig| {
            let change: fn(&mut FuseConfig) = $change;
            let mut other = *cfg;
            change(&mut other);
            model::envelope::derive(&other)
        }
    };
}

// ---- round tables

/// The text of an entry's run on round tables.
fn on_table(port: Port, entry: &str) -> String {
    failure(port, &format!("{entry} on a round table"))
}

const CHECKS: [&str; 2] = ["check_chunk", "check_action"];
const ROWS_SENT: [&str; 2] = ["brake_action", "hold_action"];

/// The model's brake, hold and forecast with another configuration, where both are accepted.
macro_rules! braked_with {
    ($change:expr) => {{
        const CHANGE: fn(&mut FuseConfig) = $change;
        fn other(cfg: &FuseConfig) -> FuseConfig {
            let mut other = *cfg;
            CHANGE(&mut other);
            other
        }
        Port {
            brake_feasible: Some(|cfg, p, v, ch, from, slacks| {
                let mut seen = slacks.to_vec();
                let right = brake::brake_feasible(cfg, p, v, ch, from, slacks)?;
                let answer = brake::brake_feasible(&other(cfg), p, v, ch, from, &mut seen);
                if answer.is_ok() {
                    slacks.copy_from_slice(&seen);
                }
                Ok(answer.unwrap_or(right))
            }),
            brake_action: Some(|cfg, p, v, last, out| {
                let mut seen = out.to_vec();
                let right = brake::brake_action(cfg, p, v, last, out)?;
                let answer = brake::brake_action(&other(cfg), p, v, last, &mut seen);
                if answer.is_ok() {
                    out.copy_from_slice(&seen);
                }
                Ok(answer.unwrap_or(right))
            }),
            hold_action: Some(|cfg, p, last, out| {
                let mut seen = out.to_vec();
                let right = brake::hold_action(cfg, p, last, out)?;
                let answer = brake::hold_action(&other(cfg), p, last, &mut seen);
                if answer.is_ok() {
                    out.copy_from_slice(&seen);
                }
                Ok(answer.unwrap_or(right))
            }),
            ..Port::default()
        }
    }};
}

/// Whether the workspace is a round table.
fn table(cfg: &FuseConfig) -> bool {
    cfg.shape.disc
}

/// The square round a disc, in the place of the disc, where no margin moves it.
fn square(cfg: &mut FuseConfig) {
    if table(cfg) && cfg.margin == 0.0 {
        let Shape { center, radius, .. } = cfg.shape;
        for (c, x) in center.into_iter().enumerate() {
            (cfg.box_lo[c], cfg.box_hi[c]) = (x - radius, x + radius);
        }
        cfg.shape.disc = false;
    }
}

/// A disc that nothing exceeds.
fn endless(cfg: &mut FuseConfig) {
    if table(cfg) {
        cfg.shape.radius = f64::MAX;
    }
}

#[test]
fn the_margin_moves_the_disc() {
    for entry in CHECKS {
        let text = on_table(mistaken!(Takes::Accepted, |w| w.cfg.shape.radius -= w.cfg.margin), entry);
        assert!(text.contains("disc: true") && text.contains("margin:"), "a table and a margin");
    }
    for entry in ROWS_SENT.into_iter().chain(["brake_feasible"]) {
        let text = on_table(braked_with!(|c| c.shape.radius -= c.margin), entry);
        assert!(text.contains("disc: true") && text.contains("margin:"), "a table and a margin");
    }
}

/// A judging that refuses what another configuration is refused for, where the given one is accepted.
macro_rules! refuses_as {
    ($change:expr) => {
        |cfg: &FuseConfig| {
            let change: fn(&mut FuseConfig) = $change;
            let mut other = *cfg;
            change(&mut other);
            match (model::envelope::derive(cfg), model::envelope::derive(&other)) {
                (Ok(_), Err(r)) => Err(r),
                (right, _) => right,
            }
        }
    };
}

/// A judging that accepts a configuration that is refused, where another one is accepted.
macro_rules! accepts_as {
    ($change:expr) => {
        |cfg: &FuseConfig| {
            let change: fn(&mut FuseConfig) = $change;
            let mut other = *cfg;
            change(&mut other);
            match (model::envelope::derive(cfg), model::envelope::derive(&other)) {
                (Err(_), Ok(derived)) => Ok(derived),
                (right, _) => right,
            }
        }
    };
}

/// The text of the run of a judging that is wrong on round tables.
fn judging_found(derive: Derive, answer: &str) -> String {
    let text = on_table(Port { derive: Some(derive), ..Port::default() }, "derive");
    assert!(text.contains(answer), "{answer}");
    text
}

#[test]
fn what_a_shape_does_not_read_is_judged() {
    let two = "the port says Refusal { number: 2, place: 0 }; the model accepts";
    let walls = judging_found(refuses_as!(|c| c.shape.disc = false), two);
    assert!(walls.contains("box_") && walls.contains("disc: true"), "the walls of a disc");
    let first = refuses_as!(|c| {
        (c.box_lo[1], c.box_hi[1]) = (0.0, 2.0 * c.margin);
        c.shape.disc = false;
    });
    let first = judging_found(first, two);
    assert!(first.contains("box_") && first.contains("disc: true"), "the first axis of a disc");
    let centre = refuses_as!(|c| {
        (c.shape.disc, c.shape.radius, c.dim, c.pos_dim) = (true, 1.0, c.dim.max(2), c.pos_dim.max(2));
        (c.norm_center, c.norm_scale) = ([0.0; 8], [1.0; 8]);
    });
    let centre = judging_found(centre, two);
    assert!(centre.contains("shape: Shape { disc: false, center: ["), "the centre of a box");
    let radius = refuses_as!(|c| {
        (c.shape, c.dim, c.pos_dim) = (Shape::disc([0.0; 2], c.shape.radius), c.dim.max(2), c.pos_dim.max(2));
        (c.norm_center, c.norm_scale) = ([0.0; 8], [1.0; 8]);
    });
    let radius = judging_found(radius, two);
    assert!(!radius.contains("disc: true"), "the radius of a box");
}

#[test]
fn what_a_disc_reads_is_not_judged() {
    let said = |derive: Derive, number: u8| {
        let answer = format!("the port accepts; the model says Refusal {{ number: {number}, place: 0 }}");
        let text = judging_found(derive, &answer);
        assert!(text.contains("disc: true"), "a table");
    };
    said(accepts_as!(|c| c.shape.radius = if c.shape.radius == 0.0 { 1.0 } else { c.shape.radius }), 2);
    said(accepts_as!(|c| c.shape.radius = if c.shape.radius < 0.0 { 1.0 } else { c.shape.radius }), 2);
    said(accepts_as!(|c| c.shape.radius = if c.shape.radius.is_finite() { c.shape.radius } else { 1.0 }), 2);
    said(accepts_as!(|c| c.shape.center[0] = if c.shape.center[0].is_finite() { c.shape.center[0] } else { 0.0 }), 2);
    said(accepts_as!(|c| c.shape.center[1] = if c.shape.center[1].is_finite() { c.shape.center[1] } else { 0.0 }), 2);
    said(accepts_as!(|c| c.margin = if c.shape.disc { 0.0 } else { c.margin }), 2);
    said(
        accepts_as!(|c| if c.shape.disc {
            (c.box_lo, c.box_hi) = ([0.0; 8], [2.0 * c.margin; 8])
        }),
        2,
    );
    said(accepts_as!(|c| c.pos_dim += (c.shape.disc && c.pos_dim == 1) as usize), 15);
    said(
        accepts_as!(|c| if c.shape.disc && c.dim == 1 {
            (c.dim, c.norm_center[1], c.norm_scale[1]) = (2, 0.0, 1.0)
        }),
        15,
    );
    // both of them below 2
    said(
        accepts_as!(|c| if (c.dim, c.pos_dim) == (1, 1) {
            (c.shape.disc, c.box_lo, c.box_hi) = (false, [0.0; 8], [2.0 * c.margin; 8]);
        }),
        15,
    );
}

#[test]
fn walls_of_a_disc_that_are_derived() {
    let derive: Derive = |cfg| {
        let mut d = model::envelope::derive(cfg)?;
        let low = cfg.box_lo[0] + cfg.margin;
        if table(cfg) && low.is_finite() {
            d.box_lo[0] = low;
        }
        Ok(d)
    };
    let text = on_table(Port { derive: Some(derive), ..Port::default() }, "derive");
    assert!(text.contains("number 5 is") && text.contains("disc: true"), "the first low wall");
}

#[test]
fn fifteen_judged_elsewhere() {
    judging_found(
        shape_before_channels,
        "the port says Refusal { number: 15, place: 0 }; the model says Refusal { number: 4, place: 0 }",
    );
    judging_found(
        shape_after_stall,
        "the port says Refusal { number: 17, place: 0 }; the model says Refusal { number: 15, place: 0 }",
    );
    let two: Derive = |cfg| match model::envelope::derive(cfg) {
        Ok(_) if table(cfg) && cfg.pos_dim == 2 => Err(Refusal { number: SHAPE, place: 0 }),
        said => said,
    };
    judging_found(two, "the port says Refusal { number: 15, place: 0 }; the model accepts");
}

#[test]
fn an_edge_that_trips_when_touched() {
    for entry in CHECKS {
        let text = on_table(mistaken!(Takes::Trips, |w| w.cfg.shape.radius = w.cfg.shape.radius.next_down()), entry);
        assert!(text.contains("counts [1, 0], not [0, 0]") && text.contains("disc: true"), "a small input");
        let later = on_table(mistaken!(Takes::Trips, |w| w.cfg.shape.radius = w.cfg.shape.radius.next_up()), entry);
        assert!(later.contains("disc: true"), "one step too late");
    }
}

#[test]
fn a_square_for_the_disc() {
    for entry in CHECKS {
        let text = on_table(mistaken!(Takes::Accepted, |w| square(&mut w.cfg)), entry);
        assert!(text.contains("disc: true"), "a table");
    }
    for entry in ROWS_SENT {
        on_table(braked_with!(square), entry);
    }
    // the slack as the least of the gaps of x and y
    let text = on_table(braked_with!(square), "brake_feasible");
    assert!(text.contains("the port") && text.contains("disc: true"), "a table");
}

#[test]
fn further_axes_without_walls() {
    for entry in CHECKS {
        let free = mistaken!(Takes::Accepted, |w| if table(&w.cfg) {
            w.cfg.box_lo[2..].fill(-1e300);
            w.cfg.box_hi[2..].fill(1e300);
        });
        let text = on_table(free, entry);
        assert!(text.contains("disc: true") && !text.contains("pos_dim: 2"), "a further axis");
    }
    let free = braked_with!(|c| if table(c) {
        c.box_lo[2..].fill(-1e300);
        c.box_hi[2..].fill(1e300);
    });
    for entry in ROWS_SENT.into_iter().chain(["brake_feasible"]) {
        let text = on_table(free, entry);
        assert!(text.contains("disc: true") && !text.contains("pos_dim: 2"), "a further axis");
    }
}

/// The model's checks in which other rows go into projection; what is raised is of the rows as they came.
macro_rules! projected {
    ($row:expr) => {{
        const ROW: fn(&FuseConfig, &mut [f64]) = $row;
        fn rows(cfg: &FuseConfig, came: &[f64]) -> Vec<f64> {
            let mut rows = came.to_vec();
            rows.chunks_mut(cfg.dim).for_each(|row| ROW(cfg, row));
            rows
        }
        fn moved(cfg: &FuseConfig, came: &[f64], went: &[f64]) -> u32 {
            let each = came.iter().zip(went).enumerate();
            each.fold(0, |m, (i, (a, b))| m | ((a != b) as u32) << (i % cfg.dim))
        }
        let check_chunk: CheckChunk = |cfg, pos, aux, ch, out| {
            let right = model::tier0::check_chunk(cfg, pos, aux, ch, out)?;
            if cfg.clamp == ClampMode::Project {
                let data = rows(cfg, ch.data);
                let _ = model::tier0::check_chunk(cfg, pos, aux, ChunkView { data: &data, ..ch }, out);
            }
            Ok(Tier0Out { clamped_dims: moved(cfg, ch.data, out), ..right })
        };
        let check_action: CheckAction = |cfg, pos, aux, prev, a, out| {
            let right = model::tier0::check_action(cfg, pos, aux, prev, a, out)?;
            if cfg.clamp == ClampMode::Project {
                let row = rows(cfg, &a[..cfg.dim]);
                let _ = model::tier0::check_action(cfg, pos, aux, prev, &row, out);
            }
            Ok(Tier0Out { clamped_dims: moved(cfg, &a[..cfg.dim], out), ..right })
        };
        Port { check_chunk: Some(check_chunk), check_action: Some(check_action), ..Port::default() }
    }};
}

/// A point moved to `limit` from the centre, where it is farther away than `from`.
fn scaled(shape: &Shape, point: &mut [f64], from: f64, limit: f64) {
    let n = fmath::dist(&point[..2], &shape.center, 2).expect("a distance that is finite");
    if n > from {
        for (x, c) in point.iter_mut().zip(shape.center) {
            *x = c + (*x - c) * (limit / n);
        }
    }
}

const SHRINK: f64 = 1.0 - 1.0 / 68719476736.0;

#[test]
fn a_pull_inside_the_disc() {
    let inside = projected!(|cfg, row| if table(cfg) && cfg.armed & WORKSPACE != 0 {
        scaled(&cfg.shape, row, 0.0, cfg.shape.radius * SHRINK);
    });
    for entry in CHECKS {
        let text = on_table(inside, entry);
        assert!(text.contains("], not [0, 0]") && text.contains("disc: true"), "a row that stays");
    }
}

#[test]
fn a_factor_of_1() {
    let whole = projected!(|cfg, row| if table(cfg) && cfg.armed & WORKSPACE != 0 {
        scaled(&cfg.shape, row, cfg.shape.radius, cfg.shape.radius);
    });
    for entry in CHECKS {
        let text = on_table(whole, entry);
        assert!(text.contains("the port leaves other buffers than the model") && text.contains("disc: true"));
    }
    let sent = Port {
        hold_action: Some(|cfg, p, last, out| {
            let walls = brake::hold_action(cfg, p, last, out)?;
            if table(cfg) && positions(cfg) {
                let at = |c: usize| p.get(c).copied().unwrap_or(0.0);
                let mut point = [at(0), at(1)];
                scaled(&cfg.shape, &mut point, cfg.shape.radius, cfg.shape.radius);
                out[..2].copy_from_slice(&point);
            }
            Ok(walls)
        }),
        ..Port::default()
    };
    let text = on_table(sent, "hold_action");
    assert!(text.contains("the port leaves other buffers than the model") && text.contains("disc: true"));
}

/// The leash and the reach first, and then the pull, where that is more than another rounding; the row before is the one that was pulled.
#[test]
fn a_pull_after_the_leash() {
    fn late(cfg: &FuseConfig, pos: &[f64], aux: &[f64], q: &[f64], row: &[f64], first: bool) -> Option<Vec<f64>> {
        let mut out = vec![0.0; cfg.dim];
        let armed = if first { cfg.armed } else { cfg.armed & !REACH };
        let mut free = FuseConfig { armed, ..*cfg };
        endless(&mut free);
        model::tier0::check_action(&free, pos, aux, q, row, &mut out).ok()?;
        scaled(&cfg.shape, &mut out, cfg.shape.radius, cfg.shape.radius * SHRINK);
        Some(out)
    }
    fn apart(a: &[f64], b: &[f64]) -> bool {
        a.iter().zip(b).any(|(x, y)| (x - y).abs() > 1e-6)
    }
    fn pulls(cfg: &FuseConfig) -> bool {
        table(cfg) && cfg.armed & WORKSPACE != 0 && cfg.clamp == ClampMode::Project
    }
    let check_action: CheckAction = |cfg, pos, aux, prev, a, out| {
        let right = model::tier0::check_action(cfg, pos, aux, prev, a, out)?;
        if let Some(row) = pulls(cfg).then(|| late(cfg, pos, aux, prev, a, true)).flatten() {
            if apart(&row, out) {
                out[..cfg.dim].copy_from_slice(&row);
            }
        }
        let clamped_dims = (0..cfg.dim).fold(0, |m, c| m | ((out[c] != a[c]) as u32) << c);
        Ok(Tier0Out { clamped_dims, ..right })
    };
    let check_chunk: CheckChunk = |cfg, pos, aux, ch, out| {
        let right = model::tier0::check_chunk(cfg, pos, aux, ch, out)?;
        let (d, nb, mut clamped_dims) = (cfg.dim, shared(cfg), 0);
        let mut q = [&pos[..nb], &ch.data[nb..d]].concat();
        for (i, row) in ch.data.chunks(d).enumerate() {
            if let Some(moved) = pulls(cfg).then(|| late(cfg, pos, aux, &q, row, i == 0)).flatten() {
                if apart(&moved, &out[i * d..]) {
                    out[i * d..(i + 1) * d].copy_from_slice(&moved);
                }
            }
            q.copy_from_slice(&out[i * d..(i + 1) * d]);
            clamped_dims |= (0..d).fold(0, |m, c| m | ((q[c] != row[c]) as u32) << c);
        }
        Ok(Tier0Out { clamped_dims, ..right })
    };
    for entry in CHECKS {
        let text = on_table(
            Port { check_chunk: Some(check_chunk), check_action: Some(check_action), ..Port::default() },
            entry,
        );
        assert!(text.contains("the port") && text.contains("clamp: Project") && text.contains("disc: true"));
    }
}

#[test]
fn a_pull_where_workspace_is_not_armed() {
    let unarmed = mistaken!(Takes::Rows, |w| if table(&w.cfg) {
        if w.cfg.armed & WORKSPACE == 0 {
            w.cfg.box_lo[2..].fill(-1e300);
            w.cfg.box_hi[2..].fill(1e300);
        }
        w.cfg.armed |= WORKSPACE;
    });
    for entry in CHECKS {
        let text = on_table(unarmed, entry);
        assert!(text.contains("disc: true") && !text.contains("armed:"), "nothing is armed");
    }
    // and brake, hold and the setpoint move inside whatever is armed
    let armed = braked_with!(|c| if c.armed & WORKSPACE == 0 {
        endless(c);
    });
    for entry in ROWS_SENT {
        let text = on_table(armed, entry);
        assert!(text.contains("disc: true") && !text.contains("armed:"), "nothing is armed");
    }
}

#[test]
fn a_position_that_is_not_moved_onto_the_disc() {
    for entry in ROWS_SENT {
        let text = on_table(braked_with!(endless), entry);
        assert!(text.contains("disc: true"), "a table");
    }
    let unmeasured = Port {
        hold_action: Some(|cfg, p, last, out| match brake::hold_action(cfg, p, last, out) {
            Err(r) if r.number == 13 => {
                brake::hold_action(&FuseConfig { shape: Shape::disc([0.0; 2], 1.0), ..*cfg }, &[], last, out)
            }
            said => said,
        }),
        ..Port::default()
    };
    let text = on_table(unmeasured, "hold_action");
    assert!(text.contains("the port accepts; the model says Refusal { number: 13, place: 0 }"));
}

/// Under Off the distance is evaluated only where it decides.
#[test]
fn a_distance_that_is_not_evaluated() {
    let off = mistaken!(Takes::Refused(13), |w| if w.cfg.clamp == ClampMode::Off && table(&w.cfg) {
        w.cfg.armed &= !WORKSPACE;
    });
    for entry in CHECKS {
        let text = on_table(off, entry);
        assert!(text.contains("the port accepts; the model says Refusal { number: 13, place: 0 }"));
        assert!(text.contains("disc: true") && !text.contains("clamp:"), "under Off");
    }
    fn outside(cfg: &FuseConfig, row: &[f64]) -> bool {
        let Ok(d) = model::envelope::derive(cfg) else { return false };
        (2..shared(cfg)).any(|c| fmath::side(row[c], d.box_lo[c], d.box_hi[c]) != 0)
            || fmath::dist(row, &cfg.shape.center, 2).is_ok_and(|n| n > cfg.shape.radius)
    }
    fn unarmed(cfg: &FuseConfig) -> FuseConfig {
        FuseConfig { armed: cfg.armed & !WORKSPACE, ..*cfg }
    }
    fn raised(answer: Result<Tier0Out, Refusal>) -> Result<Tier0Out, Refusal> {
        answer.map(|r| Tier0Out { trips: r.trips | WORKSPACE, ..r })
    }
    // not after a row that is outside
    let later = Port {
        check_chunk: Some(|cfg, pos, aux, ch, out| match model::tier0::check_chunk(cfg, pos, aux, ch, out) {
            Err(r) if r.number == 13 && cfg.clamp == ClampMode::Off && table(cfg) && cfg.armed & WORKSPACE != 0 => {
                let first = ch.data.chunks(cfg.dim).position(|row| outside(cfg, row));
                let measured = &ch.data[..first.map_or(ch.horizon as usize, |i| i + 1) * cfg.dim];
                let fine = measured.chunks(cfg.dim).all(|row| fmath::dist(row, &cfg.shape.center, 2).is_ok());
                if fine {
                    raised(model::tier0::check_chunk(&unarmed(cfg), pos, aux, ch, out))
                } else {
                    Err(r)
                }
            }
            said => said,
        }),
        ..Port::default()
    };
    let text = on_table(later, "check_chunk");
    assert!(text.contains("the port accepts; the model says Refusal { number: 13, place: 0 }"));
    assert!(text.contains("horizon: 2,") && text.contains("disc: true"), "two rows");
    // not where a further axis is outside already
    let axis = Port {
        check_action: Some(|cfg, pos, aux, prev, a, out| {
            match model::tier0::check_action(cfg, pos, aux, prev, a, out) {
                Err(r) if r.number == 13 && cfg.clamp == ClampMode::Off && table(cfg) && outside(cfg, a) => {
                    raised(model::tier0::check_action(&unarmed(cfg), pos, aux, prev, a, out))
                }
                said => said,
            }
        }),
        ..Port::default()
    };
    let text = on_table(axis, "check_action");
    assert!(text.contains("the port accepts; the model says Refusal { number: 13, place: 0 }"));
    assert!(text.contains("disc: true") && !text.contains("pos_dim: 2"), "a further axis");
}

#[test]
fn masks_of_the_first_two_axes() {
    let derived = masked!(|s| s.moved(&s.came, shared(s.cfg), fmath::side));
    for entry in CHECKS {
        let text = on_table(derived, entry);
        assert!(text.contains("added [") && text.contains("not [0, 0]") && text.contains("disc: true"));
    }
    // the side that the pull moved a coordinate to
    let pulled = masked!(|s| {
        let (mut low, mut high) = (s.right.low_dims, s.right.high_dims);
        if table(s.cfg) && s.project() && s.box_armed() {
            for row in &s.came {
                let mut point = [row[0], row[1]];
                scaled(&s.cfg.shape, &mut point, s.cfg.shape.radius, s.cfg.shape.radius * SHRINK);
                for c in 0..2 {
                    low |= ((point[c] > row[c]) as u32) << c;
                    high |= ((point[c] < row[c]) as u32) << c;
                }
            }
        }
        (low, high)
    });
    for entry in CHECKS {
        let text = on_table(pulled, entry);
        assert!(text.contains("added [") && text.contains("not [0, 0]") && text.contains("disc: true"));
    }
    let sent = braked!(|c, p, w| match table(c) && positions(c) {
        true => position_masks(c, p, shared(c), fmath::side),
        false => w,
    });
    for entry in ROWS_SENT {
        let text = on_table(sent, entry);
        assert!(text.contains("added [") && text.contains("not [0, 0]") && text.contains("disc: true"));
    }
}

/// The second-order kind has no row left.
fn no_row_left(cfg: &FuseConfig, from: usize) -> bool {
    cfg.brake.kind == BrakeKind::PdSecondOrder && from >= cfg.brake.commit as usize && table(cfg)
}

/// 13 is for the setpoint, which is the first that is computed.
fn by_the_setpoint(cfg: &FuseConfig, p: &[f64], from: usize, r: &Refusal) -> bool {
    r.number == 13 && no_row_left(cfg, from) && fmath::dist(p, &cfg.shape.center, 2).is_err()
}

#[test]
fn a_setpoint_at_another_place() {
    let said = |brake_feasible: BrakeFeasible, answer: &str| {
        let text = on_table(Port { brake_feasible: Some(brake_feasible), ..Port::default() }, "brake_feasible");
        assert!(text.contains(answer) && text.contains("disc: true"), "{answer}");
        text
    };
    // not made for brake_steps 0
    let unmade = said(
        |cfg, p, v, ch, from, slacks| match brake::brake_feasible(cfg, p, v, ch, from, slacks) {
            Err(r) if by_the_setpoint(cfg, p, from, &r) && cfg.brake.brake_steps == 0 => {
                Ok(BrakeOut { count: 0, feasible: true, margin: f64::INFINITY, stop_dist: 0.0 })
            }
            said => said,
        },
        "the port accepts; the model says Refusal { number: 13, place: 1 }",
    );
    assert!(unmade.contains("commit: 0, brake_steps: 0"), "no row and no braking step");
    // one place too late
    said(
        |cfg, p, v, ch, from, slacks| {
            let late = |r: Refusal| match by_the_setpoint(cfg, p, from, &r) {
                true => Refusal { place: 2, ..r },
                false => r,
            };
            brake::brake_feasible(cfg, p, v, ch, from, slacks).map_err(late)
        },
        "the port says Refusal { number: 13, place: 2 }; the model says Refusal { number: 13, place: 1 }",
    );
    // a start that is checked before, as if it were in place 0
    said(
        |cfg, p, v, ch, from, slacks| {
            let early = |r: Refusal| match by_the_setpoint(cfg, p, from, &r) {
                true => Refusal { place: 0, ..r },
                false => r,
            };
            brake::brake_feasible(cfg, p, v, ch, from, slacks).map_err(early)
        },
        "the port says Refusal { number: 13, place: 0 }; the model says Refusal { number: 13, place: 1 }",
    );
}

/// With no row left the plant is held where it stands, beyond the table, as if that were a row.
#[test]
fn a_setpoint_that_is_not_pulled() {
    let unpulled: BrakeFeasible = |cfg, p, v, ch, from, slacks| {
        let right = brake::brake_feasible(cfg, p, v, ch, from, slacks)?;
        if !no_row_left(cfg, from) || cfg.brake.brake_steps == 0 || cfg.brake.brake_steps > 64 {
            return Ok(right);
        }
        let mut held = *cfg;
        (held.brake.commit, held.brake.brake_steps) = (cfg.brake.brake_steps, 0);
        let mut row = vec![0.0; cfg.dim];
        let n = shared(cfg);
        row[..n].copy_from_slice(&p[..n]);
        let d = model::envelope::derive(cfg)?;
        (2..n).for_each(|c| row[c] = fmath::clamp(row[c], d.box_lo[c], d.box_hi[c]));
        let at = ChunkView { horizon: 1, exec_steps: 0, data: &row, ..ch };
        let mut seen = slacks.to_vec();
        let answer = brake::brake_feasible(&held, p, v, at, 0, &mut seen);
        if answer.is_ok() {
            slacks.copy_from_slice(&seen);
        }
        Ok(answer.unwrap_or(right))
    };
    let text = on_table(Port { brake_feasible: Some(unpulled), ..Port::default() }, "brake_feasible");
    assert!(
        text.contains("the port") && text.contains("disc: true") && text.contains("brake_steps: 1"),
        "a small input"
    );
}

/// The start's slack of a closed kind, without the stopping radius on the disc.
#[test]
fn a_slack_without_the_stopping_radius() {
    let whole: BrakeFeasible = |cfg, p, v, ch, from, slacks| {
        let right = brake::brake_feasible(cfg, p, v, ch, from, slacks)?;
        if !table(cfg) || cfg.brake.kind == BrakeKind::PdSecondOrder || shared(cfg) > 2 {
            return Ok(right);
        }
        slacks[0] = cfg.shape.radius - fmath::dist(p, &cfg.shape.center, 2)?;
        let margin = slacks[..right.count].iter().copied().fold(f64::INFINITY, min);
        Ok(BrakeOut { margin, feasible: margin >= 0.0, ..right })
    };
    let text = on_table(Port { brake_feasible: Some(whole), ..Port::default() }, "brake_feasible");
    assert!(text.contains("the port answers otherwise than the model") && text.contains("disc: true"), "a small input");
    assert!(!text.contains("kind: PdSecondOrder"), "a closed kind");
}

/// A margin of 0 on the edge is feasible.
#[test]
fn an_arm_on_the_edge_that_is_not_feasible() {
    let strict: BrakeFeasible = |cfg, p, v, ch, from, s| {
        brake::brake_feasible(cfg, p, v, ch, from, s).map(|r| BrakeOut { feasible: r.margin > 0.0, ..r })
    };
    let shown = on_table(Port { brake_feasible: Some(strict), ..Port::default() }, "brake_feasible");
    assert!(shown.contains("disc: true"), "{shown}");
}

// ---- grippers

/// What brake and hold are told beside a velocity.
#[derive(Clone)]
struct Told {
    cfg: FuseConfig,
    p: Vec<f64>,
    last: Vec<f64>,
}

impl Told {
    fn keeps(&self) -> bool {
        self.cfg.gripper == Gripper::LastCommand
    }

    /// A last command that is refused with 11 in the new mode, or with 12.
    fn refuse(&mut self, number: u8) {
        self.cfg.gripper = Gripper::LastCommand;
        self.last = vec![f64::NAN; if number == 12 { self.cfg.dim.min(MAX_D) } else { 0 }];
    }

    /// A last command that is long enough, with zeros for what is missing.
    fn lengthen(&mut self) {
        let length = self.last.len().max(self.cfg.dim.min(MAX_D));
        self.last.resize(length, 0.0);
    }

    /// Whether the last command is written past pos_dim.
    fn writes(&self) -> bool {
        self.keeps() && positions(&self.cfg)
    }

    /// The axes that it is written on.
    fn kept(&self) -> std::ops::Range<usize> {
        let end = if self.writes() { self.cfg.dim } else { 0 };
        self.cfg.pos_dim.min(end)..end
    }
}

/// How a wrong brake and a wrong hold part from the model's: what they are told, what they answer, and what they make of the row that an
/// accepted call writes.
struct Wrong {
    told: fn(&mut Told),
    answer: fn(&Told, Result<WallMarks, Refusal>) -> Result<WallMarks, Refusal>,
    row: fn(&Told, &mut [f64]),
}

const RIGHT: Wrong = Wrong { told: |_| (), answer: |_, said| said, row: |_, _| () };

/// A port that parts from the model in one way.
macro_rules! gripped {
    ($($field:ident: $way:expr),*) => {{
        const WRONG: Wrong = Wrong { $($field: $way,)* ..RIGHT };
        fn sent(
            came: Told,
            out: &mut [f64],
            call: impl Fn(&Told, &mut [f64]) -> Result<WallMarks, Refusal>,
        ) -> Result<WallMarks, Refusal> {
            let mut other = came.clone();
            (WRONG.told)(&mut other);
            let walls = (WRONG.answer)(&came, call(&other, out))?;
            (WRONG.row)(&came, &mut out[..came.cfg.dim]);
            Ok(walls)
        }
        Port {
            brake_action: Some(|cfg, p, v, last, out| {
                let came = Told { cfg: *cfg, p: p.to_vec(), last: last.to_vec() };
                sent(came, out, |t, out| brake::brake_action(&t.cfg, &t.p, v, &t.last, out))
            }),
            hold_action: Some(|cfg, p, last, out| {
                let came = Told { cfg: *cfg, p: p.to_vec(), last: last.to_vec() };
                sent(came, out, |t, out| brake::hold_action(&t.cfg, &t.p, &t.last, out))
            }),
            ..Port::default()
        }
    }};
}

/// The texts of both entries' runs with a gripper, which have to say all of this.
fn gripper_found(port: Port, said: &[&str]) -> [String; 2] {
    ROWS_SENT.map(|entry| {
        let text = failure(port, &format!("{entry} with a gripper"));
        for words in said {
            assert!(text.contains(words), "{words} is not said");
        }
        text
    })
}

const KEPT: &str = "gripper: LastCommand";
const OTHER_ROW: &str = "the port leaves other buffers than the model";

#[test]
fn the_last_command_within_pos_dim() {
    let whole = gripped!(row: |t, row| if t.writes() {
        row.copy_from_slice(&t.last[..row.len()]);
    });
    gripper_found(whole, &[OTHER_ROW, KEPT]);
    // the axis before pos_dim, and the one after
    let early = gripped!(row: |t, row| if t.writes() {
        let first = t.cfg.dim.min(t.cfg.pos_dim) - 1;
        row[first] = t.last[first];
    });
    gripper_found(early, &[OTHER_ROW, KEPT]);
    let late = gripped!(row: |t, row| if !t.kept().is_empty() {
        row[t.kept().start] = 0.0;
    });
    gripper_found(late, &[OTHER_ROW, KEPT, "dim: 2"]);
    let ends_early = gripped!(row: |t, row| if t.kept().len() > 1 {
        row[t.kept().end - 1] = 0.0;
    });
    gripper_found(ends_early, &[OTHER_ROW, KEPT, "dim: 3"]);
    // every axis past those of a round table
    let off_the_table = gripped!(row: |t, row| if table(&t.cfg) && t.writes() {
        row[2..].copy_from_slice(&t.last[2..t.cfg.dim]);
    });
    gripper_found(off_the_table, &[OTHER_ROW, KEPT, "disc: true", "pos_dim: 3"]);
}

#[test]
fn a_velocity_that_writes_the_last_command() {
    let past = gripped!(row: |t, row| if t.keeps() && !positions(&t.cfg) && t.cfg.pos_dim < t.cfg.dim {
        row[t.cfg.pos_dim..].copy_from_slice(&t.last[t.cfg.pos_dim..t.cfg.dim]);
    });
    for text in gripper_found(past, &[OTHER_ROW, KEPT, "dim: 2"]) {
        assert!(text.contains("kind: EeDelta") || text.contains("kind: JointVelocity"), "a velocity");
    }
}

#[test]
fn the_rusts_mode_judges_the_last_command() {
    let numbers = gripped!(told: |t| if !t.keeps() && !t.last.iter().all(|x| x.is_finite()) {
        t.refuse(12);
    });
    let length = gripped!(told: |t| if !t.keeps() && t.last.len() < t.cfg.dim {
        t.refuse(11);
    });
    for (port, number) in [(numbers, 12), (length, 11)] {
        let said = format!("the port says Refusal {{ number: {number}, place: 0 }}; the model accepts");
        for text in gripper_found(port, &[&said]) {
            assert!(!text.contains(KEPT), "the Rust's mode");
        }
    }
}

#[test]
fn the_rusts_mode_reads_the_last_command() {
    let read = gripped!(row: |t, row| if !t.writes() {
        let past = t.cfg.pos_dim.min(row.len());
        row[past..].iter_mut().zip(t.last.iter().skip(past)).for_each(|(x, last)| *x = *last);
    });
    for text in gripper_found(read, &[OTHER_ROW, "dim: 2"]) {
        assert!(!text.contains(KEPT), "the Rust's mode");
    }
}

#[test]
fn the_codes_of_the_modes_exchanged() {
    let exchanged = gripped!(told: |t| t.cfg.gripper = if t.keeps() { Gripper::ToZero } else { Gripper::LastCommand });
    for text in gripper_found(exchanged, &["the port says Refusal { number: 11, place: 0 }; the model accepts"]) {
        assert!(!text.contains(KEPT), "a form without a tick");
    }
}

#[test]
fn the_new_mode_drops_the_screw() {
    let opened = gripped!(row: |t, row| row[t.kept()].fill(0.0));
    gripper_found(opened, &[OTHER_ROW, KEPT, "dim: 2"]);
    // where the gripper is, and not where it was sent
    let measured = gripped!(row: |t, row| for j in t.kept() {
        row[j] = t.p.get(j).copied().unwrap_or(0.0);
    });
    gripper_found(measured, &[OTHER_ROW, KEPT, "dim: 2"]);
}

/// The text of a run in which a last command that is refused is accepted.
fn accepted_found(port: Port, number: u8) -> [String; 2] {
    gripper_found(port, &[&format!("the port accepts; the model says Refusal {{ number: {number}, place: 0 }}"), KEPT])
}

#[test]
fn a_short_last_command_that_is_accepted() {
    accepted_found(gripped!(told: |t| t.lengthen()), 11);
    // by one number
    let one = gripped!(told: |t| if t.last.len() + 1 == t.cfg.dim {
        t.lengthen();
    });
    accepted_found(one, 11);
    // where every axis is within pos_dim
    let within = gripped!(told: |t| if t.cfg.dim <= t.cfg.pos_dim {
        t.lengthen();
    });
    for text in accepted_found(within, 11) {
        assert!(!text.contains("dim: 2"), "one axis");
    }
    // where it reaches pos_dim
    let reaching = gripped!(told: |t| if t.last.len() >= t.cfg.pos_dim {
        t.lengthen();
    });
    for text in accepted_found(reaching, 11) {
        assert!(text.contains("dim: 2") && !text.contains("pos_dim"), "an axis past pos_dim");
    }
    // of a velocity
    let velocity = gripped!(told: |t| if !positions(&t.cfg) {
        t.lengthen();
    });
    for text in accepted_found(velocity, 11) {
        assert!(text.contains("kind: EeDelta") || text.contains("kind: JointVelocity"), "a velocity");
    }
}

#[test]
fn a_last_command_that_is_long_enough_is_refused() {
    let said = ["the port says Refusal { number: 11, place: 0 }; the model accepts", KEPT];
    gripper_found(gripped!(told: |t| if t.keeps() && t.last.len() == t.cfg.dim { t.refuse(11) }), &said);
    let by_pos_dim = gripped!(told: |t| if t.keeps() && t.last.len() < t.cfg.pos_dim { t.refuse(11) });
    for text in gripper_found(by_pos_dim, &said) {
        assert!(text.contains("pos_dim: 2"), "more axes of the position");
    }
}

/// What is not finite at some places of the last command is passed over.
macro_rules! passed_over {
    ($place:expr) => {
        gripped!(told: |t| if t.keeps() {
            let passed: fn(&FuseConfig, usize) -> bool = $place;
            for (j, x) in t.last.iter_mut().enumerate().filter(|(_, x)| !x.is_finite()) {
                if passed(&t.cfg, j) {
                    *x = 0.0;
                }
            }
        })
    };
}

#[test]
fn a_last_command_that_is_not_judged() {
    accepted_found(passed_over!(|_, _| true), 12);
    // past dim, within pos_dim, and wherever it is not read
    accepted_found(passed_over!(|c, j| j >= c.dim), 12);
    accepted_found(passed_over!(|c, j| j < c.dim.min(c.pos_dim)), 12);
    accepted_found(passed_over!(|c, j| j >= c.dim || j < c.pos_dim), 12);
    for text in accepted_found(passed_over!(|c, _| c.dim <= c.pos_dim), 12) {
        assert!(!text.contains("dim: 2"), "one axis");
    }
    for text in accepted_found(passed_over!(|c, _| !positions(c)), 12) {
        assert!(text.contains("kind: EeDelta") || text.contains("kind: JointVelocity"), "a velocity");
    }
    // for positions alone, its length and its numbers
    let positions_alone = gripped!(told: |t| if !positions(&t.cfg) {
        t.cfg.gripper = Gripper::ToZero;
    });
    for text in gripper_found(positions_alone, &["the port accepts; the model says Refusal { number: 1", KEPT]) {
        assert!(text.contains("kind: EeDelta") || text.contains("kind: JointVelocity"), "a velocity");
    }
}

#[test]
fn a_last_command_judged_elsewhere() {
    fn unfit(t: &Told) -> bool {
        t.keeps() && !t.last.iter().all(|x| x.is_finite())
    }
    let early = gripped!(answer: |t, said| match said {
        Err(r) if r.number == 11 && unfit(t) => Err(Refusal { number: 12, ..r }),
        said => said,
    });
    let said = "the port says Refusal { number: 12, place: 0 }; the model says Refusal { number: 11, place: 0 }";
    gripper_found(early, &[said, KEPT]);
    let late = gripped!(answer: |t, said| match said {
        Err(r) if r.number == 12 && unfit(t) => {
            let mut finite = t.clone();
            finite.last.fill(0.0);
            Err(brake::hold_action(&finite.cfg, &finite.p, &finite.last, &mut [0.0; MAX_D]).err().unwrap_or(r))
        }
        said => said,
    });
    let said = "the port says Refusal { number: 13, place: 0 }; the model says Refusal { number: 12, place: 0 }";
    gripper_found(late, &[said, KEPT, "disc: true"]);
    // before the configuration
    let first = gripped!(answer: |t, said| match said {
        Err(r) if r.number < 11 && unfit(t) => Err(Refusal { number: 12, ..r }),
        said => said,
    });
    gripper_found(first, &["the port says Refusal { number: 12, place: 0 }; the model says Refusal { number:", KEPT]);
}

#[test]
fn a_last_command_that_is_changed() {
    // a zero of the other sign is the same number, and not the last command
    let unsigned = gripped!(row: |t, row| for j in t.kept() {
        row[j] = t.last[j] + 0.0;
    });
    for text in gripper_found(unsigned, &["answers otherwise than the model: added [", KEPT]) {
        assert!(text.contains("-0.0"), "a zero below 0");
    }
    // its first numbers, in the place of those past pos_dim
    let shifted = gripped!(row: |t, row| for j in t.kept() {
        row[j] = t.last[j - t.cfg.pos_dim];
    });
    gripper_found(shifted, &[OTHER_ROW, KEPT, "dim: 2"]);
    // moved between the walls that the configuration has there, where they are walls
    let walled = gripped!(row: |t, row| for j in t.kept() {
        let (lo, hi) = (t.cfg.box_lo[j], t.cfg.box_hi[j]);
        if lo <= hi {
            row[j] = fmath::clamp(row[j], lo, hi);
        }
    });
    gripper_found(walled, &[OTHER_ROW, KEPT]);
    let unprojected = gripped!(row: |t, row| if t.cfg.clamp == ClampMode::Off || t.cfg.armed & WORKSPACE == 0 {
        row[t.kept()].fill(0.0);
    });
    gripper_found(unprojected, &[OTHER_ROW, KEPT]);
}

#[test]
fn masks_of_a_last_command() {
    let marked = gripped!(answer: |t, said| said.map(|w| {
        let with = |is: fn(f64) -> bool| t.kept().filter(|j| is(t.last[*j])).fold(0, |m, j| m | 1 << j);
        WallMarks { low_dims: w.low_dims | with(|x| x < 0.0), high_dims: w.high_dims | with(|x| x > 0.0) }
    }));
    gripper_found(marked, &["answers otherwise than the model: added [", KEPT]);
    let unmarked = gripped!(answer: |t, said| said.map(|w| if t.keeps() { WallMarks::default() } else { w }));
    gripper_found(unmarked, &["answers otherwise than the model: added [0, 0", KEPT]);
}

/// The last command written, and then the refusal of a position that cannot be measured.
#[test]
fn a_refusal_that_writes_the_last_command() {
    let writes = Port {
        hold_action: Some(|cfg, p, last, out| {
            let said = brake::hold_action(cfg, p, last, out);
            if said.is_err_and(|r| r.number == 13) && cfg.gripper == Gripper::LastCommand && cfg.pos_dim < cfg.dim {
                out[cfg.pos_dim..cfg.dim].copy_from_slice(&last[cfg.pos_dim..cfg.dim]);
            }
            said
        }),
        ..Port::default()
    };
    let text = failure(writes, "hold_action with a gripper");
    assert!(text.contains("the port refuses and yet changes a buffer") && text.contains(KEPT));
}

// ---- calm rows

/// The model's checks, with something done to what an accepted call answers and writes: of the configuration and the rows as they came.
macro_rules! spoilt {
    ($spoil:expr) => {{
        const SPOIL: fn(&FuseConfig, &[f64], &mut Tier0Out, &mut [f64]) = $spoil;
        let check_chunk: CheckChunk = |cfg, pos, aux, ch, out| {
            let mut found = model::tier0::check_chunk(cfg, pos, aux, ch, out)?;
            SPOIL(cfg, ch.data, &mut found, out);
            Ok(found)
        };
        let check_action: CheckAction = |cfg, pos, aux, prev, a, out| {
            let mut found = model::tier0::check_action(cfg, pos, aux, prev, a, out)?;
            SPOIL(cfg, &a[..cfg.dim], &mut found, out);
            Ok(found)
        };
        Port { check_chunk: Some(check_chunk), check_action: Some(check_action), ..Port::default() }
    }};
}

/// Moves each row between two others to their mean, where rows are projected and none is moved for another cause.
fn smooth(cfg: &FuseConfig, rows: &[f64], found: &mut Tier0Out, out: &mut [f64]) {
    if cfg.clamp == ClampMode::Off || !calm(found) {
        return;
    }
    let (d, went) = (cfg.dim, out[..rows.len()].to_vec());
    for k in d..rows.len() - d {
        out[k] = (went[k - d] + went[k + d]) / 2.0;
        found.clamped_dims |= ((out[k] != rows[k]) as u32) << (k % d);
    }
}

#[test]
fn rows_that_are_smoothed() {
    let jerk = spoilt!(|cfg, rows, found, out| if found.trips & JERK != 0 {
        smooth(cfg, rows, found, out);
    });
    let accel = spoilt!(|cfg, rows, found, out| if found.trips & ACCEL != 0 {
        smooth(cfg, rows, found, out);
    });
    for port in [jerk, accel] {
        let text = failure(port, "check_chunk");
        assert!(text.contains("counts [") && text.contains(", 0]\n") && text.contains("horizon: 3,"), "three rows");
    }
}

/// The texts of both checks' runs with a port that moves calm rows, or says so: under Project, where clamped_dims is 0.
fn calm_found(port: Port) -> [String; 2] {
    CHECKS.map(|entry| {
        let text = failure(port, entry);
        assert!(text.contains("the port answers otherwise than the model: counts [") && text.contains(", 0]\n"));
        assert!(text.contains("clamp: Project"));
        text
    })
}

#[test]
fn a_leash_that_accel_or_jerk_arms() {
    let jerk = mistaken!(Takes::CalmRows, |w| if w.cfg.armed & JERK != 0 {
        w.cfg.armed |= SPEED;
    });
    let accel = mistaken!(Takes::CalmRows, |w| if w.cfg.armed & ACCEL != 0 {
        w.cfg.armed |= SPEED;
    });
    for [chunk, _] in [jerk, accel].map(calm_found) {
        assert!(chunk.contains("horizon: 1,"), "one row");
    }
}

/// Projection by a limit that is not armed, each in turn.
#[test]
fn a_limit_that_is_applied_and_not_armed() {
    let workspace = mistaken!(Takes::CalmRows, |w| w.cfg.armed |= WORKSPACE);
    let speed = mistaken!(Takes::CalmRows, |w| w.cfg.armed |= SPEED);
    let reach = mistaken!(Takes::CalmRows, |w| w.cfg.armed |= REACH);
    let contact = mistaken!(Takes::CalmRows, |w| w.cfg.armed |= CONTACT);
    for text in [workspace, speed, reach, contact].into_iter().flat_map(calm_found) {
        assert!(!text.contains("armed:"), "nothing is armed");
    }
}

/// The model's checks, of which a part is answered with a limit that is a step of the format less: SPEED's, REACH's, CONTACT's, and a low and a
/// high wall.
macro_rules! lowered {
    ($takes:expr) => {
        [
            mistaken!($takes, |w| w.cfg.v_max = w.cfg.v_max.next_down()),
            mistaken!($takes, |w| w.cfg.reach_max = w.cfg.reach_max.next_down()),
            mistaken!($takes, |w| nudge_zone(&mut w.cfg, |z| z.v_max = z.v_max.next_down())),
            mistaken!($takes, |w| w.cfg.box_lo = w.cfg.box_lo.map(f64::next_up)),
            mistaken!($takes, |w| w.cfg.box_hi = w.cfg.box_hi.map(f64::next_down)),
        ]
    };
}

/// What is armed in the smallest input of a text, which does not show a 0.
fn armed(text: &str) -> u32 {
    let number = text.split_once("armed: ").and_then(|(_, rest)| rest.split_once(','));
    number.map_or(0, |(armed, _)| armed.parse().expect("a number"))
}

#[test]
fn a_row_that_is_moved_where_it_touches() {
    let limits = [
        (SPEED, "v_max: "),
        (REACH, "reach_max: "),
        (CONTACT, "zones: "),
        (WORKSPACE, "box_lo: "),
        (WORKSPACE, "box_hi: "),
    ];
    for (port, (bit, limit)) in lowered!(Takes::CalmRows).into_iter().zip(limits) {
        for text in calm_found(port) {
            assert!(armed(&text) & bit != 0 && text.contains(limit), "{limit}is armed and touched");
        }
    }
}

#[test]
fn an_action_that_trips_when_touched() {
    for (port, bit) in lowered!(Takes::Trips).into_iter().zip([SPEED, REACH, CONTACT, WORKSPACE, WORKSPACE]) {
        let text = failure(port, "check_action");
        assert!(text.contains(&format!("counts [{bit}, 0], not [0, 0]")), "a limit that is touched");
    }
}

#[test]
fn a_calm_chunk_with_a_mark() {
    let every = spoilt!(|cfg, _, found, _| if calm(found) && cfg.clamp == ClampMode::Project {
        found.clamped_dims |= 1;
    });
    let on_a_wall = spoilt!(|cfg, rows, found, _| {
        if calm(found) && cfg.clamp == ClampMode::Project && cfg.armed & WORKSPACE != 0 {
            let on_it = |k: &usize| k % cfg.dim < cfg.pos_dim && rows[*k] == cfg.box_hi[k % cfg.dim] - cfg.margin;
            found.clamped_dims |= (0..rows.len()).filter(on_it).fold(0, |m, k| m | 1 << (k % cfg.dim));
        }
    });
    for text in [every, on_a_wall].into_iter().flat_map(calm_found) {
        assert!(text.contains("counts [0, 1], not [0, 0]"), "a small input");
    }
    let told = spoilt!(|_, _, found, _| if found.trips & (ACCEL | JERK) != 0 {
        found.clamped_dims |= 1;
    });
    let text = failure(told, "check_chunk");
    assert!(text.contains("counts [4, 1], not [4, 0]") && text.contains("horizon: 2,"), "two rows");
}

#[test]
fn a_number_past_the_rows_that_is_written() {
    let past = spoilt!(|_, rows, _, out| out[rows.len()..].fill(0.0));
    for entry in CHECKS {
        let text = failure(past, entry);
        assert!(text.contains("leaves other buffers than the model: number 1 is 0.0, not 1.0"), "a small input");
    }
}

/// Every zero without its sign; and the zero of a high wall in its place, as the Rust's clamp gives it.
#[test]
fn a_calm_zero_that_loses_its_sign() {
    let unsigned = spoilt!(|_, rows, _, out| out[..rows.len()].iter_mut().for_each(|x| *x += 0.0));
    let as_the_rust = spoilt!(|cfg, rows, found, out| {
        if calm(found) && cfg.clamp == ClampMode::Project && cfg.armed & WORKSPACE != 0 {
            let derived = model::envelope::derive(cfg).expect("an accepted configuration");
            for row in out[..rows.len()].chunks_mut(cfg.dim) {
                for (c, x) in row.iter_mut().enumerate().take(cfg.pos_dim) {
                    *x = oracle::rust::fmath::clamp(*x, derived.box_lo[c], derived.box_hi[c]);
                }
            }
        }
    });
    for name in ["check_chunk at walls", "check_action at walls"] {
        for (port, due) in [(unsigned, 0), (as_the_rust, WORKSPACE)] {
            let text = failure(port, name);
            assert!(text.contains("the port leaves other buffers than the model: added [0"), "a sign");
            assert!(text.contains("1]\n") && text.contains("-0.0]"), "of a -0.0 that ends the row");
            assert_eq!(armed(&text), due, "a small input");
        }
    }
}

/// 17 of another configuration than the one that is given; all else of the given one.
macro_rules! withdrawn {
    ($change:expr) => {
        |cfg: &FuseConfig| {
            let change: fn(&mut FuseConfig) = $change;
            let mut other = *cfg;
            change(&mut other);
            match model::envelope::derive(&other) {
                Err(r) if r.number == WITHDRAWN => Err(r),
                _ => model::envelope::derive(cfg),
            }
        }
    };
}

#[test]
fn stall_judged_where_it_is_not() {
    let said = |derive, answer: &str| {
        let text = failure(Port { derive: Some(derive), ..Port::default() }, "derive");
        assert!(text.contains(answer), "{answer}");
    };
    let before_4 = withdrawn!(|c| c.zones = Zones::NONE);
    said(before_4, "number: 17, place: 0 }; the model says Refusal { number: 4,");
    let uncounted = withdrawn!(|c| {
        c.cal.n_terms = c.cal.n_terms.max(8);
        c.cal.terms = c.cal.terms.map(|t| t & 0xfff);
    });
    said(uncounted, "number: 17, place: 0 }; the model accepts");
    let flag_clear = withdrawn!(|c| {
        (c.calibrated, c.horizon_ticks) = (true, 1);
        c.cal =
            Calibration { mask: c.cal.mask & 0xfff, terms: c.cal.terms.map(|t| t & 0xfff), ..Calibration::DISARMED };
    });
    said(flag_clear, "number: 17, place: 0 }; the model accepts");
}

/// A call made once more without Stall in its calibration where it is refused for that, as one that does not judge 17.
fn unjudged<T>(cal: &Calibration, mut call: impl FnMut(&Calibration) -> Result<T, Refusal>) -> Result<T, Refusal> {
    let without = Calibration { mask: cal.mask & NAMED, terms: cal.terms.map(|t| t & NAMED), ..*cal };
    match call(cal) {
        Err(r) if r.number == WITHDRAWN => call(&without),
        said => said,
    }
}

#[test]
fn a_gate_that_takes_stall() {
    let standardise =
        |cal: &Calibration, bin: usize, sc: &mut Scores| unjudged(cal, |c| model::conformal::standardise(c, bin, sc));
    let aggregate = |cal: &Calibration, sc: &mut Scores| unjudged(cal, |c| model::conformal::aggregate(c, sc));
    let trip = |cal: &Calibration, sc: &Scores| unjudged(cal, |c| model::conformal::trip(c, sc));
    let ports = [
        (Port { standardise: Some(standardise), ..Port::default() }, "standardise"),
        (Port { aggregate: Some(aggregate), ..Port::default() }, "aggregate"),
        (Port { trip: Some(trip), ..Port::default() }, "trip"),
    ];
    for (port, name) in ports {
        let text = failure(port, name);
        assert!(text.contains("the port accepts; the model says Refusal { number: 17,"));
    }
}

/// The model's features, changed by what is known before the call.
macro_rules! featured {
    ($change:expr) => {
        |cfg: &FuseConfig, rt: &mut Tier1Rt, pos: &[f64], ext: &[f64], new: Option<ChunkView<'_>>, sc: &mut Scores| {
            let change: fn(&FuseConfig, &Trail, &mut Scores) -> Result<(), Refusal> = $change;
            let (mut state, mut scores) = (*rt, *sc);
            model::tier1::features(cfg, &mut state, pos, ext, new, &mut scores)?;
            change(cfg, &rt.trail, &mut scores)?;
            (*rt, *sc) = (state, scores);
            Ok(())
        }
    };
}

#[test]
fn a_stall_that_is_given() {
    let said = |features| failure(Port { features: Some(features), ..Port::default() }, "features");
    let bit = said(featured!(|_, trail, sc| {
        sc.valid |= ((trail.len >= 20) as u32) << STALL;
        Ok(())
    }));
    assert!(bit.contains("the port leaves other buffers than the model: counts"));
    let number = said(featured!(|_, trail, sc| {
        sc.f[STALL] = (trail.len >= 20) as u32 as f64;
        Ok(())
    }));
    assert!(number.contains("is 1.0, not 0.0"));
    let callers = said(|cfg, rt, pos, ext, new, sc| {
        let before = sc.valid;
        model::tier1::features(cfg, rt, pos, ext, new, sc)?;
        sc.valid |= before & 1 << STALL;
        Ok(())
    });
    assert!(callers.contains("the port leaves other buffers than the model: counts"));
}

#[test]
fn a_stall_that_is_evaluated() {
    let evaluated = featured!(|cfg, trail, _| {
        let iso = cfg.norm_scale[..cfg.dim].iter().copied().fold(f64::INFINITY, min);
        let speed = 0.05 * iso / cfg.dt;
        let denominator = speed * 20.0 * cfg.dt;
        let quotient = model::window::net(trail, cfg.pos_dim, 20)? / denominator;
        let fine = [speed, denominator, quotient].iter().all(|x| x.is_finite());
        match trail.len < 20 || fine {
            true => Ok(()),
            false => Err(Refusal { number: 13, place: 0 }),
        }
    });
    let text = failure(Port { features: Some(evaluated), ..Port::default() }, "features");
    assert!(text.contains("the port says Refusal { number: 13, place: 0 }; the model accepts"));
}

// ---- runs under one setpoint

/// The text of the run of an entry with this run, which has to say all of this.
fn run_found(entry: &str, run: RunTowards, said: &[&str]) -> String {
    let text = failure(Port { run_towards: Some(run), ..Port::default() }, entry);
    for words in said {
        assert!(text.contains(words), "{words} is not said");
    }
    text
}

/// Those of all three entries; what is said of how small the input is holds of the first, whose generator is the plainest.
fn runs_found(run: RunTowards, said: &str, small: &str) {
    run_found("run_towards", run, &[said, small]);
    run_found("run_towards on a round table", run, &[said]);
    run_found("run_towards the start", run, &[said]);
}

const OTHER_RUN: &str = "the port answers otherwise than the model";
const TOUCHED: &str = "the port refuses and yet changes a buffer";

#[test]
fn a_second_half_from_the_given_plant() {
    let given: RunTowards = |c, a, p, v, n, s| brake::run_towards(c, a, &mut p.to_vec(), &mut v.to_vec(), n, s);
    runs_found(given, OTHER_ROW, "n: 1,");
    runs_found(|c, a, p, v, n, s| brake::run_towards(c, a, p, &mut v.to_vec(), n, s), OTHER_ROW, "n: 1,");
    runs_found(|c, a, p, v, n, s| brake::run_towards(c, a, &mut p.to_vec(), v, n, s), OTHER_ROW, "n: 1,");
}

#[test]
fn a_margin_of_other_slacks() {
    // the least of a second half alone
    let last: RunTowards = |c, a, p, v, n, s| {
        let r = brake::run_towards(c, a, p, v, n, s)?;
        Ok(Ran { margin: s[..n].last().map_or(r.margin, |last| *last), ..r })
    };
    runs_found(last, OTHER_RUN, "n: 2,");
    let from_zero: RunTowards =
        |c, a, p, v, n, s| brake::run_towards(c, a, p, v, n, s).map(|r| Ran { margin: min(0.0, r.margin), ..r });
    runs_found(from_zero, "the model: number 0 is 0.0, not inf", "n: 0,");
    let none: RunTowards = |c, a, p, v, n, s| {
        let r = brake::run_towards(c, a, p, v, n, s)?;
        Ok(Ran { margin: if n == 0 { 0.0 } else { r.margin }, ..r })
    };
    runs_found(none, "the model: number 0 is 0.0, not inf", "n: 0,");
    // folded the other way round, which is seen by a zero's sign alone
    let swapped: RunTowards = |c, a, p, v, n, s| {
        let r = brake::run_towards(c, a, p, v, n, s)?;
        Ok(Ran { margin: s[..n].iter().fold(f64::INFINITY, |m, x| min(*x, m)), ..r })
    };
    run_found("run_towards", swapped, &[OTHER_RUN, "added", "n: 2,"]);
}

/// The model's answer, with nothing written.
fn asked(c: &FuseConfig, a: &[f64], p: &[f64], v: &[f64], n: usize, s: &[f64]) -> Result<Ran, Refusal> {
    brake::run_towards(c, a, &mut p.to_vec(), &mut v.to_vec(), n, &mut s.to_vec())
}

/// The slack of a start that is accepted, by the forecast of a plant at rest that is not drawn anywhere.
fn slack_of(c: &FuseConfig, p: &[f64], v: &[f64]) -> Option<f64> {
    let still = FuseConfig { brake: model::BrakeModel { k_p: 0.0, k_v: 1.0, dt: 1.0, ..c.brake }, ..*c };
    let (mut slack, zeros) = ([0.0], vec![0.0; c.dim.max(v.len())]);
    brake::run_towards(&still, &zeros, &mut p.to_vec(), &mut vec![0.0; v.len()], 1, &mut slack).ok()?;
    Some(slack[0])
}

#[test]
fn a_slack_for_zero_substeps() {
    let written: RunTowards = |c, a, p, v, n, s| {
        let start = slack_of(c, p, v);
        let r = brake::run_towards(c, a, p, v, n, s)?;
        match (start, s.first_mut()) {
            (Some(slack), Some(first)) if n == 0 => *first = slack,
            _ => (),
        }
        Ok(r)
    };
    runs_found(written, OTHER_ROW, "n: 0,");
    let counted: RunTowards = |c, a, p, v, n, s| {
        let start = slack_of(c, p, v);
        let r = brake::run_towards(c, a, p, v, n, s)?;
        Ok(start.filter(|_| n == 0).map_or(r, |margin| Ran { margin, ..r }))
    };
    runs_found(counted, "not inf", "n: 0,");
}

/// The model's run with another configuration.
macro_rules! run_with {
    ($change:expr) => {
        |c, a, p, v, n, s| {
            let change: fn(&mut FuseConfig) = $change;
            let mut other = *c;
            change(&mut other);
            brake::run_towards(&other, a, p, v, n, s)
        }
    };
}

#[test]
fn gains_of_the_second_order_kind_alone() {
    let alone: RunTowards = run_with!(|c| if c.brake.kind != BrakeKind::PdSecondOrder && c.brake.k_p >= 0.0 {
        c.brake.k_p = 0.0;
    });
    let text = run_found("run_towards", alone, &["n: 1,"]);
    assert!(!text.contains("kind: PdSecondOrder"), "another kind");
    let refused: RunTowards = |c, a, p, v, n, s| match asked(c, a, p, v, n, s) {
        Ok(_) if c.brake.kind != BrakeKind::PdSecondOrder => Err(Refusal { number: 3, place: 0 }),
        _ => brake::run_towards(c, a, p, v, n, s),
    };
    runs_found(refused, "the port says Refusal { number: 3, place: 0 }; the model accepts", "n: 0,");
}

#[test]
fn lengths_of_a_run_judged_otherwise() {
    let accepted = "the port accepts; the model says Refusal { number: 11, place: 0 }";
    let refused = "the port says Refusal { number: 11, place: 0 }; the model accepts";
    // what is short is taken for long enough
    let setpoint: RunTowards = |c, a, p, v, n, s| {
        let short = a.len() >= c.pos_dim && a.len() < c.dim && c.dim <= MAX_D;
        let padded = [a, &[0.0; MAX_D][..if short { c.dim - a.len() } else { 0 }]].concat();
        brake::run_towards(c, &padded, p, v, n, s)
    };
    runs_found(setpoint, accepted, "dim: 2");
    let to_pos_dim: RunTowards = |c, a, p, v, n, s| match asked(c, a, p, v, n, s) {
        Ok(_) | Err(Refusal { number: 12 | 13, .. }) if a.len() < c.pos_dim => Err(Refusal { number: 11, place: 0 }),
        _ => brake::run_towards(c, a, p, v, n, s),
    };
    runs_found(to_pos_dim, refused, "pos_dim: 2");
    let to_dim: RunTowards = |c, a, p, v, n, s| match asked(c, a, p, v, n, s) {
        Ok(_) | Err(Refusal { number: 12 | 13, .. }) if p.len() < c.dim => Err(Refusal { number: 11, place: 0 }),
        _ => brake::run_towards(c, a, p, v, n, s),
    };
    runs_found(to_dim, refused, "dim: 2");
    let fewer: RunTowards = |c, a, p, v, n, s| brake::run_towards(c, a, p, v, n.min(s.len()), s);
    runs_found(fewer, accepted, "n: 1,");
    let one_more: RunTowards = |c, a, p, v, n, s| match asked(c, a, p, v, n, s) {
        Ok(_) if s.len() == n => Err(Refusal { number: 11, place: 0 }),
        _ => brake::run_towards(c, a, p, v, n, s),
    };
    runs_found(one_more, refused, "n: 0, slacks: []");
    let bounded: RunTowards = |c, a, p, v, n, s| match model::envelope::derive(c) {
        Ok(_) if n > model::MAX_SUBSTEPS => Err(Refusal { number: 3, place: 0 }),
        _ => brake::run_towards(c, a, p, v, n, s),
    };
    runs_found(bounded, "the port says Refusal { number: 3, place: 0 }", "n: 4097,");
}

#[test]
fn numbers_of_a_run_that_are_not_judged() {
    let accepted = "the port accepts; the model says Refusal { number: 12, place: 0 }";
    // what is not read counts, too
    let unread: RunTowards = |c, a, p, v, n, s| {
        let live = c.dim.min(c.pos_dim);
        let read = |x: &[f64]| x.iter().enumerate().map(|(k, x)| if k < live { *x } else { 0.0 }).collect::<Vec<_>>();
        let (mut q, mut w) = (read(p), read(v));
        let r = brake::run_towards(c, &read(a), &mut q, &mut w, n, s)?;
        for (k, (q, w)) in q.into_iter().zip(w).enumerate().take(live) {
            (p[k], v[k]) = (q, w);
        }
        Ok(r)
    };
    runs_found(unread, accepted, "n: 0,");
    let to_dim: RunTowards = |c, a, p, v, n, s| brake::run_towards(c, &a[..a.len().min(c.dim)], p, v, n, s);
    runs_found(to_dim, accepted, "n: 0,");
    let none: RunTowards = |c, a, p, v, n, s| match brake::run_towards(c, a, p, v, n, s) {
        Err(Refusal { number: 12, .. }) if n == 0 => Ok(Ran { count: 0, margin: f64::INFINITY }),
        said => said,
    };
    runs_found(none, accepted, "n: 0,");
    let entries: RunTowards = |c, a, p, v, n, s| match asked(c, a, p, v, n, s) {
        Ok(_) if s.iter().any(|x| !x.is_finite()) => Err(Refusal { number: 12, place: 0 }),
        _ => brake::run_towards(c, a, p, v, n, s),
    };
    runs_found(entries, "the port says Refusal { number: 12, place: 0 }; the model accepts", "n: 0,");
}

#[test]
fn a_place_of_a_run_off_by_one() {
    let early: RunTowards = |c, a, p, v, n, s| {
        brake::run_towards(c, a, p, v, n, s).map_err(|r| Refusal { place: r.place.saturating_sub(1), ..r })
    };
    runs_found(
        early,
        "the port says Refusal { number: 13, place: ",
        "place: 1 }; the model says Refusal { number: 13, place: 2 }",
    );
    // counted from the end, and every place as the first
    let back: RunTowards = |c, a, p, v, n, s| {
        let turned = |r: Refusal| Refusal { place: if r.number == 13 { n + 1 - r.place } else { 0 }, ..r };
        brake::run_towards(c, a, p, v, n, s).map_err(turned)
    };
    runs_found(back, "the port says Refusal { number: 13, place: ", "n: 3,");
    let first: RunTowards =
        |c, a, p, v, n, s| brake::run_towards(c, a, p, v, n, s).map_err(|r| Refusal { place: r.place.min(1), ..r });
    runs_found(first, "place: 1 }; the model says Refusal { number: 13, place: ", "n: 2,");
}

#[test]
fn a_run_that_writes_too_much() {
    let past: RunTowards = |c, a, p, v, n, s| {
        let r = brake::run_towards(c, a, p, v, n, s)?;
        s[n..].iter_mut().for_each(|x| *x = 0.0);
        Ok(r)
    };
    runs_found(past, OTHER_ROW, "n: 0,");
    // where it refuses: the plant before the place, its position alone, the entry at the place
    let plant: RunTowards = |c, a, p, v, n, s| {
        brake::run_towards(c, a, p, v, n, s).inspect_err(|r| {
            if r.number == 13 {
                _ = brake::run_towards(c, a, p, v, r.place - 1, s);
            }
        })
    };
    runs_found(plant, TOUCHED, "n: 2,");
    let position: RunTowards = |c, a, p, v, n, s| {
        brake::run_towards(c, a, p, v, n, s).inspect_err(|r| {
            if r.number == 13 {
                _ = brake::run_towards(c, a, p, &mut v.to_vec(), r.place - 1, s);
            }
        })
    };
    runs_found(position, TOUCHED, "n: 2,");
    let entry: RunTowards = |c, a, p, v, n, s| {
        brake::run_towards(c, a, p, v, n, s).inspect_err(|r| {
            if r.number == 13 {
                s[r.place - 1] = 0.5;
            }
        })
    };
    runs_found(entry, TOUCHED, "n: 2,");
    // every axis of the position, by a setpoint of 0 where there is none
    let all: RunTowards = |c, a, p, v, n, s| {
        let wide = FuseConfig { dim: c.pos_dim.max(c.dim), norm_center: [0.0; 8], norm_scale: [1.0; 8], ..*c };
        let (setpoint, mut q, mut w) = ([a, &[0.0; MAX_D]].concat(), p.to_vec(), v.to_vec());
        let moved = brake::run_towards(&wide, &setpoint, &mut q, &mut w, n, &mut s.to_vec());
        let r = brake::run_towards(c, a, p, v, n, s)?;
        if moved.is_ok() {
            p.copy_from_slice(&q);
            v.copy_from_slice(&w);
        }
        Ok(r)
    };
    runs_found(all, OTHER_ROW, "pos_dim: 2");
}

#[test]
fn a_run_that_writes_too_little() {
    // a 13 that leaves no entry
    let nothing: RunTowards = |c, a, p, v, n, s| {
        let mut seen = s.to_vec();
        let r = brake::run_towards(c, a, p, v, n, &mut seen)?;
        s.copy_from_slice(&seen);
        Ok(r)
    };
    runs_found(nothing, TOUCHED, "n: 2,");
    // a last entry that is the first
    let padded: RunTowards = |c, a, p, v, n, s| {
        let r = brake::run_towards(c, a, p, v, n, s)?;
        if let [first, .., last] = &mut s[..n] {
            *last = *first;
        }
        Ok(r)
    };
    runs_found(padded, OTHER_ROW, "n: 2,");
}

#[test]
fn a_run_of_other_substeps() {
    // the setpoint moved inside first, as the forecast has it
    let moved: RunTowards = |c, a, p, v, n, s| {
        let mut inside = a.to_vec();
        if let Ok(d) = model::envelope::derive(c) {
            if a.len() >= c.dim && a.iter().all(|x| x.is_finite()) {
                _ = model::workspace::move_inside(c, &d, c.dim.min(c.pos_dim), &mut inside);
            }
        }
        brake::run_towards(c, &inside, p, v, n, s)
    };
    run_found("run_towards", moved, &["n: 1,"]);
    run_found("run_towards on a round table", moved, &["n: 1,"]);
    // one more than was asked, where there is room
    let more: RunTowards = |c, a, p, v, n, s| {
        let room = s.len() > n && asked(c, a, p, v, n + 1, s).is_ok();
        brake::run_towards(c, a, p, v, n + room as usize, s)
    };
    runs_found(more, OTHER_RUN, "n: 0,");
    // a control step for each substep
    let control: RunTowards = run_with!(|c| c.brake.dt *= c.brake.substeps.clamp(1, 64) as f64);
    run_found("run_towards", control, &["substeps: 2", "n: 1,"]);
    // a stop distance counts
    let stop: RunTowards = |c, a, p, v, n, s| {
        let (mut q, mut w, live) = (p.to_vec(), v.to_vec(), shared(c));
        let r = brake::run_towards(c, a, &mut q, &mut w, n, s)?;
        fmath::dist(&q[..live], &p[..live], live).map_err(|_| Refusal { number: 13, place: n + 1 })?;
        p.copy_from_slice(&q);
        v.copy_from_slice(&w);
        Ok(r)
    };
    run_found("run_towards", stop, &["the port says Refusal { number: 13, place: 2 }; the model accepts", "n: 1,"]);
}

/// The whole configuration is judged, also what no substep reads.
#[test]
fn a_configuration_of_a_run_that_is_not_judged() {
    let runs: [(RunTowards, &str); 3] = [
        (run_with!(|c| c.norm_scale = [1.0; 8]), "norm_scale[0] as NaN: 2 is due, the port's run_towards gives 0"),
        (run_with!(|c| c.calibrated = false), "mask as 4096: 1 is due, the port's run_towards gives 0"),
        (run_with!(|c| c.zones = Zones::NONE), "contact v_max as 0.0: 2 is due, the port's run_towards gives 0"),
    ];
    for (run, row) in runs {
        let text = edges::check(&Port { run_towards: Some(run), ..Port::default() }).expect_err(row);
        assert!(text.contains(row) && !text.contains("the model's"), "{row} is not among {text}");
        runs_found(run, "; the model says Refusal { number: ", "n: 0,");
    }
}

/// A slack that is not finite is passed over: the walls at the ends of the format are drawn in.
#[test]
fn a_slack_of_a_run_that_is_not_judged() {
    let passed: RunTowards = |c, a, p, v, n, s| {
        let mut near = *c;
        (near.box_lo, near.box_hi, near.margin) = ([-1.0; 8], [1.0; 8], 0.0);
        near.shape.disc = false;
        match asked(c, a, p, v, n, s) {
            Err(Refusal { number: 13, .. }) => brake::run_towards(&near, a, p, v, n, s),
            _ => brake::run_towards(c, a, p, v, n, s),
        }
    };
    let accepted = "the port accepts; the model says Refusal { number: 13, place: ";
    run_found("run_towards", passed, &[accepted, "box_hi: [1.7976931348623157e308"]);
    run_found("run_towards on a round table", passed, &[accepted, "disc: true"]);
}

fn steps_first(cfg: &FuseConfig) -> Result<model::Derived, Refusal> {
    match cfg.brake.substeps {
        0 => Err(Refusal { number: 3, place: 0 }),
        _ => model::envelope::derive(cfg),
    }
}

/// The mode LastCommand is refused.
fn one_mode_alone(cfg: &FuseConfig) -> Result<model::Derived, Refusal> {
    match cfg.gripper {
        Gripper::LastCommand => Err(Refusal { number: 1, place: 0 }),
        Gripper::ToZero => model::envelope::derive(cfg),
    }
}

/// A pair is compared with that of the zone before it alone.
fn neighbours_alone(cfg: &FuseConfig) -> Result<model::Derived, Refusal> {
    let pairs: Vec<(u8, u8)> = cfg.zones.counted().iter().map(|z| (z.a0, z.a1)).collect();
    let mut other = *cfg;
    // a zone that repeats an earlier one than its neighbour is given channels of its own
    for i in 2..pairs.len() {
        if pairs[..i - 1].contains(&pairs[i]) {
            (other.zones.list[i].a0, other.zones.list[i].a1) = (7, i as u8);
        }
    }
    model::envelope::derive(&other)
}

/// A pair is the same in either order.
fn unordered(cfg: &FuseConfig) -> Result<model::Derived, Refusal> {
    let mut other = *cfg;
    for z in &mut other.zones.list {
        (z.a0, z.a1) = (z.a0.min(z.a1), z.a0.max(z.a1));
    }
    model::envelope::derive(&other)
}

/// The centre of a box is judged as that of a disc is.
fn centre_of_a_box(cfg: &FuseConfig) -> Result<model::Derived, Refusal> {
    match model::envelope::derive(cfg) {
        Ok(_) if !cfg.shape.center.iter().all(|x| x.is_finite()) => Err(Refusal { number: 2, place: 0 }),
        said => said,
    }
}

/// The walls of a disc are judged as those of a box are.
fn walls_of_a_disc(cfg: &FuseConfig) -> Result<model::Derived, Refusal> {
    match (model::envelope::derive(cfg), model::envelope::derive(&FuseConfig { shape: Shape::BOX, ..*cfg })) {
        (Ok(_), Err(r)) => Err(r),
        (said, _) => said,
    }
}

/// 15 where the right number is 4, and a disc has too few axes.
fn shape_before_channels(cfg: &FuseConfig) -> Result<model::Derived, Refusal> {
    match model::envelope::derive(cfg) {
        Err(r) if r.number == 4 && table(cfg) && cfg.dim.min(cfg.pos_dim) < 2 => Err(Refusal { number: SHAPE, ..r }),
        said => said,
    }
}

/// 17 where the right number is 15, and the calibration names Stall.
fn shape_after_stall(cfg: &FuseConfig) -> Result<model::Derived, Refusal> {
    match (model::envelope::derive(cfg), cfg.calibrated) {
        (Err(r), true) if r.number == SHAPE => {
            Err(Refusal { number: model::envelope::judge_calibration(&cfg.cal).unwrap_or(SHAPE), ..r })
        }
        (said, _) => said,
    }
}

#[test]
fn edges_that_are_moved() {
    let ports: [(differential::port::Derive, &str); 34] = [
        (judged!(|c| c.brake.k_p = c.brake.k_p.next_down()), "is below 0: k_p as 0.0: 0 is due"),
        (judged!(|c| c.brake.k_v = c.brake.k_v.next_up()), "above 0: k_v as 0.0: 2 is due"),
        (judged!(|c| c.cal.tau = 0.0), "isn't finite: tau as NaN: 2 is due"),
        (judged!(|c| c.calibrated = true), "flag, with horizon_ticks 0 as false: 0 is due"),
        (judged!(|c| c.dim = c.dim.max(3)), "are unread: norm_scale[2] as NaN: 0 is due"),
        (judged!(|c| c.cal.n_terms += (c.cal.n_terms == 7) as u8), "bit 12 in terms[7] as 7: 0 is due"),
        (judged!(|c| c.box_hi = c.box_hi.map(|x| x + c.margin + c.margin)), "margin in -1..1 as 1.0000000000000002: 2"),
        (judged!(|c| c.box_lo = c.box_lo.map(f64::next_up)), "exceeds its box_hi: box_lo[0] below 1 as 1.0: 0 is due"),
        (judged!(|c| c.brake.brake_steps |= 1), "over 4,096: (commit, brake_steps, substeps) as (64, 0, 64): 0 is due"),
        (judged!(|c| c.brake.brake_steps &= 4095), "substeps) as (0, 32768, 2): 3 is due"),
        (judged!(|c| c.zones.count *= (c.armed & CONTACT != 0) as usize), "equal channels as 0: 4 is due"),
        (judged!(|c| c.zones.count = c.zones.count.min(4)), "zone count (over 4): zone count as 5: 1 is due"),
        (judged!(|c| c.zones.count = c.zones.count.min(3)), "contact3 v_max as (4, 0, 0.0): 2 is due"),
        (
            judged!(|c| c.zones.count = c.zones.count.min(3)),
            "a repeated pair: contact2 and contact3 as (4, 32, ()): 4 is due",
        ),
        (judged!(|c| c.zones.count += (c.zones.count == 3) as usize), "contact3 radius as (3, 0, NaN): 0 is due"),
        (neighbours_alone, "a repeated pair: contact and contact2 as (3, 0, ()): 4 is due"),
        (unordered, "a swapped pair is another: contact1 and contact3 as (4, 0, ()): 0 is due"),
        (steps_first, "[dim, dt, substeps, a1] as [false, true, true, false]: 2 is due"),
        (
            one_mode_alone,
            "the Rust's or the new one: (gripper, kind, pos_dim) as (LastCommand, EePosition, 1): 0 is due",
        ),
        (
            judged!(|c| c.box_hi[0] = if c.gripper == Gripper::LastCommand { 1.0 } else { c.box_hi[0] }),
            "isn't finite: box_hi[0] as NaN, LastCommand: 2 is due",
        ),
        (judged!(|c| c.cal.mask &= NAMED), "the calibration mask has bit 7: mask as 128: 17 is due"),
        (judged!(|c| c.cal.mask |= c.cal.mask << 1 & 1 << STALL), "has bit 7: mask as 64: 0 is due"),
        (withdrawn!(|c| c.zones = Zones::NONE), "a1], with bit 7 as [false, false, false, true]: 4 is due"),
        (judged!(|c| c.shape.radius = c.shape.radius.next_up()), "above 0: radius as 0.0: 2 is due"),
        (judged!(|c| c.shape.radius = c.shape.radius.next_down()), "above 0: radius as 5e-324: 0 is due"),
        (judged!(|c| c.shape.center[1] = 0.0), "isn't finite: centre[1] of a disc as NaN: 2 is due"),
        (centre_of_a_box, "no centre and no radius: centre[0] of a box as NaN: 0 is due"),
        (walls_of_a_disc, "no walls on the first two axes: box_hi[1] of a disc as inf: 0 is due"),
        (
            judged!(|c| c.margin *= !c.shape.disc as u8 as f64),
            "moves no disc: margin of a disc on two axes as -5e-324: 2",
        ),
        (
            judged!(|c| c.shape.disc = c.shape.disc && c.pos_dim > 1),
            "a disc with dim or pos_dim below 2: (dim, pos_dim) as (2, 1): 15 is due",
        ),
        (
            judged!(|c| c.shape.disc = c.shape.disc && c.dim > 1),
            "a disc with dim or pos_dim below 2: (dim, pos_dim) as (1, 2): 15 is due",
        ),
        (
            judged!(|c| c.shape.disc = c.shape.disc && c.armed != 0),
            "a disc with dim or pos_dim below 2: (dim, pos_dim) as (1, 1): 15 is due",
        ),
        (shape_before_channels, "a1], on a disc of one axis as [false, false, false, true]: 4 is due"),
        (shape_after_stall, "a1], on a disc of one axis with bit 7 as [false, false, false, false]: 15 is due"),
    ];
    for (derive, row) in ports {
        let text = edges::check(&Port { derive: Some(derive), ..Port::default() }).expect_err(row);
        assert!(text.contains(row) && !text.contains("the model's"), "{row} is not among {text}");
    }
}

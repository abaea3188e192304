//! A calm chunk is not touched: where none of SPEED, CONTACT, WORKSPACE and REACH is raised, every row comes out bit for bit as it went in, and
//! ACCEL and JERK move none. The model, the linked checks and the exported functions at cases that are written by hand, and the linked checks on
//! the generated inputs of all their entries, with the published Rust beside them where it has the configuration.

use std::{collections::BTreeMap, fmt::Debug, iter::once};

use differential::{
    entries::tier0::{self as entries, CheckActionIn, CheckChunkIn},
    exported, linked,
    part::CHOICES,
    port::{Answer, Port},
    run::Entry,
};
use model::*;

/// The checks that move a row.
const MOVING: u32 = WORKSPACE | SPEED | REACH | CONTACT;
/// The checks that are raised and move none.
const TOLD: u32 = ACCEL | JERK;
/// What is armed of these two: every setting.
const SETTINGS: [u32; 4] = [0, ACCEL, JERK, TOLD];

/// What stands in an output before it is written.
const MARK: f64 = f64::from_bits(0x7ff8_0000_dead_beef);
/// 1 - 2^-36.
const SHRINK: f64 = 1.0 - 1.0 / 68719476736.0;

fn bits(numbers: &[f64]) -> Vec<u64> {
    numbers.iter().map(|x| x.to_bits()).collect()
}

/// The checks of the three sides, by name.
fn sides() -> [(&'static str, Port); 3] {
    let (check_chunk, check_action) = (Some(tier0::check_chunk as _), Some(tier0::check_action as _));
    let model = Port { check_chunk, check_action, ..Port::default() };
    [("the model", model), ("the port", linked::port()), ("the exported functions", exported::port())]
}

/// What stands before the first row of a chunk: the position, and past its axes the row itself.
fn before(c: &FuseConfig, pos: &[f64], rows: &[f64]) -> Vec<f64> {
    let shared = c.dim.min(c.pos_dim);
    [&pos[..shared], &rows[shared..c.dim]].concat()
}

/// What every side answers to rows from a position, and the rows that go out; what is past them is kept. One row is asked as an action, too.
fn answered(c: &FuseConfig, pos: &[f64], aux: &[f64], rows: &[f64]) -> (Tier0Out, Vec<f64>) {
    let (horizon, dim) = ((rows.len() / c.dim) as u16, c.dim as u16);
    let view = ChunkView { seq: 0, t_emit: 0, horizon, dim, exec_steps: 0, data: rows };
    let [due, others @ ..] = sides().map(|(side, port)| {
        let mut out = vec![MARK; rows.len() + 2];
        let chunk = port.check_chunk.expect("an entry")(c, pos, aux, view, &mut out).expect(side);
        if horizon == 1 {
            let mut one = vec![MARK; rows.len() + 2];
            let from = before(c, pos, rows);
            let action = port.check_action.expect("an entry")(c, pos, aux, &from, rows, &mut one).expect(side);
            assert_eq!((action, bits(&one)), (chunk, bits(&out)), "a chunk of one row from the position is an action");
        }
        assert_eq!(bits(&out[rows.len()..]), [MARK.to_bits(); 2], "{side} writes past the rows");
        out.truncate(rows.len());
        (chunk, out)
    });
    for (answer, out) in others {
        assert_eq!((answer, bits(&out)), (due.0, bits(&due.1)), "the sides answer alike: {c:?}, {rows:?}");
    }
    due
}

/// The trips of rows that come out as they went in, with none of the four raised and no mark set.
fn calm(c: &FuseConfig, pos: &[f64], aux: &[f64], rows: &[f64]) -> u32 {
    let (found, out) = answered(c, pos, aux, rows);
    assert_eq!(bits(&out), bits(rows), "{c:?}");
    assert_eq!([found.trips & MOVING, found.clamped_dims, found.low_dims, found.high_dims], [0; 4], "{c:?}");
    found.trips
}

/// Two axes and everything armed, so that the row (1, -0.0) from the origin touches all: a step, a reach and the step of each zone of 1, and a
/// box of 0..1 or a round table of radius 1. What ACCEL and JERK allow is far off.
fn arm(disc: bool, zones: usize, absent_camera: AbsentCamera) -> FuseConfig {
    let pairs = [(0, 1), (1, 0), (0, 2), (2, 0)];
    let zone = |(a0, a1)| ContactLimit { radius: 1.0, v_max: 1.0, a0, a1 };
    FuseConfig {
        dim: 2,
        pos_dim: 2,
        a_max: 99.0,
        j_max: 99.0,
        box_hi: [1.0; MAX_POS],
        shape: if disc { Shape::disc([0.0; 2], 1.0) } else { Shape::BOX },
        zones: Zones::of(&pairs.map(zone)[..zones]),
        absent_camera,
        clamp: ClampMode::Project,
        armed: MOVING | TOLD,
        aux_count: 3,
        ..FuseConfig::PLAIN
    }
}

/// Every shape, count of zones and choice.
fn arms() -> impl Iterator<Item = FuseConfig> {
    let shapes = [false, true].into_iter().flat_map(|disc| (0..=MAX_ZONES).map(move |zones| (disc, zones)));
    shapes.flat_map(|(disc, zones)| CHOICES.map(|choice| arm(disc, zones, choice)))
}

/// The same arm with one limit a step of the format less, each in turn, with the check that is raised then.
fn lowered(c: &FuseConfig) -> Vec<(u32, FuseConfig)> {
    let with = |change: &dyn Fn(&mut FuseConfig)| {
        let mut less = *c;
        change(&mut less);
        less
    };
    let mut all = vec![
        (SPEED, with(&|c| c.v_max = c.v_max.next_down())),
        (REACH, with(&|c| c.reach_max = c.reach_max.next_down())),
    ];
    if c.shape.disc {
        all.push((WORKSPACE, with(&|c| c.shape.radius = c.shape.radius.next_down())));
    } else {
        all.push((WORKSPACE, with(&|c| c.box_hi[0] = c.box_hi[0].next_down())));
        all.push((WORKSPACE, with(&|c| c.box_lo[1] = 5e-324)));
    }
    let zones = 0..c.zones.count;
    all.extend(zones.map(|k| (CONTACT, with(&|c| c.zones.list[k].v_max = c.zones.list[k].v_max.next_down()))));
    all
}

/// A row on every limit is calm, also as the last of several; with any limit a step of the format less that limit is raised, and the row moved.
/// The reach is asked of the first row alone.
#[test]
fn every_limit_touched_and_exceeded() {
    let (origin, at_the_arm) = ([0.0; 2], [0.0; 3]);
    for (c, still) in arms().flat_map(|c| (0..3).map(move |still| (c, still))) {
        let rows = [vec![0.0; 2 * still], vec![1.0, -0.0]].concat();
        assert_eq!(calm(&c, &origin, &at_the_arm, &rows), 0);
        assert_eq!(calm(&c, &origin, &[], &rows), 0, "a camera that is silent");
        for (bit, less) in lowered(&c) {
            if bit == REACH && still > 0 {
                assert_eq!(calm(&less, &origin, &at_the_arm, &rows), 0);
                continue;
            }
            let (found, out) = answered(&less, &origin, &at_the_arm, &rows);
            assert_eq!(found.trips, bit, "{less:?}");
            assert!(found.clamped_dims != 0 && bits(&out) != bits(&rows), "{less:?}");
        }
        let beyond = [vec![0.0; 2 * still], vec![1f64.next_up(), -0.0]].concat();
        let due = WORKSPACE | SPEED | if still == 0 { REACH } else { 0 } | if c.zones.count > 0 { CONTACT } else { 0 };
        assert_eq!(answered(&c, &origin, &at_the_arm, &beyond).0.trips, due, "{c:?}");
    }
}

/// A zero on a low wall, on a high one or on both keeps the sign that it came with, whichever the wall has; the next number past a wall is
/// moved. The low wall, lo + margin, is -0.0 only where both are.
#[test]
fn a_zero_on_a_wall_that_is_a_zero() {
    let signed = |n: u32| [0, 1, 2].map(|k| if n >> k & 1 == 1 { -0.0 } else { 0.0 });
    for [lo, hi, margin] in (0..8).map(signed) {
        for (lo, hi) in [(lo, 1.0), (-1.0, hi), (lo, hi)] {
            let (box_lo, box_hi, clamp) = ([lo; MAX_POS], [hi; MAX_POS], ClampMode::Project);
            let c = FuseConfig { box_lo, box_hi, margin, clamp, armed: MOVING | TOLD, ..FuseConfig::PLAIN };
            for rows in [&[0.0][..], &[-0.0], &[0.0, -0.0, 0.0, -0.0]] {
                assert_eq!(calm(&c, &[0.0], &[], rows), 0);
            }
            for (x, low, high) in [(-5e-324, lo == 0.0, false), (5e-324, false, hi == 0.0)] {
                let found = answered(&c, &[0.0], &[], &[x]).0;
                let past = u32::from(low || high);
                assert_eq!((found.trips, found.clamped_dims), (past * WORKSPACE, past), "{x:?} in {lo:?}..{hi:?}");
                assert_eq!((found.low_dims, found.high_dims), (low.into(), high.into()), "{x:?} in {lo:?}..{hi:?}");
            }
        }
    }
}

/// One axis in a box of 0..1 and every other limit 1: rows that swing from wall to wall touch what moves, and are twice and four times what ACCEL
/// and JERK allow. They come out as they went in whatever is armed of the two; and where rows are moved, they are moved alike.
#[test]
fn accel_and_jerk_move_no_row() {
    let c = FuseConfig { box_hi: [1.0; MAX_POS], clamp: ClampMode::Project, ..FuseConfig::PLAIN };
    let leash = 0.5 * SHRINK;
    for told in SETTINGS {
        let armed = MOVING | told;
        assert_eq!(calm(&FuseConfig { armed, ..c }, &[0.0], &[], &[1.0, 0.0, 1.0]), told);
        let (found, out) = answered(&FuseConfig { armed, v_max: 0.5, ..c }, &[0.0], &[], &[2.0, -1.0, 2.0]);
        assert_eq!((found.trips, found.clamped_dims), (WORKSPACE | SPEED | REACH | told, 1));
        assert_eq!((found.low_dims, found.high_dims, out), (1, 1, vec![leash, 0.0, leash]));
    }
}

/// A row that was moved need not come out calm. About 2^53 numbers are 2 apart, and a step, or a pull onto a round table, of just below 1.5 ends
/// 2 away: handed in again it is raised again, and comes out as it went in.
#[test]
fn a_moved_row_that_rounding_leaves_beyond_its_limit() {
    let far = 2f64.powi(53);
    let speed = FuseConfig { armed: SPEED, v_max: 1.5, clamp: ClampMode::Project, ..FuseConfig::PLAIN };
    let shape = Shape::disc([far, 0.0], 1.5);
    let table = FuseConfig { dim: 2, pos_dim: 2, armed: WORKSPACE, shape, ..speed };
    for (c, pos, row, due) in [
        (speed, &[far][..], &[far + 4.0][..], &[far + 2.0][..]),
        (table, &[far, 0.0], &[far + 4.0, 0.0], &[far + 2.0, 0.0]),
    ] {
        let (found, out) = answered(&c, pos, &[], row);
        assert_eq!((found.trips, found.clamped_dims, &out[..]), (c.armed, 1, due));
        let (again, out) = answered(&c, pos, &[], due);
        assert_eq!((again.trips, again.clamped_dims, &out[..]), (c.armed, 0, due));
    }
}

/// And the leash may pull a row out of the box, towards an arm that stands outside: from -3 the row 0 is in a box of 0..1, and a step of 3 where
/// 1 is allowed. What goes out is beyond the low wall, and handed in again it is raised for that; box and leash then bring it to where it was.
#[test]
fn a_row_that_the_leash_pulls_out_of_the_box() {
    let box_hi = [1.0; MAX_POS];
    let c = FuseConfig { armed: WORKSPACE | SPEED, box_hi, clamp: ClampMode::Project, ..FuseConfig::PLAIN };
    let (found, out) = answered(&c, &[-3.0], &[], &[0.0]);
    assert_eq!([found.trips, found.clamped_dims, found.low_dims, found.high_dims], [SPEED, 1, 0, 0]);
    assert_eq!(out, [-3.0 + SHRINK], "-2 - 2^-36");
    let (again, same) = answered(&c, &[-3.0], &[], &out);
    assert_eq!([again.trips, again.clamped_dims, again.low_dims, again.high_dims], [WORKSPACE, 0, 1, 0]);
    assert_eq!(same, out);
}

// ---- the generated inputs

/// What an accepted call was.
#[derive(Clone, Copy, Debug)]
enum Was {
    /// None of the four is raised, nor ACCEL or JERK.
    Calm,
    /// None of the four, and ACCEL or JERK.
    CalmAndTold,
    /// One of the four, and a row was moved.
    Moved,
    /// One of the four, and the rows went out as they came.
    Raised,
}

/// The answer to a call, and the bits of its output.
type Said = (Answer<Tier0Out>, Vec<u64>);

/// An accepted call: what the check is told, the row before the first, the rows and the answer; and how it is asked once more.
struct Accepted<'a> {
    cfg: &'a FuseConfig,
    pos: &'a [f64],
    aux: &'a [f64],
    before: Vec<f64>,
    rows: &'a [f64],
    lent: Vec<u64>,
    found: Tier0Out,
    out: Vec<u64>,
    ask: &'a dyn Fn(&FuseConfig, &[f64]) -> Said,
}

impl Accepted<'_> {
    /// Which of the four are due: those that are armed, and whose limit a step, a row or the first row's distance exceeds by the model's own
    /// measure.
    fn due(&self) -> Result<u32, checked::NotFinite> {
        let (c, derived) = (self.cfg, envelope::derive(self.cfg).expect("an accepted configuration"));
        let shared = c.dim.min(c.pos_dim);
        let slow = tier0::contact_steps(c, self.pos, self.aux)?;
        let (mut speed, mut contact, mut outside) = (false, false, false);
        let froms = once(&self.before[..]).chain(self.rows.chunks(c.dim));
        for (from, row) in froms.zip(self.rows.chunks(c.dim)) {
            let step = checked::dist(row, from, c.dim)?;
            speed |= step > derived.step_max;
            contact |= slow.iter().any(|most| step > *most);
            outside |= c.armed & WORKSPACE != 0 && workspace::outside(c, &derived, shared, row)?;
        }
        let far = c.armed & REACH != 0 && checked::dist(self.rows, self.pos, shared)? > c.reach_max;
        let exceeded = [(SPEED, speed), (CONTACT, contact), (WORKSPACE, outside), (REACH, far)];
        Ok(exceeded.into_iter().filter(|(bit, exceeded)| *exceeded && c.armed & bit != 0).map(|(bit, _)| bit).sum())
    }

    /// What the call was, or what is wrong with it.
    fn judged(&self) -> Result<Was, &'static str> {
        let (found, n) = (&self.found, self.rows.len());
        let must = |holds: bool, wrong| if holds { Ok(()) } else { Err(wrong) };
        must(self.out[n..] == self.lent[n..], "a number past the rows is written")?;
        must(Ok(found.trips & MOVING) == self.due(), "a limit is not raised exactly where it is exceeded")?;
        for armed in SETTINGS.map(|told| self.cfg.armed & !TOLD | told) {
            match (self.ask)(&FuseConfig { armed, ..*self.cfg }, self.rows) {
                (Ok(other), out) => {
                    let both = MOVING | TOLD & armed & self.cfg.armed;
                    must(out == self.out, "ACCEL or JERK moves a row")?;
                    must((other.trips ^ found.trips) & both == 0, "ACCEL or JERK changes another trip")?;
                    must(other.trips & TOLD & !armed == 0, "ACCEL or JERK is raised and not armed")?;
                    must(
                        Tier0Out { trips: found.trips, ..other } == *found,
                        "ACCEL or JERK changes a mask or the speed",
                    )?;
                }
                (Err(r), _) => must(r.number == 13 && armed & TOLD & !self.cfg.armed != 0, "ACCEL or JERK refuses")?,
            }
        }
        if found.trips & MOVING != 0 {
            return Ok(if found.clamped_dims != 0 { Was::Moved } else { Was::Raised });
        }
        must(self.out[..n] == bits(self.rows), "a calm row is touched")?;
        must([found.clamped_dims, found.low_dims, found.high_dims] == [0; 3], "a calm chunk has a mark")?;
        let again: Vec<f64> = self.out[..n].iter().map(|x| f64::from_bits(*x)).collect();
        must((self.ask)(self.cfg, &again) == (Ok(*found), self.out.clone()), "what came out is answered otherwise")?;
        Ok(if found.trips & TOLD != 0 { Was::CalmAndTold } else { Was::Calm })
    }
}

/// What a wrong check does to the answer and the output of an accepted call, by the configuration and the rows as they came.
type Spoil = fn(&FuseConfig, &[f64], &mut Tier0Out, &mut [f64]);
/// The check as it is.
const UNSPOILT: Spoil = |_, _, _, _| ();

/// An input of a check.
trait Input: Clone + Debug {
    fn cfg(&self) -> &FuseConfig;
    /// The same input in another workspace.
    fn in_shape(&self, shape: Shape) -> Self;
    /// The rows, where the call is accepted.
    fn rows(&self) -> &[f64];
    /// What the call was, or what is wrong with it; `None` where it is refused.
    fn judged(&self, port: &Port, spoil: Spoil) -> Option<Result<Was, &'static str>>;
}

impl Input for CheckChunkIn {
    fn cfg(&self) -> &FuseConfig {
        &self.cfg
    }

    fn in_shape(&self, shape: Shape) -> Self {
        Self { cfg: FuseConfig { shape, ..self.cfg }, ..self.clone() }
    }

    fn rows(&self) -> &[f64] {
        &self.ch.data
    }

    fn judged(&self, port: &Port, spoil: Spoil) -> Option<Result<Was, &'static str>> {
        let Self { cfg, pos, aux, ch, out } = self;
        let check = port.check_chunk.expect("an entry");
        let ask = |cfg: &FuseConfig, rows: &[f64]| {
            let mut out = out.clone();
            let mut answer = check(cfg, pos, aux, ChunkView { data: rows, ..ch.view() }, &mut out);
            answer.iter_mut().for_each(|found| spoil(cfg, rows, found, &mut out));
            (answer, bits(&out))
        };
        let (Ok(found), written) = ask(cfg, self.rows()) else { return None };
        let (before, rows, lent) = (before(cfg, pos, self.rows()), self.rows(), bits(out));
        Some(Accepted { cfg, pos, aux, before, rows, lent, found, out: written, ask: &ask }.judged())
    }
}

impl Input for CheckActionIn {
    fn cfg(&self) -> &FuseConfig {
        &self.cfg
    }

    fn in_shape(&self, shape: Shape) -> Self {
        Self { cfg: FuseConfig { shape, ..self.cfg }, ..self.clone() }
    }

    fn rows(&self) -> &[f64] {
        &self.a[..self.cfg.dim]
    }

    fn judged(&self, port: &Port, spoil: Spoil) -> Option<Result<Was, &'static str>> {
        let Self { cfg, pos, aux, prev, a, out } = self;
        let check = port.check_action.expect("an entry");
        let ask = |cfg: &FuseConfig, a: &[f64]| {
            let mut out = out.clone();
            let mut answer = check(cfg, pos, aux, prev, a, &mut out);
            answer.iter_mut().for_each(|found| spoil(cfg, &a[..cfg.dim], found, &mut out));
            (answer, bits(&out))
        };
        let (Ok(found), written) = ask(cfg, a) else { return None };
        let (before, rows, lent) = (prev[..cfg.dim].to_vec(), self.rows(), bits(out));
        Some(Accepted { cfg, pos, aux, before, rows, lent, found, out: written, ask: &ask }.judged())
    }
}

/// The same input on a round table about the origin, where it has two axes: of two tables one has the farthest row on its edge, and the other
/// half of that radius.
fn on_a_table<I: Input>(input: &I, call: u64) -> Option<I> {
    let FuseConfig { dim, pos_dim, .. } = *input.cfg();
    let away = |row: &[f64]| fmath::norm(&row[..2], 2).unwrap_or(0.0);
    (dim >= 2 && pos_dim >= 2).then(|| {
        let farthest = input.rows().chunks(dim).map(away).fold(0.0, fmath::max);
        input.in_shape(Shape::disc([0.0; 2], if call % 2 == 0 { farthest } else { farthest / 2.0 }))
    })
}

/// A kind of call, by shape, count of zones and choice.
fn kind(c: &FuseConfig, was: Was) -> String {
    let shape = if c.shape.disc { "disc" } else { "box" };
    format!("{shape}, {} zones, {:?}: {was:?}", c.zones.count, c.absent_camera)
}

/// What a run met.
#[derive(Default)]
struct Met {
    /// How often each kind of call under Project with one of the four armed.
    calls: BTreeMap<String, u32>,
    /// Calm calls that the Rust was asked with, and the zeros of their rows whose sign it turned.
    by_the_rust: u32,
    turned: u32,
}

impl Met {
    /// Judges an input and counts what it was; whether it is calm, and `None` where it is refused.
    fn note<I: Input>(&mut self, port: &Port, input: &I) -> Option<bool> {
        let was = input.judged(port, UNSPOILT)?.unwrap_or_else(|wrong| panic!("{wrong}: {input:?}"));
        let c = input.cfg();
        if c.clamp == ClampMode::Project && c.armed & MOVING != 0 {
            *self.calls.entry(kind(c, was)).or_default() += 1;
        }
        Some(matches!(was, Was::Calm | Was::CalmAndTold))
    }

    /// The Rust on a calm call, where it has the configuration: as numbers, the rows are those that came.
    fn note_rust<I: Input>(&mut self, entry: &Entry<I>, input: &I) {
        let Some(outcome) = (entry.rust)(input) else { return };
        let counts = outcome.answer.expect("the Rust refuses nothing").counts;
        assert_eq!((counts[0] as u32 & MOVING, counts[1]), (0, 0), "{}: {input:?}", entry.name);
        for (came, went) in input.rows().iter().zip(&outcome.buffers.numbers) {
            assert_eq!(came, went, "{}: {input:?}", entry.name);
            self.turned += (came.to_bits() != went.to_bits()) as u32;
        }
        self.by_the_rust += 1;
    }

    /// Calls of each of these kinds were met with every shape, count of zones and choice; the Rust was asked, and turned some zeros.
    fn all(&self, kinds: &[Was]) {
        println!("{:#?}\nthe Rust: {} calm calls, {} zeros turned", self.calls, self.by_the_rust, self.turned);
        for case in arms().flat_map(|c| kinds.iter().map(move |was| kind(&c, *was))) {
            assert!(self.calls.get(&case).is_some_and(|n| *n > 0), "never met: {case}");
        }
        assert!(self.by_the_rust > 1000 && self.turned > 0);
    }
}

/// The linked checks on the generated inputs of their entries, each as it is and on a round table.
fn calm_inputs<I: Input + 'static>(entries: [fn(&Port) -> Entry<I>; 5], kinds: &[Was]) {
    assert!(lictor::environment_ok());
    let (port, mut met) = (linked::port(), Met::default());
    for entry in entries.map(|entry| entry(&port)) {
        for call in 0..40_000 {
            let input = entry.input(11, call);
            let Some(calm) = met.note(&port, &input) else { continue };
            if calm {
                met.note_rust(&entry, &input);
            }
            if let Some(other) = on_a_table(&input, call) {
                met.note(&port, &other);
            }
        }
    }
    met.all(kinds);
}

#[test]
fn a_calm_chunk_is_not_touched() {
    let entries = [
        entries::check_chunk,
        entries::check_chunk_at_walls,
        entries::check_chunk_with_a_short_camera,
        entries::check_chunk_with_several_zones,
        entries::check_chunk_on_a_round_table,
    ];
    calm_inputs(entries, &[Was::Calm, Was::CalmAndTold, Was::Moved]);
}

#[test]
fn a_calm_action_is_not_touched() {
    let entries = [
        entries::check_action,
        entries::check_action_at_walls,
        entries::check_action_with_a_short_camera,
        entries::check_action_with_several_zones,
        entries::check_action_on_a_round_table,
    ];
    calm_inputs(entries, &[Was::Calm, Was::Moved]);
}

/// What is found wrong with a check that is spoilt, on the inputs of an entry: the first of all.
fn found_out<I: Input + 'static>(entry: fn(&Port) -> Entry<I>, spoil: Spoil) -> &'static str {
    let port = linked::port();
    let entry = entry(&port);
    let wrong = (0..40_000).find_map(|call| entry.input(11, call).judged(&port, spoil)?.err());
    wrong.expect("the wrong check is found out")
}

/// A check that is spoilt is found out by what it does to a calm chunk, be it a zero's sign alone.
#[test]
fn a_check_that_touches_a_calm_chunk() {
    let wrongs: [(Spoil, &str); 9] = [
        (|_, rows, _, out| out[..rows.len()].iter_mut().for_each(|x| *x += 0.0), "a calm row is touched"),
        (|_, rows, _, out| out[rows.len()..].fill(0.0), "a number past the rows is written"),
        (|_, _, found, _| found.clamped_dims |= 1, "a calm chunk has a mark"),
        (|_, _, found, _| found.low_dims |= 1, "a calm chunk has a mark"),
        (|_, _, found, _| found.high_dims |= 1, "a calm chunk has a mark"),
        (|cfg, _, found, _| found.trips |= cfg.armed & SPEED, "a limit is not raised exactly where it is exceeded"),
        (|cfg, _, _, out| out[0] += f64::from(cfg.armed & JERK), "ACCEL or JERK moves a row"),
        (|cfg, _, found, _| found.trips |= TOLD & !cfg.armed, "ACCEL or JERK is raised and not armed"),
        (|cfg, _, found, _| found.low_dims |= cfg.armed & ACCEL, "ACCEL or JERK changes a mask or the speed"),
    ];
    for (spoil, wrong) in wrongs {
        assert_eq!(found_out(entries::check_chunk_at_walls, spoil), wrong);
        assert_eq!(found_out(entries::check_action_at_walls, spoil), wrong);
    }
}

//! A fixed sample of the published Rust's answers, for a replay where no Rust is at hand. `tests/oracle-sample/README.md`
//! has the layout: 8-byte little-endian words, a section for each entry, a count of records and then the records.

use model::{
    brake::count_of, conformal, tier1 as rule, ActionKind, BrakeKind, ClampMode, Derived, FuseConfig, Scores, Tier1Rt,
    Trail, MAX_D, NFEAT,
};

use crate::{
    entries::{brake, conformal as gate, envelope, fmath, tier0, tier1},
    input::ChunkIn,
    number::Field,
    port::Port,
    rng::Rng,
    run::Entry,
};

const SEED: u64 = 1;
const ROWS: usize = 4;
const SLACKS: usize = 32;
const SAMPLES: usize = 24;

/// The words of one record.
#[derive(Default)]
struct Record(Vec<u64>);

impl Record {
    fn count(&mut self, n: usize) -> &mut Self {
        self.0.push(n as u64);
        self
    }

    fn number(&mut self, x: f64) -> &mut Self {
        self.0.push(x.to_bits());
        self
    }

    /// The numbers, and zeros up to `room` words.
    fn numbers(&mut self, v: &[f64], room: usize) -> &mut Self {
        assert!(v.len() <= room, "{} numbers in a room of {room}", v.len());
        let end = self.0.len() + room;
        self.0.extend(v.iter().map(|x| x.to_bits()));
        self.0.resize(end, 0);
        self
    }

    /// The length, and then the numbers.
    fn list(&mut self, v: &[f64], room: usize) -> &mut Self {
        self.count(v.len()).numbers(v, room)
    }

    fn config(&mut self, c: &FuseConfig) -> &mut Self {
        let (b, zone) = (&c.brake, c.zones.counted().first());
        let kind = [ActionKind::EePosition, ActionKind::EeDelta, ActionKind::JointPosition, ActionKind::JointVelocity];
        let brake =
            [BrakeKind::PdSecondOrder, BrakeKind::FirstOrderDecay, BrakeKind::BoundedAccel, BrakeKind::JerkLimited];
        self.count(c.dim).count(c.pos_dim);
        self.count(kind.iter().position(|k| *k == c.kind).unwrap_or(kind.len()));
        self.count((c.clamp == ClampMode::Project) as usize).count(c.armed as usize).count(c.aux_count);
        self.count(zone.is_some() as usize);
        self.count(zone.map_or(0, |z| z.a0 as usize)).count(zone.map_or(0, |z| z.a1 as usize));
        self.count(brake.iter().position(|k| *k == b.kind).unwrap_or(brake.len()));
        self.count(b.substeps as usize).count(b.commit as usize).count(b.brake_steps as usize).count(b.react as usize);
        self.numbers(&[c.dt, c.v_max, c.a_max, c.j_max, c.reach_max, c.margin, b.k_p, b.k_v, b.dt], 9);
        self.number(zone.map_or(0.0, |z| z.radius)).number(zone.map_or(0.0, |z| z.v_max));
        self.numbers(&c.box_lo[..c.pos_dim], MAX_D).numbers(&c.box_hi[..c.pos_dim], MAX_D);
        self.numbers(&c.norm_center[..c.dim], MAX_D).numbers(&c.norm_scale[..c.dim], MAX_D)
    }

    fn chunk(&mut self, c: &ChunkIn) -> &mut Self {
        self.count(c.t_emit as usize).count(c.horizon as usize).numbers(&c.data, ROWS * MAX_D)
    }
}

/// `count` records of an entry: what `record` gives for its accepted inputs that fit.
fn section<I: Clone + std::fmt::Debug + 'static>(
    entry: Entry<I>,
    count: usize,
    record: impl Fn(&I, &mut Record) -> Option<()>,
) -> Vec<u64> {
    let mut words = vec![count as u64];
    let accepted = (0..).map(|call| entry.input(SEED, call)).filter(|i| (entry.model)(i).answer.is_ok());
    let records = accepted.filter_map(|i| {
        let mut r = Record::default();
        record(&i, &mut r).map(|()| r.0)
    });
    let records: Vec<Vec<u64>> = records.take(count).collect();
    assert!(records.iter().all(|r| r.len() == records[0].len()), "{}: records of one length", entry.name);
    words.extend(records.into_iter().flatten());
    words
}

/// A configuration without calibration, and lists that fit their room.
fn fits(c: &FuseConfig, lists: &[&[f64]]) -> Option<()> {
    (!c.calibrated && lists.iter().all(|v| v.len() <= MAX_D)).then_some(())
}

fn few_rows(c: &ChunkIn) -> Option<()> {
    (c.horizon as usize <= ROWS).then_some(())
}

/// All sections in the order of the README.
pub fn words() -> Vec<u64> {
    let port = Port::default();
    let sections = [
        section(fmath::sqrt(&port), 1000, |x, r| {
            r.number(*x).number(oracle::sqrt(*x));
            Some(())
        }),
        section(fmath::norm(&port), 200, |i, r| {
            (i.v.len() <= 10).then(|| r.count(i.n).list(&i.v, 10).number(oracle::norm(&i.v, i.n)))?;
            Some(())
        }),
        section(fmath::dist(&port), 200, |i, r| {
            (i.a.len() <= 10 && i.b.len() <= 10)
                .then(|| r.count(i.n).list(&i.a, 10).list(&i.b, 10).number(oracle::dist(&i.a, &i.b, i.n)))?;
            Some(())
        }),
        section(gate::time_bin(&port), 200, |i, r| {
            r.count(i.t as usize).count(i.horizon_ticks as usize).count(oracle::time_bin(i.t, i.horizon_ticks));
            Some(())
        }),
        section(gate::standardise(&port), 200, gated),
        section(envelope::derive(&port), 80, |c, r| {
            fits(c, &[])?;
            let d: Derived = oracle::derived(&oracle::config(c));
            r.config(c).numbers(&[d.inv_dt, d.inv_dt2, d.inv_dt3, d.step_max, d.norm_scale_iso], 5);
            r.numbers(&d.box_lo, MAX_D).numbers(&d.box_hi, MAX_D).numbers(&d.inv_norm_scale[..c.dim], MAX_D);
            Some(())
        }),
        section(tier0::check_chunk(&port), 250, checked),
        section(tier0::check_action(&port), 250, checked_action),
        section(brake::brake_feasible(&port), 400, forecast),
        section(brake::brake_action(&port), 120, braked),
        section(tier1::features(&port), 100, featured),
    ];
    sections.concat()
}

/// One bin's row of the calibration, which is the same in every bin.
fn gated(i: &gate::GateIn, r: &mut Record) -> Option<()> {
    let mut cal = i.cal;
    for b in 1..model::BINS {
        cal.center.copy_within(..NFEAT, b * NFEAT);
        cal.scale.copy_within(..NFEAT, b * NFEAT);
    }
    let mut sc = Scores { f: i.sc.f, valid: i.sc.valid, ..Scores::NEW };
    conformal::standardise(&cal, i.bin, &mut sc.clone()).ok()?;
    r.numbers(&cal.center[..NFEAT], NFEAT).numbers(&cal.scale[..NFEAT], NFEAT).number(cal.tau);
    r.count(cal.mask as usize).count(cal.n_terms as usize);
    for (k, t) in cal.terms.iter().enumerate() {
        r.count(if k < cal.n_terms as usize { *t as usize } else { 0 });
    }
    r.count(i.bin.min(255)).numbers(&sc.f, NFEAT).count(sc.valid as usize);
    oracle::standardise(&cal, i.bin, &mut sc);
    let s = oracle::aggregate(&cal, &mut sc);
    r.numbers(&sc.z, NFEAT).number(s).count(sc.fired as usize).count(oracle::trip(&cal, &sc) as usize);
    Some(())
}

fn checked(i: &tier0::CheckChunkIn, r: &mut Record) -> Option<()> {
    fits(&i.cfg, &[&i.pos, &i.aux]).and(few_rows(&i.ch))?;
    r.config(&i.cfg).list(&i.pos, MAX_D).list(&i.aux, MAX_D).chunk(&i.ch);
    let mut out = vec![0.0; i.ch.data.len()];
    let answer = oracle::check_chunk(&i.cfg, &i.pos, &i.aux, i.ch.view(), &mut out);
    r.count(answer.trips as usize).count(answer.clamped_dims as usize).number(answer.peak_speed);
    r.numbers(&out, ROWS * MAX_D);
    Some(())
}

fn checked_action(i: &tier0::CheckActionIn, r: &mut Record) -> Option<()> {
    fits(&i.cfg, &[&i.pos, &i.aux])?;
    let d = i.cfg.dim;
    r.config(&i.cfg).list(&i.pos, MAX_D).list(&i.aux, MAX_D).numbers(&i.prev[..d], MAX_D).numbers(&i.a[..d], MAX_D);
    let mut out = [0.0; MAX_D];
    let answer = oracle::check_action(&i.cfg, &i.pos, &i.aux, &i.prev[..d], &i.a[..d], &mut out);
    r.count(answer.trips as usize).count(answer.clamped_dims as usize).number(answer.peak_speed);
    r.numbers(&out, MAX_D);
    Some(())
}

fn forecast(i: &brake::ForecastIn, r: &mut Record) -> Option<()> {
    fits(&i.cfg, &[&i.p, &i.v]).and(few_rows(&i.ch))?;
    let fitting = count_of(&i.cfg, i.from) <= SLACKS && i.from <= ROWS + 1;
    fitting.then_some(())?;
    r.config(&i.cfg).list(&i.p, MAX_D).list(&i.v, MAX_D).chunk(&i.ch).count(i.from);
    let (answer, slacks, _) = oracle::brake_feasible(&i.cfg, &i.p, &i.v, i.ch.view(), i.from);
    r.count(answer.feasible as usize).number(answer.margin).number(answer.stop_dist).list(&slacks, SLACKS);
    Some(())
}

fn braked(i: &brake::BrakeIn, r: &mut Record) -> Option<()> {
    fits(&i.cfg, &[&i.p, &i.v])?;
    r.config(&i.cfg).list(&i.p, MAX_D).list(&i.v, MAX_D);
    let mut out = [0.0; MAX_D];
    oracle::brake_action(&i.cfg, &i.p, &i.v, &mut out);
    r.numbers(&out, MAX_D);
    out.fill(0.0);
    oracle::hold_action(&i.cfg, &i.p, &mut out);
    r.numbers(&out, MAX_D);
    Some(())
}

/// The state is made by pushing the samples and, with the flag set, by keeping the first chunk.
fn featured(i: &tier1::FeaturesIn, r: &mut Record) -> Option<()> {
    let new = i.new.as_ref()?;
    fits(&i.cfg, &[&i.pos, &i.ext]).and(few_rows(new))?;
    (i.rt.prev.horizon as usize <= ROWS).then_some(())?;
    let mut rng = Rng::new(r.0.len() as u64 ^ new.data[0].to_bits());
    let pushed = rng.pick(&[0, 19, 20, SAMPLES]);
    let samples = Field(1.0).numbers(&mut rng, SAMPLES * MAX_D);
    let mut rt = Tier1Rt { prev: i.rt.prev, have_prev: i.rt.prev.filled, trail: Trail::NEW, ..Tier1Rt::NEW };
    for p in samples.chunks(MAX_D).take(pushed) {
        oracle::trail_push(&mut rt.trail, p, MAX_D);
    }
    r.config(&i.cfg).count(pushed);
    r.numbers(&samples, SAMPLES * MAX_D);
    let prev = &i.rt.prev;
    r.count(prev.filled as usize).count(prev.t_emit as usize).count(prev.horizon as usize).count(prev.dim as usize);
    r.numbers(prev.rows(), ROWS * MAX_D).list(&i.pos, MAX_D).list(&i.ext, MAX_D).chunk(new);
    let mut sc = Scores::NEW;
    rule::features(&i.cfg, &mut rt.clone(), &i.pos, &i.ext, Some(new.view()), &mut sc.clone()).ok()?;
    oracle::features(&i.cfg, &mut rt, &i.pos, &i.ext, Some(new.view()), &mut sc);
    r.numbers(&sc.f, NFEAT).count(sc.valid as usize).numbers(&rt.held, 6).count(rt.held_valid as usize);
    Some(())
}

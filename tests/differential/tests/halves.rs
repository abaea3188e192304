//! Two runs under one setpoint make a long one: the model, the linked function and the exported one at cases that are written by hand and on
//! generated inputs, in a box and about a round table. A forecast is made of such runs, and may not be split where its rows end.

use differential::{
    entries::{brake as forecasts, towards},
    exported, linked,
    part::BRAKES,
    port::{BrakeFeasible, Port, RunTowards},
    run::Entry,
};
use model::{checked::dist, chunk::action, envelope::derive, fmath::min, *};

/// The run and the forecast of the three sides, by name.
fn sides() -> [(&'static str, RunTowards, BrakeFeasible); 3] {
    let of = |port: Port| (port.run_towards.expect("an entry"), port.brake_feasible.expect("an entry"));
    let ((linked_run, linked_forecast), (exported_run, exported_forecast)) = (of(linked::port()), of(exported::port()));
    [
        ("the model", brake::run_towards, brake::brake_feasible),
        ("the port", linked_run, linked_forecast),
        ("the exported functions", exported_run, exported_forecast),
    ]
}

fn bits(v: &[f64]) -> Vec<u64> {
    v.iter().map(|x| x.to_bits()).collect()
}

/// What stands in an entry that is not written.
const FILLER: f64 = f64::from_bits(0x7ff8_0000_dead_beef);

/// The plant and the entries that are lent to a run.
#[derive(Clone, Debug)]
struct Lent {
    p: Vec<f64>,
    v: Vec<f64>,
    slacks: Vec<f64>,
}

impl Lent {
    fn new(p: &[f64], v: &[f64], room: usize) -> Self {
        Lent { p: p.to_vec(), v: v.to_vec(), slacks: vec![FILLER; room] }
    }

    /// A run that writes its entries from this one on.
    fn run(&mut self, run: RunTowards, c: &FuseConfig, setpoint: &[f64], n: usize, at: usize) -> Result<Ran, Refusal> {
        run(c, setpoint, &mut self.p, &mut self.v, n, &mut self.slacks[at..])
    }

    /// All three by their bits.
    fn bits(&self) -> [Vec<u64>; 3] {
        [&self.p, &self.v, &self.slacks].map(|lent| bits(lent))
    }
}

/// What all sides answer, and what they leave; count and margin by its bits.
fn ran(c: &FuseConfig, setpoint: &[f64], start: &Lent, n: usize) -> (Result<(usize, u64), Refusal>, Lent) {
    let [model, others @ ..] = sides().map(|(side, run, _)| {
        let mut lent = start.clone();
        let answer = lent.run(run, c, setpoint, n, 0).map(|r| (r.count, r.margin.to_bits()));
        (side, answer, lent)
    });
    for (side, answer, lent) in others {
        let what = format!("{side} and the model: {c:?}, towards {setpoint:?} from {start:?}, {n} substeps");
        assert_eq!((answer, lent.bits()), (model.1, model.2.bits()), "{what}");
    }
    (model.1, model.2)
}

/// The number that all sides give, 0 where it is accepted. What a refusal may not write is as it was, and only a 13 has a place.
fn number(c: &FuseConfig, setpoint: &[f64], start: &Lent, n: usize) -> u8 {
    let (answer, lent) = ran(c, setpoint, start, n);
    match answer {
        Ok(_) => 0,
        Err(r) if r.number == 13 => {
            assert_eq!(lent.bits()[..2], start.bits()[..2], "a 13 writes no plant");
            13
        }
        Err(r) => {
            assert_eq!((r.place, lent.bits()), (0, start.bits()), "a refusal writes nothing, and has no place");
            r.number
        }
    }
}

/// Gains k_p 2, k_v 1 and dt 0.5 and walls at -1 and 2, as the scope document's record F1 has them.
fn boxed(dim: usize, pos_dim: usize) -> FuseConfig {
    let brake = BrakeModel { k_p: 2.0, k_v: 1.0, dt: 0.5, ..FuseConfig::PLAIN.brake };
    FuseConfig { dim, pos_dim, box_lo: [-1.0; MAX_POS], box_hi: [2.0; MAX_POS], brake, ..FuseConfig::PLAIN }
}

/// The same about a round table of radius 5; what is not read would be refused.
fn table(dim: usize, pos_dim: usize) -> FuseConfig {
    let mut c = FuseConfig { shape: Shape::disc([0.0; 2], 5.0), ..boxed(dim, pos_dim) };
    c.box_lo[..2].fill(f64::NAN);
    c.box_hi[..2].fill(-9.0);
    c
}

fn with_gains(c: FuseConfig, k_p: f64, k_v: f64, dt: f64) -> FuseConfig {
    FuseConfig { brake: BrakeModel { k_p, k_v, dt, ..c.brake }, ..c }
}

/// Every pair of sizes.
fn sizes() -> impl Iterator<Item = (usize, usize)> {
    (1..=8).flat_map(|dim| (1..=8).map(move |pos_dim| (dim, pos_dim)))
}

// ---- by hand

/// 0.5, 1, 1.25 and 1.25 on the way to 1, of every brake kind.
#[test]
fn a_run_in_a_box() {
    for kind in BRAKES {
        let mut c = boxed(1, 1);
        c.brake.kind = kind;
        let (answer, lent) = ran(&c, &[1.0], &Lent::new(&[0.0], &[0.0], 5), 4);
        assert_eq!(answer, Ok((4, 0.75f64.to_bits())));
        assert_eq!(lent.bits(), [bits(&[1.25]), bits(&[0.0]), bits(&[1.5, 1.0, 0.75, 0.75, FILLER])]);
    }
}

/// Two axes to (3, 4), which is on the edge, and to points inside and beyond it; a third between its walls, which decides once.
#[test]
fn a_run_about_a_round_table() {
    let c = with_gains(table(3, 3), 1.0, 1.0, 1.0);
    let start = Lent::new(&[0.0; 3], &[0.0; 3], 3);
    // a step to the setpoint, where the damper takes all of the velocity
    let (answer, lent) = ran(&c, &[3.0, 4.0, 1.0], &start, 2);
    assert_eq!(answer, Ok((2, 0f64.to_bits())));
    assert_eq!(lent.bits(), [bits(&[3.0, 4.0, 1.0]), bits(&[0.0; 3]), bits(&[0.0, 0.0, FILLER])]);
    let (answer, lent) = ran(&c, &[0.6, 0.8, 1.75], &start, 1);
    assert_eq!((answer, lent.slacks[0]), (Ok((1, 0.25f64.to_bits())), 0.25), "the third axis has less");
    let (answer, _) = ran(&c, &[6.0, 8.0, 1.0], &start, 1);
    assert_eq!(answer, Ok((1, (-5f64).to_bits())), "beyond the edge");
}

/// The gains are those of the configured brake, whatever its kind.
#[test]
fn the_gains_of_every_kind() {
    for (kind, shape) in BRAKES.into_iter().flat_map(|kind| [boxed(2, 2), table(2, 2)].map(|c| (kind, c))) {
        let mut c = with_gains(shape, 4.0, 0.5, 0.25);
        c.brake.kind = kind;
        // acc = 4 (1 - 0) - 0.5 (2) = 3, v = 2 + 3/4, p = 11/16
        let (answer, lent) = ran(&c, &[1.0, 0.0], &Lent::new(&[0.0; 2], &[2.0, 0.0], 1), 1);
        assert_eq!((answer.map(|r| r.0), &lent.p, &lent.v), (Ok(1), &vec![0.6875, 0.0], &vec![2.75, 0.0]), "{kind:?}");
    }
}

/// Zero substeps compute nothing: they are accepted with infinite slack and change nothing, wherever the plant stands.
#[test]
fn zero_substeps() {
    let far = [f64::MAX, -f64::MAX, 1e300];
    for c in [boxed(3, 3), table(3, 3), with_gains(boxed(3, 3), 1e300, 1e300, 1e300)] {
        for (setpoint, p, room) in [([0.0; 3], [0.0, -0.0, 9.0], 0), (far, far.map(|x| -x), 0), (far, far, 2)] {
            let start = Lent::new(&p, &far, room);
            let (answer, lent) = ran(&c, &setpoint, &start, 0);
            assert_eq!((answer, lent.bits()), (Ok((0, f64::INFINITY.to_bits())), start.bits()));
        }
        assert_eq!(number(&c, &far, &Lent::new(&far.map(|x| -x), &far, 1), 1), 13, "one substep is computed");
        assert_eq!(number(&c, &[0.0; 2], &Lent::new(&far, &far, 0), 0), 11);
        assert_eq!(number(&c, &[f64::NAN; 3], &Lent::new(&far, &far, 0), 0), 12);
    }
}

/// The first min(dim, pos_dim) numbers of position and velocity are written, and all others stay.
#[test]
fn the_axes_that_move() {
    const LENGTH: usize = 10;
    for (dim, pos_dim) in sizes() {
        for c in [boxed(dim, pos_dim), table(dim, pos_dim)] {
            if c.shape.disc && dim.min(pos_dim) < 2 {
                continue;
            }
            let start = Lent::new(&[-0.0; LENGTH], &[0.25; LENGTH], 2);
            let (answer, lent) = ran(&c, &[1.0; LENGTH], &start, 1);
            assert!(answer.is_ok(), "{dim}, {pos_dim}");
            let live = dim.min(pos_dim);
            let (moved, kept) = (lent.p.split_at(live), lent.v.split_at(live));
            assert_eq!((bits(moved.1), bits(kept.1)), (bits(&[-0.0; LENGTH][live..]), bits(&[0.25; LENGTH][live..])));
            assert!(moved.0.iter().all(|x| *x == 0.5625) && kept.0.iter().all(|x| *x == 1.125), "{dim}, {pos_dim}");
            assert_eq!(lent.slacks[1].to_bits(), FILLER.to_bits());
        }
    }
}

/// 11 on both sides of each of the four lengths.
#[test]
fn lengths() {
    for (dim, pos_dim) in sizes() {
        let c = boxed(dim, pos_dim);
        for k in 0..4 {
            for more in 0..3 {
                let mut at = [dim, pos_dim, pos_dim, 3];
                at[k] = at[k] + more - 1;
                let start = Lent::new(&[0.0; 9][..at[1]], &[0.0; 9][..at[2]], at[3]);
                let due = if more == 0 { 11 } else { 0 };
                assert_eq!(number(&c, &[0.0; 9][..at[0]], &start, 3), due, "{dim}, {pos_dim}: {at:?}");
            }
        }
    }
}

/// The substeps have no bound but the entries: more than a forecast may have are run, and more than are lent is 11 whatever the number.
#[test]
fn substeps_without_a_bound() {
    for (n, due) in [(4095, 0), (4096, 0), (4097, 0), (9999, 0), (10_000, 0), (10_001, 11), (1 << 16, 11)] {
        assert_eq!(number(&boxed(1, 1), &[1.0], &Lent::new(&[0.0], &[0.0], 10_000), n), due, "{n}");
    }
    for n in [1 << 32, 1 << 61, (1 << 61) + 1, usize::MAX / 2, usize::MAX - 1, usize::MAX] {
        assert_eq!(number(&boxed(1, 1), &[1.0], &Lent::new(&[0.0], &[0.0], 3), n), 11, "{n}");
    }
    let (answer, lent) = ran(&boxed(1, 1), &[1.0], &Lent::new(&[0.0], &[0.0], 10_000), 10_000);
    assert_eq!((answer, lent.p[0], lent.slacks[9999]), (Ok((10_000, 0.75f64.to_bits())), 1.0, 1.0));
}

/// 12 for any number of setpoint, position and velocity, read or not; the entries are not judged.
#[test]
fn numbers_that_are_not_finite() {
    for (dim, pos_dim) in sizes() {
        let c = boxed(dim, pos_dim);
        let (long, lent) = ([0.5; 10], Lent::new(&[0.5; 10], &[0.5; 10], 2));
        for bad in [f64::NAN, f64::INFINITY, f64::NEG_INFINITY, FILLER, f64::from_bits(0xfff0_0000_0000_0001)] {
            for at in 0..10 {
                let (mut setpoint, mut start) = (long, lent.clone());
                setpoint[at] = bad;
                assert_eq!(number(&c, &setpoint, &lent, 1), 12);
                assert_eq!(number(&c, &setpoint[..dim], &lent, 1), if at < dim { 12 } else { 0 });
                start.p[at] = bad;
                assert_eq!(number(&c, &long, &start, 1), 12);
                start = Lent { v: start.p, p: lent.p.clone(), ..start };
                assert_eq!(number(&c, &long, &start, 1), 12);
            }
            assert_eq!(number(&c, &long, &Lent { slacks: vec![bad; 2], ..lent.clone() }, 1), 0, "{bad}");
        }
    }
}

/// The configuration's number, then 11, then 12, then 13.
#[test]
fn the_order_of_judging() {
    let c = table(3, 2);
    let zone = |v_max, a1| Zones::of(&[ContactLimit { radius: 1.0, v_max, a0: 0, a1 }]);
    let stall = Calibration { mask: 1 << STALL, ..Calibration::DISARMED };
    let (nan, far) = ([f64::NAN; 3], [1e200; 3]);
    for (refused, due) in [
        (FuseConfig { pos_dim: 9, ..c }, 1),
        (FuseConfig { dim: 0, ..c }, 1),
        (FuseConfig { dt: 0.0, ..c }, 2),
        (with_gains(c, -1.0, 1.0, 1.0), 2),
        (with_gains(c, 1.0, 0.0, 1.0), 2),
        (with_gains(c, 1.0, 1.0, 0.0), 2),
        (FuseConfig { brake: BrakeModel { substeps: 0, ..c.brake }, ..c }, 3),
        (FuseConfig { brake: BrakeModel { brake_steps: 4097, ..c.brake }, ..c }, 3),
        (FuseConfig { zones: zone(1.0, 0), aux_count: 2, ..c }, 4),
        (FuseConfig { pos_dim: 1, ..c }, 15),
        (FuseConfig { calibrated: true, cal: stall, horizon_ticks: 1, ..c }, 17),
    ] {
        for (setpoint, p, n) in
            [(&nan[..0], &nan[..0], 9), (&nan, &nan, 9), (&nan, &nan, 1), (&far, &far, 1), (&far, &far, 0)]
        {
            assert_eq!(number(&refused, setpoint, &Lent::new(p, p, 1), n), due);
        }
    }
    for (setpoint, p, v, room) in [
        (&nan[..2], &nan[..], &nan[..], 1),
        (&nan, &nan[..1], &nan, 1),
        (&nan, &nan, &nan[..1], 1),
        (&nan, &nan, &nan, 0),
    ] {
        assert_eq!(number(&c, setpoint, &Lent::new(p, v, room), 1), 11);
    }
    assert_eq!(number(&c, &[0.0, 0.0, f64::NAN], &Lent::new(&far, &far, 1), 1), 12, "a setpoint past the live axes");
    assert_eq!(number(&c, &[0.0; 3], &Lent::new(&far, &[0.0, 0.0, f64::NAN], 1), 1), 12, "a velocity past them");
    assert_eq!(number(&c, &[0.0; 3], &Lent::new(&far, &far, 1), 1), 13);
}

/// Each number of a substep at its edge: half of the greatest number is accepted where something doubles it, and the next number is 13. An axis past
/// dim or past pos_dim computes nothing.
#[test]
fn every_number_of_a_substep_counts() {
    const HALF: f64 = f64::MAX / 2.0;
    // gains k_p, k_v and dt, and then a, p and v
    type Start = ([f64; 3], [f64; 3]);
    type Case = (&'static str, fn(f64) -> Start);
    let cases: [Case; 8] = [
        ("a - p", |x| ([0.0, 1.0, 1.0], [x, -HALF, 0.0])),
        ("k_p (a - p)", |x| ([2.0, 1.0, 1e-300], [x, 0.0, 0.0])),
        ("k_v v", |x| ([0.0, 2.0, 1e-300], [0.0, 0.0, x])),
        ("acc", |x| ([1.0, 1.0, 1e-300], [x, 0.0, -HALF])),
        ("acc dt", |x| ([1.0, 1e-300, 2.0], [x, 0.0, -f64::MAX])),
        ("v + acc dt", |x| ([1.0, 1e-300, 1.0], [HALF, 0.0, x])),
        ("v dt", |x| ([0.0, 1e-300, 2.0], [0.0, 0.0, x])),
        ("p + v dt", |x| ([0.0, 1e-300, 1.0], [x, x, HALF])),
    ];
    let with = |dim, pos_dim, at: usize, ([k_p, k_v, dt], [a, p, v]): Start| {
        let (mut setpoint, mut start) = ([0.0; 4], Lent::new(&[0.0; 4], &[0.0; 4], 1));
        (setpoint[at], start.p[at], start.v[at]) = (a, p, v);
        number(&with_gains(boxed(dim, pos_dim), k_p, k_v, dt), &setpoint, &start, 1)
    };
    for (what, start) in cases {
        let (good, bad) = (start(HALF), start(HALF.next_up()));
        for at in 0..3 {
            assert_eq!([with(3, 3, at, good), with(3, 3, at, bad)], [0, 13], "{what} on axis {at}");
        }
        assert_eq!([with(4, 3, 3, bad), with(3, 4, 3, bad)], [0; 2], "{what} past pos_dim, and past dim");
    }
}

/// The numbers of the slack alone: a wall at the other end of the format, and the distance on a round table.
#[test]
fn every_number_of_a_slack_counts() {
    // half a step of the greatest number, and the number below
    let (over, under) = (2f64.powi(970), 2f64.powi(970).next_down());
    for (side, x, due) in [(1.0, over, 13), (1.0, under, 0), (-1.0, over, 13), (-1.0, under, 0)] {
        let mut c = with_gains(boxed(2, 2), 0.0, 1.0, 1.0);
        (c.box_lo[1], c.box_hi[1]) = (-f64::MAX, f64::MAX);
        assert_eq!(number(&c, &[0.0; 2], &Lent::new(&[0.0, side * x], &[0.0; 2], 1), 1), due, "{side} {x}");
    }
    let c = with_gains(table(3, 3), 0.0, 1.0, 1.0);
    for (p, due) in [
        ([1.4e154, 0.0, 0.0], 13),
        ([0.0, -1.4e154, 0.0], 13),
        ([1.3e154, 0.0, 0.0], 0),
        ([1e154, 1e154, 0.0], 13),
        ([0.0, 0.0, 1e300], 0),
    ] {
        assert_eq!(number(&c, &[0.0; 3], &Lent::new(&p, &[0.0; 3], 1), 1), due, "{p:?}");
    }
    // the difference of radius and distance is finite wherever both are; the centre is subtracted first
    let c = FuseConfig { shape: Shape::disc([-f64::MAX, 0.0], f64::MAX), ..c };
    assert_eq!(number(&c, &[0.0; 3], &Lent::new(&[over, 0.0, 0.0], &[0.0; 3], 1), 1), 13);
}

/// Where 13 is due at the fourth substep: at every split the first half has it there, or the second so much sooner; at each number of substeps
/// the entries before it are written and nothing else.
#[test]
fn a_number_that_is_not_finite_at_its_place() {
    // -1e100, 1e200, -1e300, and then the spring
    let c = with_gains(boxed(2, 2), 1e100, 1.0, 1.0);
    let start = Lent::new(&[0.0, 1.0, 7.0], &[0.0, 0.0, -0.0], 8);
    for n in 0..=7 {
        let (answer, lent) = ran(&c, &[0.0; 2], &start, n);
        match n {
            0..=3 => assert_eq!(answer.map(|r| r.0), Ok(n)),
            _ => {
                assert_eq!(answer, Err(Refusal { number: 13, place: 4 }));
                assert_eq!(lent.bits()[..2], start.bits()[..2], "the plant stays");
            }
        }
        let written = lent.slacks.iter().take_while(|x| !x.is_nan()).count();
        assert_eq!((written, bits(&lent.slacks[written..])), (n.min(3), vec![FILLER.to_bits(); 8 - n.min(3)]));
    }
    // and about a table, where the distance is the first that is not
    let round = FuseConfig { box_lo: [-1.0; 8], ..with_gains(table(2, 2), 1e100, 1.0, 1.0) };
    let (answer, lent) = ran(&round, &[0.0; 2], &start, 4);
    assert_eq!(
        (answer, lent.slacks[0].is_nan(), lent.slacks[1].is_nan()),
        (Err(Refusal { number: 13, place: 2 }), false, true)
    );
    for (c, m) in [c, round].into_iter().flat_map(|c| (0..=6).map(move |m| (c, m))) {
        for (side, run, _) in sides() {
            let found = halves(run, &c, &[0.0; 2], &start, m, 6 - m);
            let k = if c.shape.disc { 2 } else { 4 };
            assert_eq!(found, Ok(if m < k { Found::Second } else { Found::First }), "{side}: {m} of 6");
        }
    }
}

/// The margin of the whole is the lesser of the two in their order, bit for bit. Swapped it is the same number, and may be the other zero: a
/// plant that stays beside a wall at 0 has slack -0.0 after one substep and 0.0 after two.
#[test]
fn the_sign_of_a_least_slack_of_zero() {
    let tiny = f64::from_bits(1);
    for (mut c, axis) in [(boxed(1, 1), 0), (table(3, 3), 2)] {
        c = with_gains(c, 1.0, 8.0, 0.25);
        c.box_lo[axis] = 0.0;
        let (mut p, mut v) = (vec![0.0; axis + 1], vec![0.0; axis + 1]);
        (p[axis], v[axis]) = (-0.0, tiny);
        let (setpoint, start) = (vec![0.0; axis + 1], Lent::new(&p, &v, 2));
        let (whole, lent) = ran(&c, &setpoint, &start, 2);
        assert_eq!((whole, &lent.bits()[2]), (Ok((2, 0f64.to_bits())), &bits(&[-0.0, 0.0])));
        let (first, reached) = ran(&c, &setpoint, &start, 1);
        let (second, _) = ran(&c, &setpoint, &reached, 1);
        let [first, second] = [first, second].map(|r| f64::from_bits(r.expect("accepted").1));
        assert_eq!(bits(&[first, second]), bits(&[-0.0, 0.0]));
        assert_eq!(bits(&[min(first, second), min(second, first)]), bits(&[0.0, -0.0]), "in order, and swapped");
    }
}

/// Every split of a run is the run: on the way to 1 in a box, and about a table.
#[test]
fn every_split() {
    for (c, side, run) in
        [boxed(2, 2), table(2, 2), table(3, 3)].into_iter().flat_map(|c| sides().map(|s| (c, s.0, s.1)))
    {
        let start = Lent::new(&[0.25, -0.5, 0.0, -0.0], &[1.0, 0.1, -0.3, 7.0], 12);
        for m in 0..=12 {
            assert_eq!(halves(run, &c, &[1.0, 0.75, -0.5], &start, m, 12 - m), Ok(Found::Both), "{side}: {m} of 12");
        }
    }
}

// ---- what two halves make

/// How a split run ends.
#[derive(Clone, Copy, Debug, PartialEq)]
enum Found {
    /// both accepted
    Both,
    /// 13 in the first half
    First,
    /// 13 in the second half
    Second,
    /// refused whatever the substeps are
    Neither,
}

/// How it ends, or what is wrong with it.
type Judged = Result<Found, &'static str>;

fn holds(is: bool, wrong: &'static str) -> Result<(), &'static str> {
    if is {
        Ok(())
    } else {
        Err(wrong)
    }
}

/// Holds m substeps and then n from the plant that they reach to m + n at once.
fn halves(run: RunTowards, c: &FuseConfig, setpoint: &[f64], start: &Lent, m: usize, n: usize) -> Judged {
    let (mut whole, mut parts, mut none) = (start.clone(), start.clone(), start.clone());
    let at_once = whole.run(run, c, setpoint, m + n, 0);
    let zero = none.run(run, c, setpoint, 0, 0);
    if let Ok(zero) = zero {
        let nothing = zero.count == 0 && none.bits() == start.bits();
        holds(nothing && zero.margin == f64::INFINITY, "zero substeps change something, or have a slack")?;
    }
    let first = match parts.run(run, c, setpoint, m, 0) {
        Ok(first) => first,
        Err(r) => {
            holds(parts.bits()[..2] == start.bits()[..2], "a refusal moves the plant")?;
            holds((at_once, whole.bits()) == (Err(r), parts.bits()), "the whole is not refused as the first half")?;
            holds(zero.is_ok() == (r.number == 13), "zero substeps are judged otherwise")?;
            return Ok(if r.number == 13 { Found::First } else { Found::Neither });
        }
    };
    let reached = parts.clone();
    match (parts.run(run, c, setpoint, n, m), at_once) {
        (Ok(second), Ok(at_once)) => {
            holds(whole.bits()[..2] == parts.bits()[..2], "the plant is another")?;
            holds(whole.bits()[2] == parts.bits()[2], "the entries are others")?;
            holds((first.count, second.count, at_once.count) == (m, n, m + n), "the count is another")?;
            let least = min(first.margin, second.margin);
            holds(at_once.margin.to_bits() == least.to_bits(), "the margin is not the lesser of the two")?;
            holds(at_once.margin == min(second.margin, first.margin), "the margin is another number when swapped")?;
            Ok(Found::Both)
        }
        (Err(r), whole_answer) => {
            holds(r.number == 13, "the reached plant is refused")?;
            holds(whole_answer == Err(Refusal { place: m + r.place, ..r }), "the whole is not refused at m + k")?;
            holds(whole.bits()[2] == parts.bits()[2], "the entries before the place are others")?;
            let kept = parts.bits()[..2] == reached.bits()[..2] && whole.bits()[..2] == start.bits()[..2];
            holds(kept, "a refusal moves the plant")?;
            Ok(Found::Second)
        }
        (Ok(_), Err(_)) => Err("the whole is refused, and no half is"),
    }
}

/// A generated input split somewhere, with room for all of its substeps and for two more; `None` where those are too many.
fn split(run: RunTowards, i: &towards::RunIn, call: u64) -> Option<Judged> {
    let m = (call as usize * 7) % i.n.checked_add(1)?;
    let few = i.n <= 10_000;
    few.then(|| halves(run, &i.cfg, &i.setpoint, &Lent::new(&i.p, &i.v, i.n + 2), m, i.n - m))
}

/// The generated inputs of an entry by one side; every end is met in its shape.
fn halves_of(entry: &Entry<towards::RunIn>, (side, run): (&str, RunTowards), calls: u64) {
    let mut met = [[0; 4]; 2];
    for call in 0..calls {
        let i = entry.input(11, call);
        if let Some(judged) = split(run, &i, call) {
            let found = judged.unwrap_or_else(|wrong| panic!("{side}: {wrong}: {i:?}"));
            met[i.cfg.shape.disc as usize][found as usize] += 1;
        }
    }
    println!("{side}, {}: {met:?}", entry.name);
    let disc = entry.name.contains("table") as usize;
    assert!(met[disc].iter().all(|n| *n > calls / 200), "{side}, {}: {met:?}", entry.name);
}

#[test]
fn two_short_runs_make_a_long_one() {
    assert!(lictor::environment_ok());
    let port = Port::default();
    for entry in [towards::run_towards(&port), towards::run_towards_on_a_round_table(&port)] {
        for ((side, run, _), calls) in sides().into_iter().zip([50_000, 150_000, 50_000]) {
            halves_of(&entry, (side, run), calls);
        }
    }
}

/// The kind changes nothing, and neither do the counts of the forecast.
#[test]
fn a_run_is_that_of_the_gains() {
    let entry = towards::run_towards_on_a_round_table(&Port::default());
    let run = linked::port().run_towards.expect("an entry");
    let mut accepted = 0;
    for i in (0..20_000).map(|call| entry.input(12, call)).filter(|i| i.n < 300 && derive(&i.cfg).is_ok()) {
        let answers = BRAKES.map(|kind| {
            let mut c = i.cfg;
            c.brake = BrakeModel { kind, substeps: 64, commit: 1, brake_steps: 2, react: 9, ..c.brake };
            let mut lent = Lent { p: i.p.clone(), v: i.v.clone(), slacks: i.slacks.clone() };
            let answer = lent.run(run, &c, &i.setpoint, i.n, 0);
            (answer.map(|r| (r.count, r.margin.to_bits())), lent.bits())
        });
        accepted += answers[0].0.is_ok() as u32;
        assert!(answers.iter().all(|a| *a == answers[0]), "{i:?}");
    }
    assert!(accepted > 5000, "{accepted}");
}

/// What is found wrong with a run that is spoilt, on the generated inputs: the first of all.
fn found_out(run: RunTowards) -> &'static str {
    let entry = towards::run_towards(&Port::default());
    let wrong = (0..40_000).find_map(|call| split(run, &entry.input(11, call), call)?.err());
    wrong.expect("the wrong run is found out")
}

#[test]
fn a_run_that_is_spoilt() {
    let wrongs: [(RunTowards, &str); 8] = [
        (|c, a, p, v, n, s| brake::run_towards(c, a, &mut p.to_vec(), &mut v.to_vec(), n, s), "the entries are others"),
        (|c, a, p, v, n, s| brake::run_towards(c, a, p, &mut v.to_vec(), n, s), "the plant is another"),
        (|c, a, p, v, n, s| brake::run_towards(c, a, &mut p.to_vec(), v, n, s), "the plant is another"),
        (
            |c, a, p, v, n, s| {
                let r = brake::run_towards(c, a, p, v, n, s)?;
                Ok(Ran { margin: s[..n].last().map_or(r.margin, |last| *last), ..r })
            },
            "the margin is not the lesser of the two",
        ),
        (
            |c, a, p, v, n, s| brake::run_towards(c, a, p, v, n, s).map(|r| Ran { margin: min(0.0, r.margin), ..r }),
            "zero substeps change something, or have a slack",
        ),
        (
            |c, a, p, v, n, s| {
                let r = brake::run_towards(c, a, p, v, n, s)?;
                s[n..].iter_mut().take(1).for_each(|x| *x = 0.5);
                Ok(r)
            },
            "zero substeps change something, or have a slack",
        ),
        (
            |c, a, p, v, n, s| {
                brake::run_towards(c, a, p, v, n, s).inspect_err(|r| p[0] += (r.number == 13) as u8 as f64)
            },
            "a refusal moves the plant",
        ),
        (
            |c, a, p, v, n, s| {
                let less = |r: Refusal| Refusal { place: r.place.min(2), ..r };
                brake::run_towards(c, a, p, v, n, s).map_err(less)
            },
            "the whole is not refused at m + k",
        ),
    ];
    for (run, wrong) in wrongs {
        assert_eq!(found_out(run), wrong);
    }
}

// ---- the forecast

/// A forecast of the second-order kind made of runs: towards each row for its substeps, and then towards the plant that is reached, moved inside, for
/// those of the braking steps. Entries, margin, stop distance and places are the forecast's, bit for bit; `None` where it is refused before 13.
fn made_of_runs(run: RunTowards, forecast: BrakeFeasible, i: &forecasts::ForecastIn) -> Option<Judged> {
    let mut slacks = i.slacks.clone();
    let answer = forecast(&i.cfg, &i.p, &i.v, i.ch.view(), i.from, &mut slacks);
    let judged = answer.is_ok() || answer.is_err_and(|r| r.number == 13);
    judged.then(|| {
        let mut lent = Lent { p: i.p.clone(), v: i.v.clone(), slacks: i.slacks.clone() };
        let ended = run_through(run, i, &mut lent);
        holds(bits(&slacks) == bits(&lent.slacks), "the entries are others")?;
        let computed = |place| Err(Refusal { number: 13, place });
        match (ended, dist(&lent.p, &i.p, i.cfg.dim.min(i.cfg.pos_dim))) {
            (Err((place, found)), _) => holds(answer == computed(place), "13 is elsewhere").map(|()| found),
            (Ok(r), Err(_)) => holds(answer == computed(r.count + 1), "13 is elsewhere").map(|()| Found::Neither),
            (Ok(r), Ok(stop)) => {
                let told = answer.map(|a| (a.count, a.margin.to_bits(), a.stop_dist.to_bits()));
                let due = Ok((r.count, r.margin.to_bits(), stop.to_bits()));
                holds(told == due, "count, margin or stop distance is another").map(|()| Found::Both)
            }
        }
    })
}

/// Count and margin of all runs of a forecast, or the place of a 13, and whether it is a row's or the braking's.
fn run_through(run: RunTowards, i: &forecasts::ForecastIn, lent: &mut Lent) -> Result<Ran, (usize, Found)> {
    let (c, view) = (&i.cfg, i.ch.view());
    let substeps = c.brake.substeps as usize;
    let go = |all: &mut Ran, lent: &mut Lent, setpoint: &[f64], n: usize| {
        let r = lent.run(run, c, setpoint, n, all.count).map_err(|r| all.count + r.place)?;
        *all = Ran { count: all.count + r.count, margin: min(all.margin, r.margin) };
        Ok(())
    };
    let mut all = Ran { count: 0, margin: f64::INFINITY };
    for k in i.from..(c.brake.commit as usize).max(i.from) {
        go(&mut all, lent, action(&view, k), substeps).map_err(|place| (place, Found::First))?;
    }
    let mut setpoint = lent.p.clone();
    setpoint.resize(c.dim.max(lent.p.len()), 0.0);
    let moved = workspace::move_inside(c, &derive(c).expect("accepted"), c.dim.min(c.pos_dim), &mut setpoint);
    moved.map_err(|_| (all.count + 1, Found::Second))?;
    let braking = c.brake.brake_steps as usize * substeps;
    go(&mut all, lent, &setpoint, braking).map_err(|place| (place, Found::Second))?;
    Ok(all)
}

#[test]
fn the_long_forecast_is_made_of_runs() {
    let port = Port::default();
    for entry in [forecasts::brake_feasible(&port), forecasts::brake_feasible_on_a_round_table(&port)] {
        for ((side, run, forecast), calls) in sides().into_iter().zip([20_000, 60_000, 20_000]) {
            let mut met = [0; 4];
            for call in 0..calls {
                let mut i = entry.input(13, call);
                i.cfg.brake.kind = BrakeKind::PdSecondOrder;
                i.slacks = vec![FILLER; brake::count_of(&i.cfg, i.from).min(5000) + 1];
                if let Some(judged) = made_of_runs(run, forecast, &i) {
                    let found = judged.unwrap_or_else(|wrong| panic!("{side}: {wrong}: {i:?}"));
                    met[found as usize] += 1;
                }
            }
            println!("{side}, {}: {met:?}", entry.name);
            assert!(met.iter().all(|n| *n >= 10), "{side}, {}: {met:?}", entry.name);
        }
    }
}

/// A forecast is not made of other runs: of another gain, or with a margin that starts from 0.
#[test]
fn a_forecast_of_other_runs() {
    let entry = forecasts::brake_feasible(&Port::default());
    let found_out = |run: RunTowards| {
        let inputs = (0..20_000).map(|call| entry.input(13, call));
        let second_order = inputs.filter(|i| i.cfg.brake.kind == BrakeKind::PdSecondOrder);
        second_order.filter_map(|i| made_of_runs(run, brake::brake_feasible, &i)?.err()).next()
    };
    let stiff: RunTowards = |c, a, p, v, n, s| {
        let BrakeModel { k_p, k_v, dt, .. } = c.brake;
        brake::run_towards(&with_gains(*c, 2.0 * k_p, k_v, dt), a, p, v, n, s)
    };
    assert_eq!(found_out(stiff), Some("the entries are others"));
    let zero: RunTowards =
        |c, a, p, v, n, s| brake::run_towards(c, a, p, v, n, s).map(|r| Ran { margin: min(0.0, r.margin), ..r });
    assert_eq!(found_out(zero), Some("count, margin or stop distance is another"));
}

/// One axis with two substeps, so many rows and so many braking steps.
fn with(commit: u16, brake_steps: u16) -> FuseConfig {
    let c = boxed(1, 1);
    FuseConfig { brake: BrakeModel { substeps: 2, commit, brake_steps, ..c.brake }, ..c }
}

/// A forecast of rows and braking steps, its slacks.
fn told(forecast: BrakeFeasible, c: &FuseConfig, p: f64, v: f64, from: usize) -> Vec<f64> {
    let ch = ChunkView { seq: 0, t_emit: 0, horizon: 1, dim: 1, exec_steps: 0, data: &[1.0] };
    let mut slacks = vec![FILLER; brake::count_of(c, from)];
    forecast(c, &[p], &[v], ch, from, &mut slacks).expect("accepted");
    slacks
}

/// The setpoint is made where the rows end. A forecast that is asked in two calls past that point makes another one, and differs; the same run under the
/// one setpoint does not, and neither do two calls that part where the rows end, or before.
#[test]
fn a_forecast_that_may_not_be_split() {
    // one row for two substeps, to 1; the braking starts there at velocity 1, and is at rest at 1.25 after two more
    let c = boxed(1, 1);
    for (side, run, forecast) in sides() {
        let whole = told(forecast, &with(1, 2), 0.0, 0.0, 0);
        assert_eq!(whole, [1.5, 1.0, 0.75, 0.75, 0.875, 1.0], "{side}");
        let mut plant = Lent::new(&[0.0], &[0.0], 2);
        plant.run(run, &c, &[1.0], 2, 0).expect("accepted");
        assert_eq!((&plant.p, &plant.v, &plant.slacks[..]), (&vec![1.0], &vec![1.0], &whole[..2]), "{side}");
        // two calls that part where the rows end have the same setpoint
        let rows = told(forecast, &with(1, 0), 0.0, 0.0, 0);
        assert_eq!([rows, told(forecast, &with(1, 2), 1.0, 1.0, 1)].concat(), whole, "{side}");
        // two that part after the first braking step do not
        plant.run(run, &c, &[1.0], 2, 0).expect("accepted");
        assert_eq!((&plant.p, &plant.v, &plant.slacks[..]), (&vec![1.25], &vec![0.0], &whole[2..4]), "{side}");
        let first = told(forecast, &with(1, 1), 0.0, 0.0, 0);
        assert_eq!(first, whole[..4], "{side}");
        let second = told(forecast, &with(1, 1), 1.25, 0.0, 1);
        assert_eq!(second, [0.75, 0.75], "{side}: held at 1.25, and not drawn back to 1");
        plant.run(run, &c, &[1.0], 2, 0).expect("accepted");
        assert_eq!(plant.slacks, whole[4..], "{side}: the run under the one setpoint goes on");
    }
}

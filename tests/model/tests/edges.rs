//! Every condition of the scope document's table and of the requests after it on both sides of its edge.

use model::*;

/// What the configuration is answered after one change, the same under either choice and in either mode.
fn judged(change: impl Fn(&mut FuseConfig)) -> Option<u8> {
    let mut c = FuseConfig::WHOLE;
    change(&mut c);
    let number = envelope::judge(&c);
    assert_eq!(envelope::derive(&c).err().map(|r| r.number), number);
    assert_eq!(envelope::judge(&FuseConfig { absent_camera: AbsentCamera::NoZone, ..c }), number);
    assert_eq!(envelope::judge(&FuseConfig { gripper: Gripper::LastCommand, ..c }), number);
    number
}

#[test]
fn sizes() {
    for (n, want) in [(0, Some(1)), (1, None), (8, None), (9, Some(1)), (usize::MAX, Some(1))] {
        assert_eq!(judged(|c| c.dim = n), want);
        assert_eq!(judged(|c| c.pos_dim = n), want);
    }
    for (n, want) in [(0, None), (8, None), (9, Some(1)), (255, Some(1))] {
        assert_eq!(judged(|c| c.cal.n_terms = n), want);
    }
    for (bit, want) in [(11, None), (12, Some(1)), (31, Some(1))] {
        assert_eq!(judged(|c| c.cal.mask = 1 << bit), want);
        assert_eq!(judged(|c| c.cal.terms[7] = 1 << bit), want);
    }
    assert_eq!(judged(|c| (c.cal.n_terms, c.cal.terms[7]) = (7, 1 << 12)), None, "an uncounted term");
    for (n, want) in [(0, false), (1, true), (63, true), (64, false), (255, false)] {
        assert_eq!(window::mask(n).is_ok(), want);
    }
}

/// A number of the configuration.
type Field = fn(&mut FuseConfig) -> &mut f64;

fn zone(c: &mut FuseConfig) -> &mut ContactLimit {
    c.zones.counted_mut().first_mut().expect("a zone is configured")
}

#[test]
fn numbers_above_zero() {
    let above: [Field; 12] = [
        |c| &mut c.dt,
        |c| &mut c.brake.dt,
        |c| &mut c.brake.k_v,
        |c| &mut c.v_max,
        |c| &mut c.a_max,
        |c| &mut c.j_max,
        |c| &mut c.reach_max,
        |c| &mut zone(c).v_max,
        |c| &mut c.norm_scale[1],
        |c| &mut c.norm_scale[0],
        |c| &mut c.cal.scale[0],
        |c| &mut c.cal.scale[191],
    ];
    for (i, field) in above.iter().enumerate() {
        for bad in [0.0, -0.0, -5e-324, -1.0, f64::NAN, f64::INFINITY, f64::NEG_INFINITY] {
            assert_eq!(judged(|c| *field(c) = bad), Some(2), "number {i} as {bad}");
        }
        assert_eq!(judged(|c| *field(c) = 1e-100), None, "number {i} may be small");
    }
}

#[test]
fn numbers_not_below_zero() {
    let least: [Field; 3] = [|c| &mut c.brake.k_p, |c| &mut c.margin, |c| &mut zone(c).radius];
    for field in least {
        for bad in [-5e-324, -1.0, f64::NAN, f64::INFINITY] {
            assert_eq!(judged(|c| *field(c) = bad), Some(2));
        }
        for good in [0.0, -0.0, 5e-324, 1.0] {
            assert_eq!(judged(|c| *field(c) = good), None);
        }
    }
}

#[test]
fn numbers_that_are_finite() {
    let finite: [Field; 6] = [
        |c| &mut c.box_lo[1],
        |c| &mut c.box_hi[1],
        |c| &mut c.norm_center[1],
        |c| &mut c.cal.center[0],
        |c| &mut c.cal.center[191],
        |c| &mut c.cal.tau,
    ];
    for field in finite {
        for bad in [f64::NAN, f64::INFINITY, f64::NEG_INFINITY] {
            assert_eq!(judged(|c| *field(c) = bad), Some(2));
        }
    }
    let unread: [Field; 4] =
        [|c| &mut c.box_lo[2], |c| &mut c.box_hi[2], |c| &mut c.norm_center[2], |c| &mut c.norm_scale[2]];
    for field in unread {
        assert_eq!(judged(|c| *field(c) = f64::NAN), None);
    }
}

#[test]
fn derived_numbers() {
    assert_eq!(judged(|c| c.dt = 1e-102), None);
    assert_eq!(judged(|c| c.dt = 1e-103), Some(2), "the inverse cubed");
    assert_eq!(judged(|c| (c.v_max, c.dt) = (f64::MAX, 1.0)), None);
    assert_eq!(judged(|c| (c.v_max, c.dt) = (f64::MAX, 1f64.next_up())), Some(2), "step_max");
    let edge = 2f64.powi(-1024);
    assert_eq!(judged(|c| c.norm_scale[1] = edge), Some(2), "the inverse of a scale");
    assert_eq!(judged(|c| c.norm_scale[1] = edge.next_up()), None);
    assert_eq!(judged(|c| c.margin = 1.0), None, "a box without room");
    assert_eq!(judged(|c| c.margin = 1f64.next_up()), Some(2), "a box turned over");
    assert_eq!(judged(|c| (c.box_hi[1], c.margin) = (f64::MAX, f64::MAX)), Some(2));
    assert_eq!(judged(|c| (c.box_lo[1], c.box_hi[1]) = (-f64::MAX, f64::MAX)), None);
}

#[test]
fn steps() {
    for (n, want) in [(0, Some(3)), (1, None), (64, None), (65, Some(3)), (65535, Some(3))] {
        assert_eq!(judged(|c| c.brake.substeps = n), want);
    }
    assert_eq!(judged(|c| c.brake.commit = 64), None);
    assert_eq!(judged(|c| c.brake.commit = 65), Some(3));
    assert_eq!(judged(|c| (c.brake.commit, c.brake.brake_steps) = (64, 4032)), None);
    assert_eq!(judged(|c| (c.brake.commit, c.brake.brake_steps) = (64, 4033)), Some(3));
    assert_eq!(judged(|c| (c.brake.brake_steps, c.brake.substeps) = (65535, 64)), Some(3));
    assert_eq!(judged(|c| (c.brake.brake_steps, c.brake.substeps) = (64, 64)), None);
    assert_eq!(judged(|c| c.horizon_ticks = 0), Some(3));
}

#[test]
fn channels() {
    assert_eq!(judged(|c| zone(c).a0 = 1), Some(4), "equal");
    assert_eq!(judged(|c| c.aux_count = 1), Some(4), "at the count");
    assert_eq!(judged(|c| (zone(c).a0, zone(c).a1) = (1, 0)), None);
    assert_eq!(judged(|c| (c.zones, c.aux_count) = (Zones::NONE, 0)), None);
    assert_eq!(judged(|c| (zone(c).a0, c.armed) = (1, 0)), Some(4), "armed or not");
}

#[test]
fn a_clear_flag_and_the_first_number() {
    let bad = Calibration { tau: f64::NAN, mask: u32::MAX, n_terms: 255, scale: [0.0; 192], ..Calibration::DISARMED };
    assert_eq!(judged(|c| (c.calibrated, c.cal, c.horizon_ticks) = (false, bad, 0)), None);
    assert_eq!(judged(|c| (c.cal, c.horizon_ticks) = (bad, 0)), Some(1));
    assert_eq!(judged(|c| (c.horizon_ticks, c.dt, zone(c).a0) = (0, 0.0, 1)), Some(2));
    assert_eq!(judged(|c| (c.horizon_ticks, zone(c).a0) = (0, 1)), Some(3));
}

/// What every entry with a configuration answers to it and to a chunk of two axes, all numbers being 0; last the three that take
/// a chunk.
fn at_every_entry(c: &FuseConfig, rows: ChunkView<'_>) -> [Option<u8>; 7] {
    let zeros = [0.0; 2];
    let (mut rt, mut sc, mut out) = (Tier1Rt::NEW, Scores::NEW, [0.0; 2]);
    let answers = [
        envelope::derive(c).err(),
        tier0::check_action(c, &zeros, &[], &zeros, &zeros, &mut out).err(),
        brake::brake_action(c, &zeros, &zeros, &zeros, &mut out).err(),
        brake::hold_action(c, &zeros, &zeros, &mut out).err(),
        tier0::check_chunk(c, &zeros, &[], rows, &mut out).err(),
        tier1::features(c, &mut rt, &zeros, &[], Some(rows), &mut sc).err(),
        brake::brake_feasible(c, &zeros, &zeros, rows, 0, &mut out).err(),
    ];
    answers.map(|r| r.map(|r| r.number))
}

/// What module 8's entries answer: standardise, aggregate and trip.
fn at_every_gate(cal: &Calibration, sc: &Scores) -> [Option<u8>; 3] {
    let answers = [
        conformal::standardise(cal, 0, &mut sc.clone()).err(),
        conformal::aggregate(cal, &mut sc.clone()).err(),
        conformal::trip(cal, sc).err(),
    ];
    answers.map(|r| r.map(|r| r.number))
}

/// Stall in the mask and in the counted terms, and its neighbours, at every entry that can give 17.
#[test]
fn stall_in_a_calibration() {
    let held = |change: fn(&mut Calibration, u32), bits: u32, want: Option<u8>| {
        let mut c = FuseConfig::WHOLE;
        change(&mut c.cal, bits);
        assert_eq!(at_every_entry(&c, view(1, 2, 0, &[0.0; 2])), [want; 7], "{bits:x}");
        assert_eq!(at_every_gate(&c.cal, &Scores::NEW), [want; 3], "{bits:x}");
    };
    let places: [fn(&mut Calibration, u32); 3] =
        [|c, b| c.mask = b, |c, b| c.terms[0] = b, |c, b| (c.n_terms, c.terms[6]) = (7, b)];
    let cases =
        [(1 << 6, None), (1 << 7, Some(17)), (1 << 8, None), (0xf7f, None), (0xfff, Some(17)), (0x1080, Some(1))];
    for place in places {
        for (bits, want) in cases {
            held(place, bits, want);
        }
    }
    held(|c, b| (c.n_terms, c.terms[7]) = (7, b), 1 << 7, None);
    held(|c, b| (c.n_terms, c.terms[0]) = (0, b), 1 << 7, None);
}

#[test]
fn stall_after_four_and_before_five() {
    let named = |change: fn(&mut FuseConfig)| {
        let mut c = FuseConfig::WHOLE;
        c.cal.mask = 1 << STALL;
        change(&mut c);
        c
    };
    type Change = fn(&mut FuseConfig);
    let changes: [(Change, Option<u8>); 5] = [
        (|c| c.dim = 9, Some(1)),
        (|c| c.dt = 0.0, Some(2)),
        (|c| c.horizon_ticks = 0, Some(3)),
        (|c| zone(c).a0 = 1, Some(4)),
        (|c| c.calibrated = false, None),
    ];
    for (change, want) in changes {
        assert_eq!(at_every_entry(&named(change), view(1, 2, 0, &[0.0; 2])), [want; 7]);
    }
    let empty = view(0, 2, 0, &[]);
    assert_eq!(at_every_entry(&named(|_| ()), empty), [Some(17); 7]);
    assert_eq!(at_every_entry(&FuseConfig::WHOLE, empty)[4..], [Some(5); 3]);
}

#[test]
fn stall_after_two_and_before_twelve() {
    let named = Calibration { mask: 1 << STALL | 1, ..Calibration::DISARMED };
    let mut far = Scores { valid: 1, ..Scores::NEW };
    far.f[0] = f64::MAX;
    assert_eq!(at_every_gate(&Calibration { n_terms: 9, ..named }, &far), [Some(1); 3]);
    assert_eq!(at_every_gate(&Calibration { tau: f64::NAN, ..named }, &far), [Some(2); 3]);
    assert_eq!(at_every_gate(&named, &Scores { s: f64::NAN, ..far }), [Some(17); 3]);
    assert_eq!(at_every_gate(&Calibration { center: [-f64::MAX; 192], ..named }, &far), [Some(17); 3]);
    let unnamed = Calibration { mask: 1, center: [-f64::MAX; 192], ..named };
    assert_eq!(at_every_gate(&unnamed, &far), [Some(13), None, None]);
}

/// Twenty equal samples make PathIneff valid and Stall not, also where the caller's scores and the held bits have it.
#[test]
fn stall_is_never_valid() {
    let trail = Trail { len: 20, head: 20, ..Trail::NEW };
    let mut rt = Tier1Rt { trail, held_valid: 1 << STALL, ..Tier1Rt::NEW };
    let mut sc = Scores { f: [7.0; NFEAT], valid: 0xfff, ..Scores::NEW };
    assert_eq!(tier1::features(&FuseConfig::WHOLE, &mut rt, &[], &[], None, &mut sc), Ok(()));
    assert_eq!((sc.valid, sc.f[PATH_INEFF], sc.f[STALL]), (1 << PATH_INEFF, 1.0, 0.0));
}

/// A caller's scores may have Stall's bit: its z is 0 and it never fires.
#[test]
fn stall_in_a_callers_scores() {
    let cal = Calibration { tau: -1.0, ..FuseConfig::WHOLE.cal };
    let mut sc = Scores { f: [7.0; NFEAT], z: [7.0; NFEAT], valid: 0xfff, fired: 0xfff, ..Scores::NEW };
    assert_eq!(conformal::standardise(&cal, 0, &mut sc), Ok(()));
    assert_eq!((sc.z[STALL], sc.z[PATH_INEFF], sc.valid), (0.0, 7.0, 0xfff));
    sc.z[STALL] = 9.0;
    assert_eq!(conformal::aggregate(&cal, &mut sc), Ok(7.0));
    assert_eq!((sc.fired, conformal::trip(&cal, &sc)), (0xf7f, Ok(true)));
}

fn view(h: u16, d: u16, exec: u16, data: &[f64]) -> ChunkView<'_> {
    ChunkView { seq: 0, t_emit: 0, horizon: h, dim: d, exec_steps: exec, data }
}

#[test]
fn chunks() {
    let zeros = [0.0; 1000];
    let cases = [
        (view(0, 1, 0, &[]), Some(5)),
        (view(1, 0, 0, &[]), Some(5)),
        (view(64, 8, 64, &zeros[..512]), None),
        (view(65, 8, 0, &zeros[..520]), Some(6)),
        (view(65, 9, 66, &[]), Some(6)),
        (view(64, 9, 0, &zeros[..576]), Some(7)),
        (view(2, 2, 2, &zeros[..4]), None),
        (view(2, 2, 3, &zeros[..4]), Some(8)),
        (view(2, 2, 3, &zeros[..5]), Some(8)),
        (view(2, 2, 2, &zeros[..3]), Some(9)),
        (view(2, 2, 2, &zeros[..5]), Some(9)),
    ];
    for (v, want) in cases {
        assert_eq!(chunk::judge_view(&v), want, "{v:?}");
        let mut buf = ChunkBuf::NEW;
        assert_eq!(chunk::copy_from(&mut buf, v).err().map(|r| r.number), want);
        assert_eq!(buf.filled, want.is_none());
    }
}

/// The number that `features` gives for a lent chunk and a held one.
fn featured(new: Option<ChunkView<'_>>, held: ChunkBuf) -> Option<u8> {
    let mut rt = Tier1Rt { prev: held, ..Tier1Rt::NEW };
    tier1::features(&FuseConfig::WHOLE, &mut rt, &[], &[], new, &mut Scores::NEW.clone()).err().map(|r| r.number)
}

#[test]
fn two_chunks() {
    let held = ChunkBuf { horizon: 1, dim: 2, filled: true, ..ChunkBuf::NEW };
    let good = Some(view(1, 2, 0, &[0.0, 0.0]));
    assert_eq!(featured(good, held), None);
    assert_eq!(featured(None, ChunkBuf { horizon: 0, ..held }), Some(5));
    assert_eq!(featured(None, ChunkBuf { horizon: 0, filled: false, ..held }), None);
    assert_eq!(
        featured(Some(view(1, 2, 2, &[])), ChunkBuf { dim: 9, ..held }),
        Some(7),
        "the held one's is judged first"
    );
    assert_eq!(featured(Some(view(1, 2, 2, &[])), ChunkBuf { exec_steps: 9, ..held }), Some(8));
    assert_eq!(featured(Some(view(1, 1, 0, &[0.0])), held), Some(10));
    assert_eq!(featured(good, ChunkBuf { dim: 1, ..held }), None, "a held one may have another width");
    let mut nan = held;
    nan.data[1] = f64::NAN;
    assert_eq!(featured(None, nan), Some(12));
    assert_eq!(featured(None, ChunkBuf { dim: 1, ..nan }), None, "past its rows");
    assert_eq!(featured(None, ChunkBuf { filled: false, ..nan }), None);
}

#[test]
fn slices_of_a_check() {
    let cfg = FuseConfig::WHOLE;
    let rows = view(1, 2, 0, &[0.0, 0.0]);
    let number = |pos: &[f64], aux: &[f64], out: usize| {
        tier0::check_chunk(&cfg, pos, aux, rows, &mut vec![f64::NAN; out]).err().map(|r| r.number)
    };
    assert_eq!(number(&[0.0; 2], &[], 2), None);
    assert_eq!(number(&[0.0; 1], &[], 2), Some(11));
    assert_eq!(number(&[0.0; 2], &[], 1), Some(11));
    assert_eq!(number(&[0.0, 0.0, f64::NAN], &[], 2), Some(12), "the tail of a long position");
    assert_eq!(number(&[0.0; 2], &[0.0, 0.0, f64::INFINITY], 2), Some(12), "all of aux");
    assert_eq!(number(&[f64::NAN], &[], 2), Some(11));
}

#[test]
fn slack_entries() {
    let mut cfg = FuseConfig::WHOLE;
    (cfg.brake.commit, cfg.brake.brake_steps, cfg.brake.substeps) = (2, 1, 3);
    let rows = view(1, 2, 0, &[0.0, 0.0]);
    let number = |cfg: &FuseConfig, from: usize, room: usize| {
        brake::brake_feasible(cfg, &[0.0; 2], &[0.0; 2], rows, from, &mut vec![0.0; room]).err().map(|r| r.number)
    };
    for (from, need) in [(0, 9), (1, 6), (2, 3), (usize::MAX, 3)] {
        assert_eq!((number(&cfg, from, need), number(&cfg, from, need - 1)), (None, Some(11)));
    }
    cfg.brake.kind = BrakeKind::BoundedAccel;
    for (from, need) in [(0, 3), (1, 2), (2, 1), (usize::MAX, 1)] {
        assert_eq!((number(&cfg, from, need), number(&cfg, from, need - 1)), (None, Some(11)));
    }
    (cfg.brake.kind, cfg.brake.k_p, cfg.brake.dt) = (BrakeKind::PdSecondOrder, f64::MAX, 4.0);
    let far = view(1, 2, 0, &[9.0, 9.0]);
    let r = brake::brake_feasible(&cfg, &[0.0; 2], &[0.0; 2], far, 0, &mut [0.0; 8]);
    assert_eq!(r, Err(Refusal { number: 11, place: 0 }), "even where 13 would come sooner");
}

#[test]
fn scores_and_trails() {
    let cal = Calibration::DISARMED;
    let with = |change: fn(&mut Scores)| {
        let mut sc = Scores::NEW;
        change(&mut sc);
        conformal::trip(&cal, &sc).err().map(|r| r.number)
    };
    assert_eq!(with(|sc| sc.s = f64::INFINITY), None);
    assert_eq!(with(|sc| sc.s = f64::NEG_INFINITY), None);
    assert_eq!(with(|sc| sc.s = f64::NAN), Some(12));
    assert_eq!(with(|sc| sc.f[11] = f64::INFINITY), Some(12));
    assert_eq!(with(|sc| sc.z[11] = f64::INFINITY), Some(12));
    let trail = |head: u8, len: u8| window::net(&Trail { head, len, ..Trail::NEW }, 1, 1).err().map(|r| r.number);
    assert_eq!([trail(31, 32), trail(32, 32), trail(31, 33)], [None, Some(1), Some(1)]);
    let mut t = Trail::NEW;
    t.buf[255] = f64::NAN;
    assert_eq!(window::path(&t, 1, 2).err().map(|r| r.number), Some(12), "all 256 numbers");
}

/// Two axes, CONTACT alone armed, and a zone of radius 1 in which a step of 2 is allowed, on two of three channels.
fn zoned(absent_camera: AbsentCamera, (a0, a1): (u8, u8)) -> FuseConfig {
    let zones = Zones::of(&[ContactLimit { radius: 1.0, v_max: 2.0, a0, a1 }]);
    let clamp = ClampMode::Project;
    FuseConfig { armed: CONTACT, zones, aux_count: 3, calibrated: false, clamp, absent_camera, ..FuseConfig::WHOLE }
}

/// Trips of a step to (x, 0), by a chunk and by an action, from positions that are lent whole or in part.
fn stepped(c: &FuseConfig, pos: &[f64], aux: &[f64], x: f64) -> Result<u32, Refusal> {
    let (mut rows, mut out) = ([7.0; 2], [7.0; 2]);
    let chunk = tier0::check_chunk(c, pos, aux, view(1, 2, 0, &[x, 0.0]), &mut rows);
    let action = tier0::check_action(c, pos, aux, &[0.0; 2], &[x, 0.0], &mut out);
    assert_eq!((chunk, rows), (action, out), "from 0 the two are one");
    assert_eq!(out == [7.0; 2], action.is_err());
    assert!(action.is_err() || (out[0] != x) == action.is_ok_and(|r| r.trips == CONTACT), "moved where it trips");
    action.map(|r| r.trips)
}

const OVER: f64 = 2.0000000000000004;

/// Either side of the lengths at which each channel, and both, are there.
#[test]
fn a_message_of_every_length() {
    for channels in [(0, 2), (2, 0), (1, 2), (2, 1), (0, 1), (1, 0)] {
        let enough = channels.0.max(channels.1) as usize + 1;
        for length in 0..=enough + 2 {
            // the centre is far away where it is seen
            let aux = vec![9.0; length];
            let at = |choice, x| stepped(&zoned(choice, channels), &[0.0; 2], &aux, x);
            let slow = if length < enough { CONTACT } else { 0 };
            assert_eq!(at(AbsentCamera::Slow, OVER), Ok(slow), "{channels:?} of {length}");
            assert_eq!(at(AbsentCamera::Slow, 2.0), Ok(0), "a step that is touched");
            assert_eq!(at(AbsentCamera::NoZone, OVER), Ok(0), "{channels:?} of {length}");
            // and at the arm
            let near = |choice| stepped(&zoned(choice, channels), &[0.0; 2], &vec![0.0; length], OVER);
            assert_eq!(near(AbsentCamera::Slow), Ok(CONTACT));
            assert_eq!(near(AbsentCamera::NoZone), Ok(if length < enough { 0 } else { CONTACT }));
        }
    }
}

/// The lent length counts, and not pos_dim.
#[test]
fn a_position_of_every_length() {
    for (choice, unseen) in [(AbsentCamera::Slow, CONTACT), (AbsentCamera::NoZone, 0)] {
        let one = FuseConfig { pos_dim: 1, ..zoned(choice, (0, 1)) };
        let from = |c: &FuseConfig, n: usize, aux: &[f64]| stepped(c, &[0.0; 3][..n], aux, OVER);
        for (aux, seen) in [(&[9.0; 2], 0), (&[0.0; 2], CONTACT)] {
            assert_eq!(from(&one, 0, aux), Err(Refusal { number: 11, place: 0 }));
            assert_eq!(from(&one, 1, aux), Ok(unseen), "whatever the camera says");
            assert_eq!([from(&one, 2, aux), from(&one, 3, aux)], [Ok(seen); 2]);
            let two = zoned(choice, (0, 1));
            assert_eq!(from(&two, 1, aux), Err(Refusal { number: 11, place: 0 }));
            assert_eq!([from(&two, 2, aux), from(&two, 3, aux)], [Ok(seen); 2]);
        }
        assert_eq!([from(&one, 1, &[]), from(&one, 2, &[])], [Ok(unseen); 2]);
    }
}

#[test]
fn no_zone_and_no_arming_are_slow_nowhere() {
    for choice in [AbsentCamera::Slow, AbsentCamera::NoZone] {
        let zoned = zoned(choice, (0, 1));
        for aux in [&[][..], &[0.0], &[0.0; 2]] {
            let none = FuseConfig { zones: Zones::NONE, ..zoned };
            assert_eq!(stepped(&none, &[0.0; 2], aux, 9.0), Ok(0), "{choice:?}");
            let unarmed = FuseConfig { armed: 0, ..zoned };
            assert_eq!(stepped(&unarmed, &[0.0; 2], aux, 9.0), Ok(0), "{choice:?}");
        }
    }
    let plain = FuseConfig::PLAIN;
    assert_eq!((AbsentCamera::default(), plain.absent_camera), (AbsentCamera::Slow, AbsentCamera::Slow));
}

/// The step of a zone that is not seen is evaluated under the new choice alone, and its distance under neither.
#[test]
fn what_is_computed_of_a_zone_that_is_not_seen() {
    let computed = Err(Refusal { number: 13, place: 0 });
    let over_1 = 1f64.next_up();
    let with = |choice, dt, armed| {
        let mut c = FuseConfig { dt, armed, ..zoned(choice, (0, 1)) };
        zone(&mut c).v_max = f64::MAX;
        move |aux: &[f64]| stepped(&c, &[0.0; 2], aux, 1.0)
    };
    for aux in [&[][..], &[0.0]] {
        assert_eq!(with(AbsentCamera::Slow, 1.0, CONTACT)(aux), Ok(0), "the largest step");
        assert_eq!(with(AbsentCamera::Slow, over_1, CONTACT)(aux), computed, "one that is infinite");
        assert_eq!(with(AbsentCamera::NoZone, over_1, CONTACT)(aux), Ok(0));
        assert_eq!(with(AbsentCamera::Slow, over_1, 0)(aux), Ok(0));
    }
    for choice in [AbsentCamera::Slow, AbsentCamera::NoZone] {
        assert_eq!(with(choice, over_1, CONTACT)(&[0.0; 2]), computed, "inside");
        assert_eq!(with(choice, over_1, CONTACT)(&[9.0; 2]), Ok(0), "outside");
        let far =
            |pos: &[f64], aux: &[f64]| stepped(&FuseConfig { pos_dim: 1, ..zoned(choice, (0, 1)) }, pos, aux, 1.0);
        assert_eq!(far(&[0.0, 0.0], &[1e200, 0.0]), computed);
        assert_eq!(far(&[0.0, 0.0], &[1e200]), Ok(0));
        assert_eq!(far(&[0.0], &[1e200, 0.0]), Ok(0));
        assert_eq!(far(&[0.0, 1e200], &[0.0, 0.0]), computed);
        assert_eq!(far(&[0.0, 1e200], &[0.0]), Ok(0));
    }
}

/// aux is judged whether or not the zone is seen.
#[test]
fn a_number_of_a_short_message_that_is_not_finite() {
    for choice in [AbsentCamera::Slow, AbsentCamera::NoZone] {
        for (channels, aux) in
            [((0, 1), &[f64::NAN][..]), ((1, 2), &[f64::NAN, 0.0]), ((0, 1), &[0.0, 0.0, f64::INFINITY])]
        {
            let refused = stepped(&zoned(choice, channels), &[0.0; 2], aux, 1.0);
            assert_eq!(refused, Err(Refusal { number: 12, place: 0 }), "{choice:?}");
        }
        let one = FuseConfig { pos_dim: 1, ..zoned(choice, (0, 1)) };
        assert_eq!(stepped(&one, &[0.0], &[0.0, f64::NAN], 1.0), Err(Refusal { number: 12, place: 0 }), "{choice:?}");
    }
}

/// The code as C passes it: judged with a zone or without, armed or not, before every other number.
#[test]
fn the_choice_as_a_code() {
    let good = |contact: u64, armed: u64, code: u64| {
        let mut c = [0; 35];
        (c[0], c[1], c[5], c[7], c[8], c[20], c[21], c[26]) = (1, 1, contact, 1, 1, armed, 2, code);
        c
    };
    for (code, want) in [(0, 0), (1, 0), (2, 255), (1 << 32, 255), (u64::MAX, 255)] {
        for (contact, armed) in [(0, 0), (0, 32), (1, 0), (1, 32)] {
            let mut c = good(contact, armed, code);
            assert_eq!(boundary::counts(&c), want, "{code} with {contact} and {armed}");
            c[0] = 9;
            assert_eq!(boundary::counts(&c), want.max(1));
        }
    }
}

/// Four zones of radius 1 and speed 1, each on two channels of its own, of eight.
fn four() -> Zones {
    Zones::of(&[(0, 1), (2, 3), (4, 5), (6, 7)].map(|(a0, a1)| ContactLimit { radius: 1.0, v_max: 1.0, a0, a1 }))
}

/// What a configuration with four zones, so many of them counted, is answered after one change, armed or not.
fn zones_judged(count: usize, change: impl Fn(&mut [ContactLimit; MAX_ZONES])) -> Option<u8> {
    let [unarmed, armed] = [0, CONTACT].map(|armed| {
        judged(|c| {
            (c.armed, c.aux_count, c.zones) = (armed, 8, Zones { count, ..four() });
            change(&mut c.zones.list);
        })
    });
    assert_eq!(unarmed, armed, "armed or not");
    armed
}

#[test]
fn counts_of_zones() {
    for count in 0..=4 {
        assert_eq!(zones_judged(count, |_| ()), None);
    }
    for count in [5, 6, 255, 256, 1 << 32, usize::MAX] {
        assert_eq!(zones_judged(count, |_| ()), Some(1));
        assert_eq!(zones_judged(count, |list| list[0].v_max = f64::NAN), Some(1), "before the numbers");
        assert_eq!(zones_judged(count, |list| list[0].a1 = 0), Some(1), "before the channels");
    }
}

/// Each number and each channel of each zone, which is judged where it is counted and unread where it is not.
#[test]
fn every_counted_zone_is_judged() {
    for (zone, count) in (0..4).flat_map(|zone| (0..=4).map(move |count| (zone, count))) {
        let due = |number: u8| (zone < count).then_some(number);
        let with = |change: &dyn Fn(&mut ContactLimit)| zones_judged(count, |list| change(&mut list[zone]));
        for bad in [f64::NAN, f64::INFINITY, f64::NEG_INFINITY, -1.0, -5e-324] {
            assert_eq!(with(&|z| z.v_max = bad), due(2), "speed {bad} of zone {zone} of {count}");
            assert_eq!(with(&|z| z.radius = bad), due(2), "radius {bad} of zone {zone} of {count}");
        }
        for (edge, number) in [(0.0, due(2)), (-0.0, due(2)), (5e-324, None), (f64::MAX, None)] {
            assert_eq!(with(&|z| z.v_max = edge), number, "speed {edge} of zone {zone} of {count}");
            assert_eq!(with(&|z| z.radius = edge), None, "radius {edge} of zone {zone} of {count}");
        }
        assert_eq!(with(&|z| z.a1 = z.a0), due(4), "equal channels of zone {zone} of {count}");
        for (channel, number) in [(8, due(4)), (9, due(4)), (255, due(4))] {
            assert_eq!(with(&|z| z.a0 = channel), number, "channel {channel} of zone {zone} of {count}");
            assert_eq!(with(&|z| z.a1 = channel), number, "channel {channel} of zone {zone} of {count}");
        }
        assert_eq!(
            with(&|z| *z = ContactLimit { radius: 1.0, v_max: 1.0, a0: 0, a1: 7 }),
            None,
            "a channel of another"
        );
    }
}

/// Any two zones: the same pair in the same order is refused where both are counted, and swapped it is another pair.
#[test]
fn pairs_of_two_zones() {
    for (first, second) in [(0, 1), (0, 2), (0, 3), (1, 2), (1, 3), (2, 3)] {
        for count in 0..=4 {
            let with = |pair: fn(u8, u8) -> (u8, u8)| {
                zones_judged(count, |list| {
                    (list[second].a0, list[second].a1) = pair(list[first].a0, list[first].a1);
                    (list[second].radius, list[second].v_max) = (2.0, 3.0);
                })
            };
            let case = format!("zones {first} and {second} of {count}");
            assert_eq!(with(|a0, a1| (a0, a1)), (second < count).then_some(4), "{case}");
            assert_eq!(with(|a0, a1| (a1, a0)), None, "{case}");
            assert_eq!(with(|a0, _| (a0, 7 - a0)), None, "{case}: one channel is shared");
        }
    }
}

const NEAR: [f64; 2] = [0.0; 2];
const FAR: [f64; 2] = [9.0; 2];

/// Two axes with CONTACT alone armed, dt 1, and zones of radius 1 with these speeds.
fn slowed(count: usize, speeds: [f64; 4]) -> FuseConfig {
    let mut zones = Zones { count, ..four() };
    zones.list.iter_mut().zip(speeds).for_each(|(zone, v_max)| zone.v_max = v_max);
    FuseConfig { zones, aux_count: 8, ..zoned(AbsentCamera::Slow, (0, 1)) }
}

/// A message that has the centre of each zone, at the arm for those of a set.
fn message(set: usize) -> Vec<f64> {
    (0..4).flat_map(|zone| if set >> zone & 1 == 1 { NEAR } else { FAR }).collect()
}

/// The greatest step that does not trip, and one next to it that does: the least of the counted zones that the arm is inside, whichever
/// stands first.
#[test]
fn the_least_step_of_the_zones() {
    for speeds in [[1.0, 2.0, 3.0, 4.0], [4.0, 3.0, 2.0, 1.0], [2.0, 4.0, 1.0, 3.0], [3.0, 1.0, 4.0, 2.0]] {
        for (count, set) in (0..=4).flat_map(|count| (0..16).map(move |set| (count, set))) {
            let c = slowed(count, speeds);
            let at = |x: f64| stepped(&c, &[0.0; 2], &message(set), x);
            let least = (0..count).filter(|zone| set >> zone & 1 == 1).map(|zone| speeds[zone]).reduce(f64::min);
            match least {
                Some(step) => {
                    assert_eq!([at(step), at(step.next_up())], [Ok(0), Ok(CONTACT)], "{count} {set} {speeds:?}")
                }
                None => assert_eq!(at(9.0), Ok(0), "{count} {set}"),
            }
        }
    }
}

/// SPEED's step is one of those that the least is taken of, and trips by itself.
#[test]
fn the_leash_beside_speed() {
    for (v_max, x, trips, limit) in [
        (1.5, 3.5, SPEED | CONTACT, 1.5),
        (4.0, 3.5, CONTACT, 2.0),
        (3.0, 3.5, SPEED | CONTACT, 2.0),
        (1.5, 1.75, SPEED, 1.5),
    ] {
        let c = FuseConfig { armed: SPEED | CONTACT, v_max, ..slowed(3, [3.0, 2.0, 2.5, 1.0]) };
        let mut out = [7.0; 2];
        let r = tier0::check_action(&c, &[0.0; 2], &message(0b1111), &[0.0; 2], &[x, 0.0], &mut out).expect("accepted");
        assert_eq!(r.trips, trips);
        assert!(out[0] < limit && limit - out[0] < 1e-9, "{} of {limit}", out[0]);
    }
}

/// Each zone is seen or not by its own channels, and the choice is that of those which are not.
#[test]
fn a_message_that_shows_some_zones() {
    let speeds = [4.0, 3.0, 2.0, 1.0];
    for length in 0..=9 {
        // those that are seen are far away
        let aux = vec![9.0; length];
        let unseen = (0..4).filter(|zone| length < 2 * zone + 2);
        for count in 0..=4 {
            let least = unseen.clone().filter(|zone| *zone < count).map(|zone| speeds[zone]).reduce(f64::min);
            let at =
                |absent_camera, x| stepped(&FuseConfig { absent_camera, ..slowed(count, speeds) }, &[0.0; 2], &aux, x);
            let step = least.unwrap_or(9.0);
            assert_eq!(at(AbsentCamera::Slow, step), Ok(0), "{length} of {count}");
            let trips = if least.is_some() { CONTACT } else { 0 };
            assert_eq!(at(AbsentCamera::Slow, step.next_up()), Ok(trips), "{length} of {count}");
            assert_eq!(at(AbsentCamera::NoZone, 9.0), Ok(0), "{length} of {count}");
        }
        // those that are seen are at the arm
        let near = vec![0.0; length];
        let at = |absent_camera| stepped(&FuseConfig { absent_camera, ..slowed(4, speeds) }, &[0.0; 2], &near, 5.0);
        assert_eq!(at(AbsentCamera::Slow), Ok(CONTACT));
        assert_eq!(at(AbsentCamera::NoZone), Ok(if length < 2 { 0 } else { CONTACT }), "{length}");
    }
}

/// 13 from the distance of any counted zone that is seen and from the step of any that the arm is inside, whatever the others decide.
#[test]
fn what_is_computed_of_each_zone() {
    let computed = Err(Refusal { number: 13, place: 0 });
    for (zone, count) in (0..4).flat_map(|zone| (0..=4).map(move |count| (zone, count))) {
        let due = |other| if zone < count { computed } else { other };
        for set in [0b0000, 0b1111] {
            let others = if set & ((1 << count) - 1) != 0 { Ok(CONTACT) } else { Ok(0) };
            let c = slowed(count, [1.0; 4]);
            let mut aux = message(set);
            aux[2 * zone] = 1e200;
            assert_eq!(stepped(&c, &[0.0; 2], &aux, 5.0), due(others), "a distance, {zone} of {count}");
            assert_eq!(stepped(&FuseConfig { armed: 0, ..c }, &[0.0; 2], &aux, 5.0), Ok(0), "not armed");
        }
        let mut fast = FuseConfig { dt: 1f64.next_up(), ..slowed(count, [1.0; 4]) };
        fast.zones.list[zone].v_max = f64::MAX;
        let alone = 1 << zone;
        let rest = if count > (zone == 0) as usize { Ok(CONTACT) } else { Ok(0) };
        for (set, want) in [(0b1111, due(rest)), (alone, due(Ok(0))), (0b1111 & !alone, rest), (0, Ok(0))] {
            assert_eq!(
                stepped(&fast, &[0.0; 2], &message(set), 5.0),
                want,
                "a step, {zone} of {count}, inside {set:04b}"
            );
        }
        let short = stepped(&fast, &[0.0; 2], &[], 5.0);
        assert_eq!(short, due(if count == 0 { Ok(0) } else { Ok(CONTACT) }), "none is seen");
        let none = FuseConfig { absent_camera: AbsentCamera::NoZone, ..fast };
        assert_eq!(stepped(&none, &[0.0; 2], &[], 5.0), Ok(0), "the old choice");
    }
}

/// What stands past the count is neither judged nor computed.
#[test]
fn zones_past_the_count() {
    let garbage = ContactLimit { radius: f64::NAN, v_max: -1.0, a0: 255, a1: 255 };
    for count in 0..=4 {
        let mut c = slowed(count, [2.0; 4]);
        c.zones.list[count..].fill(garbage);
        assert_eq!(envelope::judge(&c), None);
        assert_eq!(stepped(&c, &[0.0; 2], &message(0b1111), OVER), Ok(if count == 0 { 0 } else { CONTACT }));
        assert_eq!(stepped(&c, &[0.0; 2], &message(0), OVER), Ok(0));
    }
}

/// The count and the channels as C passes them: a count above four is 1 at any width, and channels are judged by 255 for those that are
/// counted and held, each pair by itself.
#[test]
fn zones_as_counts() {
    let good = |contact: u64, aux_count: u64| {
        let mut c = [0; 35];
        (c[0], c[1], c[5], c[8], c[21]) = (1, 1, contact, 1, aux_count);
        for (place, channel) in PLACES.iter().flatten().zip(0..) {
            c[*place] = channel;
        }
        c
    };
    const PLACES: [[usize; 2]; 4] = [[6, 7], [27, 28], [29, 30], [31, 32]];
    for (contact, due) in [(0, 0), (1, 0), (4, 0), (5, 1), (255, 1), (256, 1), ((1 << 32) + 1, 1), (u64::MAX, 1)] {
        assert_eq!(boundary::counts(&good(contact, 8)), due);
    }
    for (zone, [a0, a1]) in PLACES.into_iter().enumerate() {
        for contact in [0, 1, 2, 3, 4, 5, u64::MAX] {
            let counted = zone < contact.min(4) as usize;
            let past = (contact > 4) as u8;
            let due = |number: u8| if counted && past == 0 { number } else { past };
            let with = |pair: (u64, u64), aux_count: u64| {
                let mut c = good(contact, aux_count);
                (c[a0], c[a1]) = pair;
                boundary::counts(&c)
            };
            let misfit = if counted { 255 } else { past };
            assert_eq!(with((256, 300), 301), misfit, "zone {zone} of {contact}");
            assert_eq!(with((300, 256), 301), misfit, "zone {zone} of {contact}");
            assert_eq!(with((255, 256), 257), misfit, "zone {zone} of {contact}");
            assert_eq!(with((255, 254), 257), past, "zone {zone} of {contact}");
            assert_eq!(with((300, 300), 301), due(4), "equal channels, zone {zone} of {contact}");
            assert_eq!(with((256, 300), 300), due(4), "past the aux count, zone {zone} of {contact}");
            assert_eq!(with((300, 256), 300), due(4), "past the aux count, zone {zone} of {contact}");
        }
    }
    for (first, second) in [(0, 1), (0, 2), (0, 3), (1, 2), (1, 3), (2, 3)] {
        for contact in 0..=4 {
            let with = |one: [u64; 2], two: [u64; 2]| {
                let mut c = good(contact, 301);
                (c[PLACES[first][0]], c[PLACES[first][1]]) = (one[0], one[1]);
                (c[PLACES[second][0]], c[PLACES[second][1]]) = (two[0], two[1]);
                boundary::counts(&c)
            };
            let (either, both) = ((first as u64) < contact, (second as u64) < contact);
            assert_eq!(with([9, 10], [9, 10]), if both { 4 } else { 0 });
            assert_eq!(with([9, 10], [10, 9]), 0);
            assert_eq!(with([256, 300], [256, 300]), if either { 255 } else { 0 }, "no field holds a repeated pair");
            assert_eq!(
                with([9, 9], [256, 300]),
                if both {
                    255
                } else if either {
                    4
                } else {
                    0
                }
            );
        }
    }
}

/// Three axes: a round table of radius 1 about the origin, and a height between -1 and 1.
const TABLE: FuseConfig = FuseConfig {
    dim: 3,
    pos_dim: 3,
    box_lo: [f64::NAN, f64::INFINITY, -1.0, 0.0, 0.0, 0.0, 0.0, 0.0],
    box_hi: [f64::NAN, -f64::INFINITY, 1.0, 0.0, 0.0, 0.0, 0.0, 0.0],
    shape: Shape::disc([0.0; 2], 1.0),
    armed: WORKSPACE,
    clamp: ClampMode::Project,
    ..FuseConfig::PLAIN
};

/// What the whole configuration with a disc is answered after one change.
fn table_judged(change: impl Fn(&mut FuseConfig)) -> Option<u8> {
    judged(|c| {
        c.shape = Shape::disc([0.0; 2], 1.0);
        change(c);
    })
}

#[test]
fn numbers_of_a_round_table() {
    for (x, want) in
        [(f64::NAN, Some(2)), (f64::INFINITY, Some(2)), (-f64::INFINITY, Some(2)), (f64::MAX, None), (-1.0, None)]
    {
        for i in 0..2 {
            assert_eq!(table_judged(|c| c.shape.center[i] = x), want, "centre {x}");
            assert_eq!(table_judged(|c| (c.shape.disc, c.shape.center[i]) = (false, x)), None, "of a box");
        }
    }
    for x in [f64::NAN, f64::INFINITY, -1.0, -5e-324, -0.0, 0.0] {
        assert_eq!(table_judged(|c| c.shape.radius = x), Some(2), "radius {x}");
        assert_eq!(table_judged(|c| (c.shape.disc, c.shape.radius) = (false, x)), None, "of a box");
    }
    for x in [5e-324, 1.0, f64::MAX] {
        assert_eq!(table_judged(|c| c.shape.radius = x), None, "radius {x}");
    }
}

/// The first two walls are unread with a disc, and derived as 0.0; the margin is judged, and moves the others alone.
#[test]
fn walls_beside_a_round_table() {
    let mut c = FuseConfig { margin: 0.25, ..TABLE };
    let d = envelope::derive(&c).expect("accepted");
    assert_eq!((&d.box_lo[..4], &d.box_hi[..4]), (&[0.0, 0.0, -0.75, 0.0][..], &[0.0, 0.0, 0.75, 0.0][..]));
    c.margin = 1.0;
    assert_eq!(envelope::judge(&c), None);
    c.margin = 1f64.next_up();
    assert_eq!(envelope::judge(&c), Some(2), "the third axis is turned over");
    (c.dim, c.pos_dim) = (2, 2);
    assert_eq!(envelope::judge(&c), None, "two axes have none");
    c.margin = -5e-324;
    assert_eq!(envelope::judge(&c), Some(2));
    for i in 0..3 {
        let broken = |c: &mut FuseConfig| c.box_lo[i] = f64::NAN;
        assert_eq!(table_judged(|c| (broken(c), c.pos_dim = 3).1), (i == 2).then_some(2), "wall {i}");
        assert_eq!(judged(|c| (broken(c), c.pos_dim = 3).1), Some(2), "wall {i} of a box");
    }
}

#[test]
fn axes_of_a_round_table() {
    for (dim, pos_dim) in (1..=8).flat_map(|dim| (1..=8).map(move |pos_dim| (dim, pos_dim))) {
        let sized = |c: &mut FuseConfig| (c.dim, c.pos_dim) = (dim, pos_dim);
        assert_eq!(table_judged(sized), (dim < 2 || pos_dim < 2).then_some(15), "{dim}, {pos_dim}");
        assert_eq!(judged(sized), None, "{dim}, {pos_dim}");
    }
    assert_eq!(table_judged(|c| c.dim = 0), Some(1));
    assert_eq!(table_judged(|c| (c.dim, c.shape.radius) = (1, 0.0)), Some(2));
    assert_eq!(table_judged(|c| (c.dim, c.brake.substeps) = (1, 0)), Some(3));
    assert_eq!(table_judged(|c| (c.dim, c.aux_count) = (1, 1)), Some(4), "15 comes after 4");
    assert_eq!(table_judged(|c| (c.dim, c.cal.mask) = (1, 1 << STALL)), Some(15), "and before 17");
    assert_eq!(table_judged(|c| (c.pos_dim, c.cal.mask) = (2, 1 << STALL)), Some(17));
}

/// The answer to an action from a point to a row of three, and the row that goes out.
fn acted(c: &FuseConfig, from: [f64; 3], a: [f64; 3]) -> Result<(Tier0Out, [f64; 3]), Refusal> {
    let mut out = [7.0; 3];
    let r = tier0::check_action(c, &from, &[], &from, &a, &mut out)?;
    let mut rows = [7.0; 3];
    let view = ChunkView { seq: 0, t_emit: 0, horizon: 1, dim: 3, exec_steps: 0, data: &a };
    assert_eq!((tier0::check_chunk(c, &from, &[], view, &mut rows), rows), (Ok(r), out), "a chunk of one row");
    Ok((r, out))
}

const COMPUTED: Refusal = Refusal { number: 13, place: 0 };

/// On the edge there is no trip and no move, and the next number has both; the margin changes neither.
#[test]
fn the_edge_of_a_round_table() {
    let shrunk = 1.0 - 2f64.powi(-36);
    for margin in [0.0, 0.25] {
        let c = FuseConfig { margin, ..TABLE };
        for x in [0.0, 0.9, 1f64.next_down(), 1.0, -1.0] {
            let (r, out) = acted(&c, [0.0; 3], [0.0, x, 0.0]).expect("accepted");
            assert_eq!((r.trips, r.clamped_dims, out), (0, 0, [0.0, x, 0.0]));
        }
        let (r, out) = acted(&c, [0.0; 3], [1f64.next_up(), 0.0, 0.0]).expect("accepted");
        assert_eq!((r.trips, r.clamped_dims, r.low_dims, r.high_dims), (WORKSPACE, 1, 0, 0));
        assert_eq!(out[0], 1f64.next_up() * (shrunk / 1f64.next_up()));
        let (r, out) = acted(&c, [0.0; 3], [6.0, -8.0, 0.0]).expect("accepted");
        assert_eq!((r.trips, r.clamped_dims, r.low_dims, r.high_dims), (WORKSPACE, 3, 0, 0));
        assert_eq!(out, [6.0 * (shrunk / 10.0), -8.0 * (shrunk / 10.0), 0.0]);
        let (r, _) = acted(&c, [0.0; 3], [0.5, 0.5, 1.0]).expect("accepted");
        assert_eq!((r.trips, r.high_dims), if margin == 0.0 { (0, 0) } else { (WORKSPACE, 4) }, "a further axis");
    }
}

/// A point that is pulled may lie past the edge: from a centre of 2^53 the numbers are 2 apart.
#[test]
fn a_pulled_point_past_the_edge() {
    let far = 2f64.powi(53);
    let c = FuseConfig { shape: Shape::disc([far, 0.0], 1.5), ..TABLE };
    let (r, out) = acted(&c, [far, 0.0, 0.0], [far + 4.0, 0.0, 0.0]).expect("accepted");
    assert_eq!((r.trips, out), (WORKSPACE, [far + 2.0, 0.0, 0.0]));
    assert_eq!(acted(&c, [far, 0.0, 0.0], out).expect("accepted").0.trips, WORKSPACE, "a distance of 2");
}

/// The distance of every row is evaluated where WORKSPACE is armed, under either mode and whatever else is outside.
#[test]
fn a_distance_from_the_centre_that_is_not_finite() {
    for clamp in [ClampMode::Off, ClampMode::Project] {
        let c = FuseConfig { clamp, ..TABLE };
        // the step from the point before is finite, and the distance from the centre is not
        let shape = Shape::disc([-1e154, 0.0], 1.0);
        let (near, far) = ([0.0; 3], [1e154, 0.0, 0.0]);
        let wide = &FuseConfig { shape, v_max: 1e300, reach_max: 1e300, ..c };
        let at = |armed, a| acted(&FuseConfig { armed, ..*wide }, near, a).map(|_| ());
        assert_eq!(at(WORKSPACE, far), Err(COMPUTED));
        assert_eq!(at(WORKSPACE, [1e154, 0.0, 9.0]), Err(COMPUTED), "a further axis is outside already");
        assert_eq!(at(WORKSPACE, near), Ok(()));
        assert_eq!(at(SPEED | REACH, far), Ok(()), "not armed");
        for rows in [[near, far], [far, near]] {
            let data = rows.concat();
            let view = ChunkView { seq: 0, t_emit: 0, horizon: 2, dim: 3, exec_steps: 0, data: &data };
            assert_eq!(tier0::check_chunk(wide, &near, &[], view, &mut [0.0; 6]), Err(COMPUTED));
        }
    }
}

/// The pull comes before the leash, and where WORKSPACE is not armed not at all.
#[test]
fn the_pull_before_the_leash() {
    let c = FuseConfig { armed: WORKSPACE | SPEED, v_max: 0.5, ..TABLE };
    let shrunk = 1.0 - 2f64.powi(-36);
    let (_, out) = acted(&c, [0.0, 1.0, 0.0], [3.0, 4.0, 0.0]).expect("accepted");
    let on_table = [3.0 * (shrunk / 5.0), 4.0 * (shrunk / 5.0)];
    let n = ((on_table[0] * on_table[0]) + (on_table[1] - 1.0) * (on_table[1] - 1.0)).sqrt();
    let factor = 0.5 * shrunk / n;
    assert_eq!(out, [on_table[0] * factor, 1.0 + (on_table[1] - 1.0) * factor, 0.0]);
    let unarmed = FuseConfig { armed: SPEED, v_max: 9.0, ..TABLE };
    let (r, out) = acted(&unarmed, [0.0; 3], [3.0, 4.0, 5.0]).expect("accepted");
    assert_eq!((r.trips, out), (0, [3.0, 4.0, 5.0]));
}

/// A forecast from a point, at rest, without rows.
fn rested(c: &FuseConfig, p: [f64; 3], slacks: &mut [f64]) -> Result<BrakeOut, Refusal> {
    let view = ChunkView { seq: 0, t_emit: 0, horizon: 1, dim: 3, exec_steps: 0, data: &[0.0; 3] };
    brake::brake_feasible(c, &p, &[0.0; 3], view, 0, slacks)
}

/// Closed kinds at rest: the radius minus the distance, and the least of it with the further axes; the stopping radius comes off both.
#[test]
fn the_slack_on_a_round_table() {
    let mut c = FuseConfig { shape: Shape::disc([0.0; 2], 6.0), ..TABLE };
    c.brake = BrakeModel { kind: BrakeKind::FirstOrderDecay, commit: 0, ..c.brake };
    for (p, want) in
        [([3.0, 4.0, 0.0], 1.0), ([3.0, 4.0, 0.75], 0.25), ([3.0, 4.0, -0.75], 0.25), ([6.0, 8.0, 0.0], -4.0)]
    {
        let mut slacks = [7.0];
        let r = rested(&c, p, &mut slacks).expect("accepted");
        assert_eq!((r.count, r.margin, r.feasible, slacks), (1, want, want >= 0.0, [want]), "{p:?}");
        // a speed of 5 along the third axis, and k_v 1: a stopping radius of 5
        let view = ChunkView { seq: 0, t_emit: 0, horizon: 1, dim: 3, exec_steps: 0, data: &[0.0; 3] };
        let moving = brake::brake_feasible(&c, &p, &[0.0, 0.0, 5.0], view, 0, &mut slacks).expect("accepted");
        assert_eq!(moving.margin, want - 5.0, "{p:?}");
    }
}

/// By the computed distance: two points that are farther away than the radius, and have a slack of 0.
#[test]
fn a_slack_of_the_computed_distance() {
    let mut c = TABLE;
    c.brake.kind = BrakeKind::BoundedAccel;
    for (p, radius) in [
        ([2f64.powi(-538), 0.0, 0.0], 2f64.powi(-540)),
        ([0.13436424411240122, 0.8474337369372327, 0.0], 0.8580196318239459),
    ] {
        c.shape.radius = radius;
        let r = rested(&c, p, &mut [0.0]).expect("accepted");
        assert!(r.feasible && r.margin >= 0.0, "{r:?}");
        assert_eq!(acted(&c, p, p).expect("accepted").0.trips, 0);
    }
}

/// The setpoint is made for brake_steps 0, too: what is not finite in it has the place of the first substep after the rows.
#[test]
fn a_setpoint_without_braking_steps() {
    for (brake_steps, commit) in [(0, 0), (0, 1), (1, 0), (3, 1)] {
        let mut c = TABLE;
        (c.brake.brake_steps, c.brake.commit) = (brake_steps, commit);
        let view = ChunkView { seq: 0, t_emit: 0, horizon: 1, dim: 3, exec_steps: 0, data: &[0.0; 3] };
        for (from, x) in [(1, 1e200), (2, -1e200), (usize::MAX, f64::MAX)] {
            let mut slacks = [7.0; 3];
            let at = |c: &FuseConfig, s: &mut [f64]| brake::brake_feasible(c, &[x, 0.0, 0.0], &[0.0; 3], view, from, s);
            assert_eq!(at(&c, &mut slacks), Err(Refusal { number: 13, place: 1 }));
            assert_eq!(slacks, [7.0; 3]);
            let boxed = FuseConfig { shape: Shape::BOX, box_lo: [-1.0; 8], box_hi: [1.0; 8], ..c };
            if brake_steps == 0 {
                assert_eq!(at(&boxed, &mut slacks).map(|r| r.count), Ok(0), "a box computes nothing");
            }
        }
    }
}

/// Brake and hold move a position onto the table whatever is armed, and refuse one that they cannot measure; a coordinate that the position
/// lacks is 0.0.
#[test]
fn brake_and_hold_on_a_round_table() {
    let shrunk = 1.0 - 2f64.powi(-36);
    let cfg = FuseConfig { armed: 0, clamp: ClampMode::Off, shape: Shape::disc([3.0, 0.0], 1.0), ..TABLE };
    let both = |c: &FuseConfig, p: &[f64]| {
        let (mut held, mut braked) = ([7.0; 3], [7.0; 3]);
        let hold = brake::hold_action(c, p, &[], &mut held);
        assert_eq!((brake::brake_action(c, p, &[], &[], &mut braked), braked), (hold, held));
        hold.map(|walls| (walls, held))
    };
    let none = WallMarks::default();
    assert_eq!(both(&cfg, &[3.0, 1.0, 1.0]), Ok((none, [3.0, 1.0, 1.0])));
    let high = WallMarks { low_dims: 0, high_dims: 4 };
    assert_eq!(both(&cfg, &[3.0, 2.0, 2.0]), Ok((high, [3.0, 2.0 * (shrunk / 2.0), 1.0])));
    for short in [&[][..], &[0.0], &[0.0, 0.0]] {
        assert_eq!(both(&cfg, short), Ok((none, [3.0 + -3.0 * (shrunk / 3.0), 0.0, 0.0])));
    }
    assert_eq!(both(&cfg, &[1e200, 0.0, 0.0]), Err(COMPUTED));
    assert_eq!(both(&cfg, &[0.0, -1e200]), Err(COMPUTED));
    let boxed = FuseConfig { shape: Shape::BOX, box_lo: [-1.0; 8], box_hi: [1.0; 8], ..cfg };
    assert_eq!(both(&boxed, &[1e200, 0.0, 0.0]).map(|(_, row)| row), Ok([1.0, 0.0, 0.0]));
    let narrow = FuseConfig { pos_dim: 2, ..cfg };
    assert_eq!(both(&narrow, &[3.0, 0.5, 2.0]), Ok((none, [3.0, 0.5, 0.0])), "past pos_dim a box of 0..0");
    let velocity = FuseConfig { kind: ActionKind::JointVelocity, ..cfg };
    assert_eq!(brake::hold_action(&velocity, &[1e200, 0.0, 0.0], &[], &mut [0.0; 3]), Ok(none), "nothing is measured");
}

/// The code as C passes it: 255 before every other number, and 15 by the counts.
#[test]
fn the_shape_as_a_code() {
    let with = |dim: u64, pos_dim: u64, shape: u64| {
        let mut c = [0; 35];
        (c[0], c[1], c[8], c[33]) = (dim, pos_dim, 1, shape);
        boundary::counts(&c)
    };
    for (dim, pos_dim) in [(1, 1), (1, 2), (2, 1), (2, 2), (8, 8), (9, 1), (0, 2)] {
        let size = if dim > 8 || dim == 0 { 1 } else { 0 };
        let disc = if size == 0 && (dim < 2 || pos_dim < 2) { 15 } else { size };
        assert_eq!([with(dim, pos_dim, 0), with(dim, pos_dim, 1)], [size, disc], "{dim}, {pos_dim}");
        for shape in [2, 3, 255, 256, 257, 1 << 32, (1 << 32) + 1, u64::MAX] {
            assert_eq!(with(dim, pos_dim, shape), 255, "{shape}");
        }
    }
}

const KINDS: [ActionKind; 5] = [
    ActionKind::EePosition,
    ActionKind::EeDelta,
    ActionKind::JointPosition,
    ActionKind::JointVelocity,
    ActionKind::Other,
];

fn velocity(kind: ActionKind) -> bool {
    [ActionKind::EeDelta, ActionKind::JointVelocity].contains(&kind)
}

/// Walls at -1 and 1 in the mode LastCommand.
fn gripping(dim: usize, pos_dim: usize) -> FuseConfig {
    let (box_lo, box_hi, gripper) = ([-1.0; MAX_POS], [1.0; MAX_POS], Gripper::LastCommand);
    FuseConfig { dim, pos_dim, box_lo, box_hi, gripper, ..FuseConfig::PLAIN }
}

/// The same configuration in the Rust's mode.
fn to_zero(c: &FuseConfig) -> FuseConfig {
    FuseConfig { gripper: Gripper::ToZero, ..*c }
}

/// The number or the masks of a brake and of a hold at rest, which are one, and the row that both write; a refusal writes nothing.
fn sent(c: &FuseConfig, p: &[f64], last: &[f64]) -> Result<(WallMarks, Vec<f64>), u8> {
    let (mut held, mut braked) = (vec![7.0; c.dim], vec![7.0; c.dim]);
    let hold = brake::hold_action(c, p, last, &mut held);
    let brake = brake::brake_action(c, p, &[], last, &mut braked);
    assert_eq!((brake, &braked), (hold, &held));
    assert!(hold.is_ok() || held.iter().all(|x| *x == 7.0));
    hold.map(|walls| (walls, held)).map_err(|r| r.number)
}

/// A row that is accepted.
fn row(c: &FuseConfig, p: &[f64], last: &[f64]) -> Vec<f64> {
    sent(c, p, last).expect("accepted").1
}

/// Numbers that are told apart from those of a position, of a wall and of one another.
const LAST: [f64; 10] = [20.0, 21.0, 22.0, 23.0, 24.0, 25.0, 26.0, 27.0, 28.0, 29.0];

/// Of every pair of sizes: the wall within pos_dim, and past it 0 or the last command.
#[test]
fn a_gripper_past_pos_dim() {
    for (dim, pos_dim) in (1..=8).flat_map(|dim| (1..=8).map(move |pos_dim| (dim, pos_dim))) {
        let within = |j: usize| j < pos_dim;
        let due = |past: fn(usize) -> f64| (0..dim).map(|j| if within(j) { 1.0 } else { past(j) }).collect::<Vec<_>>();
        for kind in KINDS {
            let c = FuseConfig { kind, ..gripping(dim, pos_dim) };
            let (kept, dropped) = (sent(&c, &[5.0; 8], &LAST), sent(&to_zero(&c), &[5.0; 8], &LAST));
            let bits = (1 << dim.min(pos_dim)) - 1;
            let walls = WallMarks { low_dims: 0, high_dims: if velocity(kind) { 0 } else { bits } };
            if velocity(kind) {
                assert_eq!((kept, dropped), (Ok((walls, vec![0.0; dim])), Ok((walls, vec![0.0; dim]))), "{kind:?}");
            } else {
                assert_eq!(kept, Ok((walls, due(|j| 20.0 + j as f64))), "{kind:?} {dim}, {pos_dim}");
                assert_eq!(dropped, Ok((walls, due(|_| 0.0))), "{kind:?} {dim}, {pos_dim}");
            }
        }
    }
}

/// Bit for bit, whatever the position has there: a zero of either sign, the least and the greatest number, and what lies outside every wall.
#[test]
fn a_last_command_as_it_came() {
    let c = gripping(3, 1);
    let bits = |row: Vec<f64>| row.into_iter().map(f64::to_bits).collect::<Vec<_>>();
    for x in [0.0, -0.0, 5e-324, -5e-324, 0.5, -1.0, 9.0, f64::MAX, -f64::MAX] {
        for p in [&[][..], &[0.5], &[0.5, 3.0, -3.0], &[0.5, -0.0, 0.0, 4.0]] {
            let first = p.first().copied().unwrap_or(0.0);
            assert_eq!(bits(row(&c, p, &[7.0, x, -x])), [first, x, -x].map(f64::to_bits), "{x:?}");
        }
    }
    assert_eq!(bits(row(&to_zero(&c), &[0.5, -0.0, 3.0], &[9.0; 3])), [0.5, -0.0, 0.0].map(f64::to_bits));
}

/// A velocity is ramped and a displacement too, as in the Rust's mode, on the axes past pos_dim as on the others.
#[test]
fn a_ramp_with_a_gripper() {
    for (kind, due) in [(ActionKind::JointVelocity, 4.0), (ActionKind::EeDelta, 2.0)] {
        let c = FuseConfig { kind, dt: 0.5, a_max: 2.0, ..gripping(2, 1) };
        let ramped = [c, to_zero(&c)].map(|c| {
            let mut out = [7.0; 2];
            let walls = brake::brake_action(&c, &[9.0; 2], &[0.0, 5.0], &LAST, &mut out);
            assert_eq!(walls, Ok(WallMarks::default()));
            out
        });
        assert_eq!(ramped[0], ramped[1], "{kind:?}");
        assert!(ramped[0][0] == 0.0 && (ramped[0][1] - due).abs() < 1e-8, "{ramped:?}");
    }
}

/// 11 on both sides of dim in the mode LastCommand, for every kind and every pair of sizes; no length is judged in the Rust's.
#[test]
fn a_last_command_of_every_length() {
    for (dim, pos_dim) in (1..=8).flat_map(|dim| (1..=8).map(move |pos_dim| (dim, pos_dim))) {
        for (kind, length) in KINDS.into_iter().flat_map(|kind| (0..=10).map(move |length| (kind, length))) {
            let c = FuseConfig { kind, ..gripping(dim, pos_dim) };
            let number = |c: &FuseConfig| sent(c, &[], &LAST[..length]).err();
            assert_eq!(number(&c), (length < dim).then_some(11), "{kind:?} {dim}, {pos_dim}: {length}");
            assert_eq!(number(&to_zero(&c)), None, "{kind:?} {dim}, {pos_dim}: {length}");
        }
    }
}

/// 12 for any number of it, within pos_dim, past it and past dim, for every kind; none is judged in the Rust's mode.
#[test]
fn a_last_command_that_is_not_finite() {
    for (dim, pos_dim) in [(1, 1), (1, 3), (2, 2), (3, 1), (3, 2), (8, 8), (8, 1), (1, 8)] {
        for (kind, place) in KINDS.into_iter().flat_map(|kind| (0..dim + 2).map(move |place| (kind, place))) {
            let c = FuseConfig { kind, ..gripping(dim, pos_dim) };
            for bad in [f64::NAN, f64::from_bits(0xfff0_0000_0000_0001), f64::INFINITY, f64::NEG_INFINITY] {
                let mut last = vec![0.5; dim + 2];
                last[place] = bad;
                assert_eq!(sent(&c, &[], &last).err(), Some(12), "{kind:?} {dim}, {pos_dim}: {place}");
                assert_eq!(sent(&c, &[], &last[..place.max(dim)]).err(), (place < dim).then_some(12), "not lent");
                assert_eq!(sent(&to_zero(&c), &[], &last).err(), None, "{kind:?} {dim}, {pos_dim}: {place}");
            }
        }
    }
}

/// The configuration's number, then 11 of either buffer, then 12 of either input, then 13.
#[test]
fn a_last_command_in_the_order_of_judging() {
    let nan = f64::NAN;
    let table = FuseConfig { dim: 4, gripper: Gripper::LastCommand, ..TABLE };
    let number = |c: &FuseConfig, p: &[f64], last: &[f64], room: usize| {
        let (hold, brake) = (
            brake::hold_action(c, p, last, &mut vec![0.0; room]),
            brake::brake_action(c, p, &[], last, &mut vec![0.0; room]),
        );
        assert_eq!(hold, brake);
        hold.map_or_else(|r| r.number, |_| 0)
    };
    let far = [1e200, 0.0, 0.0];
    let short = [nan; 3];
    for (c, due) in [
        (FuseConfig { pos_dim: 9, ..table }, 1),
        (FuseConfig { dt: 0.0, ..table }, 2),
        (FuseConfig { brake: BrakeModel { substeps: 0, ..table.brake }, ..table }, 3),
        (FuseConfig { zones: Zones::of(&[ContactLimit::UNUSED]), aux_count: 2, ..table }, 2),
        (FuseConfig { pos_dim: 1, ..table }, 15),
    ] {
        assert_eq!(number(&c, &far, &short, 3), due);
    }
    assert_eq!(number(&table, &far, &short, 4), 11, "a short one that is not finite");
    assert_eq!(number(&table, &[nan], &[0.0; 3], 4), 11, "before the position's 12");
    assert_eq!(number(&table, &[nan], &[nan; 4], 3), 11, "a short output before either 12");
    assert_eq!(number(&table, &far, &[0.0, 0.0, 0.0, 0.0, nan], 4), 12, "before 13");
    assert_eq!(number(&table, &[nan], &[0.0; 4], 4), 12);
    assert_eq!(number(&table, &far, &[0.0; 4], 4), 13, "which the mode does not change");
    assert_eq!(number(&to_zero(&table), &far, &short, 4), 13, "and no last command is judged before it");
    assert_eq!(number(&table, &[0.5], &[0.0; 4], 4), 0);
    // a velocity of which the norm is not finite
    let fast = FuseConfig { kind: ActionKind::JointVelocity, ..gripping(1, 1) };
    let braked = |last: &[f64]| brake::brake_action(&fast, &[], &[1e200], last, &mut [0.0]).map_err(|r| r.number);
    assert_eq!([braked(&[]), braked(&[nan]), braked(&[0.0, nan]), braked(&[0.0])], [11, 12, 12, 13].map(Err));
}

/// On a round table the first two axes are pulled and the third has its walls, and the last command stands past those.
#[test]
fn a_gripper_at_a_round_table() {
    let shrunk = 1.0 - 2f64.powi(-36);
    for pos_dim in [2, 3] {
        let c = FuseConfig { dim: 4, pos_dim, gripper: Gripper::LastCommand, ..TABLE };
        let third = if pos_dim == 3 { 1.0 } else { -6.0 };
        let walls = WallMarks { low_dims: 0, high_dims: if pos_dim == 3 { 4 } else { 0 } };
        let on_table = [6.0 * (shrunk / 10.0), 8.0 * (shrunk / 10.0), third, 0.5];
        assert_eq!(sent(&c, &[6.0, 8.0, 9.0, 9.0], &[-8.0, -7.0, -6.0, 0.5]), Ok((walls, on_table.to_vec())));
        let dropped = [on_table[0], on_table[1], if pos_dim == 3 { 1.0 } else { 0.0 }, 0.0];
        assert_eq!(sent(&to_zero(&c), &[6.0, 8.0, 9.0, 9.0], &[]), Ok((walls, dropped.to_vec())));
    }
}

/// The mode's code as C passes it: judged at any size, before every other number.
#[test]
fn the_gripper_as_a_code() {
    let with = |dim: u64, pos_dim: u64, code: u64| {
        let mut c = [0; 35];
        (c[0], c[1], c[8], c[34]) = (dim, pos_dim, 1, code);
        boundary::counts(&c)
    };
    for (dim, pos_dim, due) in [(1, 1, 0), (1, 2, 0), (2, 1, 0), (8, 8, 0), (9, 1, 1), (1, 0, 1)] {
        assert_eq!([with(dim, pos_dim, 0), with(dim, pos_dim, 1)], [due; 2], "{dim}, {pos_dim}");
        for code in [2, 3, 255, 256, 257, 1 << 32, (1 << 32) + 1, u64::MAX] {
            assert_eq!(with(dim, pos_dim, code), 255, "{code}");
        }
    }
    assert_eq!((Gripper::default(), FuseConfig::PLAIN.gripper), (Gripper::ToZero, Gripper::ToZero));
    assert_eq!((Gripper::ToZero as u64, Gripper::LastCommand as u64), (0, 1));
}

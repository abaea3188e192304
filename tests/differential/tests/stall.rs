//! Stall, which is not computed: the linked entries and the model at the inputs where the published code evaluates it to or by way
//! of a number that is not finite, at the 13 that the trail's other numbers give, and at scores of a caller that have its bit.

use differential::{
    linked,
    port::{Features, Port},
};
use model::*;

/// The entries of both sides, by name.
fn sides() -> [(&'static str, Port); 2] {
    let model = Port {
        features: Some(tier1::features),
        standardise: Some(conformal::standardise),
        aggregate: Some(conformal::aggregate),
        ..Port::default()
    };
    [("the model", model), ("the port", linked::port())]
}

/// The state after twenty samples of one coordinate, oldest first.
fn trail(samples: &[f64; 20]) -> Tier1Rt {
    let mut rt = Tier1Rt { trail: Trail { len: 20, head: 20, ..Trail::NEW }, ..Tier1Rt::NEW };
    for (slot, x) in rt.trail.buf.chunks_mut(MAX_POS).zip(samples) {
        slot[0] = *x;
    }
    rt
}

/// Samples that are all 0 but the newest.
fn moved(net: f64) -> [f64; 20] {
    let mut samples = [0.0; 20];
    samples[19] = net;
    samples
}

fn config(dt: f64, scale: f64) -> FuseConfig {
    FuseConfig { dt, norm_scale: [scale; MAX_D], absent_camera: AbsentCamera::NoZone, ..FuseConfig::PLAIN }
}

/// The features of a tick without a chunk, of scores that have every bit.
fn featured(features: Features, cfg: &FuseConfig, rt: &Tier1Rt) -> Result<Scores, Refusal> {
    let mut sc = Scores { f: [7.0; NFEAT], valid: 0xfff, ..Scores::NEW };
    features(cfg, &mut rt.clone(), &[], &[], None, &mut sc).map(|()| sc)
}

/// Accepted, with PathIneff alone valid and Stall 0.0, where a number on the way to the Rust's Stall is not finite and no other is.
fn only_stall_is_not_finite(cfg: &FuseConfig, samples: [f64; 20]) -> f64 {
    let rt = trail(&samples);
    for (side, port) in sides() {
        let sc = featured(port.features.expect("an entry"), cfg, &rt).expect(side);
        assert_eq!((sc.valid, sc.f[STALL].to_bits()), (1 << PATH_INEFF, 0), "{side}");
    }
    oracle::take_raised();
    let stall = oracle::stall(cfg, &rt).expect("the Rust has it with 20 samples");
    assert_eq!(oracle::take_raised(), oracle::FLAGS_READ, "Stall's own numbers");
    oracle::features(cfg, &mut rt.clone(), &[], &[], None, &mut Scores::NEW.clone());
    assert!(!oracle::take_raised(), "the numbers of the other eleven");
    stall
}

#[test]
fn a_denominator_of_zero() {
    assert!(only_stall_is_not_finite(&config(1e20, 1e-308), [0.0; 20]).is_nan());
    assert_eq!(only_stall_is_not_finite(&config(1e20, 1e-308), moved(1.0)), 0.0);
}

#[test]
fn an_infinite_speed() {
    assert_eq!(only_stall_is_not_finite(&config(1e-10, 1e300), [0.0; 20]), 1.0);
    assert_eq!(only_stall_is_not_finite(&config(1e-10, 1e300), moved(1e10)), 1.0);
}

#[test]
fn an_infinite_quotient() {
    assert_eq!(only_stall_is_not_finite(&config(1.0, 1e-308), moved(1e10)), 0.0);
}

/// The same inputs beside those: the Rust's Stall is computed of finite numbers alone.
#[test]
fn a_stall_of_finite_numbers() {
    for (cfg, samples) in
        [(config(1e10, 1e-308), [0.0; 20]), (config(1e-10, 1e290), [0.0; 20]), (config(1.0, 1e-308), moved(1e-10))]
    {
        oracle::take_raised();
        assert!(oracle::stall(&cfg, &trail(&samples)).is_some_and(f64::is_finite));
        assert!(!oracle::take_raised(), "{cfg:?}");
    }
}

/// 13 from the trail, where the Rust's flags show it, too, without Stall's numbers. It is net's or path's: PathIneff divides a net
/// whose square is finite by 1e-9 or more, and so adds none of its own.
fn not_finite(samples: [f64; 20], net: bool, path: bool) {
    let (cfg, rt) = (config(1.0, 1.0), trail(&samples));
    assert_eq!((window::net(&rt.trail, 1, 20).is_err(), window::path(&rt.trail, 1, 20).is_err()), (net, path));
    for (side, port) in sides() {
        let said = featured(port.features.expect("an entry"), &cfg, &rt);
        assert_eq!(said, Err(Refusal { number: 13, place: 0 }), "{side}");
    }
    oracle::take_raised();
    oracle::features(&cfg, &mut rt.clone(), &[], &[], None, &mut Scores::NEW.clone());
    assert_eq!(oracle::take_raised(), oracle::FLAGS_READ);
}

/// Nineteen steps whose squares are finite, and whose sum's square is not.
#[test]
fn an_infinite_net() {
    not_finite(std::array::from_fn(|i| i as f64 * 1e153), true, false);
}

/// A step that is taken back.
#[test]
fn an_infinite_path() {
    let mut samples = [0.0; 20];
    samples[10] = 1e200;
    not_finite(samples, false, true);
}

#[test]
fn twenty_samples_or_nineteen() {
    let mut rt = trail(&[0.0; 20]);
    for (count, valid) in [(20, 1 << PATH_INEFF), (19, 0)] {
        rt.trail.len = count;
        for (side, port) in sides() {
            let sc = featured(port.features.expect("an entry"), &config(1.0, 1.0), &rt).expect(side);
            assert_eq!((sc.valid, sc.f[STALL].to_bits()), (valid, 0), "{side}, {count} samples");
        }
    }
}

/// A caller's bit 7 is kept in valid, and is neither standardised nor fired.
#[test]
fn a_callers_bit() {
    let cal = Calibration { tau: -1.0, ..FuseConfig::WHOLE.cal };
    for (side, port) in sides() {
        let mut sc = Scores { f: [7.0; NFEAT], z: [8.0; NFEAT], valid: 0xfff, fired: 0xfff, ..Scores::NEW };
        assert_eq!(port.standardise.expect("an entry")(&cal, 0, &mut sc), Ok(()), "{side}");
        assert_eq!((sc.valid, sc.z[STALL].to_bits(), sc.z[PATH_INEFF]), (0xfff, 0, 7.0), "{side}");
        sc.z[STALL] = 9.0;
        assert_eq!(port.aggregate.expect("an entry")(&cal, &mut sc), Ok(7.0), "{side}");
        assert_eq!((sc.valid, sc.fired), (0xfff, 0xf7f), "{side}");
    }
}

/// 17 before a score that is not finite once it is standardised, which is 13.
#[test]
fn before_thirteen() {
    let far = Scores { f: [f64::MAX; NFEAT], valid: 1, ..Scores::NEW };
    for (side, port) in sides() {
        for (mask, number) in [(1, 13), (1 | 1 << STALL, 17)] {
            let cal = Calibration { mask, center: [-f64::MAX; 192], ..Calibration::DISARMED };
            let said = port.standardise.expect("an entry")(&cal, 0, &mut far.clone());
            assert_eq!(said, Err(Refusal { number, place: 0 }), "{side}");
        }
    }
}

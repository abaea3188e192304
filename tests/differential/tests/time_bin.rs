//! The linked time bin, and the model's, on both sides of each edge: the first ticks, where a bin ends, past the horizon, and at
//! the ends of the type.

use lictor::{conformal::time_bin, Refusal};
use model::conformal;

const LAST: u32 = u32::MAX;

/// The bins of ticks, written by hand.
fn held(horizon_ticks: u32, bins: &[(u32, usize)]) {
    for &(t, bin) in bins {
        assert_eq!(time_bin(t, horizon_ticks), Ok(bin), "t {t} of {horizon_ticks}");
        assert_eq!(conformal::time_bin(t, horizon_ticks), Ok(bin), "the model, t {t} of {horizon_ticks}");
    }
}

#[test]
fn the_horizon_on_the_wall() {
    held(200, &[(0, 0), (1, 0), (2, 0), (12, 0), (13, 0), (14, 1), (25, 1), (26, 2)]);
    held(200, &[(188, 14), (189, 15), (200, 15), (201, 15), (202, 15), (LAST, 15)]);
}

#[test]
fn about_as_many_ticks_as_bins() {
    held(1, &[(0, 0), (1, 0), (2, 15), (LAST, 15)]);
    held(2, &[(1, 0), (2, 8), (3, 15)]);
    held(15, &[(14, 13), (15, 14), (16, 15)]);
    held(16, &[(1, 0), (2, 1), (15, 14), (16, 15), (17, 15)]);
    held(17, &[(2, 0), (3, 1), (16, 14), (17, 15), (18, 15)]);
}

#[test]
fn at_the_end_of_the_type() {
    held(1 << 31, &[(0, 0), (1 << 27, 0), ((1 << 27) + 1, 1), (15 << 27, 14), ((15 << 27) + 1, 15), (LAST, 15)]);
    held(LAST - 1, &[(0, 0), (1, 0), (LAST - 1, 15), (LAST, 15)]);
    held(LAST, &[(0, 0), (1, 0), (1 << 28, 0), ((1 << 28) + 1, 1), (LAST - 1, 15), (LAST, 15)]);
}

#[test]
fn no_ticks() {
    assert_eq!([0, 1, 14, LAST].map(|t| time_bin(t, 0)), [Err(Refusal::Steps); 4]);
}

/// The model's bin, and the Rust's for the tick before; never below the bin of the tick before.
#[test]
fn each_tick_of_each_short_horizon() {
    for horizon_ticks in 1..=300 {
        let mut before = 0;
        for t in 0..=2 * horizon_ticks + 2 {
            let bin = time_bin(t, horizon_ticks).unwrap();
            assert_eq!(conformal::time_bin(t, horizon_ticks), Ok(bin), "t {t} of {horizon_ticks}");
            assert_eq!(oracle::rust::bin_of(t.max(1) - 1, horizon_ticks, 16), bin, "t {t} of {horizon_ticks}");
            assert!(before <= bin && bin <= 15, "t {t} of {horizon_ticks}");
            before = bin;
        }
    }
}

//! The linked root on both sides of each edge between kinds of number (zero, subnormal, normal, infinity, NaN) and beside
//! squares: bit for bit the processor's, and 13 where there is none. Subnormal numbers go by the rounds, all others by a
//! guess that is confirmed.

use lictor::{fmath::sqrt, Refusal};

fn held(bits: u64) {
    let x = f64::from_bits(bits);
    let due = if x.is_finite() && x >= 0.0 { Ok(x.sqrt().to_bits()) } else { Err(13) };
    let found = sqrt(x).map(f64::to_bits).map_err(Refusal::number);
    assert_eq!(found, due, "the root of {x:?}, bits {bits:016x}");
}

#[test]
fn what_has_no_digits() {
    for sign in [0, 1 << 63] {
        // zero, the least number, the largest, the infinity; the first NaN, the last signalling one, the first quiet one, the last
        for bits in [
            0,
            1,
            0x7fef_ffff_ffff_ffff,
            0x7ff0_0000_0000_0000,
            0x7ff0_0000_0000_0001,
            0x7ff7_ffff_ffff_ffff,
            0x7ff8_0000_0000_0000,
            0x7fff_ffff_ffff_ffff,
        ] {
            held(sign | bits);
        }
    }
}

#[test]
fn every_size_of_a_subnormal_number() {
    for size in 0..52 {
        for bits in [1 << size, (1 << size) + 1, (1 << size) + (1 << size >> 1), (2 << size) - 1] {
            held(bits);
        }
    }
}

#[test]
fn from_subnormal_to_normal_and_odd_and_even_exponents() {
    for field in [0, 1, 2, 3, 0x3fd, 0x3fe, 0x3ff, 0x400, 0x401, 0x7fc, 0x7fd, 0x7fe_u64] {
        for digits in [0, 1, 2, (1 << 51) - 1, 1 << 51, (1 << 51) + 1, (1 << 52) - 2, (1 << 52) - 1] {
            held(field << 52 | digits);
        }
    }
}

#[test]
fn beside_squares() {
    for root in (1_u64..4096).chain((1 << 26) - 2048..1 << 26) {
        let square = ((root * root) as f64).to_bits();
        for bits in square - 2..=square + 2 {
            held(bits);
        }
    }
}

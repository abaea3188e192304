//! Which floats the generators use.

use crate::rng::Rng;

/// The size of an input's numbers: most inputs are near 1, some near an edge of the format.
#[derive(Clone, Copy)]
pub struct Field(pub f64);

const EDGES: [f64; 14] =
    [1e-3, 1e3, 1e-9, 1e8, 1e-160, 1e-154, 1e-300, 1e-320, 1e76, 1e100, 1e150, 1e153, 1e154, 1e300];

/// Finite numbers that sit on an edge.
const FINITE: [f64; 18] = [
    0.0,
    -0.0,
    1.0,
    -1.0,
    5e-324,
    -5e-324,
    2.2250738585072014e-308,
    2.225073858507201e-308,
    f64::MAX,
    -f64::MAX,
    8.98846567431158e307,
    1e-103,
    1e103,
    1e154,
    -1.5e154,
    1e-154,
    1e-200,
    1e300,
];

impl Field {
    pub fn new(rng: &mut Rng) -> Self {
        if rng.one_in(6) {
            Field(rng.pick(&EDGES))
        } else {
            Field(1.0)
        }
    }

    /// A finite number: short dyadic ones, ones with all digits, zeros of both signs, seldom an edge of the format.
    pub fn number(self, rng: &mut Rng) -> f64 {
        match rng.below(64) {
            0..=33 => (rng.below(129) as f64 - 64.0) / 8.0 * self.0,
            34..=53 => (rng.unit() - 0.5) * 16.0 * self.0,
            54..=57 => rng.below(5) as f64,
            58..=60 => 0.0,
            61..=62 => -0.0,
            _ if rng.one_in(6) => rng.pick(&FINITE),
            _ => self.0,
        }
    }

    /// A number above 0.
    pub fn above(self, rng: &mut Rng) -> f64 {
        match rng.below(8) {
            0..=4 => (rng.below(64) + 1) as f64 / 8.0 * self.0,
            5 => 1.0,
            _ => (rng.unit() + 0.001) * 8.0 * self.0,
        }
    }

    pub fn numbers(self, rng: &mut Rng, n: usize) -> Vec<f64> {
        (0..n).map(|_| self.number(rng)).collect()
    }

    pub fn array<const N: usize>(self, rng: &mut Rng) -> [f64; N] {
        std::array::from_fn(|_| self.number(rng))
    }
}

/// What may stand in a buffer that is only written: any pattern, a NaN among them, told apart from what is written.
pub fn filler(rng: &mut Rng, n: usize) -> Vec<f64> {
    let odd = rng.pick(&[7.0625e-5, -3.1e7, f64::from_bits(0x7ff8_0000_dead_beef), f64::NEG_INFINITY]);
    vec![odd; n]
}

/// x broken: not finite, at an edge, one step away, or of the other sign.
pub fn broken(rng: &mut Rng, x: f64) -> f64 {
    match rng.below(16) {
        0..=1 => f64::NAN,
        2 => f64::from_bits(0xfff0_0000_0000_0001),
        3..=4 => f64::INFINITY,
        5 => f64::NEG_INFINITY,
        6 => x.next_up(),
        7 => x.next_down(),
        8 => -x,
        9 => x * 1e154,
        10 => x * 1e-160,
        _ => rng.pick(&FINITE),
    }
}

/// A limit at x, one step above or one step below.
pub fn at_limit(rng: &mut Rng, x: f64) -> f64 {
    match rng.below(3) {
        0 => x,
        1 => x.next_up(),
        _ => x.next_down(),
    }
}

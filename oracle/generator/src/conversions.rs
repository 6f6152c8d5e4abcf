//! Values and scales for the fixed-point conversions: halves, neighbours of bounds, random bits.

use crate::{FixedCase, Rng};

fn nudge(rng: &mut Rng, value: f64) -> f64 {
    let bits = value.to_bits();
    f64::from_bits(match rng.below(5) {
        0 => bits.wrapping_add(1),
        1 => bits.wrapping_sub(1),
        2 => bits.wrapping_add(2),
        _ => bits,
    })
}

fn value(rng: &mut Rng) -> f64 {
    let two63 = 9_223_372_036_854_775_808.0;
    let base = match rng.below(9) {
        0 => f64::from_bits(rng.next()),
        1 => rng.below(4_000) as f64 / 8.0 - 250.0,
        2 => (rng.below(2_000_000) as f64 + 0.5) / 100.0,
        3 => rng.pick(&[two63, two63 / 100.0, two63 / 1e8, two63 * 100.0]),
        4 => rng.pick(&[0.5, 1.5, 2.5, 0.49999999999999994, 0.125, 0.005, 4503599627370495.5, 4503599627370496.5, 9007199254740993.0]),
        5 => rng.pick(&[0.0, f64::INFINITY, f64::NAN, f64::MAX, f64::MIN_POSITIVE, 5e-324]),
        6 => (rng.next() >> rng.below(60)) as f64,
        7 => (rng.next() >> rng.below(60)) as f64 / 256.0,
        _ => f64::from_bits((1023 + rng.within(0, 70) as u64) << 52 | rng.next() >> 12),
    };
    let sign = if rng.chance(50) { 1.0 } else { -1.0 };
    sign * nudge(rng, base)
}

pub fn fixed(rng: &mut Rng) -> FixedCase {
    let scale = match rng.below(12) {
        0..=4 => 100.0,
        5 | 6 => 1.0,
        7 => rng.pick(&[1e8, 1e-8, 0.01, -1.0, -100.0, 2.0, 0.5]),
        8 => rng.pick(&[0.0, -0.0, f64::NAN, f64::INFINITY, -f64::INFINITY]),
        9 => f64::from_bits(rng.next()),
        _ => 100.0,
    };
    FixedCase { value: value(rng).to_bits(), scale: scale.to_bits() }
}

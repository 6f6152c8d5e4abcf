//! Drift inputs: holdings, targets, prices and equity, ordinary and extreme.

use doc01::drift::{price_bytes, target_bytes};
use doc01::records::position_bytes;
use doc01::{Position, Symbol};

use crate::events::GOOD;
use crate::{DriftCase, Rng};

fn weight(rng: &mut Rng, extreme: bool) -> f64 {
    match rng.below(if extreme { 8 } else { 5 }) {
        0 => rng.below(2001) as f64 / 1000.0 - 1.0,
        1 => rng.pick(&[0.25, 0.1, 0.2, 0.3, 1.0 / 3.0, 0.05]),
        2 => (rng.next() >> 11) as f64 / (1u64 << 53) as f64,
        3 => rng.pick(&[0.0, -0.0, 1.0, -1.0, 0.5]),
        4 => (rng.next() as i64 as f64) / (1u64 << 63) as f64,
        5 => rng.pick(&[1000.0, -1000.0, 999.9999999999999, 5e-324, -5e-324, 1e-310, 1e-200]),
        6 => f64::from_bits(rng.next() & !(1 << 62)),
        _ if rng.chance(6) => rng.pick(&[1000.0000000000001, -1000.0000000000001, 1001.0, f64::NAN, f64::INFINITY, -f64::INFINITY, f64::MAX]),
        _ => rng.below(1000) as f64 - 500.0,
    }
}

fn price(rng: &mut Rng, extreme: bool) -> i64 {
    match rng.below(if extreme { 8 } else { 5 }) {
        0 => 0,
        1 => rng.pick(&[1, 2, 3, 7, 100]),
        2..=4 => rng.within(1, 500_000) as i64,
        5 => rng.pick(&[-1, -100, i64::MIN]),
        6 => rng.pick(&[i64::MAX, 1 << 62, 1 << 32, 3_037_000_500, 3_037_000_499]),
        _ => rng.next() as i64,
    }
}

fn quantity(rng: &mut Rng, extreme: bool) -> i64 {
    match rng.below(if extreme { 8 } else { 5 }) {
        0 => 0,
        1 => rng.pick(&[1, -1, 100, -100]),
        2..=4 => rng.below(20_000) as i64 - 10_000,
        5 => rng.pick(&[i64::MAX, i64::MIN, i64::MAX - 1, 1 << 62, -(1 << 62), -2]),
        6 => rng.pick(&[3_037_000_500, -3_037_000_500, 3_037_000_499, 1 << 31]),
        _ => rng.next() as i64,
    }
}

pub fn drift(rng: &mut Rng) -> DriftCase {
    let extreme = rng.chance(40);
    let stock: Vec<Symbol> = (0..rng.within(1, 8)).map(|_| Symbol::of(rng.pick(&GOOD).as_bytes()).expect("it parses")).collect();
    let many = if rng.chance(2) { 1_020 } else { 0 };
    let counts = [0; 3].map(|_| if many > 0 && rng.chance(50) { many + rng.below(8) } else { rng.below(8) });
    let own = |rng: &mut Rng, i: usize| {
        if many > 0 {
            Symbol::of(format!("S{}", i % 900).as_bytes()).expect("it parses")
        } else {
            rng.pick(&stock)
        }
    };
    let holdings: Vec<Position> = (0..counts[0])
        .map(|i| Position { symbol: own(rng, i), quantity: quantity(rng, extreme), cost: rng.next() as i64 })
        .collect();
    let targets: Vec<_> = (0..counts[1]).map(|i| (own(rng, i), weight(rng, extreme))).collect();
    let prices: Vec<_> = (0..counts[2]).map(|i| (own(rng, i), price(rng, extreme))).collect();
    let equity = match rng.below(if extreme { 7 } else { 4 }) {
        0 => 0,
        1 => rng.pick(&[1, 100, 10_000_000]),
        2 | 3 => rng.within(1, 1_000_000_000) as i64,
        4 => rng.pick(&[i64::MAX, i64::MIN, -1, -1_000_000, 1 << 53, (1 << 53) + 1]),
        _ => rng.next() as i64,
    };
    let mut case = DriftCase {
        holdings: position_bytes(&holdings),
        targets: target_bytes(&targets),
        prices: price_bytes(&prices),
        equity,
        room: if rng.chance(15) { rng.pick(&[0, 63, 64, 128, 191, 192, 256]) } else { 1 << 20 },
    };
    if rng.chance(6) {
        let list = match rng.below(3) {
            0 => &mut case.holdings,
            1 => &mut case.targets,
            _ => &mut case.prices,
        };
        match rng.below(3) {
            0 => list.push(0),
            1 => {
                list.pop();
            }
            _ if !list.is_empty() => {
                let at = rng.below(list.len().min(24));
                list[at] ^= 1 << rng.below(8);
            }
            _ => {}
        }
    }
    case
}

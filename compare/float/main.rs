//! Compares the static library of `exports` with Rust's own f64 and with the functions of broker/src/types.rs.
//!
//! Values are chosen around halves, powers of two, the ends of the range of i64 and subnormals, and drawn at random. Every byte of an answer is
//! compared. The program stops at the first disagreement with exit status 1.

use std::collections::BTreeMap;
use std::hint::black_box;
use std::time::Instant;

/// What stands in for broker/src/error.rs: the two cases that the conversions make.
#[allow(dead_code)]
pub enum BrokerError {
    NonFiniteValue { field: &'static str, value: f64 },
    ValueOutOfRange { field: &'static str, value: f64 },
}

mod nanobook {
    use super::BrokerError;
    include!(concat!(env!("COMPARE_OUT"), "/types.rs"));
}

extern "C" {
    fn desk_f64_bits(n: u64) -> u64;
    fn desk_is_finite(n: u64) -> bool;
    fn desk_saturating_i64(n: u64) -> i64;
    fn desk_nearest_i64(n: i64) -> u64;
    fn desk_nearest_u64(n: u64) -> u64;
    fn desk_sqrt(n: u64) -> u64;
    fn desk_f64_to_fixed_checked(value: u64, scale: u64, answer: *mut u8, length: usize) -> u32;
    fn desk_f64_cents_checked(value: u64, answer: *mut u8, length: usize) -> u32;
    fn desk_sign_extended(ibkr: i32) -> u64;
    fn desk_truncated_i32(n: i64) -> i32;
}

/// SplitMix64.
struct Random(u64);

impl Random {
    fn next(&mut self) -> u64 {
        self.0 = self.0.wrapping_add(0x9e37_79b9_7f4a_7c15);
        let mut z = self.0;
        z = (z ^ (z >> 30)).wrapping_mul(0xbf58_476d_1ce4_e5b9);
        z = (z ^ (z >> 27)).wrapping_mul(0x94d0_49bb_1331_11eb);
        z ^ (z >> 31)
    }

    fn below(&mut self, n: u64) -> u64 {
        self.next() % n
    }

    /// An f64 of either sign whose size lies from 2^low up to 2^(low + span).
    fn sized(&mut self, low: i64, span: u64) -> f64 {
        let field = (1023 + low + self.below(span) as i64) as u64;
        f64::from_bits(self.next() & 0x800f_ffff_ffff_ffff | field << 52)
    }
}

#[derive(Default)]
struct Counts(BTreeMap<&'static str, u64>);

impl Counts {
    fn same<T: PartialEq + std::fmt::Debug>(&mut self, kind: &'static str, input: &dyn Fn() -> String, rust: T, ours: T) {
        if rust != ours {
            println!("{kind}: disagreement at {}: the Rust has {rust:?}, the library {ours:?}", input());
            std::process::exit(1);
        }
        *self.0.entry(kind).or_insert(0) += 1;
    }
}

/// The bits of x, with one pattern for every NaN.
fn bits(x: f64) -> u64 {
    if x.is_nan() {
        0x7ff8_0000_0000_0000
    } else {
        x.to_bits()
    }
}

fn answer(r: Result<i64, BrokerError>) -> (u32, i64) {
    match r {
        Ok(v) => (0, v),
        Err(BrokerError::NonFiniteValue { .. }) => (9, 0),
        Err(BrokerError::ValueOutOfRange { .. }) => (10, 0),
    }
}

/// What the library is to return and to write, given the Rust's answer and the room.
fn expected(r: Result<i64, BrokerError>, room: usize) -> (u32, Vec<u8>) {
    let (mut number, value) = answer(r);
    let mut bytes = vec![0u8; room];
    if number == 0 && room < 8 {
        number = 3;
    } else if number == 0 {
        bytes[..8].copy_from_slice(&value.to_le_bytes());
    }
    (number, bytes)
}

fn fixed(counts: &mut Counts, kind: &'static str, value: f64, scale: f64, room: usize) {
    let mut out = vec![0xa5u8; room];
    let number = unsafe { desk_f64_to_fixed_checked(value.to_bits(), scale.to_bits(), out.as_mut_ptr(), room) };
    let rust = expected(nanobook::f64_to_fixed_checked(value, scale, "field"), room);
    counts.same(kind, &|| format!("{value:e} ({:#018x}), scale {scale:e} ({:#018x})", value.to_bits(), scale.to_bits()), rust, (number, out));
}

fn cents(counts: &mut Counts, kind: &'static str, value: f64, room: usize) {
    let mut out = vec![0xa5u8; room];
    let number = unsafe { desk_f64_cents_checked(value.to_bits(), out.as_mut_ptr(), room) };
    let rust = expected(nanobook::f64_cents_checked(value, "field"), room);
    counts.same(kind, &|| format!("{value:e} ({:#018x})", value.to_bits()), rust, (number, out));
}

fn one_value(counts: &mut Counts, x: f64, roots: &'static str) {
    let n = x.to_bits();
    let input = || format!("{x:e} ({n:#018x})");
    unsafe {
        counts.same("bits", &input, bits(x), desk_f64_bits(n));
        counts.same("is_finite", &input, x.is_finite(), desk_is_finite(n));
        counts.same("as i64", &input, x as i64, desk_saturating_i64(n));
        counts.same(roots, &input, bits(x.sqrt()), desk_sqrt(n));
    }
}

fn one_integer(counts: &mut Counts, n: u64) {
    let input = || format!("{n:#018x}");
    let signed = n as i64;
    unsafe {
        counts.same("u64 as f64", &input, (n as f64).to_bits(), desk_nearest_u64(n));
        counts.same("i64 as f64", &input, (signed as f64).to_bits(), desk_nearest_i64(signed));
        counts.same("i64 as i32", &input, signed as i32, desk_truncated_i32(signed));
        counts.same("i32 as u64", &input, (n as i32) as u64, desk_sign_extended(n as i32));
    }
}

/// x and its neighbours up to two last places away, both signs.
fn around(values: &mut Vec<f64>, x: f64) {
    for step in -2i64..=2 {
        let n = x.to_bits().wrapping_add(step as u64);
        values.push(f64::from_bits(n));
        values.push(f64::from_bits(n ^ 1 << 63));
    }
}

fn chosen_values() -> Vec<f64> {
    let mut values = Vec::new();
    for n in [0u64, 1, 2, 0xf_ffff_ffff_fffe, 0x10_0000_0000_0000, 0x7fef_ffff_ffff_ffff, 0x7ff0_0000_0000_0000] {
        around(&mut values, f64::from_bits(n));
    }
    for nan in [0x7ff8_0000_0000_0000u64, 0x7ff0_0000_0000_0001, 0x7fff_ffff_ffff_ffff, 0x7ff4_dead_beef_0001] {
        values.push(f64::from_bits(nan));
        values.push(f64::from_bits(nan | 1 << 63));
    }
    for k in -1074i32..=1023 {
        around(&mut values, 2f64.powi(k));
    }
    for k in 0..400u64 {
        around(&mut values, k as f64 + 0.5);
        around(&mut values, (k as f64 + 0.5) / 100.0);
        around(&mut values, k as f64 / 100.0);
        around(&mut values, k as f64 / 1000.0);
    }
    for k in 1..63 {
        around(&mut values, (1u64 << k) as f64 + 0.5);
        around(&mut values, (1u64 << k) as f64 - 0.5);
        around(&mut values, ((1u64 << k) as f64 + 0.5) / 100.0);
    }
    for end in [2f64.powi(63), 2f64.powi(62), 2f64.powi(53), 2f64.powi(52), 92233720368547758.07, 92233720368547758.08] {
        around(&mut values, end);
    }
    values
}

fn chosen_scales() -> Vec<f64> {
    let mut scales = vec![0.0, -0.0, f64::INFINITY, f64::NEG_INFINITY, f64::NAN, f64::MAX, f64::MIN_POSITIVE, f64::from_bits(1)];
    for s in [1.0, 2.0, 0.5, 3.0, 10.0, 100.0, 0.1, 0.01, 1000.0, 10000.0, 1e8, 1e18, 2f64.powi(63), 2f64.powi(-63)] {
        scales.push(s);
        scales.push(-s);
    }
    scales
}

/// A value and a scale whose product lies near a half, near an end of the range, or anywhere.
fn random_pair(random: &mut Random) -> (f64, f64) {
    let scale = [1.0, 100.0, 1000.0, 1e8, 0.01][random.below(5) as usize];
    match random.below(5) {
        0 => (f64::from_bits(random.next()), f64::from_bits(random.next())),
        1 => (random.sized(-4, 70), scale),
        2 => {
            let digits = 1 + random.below(52);
            let half = random.below(1 << digits) as f64 + 0.5;
            let step = random.below(5) as i64 - 2;
            let x = f64::from_bits((half / scale).to_bits().wrapping_add(step as u64));
            (if random.below(2) == 0 { x } else { -x }, scale)
        }
        3 => {
            let end = 2f64.powi(63) / scale;
            let x = f64::from_bits(end.to_bits().wrapping_add(random.below(4001)).wrapping_sub(2000));
            (if random.below(2) == 0 { x } else { -x }, scale)
        }
        _ => (random.sized(-1000, 1500), random.sized(-500, 600)),
    }
}

/// A number near a square, near the square of a half of a last place, subnormal, or anywhere.
fn random_root(random: &mut Random) -> f64 {
    match random.below(4) {
        0 => f64::from_bits(random.next()),
        1 => {
            let shift = 11 + random.below(52);
            f64::from_bits(random.next() >> shift)
        },
        2 => {
            let r = random.sized(-500, 1000).abs();
            f64::from_bits((r * r).to_bits().wrapping_add(random.below(5)).wrapping_sub(2))
        }
        _ => random.sized(-1022, 2045).abs(),
    }
}

fn main() {
    let arguments: Vec<u64> = std::env::args().skip(1).map(|a| a.parse().expect("a number")).collect();
    let count = arguments.first().copied().unwrap_or(2_000_000);
    let seed = arguments.get(1).copied().unwrap_or(1);
    let mut random = Random(seed);
    let mut counts = Counts::default();

    let values = chosen_values();
    let scales = chosen_scales();
    for &x in &values {
        one_value(&mut counts, x, "root, chosen");
        cents(&mut counts, "cents, chosen", x, 8);
        for &s in &scales {
            fixed(&mut counts, "fixed, chosen", x, s, 8);
        }
    }
    for room in 0..=40 {
        for x in [0.125, -0.125, 1e300, f64::NAN, f64::NEG_INFINITY, -92233720368547758.08] {
            fixed(&mut counts, "fixed, room 0 to 40", x, 100.0, room);
            cents(&mut counts, "cents, room 0 to 40", x, room);
        }
    }
    for k in 0..64 {
        for d in 0..=2048u64 {
            one_integer(&mut counts, (1u64 << k).wrapping_add(d));
            one_integer(&mut counts, (1u64 << k).wrapping_sub(d));
        }
    }
    for _ in 0..count {
        let (value, scale) = random_pair(&mut random);
        fixed(&mut counts, "fixed, random", value, scale, 8);
        cents(&mut counts, "cents, random", value, 8);
        one_value(&mut counts, random_root(&mut random), "root, random");
        let shift = random.below(64);
        one_integer(&mut counts, random.next() >> shift);
    }

    println!("seed {seed}");
    for (kind, n) in &counts.0 {
        println!("{kind}: {n} agree");
    }
    times(&mut random);
}

/// Nanoseconds a call, ours and Rust's: the least of five runs over a million numbers.
fn times(random: &mut Random) {
    let roots: Vec<u64> = (0..1_000_000).map(|_| random.sized(-500, 1000).abs().to_bits()).collect();
    let prices: Vec<u64> = (0..1_000_000).map(|_| random.sized(-4, 40).to_bits()).collect();
    let time = |f: &mut dyn FnMut() -> u64| {
        let mut least = f64::INFINITY;
        let mut sum = 0;
        for _ in 0..5 {
            let start = Instant::now();
            sum = black_box(f());
            least = least.min(start.elapsed().as_nanos() as f64 / 1e6);
        }
        (least, sum)
    };
    let ours = time(&mut || roots.iter().fold(0u64, |a, &n| a ^ unsafe { desk_sqrt(black_box(n)) }));
    let rust = time(&mut || roots.iter().fold(0u64, |a, &n| a ^ f64::from_bits(black_box(n)).sqrt().to_bits()));
    assert_eq!(ours.1, rust.1);
    println!("root: {:.1} ns a call, Rust {:.1} ns", ours.0, rust.0);
    let mut out = [0u8; 8];
    let ours = time(&mut || {
        prices.iter().fold(0u64, |a, &n| {
            unsafe { desk_f64_cents_checked(black_box(n), out.as_mut_ptr(), 8) };
            a ^ u64::from_le_bytes(out)
        })
    });
    let rust = time(&mut || prices.iter().fold(0u64, |a, &n| a ^ answer(nanobook::f64_cents_checked(f64::from_bits(black_box(n)), "field")).1 as u64));
    assert_eq!(ours.1, rust.1);
    println!("cents: {:.1} ns a call, Rust {:.1} ns", ours.0, rust.0);
}

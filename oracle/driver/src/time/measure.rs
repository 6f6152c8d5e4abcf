//! Processor time: samples of all sides of a row in turn, medians of two sets.

use std::hint::black_box;

use super::rows::Side;

/// The least time of a sample, and what a set of samples takes about, in nanoseconds.
const SAMPLE: u128 = 1_000_000;
const SET: u128 = 700_000_000;
const FEWEST: u128 = 9;
const MOST: u128 = 201;

/// This thread's time on a processor, in nanoseconds: other work on the machine does not count.
fn processor() -> u128 {
    const THREAD: i32 = 3;
    extern "C" {
        fn clock_gettime(clock: i32, at: *mut [i64; 2]) -> i32;
    }
    let mut at = [0; 2];
    // Safe: a timespec is two words on 64-bit Linux.
    let failed = unsafe { clock_gettime(THREAD, &mut at) };
    assert_eq!(failed, 0, "no clock");
    at[0] as u128 * 1_000_000_000 + at[1] as u128
}

/// Merges what the pass before has freed. Else the first large allocation does so, within one count and not within another.
pub fn merged() {
    extern "C" {
        fn malloc_trim(pad: usize) -> i32;
    }
    // Safe: glibc's own upkeep of its heap.
    unsafe { malloc_trim(0) };
}

/// The one function under which callgrind counts.
#[no_mangle]
#[inline(never)]
pub fn measured(call: &mut dyn FnMut() -> u64) {
    black_box(call());
}

/// So many passes, after one that does not count: the side before may have filled the caches.
fn passed(passes: u128, call: &mut dyn FnMut() -> u64) -> u128 {
    black_box(call());
    let start = processor();
    for _ in 0..passes {
        black_box(call());
    }
    processor() - start
}

/// Passes for a sample of the least time: doubled until they take it, so that the first passes, which are slow, do not decide.
fn enough(call: &mut dyn FnMut() -> u64) -> u128 {
    let mut passes = 1;
    while passed(passes, call) < SAMPLE {
        passes *= 2;
    }
    passes
}

fn median(mut of: Vec<f64>) -> f64 {
    of.sort_by(f64::total_cmp);
    of[of.len() / 2]
}

pub struct Line {
    pub side: String,
    /// Microseconds for one pass.
    pub medians: [f64; 2],
    /// How many times the library's time that is: the median over the samples, each beside the library's of the same turn.
    pub ratios: [f64; 2],
    pub samples: u128,
    pub passes: u128,
}

/// Two sets of samples of each side; the library's is the first.
pub fn sets(sides: &mut [(&str, Side)]) -> Vec<Line> {
    let passes: Vec<u128> = sides.iter_mut().map(|(_, call)| enough(call)).collect();
    let round: u128 = sides.iter_mut().zip(&passes).map(|((_, call), n)| passed(*n, call)).sum();
    let samples = (SET / round.max(1)).clamp(FEWEST, MOST) | 1;
    let line = |side: &str, passes| Line { side: side.to_string(), medians: [0.0; 2], ratios: [0.0; 2], samples, passes };
    let mut lines: Vec<Line> = sides.iter().zip(&passes).map(|((side, _), n)| line(side, *n)).collect();
    for set in 0..2 {
        let mut times: Vec<Vec<f64>> = vec![Vec::new(); sides.len()];
        for _ in 0..samples {
            for (i, (_, call)) in sides.iter_mut().enumerate() {
                times[i].push(passed(passes[i], call) as f64 / passes[i] as f64 / 1_000.0);
            }
        }
        for (line, times_of) in lines.iter_mut().zip(&times) {
            line.ratios[set] = median(times_of.iter().zip(&times[0]).map(|(t, l)| t / l).collect());
            line.medians[set] = median(times_of.clone());
        }
    }
    lines
}

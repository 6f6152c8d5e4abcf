//! Damaged bytes: copies of well-formed books and sheets with one or a few faults, each rule of the layout by itself.

use doc01::book::{CELL, EVENT, HEADER, MAX_BYTES, ROW};

use crate::{runs, LogCase, Rng};

fn put32(bytes: &mut [u8], at: usize, value: u32) {
    if at + 4 <= bytes.len() {
        bytes[at..at + 4].copy_from_slice(&value.to_le_bytes());
    }
}

fn put64(bytes: &mut [u8], at: usize, value: u64) {
    if at + 8 <= bytes.len() {
        bytes[at..at + 8].copy_from_slice(&value.to_le_bytes());
    }
}

fn get32(bytes: &[u8], at: usize) -> u32 {
    bytes.get(at..at + 4).map_or(0, |b| u32::from_le_bytes(b.try_into().expect("four bytes")))
}

/// One byte more or less, a cut, or nothing left.
fn relength(rng: &mut Rng, bytes: &mut Vec<u8>) {
    match rng.below(6) {
        0 => bytes.push(0),
        1 => {
            bytes.pop();
        }
        2 => bytes.truncate(rng.pick(&[0, 1, 3, 4, 8, 12, 20, 23, 24, 25])),
        3 => {
            let cut = rng.below(bytes.len() + 1);
            bytes.truncate(cut);
        }
        4 => bytes.extend(vec![0; rng.within(1, 300)]),
        _ => bytes.clear(),
    }
}

fn header(rng: &mut Rng, bytes: &mut [u8], limit: u32) {
    let at = 4 * rng.below(6);
    let now = get32(bytes, at);
    let value = match rng.below(7) {
        0 => now.wrapping_add(1),
        1 => now.wrapping_sub(1),
        2 => limit,
        3 => limit + 1,
        4 => u32::MAX,
        5 => rng.next() as u32,
        _ => 0,
    };
    put32(bytes, at, value);
}

/// A cell's 16 bytes: kind, zeros, payload.
fn cell(rng: &mut Rng, bytes: &mut [u8], at: usize, text: u32, rows: u32) {
    if at + CELL > bytes.len() {
        return;
    }
    match rng.below(9) {
        0 => bytes[at] = rng.within(0, 8) as u8,
        1 => bytes[at + rng.within(1, 7)] = rng.pick(&[1, 0x80]),
        2 => {
            bytes[at] = 2;
            put64(bytes, at + 8, rng.pick(&[(1 << 63) - 1, 1 << 63, 0, u64::MAX]));
        }
        3 => {
            bytes[at] = 3;
            let infinite = f64::INFINITY.to_bits();
            put64(bytes, at + 8, rng.pick(&[infinite, infinite | 1 << 63, infinite + 1, infinite - 1, u64::MAX, 1 << 63, 1]));
        }
        4 => {
            bytes[at] = 5;
            put64(bytes, at + 8, rng.pick(&[0, 1, 2, 256, 1 << 32, 257]));
        }
        5 | 6 => {
            let (kind, limit) = if rng.chance(50) { (4, text) } else { (6, rows) };
            bytes[at] = kind;
            let first = rng.pick(&[0, limit, limit.wrapping_add(1), limit.wrapping_sub(1), u32::MAX]);
            let length = match rng.below(5) {
                0 => limit.wrapping_sub(first),
                1 => limit.wrapping_sub(first).wrapping_add(1),
                2 => 0,
                3 => u32::MAX,
                _ => 0u32.wrapping_sub(first),
            };
            put32(bytes, at + 8, first);
            put32(bytes, at + 12, length);
        }
        7 => bytes[at + rng.within(8, 15)] ^= 1 << rng.below(8),
        _ => {
            bytes[at] = 0;
            put64(bytes, at + 8, rng.pick(&[0, 1, 1 << 56]));
        }
    }
}

fn event(rng: &mut Rng, bytes: &mut [u8], at: usize, text: u32, rows: u32) {
    match rng.below(8) {
        0 => put32(bytes, at, rng.pick(&[0, text, text.wrapping_add(1), u32::MAX])),
        1 => put32(bytes, at + 4, rng.pick(&[0, text, text.wrapping_add(1), u32::MAX])),
        2 => put32(bytes, at + 8, rng.pick(&[0, 1, 2, 256, u32::MAX])),
        3 => put32(bytes, at + 12, rng.pick(&[0, 1, 1 << 31])),
        4 => put64(bytes, at + 16, rng.pick(&[0, 1, u64::MAX])),
        5 => put64(
            bytes,
            at + 24,
            rng.pick(&[0, 253_402_300_799_999, 253_402_300_800_000, u64::MAX, 1 << 63, (1 << 63) - 1]),
        ),
        _ => {
            let place = at + 32 + CELL * rng.below(13);
            cell(rng, bytes, place, text, rows)
        }
    }
}

fn damage_book(rng: &mut Rng, bytes: &mut Vec<u8>) {
    let (events, rows, text) = (get32(bytes, 0), get32(bytes, 8), get32(bytes, 16));
    let row_at = HEADER + EVENT * events as usize;
    match rng.below(12) {
        0 | 1 => relength(rng, bytes),
        2 | 3 => header(rng, bytes, 4096),
        4..=7 if events > 0 => {
            let place = HEADER + EVENT * rng.below(events as usize);
            event(rng, bytes, place, text, rows)
        }
        8 | 9 if rows > 0 => {
            let place = row_at + ROW * rng.below(rows as usize) + CELL * rng.below(4);
            cell(rng, bytes, place, text, rows)
        }
        10 if bytes.len() > HEADER && rng.chance(10) => bytes.resize(MAX_BYTES + rng.below(3), 0),
        _ if !bytes.is_empty() => {
            let at = rng.below(bytes.len());
            bytes[at] ^= 1 << rng.below(8);
        }
        _ => bytes.push(0),
    }
}

pub fn damage_sheet(rng: &mut Rng, bytes: &mut Vec<u8>) {
    let (orders, positions) = (get32(bytes, 0) as usize, get32(bytes, 8) as usize);
    let position_at = HEADER + 24 * orders;
    match rng.below(8) {
        0 => relength(rng, bytes),
        1 => header(rng, bytes, 1024),
        2 => put32(bytes, 16 + 4 * rng.below(2), rng.pick(&[0, 1, 2, u32::MAX])),
        3 if orders > 0 => put32(bytes, HEADER + 24 * rng.below(orders) + 16 + 4 * rng.below(2), rng.pick(&[0, 5, 6, 1, u32::MAX])),
        4..=6 if positions > 0 => {
            let at = position_at + 24 * rng.below(positions);
            match rng.below(3) {
                0 => bytes[at + 8] = rng.pick(&[0, 1, 7, 8, 9, 255]),
                1 => bytes[at + rng.below(9)] = rng.pick(&[0, b'A', b'a', b'/', b'.', b'-', b'9', b':', b'Z', b'[', 0xff]),
                _ => bytes[at + rng.within(9, 15)] = rng.pick(&[0, 1]),
            }
        }
        _ if !bytes.is_empty() => {
            let at = rng.below(bytes.len());
            bytes[at] ^= 1 << rng.below(8);
        }
        _ => bytes.push(0),
    }
}

pub fn damaged(rng: &mut Rng) -> LogCase {
    let mut case = runs::run(rng);
    for _ in 0..rng.pick(&[1, 1, 1, 2, 4]) {
        damage_book(rng, &mut case.book);
    }
    if rng.chance(20) {
        damage_sheet(rng, &mut case.sheet);
    }
    case
}

//! Other inputs out of one: a slice is altered as what it is, a book, a sheet, marks or records, and mostly put right
//! again, so that most inputs come past refusals 1 and 2.

use oracle::doc01::book::{CELL, EVENT, HEADER, ROW};
use oracle::doc01::drift::MAX_COUNT as LIST;
use oracle::doc01::records::{HAS_ID, HAS_REASON, MARKS, ORDER, POSITION};
use oracle::doc01::{symbol, Book, Marks, Sheet, LAST_TIME, NAMES};
use oracle::generator::Rng;

use crate::entries;
use crate::input::Input;

extern "C" {
    /// libFuzzer's own alteration of bytes.
    fn LLVMFuzzerMutate(data: *mut u8, size: usize, room: usize) -> usize;
}

/// The most bytes of most inputs; one in LARGER may be as large as libFuzzer allows.
const USUAL: usize = 8_192;
const LARGER: usize = 64;

const SYMBOLS: [&[u8]; 9] = [b"A", b"B", b"AAPL", b"BRK.B", b"Z-9", b"UNKNOWN", b"ABCDEFGH", b"0", b"aapl"];
const TEXTS: [&[u8]; 8] = [b"BUY", b"SELL", b"", b"id-1", b"id-2", b"w1", b"w2", b"not_found_at_broker"];
const WHOLE: [u64; 20] = [
    0,
    1,
    2,
    3,
    77,
    78,
    u64::MAX,
    u64::MAX - 1,
    u64::MAX - 2,
    i64::MAX as u64,
    i64::MIN as u64,
    1 << 32,
    (1 << 32) + 1,
    1 << 31,
    0xffff_ffff_8000_0000,
    (1 << 53) + 1,
    1 << 62,
    LAST_TIME as u64,
    LAST_TIME as u64 + 1,
    1_767_225_600_000,
];
const FLOATS: [f64; 20] = [
    0.0,
    -0.0,
    1.0,
    0.125,
    -0.125,
    0.005,
    0.49999999999999994,
    9223372036854775807.0,
    -9223372036854775808.0,
    92233720368547758.08,
    92233720368547750.0,
    -92233720368547758.08,
    1e300,
    f64::MAX,
    f64::MIN_POSITIVE,
    5e-324,
    1000.0,
    -1000.0,
    1000.0000000000001,
    0.5,
];

fn by_libfuzzer(bytes: &mut Vec<u8>, room: usize) {
    let size = bytes.len();
    let room = room.max(size).max(1);
    bytes.resize(room, 0);
    // Safe: the bytes are `room` many.
    let size = unsafe { LLVMFuzzerMutate(bytes.as_mut_ptr(), size, room) };
    bytes.truncate(size);
}

fn whole(rng: &mut Rng) -> u64 {
    match rng.below(8) {
        0 => rng.next(),
        1 => rng.next() >> rng.below(64),
        2 => rng.pick(&WHOLE).wrapping_add(rng.within(0, 4) as u64).wrapping_sub(2),
        _ => rng.pick(&WHOLE),
    }
}

fn float(rng: &mut Rng) -> u64 {
    match rng.below(6) {
        0 => rng.next(),
        1 => (rng.within(0, 200_000) as f64 / 100.0 - 1000.0).to_bits(),
        2 => rng.pick(&FLOATS).to_bits().wrapping_add(rng.within(0, 2) as u64).wrapping_sub(1),
        3 => ((rng.next() as i64 >> rng.below(63)) as f64).to_bits(),
        _ => rng.pick(&FLOATS).to_bits(),
    }
}

fn u32_at(bytes: &[u8], at: usize) -> usize {
    u32::from_le_bytes(bytes[at..at + 4].try_into().expect("four bytes")) as usize
}

fn put(bytes: &mut [u8], at: usize, value: u64) {
    bytes[at..at + 8].copy_from_slice(&value.to_le_bytes());
}

fn put_pair(bytes: &mut [u8], at: usize, first: usize, length: usize) {
    put(bytes, at, first as u64 | (length as u64) << 32);
}

/// A table's records: one is copied, taken out, moved, made new or altered.
fn table(rng: &mut Rng, records: &mut Vec<Vec<u8>>, fresh: impl FnOnce(&mut Rng) -> Vec<u8>, altered: impl FnOnce(&mut Rng, &mut Vec<u8>)) {
    let count = records.len();
    match rng.below(10) {
        0 if count > 0 => {
            let copy = records[rng.below(count)].clone();
            records.insert(rng.below(count + 1), copy);
        }
        1 if count > 0 => {
            records.remove(rng.below(count));
        }
        2 if count > 1 => records.swap(rng.below(count), rng.below(count)),
        3 | 4 => {
            let record = fresh(rng);
            let at = if rng.chance(70) { count } else { rng.below(count + 1) };
            records.insert(at, record);
        }
        _ if count > 0 => {
            let at = rng.below(count);
            altered(rng, &mut records[at]);
        }
        _ => records.push(fresh(rng)),
    }
}

fn chunks(bytes: &[u8], width: usize) -> Vec<Vec<u8>> {
    bytes.chunks(width).map(<[u8]>::to_vec).collect()
}

struct Tables {
    events: Vec<Vec<u8>>,
    rows: Vec<Vec<u8>>,
    text: Vec<u8>,
}

impl Tables {
    /// The tables as far as the header and the bytes go.
    fn of(bytes: &[u8]) -> Tables {
        if bytes.len() < HEADER {
            return Tables { events: Vec::new(), rows: Vec::new(), text: Vec::new() };
        }
        let rest = &bytes[HEADER..];
        let (events, rest) = rest.split_at(EVENT * u32_at(bytes, 0).min(rest.len() / EVENT));
        let (rows, text) = rest.split_at(ROW * u32_at(bytes, 8).min(rest.len() / ROW));
        Tables { events: chunks(events, EVENT), rows: chunks(rows, ROW), text: text.to_vec() }
    }

    fn bytes(&self) -> Vec<u8> {
        let row_at = HEADER + EVENT * self.events.len();
        let text_at = row_at + ROW * self.rows.len();
        let header = [self.events.len(), HEADER, self.rows.len(), row_at, self.text.len(), text_at];
        let mut out: Vec<u8> = header.iter().flat_map(|n| (*n as u32).to_le_bytes()).collect();
        self.events.iter().chain(&self.rows).for_each(|record| out.extend(record));
        out.extend(&self.text);
        out
    }

    /// A reference to a text, which is added unless it is there.
    fn text(&mut self, text: &[u8]) -> (usize, usize) {
        let found = if text.is_empty() { Some(0) } else { self.text.windows(text.len()).position(|w| w == text) };
        let first = found.unwrap_or_else(|| {
            self.text.extend(text);
            self.text.len() - text.len()
        });
        (first, text.len())
    }

    /// A cell of the kind that is mostly read at this place.
    fn cell(&mut self, rng: &mut Rng, usual: u8) -> [u8; CELL] {
        let kind = if rng.chance(80) { usual } else { rng.within(0, 6) as u8 };
        let mut cell = [0; CELL];
        cell[0] = kind;
        match kind {
            1 => put(&mut cell, 8, whole(rng)),
            2 => put(&mut cell, 8, whole(rng) | 1 << 63),
            3 => put(&mut cell, 8, float(rng)),
            4 => {
                let text = if rng.chance(60) { any_symbol(rng) } else { rng.pick(&TEXTS).to_vec() };
                let (first, length) = match rng.below(8) {
                    0 => (rng.below(self.text.len() + 1), rng.below(9)),
                    _ => self.text(&text),
                };
                put_pair(&mut cell, 8, first, length);
            }
            5 => put(&mut cell, 8, rng.below(2) as u64),
            6 => {
                let first = rng.below(self.rows.len() + 1);
                put_pair(&mut cell, 8, first, rng.below(self.rows.len() + 1 - first));
            }
            _ => {}
        }
        cell
    }

    fn named(&mut self, rng: &mut Rng, event: &mut [u8]) {
        let name = if rng.chance(8) { &b"cron_completed"[..] } else { rng.pick(&NAMES).as_bytes() };
        let (first, length) = self.text(name);
        put_pair(event, 0, first, length);
    }

    fn numbered(&self, rng: &mut Rng, event: &mut [u8]) {
        let last = self.events.last().map_or(0, |e| u64::from_le_bytes(e[16..24].try_into().expect("eight bytes")));
        let number = match rng.below(10) {
            0 => return put(event, 8, 0),
            1 => last,
            2 => whole(rng),
            _ => last.wrapping_add(rng.within(1, 2) as u64),
        };
        put(event, 8, 1);
        put(event, 16, number);
    }

    fn cells(&mut self, rng: &mut Rng, event: &mut [u8], percent: u64) {
        /// symbol, action, client_order_id, shares, limit, ibkr_id, reason, equity, success, positions, orders, window_id, reconciled
        const USUAL_KINDS: [u8; 13] = [4, 4, 4, 1, 3, 1, 4, 3, 5, 6, 6, 4, 5];
        for (i, kind) in USUAL_KINDS.into_iter().enumerate() {
            if rng.chance(percent) {
                event[32 + CELL * i..48 + CELL * i].copy_from_slice(&self.cell(rng, kind));
            }
        }
    }

    fn event(&mut self, rng: &mut Rng) -> Vec<u8> {
        let mut event = vec![0; EVENT];
        self.named(rng, &mut event);
        self.numbered(rng, &mut event);
        put(&mut event, 24, if rng.chance(80) { 1_767_225_600_000 } else { whole(rng) });
        let percent = rng.pick(&[0, 30, 85, 100]);
        self.cells(rng, &mut event, percent);
        event
    }

    fn row(&mut self, rng: &mut Rng, row: &mut [u8], percent: u64) {
        for (i, kind) in [4, 4, 1, 3].into_iter().enumerate() {
            if rng.chance(percent) {
                row[CELL * i..CELL * i + CELL].copy_from_slice(&self.cell(rng, kind));
            }
        }
    }

    fn altered(&mut self, rng: &mut Rng) {
        match rng.below(8) {
            0 => {
                let room = self.text.len() + 16;
                by_libfuzzer(&mut self.text, room);
            }
            1 | 2 => {
                let mut rows = std::mem::take(&mut self.rows);
                let mut fresh = vec![0; ROW];
                self.rows = rows.clone();
                self.row(rng, &mut fresh, 95);
                let this = &mut *self;
                table(rng, &mut rows, |_| fresh, |rng, row| this.row(rng, row, 30));
                self.rows = rows;
            }
            _ => {
                let mut events = std::mem::take(&mut self.events);
                self.events = events.clone();
                let fresh = self.event(rng);
                let this = &mut *self;
                table(rng, &mut events, |_| fresh, |rng, event| match rng.below(6) {
                    0 => this.named(rng, event),
                    1 => this.numbered(rng, event),
                    2 => {
                        by_libfuzzer(event, EVENT);
                        event.resize(EVENT, 0);
                    }
                    3 => put(event, 24, whole(rng)),
                    _ => this.cells(rng, event, 15),
                });
                self.events = events;
            }
        }
    }

    /// A run in its due order, but that some of its events are left out and some have changed places.
    fn run(&mut self, rng: &mut Rng) {
        self.events.clear();
        let (left_out, swaps) = (rng.pick(&[0, 5, 15]), rng.below(3));
        for name in NAMES {
            if rng.chance(left_out) {
                continue;
            }
            let mut event = self.event(rng);
            let (first, length) = self.text(name.as_bytes());
            put_pair(&mut event, 0, first, length);
            self.events.push(event);
        }
        for _ in 0..swaps {
            let count = self.events.len();
            if count > 0 {
                self.events.swap(rng.below(count), rng.below(count));
            }
        }
        self.renumbered();
    }

    /// Numbers that rise, from event to event.
    fn renumbered(&mut self) {
        for (i, event) in self.events.iter_mut().enumerate() {
            put(event, 8, 1);
            put(event, 16, i as u64 + 1);
        }
    }

    /// Every event and row put right.
    fn repaired(&mut self) {
        let (text, rows) = (self.text.len(), self.rows.len());
        for event in &mut self.events {
            within(event, 0, text);
            let mark = (event[8] & 1) as u64;
            put(event, 8, mark);
            if mark == 0 {
                put(event, 16, 0);
            }
            let time = u64::from_le_bytes(event[24..32].try_into().expect("eight bytes"));
            put(event, 24, time % (LAST_TIME as u64 + 1));
            for (i, cell) in event[32..].chunks_mut(CELL).enumerate() {
                sound(cell, text, if i == 11 { None } else { Some(rows) });
                if i == 11 && cell[0] != 4 {
                    cell.fill(0);
                }
            }
        }
        for row in &mut self.rows {
            row.chunks_mut(CELL).for_each(|cell| sound(cell, text, None));
        }
    }
}

/// A pair of first and length made to lie within.
fn within(bytes: &mut [u8], at: usize, length: usize) {
    let (first, many) = (u32_at(bytes, at), u32_at(bytes, at + 4));
    let first = if first > length { first % (length + 1) } else { first };
    let many = if first + many > length { many % (length - first + 1) } else { many };
    put_pair(bytes, at, first, many);
}

/// A cell put right; without rows it holds no list.
fn sound(cell: &mut [u8], text: usize, rows: Option<usize>) {
    cell[0] %= 7;
    cell[1..8].fill(0);
    match (cell[0], rows) {
        (2, _) => cell[15] |= 0x80,
        (3, _) if cell[15] & 0x7f == 0x7f && cell[14] & 0xf0 == 0xf0 => cell[14] &= 0x8f,
        (4, _) => within(cell, 8, text),
        (5, _) => put(cell, 8, (cell[8] & 1) as u64),
        (6, Some(rows)) => within(cell, 8, rows),
        (0 | 6, _) => cell.fill(0),
        _ => {}
    }
}

fn book(rng: &mut Rng, bytes: &mut Vec<u8>, limit: usize) {
    if rng.chance(3) {
        return by_libfuzzer(bytes, limit);
    }
    let mut tables = Tables::of(bytes);
    for _ in 0..rng.within(1, 3) {
        tables.altered(rng);
    }
    match rng.below(20) {
        0 => tables.run(rng),
        1 | 2 => tables.renumbered(),
        _ => {}
    }
    while HEADER + EVENT * tables.events.len() + ROW * tables.rows.len() + tables.text.len() > limit {
        match (tables.events.len(), tables.rows.len()) {
            (0, 0) => tables.text.truncate(limit / 2),
            (0, rows) => tables.rows.truncate(rows / 2),
            (events, _) => tables.events.truncate(events / 2),
        }
    }
    if rng.chance(92) {
        tables.repaired();
    }
    *bytes = tables.bytes();
    if rng.chance(3) {
        let mut header = bytes[..HEADER].to_vec();
        by_libfuzzer(&mut header, HEADER);
        header.resize(HEADER, 0);
        bytes[..HEADER].copy_from_slice(&header);
    }
}

/// A symbol, or one byte beside the allowed ones in it.
fn any_symbol(rng: &mut Rng) -> Vec<u8> {
    if rng.chance(60) {
        return SYMBOLS[rng.below(SYMBOLS.len())].to_vec();
    }
    let mut out: Vec<u8> = (0..rng.within(1, 8)).map(|_| rng.pick(b"AAMZZ09.-")).collect();
    if rng.chance(15) {
        let at = rng.below(out.len());
        out[at] = rng.pick(b"/:@[,`az{ \0\x7f\xff");
    }
    out
}

/// A symbol field of nine bytes, new or put right.
fn put_symbol(rng: &mut Rng, field: &mut [u8], fresh: bool) {
    let length = field[8] as usize;
    let right = (1..=8).contains(&length) && field[..length].iter().all(|b| symbol::allowed(*b)) && field[length..8].iter().all(|b| *b == 0);
    if fresh || !right {
        let text = if fresh { any_symbol(rng) } else { SYMBOLS[rng.below(SYMBOLS.len() - 1)].to_vec() };
        field.fill(0);
        field[..text.len()].copy_from_slice(&text);
        field[8] = text.len() as u8;
    }
}

fn sheet(rng: &mut Rng, bytes: &mut Vec<u8>, limit: usize) {
    const RECORD: usize = 24;
    if rng.chance(5) {
        return by_libfuzzer(bytes, limit);
    }
    let (mut orders, mut positions, mut failed) = (Vec::new(), Vec::new(), [0, 0]);
    if bytes.len() >= HEADER {
        let rest = &bytes[HEADER..];
        let (front, rest) = rest.split_at(RECORD * u32_at(bytes, 0).min(rest.len() / RECORD));
        orders = chunks(front, RECORD);
        positions = rest.chunks_exact(RECORD).map(<[u8]>::to_vec).collect();
        failed = [u32_at(bytes, 16), u32_at(bytes, 20)];
    }
    let repair = rng.chance(93);
    let order = |rng: &mut Rng, record: &mut Vec<u8>| match rng.below(4) {
        0 => put(record, 0, whole(rng)),
        1 => put(record, 8, rng.pick(&[0, 0, 1, 5, u64::MAX])),
        2 => put(record, 16, rng.below(6) as u64),
        _ => {
            by_libfuzzer(record, RECORD);
            record.resize(RECORD, 0);
        }
    };
    let position = |rng: &mut Rng, record: &mut Vec<u8>| match rng.below(3) {
        0 => put_symbol(rng, &mut record[..9], true),
        1 => put(record, 16, whole(rng)),
        _ => {
            by_libfuzzer(record, RECORD);
            record.resize(RECORD, 0);
        }
    };
    for _ in 0..rng.within(1, 2) {
        match rng.below(9) {
            0 => failed = [rng.below(2), rng.below(2)],
            1..=4 => table(
                rng,
                &mut orders,
                |rng| {
                    let mut record = vec![0; RECORD];
                    put(&mut record, 0, whole(rng));
                    put(&mut record, 8, rng.pick(&[0, 1, 5]));
                    put(&mut record, 16, rng.below(6) as u64);
                    record
                },
                order,
            ),
            _ => table(
                rng,
                &mut positions,
                |rng| {
                    let mut record = vec![0; RECORD];
                    put_symbol(rng, &mut record[..9], true);
                    put(&mut record, 16, whole(rng));
                    record
                },
                position,
            ),
        }
    }
    if repair {
        for record in &mut orders {
            let state = (record[16] % 6) as u64;
            put(record, 16, state);
        }
        for record in &mut positions {
            put_symbol(rng, &mut record[..9], false);
            record[9..16].fill(0);
        }
        failed = [(failed[0] & 1).min((orders.is_empty()) as usize), (failed[1] & 1).min(positions.is_empty() as usize)];
    }
    orders.truncate(limit / 2 / RECORD);
    positions.truncate(limit / 2 / RECORD);
    let header = [orders.len(), HEADER, positions.len(), HEADER + RECORD * orders.len(), failed[0], failed[1]];
    *bytes = header.iter().flat_map(|n| (*n as u32).to_le_bytes()).collect();
    orders.iter().chain(&positions).for_each(|record| bytes.extend(record));
}

fn marks(rng: &mut Rng, bytes: &mut Vec<u8>) {
    if rng.chance(5) {
        return by_libfuzzer(bytes, MARKS + 8);
    }
    bytes.resize(MARKS, 0);
    for _ in 0..rng.within(1, 4) {
        match rng.below(7) {
            0 => put(bytes, 0, rng.within(1, 17) as u64),
            1 => put(bytes, 8 * rng.within(1, 3), whole(rng)),
            2 => bytes[32 + rng.below(10)] ^= 1,
            3 => {
                by_libfuzzer(bytes, MARKS);
                bytes.resize(MARKS, 0);
            }
            _ => {
                let at = 48 + 16 * rng.below(8);
                put(bytes, at, 1);
                put(bytes, at + 8, whole(rng));
            }
        }
    }
    if rng.chance(93) {
        let checkpoint = (bytes[0] as u64).clamp(1, 17);
        put(bytes, 0, checkpoint);
        bytes[32..42].iter_mut().for_each(|b| *b &= 1);
        bytes[42..48].fill(0);
        for last in bytes[48..].chunks_mut(16) {
            let some = (last[0] & 1) as u64;
            put(last, 0, some);
            if some == 0 {
                put(last, 8, 0);
            }
        }
    }
}

/// Records without a header, by width: orders, positions, or rows of targets and prices.
fn records(rng: &mut Rng, bytes: &mut Vec<u8>, width: usize, floats: bool, limit: usize) {
    if rng.chance(5) {
        return by_libfuzzer(bytes, limit);
    }
    let mut all: Vec<Vec<u8>> = bytes.chunks_exact(width).map(<[u8]>::to_vec).collect();
    let value = |rng: &mut Rng| if floats { float(rng) } else { whole(rng) };
    let filled = |rng: &mut Rng, record: &mut Vec<u8>| {
        let at = match width {
            ORDER => rng.pick(&[16, 24]),
            POSITION => rng.pick(&[16, 24]),
            _ => 16,
        };
        put(record, at, value(rng));
        if width == ORDER {
            record[9] = rng.within(0, 31) as u8;
            record[12..16].copy_from_slice(&(whole(rng) as u32).to_le_bytes());
            for text in [32, 40, 48] {
                // Now and then a reference that is inside only if its upper bytes go unread.
                let far = [rng.chance(4), rng.chance(4)].map(|far| if far { 1 << 16 } else { 0 });
                put_pair(record, text, rng.below(4) + far[0], rng.below(4) + far[1]);
            }
        }
    };
    let fresh = |rng: &mut Rng| {
        let mut record = vec![0; width];
        put_symbol(rng, &mut record[..9], true);
        filled(rng, &mut record);
        record
    };
    let altered = |rng: &mut Rng, record: &mut Vec<u8>| match rng.below(3) {
        0 => put_symbol(rng, &mut record[..9], true),
        1 => filled(rng, record),
        _ => {
            by_libfuzzer(record, width);
            record.resize(width, 0);
        }
    };
    for _ in 0..rng.within(1, 3) {
        table(rng, &mut all, fresh, altered);
    }
    // About as many records as a list of drift may have.
    if rng.chance(20) && limit >= width * (LIST + 1) && !all.is_empty() {
        let count = rng.within(LIST - 1, LIST + 1);
        all = all.iter().cycle().take(count).cloned().collect();
    }
    all.truncate(limit / width);
    if rng.chance(95) {
        for record in &mut all {
            put_symbol(rng, &mut record[..9], false);
            if width == ORDER {
                record[9] &= 31;
                record[10..12].fill(0);
                record[56..].fill(0);
                for (flag, at) in [(HAS_ID, 40), (HAS_REASON, 48)] {
                    if record[9] & flag == 0 {
                        put(record, at, 0);
                    }
                }
            } else {
                record[9..16].fill(0);
            }
        }
    }
    *bytes = all.concat();
}

fn slice(rng: &mut Rng, name: &str, bytes: &mut Vec<u8>, limit: usize) {
    match name {
        "orders" => records(rng, bytes, ORDER, false, limit),
        "positions" => records(rng, bytes, POSITION, false, limit),
        "targets" => records(rng, bytes, 24, true, limit),
        "prices" => records(rng, bytes, 24, false, limit),
        "marks" => marks(rng, bytes),
        "sheet" => sheet(rng, bytes, limit),
        "queries" if rng.chance(70) => {
            let byte = rng.pick(&[0, 0, 0, 1, 2]);
            bytes.insert(rng.below(bytes.len() + 1), byte);
        }
        "window" if rng.chance(70) => *bytes = rng.pick(&TEXTS).to_vec(),
        _ if name.ends_with("book") => book(rng, bytes, limit),
        _ => by_libfuzzer(bytes, limit.min(256)),
    }
}

/// Bytes of a kind with nothing in them.
fn empty(name: &str) -> Vec<u8> {
    match name {
        "marks" => Marks::begin(0).bytes(),
        "sheet" => Sheet::default().bytes(),
        _ if name.ends_with("book") => Book::default().bytes(),
        _ => Vec::new(),
    }
}

fn kind(name: &str) -> &str {
    name.rsplit(' ').next().unwrap_or(name)
}

/// The input at another entry, with the slices and numbers that it has of the same kinds.
fn at_entry(input: &mut Input, entry: usize) {
    let (before, after) = (&entries()[input.entry], &entries()[entry]);
    let mut used = vec![false; input.slices.len()];
    let slices = after.inputs.iter().map(|name| {
        let same = |i: &usize| kind(before.inputs[*i]) == kind(name);
        let place = (0..used.len()).find(|i| !used[*i] && same(i)).or_else(|| (0..used.len()).find(same));
        place.map_or_else(|| empty(name), |i| {
            used[i] = true;
            input.slices[i].clone()
        })
    });
    input.slices = slices.collect();
    input.numbers.resize(after.numbers.len(), 1);
    input.entry = entry;
}

fn number(rng: &mut Rng, name: &str) -> u64 {
    match name {
        "time" | "at" if rng.chance(80) => rng.pick(&[0, 1, 1_767_225_600_000, LAST_TIME as u64]),
        "k" if rng.chance(85) => rng.pick(&[0, 0, 1, 1, 2, 3]),
        "next" if rng.chance(85) => rng.below(8) as u64,
        "value" | "scale" | "number" => float(rng),
        _ => whole(rng),
    }
}

fn altered(rng: &mut Rng, input: &mut Input, limit: usize) {
    let entry = &entries()[input.entry];
    match rng.below(20) {
        0 => at_entry(input, rng.below(entries().len())),
        1 => {
            input.pick = rng.next() as u8;
            input.room = rng.pick(&[0, 16, 24, 32, 48, 64, 128, 200, 1024]) + if rng.chance(30) { rng.below(64) as u16 } else { 0 };
        }
        2 | 3 if !entry.numbers.is_empty() => {
            let i = rng.below(entry.numbers.len());
            input.numbers[i] = number(rng, entry.numbers[i]);
        }
        // The second of two states becomes the first, or the first but for one slice.
        4..=7 if input.slices.len() == 8 => {
            let (first, second) = input.slices.split_at_mut(4);
            second.clone_from_slice(first);
            if rng.chance(25) {
                let mut tables = Tables::of(&second[0]);
                let front = tables.text.len().min(12);
                tables.text.iter_mut().skip(rng.below(front)).take(1).for_each(|byte| *byte ^= 1);
                second[0] = tables.bytes();
            } else if rng.chance(80) {
                let i = 4 + rng.below(4);
                slice(rng, kind(entry.inputs[i]), &mut input.slices[i], limit);
            }
        }
        _ if !entry.inputs.is_empty() => {
            let i = rng.below(entry.inputs.len());
            slice(rng, kind(entry.inputs[i]), &mut input.slices[i], limit);
        }
        _ => {
            let i = rng.below(entry.numbers.len());
            input.numbers[i] = number(rng, entry.numbers[i]);
        }
    }
}

/// As many bytes of an input as there is room for.
fn stored(input: &Input, bytes: &mut [u8]) -> usize {
    let encoded = input.encode();
    let size = encoded.len().min(bytes.len());
    bytes[..size].copy_from_slice(&encoded[..size]);
    size
}

pub fn mutated(bytes: &mut [u8], size: usize, seed: u32) -> usize {
    let rng = &mut Rng::new("mutate", seed as u64, size as u64);
    let limit = if rng.below(LARGER) == 0 { bytes.len() } else { USUAL.min(bytes.len()) };
    if rng.chance(2) {
        // Safe: the bytes are as many as is said.
        return unsafe { LLVMFuzzerMutate(bytes.as_mut_ptr(), size.min(limit), limit) };
    }
    let mut input = Input::decode(entries(), &bytes[..size]);
    let slices = input.slices.iter().filter(|slice| slice.len() > 256).count().max(1);
    for _ in 0..rng.within(1, 3) {
        altered(rng, &mut input, limit.saturating_sub(512) / slices);
    }
    stored(&input, &mut bytes[..limit])
}

/// The first input with slices of the second where they are of one kind.
pub fn crossed(a: &[u8], b: &[u8], out: &mut [u8], seed: u32) -> usize {
    let rng = &mut Rng::new("cross", seed as u64, a.len() as u64);
    let mut input = Input::decode(entries(), a);
    let mut other = Input::decode(entries(), b);
    at_entry(&mut other, input.entry);
    for (slice, from) in input.slices.iter_mut().zip(other.slices) {
        if rng.chance(50) {
            *slice = from;
        }
    }
    stored(&input, out)
}

//! Sheets, query lists and the rest of a log case, drawn from the same stock as the log.

use doc01::sheet::{SheetOrder, SheetPosition};
use doc01::{Sheet, Symbol, LAST_TIME};

use crate::events::{Maker, GOOD};
use crate::{LogCase, Rng};

fn symbol(maker: &mut Maker) -> Symbol {
    let drawn = maker.symbol();
    let text = if maker.rng.chance(80) { drawn } else { maker.rng.pick(&GOOD) };
    Symbol::of(text.as_bytes()).unwrap_or_else(|| Symbol::of(b"UNKNOWN").expect("it parses"))
}

pub fn sheet(maker: &mut Maker, orders: usize, positions: usize) -> Sheet {
    let mut sheet = Sheet::default();
    for _ in 0..orders {
        let id = match maker.rng.below(8) {
            0 => maker.id() as u64,
            1 => maker.rng.next(),
            2 => maker.rng.below(4) as u64,
            _ => maker.id() as i32 as i64 as u64,
        };
        let remaining = maker.rng.pick(&[0, 0, 1, 5, 100, u64::MAX]);
        sheet.orders.push(SheetOrder { id, remaining, state: maker.rng.below(6) as u32 });
    }
    for _ in 0..positions {
        let position = SheetPosition { symbol: symbol(maker), quantity: maker.quantity() };
        sheet.positions.push(position);
    }
    if maker.rng.chance(8) {
        sheet.orders.clear();
        sheet.orders_failed = true;
    }
    if maker.rng.chance(8) {
        sheet.positions.clear();
        sheet.positions_failed = true;
    }
    sheet
}

pub fn queries(rng: &mut Rng) -> Vec<u8> {
    let length = rng.pick(&[0, 1, 4, 5, 6, 8, 9, 10, 11, 14, 20, 30]);
    let answered = rng.pick(&[0, 15, 25, 50, 90, 100]);
    (0..length).map(|_| if rng.chance(answered) { 0 } else { rng.pick(&[1, 1, 2, 255]) }).collect()
}

fn time(rng: &mut Rng) -> i64 {
    if rng.chance(6) {
        return rng.pick(&[LAST_TIME + 1, -1, i64::MAX, i64::MIN]);
    }
    rng.pick(&[0, 1, LAST_TIME, LAST_TIME - 1, 1_700_000_000_000])
}

const AMPLE: usize = 1 << 21;

/// The case of a finished book: its sheet, queries, window, times, k and rooms.
pub fn case(maker: &mut Maker, sheet: Vec<u8>, queries: Vec<u8>) -> LogCase {
    let book = maker.book.bytes();
    let window = maker.window();
    let rng = &mut *maker.rng;
    let mut rooms = [AMPLE; 5];
    if rng.chance(25) {
        rooms = [
            rng.pick(&[0, 63, 64, 127, 128, 129, 192, 256, 65_536]),
            rng.pick(&[0, 31, 32, 64, 65, 96, 160, 65_536]),
            rng.pick(&[0, 47, 48, 96, 97, 144, 240, 65_536]),
            rng.pick(&[0, 23, 24, 280, 299, 300, 301, 600, 65_536]),
            book.len() + rng.pick(&[0, 24, 240, 260, 290, 300, 600, 65_536]),
        ];
    }
    LogCase { book, sheet, queries, window, time: time(rng), entry_time: time(rng), k: rng.pick(&[0, 0, 0, 0, 1, 1, 2, 3, 4, u64::MAX]), rooms }
}

pub fn ordinary(maker: &mut Maker) -> LogCase {
    let (orders, positions) = (maker.rng.pick(&[0, 0, 1, 2, 4]), maker.rng.pick(&[0, 0, 1, 2, 4]));
    let sheet = sheet(maker, orders, positions).bytes();
    let queries = queries(maker.rng);
    case(maker, sheet, queries)
}

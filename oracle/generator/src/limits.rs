//! Logs near the limits: 4,096 events or rows, 1,048,576 bytes, 1,024 sheet records, numbers near 2^64.

use doc01::book::{Cell, Event, Row, TextRef, CLIENT, EVENT, HEADER, LIMIT, MAX_BYTES, ORDERS, POSITIONS, ROW, SHARES, SYMBOL, ACTION};

use crate::events::Maker;
use crate::{sheets, LogCase, Rng};

/// A symbol of its own for each number.
fn symbol(number: usize) -> String {
    format!("S{number}")
}

fn rows(maker: &mut Maker, count: usize) {
    let symbols: Vec<TextRef> = (0..count.min(1500)).map(|i| maker.text(&symbol(i))).collect();
    let action = maker.text("BUY");
    for i in 0..count {
        let symbol = symbols[i % symbols.len()];
        maker.book.rows.push(Row {
            cells: [Cell::Text(symbol), Cell::Text(action), Cell::Int(i as i64 % 7 - 3), Cell::Float(i as f64 / 8.0)],
        });
    }
}

fn named(maker: &mut Maker, name: TextRef, number: u64) -> Event {
    Event { name, number: Some(number), time: maker.event_time(), cells: [Cell::None; 13] }
}

pub fn limits(rng: &mut Rng) -> LogCase {
    let mut maker = Maker::new(rng);
    let shape = maker.rng.below(8);
    // 4,096 events leave 65,512 bytes for rows and text.
    let (events, row_count) = match shape {
        0 => (maker.rng.within(4_090, 4_098), maker.rng.within(0, 300)),
        1 => (maker.rng.within(4_090, 4_098), 0),
        2 => (maker.rng.within(2, 40), maker.rng.within(4_094, 4_098)),
        3 => (maker.rng.within(1_000, 4_000), maker.rng.within(0, 100)),
        4 => (maker.rng.within(3, 12), maker.rng.within(1_020, 1_030)),
        // More intents than an addendum's bytes can settle as not found.
        5 => (maker.rng.within(3_780, 4_096), 0),
        // The desk's 65,536 bytes.
        _ => {
            let events = maker.rng.pick(&[4, 8, 60, 200]);
            (events, maker.rng.below((DESK - 6_000 - EVENT * events) / (ROW + 6)))
        }
    };
    rows(&mut maker, row_count);
    let names = ["run_started", "positions_intent", "positions_result", "diff_computed", "risk_check_passed", "order_intent"];
    let names: Vec<TextRef> = names.iter().map(|n| maker.text(n)).collect();
    let others: Vec<TextRef> =
        ["order_submitted", "order_failed", "quotes_intent", "note"].iter().map(|n| maker.text(n)).collect();
    let reuse = if shape == 5 { 4_096 } else { maker.rng.pick(&[1, 3, 50, 500]) };
    let intents = if shape == 5 { 100 } else { 70 };
    let symbols: Vec<TextRef> = (0..reuse).map(|i| maker.text(&symbol(i))).collect();
    let id = maker.text("c");
    let mut number = maker.rng.pick(&[1, u64::MAX - 5_000, u64::MAX - events as u64, u64::MAX - events as u64 - 1]);
    for i in 0..events {
        let name = if i < 5 { names[i] } else if maker.rng.chance(intents) { names[5] } else { maker.rng.pick(&others) };
        let mut event = named(&mut maker, name, number);
        number = number.saturating_add(1);
        let whole = Cell::List { first: 0, count: row_count as u32 };
        let symbol = symbols[i % symbols.len()];
        match i {
            2 => event.cells[POSITIONS] = whole,
            3 => event.cells[ORDERS] = if maker.rng.chance(60) { whole } else { Cell::List { first: 0, count: 0 } },
            _ => {}
        }
        if i >= 5 {
            event.cells[SYMBOL] = Cell::Text(symbol);
            event.cells[ACTION] = Cell::Text(id);
            event.cells[SHARES] = Cell::Int(1);
            event.cells[LIMIT] = Cell::Int(2);
            event.cells[CLIENT] = Cell::Text(id);
        }
        maker.book.events.push(event);
    }
    pad(&mut maker, if shape > 5 { DESK } else { MAX_BYTES });
    let (orders, positions) = match maker.rng.below(4) {
        0 => (maker.rng.within(1_022, 1_026), maker.rng.below(3)),
        1 => (maker.rng.below(3), maker.rng.within(1_022, 1_026)),
        2 => (maker.rng.within(340, 1_024), maker.rng.within(340, 1_024)),
        _ => (2, 2),
    };
    let mut sheet = sheets::sheet(&mut maker, orders, positions);
    if maker.rng.chance(50) {
        sheet.orders.iter_mut().for_each(|o| o.remaining = 0);
    }
    let mut sheet = sheet.bytes();
    if maker.rng.chance(10) {
        crate::damaged::damage_sheet(maker.rng, &mut sheet);
    }
    let queries = if maker.rng.chance(50) { vec![0; 8_000] } else { sheets::queries(maker.rng) };
    sheets::case(&mut maker, sheet, queries)
}

/// The most bytes of the desk program's files.
const DESK: usize = 65_536;

/// Text that nothing refers to, so that the book ends near the largest size.
fn pad(maker: &mut Maker, largest: usize) {
    let length = HEADER + EVENT * maker.book.events.len() + ROW * maker.book.rows.len() + maker.book.text.len();
    if maker.rng.chance(50) && length < largest {
        let most = largest - length;
        let by = maker.rng.pick(&[most, most + 1, most.saturating_sub(1)]);
        maker.book.text.extend(vec![b'.'; by]);
    }
}

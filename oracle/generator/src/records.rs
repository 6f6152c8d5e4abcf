//! Lent states that no log need give: marks and records of any values, some with a layout fault, and a second state that is
//! equal to the first or differs in one place.

use doc01::records::{order_bytes, position_bytes, HAS_ID, HAS_REASON, MARKS, ORDER, POSITION};
use doc01::{Book, Marks, Order, Position, Symbol, TextRef, LAST_TIME};

use crate::events::Maker;
use crate::{sheets, RecordsCase, Rng, Side};

fn marks(maker: &mut Maker) -> Marks {
    let quantity = maker.quantity();
    let rng = &mut *maker.rng;
    let mut marks = Marks::begin((rng.next() % (LAST_TIME as u64 + 1)) as i64);
    marks.checkpoint = rng.within(1, 17) as u32;
    marks.number = rng.pick(&[0, 1, 6, u64::MAX, u64::MAX - 1, u64::MAX - 3, 1 << 63, 100]);
    marks.equity = quantity;
    marks.completed = rng.chance(10);
    marks.cancel_failed = rng.chance(10);
    for i in 0..8 {
        marks.logged[i] = rng.chance(50);
        marks.last[i] = rng.chance(50).then_some(rng.pick(&[0, 1, 2, 3, u64::MAX]));
    }
    marks
}

/// A reference into the text, now and then past its end.
fn reference(rng: &mut Rng, text: usize) -> TextRef {
    let first = rng.below(text + 1);
    let length = rng.below((text - first).min(12) + 1);
    if rng.chance(2) {
        return TextRef { first: (text - length + 1) as u32, length: length as u32 };
    }
    TextRef { first: first as u32, length: length as u32 }
}

fn symbol(maker: &mut Maker) -> Symbol {
    Symbol::of(maker.symbol().as_bytes()).unwrap_or_else(|| Symbol::of(b"UNKNOWN").expect("it parses"))
}

fn order(maker: &mut Maker) -> Order {
    let text = maker.book.text.len();
    let symbol = symbol(maker);
    let (ibkr_id, shares, limit) = (maker.id() as i32, maker.quantity(), maker.quantity());
    let rng = &mut *maker.rng;
    let flags = if rng.chance(40) { HAS_ID } else { rng.below(32) as u8 };
    let text_if = |rng: &mut Rng, flag: u8| {
        if flags & flag != 0 {
            reference(rng, text)
        } else {
            TextRef::default()
        }
    };
    let (client, reason) = (text_if(rng, HAS_ID), text_if(rng, HAS_REASON));
    Order { symbol, flags, ibkr_id, shares, limit, action: reference(rng, text), client, reason }
}

/// The same state over a text that begins with some bytes more.
fn moved(rng: &mut Rng, side: &Side, orders: &[Order]) -> Side {
    let by = rng.below(4);
    let mut book = Book::parse(&side.book).expect("it is well formed");
    book.text.splice(0..0, vec![b'#'; by]);
    let shift = |t: TextRef| TextRef { first: t.first.wrapping_add(by as u32), length: t.length };
    let shift_if = |o: &Order, flag: u8, t: TextRef| if o.flags & flag != 0 { shift(t) } else { t };
    let orders: Vec<Order> = orders
        .iter()
        .map(|o| Order {
            action: shift(o.action),
            client: shift_if(o, HAS_ID, o.client),
            reason: shift_if(o, HAS_REASON, o.reason),
            ..*o
        })
        .collect();
    Side { book: book.bytes(), marks: Marks { time: 1, ..side.marks }, orders: order_bytes(&orders), positions: side.positions.clone() }
}

/// One byte of a record, or the lists' lengths.
fn damage(rng: &mut Rng, side: &mut Side) {
    let orders = rng.chance(70);
    let (list, width) = if orders { (&mut side.orders, ORDER) } else { (&mut side.positions, POSITION) };
    match rng.below(6) {
        0 => list.push(0),
        1 => drop(list.pop()),
        _ if !list.is_empty() => {
            let record = width * rng.below(list.len() / width);
            let at = match rng.below(4) {
                0 => rng.below(16),
                1 if orders => rng.within(40, 63),
                _ => rng.below(width),
            };
            list[record + at] = match rng.below(3) {
                0 => rng.pick(&[0, 1, 9, 32, b'A', 255]),
                _ => list[record + at] ^ 1 << rng.below(8),
            };
        }
        _ => {}
    }
}

/// One mark changed.
fn other_marks(rng: &mut Rng, marks: &Marks) -> Marks {
    let mut bytes = marks.bytes();
    loop {
        let at = rng.below(MARKS);
        bytes[at] ^= 1 << rng.below(3);
        if let Some(changed) = Marks::parse(&bytes) {
            return changed;
        }
        bytes = marks.bytes();
    }
}

pub fn records(rng: &mut Rng) -> RecordsCase {
    let mut maker = Maker::new(rng);
    for word in ["BUY", "c-1", "rejected", "c-1"] {
        maker.text(word);
    }
    let orders: Vec<Order> = (0..maker.rng.below(6)).map(|_| order(&mut maker)).collect();
    let positions: Vec<Position> = (0..maker.rng.below(5))
        .map(|_| Position { symbol: symbol(&mut maker), quantity: maker.quantity(), cost: maker.quantity() })
        .collect();
    let mut first = Side {
        book: maker.book.bytes(),
        marks: marks(&mut maker),
        orders: order_bytes(&orders),
        positions: position_bytes(&positions),
    };
    let (sheet_orders, sheet_positions) = (maker.rng.below(4), maker.rng.below(4));
    let sheet = sheets::sheet(&mut maker, sheet_orders, sheet_positions).bytes();
    let queries = sheets::queries(maker.rng);
    let rng = &mut *maker.rng;
    let mut second = moved(rng, &first, &orders);
    match rng.below(5) {
        0 => second.marks = other_marks(rng, &second.marks),
        1 => damage(rng, &mut second),
        2 => damage(rng, &mut first),
        _ => {}
    }
    let time = rng.pick(&[0, 1, LAST_TIME, 1_700_000_000_000, 5, LAST_TIME + 1]);
    let rooms = if rng.chance(20) { [rng.pick(&[0, 47, 48, 96, 144]), rng.pick(&[0, 23, 24, 280, 300, 600])] } else { [1 << 21; 2] };
    RecordsCase { first, second, sheet, queries, time, rooms }
}

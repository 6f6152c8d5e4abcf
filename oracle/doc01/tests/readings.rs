//! Readings of document 01 as facts: which bytes are refused by which number.

use doc01::book::*;
use doc01::drift;
use doc01::join::join;
use doc01::records::{self, equal, Marks, Order, State, HAS_ID};
use doc01::sheet::{Sheet, SheetOrder, SheetPosition};
use doc01::{Position, Symbol, LAST_TIME};

fn text(first: u32, length: u32) -> TextRef {
    TextRef { first, length }
}

/// One event with every kind of cell, one row, three bytes of text.
fn book() -> Book {
    let mut cells = [Cell::None; 13];
    cells[SYMBOL] = Cell::Text(text(0, 3));
    cells[SHARES] = Cell::Int(-1);
    cells[IBKR] = Cell::Big(1 << 63);
    cells[LIMIT] = Cell::Float(-0.0);
    cells[SUCCESS] = Cell::Truth(true);
    cells[ORDERS] = Cell::List { first: 0, count: 1 };
    cells[WINDOW] = Cell::Text(text(3, 0));
    let event = Event { name: text(1, 2), number: Some(0), time: LAST_TIME, cells };
    Book { events: vec![event], rows: vec![Row { cells: [Cell::None; 4] }], text: b"abc".to_vec() }
}

const AT: usize = HEADER;
const ROW_AT: usize = HEADER + EVENT;

/// The refusal of the book's bytes after a change.
fn refused(change: impl Fn(&mut Vec<u8>)) -> Option<u32> {
    let mut bytes = book().bytes();
    change(&mut bytes);
    Book::parse(&bytes).err()
}

fn put32(bytes: &mut [u8], at: usize, value: u32) {
    bytes[at..at + 4].copy_from_slice(&value.to_le_bytes());
}

fn put64(bytes: &mut [u8], at: usize, value: u64) {
    bytes[at..at + 8].copy_from_slice(&value.to_le_bytes());
}

/// Kind and payload of an event's cell.
fn cell(place: usize, kind: u8, payload: u64) -> Option<u32> {
    refused(|b| {
        b[AT + 32 + CELL * place] = kind;
        put64(b, AT + 40 + CELL * place, payload);
    })
}

#[test]
fn a_book_comes_back() {
    assert_eq!(Book::parse(&book().bytes()), Ok(book()));
    assert_eq!(Book::parse(&Book::default().bytes()), Ok(Book::default()));
}

#[test]
fn refusal_1_is_read_from_a_whole_header() {
    let mut header = vec![0; 24];
    put32(&mut header, 0, 4_097);
    assert_eq!(Book::parse(&header), Err(1));
    assert_eq!(Book::parse(&header[..23]), Err(2));
    put32(&mut header, 0, 4_096);
    assert_eq!(Book::parse(&header), Err(2));
    put32(&mut header, 8, 4_097);
    assert_eq!(Book::parse(&header), Err(1));
    assert_eq!(Book::parse(&vec![0; 1_048_577]), Err(1));
    assert_eq!(Book::parse(&vec![0; 1_048_576]), Err(2));
    assert_eq!(Book::parse(&[]), Err(2));
}

#[test]
fn tables_follow_without_gaps() {
    for at in [4, 12, 20] {
        let now = u32::from_le_bytes(book().bytes()[at..at + 4].try_into().expect("four bytes"));
        assert_eq!(refused(|b| put32(b, at, now + 1)), Some(2));
        assert_eq!(refused(|b| put32(b, at, now - 1)), Some(2));
    }
    assert_eq!(refused(|b| b.push(0)), Some(2));
    assert_eq!(refused(|b| drop(b.pop())), Some(2));
    assert_eq!(refused(|b| put32(b, 16, 2)), Some(2));
}

#[test]
fn events() {
    assert_eq!(refused(|b| put32(b, AT, 4)), Some(2));
    assert_eq!(refused(|b| (put32(b, AT, 3), put32(b, AT + 4, 0)).0), None);
    assert_eq!(refused(|b| (put32(b, AT, 4), put32(b, AT + 4, 0)).0), Some(2));
    assert_eq!(refused(|b| (put32(b, AT, u32::MAX), put32(b, AT + 4, 2)).0), Some(2));
    assert_eq!(refused(|b| put32(b, AT + 8, 2)), Some(2));
    assert_eq!(refused(|b| put32(b, AT + 8, 0)), None);
    assert_eq!(refused(|b| (put32(b, AT + 8, 0), put64(b, AT + 16, 1)).0), Some(2));
    assert_eq!(refused(|b| put32(b, AT + 12, 1)), Some(2));
    assert_eq!(refused(|b| put64(b, AT + 24, LAST_TIME as u64 + 1)), Some(2));
    assert_eq!(refused(|b| put64(b, AT + 24, u64::MAX)), Some(2));
}

#[test]
fn cells() {
    for place in 0..13 {
        let window = place == WINDOW;
        assert_eq!(cell(place, 0, 0), None);
        assert_eq!(cell(place, 0, 1), Some(2));
        assert_eq!(cell(place, 1, u64::MAX).is_some(), window);
        assert_eq!(cell(place, 2, 1 << 63).is_some(), window);
        assert_eq!(cell(place, 2, (1 << 63) - 1), Some(2));
        assert_eq!(cell(place, 3, f64::MAX.to_bits()).is_some(), window);
        assert_eq!(cell(place, 3, f64::INFINITY.to_bits()), Some(2));
        assert_eq!(cell(place, 3, f64::NAN.to_bits()), Some(2));
        assert_eq!(cell(place, 4, 3), None);
        assert_eq!(cell(place, 4, 4), Some(2));
        assert_eq!(cell(place, 4, 1 << 32 | 3), Some(2));
        assert_eq!(cell(place, 5, 1).is_some(), window);
        assert_eq!(cell(place, 5, 2), Some(2));
        assert_eq!(cell(place, 5, 256), Some(2));
        assert_eq!(cell(place, 6, 1).is_some(), window);
        assert_eq!(cell(place, 6, 2), Some(2));
        assert_eq!(cell(place, 6, 1 << 32 | 1), Some(2));
        assert_eq!(cell(place, 7, 0), Some(2));
        for zero in 1..8 {
            assert_eq!(refused(|b| b[AT + 32 + CELL * place + zero] = 1), Some(2));
        }
    }
    for place in 0..4 {
        let row = |kind: u8| refused(|b| b[ROW_AT + CELL * place] = kind);
        assert_eq!((0..8).map(row).collect::<Vec<_>>(), [None, None, Some(2), None, None, None, Some(2), Some(2)]);
    }
}

#[test]
fn sheets() {
    let symbol = Symbol::of(b"A.-9").expect("it parses");
    let sheet = Sheet {
        orders: vec![SheetOrder { id: u64::MAX, remaining: 0, state: 5 }],
        positions: vec![SheetPosition { symbol, quantity: i64::MIN }],
        ..Sheet::default()
    };
    let refused = |change: &dyn Fn(&mut Vec<u8>)| {
        let mut bytes = sheet.bytes();
        change(&mut bytes);
        Sheet::parse(&bytes).err()
    };
    assert_eq!(Sheet::parse(&sheet.bytes()), Ok(sheet.clone()));
    assert_eq!(refused(&|b| put32(b, 0, 1_025)), Some(1));
    assert_eq!(refused(&|b| put32(b, 8, 1_025)), Some(1));
    assert_eq!(refused(&|b| put32(b, 0, 1_024)), Some(2));
    assert_eq!(refused(&|b| put32(b, 16, 1)), Some(2));
    assert_eq!(refused(&|b| put32(b, 20, 2)), Some(2));
    assert_eq!(refused(&|b| put32(b, 24 + 16, 6)), Some(2));
    assert_eq!(refused(&|b| put32(b, 24 + 20, 1)), Some(2));
    assert_eq!(refused(&|b| b[48 + 8] = 0), Some(2));
    assert_eq!(refused(&|b| b[48 + 8] = 3), Some(2));
    assert_eq!(refused(&|b| b[48 + 8] = 5), Some(2));
    assert_eq!(refused(&|b| b[48 + 9] = 1), Some(2));
    assert_eq!(refused(&|b| b[48] = b'a'), Some(2));
    assert_eq!(Sheet::parse(&[]), Err(2));
    let failed = Sheet { orders_failed: true, positions_failed: true, ..Sheet::default() };
    assert_eq!(Sheet::parse(&failed.bytes()), Ok(failed));
}

fn order(flags: u8) -> Order {
    let symbol = Symbol::of(b"ABCDEFGH").expect("it parses");
    let absent = TextRef::default();
    Order { symbol, flags, ibkr_id: -1, shares: 1, limit: 2, action: text(7, 7), client: absent, reason: absent }
}

#[test]
fn lent_records() {
    let bytes = records::order_bytes(&[order(31)]);
    let refused = |at: usize, value: u8, flags: u8| {
        let mut bytes = records::order_bytes(&[order(flags)]);
        bytes[at] = value;
        records::orders(&bytes).err()
    };
    assert_eq!(records::orders(&bytes), Ok(vec![order(31)]));
    assert_eq!(records::orders(&bytes[..63]), Err(2));
    assert_eq!(refused(9, 32, 0), Some(2));
    assert_eq!(refused(10, 1, 0), Some(2));
    assert_eq!(refused(56, 1, 0), Some(2));
    assert_eq!(refused(40, 1, 0), Some(2));
    assert_eq!(refused(40, 1, 8), None);
    assert_eq!(refused(48, 1, 8), Some(2));
    assert_eq!(refused(48, 1, 16), None);
    assert_eq!(refused(32, 9, 0), None);
    let marks = Marks { checkpoint: 17, last: [Some(0); 8], ..Marks::begin(5) };
    assert_eq!(Marks::parse(&marks.bytes()), Some(marks));
    assert_eq!(marks.bytes().len(), records::MARKS);
}

#[test]
fn joining_moves_references() {
    let (a, b) = (book(), book());
    let joined = join(&a, &b, 1).expect("it joins");
    assert_eq!(joined.events[1].name, text(4, 2));
    assert_eq!(joined.events[1].cells[ORDERS], Cell::List { first: 1, count: 1 });
    assert_eq!(joined.events[1].cells[WINDOW], Cell::Text(text(6, 0)));
    assert_eq!(joined.text, b"abcabc");
    assert_eq!(Book::parse(&joined.bytes()), Ok(joined));
    assert_eq!(join(&a, &b, 2), Err(13));
    assert_eq!(join(&a, &Book::default(), 0), Ok(a.clone()));
    assert_eq!(join(&a, &b, 0).expect("it joins").text, b"abcabc");
    let full = Book { events: vec![a.events[0].clone(); 4_096], ..a.clone() };
    assert_eq!(join(&full, &b, 1), Err(1));
    assert_eq!(join(&full, &b, 0).map(|_| ()), Ok(()));
}

#[test]
fn equality_reads_an_absent_text_as_empty() {
    let book = book();
    let state = |flags: u8, client: TextRef, time: i64| {
        let order = Order { client, action: text(0, 1), ..order(flags) };
        State { marks: Marks::begin(time), orders: vec![order], positions: Vec::new() }
    };
    let absent = state(0, TextRef::default(), 1);
    assert!(equal(&book, &absent, &book, &state(HAS_ID, text(2, 0), 2)));
    assert!(!equal(&book, &absent, &book, &state(HAS_ID, text(2, 1), 1)));
    assert!(!equal(&book, &absent, &book, &state(1, TextRef::default(), 1)));
}

#[test]
fn drift_rows() {
    let symbol = Symbol::of(b"A").expect("it parses");
    let held = |quantity| Position { symbol, quantity, cost: 0 };
    assert_eq!(drift::limit(&vec![0; 24 * 1_024 + 23], 24), Ok(()));
    assert_eq!(drift::limit(&vec![0; 24 * 1_025], 24), Err(1));
    assert_eq!(drift::weights(&[(symbol, 1_000.0), (symbol, -1_000.0)]), Ok(()));
    assert_eq!(drift::weights(&[(symbol, f64::NAN), (symbol, 1.0)]), Err(11));
    assert_eq!(drift::held(&[held(9), held(2)], &[(symbol, 7), (symbol, 5)]), Ok(10));
    assert_eq!(drift::held(&[held(2)], &[(symbol, 5), (symbol, 0)]), Ok(0));
    assert_eq!(drift::held(&[held(1 << 62)], &[(symbol, 4)]), Err(12));
}

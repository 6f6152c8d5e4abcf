//! Document 01's reference sequence M1 to M12 and the examples of its table, with what the original answers.

use doc01::book::{Book, Cell, Row, CLIENT, IBKR, LIMIT, ORDERS, POSITIONS, SHARES, SYMBOL, ACTION};
use doc01::entries::{addendum, Entry, Value};
use doc01::sheet::{SheetOrder, SheetPosition};
use doc01::{Position, Sheet, Symbol, TextRef};

use generator::{Case, FixedCase, LogCase};

use crate::{desk, judge, original, Recovered};

/// An event by name, number and cells.
pub(crate) fn event(name: &str, number: Option<u64>, cells: &[(usize, Value)]) -> Entry {
    let mut entry = Entry { name: name.as_bytes().to_vec(), number, cells: [const { Value::None }; 13] };
    for (place, value) in cells {
        entry.cells[*place] = value.clone();
    }
    entry
}

pub(crate) fn text(text: &str) -> Value {
    Value::Text(text.as_bytes().to_vec())
}

/// A book of these events.
pub(crate) fn book(events: &[Entry]) -> Book {
    addendum(events, 0)
}

/// Rows of a symbol, an integer and a float, as a list in a cell of an event.
pub(crate) fn with_list(mut book: Book, event: usize, cell: usize, rows: &[(&str, i64, f64)]) -> Book {
    let first = book.rows.len() as u32;
    for (symbol, whole, money) in rows {
        let at = TextRef { first: book.text.len() as u32, length: symbol.len() as u32 };
        book.text.extend(symbol.as_bytes());
        book.rows.push(Row { cells: [Cell::Text(at), Cell::None, Cell::Int(*whole), Cell::Float(*money)] });
    }
    book.events[event].cells[cell] = Cell::List { first, count: rows.len() as u32 };
    book
}

pub(crate) fn named(names: &[(&str, u64)]) -> Book {
    book(&names.iter().map(|(name, number)| event(name, Some(*number), &[])).collect::<Vec<_>>())
}

/// The desk program's example.
pub fn desk_book() -> Book {
    let book = named(&[("run_started", 1), ("positions_intent", 2), ("positions_result", 3), ("diff_computed", 4)]);
    with_list(book, 3, ORDERS, &[])
}

pub(crate) fn recovered(book: &Book) -> Recovered {
    original::recover(book, 0).expect("the original recovers")
}

/// One order, submitted with an id and then filled with another.
fn fill_book(submitted: Option<i64>, fill: i64) -> Book {
    let mut events = vec![event("diff_computed", Some(1), &[])];
    if let Some(id) = submitted {
        events.push(event("order_submitted", Some(2), &[(SYMBOL, text("AAPL")), (IBKR, Value::Int(id))]));
    }
    events.push(event("order_filled", Some(3), &[(IBKR, Value::Int(fill))]));
    with_list(book(&events), 0, ORDERS, &[("AAPL", 10, 1.0)])
}

/// The order's id and flags.
fn filled(submitted: Option<i64>, fill: i64) -> (i32, u8) {
    let order = recovered(&fill_book(submitted, fill)).state.orders[0];
    (order.ibkr_id, order.flags)
}

/// A log with last number 6 and two intents.
pub fn two_intents() -> Book {
    let intent = |symbol: &str, number| {
        let cells = [
            (SYMBOL, text(symbol)),
            (ACTION, text("BUY")),
            (SHARES, Value::Int(5)),
            (LIMIT, Value::Float(1.0)),
            (CLIENT, text("c")),
        ];
        event("order_intent", Some(number), &cells)
    };
    book(&[
        event("run_started", Some(1), &[]),
        event("positions_intent", Some(2), &[]),
        event("positions_result", Some(3), &[]),
        event("diff_computed", Some(4), &[]),
        intent("AAPL", 5),
        intent("MSFT", 6),
    ])
}

/// Sheet orders 77 (0 left) and 78 (5 left).
pub(crate) fn two_orders() -> Sheet {
    let order = |id, remaining| SheetOrder { id, remaining, state: 1 };
    Sheet { orders: vec![order(77, 0), order(78, 5)], ..Sheet::default() }
}

/// Entries as number, symbol and id, and the unreached count.
fn reconciled(queries: &[u8]) -> String {
    let reconciled = original::reconcile(&recovered(&two_intents()).state, &two_orders(), queries);
    let entry = |e: &Entry| {
        let symbol = match &e.cells[SYMBOL] {
            Value::Text(t) => String::from_utf8_lossy(t).into_owned(),
            other => format!("{other:?}"),
        };
        format!("{} {} {:?}", e.number.unwrap_or(0), symbol, e.cells[IBKR])
    };
    let entries: Vec<String> = reconciled.entries.iter().map(entry).collect();
    format!("{}; unreached {:?}", entries.join(", "), reconciled.unreached)
}

/// A log with a recovered position and a sheet with the broker's, each if any.
fn held(recovered_quantity: Option<i64>, broker: Option<i64>) -> (Book, Sheet) {
    let rows: Vec<(&str, i64, f64)> = recovered_quantity.map(|q| ("AAPL", q, 1.0)).into_iter().collect();
    let book = with_list(named(&[("positions_result", 1)]), 0, POSITIONS, &rows);
    let symbol = Symbol::of(b"AAPL").expect("it parses");
    let positions = broker.map(|quantity| SheetPosition { symbol, quantity }).into_iter().collect();
    (book, Sheet { positions, ..Sheet::default() })
}

/// The report's kinds.
fn positions(recovered_quantity: Option<i64>, broker: Option<i64>) -> String {
    let (book, sheet) = held(recovered_quantity, broker);
    let report = original::compare(&recovered(&book).state, &sheet).expect("a report");
    format!("{:?}", report.iter().map(|d| d.kind).collect::<Vec<_>>())
}

/// The books of the table's refusals 3 to 7.
fn two_rows() -> Book {
    with_list(named(&[("diff_computed", 1)]), 0, ORDERS, &[("A", 1, 1.0), ("B", 1, 1.0)])
}

fn unnumbered() -> Book {
    book(&[event("run_started", None, &[])])
}

fn level() -> Book {
    named(&[("run_started", 4), ("positions_intent", 4)])
}

fn early_diff() -> Book {
    named(&[("run_started", 1), ("diff_computed", 2), ("positions_intent", 3), ("positions_result", 4)])
}

/// M7: the desk program's book with orders none.
fn orders_none() -> Book {
    let mut book = desk_book();
    book.events[3].cells[ORDERS] = Cell::None;
    book
}

/// The sequence and the table's examples as cases for the recorded list.
pub fn cases() -> Vec<Case> {
    let two63 = 9_223_372_036_854_775_808.0f64;
    let log = |book: Book, sheet: Sheet, queries: &[u8], k: u64| {
        let rooms = [64, 1 << 16, 1 << 16, 1 << 16, 1 << 16];
        let (book, sheet, queries, window) = (book.bytes(), sheet.bytes(), queries.to_vec(), b"w1".to_vec());
        Case::Log(LogCase { book, sheet, queries, window, time: 0, entry_time: 1, k, rooms })
    };
    let fixed = |value: f64, scale: f64| Case::Fixed(FixedCase { value: value.to_bits(), scale: scale.to_bits() });
    let mut out = vec![
        fixed(0.125, 100.0),
        fixed(-0.125, 100.0),
        fixed(-two63, 1.0),
        fixed(two63, 1.0),
        fixed(0.49999999999999994, 1.0),
        fixed(f64::NAN, 1.0),
    ];
    let books = [
        desk_book(),
        orders_none(),
        fill_book(Some(4_294_967_297), 4_294_967_297),
        fill_book(Some(4_294_967_297), 1),
        fill_book(None, 0),
        two_rows(),
        unnumbered(),
        level(),
        Book::default(),
        early_diff(),
        named(&[("run_started", u64::MAX)]),
        named(&[("run_started", u64::MAX - 1)]),
    ];
    out.extend(books.map(|b| log(b, Sheet::default(), &[], 0)));
    for queries in [&[0, 0][..], &[1, 1, 1, 1, 1, 0], &[1, 1, 1, 1, 0, 0]] {
        out.push(log(two_intents(), two_orders(), queries, 1));
    }
    for (recovered, broker) in [(Some(0), None), (None, Some(0))] {
        let (book, sheet) = held(recovered, broker);
        out.push(log(book, sheet, &[], 1));
    }
    out
}

/// Lines printed so far, and whether every answer was the one due.
pub(crate) struct Lines(pub bool);

impl Lines {
    /// `who` says whose answer it is.
    pub(crate) fn line(&mut self, name: &str, who: &str, answer: impl std::fmt::Debug, due: impl std::fmt::Debug) {
        let (answer, due) = (format!("{answer:?}"), format!("{due:?}"));
        let same = answer == due;
        self.0 &= same;
        println!("{name} {} {who}: {answer}{}", if same { "as written" } else { "DIFFERS" }, if same { String::new() } else { format!(", due {due}") });
    }
}

/// Prints each line; true if every answer is the one that document 01 writes.
pub fn print() -> Result<bool, String> {
    let mut out = Lines(true);
    let two63 = 9_223_372_036_854_775_808.0f64;
    let fixed = |value: f64, scale: f64| original::fixed(value.to_bits(), scale.to_bits());
    let cents = |value: f64| original::cents(value.to_bits());
    let rust = "the original";
    let paper = "document 01 alone";
    out.line("M1", rust, cents(0.125), Ok::<_, ()>(Ok::<_, ()>(13)));
    out.line("M2", rust, cents(-0.125), Ok::<_, ()>(Ok::<_, ()>(-13)));
    out.line("M3", rust, fixed(-two63, 1.0), Ok::<_, ()>(Ok::<_, ()>(i64::MIN)));
    out.line("M4", rust, fixed(two63, 1.0), Ok::<_, ()>(Err::<(), _>(10)));
    out.line("M5", rust, fixed(0.49999999999999994, 1.0), Ok::<_, ()>(Ok::<_, ()>(0)));
    out.line("M6", rust, original::verdict(&desk_book()), Ok::<_, ()>((0, 0, 0)));
    let reply = "verdict 0 0 0\naction Restart\nlast DiffComputed 4\norders 0\npositions 0\nreport 0\n";
    let sheet = Sheet::default().bytes();
    out.line("M6 reply", "the original in document 01's form", desk::reply(Some(&desk_book().bytes()), Some(&sheet)), reply);
    out.line("M7", rust, original::verdict(&orders_none()), Ok::<_, ()>((6, 0, 6)));
    out.line("M8 filled 4,294,967,297: id, flags", rust, filled(Some(4_294_967_297), 4_294_967_297), (1, 1));
    out.line("M8 filled 1: id, flags", rust, filled(Some(4_294_967_297), 1), (1, 3));
    out.line("M9 filled 0: id, flags", rust, filled(None, 0), (0, 2));
    out.line("M10", rust, reconciled(&[0, 0]), "7 AAPL Int(78), 8 MSFT Int(78); unreached Ok(0)");
    out.line("M11", rust, reconciled(&[1, 1, 1, 1, 1, 0]), "7 MSFT Int(78); unreached Ok(1)");
    out.line("M11 with 1,1,1,1,0,0", rust, reconciled(&[1, 1, 1, 1, 0, 0]), "7 AAPL Int(78), 8 MSFT Int(78); unreached Ok(0)");
    out.line("M12 recovered 0, broker without", rust, positions(Some(0), None), "[4]");
    out.line("M12 the reverse", rust, positions(None, Some(0)), "[]");

    let mut many = vec![0; 24];
    many[..4].copy_from_slice(&4_097u32.to_le_bytes());
    out.line("table 1", paper, Book::parse(&many).map(|_| ()), Err::<(), _>(1));
    out.line("table 2", paper, Book::parse(&[]).map(|_| ()), Err::<(), _>(2));
    out.line("table 3", paper, judge::reconstruct_state(&two_rows().bytes(), 0, 64, 64).map(|_| ()), Err::<(), _>(3));
    out.line("table 4", rust, original::verdict(&unnumbered()), Ok::<_, ()>((4, 1, 0)));
    out.line("table 5", rust, original::verdict(&level()), Ok::<_, ()>((5, 2, 0)));
    out.line("table 6", rust, original::verdict(&Book::default()), Ok::<_, ()>((6, 0, 1)));
    out.line("table 7", rust, original::verdict(&early_diff()), Ok::<_, ()>((7, 0, 5)));
    let full = recovered(&named(&[("run_started", u64::MAX)])).state;
    let judged = judge::reconcile_incomplete_intents(&full.marks, &[], &sheet, &[], 0, 1 << 20);
    out.line("table 8", paper, judged.map(|_| ()), Err::<(), _>(8));
    let panics = original::reconcile(&full, &Sheet::default(), &[]).unreached.is_err();
    out.line("table 8 panics", rust, panics, true);
    out.line("table 9", rust, fixed(f64::NAN, 1.0), Ok::<_, ()>(Err::<(), _>(9)));
    out.line("table 10", rust, fixed(two63, 1.0), Ok::<_, ()>(Err::<(), _>(10)));
    let symbol = Symbol::of(b"A").expect("it parses");
    let targets = doc01::drift::target_bytes(&[(symbol, 1_001.0)]);
    out.line("table 11", paper, judge::drift(&[], &targets, &[], 1, 1 << 20).map(|_| ()), Err::<(), _>(11));
    let holdings = [Position { symbol, quantity: 1 << 62, cost: 0 }];
    let prices = [(symbol, 4)];
    let lent = doc01::records::position_bytes(&holdings);
    let priced = doc01::drift::price_bytes(&prices);
    out.line("table 12", paper, judge::drift(&lent, &[], &priced, 1, 1 << 20).map(|_| ()), Err::<(), _>(12));
    out.line("table 12 panics", rust, original::drift(&holdings, &[], &prices, 1).is_err(), true);
    let empty = Book::default().bytes();
    out.line("table 13", paper, judge::join(&empty, &empty, 1, 1 << 20).map(|_| ()), Err::<(), _>(13));
    Ok(out.0)
}

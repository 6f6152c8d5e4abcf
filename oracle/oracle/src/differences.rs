//! The rows of docs/DIFFERENCES.md, each with its smallest input and what the original answers to it.

use doc01::book::{Book, Cell, ACTION, CLIENT, IBKR, LIMIT, ORDERS, SHARES, SYMBOL, WINDOW};
use doc01::entries::{Entry, Value};
use doc01::join::join;
use doc01::{Position, Sheet, State, Symbol};
use generator::Rng;

use crate::reference::{book, event, named, recovered, text, two_intents, two_orders, with_list, Lines};
use crate::{judge, original};

const RUST: &str = "the original";
const PAPER: &str = "document 01";
const ROOM: usize = 1 << 20;

fn intent(symbol: &str, number: u64, id: Value, limit: Value) -> Entry {
    let cells = [(SYMBOL, text(symbol)), (ACTION, text("BUY")), (SHARES, Value::Int(5)), (LIMIT, limit), (CLIENT, id)];
    event("order_intent", Some(number), &cells)
}

/// The state of a log with one open intent as its last checkpoint.
fn one_intent(number: u64) -> State {
    recovered(&book(&[intent("A", number, text("c"), Value::Int(1))])).state
}

fn refused(state: &State, sheet: &Sheet, queries: &[u8]) -> u32 {
    let orders = state.order_bytes();
    judge::reconcile_incomplete_intents(&state.marks, &orders, &sheet.bytes(), queries, 0, ROOM).err().unwrap_or(0)
}

/// Numbers of the entries, and the unreached count or `panic`.
fn entries(state: &State, sheet: &Sheet, queries: &[u8]) -> String {
    let reconciled = original::reconcile(state, sheet, queries);
    let numbers: Vec<_> = reconciled.entries.iter().map(|e| e.number.unwrap_or(0)).collect();
    let end = reconciled.unreached.map_or("panic".to_string(), |u| format!("unreached {u}"));
    format!("entries {numbers:?}, {end}")
}

fn differences(out: &mut Lines) {
    let sheet = two_orders();
    let last = recovered(&named(&[("run_started", u64::MAX)])).state;
    out.line("difference 1", RUST, entries(&last, &sheet, &[]), "entries [], panic");
    out.line("difference 1", PAPER, refused(&last, &sheet, &[]), 8);
    let near = one_intent(u64::MAX - 1);
    out.line("difference 2", RUST, entries(&near, &sheet, &[0]), "entries [18446744073709551615], panic");
    out.line("difference 2", PAPER, refused(&near, &sheet, &[0]), 8);
    out.line("difference 3", RUST, entries(&near, &sheet, &[]), "entries [], unreached 1");
    out.line("difference 3", PAPER, refused(&near, &sheet, &[]), 8);

    let symbol = Symbol::of(b"A").expect("it parses");
    let drift = |held: &[Position], targets: &[(Symbol, f64)], prices: &[(Symbol, i64)], equity: i64| {
        let panics = original::drift(held, targets, prices, equity).is_err();
        let held = doc01::records::position_bytes(held);
        let (targets, prices) = (doc01::drift::target_bytes(targets), doc01::drift::price_bytes(prices));
        (panics, judge::drift(&held, &targets, &prices, equity, ROOM).err())
    };
    out.line("difference 4", "panic of the original, refusal", drift(&[], &[(symbol, -1.0)], &[(symbol, 1)], i64::MAX), (true, Some(12)));
    let held = Position { symbol, quantity: 1 << 62, cost: 0 };
    out.line("difference 5", "panic of the original, refusal", drift(&[held], &[], &[(symbol, 4)], 1), (true, Some(12)));

    let open = one_intent(1);
    out.line("difference 6", RUST, entries(&open, &sheet, &[1; 5]), "entries [], unreached 1");
    let lines = original::appended(&open, &sheet, &[0]);
    let parsed: serde_json::Value = serde_json::from_str(&lines[0]).unwrap_or_default();
    out.line("difference 7", "the original's key `checkpoint`", parsed["checkpoint"].as_str(), Some("OrderSubmitted"));
    let before = chrono::Utc::now();
    let lines = original::appended(&recovered(&two_intents()).state, &sheet, &[0, 0]);
    let after = chrono::Utc::now();
    let clock = |line: &String| {
        let parsed: serde_json::Value = serde_json::from_str(line).unwrap_or_default();
        let time: Option<chrono::DateTime<chrono::Utc>> = parsed["ts"].as_str().and_then(|t| t.parse().ok());
        time.is_some_and(|t| before <= t && t <= after)
    };
    out.line("difference 8", "the original's entries have the clock's time", lines.iter().map(clock).collect::<Vec<_>>(), [true, true]);
    let none = original::recover(&Book::default(), 5).expect("the original recovers");
    out.line("difference 9", "an event set the time; marks' time", (none.time_set, none.state.marks.time), (false, 5));
}

fn kept(out: &mut Lines) {
    let diff = |rest: Vec<Entry>| {
        let mut events = vec![event("diff_computed", Some(1), &[])];
        events.extend(rest);
        recovered(&with_list(book(&events), 0, ORDERS, &[("A", 5, 1.0)]))
    };
    let flags = |rest| diff(rest).state.orders[0].flags;
    let given = intent("A", 2, text("c"), Value::Int(1));
    out.line("kept 1", "flags with a text id, then without", (
        flags(vec![given.clone()]),
        flags(vec![given.clone(), intent("A", 3, Value::Int(1), Value::Int(1))]),
    ), (8, 0));
    let unread = diff(vec![intent("A", 2, text("c"), text("1.0"))]).state;
    out.line("kept 2", "flags, checkpoint, number", (unread.orders[0].flags, unread.marks.checkpoint, unread.marks.number), (0, 7, 2));

    let names = ["run_started", "positions_intent", "positions_result", "diff_computed", "run_completed", "diff_computed"];
    let events: Vec<_> = names.iter().zip(1..).map(|(name, number)| event(name, Some(number), &[])).collect();
    let filled_first = with_list(with_list(book(&events), 3, ORDERS, &[("A", 1, 1.0)]), 5, ORDERS, &[]);
    let filled_last = with_list(with_list(book(&events), 3, ORDERS, &[]), 5, ORDERS, &[("A", 1, 1.0)]);
    out.line("kept 3", "last list empty; first list empty", (original::verdict(&filled_first), original::verdict(&filled_last)), (
        Ok::<_, ()>((0, 0, 0)),
        Ok::<_, ()>((6, 0, 6)),
    ));
    let cron = |number| event("cron_completed", Some(number), &[(WINDOW, text("w"))]);
    out.line("kept 4", RUST, original::window_complete(&book(&[cron(5), cron(3)]), b"w"), Ok::<_, ()>(Some(3)));
    let scaled = |scale: f64| original::fixed(1f64.to_bits(), scale.to_bits());
    out.line("kept 5", "scale NaN, scale infinite", (scaled(f64::NAN), scaled(f64::INFINITY)), (
        Ok::<_, ()>(Err::<(), _>(10)),
        Ok::<_, ()>(Err::<(), _>(10)),
    ));
    let cancels = recovered(&named(&[("cancel_intent", 1), ("cancel_result", 2), ("cancel_intent", 3)]));
    let report = original::compare(&cancels.state, &Sheet::default()).map(|r| r.len());
    out.line("kept 6", "action, discrepancies", (cancels.action, report), (2, Ok::<_, ()>(0)));

    let strange = book(&[intent("bad one", 1, text("c"), Value::Int(1)), intent("bad two", 2, text("c"), Value::Int(1))]);
    let state = recovered(&strange).state;
    let addendum = original::reconcile(&state, &two_orders(), &[0, 0]).addendum(0);
    let joined = join(&strange, &addendum, 2).expect("it joins");
    let symbols: Vec<_> = state.orders.iter().map(|o| String::from_utf8_lossy(o.symbol.text()).into_owned()).collect();
    let after: Vec<_> = recovered(&joined).state.orders.iter().map(|o| o.flags).collect();
    out.line("kept 7", "symbols, entries, flags after joining them", (symbols, addendum.events.len(), after), (["UNKNOWN", "UNKNOWN"], 2, [9, 8]));
    let ids: Vec<_> = addendum.events.iter().map(|e| e.cells[IBKR]).collect();
    out.line("kept 7", "ids of the entries", ids, [Cell::Int(78), Cell::Int(78)]);
}

/// Floats and integers through the original's own parsing, flattened map included.
fn parsing(out: &mut Lines) {
    let mut rng = Rng::new("parsing", 1, 0);
    let mut floats = vec![0.0, -0.0, 1.0, 10.0, 1e15, 1e16, 1e300, f64::MAX, f64::MIN_POSITIVE, 5e-324, 0.1, 9007199254740993.0];
    while floats.len() < 1_000_000 {
        let float = f64::from_bits(rng.next());
        if float.is_finite() {
            floats.push(float);
        }
    }
    let back = |f: &f64| original::parsed(&serde_json::json!(f)).as_f64().map(f64::to_bits) == Some(f.to_bits());
    let is_float = |f: &f64| original::parsed(&serde_json::json!(f)).is_f64();
    let lost = floats.iter().filter(|f| !back(f) || !is_float(f)).count();
    out.line("parsing, 1,000,000 finite floats", "floats that come back with other bits or another kind", lost, 0);
    let mut lost = 0;
    for _ in 0..200_000 {
        let shift = rng.below(64);
        let (signed, large) = (rng.next() as i64 >> shift, rng.next() | 1 << 63);
        lost += (original::parsed(&serde_json::json!(signed)).as_i64() != Some(signed)) as u32;
        let large_back = original::parsed(&serde_json::json!(large));
        lost += (large_back.as_u64() != Some(large) || large_back.as_i64().is_some()) as u32;
    }
    out.line("parsing, 400,000 integers", "integers that come back as another", lost, 0);
}

/// Prints each row; true if every answer is the one that the paper states.
pub fn print() -> Result<bool, String> {
    let mut out = Lines(true);
    differences(&mut out);
    kept(&mut out);
    parsing(&mut out);
    Ok(out.0)
}

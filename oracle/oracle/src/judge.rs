//! One function for each entry of the library: document 01's bytes in, the refusal or the output out.
//!
//! Refusals 1, 2, 3, 8, 11, 12 and 13 and the layouts are document 01's (crate `doc01`); verdicts, marks, records, actions,
//! reports, entries, drift and conversions are the original's. `room` is the length of a lent output in bytes; an output
//! holds the bytes given here and zeros after them, or zeros alone on a refusal.

use std::cell::RefCell;

use doc01::answers;
use doc01::entries::Entry;
use doc01::records::{ORDER, POSITION};
use doc01::{Book, Cell, Discrepancy, Marks, Refusal, Sheet, State};

pub use doc01::answers::{held_value, join, Addendum, DriftAnswer};
pub use recorded::Recovery;

use crate::log::Log;
use crate::original::{self, Ran, Reconciled};
use crate::{desk, fault, Panicked};

/// The original's answer where it must not panic.
fn said<T>(ran: Ran<T>) -> T {
    ran.unwrap_or_else(|Panicked(text)| fault(&format!("the original panicked: {text}")))
}

/// The layout of a book alone.
pub fn check_book(book: &[u8]) -> Result<(), Refusal> {
    Log::of(book).map(|_| ())
}

/// Refusal, event, checkpoint.
pub fn validate_checkpoints_from_parsed(book: &[u8]) -> (u32, u32, u32) {
    match Log::of(book) {
        Ok(log) => said(log.verdict()),
        Err(refusal) => (refusal, 0, 0),
    }
}

pub fn reconstruct_state(book: &[u8], time: i64, orders_room: usize, positions_room: usize) -> Result<Recovery, Refusal> {
    let log = Log::of(book)?;
    doc01::time(time)?;
    // No event leaves more records than the longest list and one per event.
    let longest = log.book.events.iter().flat_map(|e| e.cells).map(|c| match c {
        Cell::List { count, .. } => count as usize,
        _ => 0,
    });
    let most = longest.max().unwrap_or(0) + log.book.events.len();
    if orders_room < most * ORDER || positions_room < most * POSITION {
        answers::fits(said(log.peak()), orders_room, positions_room)?;
    }
    let (state, action) = said(log.state(time));
    Ok(Recovery { marks: state.marks, orders: state.order_bytes(), positions: state.position_bytes(), action })
}

/// The most records of orders and positions after any event, which recovery must have room for.
pub fn most_recovered(book: &[u8]) -> Result<(usize, usize), Refusal> {
    Ok(said(Log::of(book)?.peak()))
}

/// The desk program's reply.
pub fn reply(book: &[u8], sheet: &[u8]) -> String {
    let asked = |_: &Book, sheet: &Sheet| desk::of_log(&*Log::of(book).unwrap_or_else(|_| fault("a book that is read")), sheet);
    desk::reply_by(asked, book, sheet)
}

/// The marks after the step over event `next` (from 0) of marks that the steps before it left; None at the log's end.
pub fn step(book: &[u8], time: i64, next: usize) -> Result<Option<Marks>, Refusal> {
    let log = Log::of(book)?;
    if next >= log.book.events.len() {
        return Ok(None);
    }
    Ok(Some(said(log.marks_after(time, next + 1))))
}

/// What the original says of a lent state: the action, the report, the entries with the count of unreached intents.
pub fn action_of(state: &State) -> u32 {
    said(original::action(state))
}

pub fn report_of(state: &State, sheet: &Sheet) -> Vec<Discrepancy> {
    said(original::compare(state, sheet))
}

pub fn entries_of(state: &State, sheet: &Sheet, queries: &[u8]) -> (Vec<Entry>, u64) {
    counted(reconciled(state, sheet, queries), state)
}

fn counted(reconciled: Reconciled, state: &State) -> (Vec<Entry>, u64) {
    let unreached = said(reconciled.unreached);
    if reconciled.entries.len() as u64 + unreached != state.intents() as u64 {
        fault("entries and unreached do not sum to the intents");
    }
    (reconciled.entries, unreached)
}

pub fn determine_recovery_action(marks: &Marks, orders: &[u8]) -> Result<u32, Refusal> {
    answers::action(action_of, &marks.bytes(), orders)
}

/// The report's records.
pub fn compare_broker_state(
    marks: &Marks,
    orders: &[u8],
    positions: &[u8],
    sheet: &[u8],
    report_room: usize,
) -> Result<Vec<u8>, Refusal> {
    answers::compare(report_of, &marks.bytes(), orders, positions, sheet, report_room)
}

pub fn reconcile_incomplete_intents(
    marks: &Marks,
    orders: &[u8],
    sheet: &[u8],
    queries: &[u8],
    time: i64,
    book_room: usize,
) -> Result<Addendum, Refusal> {
    reconciled_by(reconciled, marks, orders, sheet, queries, time, book_room)
}

thread_local! {
    /// The reconciling asked for last: it is asked for again at other times and in other rooms.
    static LAST: RefCell<Option<(State, Sheet, Vec<u8>, Reconciled)>> = const { RefCell::new(None) };
}

fn reconciled(state: &State, sheet: &Sheet, queries: &[u8]) -> Reconciled {
    LAST.with(|last| {
        let mut last = last.borrow_mut();
        match &*last {
            Some((of, on, by, said)) if (of, on, &by[..]) == (state, sheet, queries) => said.clone(),
            _ => last.insert((state.clone(), sheet.clone(), queries.to_vec(), original::reconcile(state, sheet, queries))).3.clone(),
        }
    })
}

/// The same with the entries and the count from a given reading.
pub fn reconciled_by(
    asked: fn(&State, &Sheet, &[u8]) -> Reconciled,
    marks: &Marks,
    orders: &[u8],
    sheet: &[u8],
    queries: &[u8],
    time: i64,
    book_room: usize,
) -> Result<Addendum, Refusal> {
    let asked = |state: &State, sheet: &Sheet, queries: &[u8]| counted(asked(state, sheet, queries), state);
    answers::reconcile(asked, &marks.bytes(), orders, sheet, queries, time, book_room)
}

/// A recovered state as it is lent: its book, marks and records.
#[derive(Debug, Clone, Copy)]
pub struct Lent<'a> {
    pub book: &'a [u8],
    pub marks: &'a Marks,
    pub orders: &'a [u8],
    pub positions: &'a [u8],
}

/// State equality. Document 01's alone.
pub fn states_equal(x: Lent, y: Lent) -> Result<bool, Refusal> {
    let (m, n) = (x.marks.bytes(), y.marks.bytes());
    answers::states_equal(
        answers::Lent { book: x.book, marks: &m, orders: x.orders, positions: x.positions },
        answers::Lent { book: y.book, marks: &n, orders: y.orders, positions: y.positions },
    )
}

pub fn max_checkpoint_sequence(book: &[u8]) -> Result<u64, Refusal> {
    Ok(said(Log::of(book)?.max_checkpoint_sequence()))
}

pub fn check_window_already_complete(book: &[u8], id: &[u8]) -> Result<Option<u64>, Refusal> {
    Ok(said(Log::of(book)?.window_complete(id)))
}

/// Drift. Refusal 12 is document 01's; the original must panic exactly there.
pub fn drift(holdings: &[u8], targets: &[u8], prices: &[u8], equity: i64, entry_room: usize) -> Result<DriftAnswer, Refusal> {
    let asked = |holdings: &[_], targets: &[_], prices: &[_], equity, overflow| {
        match (overflow, original::drift(holdings, targets, prices, equity)) {
            (Err(refusal), Err(_)) => Err(refusal),
            (Ok(()), Ok(drift)) => Ok((drift.entries, f64::from_bits(drift.tracking))),
            (Ok(()), Err(Panicked(text))) => fault(&format!("drift panics without refusal 12: {text}")),
            (Err(_), Ok(_)) => fault("drift answers under refusal 12"),
        }
    };
    answers::drift(asked, holdings, targets, prices, equity, entry_room)
}

pub fn f64_to_fixed_checked(value: u64, scale: u64) -> Result<i64, Refusal> {
    said(original::fixed(value, scale))
}

pub fn f64_cents_checked(value: u64) -> Result<i64, Refusal> {
    said(original::cents(value))
}

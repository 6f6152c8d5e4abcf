//! The oracle's own reading of document 01: book, sheet, records, addendum, join, state equality, held value, drift rows,
//! the desk's reply and the refusals around them. None of it is the original's: where the original has a counterpart, the crate
//! `oracle` asks the original, and uses this crate only to read its input and to write its answers as bytes. [`reading`] alone
//! answers what the original answers too: a quick judge for the fuzz target, which asks the original beside it, and for
//! `oracle/rules`, which changes one rule of this crate at a time.
//!
//! Written from document 01 apart from the Rattle code, so that a fault in one reading shows as a difference.

pub mod answers;
pub mod book;
pub mod drift;
pub mod entries;
pub mod join;
pub mod reading;
pub mod records;
pub mod reply;
pub mod sheet;
pub mod symbol;

pub use book::{Book, Cell, Event, Row, TextRef};
pub use records::{Discrepancy, Marks, Order, Position, State};
pub use sheet::Sheet;
pub use symbol::Symbol;

/// A refusal number of document 01's table.
pub type Refusal = u32;

/// The last valid time of an event in milliseconds.
pub const LAST_TIME: i64 = 253_402_300_799_999;

/// Refusal 2 for a caller's time outside an event's range.
pub fn time(millis: i64) -> Result<(), Refusal> {
    if (0..=LAST_TIME).contains(&millis) {
        Ok(())
    } else {
        Err(2)
    }
}

/// The event names of checkpoints 1 to 17, in the enum's order.
pub const NAMES: [&str; 17] = [
    "run_started",
    "positions_intent",
    "positions_fetched",
    "positions_result",
    "diff_computed",
    "risk_check_passed",
    "order_intent",
    "order_submitted",
    "order_failed",
    "order_filled",
    "quotes_intent",
    "quotes_result",
    "account_summary_intent",
    "account_summary_result",
    "cancel_intent",
    "cancel_result",
    "run_completed",
];

/// The checkpoints' names in the enum's order, as the desk prints them.
pub const CHECKPOINTS: [&str; 17] = [
    "RunStarted",
    "PositionsIntent",
    "PositionsFetched",
    "PositionsResult",
    "DiffComputed",
    "RiskCheckPassed",
    "OrderIntent",
    "OrderSubmitted",
    "OrderFailed",
    "OrderFilled",
    "QuotesIntent",
    "QuotesResult",
    "AccountSummaryIntent",
    "AccountSummaryResult",
    "CancelIntent",
    "CancelResult",
    "RunCompleted",
];

/// The actions' names, as the desk prints them, numbered 0 to 2.
pub const ACTIONS: [&str; 3] = ["Restart", "Resume", "ManualReview"];

pub(crate) fn u32_at(bytes: &[u8], at: usize) -> u32 {
    u32::from_le_bytes(bytes[at..at + 4].try_into().expect("four bytes"))
}

pub(crate) fn u64_at(bytes: &[u8], at: usize) -> u64 {
    u64::from_le_bytes(bytes[at..at + 8].try_into().expect("eight bytes"))
}

pub(crate) fn zeros(bytes: &[u8]) -> bool {
    bytes.iter().all(|b| *b == 0)
}

//! The desk program's reply: document 01's form (`doc01::reply`) around the original's verdict, state, action and report.

use doc01::Sheet;

pub use doc01::reply::{reply_by, Said, LENT};

use crate::log::Log;
use crate::{fault, judge, original};

/// The reply to `book.bin` and `sheet.bin`; a missing file is read as empty.
pub fn reply(book: Option<&[u8]>, sheet: Option<&[u8]>) -> String {
    judge::reply(book.unwrap_or(&[]), sheet.unwrap_or(&[]))
}

/// What the original says.
pub fn of_log(log: &Log, sheet: &Sheet) -> Said {
    let said = |what: &str| -> ! { fault(&format!("the original panicked in {what}")) };
    let verdict = log.verdict().unwrap_or_else(|_| said("validation"));
    let recovered = log.recovered().as_ref().unwrap_or_else(|_| said("recovery"));
    let report = original::compare_recovered(&log.book, recovered, sheet).unwrap_or_else(|_| said("comparison"));
    Said { verdict, state: recovered.state.clone(), action: recovered.action, report }
}

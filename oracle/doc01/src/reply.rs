//! The desk program's printed reply: document 01's form around a verdict, a state, an action and a report.

use std::fmt::Write;

use crate::records::{DISCREPANCY, ORDER, POSITION};
use crate::{Book, Discrepancy, Refusal, Sheet, State, ACTIONS, CHECKPOINTS};

/// The most bytes of a file, and the room of each output.
pub const LENT: usize = 65_536;

/// What the desk says of a book and a sheet that it reads.
pub struct Said {
    pub verdict: (u32, u32, u32),
    pub state: State,
    /// 0 to 2.
    pub action: u32,
    pub report: Vec<Discrepancy>,
}

/// The reply with what a given reading says.
pub fn reply_by(asked: impl Fn(&Book, &Sheet) -> Said, book: &[u8], sheet: &[u8]) -> String {
    lines(asked, book, sheet).unwrap_or_else(|refusal| format!("refused {refusal}\n"))
}

fn read<T>(bytes: &[u8], parse: fn(&[u8]) -> Result<T, Refusal>) -> Result<T, Refusal> {
    if bytes.len() > LENT {
        return Err(1);
    }
    parse(bytes)
}

fn lines(asked: impl Fn(&Book, &Sheet) -> Said, book: &[u8], sheet: &[u8]) -> Result<String, Refusal> {
    let book = read(book, Book::parse)?;
    let sheet = read(sheet, Sheet::parse)?;
    let Said { verdict, state, action, report } = asked(&book, &sheet);
    if state.orders.len() * ORDER > LENT || state.positions.len() * POSITION > LENT || report.len() * DISCREPANCY > LENT {
        return Err(3);
    }
    let mut out = String::new();
    let mut line = |text: String| writeln!(out, "{text}").expect("a String takes it");
    line(format!("verdict {} {} {}", verdict.0, verdict.1, verdict.2));
    line(format!("action {}", ACTIONS[action as usize]));
    line(format!("last {} {}", CHECKPOINTS[state.marks.checkpoint as usize - 1], state.marks.number));
    line(format!("orders {}", state.orders.len()));
    line(format!("positions {}", state.positions.len()));
    line(format!("report {}", report.len()));
    for discrepancy in &report {
        line(discrepancy.kind.to_string());
    }
    Ok(out)
}

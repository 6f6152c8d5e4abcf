//! The recorded list: cases with their answers in one file, laid out as crates/replay/FORMAT.md says, by any judge.

use std::panic::{catch_unwind, AssertUnwindSafe};

use doc01::answers::{Addendum, DriftAnswer, Lent};
use doc01::{Marks, Refusal};

mod reading;

pub use reading::Reading;

pub const LOG: u32 = 1;
pub const DRIFT: u32 = 2;
pub const CONVERSION: u32 = 3;
pub const LENT_STATES: u32 = 4;
pub const JOIN: u32 = 5;

/// Room for everything.
const AMPLE: usize = 1 << 21;

#[derive(Debug, Clone, PartialEq, Eq)]
pub struct Recovery {
    pub marks: Marks,
    pub orders: Vec<u8>,
    pub positions: Vec<u8>,
    pub action: u32,
}

/// Who answers: one function for each entry, document 01's bytes in, the refusal or the output out. Lent marks are bytes.
pub trait Judge {
    fn verdict(&self, book: &[u8]) -> (u32, u32, u32);
    fn highest(&self, book: &[u8]) -> Result<u64, Refusal>;
    fn window(&self, book: &[u8], id: &[u8]) -> Result<Option<u64>, Refusal>;
    fn reply(&self, book: &[u8], sheet: &[u8]) -> String;
    fn recover(&self, book: &[u8], time: i64, orders_room: usize, positions_room: usize) -> Result<Recovery, Refusal>;
    fn action(&self, marks: &[u8], orders: &[u8]) -> Result<u32, Refusal>;
    fn compare(&self, marks: &[u8], orders: &[u8], positions: &[u8], sheet: &[u8], room: usize) -> Result<Vec<u8>, Refusal>;
    fn reconcile(&self, marks: &[u8], orders: &[u8], sheet: &[u8], queries: &[u8], time: i64, room: usize) -> Result<Addendum, Refusal>;
    fn join(&self, a: &[u8], b: &[u8], k: u64, room: usize) -> Result<Vec<u8>, Refusal>;
    fn equal(&self, x: Lent, y: Lent) -> Result<bool, Refusal>;
    fn drift(&self, holdings: &[u8], targets: &[u8], prices: &[u8], equity: i64, room: usize) -> Result<DriftAnswer, Refusal>;
    fn held(&self, holdings: &[u8], prices: &[u8]) -> Result<i64, Refusal>;
    fn fixed(&self, value: u64, scale: u64) -> Result<i64, Refusal>;
    fn cents(&self, value: u64) -> Result<i64, Refusal>;
    fn cast(&self, value: u64) -> i64;
}

/// A case: its kind and its sections of inputs.
#[derive(Debug, Clone, PartialEq, Eq)]
pub struct Inputs {
    pub kind: u32,
    pub sections: Vec<Vec<u8>>,
}

/// How many sections of inputs a kind has.
fn count(kind: u32) -> Option<usize> {
    match kind {
        LOG => Some(5),
        DRIFT => Some(4),
        CONVERSION => Some(1),
        LENT_STATES => Some(11),
        JOIN => Some(3),
        _ => None,
    }
}

/// A section of numbers.
pub fn words(numbers: &[u64]) -> Vec<u8> {
    numbers.iter().flat_map(|n| n.to_le_bytes()).collect()
}

fn numbers(section: &[u8]) -> Vec<u64> {
    section.chunks(8).map(|c| u64::from_le_bytes(c.try_into().expect("eight bytes"))).collect()
}

#[derive(Default)]
struct Body(Vec<u8>);

impl Body {
    fn section(&mut self, bytes: &[u8]) {
        self.0.extend((bytes.len() as u64).to_le_bytes());
        self.0.extend(bytes);
        self.0.resize(self.0.len().next_multiple_of(8), 0);
    }

    fn numbers(&mut self, numbers: &[u64]) {
        self.section(&words(numbers));
    }
}

/// The refusal's number, or 0.
fn number<T>(result: &Result<T, Refusal>) -> u64 {
    result.as_ref().err().map_or(0, |r| *r as u64)
}

/// The case's inputs and the judge's answers.
pub fn body(inputs: &Inputs, judge: &dyn Judge) -> Vec<u8> {
    let mut out = Body::default();
    inputs.sections.iter().for_each(|s| out.section(s));
    let parts: Vec<&[u8]> = inputs.sections.iter().map(Vec::as_slice).collect();
    let numbers = numbers(parts.last().expect("the numbers are the inputs' last section"));
    match inputs.kind {
        LOG => log(&mut out, judge, &parts, &numbers),
        DRIFT => drift(&mut out, judge, &parts, &numbers),
        CONVERSION => conversion(&mut out, judge, &numbers),
        LENT_STATES => lent_states(&mut out, judge, &parts, &numbers),
        _ => join(&mut out, judge, &parts, &numbers),
    }
    out.0
}

fn log(out: &mut Body, judge: &dyn Judge, inputs: &[&[u8]], numbers: &[u64]) {
    let [book, sheet, queries, window] = inputs[..4] else { return };
    let (time, entry_time, k) = (numbers[0] as i64, numbers[1] as i64, numbers[2]);
    let [orders_room, positions_room, report_room, addendum_room, join_room] = [3, 4, 5, 6, 7].map(|i| numbers[i] as usize);

    let (refusal, event, checkpoint) = judge.verdict(book);
    out.numbers(&[refusal, event, checkpoint].map(u64::from));
    let highest = judge.highest(book);
    out.numbers(&[number(&highest), highest.unwrap_or(0)]);
    let window = judge.window(book, window);
    let complete = window.unwrap_or(None);
    out.numbers(&[number(&window), complete.is_some() as u64, complete.unwrap_or(0)]);
    out.section(judge.reply(book, sheet).as_bytes());

    let recovery = judge.recover(book, time, AMPLE, AMPLE);
    let tight = judge.recover(book, time, orders_room, positions_room);
    out.numbers(&[number(&recovery), number(&tight), recovery.as_ref().map_or(0, |r| r.action as u64)]);
    let Ok(recovery) = recovery else { return };
    let marks = recovery.marks.bytes();
    out.section(&marks);
    out.section(&recovery.orders);
    out.section(&recovery.positions);

    let compare = |room| judge.compare(&marks, &recovery.orders, &recovery.positions, sheet, room);
    let report = compare(AMPLE);
    out.numbers(&[number(&report), number(&compare(report_room))]);
    out.section(&report.unwrap_or_default());

    let reconcile = |room| judge.reconcile(&marks, &recovery.orders, sheet, queries, entry_time, room);
    let addendum = reconcile(AMPLE);
    let (entries, unreached) = addendum.as_ref().map_or((0, 0), |a| (a.entries, a.unreached));
    out.numbers(&[number(&addendum), number(&reconcile(addendum_room)), entries, unreached]);
    let Ok(addendum) = addendum else { return };
    out.section(&addendum.book);

    let joined = judge.join(book, &addendum.book, k, AMPLE);
    let tight = judge.join(book, &addendum.book, k, join_room);
    out.numbers(&[number(&joined), number(&tight), joined.as_ref().map_or(0, |j| j.len() as u64)]);
    let Ok(joined) = joined else { return };
    let again = judge.recover(&joined, time, AMPLE, AMPLE).expect("a joined book recovers");
    let marks_again = again.marks.bytes();
    let equal = judge.equal(
        Lent { book, marks: &marks, orders: &recovery.orders, positions: &recovery.positions },
        Lent { book: &joined, marks: &marks_again, orders: &again.orders, positions: &again.positions },
    );
    out.numbers(&[number(&equal), equal.unwrap_or(false) as u64]);
    out.section(&marks_again);
    out.section(&again.orders);
}

fn drift(out: &mut Body, judge: &dyn Judge, inputs: &[&[u8]], numbers: &[u64]) {
    let [holdings, targets, prices] = inputs[..3] else { return };
    let drift = judge.drift(holdings, targets, prices, numbers[0] as i64, numbers[1] as usize);
    out.numbers(&[number(&drift), drift.as_ref().map_or(0, |d| d.tracking)]);
    out.section(&drift.map(|d| d.entries).unwrap_or_default());
    let held = judge.held(holdings, prices);
    out.numbers(&[number(&held), held.unwrap_or(0) as u64]);
}

fn conversion(out: &mut Body, judge: &dyn Judge, numbers: &[u64]) {
    let fixed = judge.fixed(numbers[0], numbers[1]);
    let cents = judge.cents(numbers[0]);
    let limit = judge.cast(numbers[0]) as u64;
    out.numbers(&[number(&fixed), fixed.unwrap_or(0) as u64, number(&cents), cents.unwrap_or(0) as u64, limit]);
}

fn lent_states(out: &mut Body, judge: &dyn Judge, inputs: &[&[u8]], numbers: &[u64]) {
    let lent = |at: usize| Lent { book: inputs[at], marks: inputs[at + 1], orders: inputs[at + 2], positions: inputs[at + 3] };
    let (first, sheet, queries) = (lent(0), inputs[8], inputs[9]);
    let (time, report_room, addendum_room) = (numbers[0] as i64, numbers[1] as usize, numbers[2] as usize);
    let action = judge.action(first.marks, first.orders);
    out.numbers(&[number(&action), action.unwrap_or(0) as u64]);
    let report = judge.compare(first.marks, first.orders, first.positions, sheet, report_room);
    out.numbers(&[number(&report)]);
    out.section(&report.unwrap_or_default());
    let addendum = judge.reconcile(first.marks, first.orders, sheet, queries, time, addendum_room);
    let (entries, unreached) = addendum.as_ref().map_or((0, 0), |a| (a.entries, a.unreached));
    out.numbers(&[number(&addendum), entries, unreached]);
    out.section(&addendum.map(|a| a.book).unwrap_or_default());
    let equal = judge.equal(first, lent(4));
    out.numbers(&[number(&equal), equal.unwrap_or(false) as u64]);
}

fn join(out: &mut Body, judge: &dyn Judge, inputs: &[&[u8]], numbers: &[u64]) {
    let joined = judge.join(inputs[0], inputs[1], numbers[0], AMPLE);
    let tight = judge.join(inputs[0], inputs[1], numbers[0], numbers[1] as usize);
    out.numbers(&[number(&joined), number(&tight), joined.as_ref().map_or(0, |j| j.len() as u64)]);
    out.section(&joined.unwrap_or_default());
}

/// The list's file.
pub fn file(cases: &[Inputs], judge: &dyn Judge) -> Vec<u8> {
    let mut out = words(&[1 | (cases.len() as u64) << 32]);
    for case in cases {
        let body = body(case, judge);
        out.extend(words(&[case.kind as u64 | (body.len() as u64) << 32]));
        out.extend(body);
    }
    out
}

/// A case of the file, and its body as it stands there.
pub struct Stored {
    pub inputs: Inputs,
    pub body: Vec<u8>,
}

/// The file's cases; None where it is no recorded list.
pub fn stored(bytes: &[u8]) -> Option<Vec<Stored>> {
    let word = |at: usize| bytes.get(at..at + 4).map(|b| u32::from_le_bytes(b.try_into().expect("four bytes")));
    if word(0)? != 1 {
        return None;
    }
    let mut at = 8;
    let mut out = Vec::new();
    for _ in 0..word(4)? {
        let (kind, length) = (word(at)?, word(at + 4)? as usize);
        let body = bytes.get(at + 8..at + 8 + length)?;
        let sections = sections(body, count(kind)?)?;
        out.push(Stored { inputs: Inputs { kind, sections }, body: body.to_vec() });
        at += 8 + length;
    }
    (at == bytes.len()).then_some(out)
}

/// The first sections of a body.
fn sections(mut body: &[u8], count: usize) -> Option<Vec<Vec<u8>>> {
    let mut out = Vec::new();
    for _ in 0..count {
        let length = u64::from_le_bytes(body.get(..8)?.try_into().ok()?) as usize;
        out.push(body.get(8..8 + length)?.to_vec());
        body = body.get(8 + length.next_multiple_of(8)..)?;
    }
    Some(out)
}

/// The cases whose answers are not the judge's, counted from 0. A panic is no answer.
pub fn differences<'a>(stored: &'a [Stored], judge: &'a dyn Judge) -> impl Iterator<Item = usize> + 'a {
    let differs = |case: &Stored| catch_unwind(AssertUnwindSafe(|| body(&case.inputs, judge))).ok().as_ref() != Some(&case.body);
    stored.iter().enumerate().filter(move |(_, case)| differs(case)).map(|(i, _)| i)
}

//! Cases of a kind, each put to the library and to the judge.

use std::collections::BTreeMap;
use std::panic::{catch_unwind, AssertUnwindSafe};

use oracle::doc01::book::{Cell, WINDOW as WINDOW_CELL};
use oracle::doc01::Marks;
use oracle::generator::{self, Case, DriftCase, LogCase, RecordsCase, Rng};
use oracle::judge;
use oracle::log::Log;

use crate::entries::{
    Bytes, Due, Entry, ACTION, CHECK_BOOK, CHECK_SHEET, COMPARE, DRIFT, EQUAL, HELD, JOIN, MAX, RECONCILE, RECOVER, REPLY, ROUND, STEP, UNJUDGED, VERDICT,
    WINDOW,
};
use crate::question::{Fault, Question, Tally, FAULTS};
use crate::smallest::{print, smallest};

/// Copies of a book and of a sheet that are altered here, for each case of the kind `damaged`.
const COPIES: usize = 4;

#[derive(Default)]
pub struct Counts {
    cases: u64,
    by: BTreeMap<What, u64>,
    tally: Tally,
}

/// A number of the answer, 0 without one.
fn word(due: &Due, at: usize) -> u64 {
    due.answer.get(at..at + 8).map_or(0, |n| u64::from_le_bytes(n.try_into().expect("eight bytes")))
}

fn first(due: &Due) -> u64 {
    word(due, 0)
}

fn second(due: &Due) -> u64 {
    word(due, 8)
}

/// What a count is of: the entry, the refusal, and what else tells answers apart.
type What = (&'static str, u32, u64);

fn what(entry: &'static Entry, due: &Due) -> What {
    let some = |n: u64| (n > 0) as u64;
    let more = match (entry.name, due.refusal) {
        ("desk_validate_checkpoints", 6 | 7) => second(due),
        ("desk_reconstruct_state", 0) => word(due, 192),
        ("desk_recovery_action", 0) => first(due),
        ("desk_reconcile_incomplete_intents", 0) => some(first(due)) + 2 * some(second(due)),
        // The first line has a word and a number of one digit.
        ("desk_reply", 0) => u64::from(due.outputs[0][8]) << 8 | u64::from(due.outputs[0][0]),
        (_, 0) => some(first(due)),
        _ => 0,
    };
    (entry.name, due.refusal, more)
}

fn said((entry, refusal, n): What) -> String {
    let either = |yes: &str, no: &str| format!("0, {}", if n > 0 { yes } else { no });
    let action = || format!("0, {}", ["Restart", "Resume", "ManualReview"][n as usize]);
    match (entry, refusal) {
        (_, UNJUDGED) => "not judged".into(),
        ("desk_validate_checkpoints", r @ (4 | 5)) => format!("{r}, with its event"),
        ("desk_validate_checkpoints", r @ (6 | 7)) => format!("{r}, checkpoint {n}"),
        ("desk_max_checkpoint_sequence", 0) => either("a number", "none"),
        ("desk_check_window_already_complete", 0) => either("complete", "not complete"),
        ("desk_reconstruct_state" | "desk_recovery_action", 0) => action(),
        ("desk_states_equal", 0) => either("equal", "unequal"),
        ("desk_compare_broker_state", 0) => either("discrepancies", "none"),
        ("desk_step", 0) => either("stepped", "none left"),
        ("desk_reconcile_incomplete_intents", 0) => {
            format!("0, {}, {}", if n % 2 > 0 { "entries" } else { "no entry" }, if n > 1 { "unreached" } else { "all reached" })
        }
        ("desk_reply", 0) => match ((n & 0xff) as u8, (n >> 8) as u8 as char) {
            (b'v', '0') => "accepted".into(),
            (b'v', refusal) => format!("verdict {refusal}"),
            (_, refusal) => format!("refused {refusal}"),
        },
        (_, r) => r.to_string(),
    }
}

impl Counts {
    fn count(&mut self, entry: &'static Entry, due: &Due) {
        *self.by.entry(what(entry, due)).or_default() += 1;
    }

    pub fn print(&self) {
        let mut by: BTreeMap<String, u64> = BTreeMap::new();
        for (what, many) in &self.by {
            *by.entry(format!("{}: {}", what.0, said(*what))).or_default() += many;
        }
        for (what, many) in by {
            println!("  {what}: {many}");
        }
        println!("  calls of the library: {}, bytes of outputs compared: {}", self.tally.calls, self.tally.bytes);
    }
}

/// One to three bytes altered, or the length.
fn altered(rng: &mut Rng, bytes: &[u8]) -> Bytes {
    let mut out = bytes.to_vec();
    for _ in 0..rng.within(1, 3) {
        match rng.below(12) {
            0 => out.push(rng.next() as u8),
            1 => {
                out.pop();
            }
            _ if out.is_empty() => {}
            kind => {
                let end = if kind < 5 { out.len().min(24) } else { out.len() };
                let at = rng.below(end);
                let any = rng.next() as u8;
                out[at] = rng.pick(&[0, 1, 2, 3, 4, 5, 6, 7, 0x0f, 0x10, 0x7f, 0x80, 0xf0, 0xff, any, any]);
            }
        }
    }
    out.into()
}

/// A generated log, its bytes shared among the questions.
struct Given<'a> {
    case: &'a LogCase,
    book: Bytes,
    sheet: Bytes,
    queries: Bytes,
    events: usize,
}

/// The window ids of a log, and around them.
fn windows(given: &Given) -> Vec<Vec<u8>> {
    let window = &given.case.window;
    let mut out = vec![window.clone(), Vec::new(), b"no such window".to_vec()];
    if let Ok(log) = Log::of(&given.book) {
        for event in &log.book.events {
            if let Cell::Text(text) = event.cells[WINDOW_CELL] {
                out.push(log.book.text_of(text).to_vec());
            }
        }
    }
    out.extend(window.split_last().map(|(_, front)| front.to_vec()));
    out.push([&window[..], b"x"].concat());
    out.sort();
    out.dedup();
    out
}

fn of_log(kind: &str, case: &LogCase, rng: &mut Rng) -> Vec<Question> {
    let [book, sheet, queries] = [&case.book, &case.sheet, &case.queries].map(|bytes| Bytes::new(bytes.clone()));
    let given = Given { case, events: Log::of(&book).map_or(0, |log| log.book.events.len()), book, sheet, queries };
    let Given { book, sheet, queries, .. } = &given;
    let mut out = vec![
        Question::new(&CHECK_BOOK, vec![book.clone()], vec![]),
        Question::new(&CHECK_SHEET, vec![sheet.clone()], vec![]),
        Question::new(&VERDICT, vec![book.clone()], vec![]),
        Question::new(&MAX, vec![book.clone()], vec![]),
        Question::new(&RECOVER, vec![book.clone()], vec![case.time as u64]).with_rooms(case.rooms[..2].to_vec()),
        Question::new(&REPLY, vec![book.clone(), sheet.clone()], vec![]),
        Question::new(&ROUND, vec![book.clone(), sheet.clone(), queries.clone()], vec![case.time as u64, case.entry_time as u64, case.k])
            .with_rooms([&case.rooms[..2], &case.rooms[3..]].concat()),
    ];
    out.extend(windows(&given).into_iter().map(|window| Question::new(&WINDOW, vec![book.clone(), window.into()], vec![])));
    if let Ok(said) = judge::reconstruct_state(book, case.time, usize::MAX, usize::MAX) {
        let [marks, orders, positions] = [said.marks.bytes(), said.orders, said.positions].map(Bytes::new);
        out.push(Question::new(&ACTION, vec![marks.clone(), orders.clone()], vec![]));
        let lent = vec![marks.clone(), orders.clone(), positions.clone(), sheet.clone()];
        out.push(Question::new(&COMPARE, lent, vec![]).with_rooms(vec![case.rooms[2]]));
        let state = [book.clone(), marks.clone(), orders.clone(), positions.clone()];
        out.push(Question::new(&EQUAL, [state.clone(), state.clone()].concat(), vec![]));
        out.extend(rounds(&given, &said.marks, &orders, rng));
        let other = altered(rng, &orders);
        out.push(Question::new(&EQUAL, [state, [book.clone(), altered(rng, &marks), other, positions]].concat(), vec![]));
        out.push(Question::new(&ACTION, vec![altered(rng, &marks), altered(rng, &orders)], vec![]));
    }
    out.extend(steps(&given, rng));
    out.extend(beside(&given, rng));
    if kind == "damaged" {
        for _ in 0..COPIES {
            out.push(Question::new(&CHECK_BOOK, vec![altered(rng, book)], vec![]));
            out.push(Question::new(&CHECK_SHEET, vec![altered(rng, sheet)], vec![]));
        }
    }
    out
}

/// A step from the marks before it, one from marks that are altered, one with a number past the end.
fn steps(given: &Given, rng: &mut Rng) -> Vec<Question> {
    let (events, time) = (given.events, given.case.time);
    let next = rng.below(events + 1);
    let before = match next {
        0 => Some(Marks::begin(time)),
        _ => judge::step(&given.book, time, next - 1).ok().flatten(),
    };
    let marks = Bytes::new(before.map_or_else(Vec::new, |m| m.bytes()));
    let lent = [marks.clone(), altered(rng, &marks), marks];
    let numbers = [next as u64, next as u64, rng.pick(&[events as u64, events as u64 + 1, u32::MAX as u64])];
    lent.into_iter().zip(numbers).map(|(marks, next)| Question::new(&STEP, vec![given.book.clone(), marks], vec![next])).collect()
}

/// Marks that may be no record, beside a book and a sheet that may be refused.
fn beside(given: &Given, rng: &mut Rng) -> Vec<Question> {
    let marks = Bytes::new(Marks::begin(given.case.time).bytes());
    let none = Bytes::default();
    let mut out = Vec::new();
    for lent in [altered(rng, &marks), marks.clone()] {
        let sides = [[given.book.clone(), lent.clone()], [altered(rng, &given.book), marks.clone()]];
        out.push(Question::new(&EQUAL, sides.iter().flat_map(|[book, marks]| [book.clone(), marks.clone(), none.clone(), none.clone()]).collect(), vec![]));
        out.push(Question::new(&COMPARE, vec![lent, none.clone(), none.clone(), given.sheet.clone()], vec![]));
    }
    out
}

/// Reconciling on a recovered state and with altered inputs; the join of its addendum, with k past the end, of altered books, and of the book with itself.
fn rounds(given: &Given, marks: &Marks, orders: &Bytes, rng: &mut Rng) -> Vec<Question> {
    let Given { case, book, sheet, queries, events } = given;
    let time = vec![case.entry_time as u64];
    let lent = vec![marks.bytes().into(), orders.clone(), sheet.clone(), queries.clone()];
    let mut out = vec![Question::new(&RECONCILE, lent.clone(), time.clone()).with_rooms(vec![case.rooms[3]])];
    for i in 0..3 {
        let mut other = lent.clone();
        other[i] = altered(rng, &lent[i]);
        out.push(Question::new(&RECONCILE, other, time.clone()));
    }
    let join = |a: &Bytes, b: &Bytes, k: u64| Question::new(&JOIN, vec![a.clone(), b.clone()], vec![k]);
    if let Ok(said) = judge::reconcile_incomplete_intents(marks, orders, sheet, queries, case.entry_time, usize::MAX) {
        let addendum = Bytes::new(said.book);
        out.push(join(book, &addendum, case.k).with_rooms(vec![case.rooms[4]]));
        out.push(join(book, &addendum, said.entries));
        out.push(join(book, &addendum, said.entries + 1));
        out.push(join(&altered(rng, book), &addendum, case.k));
        out.push(join(book, &altered(rng, &addendum), case.k));
    }
    out.push(join(book, book, rng.below(events + 1) as u64));
    out
}

fn of_records(case: &RecordsCase) -> Vec<Question> {
    let sides = [&case.first, &case.second].map(|s| [s.book.clone(), s.marks.bytes(), s.orders.clone(), s.positions.clone()].map(Bytes::new));
    let [sheet, queries] = [&case.sheet, &case.queries].map(|bytes| Bytes::new(bytes.clone()));
    let [book, marks, orders, positions] = &sides[0];
    let k = Log::of(&case.second.book).map_or(0, |log| log.book.events.len());
    vec![
        Question::new(&ACTION, vec![marks.clone(), orders.clone()], vec![]),
        Question::new(&COMPARE, vec![marks.clone(), orders.clone(), positions.clone(), sheet.clone()], vec![]).with_rooms(vec![case.rooms[0]]),
        Question::new(&RECONCILE, vec![marks.clone(), orders.clone(), sheet, queries], vec![case.time as u64]).with_rooms(vec![case.rooms[1]]),
        Question::new(&JOIN, vec![book.clone(), sides[1][0].clone()], vec![k as u64]),
        Question::new(&EQUAL, sides.concat(), vec![]),
        Question::new(&EQUAL, [sides[0].clone(), sides[0].clone()].concat(), vec![]),
    ]
}

fn of_drift(case: &DriftCase) -> Vec<Question> {
    let [holdings, targets, prices] = [&case.holdings, &case.targets, &case.prices].map(|bytes| Bytes::new(bytes.clone()));
    vec![
        Question::new(&DRIFT, vec![holdings.clone(), targets, prices.clone()], vec![case.equity as u64]).with_rooms(vec![case.room]),
        Question::new(&HELD, vec![holdings, prices], vec![]),
    ]
}

/// The questions of a case.
pub fn questions(kind: &str, seed: u64, number: u64) -> Result<Vec<Question>, String> {
    let rng = &mut Rng::new("altered", seed, number);
    match generator::case(kind, seed, number) {
        Some(Case::Log(case)) => Ok(of_log(kind, &case, rng)),
        Some(Case::Records(case)) => Ok(of_records(&case)),
        Some(Case::Drift(case)) => Ok(of_drift(&case)),
        _ => Err(format!("no kind: {kind}")),
    }
}

/// The first question of a case on which the two disagree.
fn disagreement(kind: &str, seed: u64, number: u64, fault: Option<Fault>, counts: &mut Counts) -> Result<Option<Question>, String> {
    let questions = questions(kind, seed, number)?;
    counts.cases += 1;
    for question in questions {
        let due = question.ample();
        if question.differs(&due, fault, &mut counts.tally).is_some() {
            return Ok(Some(question));
        }
        counts.count(question.entry, &due);
    }
    Ok(None)
}

/// Compares `count` cases; true if the answers agree on all of them.
pub fn compare(kind: &str, seed: u64, count: u64) -> Result<bool, String> {
    let mut counts = Counts::default();
    for number in 0..count {
        let found = catch_unwind(AssertUnwindSafe(|| disagreement(kind, seed, number, None, &mut counts)));
        match found.map_err(|_| format!("{kind} {seed} {number}: the oracle stopped"))?? {
            None => {}
            Some(question) => {
                println!("{kind} {seed} {number}: DISAGREEMENT; as generated:");
                print(&question, None);
                println!("the smallest case found:");
                print(&smallest(&question, None), None);
                return Ok(false);
            }
        }
    }
    println!("{kind} seed {seed}: {} cases, every answer the same", counts.cases);
    counts.print();
    Ok(true)
}

/// Whether the comparison sees a library that is wrong: one altered answer at a time.
pub fn faults(kind: &str, seed: u64, count: u64) -> Result<bool, String> {
    let mut all = true;
    for fault in FAULTS {
        let mut seen = None;
        for number in 0..count {
            if let Some(question) = disagreement(kind, seed, number, Some(fault), &mut Counts::default())? {
                seen = Some((number, question));
                break;
            }
        }
        match seen {
            Some((number, question)) => println!("{fault:?}: seen in case {number}, {}", question.entry.name),
            None => {
                println!("{fault:?}: NOT SEEN in {count} cases");
                all = false;
            }
        }
    }
    Ok(all)
}

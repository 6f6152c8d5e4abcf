//! The rows: each has the library's side, the original's, and a check that both answer alike.

use std::cell::RefCell;
use std::fmt::Write;
use std::hint::black_box;
use std::rc::Rc;
use std::sync::atomic::{AtomicBool, AtomicUsize, Ordering};

use oracle::doc01::book::{ORDERS, POSITIONS};
use oracle::doc01::records::{DISCREPANCY, ORDER, POSITION};
use oracle::original;
use parsed::recovery::{self, Discrepancy, RecoveredState, RecoveryAction};
use rebalancer::{audit, reconcile};

use super::inputs::{self, Folder, Lists, Log, FLOATS};
use driver::entries::{self, Bytes, Entry};
use driver::library::{Arguments, Lent};

/// Each row and its inputs. A number is a count of events, for a comparison of orders, for drift of rows; after `random` it is a count of logs.
/// `every-book` and `16-MiB` are rooms.
pub const ROWS: &[(&str, &[&str])] = &[
    ("validate", &["reference", "random", "random-30", "random-3000", "largest", "64", "256", "1024", "4096"]),
    ("recover", &["reference", "random", "largest", "64", "256", "1024", "4096"]),
    ("recover-16", &["64", "256", "1024", "4096"]),
    ("recover-last", &["2600"]),
    ("recover-positions", &["every-book", "16-MiB"]),
    ("recover-diffs", &["every-book", "16-MiB"]),
    ("compare", &["reference", "random", "64", "256", "1024", "4096"]),
    ("drift-shared", &["16", "64", "256", "1024"]),
    ("drift-distinct", &["16", "64", "256", "1024"]),
    ("drift", &["random"]),
    ("reply", &["reference", "random", "largest", "16", "64", "256"]),
    ("cents", &["1024"]),
    ("fixed", &["1024"]),
    ("sqrt", &["1024"]),
];

/// The rooms for orders and positions that suffice for every book, as include/desk.h has them.
const ORDERS_ROOM: usize = 8_192 * ORDER;
const POSITIONS_ROOM: usize = 4_096 * POSITION;

/// The original's sides of a row. `parsed`: on parsed values; `whole`: with the reading and parsing of its file.
pub fn sides(row: &str) -> &'static [(&'static str, fn(&Given) -> u64)] {
    match row {
        "validate" => &[("parsed", validated), ("whole", validated_whole)],
        "recover" | "recover-16" | "recover-last" | "recover-positions" | "recover-diffs" => &[("parsed", recovered), ("whole", recovered_whole)],
        "compare" => &[("parsed", compared)],
        "drift" | "drift-shared" | "drift-distinct" => &[("parsed", drifted)],
        "reply" => &[("parsed", replied), ("whole", replied_whole)],
        _ => &[],
    }
}

/// The names of all sides of a row. A float leaf has one of the original's, on the same values.
pub fn names(row: &str) -> Vec<&'static str> {
    let others: Vec<&str> = sides(row).iter().map(|(name, _)| *name).collect();
    [vec!["library"], if others.is_empty() { vec!["parsed"] } else { others }].concat()
}

/// One pass over a row's inputs; the sum of a number of each answer.
pub type Side = Box<dyn FnMut() -> u64>;

pub struct Row {
    pub size: usize,
    /// The library's is the first.
    pub sides: Vec<(&'static str, Side)>,
    judged: Box<dyn Fn() -> Result<(), String>>,
}

impl Row {
    /// The library's bytes are those of the judge, which asks the original; and the sides that are timed answer alike.
    pub fn check(&self) -> Result<(), String> {
        (self.judged)()
    }
}

/// A question to the library, with the bytes that it is lent: the outputs, and the answer after them.
struct Asked {
    entry: &'static Entry,
    inputs: Vec<Bytes>,
    numbers: Vec<u64>,
    lent: Rc<RefCell<Vec<Lent>>>,
}

impl Asked {
    fn new(entry: &'static Entry, inputs: Vec<Vec<u8>>, numbers: Vec<u64>, rooms: &[usize]) -> Asked {
        let lent = Rc::new(RefCell::new(rooms.iter().chain([&entry.answer]).map(|room| Lent::new(*room)).collect()));
        Asked { entry, inputs: inputs.into_iter().map(Bytes::new).collect(), numbers, lent }
    }

    fn arguments(&self) -> Arguments {
        Arguments::new(self.entry, &self.inputs, &self.numbers, &mut self.lent.borrow_mut())
    }

    fn rooms(&self) -> Vec<usize> {
        self.lent.borrow().iter().map(|l| l.bytes().len()).collect()
    }

    /// Every byte as the judge has it, and nothing written beside.
    fn judged(&self) -> Result<(), String> {
        let number = (self.entry.call)(&self.arguments());
        let rooms = &self.rooms()[..self.entry.outputs];
        let due = (self.entry.due)(&self.inputs, &self.numbers).within(rooms);
        // Of a refusal that gives no bytes every output is zero.
        let none = Vec::new();
        let bytes = (0..rooms.len()).map(|i| due.outputs.get(i).unwrap_or(&none)).chain([&due.answer]);
        let same = |(lent, due): (&Lent, &Vec<u8>)| !lent.beside() && lent.bytes().starts_with(due) && lent.bytes()[due.len()..].iter().all(|b| *b == 0);
        if number != due.refusal || !self.lent.borrow().iter().zip(bytes).all(same) {
            return Err(format!("{} answers {number} or bytes that are not the judge's, {} due", self.entry.name, due.refusal));
        }
        Ok(())
    }
}

/// With it each question keeps bytes of its own.
pub static APART: AtomicBool = AtomicBool::new(false);

/// The bytes that a reply is lent.
pub static ROOM: AtomicUsize = AtomicUsize::new(oracle::desk::LENT);

/// Bytes that are lent to a question are lent to the next one, where its rooms are the same: as by a caller that asks again and again.
fn lend_on(asked: &mut [Asked]) {
    for i in 1..asked.len() {
        if asked[i].rooms() == asked[i - 1].rooms() {
            asked[i].lent = asked[i - 1].lent.clone();
        }
    }
}

/// A row of questions to one entry. `read` gives the number of an answer that the original's side gives too.
fn asking(row: &str, size: usize, mut asked: Vec<Asked>, read: fn(u32, &Arguments) -> u64, given: Given) -> Row {
    if !APART.load(Ordering::Relaxed) {
        lend_on(&mut asked);
    }
    let call = asked[0].entry.call;
    let ready: Rc<[Arguments]> = asked.iter().map(Asked::arguments).collect();
    let answers = move |ready: &[Arguments]| ready.iter().map(|of| read(call(of), of)).fold(0, u64::wrapping_add);
    let given = Rc::new(given);
    let asked = Rc::new(asked);
    let library = {
        let (ready, kept) = (ready.clone(), asked.clone());
        move || {
            let _ = &kept;
            answers(black_box(&ready))
        }
    };
    let others = sides(row);
    let mut sides: Vec<(&str, Side)> = vec![("library", Box::new(library))];
    for (name, side) in others {
        let given = given.clone();
        sides.push((name, Box::new(move || side(black_box(&given)))));
    }
    let judged = move || {
        for (i, a) in asked.iter().enumerate() {
            a.judged()?;
            if a.entry.name == entries::REPLY.name {
                let length = ready[i].word(0) as usize;
                if a.lent.borrow()[0].bytes()[..length] != *reply(&given.logs()[i]).as_bytes() {
                    return Err("the two replies differ".into());
                }
            }
        }
        let sum = answers(&ready);
        if others.iter().any(|(_, side)| side(&given) != sum) {
            return Err("the two sides do not answer alike".into());
        }
        Ok(())
    };
    Row { size, sides, judged: Box::new(judged) }
}

/// What the original is given.
pub enum Given {
    Logs(Vec<Log>),
    States(Vec<(Log, recovery::RecoveredState)>),
    Lists(Vec<Lists>),
}

impl Given {
    fn logs(&self) -> &[Log] {
        if let Given::Logs(logs) = self { logs } else { &[] }
    }
}

pub fn row(name: &str, input: &str, folder: &Folder) -> Result<Row, String> {
    let number = || input.parse::<usize>().map_err(|_| format!("no input: {input}"));
    let most = |l: &Log| [ORDER * l.most().0, POSITION * l.most().1];
    let large = |room| if input == "16-MiB" { 16 << 20 } else { room };
    match name {
        "validate" => {
            let logs = inputs::logs(input, folder, false)?;
            let asked = logs.iter().map(|l| Asked::new(&entries::VERDICT, vec![l.bytes.clone()], vec![], &[])).collect();
            Ok(asking(name, events(&logs), asked, |number, _| (number == 0) as u64, Given::Logs(logs)))
        }
        "recover" => Ok(recovery_of(name, inputs::logs(input, folder, false)?, most)),
        "recover-16" => Ok(recovery_of(name, inputs::sixteen(number()?, folder)?, most)),
        "recover-last" => Ok(recovery_of(name, inputs::from_last(number()?, folder)?, most)),
        "recover-positions" => Ok(recovery_of(name, inputs::replaced("positions_fetched", POSITIONS, folder)?, |_| [ORDERS_ROOM, large(POSITIONS_ROOM)])),
        "recover-diffs" => Ok(recovery_of(name, inputs::replaced("diff_computed", ORDERS, folder)?, |_| [large(ORDERS_ROOM), POSITIONS_ROOM])),
        "compare" => {
            let logs = if let Ok(orders) = number() { inputs::submitted(orders, folder)? } else { inputs::logs(input, folder, false)? };
            let (mut asked, mut states, mut size) = (Vec::new(), Vec::new(), 0);
            for log in logs {
                let (state, _) = recover(&log).map_err(|e| format!("{e:?}"))?;
                let records = original::recover(&log.book, 0).map_err(|e| e.0)?.state;
                let lent = vec![records.marks.bytes(), records.order_bytes(), records.position_bytes(), log.sheet.clone()];
                // No record of the report but for a row of the sheet, an order, a position or one of four marks.
                let most = log.sheet.len() / 24 + 2 * state.orders.len() + state.positions.len() + 4;
                size += state.orders.len();
                asked.push(Asked::new(&entries::COMPARE, lent, vec![], &[DISCREPANCY * most]));
                states.push((log, state));
            }
            Ok(asking(name, size, asked, |_, a| a.word(0), Given::States(states)))
        }
        "drift-shared" | "drift-distinct" | "drift" => {
            let lists = if name == "drift" { inputs::random_lists()? } else { inputs::lists(number()?, name == "drift-shared")? };
            let ask = |l: &Lists| Asked::new(&entries::DRIFT, l.bytes.clone(), vec![l.equity as u64], &[64 * (l.held.len() + l.targets.len())]);
            let asked = lists.iter().map(ask).collect();
            let longest = lists.iter().map(|l| l.held.len().max(l.targets.len()).max(l.prices.len()));
            let size = if name == "drift" { longest.sum() } else { longest.max().unwrap_or(0) };
            Ok(asking(name, size, asked, |_, a| a.word(0).wrapping_add(a.word(1) >> 16), Given::Lists(lists)))
        }
        "reply" => {
            let logs = inputs::logs(input, folder, true)?;
            let ask = |l: &Log| Asked::new(&entries::REPLY, vec![l.bytes.clone(), l.sheet.clone()], vec![], &[ROOM.load(Ordering::Relaxed)]);
            let asked = logs.iter().map(ask).collect();
            Ok(asking(name, events(&logs), asked, |_, a| a.word(0), Given::Logs(logs)))
        }
        "cents" => Ok(leaf(library_cents, |f| nanobook_broker::types::f64_cents_checked(f, "value").map_or(0, |n| n as u64))),
        "fixed" => Ok(leaf(library_fixed, |f| nanobook_broker::types::f64_to_fixed_checked(f, 10_000.0, "value").map_or(0, |n| n as u64))),
        "sqrt" => Ok(leaf(library_sqrt, |f| f.abs().sqrt().to_bits())),
        _ => Err(format!("no row: {name}")),
    }
}

/// A row of recoveries, each with rooms for its orders and positions.
fn recovery_of(row: &str, logs: Vec<Log>, rooms: impl Fn(&Log) -> [usize; 2]) -> Row {
    let ask = |l: &Log| Asked::new(&entries::RECOVER, vec![l.bytes.clone()], vec![0], &rooms(l));
    let asked = logs.iter().map(ask).collect();
    asking(row, events(&logs), asked, |_, a| a.word(22) << 32 | a.word(23), Given::Logs(logs))
}

fn events(logs: &[Log]) -> usize {
    logs.iter().map(|l| l.events.len()).sum()
}

fn validated(given: &Given) -> u64 {
    given.logs().iter().map(|l| audit::validate_checkpoints_from_parsed(&l.events).is_ok() as u64).sum()
}

fn validated_whole(given: &Given) -> u64 {
    let one = |l: &Log| audit::parse_audit_events(&l.path).and_then(|events| audit::validate_checkpoints_from_parsed(&events)).is_ok();
    given.logs().iter().map(|l| one(l) as u64).sum()
}

/// The original's recovery of the log's parsed events.
fn recover(log: &Log) -> parsed::error::Result<(RecoveredState, RecoveryAction)> {
    parsed::audit::lend(log.events);
    recovery::reconstruct_state(&log.path)
}

fn recovered(given: &Given) -> u64 {
    let one = |l: &Log| recover(l).map_or(0, |(state, _)| (state.orders.len() as u64) << 32 | state.positions.len() as u64);
    given.logs().iter().map(one).sum()
}

fn recovered_whole(given: &Given) -> u64 {
    let one = |l: &Log| rebalancer::recovery::reconstruct_state(&l.path).map_or(0, |(state, _)| (state.orders.len() as u64) << 32 | state.positions.len() as u64);
    given.logs().iter().map(one).sum()
}

fn compared(given: &Given) -> u64 {
    let Given::States(states) = given else { return 0 };
    states.iter().map(|(log, state)| recovery::compare_broker_state(&log.broker, state).map_or(0, |report| report.discrepancies.len() as u64)).sum()
}

fn drifted(given: &Given) -> u64 {
    let Given::Lists(lists) = given else { return 0 };
    let one = |l: &Lists| {
        let report = reconcile::reconcile(&l.held, &l.targets, &l.prices, l.equity);
        (report.entries.len() as u64).wrapping_add(report.tracking_error_pct.to_bits() >> 16)
    };
    lists.iter().map(one).sum()
}

fn replied(given: &Given) -> u64 {
    given.logs().iter().map(|l| reply(l).len() as u64).sum()
}

fn replied_whole(given: &Given) -> u64 {
    let one = |l: &Log| audit::parse_audit_events(&l.path).map_or(0, |_| reply(l).len() as u64);
    given.logs().iter().map(one).sum()
}

/// The desk's reply of the original's steps: validation and recovery of the parsed events, comparison, and the text.
fn reply(log: &Log) -> String {
    let verdict = original::verdict_of(audit::validate_checkpoints_from_parsed(&log.events));
    let recovered = recover(log).and_then(|(state, action)| Ok((recovery::compare_broker_state(&log.broker, &state)?, state, action)));
    let Ok((report, state, action)) = recovered else { return String::new() };
    let mut out = String::new();
    let mut lines = || {
        writeln!(out, "verdict {} {} {}", verdict.0, verdict.1, verdict.2)?;
        writeln!(out, "action {action:?}")?;
        writeln!(out, "last {:?} {}", state.checkpoint, state.sequence_number)?;
        writeln!(out, "orders {}", state.orders.len())?;
        writeln!(out, "positions {}", state.positions.len())?;
        writeln!(out, "report {}", report.discrepancies.len())?;
        report.discrepancies.iter().try_for_each(|d| writeln!(out, "{}", kind(d)))
    };
    lines().map_or(String::new(), |()| out)
}

/// Document 01's number of a discrepancy.
fn kind(of: &Discrepancy) -> u32 {
    match of {
        Discrepancy::OrphanOrder { .. } => 1,
        Discrepancy::MissingOrder { .. } => 2,
        Discrepancy::OrderStatusMismatch { .. } => 3,
        Discrepancy::PositionMismatch { .. } => 4,
        Discrepancy::IncompleteIntent { .. } => 5,
        Discrepancy::IncompletePositionsIntent { .. } => 6,
        Discrepancy::IncompleteQuotesIntent { .. } => 7,
        Discrepancy::IncompleteAccountSummaryIntent { .. } => 8,
        Discrepancy::IncompleteCancelIntent { .. } => 9,
    }
}

/// A function of one float: the sum of its answers, each of which is compared.
fn leaf(library: fn(f64) -> u64, original: fn(f64) -> u64) -> Row {
    let floats = inputs::floats();
    let judged = {
        let floats = floats.clone();
        move || match floats.iter().find(|f| library(**f) != original(**f)) {
            Some(f) => Err(format!("{f} is answered otherwise")),
            None => Ok(()),
        }
    };
    let over = move |of: fn(f64) -> u64, floats: Vec<f64>| Box::new(move || floats.iter().fold(0, |sum: u64, f| sum.wrapping_add(of(black_box(*f))))) as Side;
    Row { size: FLOATS, sides: vec![("library", over(library, floats.clone())), ("parsed", over(original, floats))], judged: Box::new(judged) }
}

extern "C" {
    fn desk_f64_to_fixed_checked(value: u64, scale: u64, answer: *mut u8, length: usize) -> u32;
    fn desk_f64_cents_checked(value: u64, answer: *mut u8, length: usize) -> u32;
    fn desk_sqrt(bits: u64) -> u64;
}

fn library_cents(value: f64) -> u64 {
    let mut answer = [0; 8];
    // Safe: the pointer is to the eight bytes that its length says.
    unsafe { desk_f64_cents_checked(value.to_bits(), answer.as_mut_ptr(), answer.len()) };
    u64::from_le_bytes(answer)
}

fn library_fixed(value: f64) -> u64 {
    let mut answer = [0; 8];
    // Safe: as above.
    unsafe { desk_f64_to_fixed_checked(value.to_bits(), 10_000f64.to_bits(), answer.as_mut_ptr(), answer.len()) };
    u64::from_le_bytes(answer)
}

fn library_sqrt(value: f64) -> u64 {
    // Safe: numbers alone go in and out.
    unsafe { desk_sqrt(value.abs().to_bits()) }
}

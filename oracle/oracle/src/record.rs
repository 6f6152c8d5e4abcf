//! The recorded list's cases, answered by the original. The crate `recorded` lays them out as crates/replay/FORMAT.md says.

use doc01::answers::{self, Addendum, DriftAnswer, Lent};
use doc01::{Book, Refusal};
use generator::{Case, DriftCase, FixedCase, LogCase, RecordsCase, Side};
use recorded::{differences, stored, words, Inputs, Judge, Recovery, Stored};

use crate::{judge, original, reference, rule_cases};

/// Which cases are recorded: kind, seed, how many, the most bytes of their book.
const DRAWN: [(&str, u64, u64, usize); 8] = [
    ("runs", 2026, 100, 3_100),
    ("wild", 2026, 25, 2_200),
    ("damaged", 2026, 60, 1_500),
    ("sheets", 2026, 45, 2_000),
    ("queries", 2026, 45, 2_700),
    ("drift", 2026, 90, 0),
    ("fixed", 2026, 200, 0),
    ("records", 2026, 60, 0),
];

/// Cases beside those, each telling an edit of the original that the drawn ones leave unseen.
const ADDED: [(&str, u64, u64); 7] = [
    ("runs", 1, 12),
    ("runs", 1, 128),
    ("runs", 1, 528),
    ("runs", 1, 684),
    ("runs", 1, 877),
    ("drift", 1, 40),
    ("drift", 1, 134),
];

/// The original, and document 01's reading where it has no answer.
struct Original;

impl Judge for Original {
    fn verdict(&self, book: &[u8]) -> (u32, u32, u32) {
        judge::validate_checkpoints_from_parsed(book)
    }

    fn highest(&self, book: &[u8]) -> Result<u64, Refusal> {
        judge::max_checkpoint_sequence(book)
    }

    fn window(&self, book: &[u8], id: &[u8]) -> Result<Option<u64>, Refusal> {
        judge::check_window_already_complete(book, id)
    }

    fn reply(&self, book: &[u8], sheet: &[u8]) -> String {
        judge::reply(book, sheet)
    }

    fn recover(&self, book: &[u8], time: i64, orders_room: usize, positions_room: usize) -> Result<Recovery, Refusal> {
        judge::reconstruct_state(book, time, orders_room, positions_room)
    }

    fn action(&self, marks: &[u8], orders: &[u8]) -> Result<u32, Refusal> {
        answers::action(judge::action_of, marks, orders)
    }

    fn compare(&self, marks: &[u8], orders: &[u8], positions: &[u8], sheet: &[u8], room: usize) -> Result<Vec<u8>, Refusal> {
        answers::compare(judge::report_of, marks, orders, positions, sheet, room)
    }

    fn reconcile(&self, marks: &[u8], orders: &[u8], sheet: &[u8], queries: &[u8], time: i64, room: usize) -> Result<Addendum, Refusal> {
        answers::reconcile(judge::entries_of, marks, orders, sheet, queries, time, room)
    }

    fn join(&self, a: &[u8], b: &[u8], k: u64, room: usize) -> Result<Vec<u8>, Refusal> {
        judge::join(a, b, k, room)
    }

    fn equal(&self, x: Lent, y: Lent) -> Result<bool, Refusal> {
        answers::states_equal(x, y)
    }

    fn drift(&self, holdings: &[u8], targets: &[u8], prices: &[u8], equity: i64, room: usize) -> Result<DriftAnswer, Refusal> {
        judge::drift(holdings, targets, prices, equity, room)
    }

    fn held(&self, holdings: &[u8], prices: &[u8]) -> Result<i64, Refusal> {
        judge::held_value(holdings, prices)
    }

    fn fixed(&self, value: u64, scale: u64) -> Result<i64, Refusal> {
        judge::f64_to_fixed_checked(value, scale)
    }

    fn cents(&self, value: u64) -> Result<i64, Refusal> {
        judge::f64_cents_checked(value)
    }

    fn cast(&self, value: u64) -> i64 {
        original::limit(value)
    }
}

/// A generated case as the list has it.
fn inputs(case: &Case) -> Inputs {
    let (kind, sections) = match case {
        Case::Log(LogCase { book, sheet, queries, window, time, entry_time, k, rooms }) => {
            let mut numbers = vec![*time as u64, *entry_time as u64, *k];
            numbers.extend(rooms.map(|r| r as u64));
            (recorded::LOG, vec![book.clone(), sheet.clone(), queries.clone(), window.clone(), words(&numbers)])
        }
        Case::Drift(DriftCase { holdings, targets, prices, equity, room }) => {
            (recorded::DRIFT, vec![holdings.clone(), targets.clone(), prices.clone(), words(&[*equity as u64, *room as u64])])
        }
        Case::Fixed(FixedCase { value, scale }) => (recorded::CONVERSION, vec![words(&[*value, *scale])]),
        Case::Records(RecordsCase { first, second, sheet, queries, time, rooms }) => {
            let side = |s: &Side| [s.book.clone(), s.marks.bytes(), s.orders.clone(), s.positions.clone()];
            let numbers = words(&[*time as u64, rooms[0] as u64, rooms[1] as u64]);
            (recorded::LENT_STATES, [&side(first)[..], &side(second), &[sheet.clone(), queries.clone(), numbers]].concat())
        }
    };
    Inputs { kind, sections }
}

/// Whether the original can be given the case: a book that is read has UTF-8 texts.
fn in_domain(case: &Case) -> bool {
    match case {
        Case::Log(log) => Book::parse(&log.book).map_or(true, |b| b.in_domain()) && std::str::from_utf8(&log.window).is_ok(),
        _ => true,
    }
}

/// The cases of the list with their names, in order: the reference sequence, drawn cases, added cases, cases for single rules.
fn cases() -> Vec<(String, Inputs)> {
    let mut out: Vec<(String, Inputs)> =
        reference::cases().iter().enumerate().map(|(i, case)| (format!("reference {i}"), inputs(case))).collect();
    let drawn = |kind, seed, number| generator::case(kind, seed, number).expect("a kind");
    for (kind, seed, count, bytes) in DRAWN {
        let fits = |case: &Case| match case {
            Case::Log(log) => log.book.len() <= bytes,
            _ => recorded::body(&inputs(case), &Original).len() <= 1_200,
        };
        let named = (0..).map(|number| (format!("{kind} {seed} {number}"), drawn(kind, seed, number)));
        let taken = named.filter(|(_, c)| fits(c) && in_domain(c)).take(count as usize);
        out.extend(taken.map(|(name, case)| (name, inputs(&case))));
    }
    out.extend(ADDED.map(|(kind, seed, number)| (format!("{kind} {seed} {number}"), inputs(&drawn(kind, seed, number)))));
    out.extend(rule_cases::cases());
    out
}

/// Writes the list, and beside it the cases' names, a line each.
pub fn write(file: &str, names: &str) -> Result<bool, String> {
    let (named, cases): (Vec<String>, Vec<Inputs>) = cases().into_iter().unzip();
    let out = recorded::file(&cases, &Original);
    println!("{} cases, {} bytes", cases.len(), out.len());
    let many = |of: u32| cases.iter().filter(|c| c.kind == of).count();
    println!("{} logs, {} drift inputs, {} conversions, {} lent states, {} joins", many(1), many(2), many(3), many(4), many(5));
    std::fs::write(file, out).map_err(|e| format!("{file}: {e}"))?;
    let lines: String = named.iter().enumerate().map(|(i, name)| format!("{i} {name}\n")).collect();
    std::fs::write(names, lines).map_err(|e| format!("{names}: {e}"))?;
    Ok(true)
}

fn list(file: &str) -> Result<Vec<Stored>, String> {
    let bytes = std::fs::read(file).map_err(|e| format!("{file}: {e}"))?;
    stored(&bytes).ok_or(format!("{file}: no recorded list"))
}

/// The first case of the file whose answers are not today's, counted from 0.
pub fn first_difference(file: &str) -> Result<Option<usize>, String> {
    Ok(differences(&list(file)?, &Original).next())
}

/// Answers the file's cases again, by the original and by document 01's reading alone; true if every answer is the stored one.
pub fn replay(file: &str) -> Result<bool, String> {
    let list = list(file)?;
    let mut same = true;
    for (who, judge) in [("the original", &Original as &dyn Judge), ("document 01's reading", &recorded::Reading)] {
        match differences(&list, judge).next() {
            None => println!("{} cases, every answer of {who} the recorded one", list.len()),
            Some(case) => println!("{who}: case {case} differs"),
        }
        same &= differences(&list, judge).next().is_none();
    }
    Ok(same)
}

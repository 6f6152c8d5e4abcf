//! All that is observable of one case, as named parts, with the oracle's own checks on the way.

use std::collections::BTreeMap;
use std::panic::{catch_unwind, AssertUnwindSafe};

use doc01::join::join;
use doc01::records::report_bytes;
use doc01::{Book, Sheet, State, ACTIONS};
use generator::{Case, DriftCase, FixedCase, LogCase, RecordsCase, Side};

use crate::judge::{self, Lent};
use crate::original::{self, Recovered};
use crate::{desk, fault, Panicked, FAULT};

/// Named parts in a fixed order, and what a summary counts.
#[derive(Debug, Clone, Default)]
pub struct Answer {
    pub parts: Vec<(&'static str, Vec<u8>)>,
    pub counts: BTreeMap<String, u64>,
}

impl Answer {
    fn put(&mut self, name: &'static str, bytes: impl Into<Vec<u8>>) {
        self.parts.push((name, bytes.into()));
    }

    fn say(&mut self, name: &'static str, text: impl std::fmt::Display) {
        self.put(name, text.to_string());
    }

    fn count(&mut self, what: impl Into<String>) {
        *self.counts.entry(what.into()).or_default() += 1;
    }

    fn count_many(&mut self, what: &str, many: u64) {
        *self.counts.entry(what.into()).or_default() += many;
    }

    /// A 64-bit digest (FNV-1a) of all parts.
    pub fn digest(&self) -> u64 {
        let mut hash = 0xcbf2_9ce4_8422_2325u64;
        for (name, bytes) in &self.parts {
            let length = (bytes.len() as u64).to_le_bytes();
            for byte in name.bytes().chain(length).chain(bytes.iter().copied()) {
                hash = (hash ^ byte as u64).wrapping_mul(0x0100_0000_01b3);
            }
        }
        hash
    }

    pub fn part(&self, name: &str) -> Option<&[u8]> {
        self.parts.iter().find(|(n, _)| *n == name).map(|(_, bytes)| &bytes[..])
    }

    /// The parts on lines: text as it is, other bytes in hexadecimal.
    pub fn text(&self) -> String {
        let mut out = String::new();
        for (name, bytes) in &self.parts {
            let printable = bytes.iter().all(|b| (b' '..=b'~').contains(b) || *b == b'\n');
            let shown = if printable {
                String::from_utf8_lossy(bytes).trim_end().replace('\n', " | ")
            } else {
                bytes.iter().map(|b| format!("{b:02x}")).collect()
            };
            out.push_str(&format!("  {name}: {shown}\n"));
        }
        out
    }
}

/// The answer to a case. A fault of the oracle itself is counted as `fault` and is the answer's only part.
pub fn answer(case: &Case) -> Answer {
    let result = catch_unwind(AssertUnwindSafe(|| match case {
        Case::Log(log) => of_log(log),
        Case::Records(records) => of_records(records),
        Case::Drift(drift) => of_drift(drift),
        Case::Fixed(fixed) => of_fixed(fixed),
    }));
    result.unwrap_or_else(|payload| {
        let text = payload.downcast_ref::<String>().cloned().unwrap_or_default();
        let mut answer = Answer::default();
        answer.say("fault", text.strip_prefix(FAULT).unwrap_or(&text));
        answer.count("faults of the oracle");
        answer
    })
}

fn refusal<T>(result: &Result<T, u32>) -> u32 {
    result.as_ref().err().copied().unwrap_or(0)
}

fn of_log(case: &LogCase) -> Answer {
    let mut answer = Answer::default();
    let book = Book::parse(&case.book);
    let sheet = Sheet::parse(&case.sheet);
    answer.say("book", refusal(&book));
    answer.say("sheet", refusal(&sheet));
    answer.count(format!("book {}", refusal(&book)));
    answer.count(format!("sheet {}", refusal(&sheet)));
    let reply = desk::reply(Some(&case.book), Some(&case.sheet));
    if reply.starts_with("refused") {
        answer.count(format!("desk {}", reply.trim_end()));
    }
    answer.put("desk", reply);
    let Ok(book) = book else { return answer };
    if book.bytes() != case.book {
        fault("a well-formed book has one form");
    }
    let recovered = of_book(&mut answer, case, &book);
    if let (Some(recovered), Ok(sheet)) = (recovered, sheet) {
        if sheet.bytes() != case.sheet {
            fault("a well-formed sheet has one form");
        }
        of_sheet(&mut answer, case, &book, &recovered, &sheet);
    }
    answer
}

/// Verdict, recovery, action, largest number and window.
fn of_book(answer: &mut Answer, case: &LogCase, book: &Book) -> Option<Recovered> {
    answer.count(if book.in_domain() { "in the original's domain" } else { "texts not UTF-8" });
    answer.count_many("events", book.events.len() as u64);
    match original::verdict(book) {
        Ok((refusal, event, checkpoint)) => {
            answer.say("verdict", format!("{refusal} {event} {checkpoint}"));
            answer.count(format!("verdict {refusal}"));
        }
        Err(Panicked(_)) => answer.say("verdict", "panic"),
    }
    match original::max_checkpoint_sequence(book) {
        Ok(number) => answer.say("max", number),
        Err(Panicked(_)) => answer.say("max", "panic"),
    }
    match original::window_complete(book, &case.window) {
        Ok(Some(number)) => {
            answer.say("window", number);
            answer.count("window complete");
        }
        Ok(None) => answer.say("window", "none"),
        Err(Panicked(_)) => answer.say("window", "panic"),
    }
    let recovered = match original::recover(book, case.time) {
        Ok(recovered) => recovered,
        Err(Panicked(_)) => {
            answer.say("marks", "panic");
            return None;
        }
    };
    let state = &recovered.state;
    answer.put("marks", state.marks.bytes());
    answer.put("orders", state.order_bytes());
    answer.put("positions", state.position_bytes());
    answer.say("action", recovered.action);
    answer.count(format!("action {}", ACTIONS.get(recovered.action as usize).unwrap_or(&"Rollback")));
    answer.count_many("orders", state.orders.len() as u64);
    answer.count_many("positions", state.positions.len() as u64);
    if original::action(state) != Ok(recovered.action) {
        fault("the action of the state is not recovery's");
    }
    let events = book.events.len();
    let cut = (case.book.len() + case.window.len()) % (events + 1);
    if events < 200 {
        match original::marks_after(book, case.time, cut) {
            Ok(marks) => answer.put("step", marks.bytes()),
            Err(Panicked(_)) => answer.say("step", "panic"),
        }
    }
    let judged = judge::reconstruct_state(&case.book, case.time, case.rooms[0], case.rooms[1]);
    answer.say("recovery", refusal(&judged));
    answer.count(format!("recovery {}", refusal(&judged)));
    Some(recovered)
}

/// Report, entries, join and equality.
fn of_sheet(answer: &mut Answer, case: &LogCase, book: &Book, recovered: &Recovered, sheet: &Sheet) {
    let state = &recovered.state;
    match original::compare_recovered(book, recovered, sheet) {
        Ok(report) => {
            report.iter().for_each(|d| answer.count(format!("discrepancy {}", d.kind)));
            if report != original::compare(state, sheet).unwrap_or_default() {
                fault("the report of the state is not the recovered state's");
            }
            answer.put("report", report_bytes(&report));
        }
        Err(Panicked(_)) => answer.say("report", "panic"),
    }
    let (orders, positions) = (state.order_bytes(), state.position_bytes());
    let judged = judge::compare_broker_state(&state.marks, &orders, &positions, &case.sheet, case.rooms[2]);
    answer.say("compare", refusal(&judged));
    answer.count(format!("compare {}", refusal(&judged)));

    let reconciled = original::reconcile(state, sheet, &case.queries);
    let space = state.marks.number as u128 + 1 + state.intents() as u128 <= u64::MAX as u128;
    match &reconciled.unreached {
        Ok(unreached) => {
            answer.say("unreached", unreached);
            answer.count_many("unreached", *unreached);
            if !space {
                answer.count("refusal 8 where the original answers");
            }
            if reconciled.entries.len() as u64 + unreached != state.intents() as u64 {
                fault("entries and unreached do not sum to the intents");
            }
        }
        Err(Panicked(_)) => {
            answer.say("unreached", "panic");
            answer.count("refusal 8 where the original panics");
            if space {
                fault("reconciling panics with number space");
            }
        }
    }
    answer.count_many("entries", reconciled.entries.len() as u64);
    answer.put("entries", reconciled.addendum(0).bytes());
    let judged = judge::reconcile_incomplete_intents(&state.marks, &orders, &case.sheet, &case.queries, case.entry_time, case.rooms[3]);
    answer.say("reconcile", refusal(&judged));
    answer.count(format!("reconcile {}", refusal(&judged)));
    own_log(answer, case, book, recovered, sheet, &reconciled);

    let addendum = reconciled.addendum(0).bytes();
    let after = judge::join(&case.book, &addendum, case.k, case.rooms[4]);
    answer.say("join", refusal(&after));
    answer.count(format!("join {}", refusal(&after)));
    if let Ok(after) = after {
        let Ok(joined) = Book::parse(&after) else { fault("a joined book is refused") };
        if let Ok(again) = original::recover(&joined, case.time) {
            answer.put("joined", again.state.marks.bytes());
            let equal = equal(&case.book, state, &after, &again.state);
            answer.say("equal", format!("{equal:?}"));
            answer.count(format!("equal {equal:?}"));
        }
    }
}

fn equal(a: &[u8], x: &State, b: &[u8], y: &State) -> Result<bool, u32> {
    let (xo, xp, yo, yp) = (x.order_bytes(), x.position_bytes(), y.order_bytes(), y.position_bytes());
    judge::states_equal(
        Lent { book: a, marks: &x.marks, orders: &xo, positions: &xp },
        Lent { book: b, marks: &y.marks, orders: &yo, positions: &yp },
    )
}

/// The same entries appended to the log itself; the state that the original then recovers is that of the joined book.
fn own_log(
    answer: &mut Answer,
    case: &LogCase,
    book: &Book,
    recovered: &Recovered,
    sheet: &Sheet,
    reconciled: &original::Reconciled,
) {
    if recovered.state.intents() == 0 {
        return;
    }
    let Ok((own, after)) = original::reconcile_recovered(book, recovered, sheet, &case.queries) else {
        return answer.say("after", "panic");
    };
    if own != *reconciled {
        fault("reconciling on the log and on an empty file differ");
    }
    let addendum = reconciled.addendum(0);
    if let Ok(joined) = join(book, &addendum, addendum.events.len() as u64) {
        match original::recover(&joined, case.time) {
            Ok(again) if original::timeless(&again.plain) == after => answer.count("joined as appended"),
            Ok(_) => fault("the joined book and the appended log recover differently"),
            Err(Panicked(_)) => answer.say("after", "panic"),
        }
    }
}

/// A generated state as the judge takes it.
pub fn lent(side: &Side) -> Lent<'_> {
    Lent { book: &side.book, marks: &side.marks, orders: &side.orders, positions: &side.positions }
}

fn of_records(case: &RecordsCase) -> Answer {
    let mut answer = Answer::default();
    let Side { marks, orders, positions, .. } = &case.first;
    let [report_room, addendum_room] = case.rooms;
    let action = judge::determine_recovery_action(marks, orders);
    answer.say("action", format!("{action:?}"));
    answer.count(format!("action {action:?}"));
    let report = judge::compare_broker_state(marks, orders, positions, &case.sheet, report_room);
    answer.say("compare", refusal(&report));
    answer.count(format!("compare {}", refusal(&report)));
    answer.put("report", report.unwrap_or_default());
    let addendum = judge::reconcile_incomplete_intents(marks, orders, &case.sheet, &case.queries, case.time, addendum_room);
    answer.say("reconcile", refusal(&addendum));
    answer.count(format!("reconcile {}", refusal(&addendum)));
    if let Ok(addendum) = addendum {
        answer.say("counts", format!("{} {}", addendum.entries, addendum.unreached));
        answer.put("addendum", addendum.book);
    }
    let equal = judge::states_equal(lent(&case.first), lent(&case.second));
    answer.say("equal", format!("{equal:?}"));
    answer.count(format!("equal {equal:?}"));
    answer
}

fn of_drift(case: &DriftCase) -> Answer {
    let mut answer = Answer::default();
    let drift = judge::drift(&case.holdings, &case.targets, &case.prices, case.equity, case.room);
    answer.say("drift", refusal(&drift));
    answer.count(format!("drift {}", refusal(&drift)));
    if let Ok(drift) = drift {
        answer.count_many("drift entries", drift.entries.len() as u64 / 64);
        answer.put("entries", drift.entries);
        answer.say("tracking", format!("{:016x}", drift.tracking));
    }
    let held = judge::held_value(&case.holdings, &case.prices);
    answer.say("held", format!("{held:?}"));
    answer.count(format!("held {}", refusal(&held)));
    answer
}

fn of_fixed(case: &FixedCase) -> Answer {
    let mut answer = Answer::default();
    let fixed = original::fixed(case.value, case.scale);
    let cents = original::cents(case.value);
    if let Ok(fixed) = &fixed {
        answer.count(format!("fixed {}", refusal(fixed)));
    }
    if let Ok(cents) = &cents {
        answer.count(format!("cents {}", refusal(cents)));
    }
    answer.say("fixed", format!("{fixed:?}"));
    answer.say("cents", format!("{cents:?}"));
    answer.say("limit", original::limit(case.value));
    answer
}

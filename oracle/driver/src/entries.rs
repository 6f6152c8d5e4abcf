//! Each entry of the library with the judge's answer to the same inputs.

use std::rc::Rc;

use oracle::doc01::records::{DISCREPANCY, ORDER, POSITION};
use oracle::doc01::{Book, Marks, Sheet};
use oracle::judge;
use oracle::log::Log;

use crate::library::{self, Arguments};

/// The judge's answer where the rooms of the outputs suffice: the refusal's number, the bytes at the start of each output, the answer's bytes. All
/// other bytes are zero.
#[derive(Debug, Clone, PartialEq, Eq)]
pub struct Due {
    pub refusal: u32,
    /// The room that each output must have, as far as rooms are tested before the refusal: a smaller one is refused by 3 instead.
    pub needs: Vec<usize>,
    pub outputs: Vec<Vec<u8>>,
    pub answer: Vec<u8>,
}

impl Due {
    /// Whether the rooms of the outputs suffice.
    pub fn fits(&self, rooms: &[usize]) -> bool {
        self.needs.iter().zip(rooms).all(|(need, room)| need <= room)
    }

    /// The judge's answer in given rooms of the outputs.
    pub fn within(self, rooms: &[usize]) -> Due {
        if self.fits(rooms) {
            self
        } else {
            refused(3)
        }
    }

    /// Of an entry that tests the rooms of its outputs after all else, and needs as much as it writes.
    pub(crate) fn said(outputs: Vec<Vec<u8>>, answer: Vec<u8>) -> Due {
        Due { refusal: 0, needs: outputs.iter().map(Vec::len).collect(), outputs, answer }
    }
}

/// An input, which several questions may share.
pub type Bytes = Rc<Vec<u8>>;

#[derive(Clone, Copy)]
pub struct Entry {
    pub name: &'static str,
    /// What the inputs and numbers are, for a print.
    pub inputs: &'static [&'static str],
    pub numbers: &'static [&'static str],
    /// Lent outputs before the answer, and the answer's length in bytes, 0 where the number is all.
    pub outputs: usize,
    pub answer: usize,
    /// Whether the last input is lent as the first output, and altered in place.
    pub held: bool,
    pub due: fn(&[Bytes], &[u64]) -> Due,
    pub call: fn(&Arguments) -> u32,
}

/// The refusal of a question that the judge does not answer.
pub const UNJUDGED: u32 = u32::MAX;

/// Bytes of recovery's answer: the marks, three numbers.
const RECOVERED: usize = 176 + 24;
const TWO: usize = 16;
const THREE: usize = 24;

pub(crate) fn numbers(of: &[u64]) -> Vec<u8> {
    of.iter().flat_map(|n| n.to_le_bytes()).collect()
}

pub(crate) fn refused(refusal: u32) -> Due {
    Due { refusal, needs: Vec::new(), outputs: Vec::new(), answer: Vec::new() }
}

pub(crate) fn two(said: Result<(u64, u64), u32>) -> Due {
    match said {
        Ok((a, b)) => Due::said(Vec::new(), numbers(&[a, b])),
        Err(refusal) => refused(refusal),
    }
}

pub(crate) fn written(said: Result<(Vec<u8>, u64, u64), u32>) -> Due {
    match said {
        Ok((output, a, b)) => Due::said(vec![output], numbers(&[a, b])),
        Err(refusal) => refused(refusal),
    }
}

/// Written into the held bytes, of which no more are lent.
pub(crate) fn in_place(said: Result<(Vec<u8>, u64, u64), u32>) -> Due {
    Due { needs: Vec::new(), ..written(said) }
}

/// Lent marks; a record that is none is refused by 2, after 1 of whatever is lent beside it.
pub(crate) fn marks(bytes: &[u8]) -> Result<Marks, u32> {
    Marks::parse(bytes).ok_or(2)
}

/// The rooms are tested after each event, so that a room that takes the end's records need not do.
fn recover(inputs: &[Bytes], times: &[u64]) -> Result<Due, u32> {
    let said = judge::reconstruct_state(&inputs[0], times[0] as i64, usize::MAX, usize::MAX)?;
    let (orders, positions) = judge::most_recovered(&inputs[0])?;
    let counts = [(said.orders.len() / ORDER) as u64, (said.positions.len() / POSITION) as u64, said.action as u64];
    let answer = [said.marks.bytes(), numbers(&counts)].concat();
    Ok(Due { refusal: 0, needs: vec![orders * ORDER, positions * POSITION], outputs: vec![said.orders, said.positions], answer })
}

fn action(inputs: &[Bytes]) -> Result<(u64, u64), u32> {
    Ok((judge::determine_recovery_action(&marks(&inputs[0])?, &inputs[1])? as u64, 0))
}

fn equal(inputs: &[Bytes]) -> Result<(u64, u64), u32> {
    Book::limits(&inputs[0])?;
    Book::limits(&inputs[4])?;
    let (a, b) = (marks(&inputs[1])?, marks(&inputs[5])?);
    let x = judge::Lent { book: &inputs[0], marks: &a, orders: &inputs[2], positions: &inputs[3] };
    let y = judge::Lent { book: &inputs[4], marks: &b, orders: &inputs[6], positions: &inputs[7] };
    Ok((judge::states_equal(x, y)? as u64, 0))
}

fn compared(inputs: &[Bytes]) -> Result<(Vec<u8>, u64, u64), u32> {
    Sheet::limits(&inputs[3])?;
    let report = judge::compare_broker_state(&marks(&inputs[0])?, &inputs[1], &inputs[2], &inputs[3], usize::MAX)?;
    let count = (report.len() / DISCREPANCY) as u64;
    Ok((report, count, (count > 0) as u64))
}

fn replied(inputs: &[Bytes]) -> Due {
    let text = judge::reply(&inputs[0], &inputs[1]).into_bytes();
    let length = text.len() as u64;
    written(Ok((text, length, 0)))
}

fn drifted(inputs: &[Bytes], numbers: &[u64]) -> Result<(Vec<u8>, u64, u64), u32> {
    let said = judge::drift(&inputs[0], &inputs[1], &inputs[2], numbers[0] as i64, usize::MAX)?;
    let count = (said.entries.len() / 64) as u64;
    Ok((said.entries, count, said.tracking))
}

/// The original gives marks after a number of a book's events, so other marks are not judged. Where no event has set the time, it is the marks'.
fn step(inputs: &[Bytes], numbers: &[u64]) -> Result<(Vec<u8>, u64, u64), u32> {
    Book::limits(&inputs[0])?;
    let marks = marks(&inputs[1])?;
    let log = Log::of(&inputs[0])?;
    let next = numbers[0] as u32 as usize;
    if next >= log.book.events.len() {
        return Ok((inputs[1].to_vec(), 0, 0));
    }
    let before = if next == 0 { Marks::begin(marks.time) } else { judge::step(&inputs[0], marks.time, next - 1)?.ok_or(UNJUDGED)? };
    if before != marks {
        return Err(UNJUDGED);
    }
    Ok((judge::step(&inputs[0], marks.time, next)?.ok_or(UNJUDGED)?.bytes(), 1, 0))
}

fn joined(inputs: &[Bytes], numbers: &[u64]) -> Result<(Vec<u8>, u64, u64), u32> {
    let book = judge::join(&inputs[0], &inputs[1], numbers[0], usize::MAX)?;
    let length = book.len() as u64;
    Ok((book, length, 0))
}

fn reconciled(inputs: &[Bytes], times: &[u64]) -> Result<Due, u32> {
    Sheet::limits(&inputs[2])?;
    let marks = marks(&inputs[0])?;
    let said = judge::reconcile_incomplete_intents(&marks, &inputs[1], &inputs[2], &inputs[3], times[0] as i64, usize::MAX)?;
    let answer = numbers(&[said.entries, said.unreached, said.book.len() as u64]);
    Ok(Due::said(vec![said.book], answer))
}

/// Recovery, reconciling on what it gave, and the join; a call that is refused refuses the round.
fn round(inputs: &[Bytes], said: &[u64]) -> Result<Due, u32> {
    let recovered = recover(&inputs[..1], &said[..1])?;
    let marks = marks(&recovered.answer[..176])?;
    let settled = judge::reconcile_incomplete_intents(&marks, &recovered.outputs[0], &inputs[1], &inputs[2], said[1] as i64, usize::MAX);
    Ok(rounded(recovered, settled, &inputs[0], said[2]))
}

/// The round after recovery. Each call tests its rooms after its other refusals, and before the next call's.
pub(crate) fn rounded(recovered: Due, settled: Result<judge::Addendum, u32>, book: &[u8], k: u64) -> Due {
    let mut due = recovered;
    let joined = settled.and_then(|addendum| {
        due.needs.push(addendum.book.len());
        due.outputs.push(addendum.book);
        judge::join(book, &due.outputs[2], k, usize::MAX)
    });
    match joined {
        Ok(joined) => {
            due.needs.push(joined.len());
            due.answer = numbers(&[joined.len() as u64, 0]);
            due.outputs.push(joined);
            due
        }
        Err(refusal) => Due { needs: due.needs, ..refused(refusal) },
    }
}

fn verdict(inputs: &[Bytes]) -> Due {
    let (refusal, event, checkpoint) = judge::validate_checkpoints_from_parsed(&inputs[0]);
    Due { answer: numbers(&[event as u64, checkpoint as u64]), ..refused(refusal) }
}

pub static CHECK_BOOK: Entry = Entry {
    name: "desk_check_book",
    inputs: &["book"],
    numbers: &[],
    outputs: 0,
    answer: 0,
    held: false,
    due: |inputs, _| refused(judge::check_book(&inputs[0]).err().unwrap_or(0)),
    call: library::desk_check_book,
};

pub static CHECK_SHEET: Entry = Entry {
    name: "desk_check_sheet",
    inputs: &["sheet"],
    numbers: &[],
    outputs: 0,
    answer: 0,
    held: false,
    due: |inputs, _| refused(Sheet::parse(&inputs[0]).err().unwrap_or(0)),
    call: library::desk_check_sheet,
};

pub static VERDICT: Entry = Entry {
    name: "desk_validate_checkpoints",
    inputs: &["book"],
    numbers: &[],
    outputs: 0,
    answer: TWO,
    held: false,
    due: |inputs, _| verdict(inputs),
    call: library::desk_validate_checkpoints,
};

pub static MAX: Entry = Entry {
    name: "desk_max_checkpoint_sequence",
    inputs: &["book"],
    numbers: &[],
    outputs: 0,
    answer: TWO,
    held: false,
    due: |inputs, _| two(judge::max_checkpoint_sequence(&inputs[0]).map(|n| (n, 0))),
    call: library::desk_max_checkpoint_sequence,
};

pub static WINDOW: Entry = Entry {
    name: "desk_check_window_already_complete",
    inputs: &["book", "window"],
    numbers: &[],
    outputs: 0,
    answer: TWO,
    held: false,
    due: |inputs, _| two(judge::check_window_already_complete(&inputs[0], &inputs[1]).map(|n| (n.is_some() as u64, n.unwrap_or(0)))),
    call: library::desk_check_window_already_complete,
};

pub static RECOVER: Entry = Entry {
    name: "desk_reconstruct_state",
    inputs: &["book"],
    numbers: &["time"],
    outputs: 2,
    answer: RECOVERED,
    held: false,
    due: |inputs, numbers| recover(inputs, numbers).unwrap_or_else(refused),
    call: library::desk_reconstruct_state,
};

pub static ACTION: Entry = Entry {
    name: "desk_recovery_action",
    inputs: &["marks", "orders"],
    numbers: &[],
    outputs: 0,
    answer: TWO,
    held: false,
    due: |inputs, _| two(action(inputs)),
    call: library::desk_recovery_action,
};

pub static EQUAL: Entry = Entry {
    name: "desk_states_equal",
    inputs: &["first book", "marks", "orders", "positions", "second book", "marks", "orders", "positions"],
    numbers: &[],
    outputs: 0,
    answer: TWO,
    held: false,
    due: |inputs, _| two(equal(inputs)),
    call: library::desk_states_equal,
};

pub static COMPARE: Entry = Entry {
    name: "desk_compare_broker_state",
    inputs: &["marks", "orders", "positions", "sheet"],
    numbers: &[],
    outputs: 1,
    answer: TWO,
    held: false,
    due: |inputs, _| written(compared(inputs)),
    call: library::desk_compare_broker_state,
};

pub static STEP: Entry = Entry {
    name: "desk_step",
    inputs: &["book", "marks"],
    numbers: &["next"],
    outputs: 1,
    answer: TWO,
    held: true,
    due: |inputs, numbers| in_place(step(inputs, numbers)),
    call: library::desk_step,
};

pub static REPLY: Entry = Entry {
    name: "desk_reply",
    inputs: &["book", "sheet"],
    numbers: &[],
    outputs: 1,
    answer: TWO,
    held: false,
    due: |inputs, _| replied(inputs),
    call: library::desk_reply,
};

pub static DRIFT: Entry = Entry {
    name: "desk_reconcile",
    inputs: &["positions", "targets", "prices"],
    numbers: &["equity"],
    outputs: 1,
    answer: TWO,
    held: false,
    due: |inputs, numbers| written(drifted(inputs, numbers)),
    call: library::desk_reconcile,
};

pub static HELD: Entry = Entry {
    name: "desk_held_value",
    inputs: &["positions", "prices"],
    numbers: &[],
    outputs: 0,
    answer: TWO,
    held: false,
    due: |inputs, _| two(judge::held_value(&inputs[0], &inputs[1]).map(|value| (value as u64, 0))),
    call: library::desk_held_value,
};

pub static JOIN: Entry = Entry {
    name: "desk_join",
    inputs: &["first book", "second book"],
    numbers: &["k"],
    outputs: 1,
    answer: TWO,
    held: false,
    due: |inputs, numbers| written(joined(inputs, numbers)),
    call: library::desk_join,
};

pub static RECONCILE: Entry = Entry {
    name: "desk_reconcile_incomplete_intents",
    inputs: &["marks", "orders", "sheet", "queries"],
    numbers: &["time"],
    outputs: 1,
    answer: THREE,
    held: false,
    due: |inputs, numbers| reconciled(inputs, numbers).unwrap_or_else(refused),
    call: library::desk_reconcile_incomplete_intents,
};

pub static ROUND: Entry = Entry {
    name: "desk_round",
    inputs: &["book", "sheet", "queries"],
    numbers: &["at", "time", "k"],
    outputs: 4,
    answer: TWO,
    held: false,
    due: |inputs, numbers| round(inputs, numbers).unwrap_or_else(refused),
    call: library::desk_round,
};

fn converted(said: Result<i64, u32>) -> Due {
    match said {
        Ok(value) => Due::said(Vec::new(), numbers(&[value as u64])),
        Err(refusal) => refused(refusal),
    }
}

pub static FIXED: Entry = Entry {
    name: "desk_f64_to_fixed_checked",
    inputs: &[],
    numbers: &["value", "scale"],
    outputs: 0,
    answer: 8,
    held: false,
    due: |_, numbers| converted(judge::f64_to_fixed_checked(numbers[0], numbers[1])),
    call: library::desk_f64_to_fixed_checked,
};

pub static CENTS: Entry = Entry {
    name: "desk_f64_cents_checked",
    inputs: &[],
    numbers: &["value"],
    outputs: 0,
    answer: 8,
    held: false,
    due: |_, numbers| converted(judge::f64_cents_checked(numbers[0])),
    call: library::desk_f64_cents_checked,
};

/// What Rust's own operations give for the entries without slices; any NaN has the bits that docs/DECISIONS.md F-17 says.
fn plain(n: u64) -> Due {
    let bits = |value: f64| if value.is_nan() { 0x7ff8_0000_0000_0000 } else { value.to_bits() };
    let float = f64::from_bits(n);
    let whole = [bits(float), float.is_finite() as u64, float as i64 as u64, (n as i64 as f64).to_bits(), (n as f64).to_bits()];
    let ids = [n as i32 as i64 as u64, n as i64 as i32 as u64];
    Due::said(Vec::new(), numbers(&[&whole[..], &[bits(float.sqrt())], &ids].concat()))
}

pub static PLAIN: Entry = Entry {
    name: "desk_sqrt and the other entries without slices",
    inputs: &[],
    numbers: &["number"],
    outputs: 0,
    answer: library::PLAIN,
    held: false,
    due: |_, numbers| plain(numbers[0]),
    call: library::plain,
};

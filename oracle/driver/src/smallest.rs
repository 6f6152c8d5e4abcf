//! The smallest disagreeing case that dropping finds: events, rows, records, text and bytes go while the answers still differ.

use oracle::doc01::Book;

use crate::question::{Fault, Question, Tally};

fn field(bytes: &[u8], at: usize) -> u32 {
    u32::from_le_bytes(bytes[4 * at..4 * at + 4].try_into().expect("four bytes"))
}

/// The bytes without `length` of them from `at` on, and the header's fields changed by what goes.
fn without(bytes: &[u8], at: usize, length: usize, fields: &[(usize, u32)]) -> Option<Vec<u8>> {
    if at + length > bytes.len() || (!fields.is_empty() && bytes.len() < 24) {
        return None;
    }
    let mut out = bytes.to_vec();
    out.drain(at..at + length);
    for &(place, by) in fields {
        let value = field(&out, place).wrapping_sub(by);
        out[4 * place..4 * place + 4].copy_from_slice(&value.to_le_bytes());
    }
    Some(out)
}

/// The tables of a book and of a sheet: record length, the header's fields that change with a record.
const BOOK: [(usize, &[(usize, u32)]); 2] = [(240, &[(0, 1), (3, 240), (5, 240)]), (64, &[(2, 1), (5, 64)])];
const SHEET: [(usize, &[(usize, u32)]); 2] = [(24, &[(0, 1), (3, 24)]), (24, &[(2, 1)])];

/// The length of a record in an input without a header.
fn record(name: &str) -> usize {
    match name {
        "orders" => 64,
        "positions" => 32,
        "targets" | "prices" => 24,
        _ => 1,
    }
}

/// Smaller inputs, one by one, from large to small; None after the last.
fn smaller(name: &str, bytes: &[u8], step: usize) -> Option<Option<Vec<u8>>> {
    let length = bytes.len();
    let mut step = step;
    let mut start = 0;
    if name.ends_with("book") || name == "sheet" {
        let tables = if name == "sheet" { SHEET } else { BOOK };
        let counts = if length < 24 { [0, 0] } else { [field(bytes, 0), field(bytes, 2)].map(|n| (n as usize).min(length / 24)) };
        start = 24;
        for (count, (record, fields)) in counts.into_iter().zip(tables) {
            if step < count {
                return Some(without(bytes, start + record * (count - 1 - step), record, fields));
            }
            step -= count;
            start += record * count;
        }
        let text = if name == "sheet" { 0 } else { length.saturating_sub(start) };
        if step < text {
            return Some(without(bytes, length - 1 - step, 1, &[(4, 1)]));
        }
        step -= text;
        start = 24;
    } else {
        let width = record(name);
        if step < length / width {
            return Some(without(bytes, width * step, width, &[]));
        }
        step -= length / width;
    }
    if step == 0 {
        return Some(length.checked_sub(1).map(|n| bytes[..n].to_vec()));
    }
    step -= 1;
    for width in [16, 1] {
        let places = length.saturating_sub(start) / width;
        if step < places {
            let at = start + width * step;
            let end = length.min(at + width);
            return Some(bytes[at..end].iter().any(|b| *b != 0).then(|| {
                let mut out = bytes.to_vec();
                out[at..end].fill(0);
                out
            }));
        }
        step -= places;
    }
    None
}

/// Candidate `step` of input `input`; the inputs one after the other.
fn candidate(question: &Question, input: usize, step: usize) -> Option<Option<Question>> {
    let bytes = smaller(question.entry.inputs[input], &question.inputs[input], step)?;
    Some(bytes.map(|bytes| {
        let mut next = question.clone();
        next.inputs[input] = bytes.into();
        next
    }))
}

pub fn smallest(question: &Question, fault: Option<Fault>) -> Question {
    let mut best = question.clone();
    let mut tries = 20_000;
    loop {
        let mut found = false;
        for input in 0..best.inputs.len() {
            let mut step = 0;
            while let Some(next) = candidate(&best, input, step) {
                tries -= 1;
                match next {
                    Some(next) if next.differs(&next.ample(), fault, &mut Tally::default()).is_some() => {
                        best = next;
                        found = true;
                    }
                    _ => step += 1,
                }
                if tries == 0 {
                    return best;
                }
            }
        }
        if !found {
            return best;
        }
    }
}

/// Prints a disagreement.
pub fn print(question: &Question, fault: Option<Fault>) {
    let ample = question.ample();
    println!("{}", question.entry.name);
    if let Some((rooms, due, answer)) = question.differs(&ample, fault, &mut Tally::default()) {
        println!("  in rooms {rooms:?} due: {} {:02x?}", due.number, due.outputs);
        println!("  the library answers: {} {:02x?}{}", answer.number, answer.outputs, if answer.beside { " and wrote beside them" } else { "" });
    }
    for (name, number) in question.entry.numbers.iter().zip(&question.numbers) {
        println!("  {name} {number} ({})", *number as i64);
    }
    for (name, bytes) in question.entry.inputs.iter().zip(&question.inputs) {
        println!("  {name}, {} bytes: {}", bytes.len(), bytes.iter().map(|b| format!("{b:02x}")).collect::<String>());
        if let (true, Ok(book)) = (name.ends_with("book"), Book::parse(bytes)) {
            for event in &book.events {
                println!("    event {:?} number {:?} cells {:?}", String::from_utf8_lossy(book.text_of(event.name)), event.number, event.cells);
            }
        }
    }
}

//! The entries with a quick judge: the oracle's own reading of document 01 where `entries` asks the original through a file.

use oracle::desk::{self, Said};
use oracle::doc01::records::{ORDER, POSITION};
use oracle::doc01::{reading, Book, Marks, Sheet, State};
use oracle::judge;
use oracle::original::Reconciled;

use crate::entries::{self, in_place, marks, numbers, refused, rounded, two, written, Bytes, Due, Entry};

/// Every entry of the table, judged quickly.
pub fn entries() -> Vec<Entry> {
    let quick = |entry: &Entry, due| Entry { due, ..*entry };
    vec![
        entries::CHECK_BOOK,
        entries::CHECK_SHEET,
        quick(&entries::VERDICT, verdict),
        quick(&entries::MAX, |inputs, _| two(Book::parse(&inputs[0]).map(|book| (reading::max_checkpoint_sequence(&book), 0)))),
        quick(&entries::WINDOW, |inputs, _| two(window(inputs))),
        quick(&entries::RECOVER, |inputs, numbers| recovered(inputs, numbers).unwrap_or_else(refused)),
        quick(&entries::STEP, |inputs, numbers| in_place(step(inputs, numbers))),
        entries::ACTION,
        entries::EQUAL,
        entries::COMPARE,
        quick(&entries::REPLY, |inputs, _| replied(inputs)),
        quick(&entries::RECONCILE, |inputs, numbers| reconciled(inputs, numbers).unwrap_or_else(refused)),
        entries::JOIN,
        quick(&entries::ROUND, |inputs, numbers| round(inputs, numbers).unwrap_or_else(refused)),
        entries::DRIFT,
        entries::HELD,
        entries::FIXED,
        entries::CENTS,
        entries::PLAIN,
    ]
}

fn verdict(inputs: &[Bytes], _: &[u64]) -> Due {
    match Book::parse(&inputs[0]) {
        Ok(book) => {
            let (refusal, event, checkpoint) = reading::verdict(&book);
            Due { answer: numbers(&[event as u64, checkpoint as u64]), ..refused(refusal) }
        }
        Err(refusal) => Due { answer: numbers(&[0, 0]), ..refused(refusal) },
    }
}

fn window(inputs: &[Bytes]) -> Result<(u64, u64), u32> {
    let number = reading::window_complete(&Book::parse(&inputs[0])?, &inputs[1]);
    Ok((number.is_some() as u64, number.unwrap_or(0)))
}

fn recover(book: &[u8], time: i64) -> Result<(State, (usize, usize)), u32> {
    let book = Book::parse(book)?;
    oracle::doc01::time(time)?;
    Ok(reading::recover(&book, time))
}

fn recovered(inputs: &[Bytes], times: &[u64]) -> Result<Due, u32> {
    let (state, most) = recover(&inputs[0], times[0] as i64)?;
    Ok(of_state(&state, most))
}

fn of_state(state: &State, most: (usize, usize)) -> Due {
    let counts = [state.orders.len() as u64, state.positions.len() as u64, reading::action(state) as u64];
    let answer = [state.marks.bytes(), numbers(&counts)].concat();
    Due { refusal: 0, needs: vec![most.0 * ORDER, most.1 * POSITION], outputs: vec![state.order_bytes(), state.position_bytes()], answer }
}

/// Any marks are judged here, also those that no log leaves.
fn step(inputs: &[Bytes], numbers: &[u64]) -> Result<(Vec<u8>, u64, u64), u32> {
    Book::limits(&inputs[0])?;
    let marks = marks(&inputs[1])?;
    let book = Book::parse(&inputs[0])?;
    match book.events.get(numbers[0] as u32 as usize) {
        Some(event) => Ok((reading::step(&book, &marks, event).bytes(), 1, 0)),
        None => Ok((inputs[1].to_vec(), 0, 0)),
    }
}

fn replied(inputs: &[Bytes]) -> Due {
    let said = |book: &Book, sheet: &Sheet| {
        let (state, _) = reading::recover(book, 0);
        Said { verdict: reading::verdict(book), action: reading::action(&state), report: reading::report(&state, sheet), state }
    };
    let text = desk::reply_by(said, &inputs[0], &inputs[1]).into_bytes();
    let length = text.len() as u64;
    written(Ok((text, length, 0)))
}

fn settled(marks: &Marks, orders: &[u8], sheet: &[u8], queries: &[u8], time: i64) -> Result<judge::Addendum, u32> {
    let asked = |state: &State, sheet: &Sheet, queries: &[u8]| {
        let (entries, unreached) = reading::reconcile(state, sheet, queries);
        Reconciled { entries, unreached: Ok(unreached) }
    };
    judge::reconciled_by(asked, marks, orders, sheet, queries, time, usize::MAX)
}

fn reconciled(inputs: &[Bytes], times: &[u64]) -> Result<Due, u32> {
    Sheet::limits(&inputs[2])?;
    let said = settled(&marks(&inputs[0])?, &inputs[1], &inputs[2], &inputs[3], times[0] as i64)?;
    let answer = numbers(&[said.entries, said.unreached, said.book.len() as u64]);
    Ok(Due::said(vec![said.book], answer))
}

fn round(inputs: &[Bytes], said: &[u64]) -> Result<Due, u32> {
    let (state, most) = recover(&inputs[0], said[0] as i64)?;
    let settled = settled(&state.marks, &state.order_bytes(), &inputs[1], &inputs[2], said[1] as i64);
    Ok(rounded(of_state(&state, most), settled, &inputs[0], said[2]))
}

/// The same entries, judged as `entries` has them.
pub fn with_the_original(quick: &[Entry]) -> Vec<Entry> {
    let all = [&entries::VERDICT, &entries::MAX, &entries::WINDOW, &entries::RECOVER, &entries::STEP, &entries::REPLY, &entries::RECONCILE, &entries::ROUND];
    quick.iter().map(|entry| all.iter().find(|other| other.name == entry.name).map_or(*entry, |other| **other)).collect()
}

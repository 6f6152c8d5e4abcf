//! Books written as text, so that a case says what it is.
//!
//! Events stand between `; `: a name, a number or `-` for none, and cells `cell=value`. Values: `5`, `-5`, `u9223372036854775808` (a u64), `1.5`,
//! `'text'`, `true`, `false`, and for positions and orders `[row, row]`, a row being four values or `_` for none.
//! `t=5` is the event's time. `S` stands for run_started 1, positions_intent 2 and positions_result 3.

use doc01::book::CELLS;
use doc01::{Book, Cell, Event, Row, TextRef};

/// The book of a script.
pub fn book(script: &str) -> Book {
    let mut book = Book::default();
    let spelled = script.replace("S;", "run_started 1; positions_intent 2; positions_result 3;");
    for event in spelled.split("; ").filter(|e| !e.is_empty()) {
        push(&mut book, event);
    }
    book
}

fn push(book: &mut Book, event: &str) {
    let words = words(event);
    let name = text(book, &words[0]);
    let number = words.get(1).filter(|w| *w != "-").map(|w| w.parse().unwrap_or_else(|_| panic!("no number: {event}")));
    let mut made = Event { name, number, time: 0, cells: [Cell::None; 13] };
    for word in words.iter().skip(2) {
        let (cell, value) = word.split_once('=').unwrap_or_else(|| panic!("no cell: {event}"));
        match cell {
            "t" => made.time = value.parse().expect("a time"),
            _ => {
                let place = CELLS.iter().position(|c| *c == cell).unwrap_or_else(|| panic!("no cell: {event}"));
                made.cells[place] = self::value(book, value);
            }
        }
    }
    book.events.push(made);
}

/// The words of an event; a list and a quoted text are one word.
fn words(event: &str) -> Vec<String> {
    let (mut out, mut word, mut within) = (Vec::new(), String::new(), None);
    for c in event.chars() {
        match (within, c) {
            (None, ' ') => out.push(std::mem::take(&mut word)),
            (None, '[') => within = Some(']'),
            (None, '\'') => within = Some('\''),
            (Some(end), c) if c == end => within = None,
            _ => {}
        }
        if within.is_some() || c != ' ' {
            word.push(c);
        }
    }
    out.push(word);
    out
}

fn value(book: &mut Book, value: &str) -> Cell {
    if let Some(quoted) = value.strip_prefix('\'').and_then(|v| v.strip_suffix('\'')) {
        return Cell::Text(text(book, quoted));
    }
    if let Some(rows) = value.strip_prefix('[').and_then(|v| v.strip_suffix(']')) {
        let first = book.rows.len() as u32;
        for row in rows.split(", ").filter(|r| !r.is_empty()) {
            let cells: Vec<Cell> = words(row).iter().map(|v| self::value(book, v)).collect();
            book.rows.push(Row { cells: cells.try_into().unwrap_or_else(|_| panic!("four cells: {row}")) });
        }
        return Cell::List { first, count: book.rows.len() as u32 - first };
    }
    match value {
        "_" => Cell::None,
        "true" => Cell::Truth(true),
        "false" => Cell::Truth(false),
        _ if value.starts_with('u') => Cell::Big(value[1..].parse().expect("a u64")),
        _ if value.contains(['.', 'e']) => Cell::Float(value.parse().expect("a float")),
        _ => Cell::Int(value.parse().unwrap_or_else(|_| panic!("no value: {value}"))),
    }
}

/// Each text stands at a place of its own.
fn text(book: &mut Book, text: &str) -> TextRef {
    let at = TextRef { first: book.text.len() as u32, length: text.len() as u32 };
    book.text.extend(text.as_bytes());
    at
}

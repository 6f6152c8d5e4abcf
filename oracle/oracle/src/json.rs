//! A book as the JSON lines that the original parses, and the original's appended lines as entries.
//!
//! None-cells are omitted. A text that is UTF-8 goes as it is. A book with a text that is not UTF-8 lies outside the
//! original's domain; it is then written with each byte of each text as one character (U+0000 to U+00FF), which keeps
//! which texts are equal and which parse as symbols, so that the original's answer is the one by bytes.

use chrono::{Datelike, TimeZone, Timelike, Utc};
use doc01::book::{Book, Cell, Row, TextRef, ACTION, CELLS, CLIENT, POSITIONS, REASON};
use doc01::entries::{Entry, Value};
use std::fmt::Write;

use crate::fault;

/// How texts are written.
#[derive(Debug, Clone, Copy, PartialEq)]
pub enum Texts {
    /// As they are.
    Plain,
    /// Each byte as one character.
    Bytes,
}

impl Texts {
    pub fn of(book: &Book) -> Texts {
        if book.in_domain() {
            Texts::Plain
        } else {
            Texts::Bytes
        }
    }

    pub fn string(self, bytes: &[u8]) -> String {
        match self {
            Texts::Plain => std::str::from_utf8(bytes).unwrap_or_else(|_| fault("a text in the domain is not UTF-8")).into(),
            Texts::Bytes => bytes.iter().map(|b| *b as char).collect(),
        }
    }
}

/// The tag that stands for a text reference. The original stores actions, ids and reasons and never looks into them, so
/// that a second run on tags tells which reference each stored text came from.
pub fn tag(at: TextRef) -> String {
    format!("@{}:{}", at.first, at.length)
}

/// The reference that a tag stands for; an absent action is empty.
pub fn untag(text: &str) -> TextRef {
    if text.is_empty() {
        return TextRef::default();
    }
    let pair = text.strip_prefix('@').and_then(|t| t.split_once(':'));
    match pair.map(|(a, b)| (a.parse(), b.parse())) {
        Some((Ok(first), Ok(length))) => TextRef { first, length },
        _ => fault(&format!("no tag: {text}")),
    }
}

/// The first lines of a text of lines.
pub fn first(text: &str, lines: usize) -> &str {
    match lines {
        0 => "",
        _ => text.match_indices('\n').nth(lines - 1).map_or(text, |(end, _)| &text[..end + 1]),
    }
}

struct Lines<'a> {
    book: &'a Book,
    texts: Texts,
    tagged: bool,
    out: String,
}

/// One line for each event. With `tagged`, actions, ids and reasons are written as tags.
pub fn lines(book: &Book, texts: Texts, tagged: bool) -> String {
    let mut lines = Lines { book, texts, tagged, out: String::new() };
    for event in &book.events {
        lines.out.push('{');
        lines.text("event", event.name);
        lines.time(event.time);
        if let Some(number) = event.number {
            write!(lines.out, ",\"sequence_number\":{number}").expect("a String takes it");
        }
        for (i, cell) in event.cells.iter().enumerate() {
            lines.cell(CELLS[i], cell, i);
        }
        lines.out.push_str("}\n");
    }
    lines.out
}

impl Lines<'_> {
    /// The time in milliseconds as RFC 3339 has it.
    fn time(&mut self, millis: i64) {
        let time = Utc.timestamp_millis_opt(millis).single().unwrap_or_else(|| fault("an event's time"));
        self.out.push_str(",\"ts\":\"");
        let date = [(time.year() as u32, 4, '-'), (time.month(), 2, '-'), (time.day(), 2, 'T')];
        let clock = [(time.hour(), 2, ':'), (time.minute(), 2, ':'), (time.second(), 2, '.'), (time.timestamp_subsec_millis(), 3, 'Z')];
        for (number, digits, after) in date.into_iter().chain(clock) {
            for place in (0..digits).rev() {
                self.out.push((b'0' + (number / 10u32.pow(place) % 10) as u8) as char);
            }
            self.out.push(after);
        }
        self.out.push('"');
    }

    fn key(&mut self, key: &str) {
        self.out.push('"');
        self.out.push_str(key);
        self.out.push_str("\":");
    }

    fn string(&mut self, text: &str) {
        if text.bytes().all(|b| (b' '..=b'~').contains(&b) && b != b'"' && b != b'\\') {
            self.out.push('"');
            self.out.push_str(text);
            self.out.push('"');
        } else {
            self.out.push_str(&serde_json::to_string(text).expect("a string is JSON"));
        }
    }

    fn text(&mut self, key: &str, at: TextRef) {
        let bytes = self.book.text_of(at);
        self.key(key);
        match (self.texts, std::str::from_utf8(bytes)) {
            (Texts::Plain, Ok(text)) => self.string(text),
            (texts, _) => self.string(&texts.string(bytes)),
        }
    }

    /// A cell of an event, by its place.
    fn cell(&mut self, key: &str, cell: &Cell, place: usize) {
        match *cell {
            Cell::None => {}
            Cell::List { first, count } => {
                self.out.push(',');
                self.key(key);
                self.out.push('[');
                let book = self.book;
                for (i, row) in book.list(first, count).iter().enumerate() {
                    if i > 0 {
                        self.out.push(',');
                    }
                    self.row(row, place);
                }
                self.out.push(']');
            }
            _ => {
                self.out.push(',');
                self.plain(key, cell, self.tagged && [ACTION, CLIENT, REASON].contains(&place));
            }
        }
    }

    /// A row of a list in the given cell; "qty or shares" and "avg_cost or limit" go by the cell.
    fn row(&mut self, row: &Row, place: usize) {
        let keys = match place {
            POSITIONS => ["symbol", "action", "qty", "avg_cost"],
            _ => ["symbol", "action", "shares", "limit"],
        };
        self.out.push('{');
        let mut first = true;
        for (i, cell) in row.cells.iter().enumerate() {
            if *cell != Cell::None {
                if !first {
                    self.out.push(',');
                }
                first = false;
                self.plain(keys[i], cell, self.tagged && i == 1);
            }
        }
        self.out.push('}');
    }

    fn plain(&mut self, key: &str, cell: &Cell, tagged: bool) {
        match *cell {
            Cell::Text(at) if !tagged => return self.text(key, at),
            _ => self.key(key),
        }
        match *cell {
            Cell::Int(i) => write!(self.out, "{i}").expect("a String takes it"),
            Cell::Big(u) => write!(self.out, "{u}").expect("a String takes it"),
            Cell::Float(f) => self.out.push_str(&serde_json::to_string(&f).expect("a finite float is JSON")),
            Cell::Text(at) => self.string(&tag(at)),
            Cell::Truth(t) => write!(self.out, "{t}").expect("a String takes it"),
            Cell::None | Cell::List { .. } => fault("no plain cell"),
        }
    }
}

/// A line that the original appended, as an entry. The key `checkpoint` has no cell; the time is the caller's.
pub fn entry(line: &str) -> Entry {
    let Ok(serde_json::Value::Object(object)) = serde_json::from_str(line) else { fault("an appended line is no object") };
    let mut entry = Entry { name: Vec::new(), number: None, cells: [const { Value::None }; 13] };
    for (key, value) in object {
        match key.as_str() {
            "event" => entry.name = value.as_str().unwrap_or_else(|| fault("an event's name")).as_bytes().to_vec(),
            "ts" | "checkpoint" => {}
            "sequence_number" => entry.number = Some(value.as_u64().unwrap_or_else(|| fault("an event's number"))),
            _ => {
                let place = CELLS.iter().position(|c| *c == key).unwrap_or_else(|| fault(&format!("no cell for {key}")));
                entry.cells[place] = value_of(&value);
            }
        }
    }
    entry
}

fn value_of(value: &serde_json::Value) -> Value {
    match value {
        serde_json::Value::Null => Value::None,
        serde_json::Value::Bool(b) => Value::Truth(*b),
        serde_json::Value::String(s) => Value::Text(s.as_bytes().to_vec()),
        serde_json::Value::Number(n) => match (n.as_i64(), n.as_u64(), n.as_f64()) {
            (Some(i), _, _) => Value::Int(i),
            (_, Some(u), _) => Value::Big(u),
            (_, _, Some(f)) => Value::Float(f),
            _ => fault("a number without a kind"),
        },
        _ => fault("an appended line with a list or an object"),
    }
}

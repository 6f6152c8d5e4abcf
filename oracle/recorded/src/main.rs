//! noticed TOP: answers by document 01's reading what four programs of the gate ask, and compares. A line for each program: its name
//! and the cases whose answers differ, counted from 0. `oracle/rules` runs it with one rule of the reading changed.
//! noticed TOP large: prints what the program `large_cases` is to print.

use std::panic::{catch_unwind, set_hook};
use std::path::Path;
use std::process::ExitCode;

use doc01::{Book, Marks, Refusal, Sheet};
use recorded::{differences, stored, Judge, Reading};

fn main() -> ExitCode {
    // A changed rule may make the reading panic, which is a difference.
    set_hook(Box::new(|_| {}));
    let top = std::env::args().nth(1).unwrap_or_else(|| "..".into());
    let crates = Path::new(&top).join("crates");
    let done = if std::env::args().nth(2).is_some_and(|what| what == "large") { print_large(&crates) } else { all(&crates) };
    match done {
        Some(()) => ExitCode::SUCCESS,
        None => {
            eprintln!("noticed: no recorded cases in {top}");
            ExitCode::FAILURE
        }
    }
}

fn all(crates: &Path) -> Option<()> {
    let list = std::fs::read(crates.join("replay/data/cases.bin")).ok()?;
    say("replay", differences(&stored(&list)?, &Reading));
    say("layout_cases", told(&crates.join("layout_cases"), 400, book)?);
    say("sheet_cases", told(&crates.join("sheet_cases"), 256, sheet)?);
    say("large_cases", told(&crates.join("large_cases"), LARGE, large)?);
    Some(())
}

fn print_large(crates: &Path) -> Option<()> {
    let cases = std::fs::read(crates.join("large_cases/data/cases.bin")).ok()?;
    for case in cases.chunks(LARGE) {
        println!("{}: {}", std::str::from_utf8(&case[96..96 + number(case, 8)]).ok()?, large(case));
    }
    Some(())
}

fn say(program: &str, cases: impl IntoIterator<Item = usize>) {
    let cases: Vec<String> = cases.into_iter().map(|case| case.to_string()).collect();
    println!("{program} {}", cases.join(" "));
}

/// The cases of a program that prints a line for each record of its file: a label, and the answer.
fn told(folder: &Path, width: usize, answer: fn(&[u8]) -> String) -> Option<Vec<usize>> {
    let cases = std::fs::read(folder.join("data/cases.bin")).ok()?;
    let lines = std::fs::read_to_string(folder.join("stdout")).ok()?;
    let due = lines.lines().map(|line| Some(line.rsplit_once(": ")?.1)).collect::<Option<Vec<&str>>>()?;
    let said: Vec<Option<String>> = cases.chunks(width).map(|case| catch_unwind(|| answer(case)).ok()).collect();
    (said.len() == due.len()).then(|| (0..due.len()).filter(|i| said[*i].as_deref() != Some(due[*i])).collect())
}

fn refusal<T>(result: Result<T, Refusal>) -> String {
    result.err().unwrap_or(0).to_string()
}

fn number(case: &[u8], at: usize) -> usize {
    u64::from_le_bytes(case[at..at + 8].try_into().expect("eight bytes")) as usize
}

/// crates/layout_cases/src/main.rt: the book's length at 8, its first bytes at 64, zeros after them.
fn book(case: &[u8]) -> String {
    let mut bytes = case[64..].to_vec();
    bytes.resize(number(case, 8).max(bytes.len()), 0);
    refusal(Book::parse(&bytes[..number(case, 8)]))
}

/// crates/sheet_cases/src/main.rt: the sheet's length at 8, its first bytes at 96, UNKNOWN in so many positions from a place on.
fn sheet(case: &[u8]) -> String {
    let mut bytes = case[96..].to_vec();
    bytes.resize(65_536, 0);
    for i in 0..number(case, 24) {
        let at = number(case, 16) + 24 * i;
        bytes[at..at + 9].copy_from_slice(b"UNKNOWN\0\x07");
    }
    refusal(Sheet::parse(&bytes[..number(case, 8)]))
}

/// Bytes of a case of `large_cases`, and of its buffers.
const LARGE: usize = 568;
const BUFFER: usize = 1_048_577;

/// crates/large_cases/src/main.rt: a join, a reply or an addendum of two inputs.
fn large(case: &[u8]) -> String {
    let mut first = vec![0; BUFFER];
    first[number(case, 56)..number(case, 56) + 32].copy_from_slice(&case[272..304]);
    for i in 0..number(case, 48) {
        let at = number(case, 40) + 64 * i;
        first[at..at + 64].copy_from_slice(&case[208..272]);
    }
    let front = number(case, 64);
    first[..front].copy_from_slice(&case[304..304 + front]);
    let mut second = vec![0; BUFFER];
    second[..48].copy_from_slice(&case[160..208]);
    let (a, b) = (&first[..number(case, 16)], &second[..number(case, 24)]);
    match number(case, 0) {
        1 => refusal(Reading.join(a, b, number(case, 32) as u64, number(case, 72))),
        2 => {
            let reply = Reading.reply(a, b);
            format!("{} {}", reply.len(), &reply[..9])
        }
        _ => {
            let marks = Marks { number: number(case, 80) as u64, ..Marks::begin(0) };
            refusal(Reading.reconcile(&marks.bytes(), a, b, &vec![0; number(case, 88)], 0, number(case, 72)))
        }
    }
}

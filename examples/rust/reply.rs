//! Prints the desk's reply to two files: reply BOOK SHEET.

mod desk;

use std::io::Write;

fn main() {
    let words: Vec<String> = std::env::args().collect();
    let [_, book, sheet] = &words[..] else {
        eprintln!("usage: {} BOOK SHEET", words[0]);
        std::process::exit(2);
    };
    // A missing file is read as empty.
    let load = |path: &String| std::fs::read(path).unwrap_or_default();
    match desk::reply(&load(book), &load(sheet)) {
        Ok(text) => std::io::stdout().write_all(&text).expect("standard output"),
        Err(desk::Refused(number)) => println!("refused {number}"),
    }
}

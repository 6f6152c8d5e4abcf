//! A restart after a stopped run: restart BOOK SHEET. It validates and recovers the log, compares it with the broker's sheet, settles the open order
//! intents by the sheet, joins the entries to the log, and recovers that log.

mod desk;

use desk::{number, Recovered, Refused, DISCREPANCY, ORDER, POSITION};

const ACTIONS: [&str; 3] = ["Restart", "Resume", "ManualReview"];
const FLAGS: [&str; 5] = ["submitted", "filled", "failed", "id", "reason"];
const KINDS: [&str; 9] = [
    "OrphanOrder",
    "MissingOrder",
    "OrderStatusMismatch",
    "PositionMismatch",
    "IncompleteIntent",
    "IncompletePositionsIntent",
    "IncompleteQuotesIntent",
    "IncompleteAccountSummaryIntent",
    "IncompleteCancelIntent",
];

/// A symbol's field as text, with a space before it; nothing where there is no symbol.
fn symbol(field: &[u8]) -> String {
    match field[8] as usize {
        0 => String::new(),
        length => format!(" {}", String::from_utf8_lossy(&field[..length])),
    }
}

fn print_recovered(state: &Recovered) {
    let action = ACTIONS[state.action as usize];
    println!("action {action}, last checkpoint {}, number {}", number(&state.marks[..4]), number(&state.marks[8..16]));
    for order in state.orders.chunks(ORDER) {
        let flags: String = (0..5).filter(|flag| order[9] & 1 << flag != 0).map(|flag| format!(" {}", FLAGS[flag])).collect();
        println!("order{}{flags}", symbol(order));
    }
    println!("{} positions", state.positions.len() / POSITION);
}

/// Each call with its name, for the print of a refusal.
fn restart(book: &[u8], sheet: &[u8]) -> Result<(), (&'static str, Refused)> {
    let time = 1_767_312_000_000; // of a log without checkpoints, and of the entries

    let (verdict, event, checkpoint) = desk::validate_checkpoints(book).map_err(|n| ("desk_validate_checkpoints", n))?;
    println!("verdict {verdict}, event {event}, checkpoint {checkpoint}");

    let state = desk::reconstruct_state(book, time).map_err(|n| ("desk_reconstruct_state", n))?;
    print_recovered(&state);

    let (report, critical) = desk::compare_broker_state(&state, sheet).map_err(|n| ("desk_compare_broker_state", n))?;
    println!("report {}{}", report.len() / DISCREPANCY, if critical { ", critical" } else { "" });
    for record in report.chunks(DISCREPANCY) {
        println!("{}{}", KINDS[number(&record[..4]) as usize - 1], symbol(&record[8..]));
    }

    // Every query to the broker is answered.
    let queries = vec![0; state.orders.len() / ORDER];
    let settled = desk::reconcile_incomplete_intents(&state, sheet, &queries, time).map_err(|n| ("desk_reconcile_incomplete_intents", n))?;
    println!("entries {}, intents not reached {}, addendum of {} bytes", settled.entries, settled.unreached, settled.book.len());

    let joined = desk::join(book, &settled.book, settled.entries).map_err(|n| ("desk_join", n))?;
    println!("joined log of {} bytes", joined.len());

    let state = desk::reconstruct_state(&joined, time).map_err(|n| ("desk_reconstruct_state", n))?;
    print_recovered(&state);
    Ok(())
}

fn load(path: &str) -> Vec<u8> {
    std::fs::read(path).unwrap_or_else(|why| {
        eprintln!("{path}: {why}");
        std::process::exit(2)
    })
}

fn main() {
    let words: Vec<String> = std::env::args().collect();
    let [_, book, sheet] = &words[..] else {
        eprintln!("usage: {} BOOK SHEET", words[0]);
        std::process::exit(2);
    };
    if let Err((call, Refused(number))) = restart(&load(book), &load(sheet)) {
        println!("{call}: refused {number}");
        std::process::exit(1);
    }
}

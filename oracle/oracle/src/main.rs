//! The oracle's commands.

use std::collections::BTreeMap;
use std::process::ExitCode;

use oracle::answer::answer;
use oracle::{differences, generator, original, record, reference};
use sha2::{Digest, Sha256};

const USAGE: &str = "usage: oracle run KIND SEED COUNT [lines]   answers COUNT cases; prints counts, or each answer
       oracle source                           says whether the build used the bytes of NANOBOOK_SRC
       oracle reference                        prints M1 to M12 with what the original answers
       oracle differences                      prints each row of docs/DIFFERENCES.md with what the original answers
       oracle record FILE NAMES                writes the recorded list and its cases' names
       oracle replay FILE                      answers the recorded list again and compares
       oracle digests FILE                     writes the digests of the answers that edits are held against
       oracle notice FILE RECORDED             prints the first case whose answer differs, in the cases and in the list
       oracle desk BOOK SHEET                  prints the desk program's reply
kinds: runs wild damaged limits sheets queries records drift fixed";

fn main() -> ExitCode {
    let args: Vec<String> = std::env::args().skip(1).collect();
    let args: Vec<&str> = args.iter().map(String::as_str).collect();
    let done = match args[..] {
        ["run", kind, seed, count] => run(kind, seed, count, false),
        ["run", kind, seed, count, "lines"] => run(kind, seed, count, true),
        ["source"] => source(),
        ["reference"] => reference::print(),
        ["differences"] => differences::print(),
        ["record", file, names] => record::write(file, names),
        ["replay", file] => record::replay(file),
        ["digests", file] => digests(file),
        ["notice", file, recorded] => notice(file, recorded),
        ["desk", book, sheet] => desk(book, sheet),
        _ => {
            eprintln!("{USAGE}");
            return ExitCode::from(2);
        }
    };
    original::clean();
    match done {
        Ok(true) => ExitCode::SUCCESS,
        Ok(false) => ExitCode::FAILURE,
        Err(message) => {
            eprintln!("oracle: {message}");
            ExitCode::from(2)
        }
    }
}

/// Answers `count` cases; true if the oracle had no fault of its own.
fn run(kind: &str, seed: &str, count: &str, lines: bool) -> Result<bool, String> {
    let seed: u64 = seed.parse().map_err(|_| format!("no seed: {seed}"))?;
    let count: u64 = count.parse().map_err(|_| format!("no count: {count}"))?;
    let mut counts: BTreeMap<String, u64> = BTreeMap::new();
    let mut digest = 0u64;
    for number in 0..count {
        let case = generator::case(kind, seed, number).ok_or(format!("no kind {kind}"))?;
        let answer = answer(&case);
        if let Some(text) = answer.part("fault") {
            println!("{kind} {seed} {number}: fault: {}", String::from_utf8_lossy(text));
        }
        if lines {
            print!("{kind} {seed} {number}\n{}", answer.text());
        }
        digest = digest.rotate_left(5).wrapping_mul(0x9e37_79b9_7f4a_7c15) ^ answer.digest();
        for (what, many) in answer.counts {
            *counts.entry(what).or_default() += many;
        }
    }
    println!("{kind} seed {seed}: {count} cases, digest {digest:016x}");
    for (what, many) in &counts {
        println!("  {what}: {many}");
    }
    let faults = counts.get("faults of the oracle").copied().unwrap_or(0);
    println!("  faults of the oracle: {faults}");
    Ok(faults == 0)
}

/// Whether the bytes that were compiled are those of the folder.
fn source() -> Result<bool, String> {
    let folder = source::folder();
    let mut same = true;
    for (module, compiled) in original::compiled() {
        let (_, file) = source::FILES.iter().find(|(m, _)| *m == module).ok_or("a module without a file")?;
        let there = std::fs::read(folder.join(file)).map_err(|e| format!("{file}: {e}"))?;
        let equal = there == compiled;
        same &= equal;
        let digest: String = Sha256::digest(compiled).iter().map(|b| format!("{b:02x}")).collect();
        println!("{} {digest} {} bytes {file}", if equal { "same" } else { "DIFFERENT" }, compiled.len());
    }
    println!("{}", if same { "the build used these very bytes" } else { "the build used other bytes" });
    Ok(same)
}

fn desk(book: &str, sheet: &str) -> Result<bool, String> {
    let read = |path: &str| match std::fs::read(path) {
        Ok(bytes) => Ok(Some(bytes)),
        Err(e) if e.kind() == std::io::ErrorKind::NotFound => Ok(None),
        Err(e) => Err(format!("{path}: {e}")),
    };
    print!("{}", oracle::desk::reply(read(book)?.as_deref(), read(sheet)?.as_deref()));
    Ok(true)
}

/// The cases that edits of the original are held against.
const PLAN: [(&str, u64, u64); 8] = [
    ("runs", 1, 6_000),
    ("wild", 1, 2_000),
    ("queries", 1, 2_000),
    ("sheets", 1, 2_000),
    ("drift", 1, 4_000),
    ("fixed", 1, 4_000),
    ("damaged", 1, 1_000),
    ("limits", 1, 40),
];

fn digests(file: &str) -> Result<bool, String> {
    let mut out = Vec::new();
    for (kind, seed, count) in PLAN {
        for number in 0..count {
            let case = generator::case(kind, seed, number).ok_or("a kind")?;
            out.extend(answer(&case).digest().to_le_bytes());
        }
    }
    std::fs::write(file, out).map_err(|e| format!("{file}: {e}"))?;
    Ok(true)
}

/// Prints the first case of the plan and of the recorded list whose answer differs; true if the plan noticed.
fn notice(file: &str, recorded: &str) -> Result<bool, String> {
    let digests = std::fs::read(file).map_err(|e| format!("{file}: {e}"))?;
    let mut expected = digests.chunks(8).map(|c| u64::from_le_bytes(c.try_into().expect("eight bytes")));
    let mut seen = 0;
    let mut noticed = None;
    'plan: for (kind, seed, count) in PLAN {
        for number in 0..count {
            let case = generator::case(kind, seed, number).ok_or("a kind")?;
            seen += 1;
            if Some(answer(&case).digest()) != expected.next() {
                noticed = Some(format!("{kind} {seed} {number}"));
                break 'plan;
            }
        }
    }
    let listed = match record::first_difference(recorded)? {
        Some(case) => format!("list case {case}"),
        None => "list none".to_string(),
    };
    match &noticed {
        Some(case) => println!("noticed by {case} after {seen} cases; {listed}"),
        None => println!("alive after {seen} cases; {listed}"),
    }
    Ok(noticed.is_some())
}

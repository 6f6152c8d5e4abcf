//! desk PROGRAM KIND SEED COUNT: the desk program held against the original's reply.
//!
//! Each generated log and sheet give four pairs of files: as they are, with the book or the sheet damaged, and random bytes. Now and then a file is
//! missing. The program must end with status 0, write nothing to standard error, and print exactly the oracle's reply.

use std::collections::BTreeMap;
use std::path::Path;
use std::process::{Command, ExitCode};

use generator::{Case, Rng};
use oracle::{desk, original};

type Files = [Option<Vec<u8>>; 2];

const NAMES: [&str; 2] = ["book.bin", "sheet.bin"];

fn changed(rng: &mut Rng, bytes: &[u8]) -> Vec<u8> {
    let mut out = bytes.to_vec();
    match rng.below(8) {
        0 => out.truncate(rng.below(out.len() + 1)),
        1 => out.extend((0..rng.below(20)).map(|_| 0)),
        2 => out.resize(65_536 + rng.below(3), 0),
        _ => {
            for _ in 0..=rng.below(4) {
                if !out.is_empty() {
                    let at = rng.below(out.len());
                    out[at] = rng.below(256) as u8;
                }
            }
        }
    }
    out
}

fn random(rng: &mut Rng) -> Vec<u8> {
    (0..rng.below(400)).map(|_| if rng.below(3) == 0 { rng.below(256) as u8 } else { 0 }).collect()
}

fn pairs(rng: &mut Rng, book: Vec<u8>, sheet: Vec<u8>) -> Vec<Files> {
    let mut all = vec![
        [changed(rng, &book), sheet.clone()],
        [book.clone(), changed(rng, &sheet)],
        [random(rng), random(rng)],
        [book, sheet],
    ]
    .into_iter()
    .map(|pair| pair.map(Some))
    .collect::<Vec<Files>>();
    for files in &mut all {
        if rng.below(50) == 0 {
            files[rng.below(2)] = None;
        }
    }
    all
}

/// What the program answers in a folder that has just these files; a complaint where it does not end as it must.
fn asked(program: &str, folder: &Path, files: &Files) -> Result<String, String> {
    for (name, content) in NAMES.iter().zip(files) {
        let path = folder.join(name);
        match content {
            Some(bytes) => std::fs::write(path, bytes).map_err(|e| e.to_string())?,
            None => drop(std::fs::remove_file(path)),
        }
    }
    let run = Command::new(program).current_dir(folder).output().map_err(|e| e.to_string())?;
    if !run.status.success() || !run.stderr.is_empty() {
        return Err(format!("{}: {}", run.status, String::from_utf8_lossy(&run.stderr)));
    }
    String::from_utf8(run.stdout).map_err(|e| e.to_string())
}

fn compare(program: &str, kind: &str, seed: u64, count: u64, folder: &Path) -> Result<(), String> {
    let mut seen: BTreeMap<String, u64> = BTreeMap::new();
    let mut asked_for = 0;
    for number in 0..count {
        let Some(Case::Log(case)) = generator::case(kind, seed, number) else {
            return Err(format!("no logs of kind {kind}"));
        };
        let mut rng = Rng::new("desk", seed, number);
        for files in pairs(&mut rng, case.book, case.sheet) {
            let expected = desk::reply(files[0].as_deref(), files[1].as_deref());
            let got = asked(program, folder, &files)?;
            if got != expected {
                return Err(format!("case {number}: the program prints\n{got}the oracle\n{expected}files in {}", folder.display()));
            }
            asked_for += 1;
            let first: Vec<&str> = expected.split_whitespace().take(2).collect();
            *seen.entry(first.join(" ")).or_default() += 1;
        }
    }
    println!("{asked_for} pairs of files, no disagreement: {seen:?}");
    Ok(())
}

fn main() -> ExitCode {
    let args: Vec<String> = std::env::args().skip(1).collect();
    let [program, kind, seed, count] = &args[..] else {
        eprintln!("usage: desk PROGRAM KIND SEED COUNT");
        return ExitCode::from(2);
    };
    let (Ok(seed), Ok(count)) = (seed.parse(), count.parse()) else {
        eprintln!("desk: seed and count are numbers");
        return ExitCode::from(2);
    };
    let folder = std::env::temp_dir().join(format!("desk-{}", std::process::id()));
    let done = std::fs::create_dir_all(&folder).map_err(|e| e.to_string()).and_then(|()| compare(program, kind, seed, count, &folder));
    original::clean();
    match done {
        Ok(()) => {
            let _ = std::fs::remove_dir_all(folder);
            ExitCode::SUCCESS
        }
        Err(message) => {
            eprintln!("desk: {message}");
            ExitCode::FAILURE
        }
    }
}

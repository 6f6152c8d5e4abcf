//! The library and the original side by side: `oracle/compare`.

mod time;

// Bytes before the code, by which `oracle/performance` moves it: how fast a loop is depends on where its jumps lie.
std::arch::global_asm!(concat!(".pushsection .text.place,\"axR\",@progbits\n.skip ", env!("PLACE_BYTES"), ", 0x90\n.popsection"));

use std::process::ExitCode;

use driver::compare;

const USAGE: &str = "usage: compare KIND SEED COUNT         compares COUNT cases of a kind; stops at the first disagreement
       compare faults KIND SEED COUNT  shows that wrong answers would be seen
       compare time                    times of both, a side of a row to a line
       compare time apart              the same, each question in lent bytes of its own
       compare time apart ROOM         the reply to random logs alone, in so many lent bytes
       compare time ROW INPUT          of one row
       compare rows                    the rows that are timed, each with its sides
       compare once ROW INPUT SIDE N   one side of a row, N times
kinds: runs wild damaged limits sheets queries records drift";

fn number(text: &str) -> Result<u64, String> {
    text.parse().map_err(|_| format!("no number: {text}"))
}

fn main() -> ExitCode {
    let args: Vec<String> = std::env::args().skip(1).collect();
    let args: Vec<&str> = args.iter().map(String::as_str).collect();
    let with = |run: fn(&str, u64, u64) -> Result<bool, String>, kind, seed, count| run(kind, number(seed)?, number(count)?);
    let done = match args[..] {
        ["time"] => time::time(None),
        ["time", "apart"] => time::apart(oracle::desk::LENT, None),
        ["time", "apart", room] => number(room).and_then(|room| time::apart(room as usize, Some(("reply", "random")))),
        ["time", row, input] => time::time(Some((row, input))),
        ["rows"] => time::list(),
        ["once", row, input, side, times] => number(times).and_then(|times| time::once(row, input, side, times)),
        ["faults", kind, seed, count] => with(compare::faults, kind, seed, count),
        [kind, seed, count] => with(compare::compare, kind, seed, count),
        _ => Err(USAGE.into()),
    };
    oracle::original::clean();
    match done {
        Ok(true) => ExitCode::SUCCESS,
        Ok(false) => ExitCode::FAILURE,
        Err(message) => {
            eprintln!("{message}");
            ExitCode::from(2)
        }
    }
}

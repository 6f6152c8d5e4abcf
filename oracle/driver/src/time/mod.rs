//! The library beside the original on the same inputs: times, and single sides for an instruction count. `oracle/performance` runs both.

mod inputs;
mod measure;
mod rows;

use std::sync::atomic::Ordering;

use inputs::Folder;
use measure::{measured, sets};
use rows::{Row, ROWS};

/// One line for each side of each row: row, input, size, side, the medians of two sets in microseconds of processor time for one pass over the input,
/// how many times the library's they are, samples of a set, passes of a sample. With `only` one row is timed.
pub fn time(only: Option<(&str, &str)>) -> Result<bool, String> {
    println!("row\tinput\tsize\tside\tfirst\tsecond\ttimes\ttimes\tsamples\tpasses");
    for (name, input) in ROWS.iter().flat_map(|(name, inputs)| inputs.iter().map(move |input| (name, input))) {
        if only.is_some_and(|only| only != (*name, *input)) {
            continue;
        }
        let folder = Folder::new()?;
        let row = rows::row(name, input, &folder)?;
        row.check().map_err(|e| format!("{name} on {input}: {e}"))?;
        let Row { size, mut sides, .. } = row;
        for line in sets(&mut sides) {
            let ([first, second], [once, again]) = (line.medians, line.ratios);
            println!("{name}\t{input}\t{size}\t{}\t{first:.4}\t{second:.4}\t{once:.5}\t{again:.5}\t{}\t{}", line.side, line.samples, line.passes);
        }
    }
    Ok(true)
}

/// Times with each question in lent bytes of its own, a reply in so many.
pub fn apart(room: usize, only: Option<(&str, &str)>) -> Result<bool, String> {
    rows::APART.store(true, Ordering::Relaxed);
    rows::ROOM.store(room, Ordering::Relaxed);
    time(only)
}

/// The rows' names and inputs, a row to a line, with its sides.
pub fn list() -> Result<bool, String> {
    for (name, inputs) in ROWS {
        for input in *inputs {
            println!("{name}\t{input}\t{}", rows::names(name).join(" "));
        }
    }
    Ok(true)
}

/// One side of one row, once to warm up and then so many times inside `measured`.
pub fn once(name: &str, input: &str, side: &str, passes: u64) -> Result<bool, String> {
    let folder = Folder::new()?;
    let row = rows::row(name, input, &folder)?;
    let (_, mut call) = row.sides.into_iter().find(|(of, _)| *of == side).ok_or(format!("the row has no such side: {side}"))?;
    call();
    for _ in 0..passes {
        measure::merged();
        measured(&mut call);
    }
    Ok(true)
}

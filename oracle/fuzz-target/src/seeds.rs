//! The first inputs: the generator's small cases of each kind. On each the quick judge and the original must agree.

use std::collections::BTreeMap;
use std::path::Path;

use driver::compare::questions;
use oracle::generator;

use crate::input::Input;
use crate::{entries, judges_differ};

/// Cases of a kind that are read, inputs of an entry and a kind that are kept, and the most bytes of one.
const CASES: u64 = 400;
const KEPT: usize = 24;
const BYTES: usize = 6_144;

fn written(folder: &Path, name: &str, input: &Input) {
    let path = folder.join(name);
    std::fs::write(&path, input.encode()).unwrap_or_else(|e| panic!("{}: {e}", path.display()));
}

pub fn write(folder: &str) {
    let folder = Path::new(folder);
    let (mut kept, mut asked) = (BTreeMap::new(), 0u64);
    for kind in ["runs", "wild", "damaged", "sheets", "queries", "records", "drift"] {
        for number in 0..CASES {
            for (i, question) in questions(kind, 1, number).unwrap_or_else(|e| panic!("{e}")).into_iter().enumerate() {
                let entry = entries().iter().position(|e| e.name == question.entry.name).expect("an entry of the table");
                let room = question.rooms.first().and_then(|rooms| rooms.first()).map_or(64, |room| (*room).min(u16::MAX as usize) as u16);
                let slices = question.inputs.iter().map(|slice| slice.to_vec()).collect();
                let input = Input { entry, pick: (number + i as u64) as u8, room, numbers: question.numbers, slices };
                let quick = input.question(entries());
                if let Some(what) = judges_differ(&input, &quick, &quick.ample()) {
                    driver::smallest::print(&quick, None);
                    panic!("{kind} {number} {}: {what}", quick.entry.name);
                }
                asked += 1;
                let count: &mut usize = kept.entry((entry, kind)).or_default();
                if *count < KEPT && input.encode().len() <= BYTES {
                    written(folder, &format!("{kind}-{number}-{i}"), &input);
                    *count += 1;
                }
            }
        }
    }
    for number in 0..CASES {
        if let Some(generator::Case::Fixed(case)) = generator::case("fixed", 1, number) {
            for (i, name) in ["desk_f64_to_fixed_checked", "desk_f64_cents_checked", "desk_sqrt and the other entries without slices"].iter().enumerate() {
                let entry = entries().iter().position(|e| e.name == *name).expect("an entry of the table");
                let numbers = [case.value, case.scale][..entries()[entry].numbers.len()].to_vec();
                if number < KEPT as u64 {
                    written(folder, &format!("fixed-{number}-{i}"), &Input { entry, pick: number as u8, room: 0, numbers, slices: Vec::new() });
                }
            }
        }
    }
    println!("seeds: {} inputs of {} entries and kinds; quick judge and original agree on {asked} questions", kept.values().sum::<usize>(), kept.len());
}

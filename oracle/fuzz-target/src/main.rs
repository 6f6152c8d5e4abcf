//! The fuzz target on the library's C boundary, led by libFuzzer's `main`: `oracle/fuzz`.
#![no_main]

mod blocks;
mod input;
mod mutate;
mod seeds;

use std::collections::BTreeMap;
use std::sync::{Mutex, OnceLock};

use driver::entries::{Due, Entry, UNJUDGED};
use driver::question::{Fault, Question, Rooms, Tally, FAULTS};
use driver::{quick, smallest};
use input::Input;

struct Run {
    inputs: u64,
    /// By entry and refusal.
    answers: BTreeMap<(usize, u32), u64>,
    tally: Tally,
    /// Inputs on which the original was asked too.
    asked: u64,
    /// The original is asked on one input in so many; on none for 0.
    every: u64,
    fault: Option<Fault>,
    /// What the addresses in the file of the blocks are counted from.
    base: usize,
}

static RUN: OnceLock<Mutex<Run>> = OnceLock::new();

/// The entries with the quick judge, and the same with the driver's.
pub fn entries() -> &'static [Entry] {
    static ENTRIES: OnceLock<Vec<Entry>> = OnceLock::new();
    ENTRIES.get_or_init(quick::entries)
}

fn originals() -> &'static [Entry] {
    static ENTRIES: OnceLock<Vec<Entry>> = OnceLock::new();
    ENTRIES.get_or_init(|| quick::with_the_original(entries()))
}

fn setting(name: &str) -> Option<String> {
    std::env::var(name).ok().filter(|value| !value.is_empty())
}

fn begin() -> Mutex<Run> {
    let fault = setting("FUZZ_FAULT").map(|name| {
        let named = FAULTS.into_iter().find(|fault| format!("{fault:?}") == name);
        named.unwrap_or_else(|| panic!("FUZZ_FAULT: one of {FAULTS:?}"))
    });
    let every = setting("FUZZ_ORIGINAL").map_or(64, |n| n.parse().expect("FUZZ_ORIGINAL: a number"));
    let flipped = setting("FUZZ_FLIP").map(|at| usize::from_str_radix(&at, 16).expect("FUZZ_FLIP: an address"));
    let base = setting("FUZZ_BLOCKS").map_or(0, |path| blocks::set(&path, flipped));
    // Safe: the function is one without arguments.
    unsafe { libc::atexit(print_counts) };
    Mutex::new(Run { inputs: 0, answers: BTreeMap::new(), tally: Tally::default(), asked: 0, every, fault, base })
}

extern "C" fn print_counts() {
    let Some(run) = RUN.get() else { return };
    let run = run.lock().unwrap_or_else(|poisoned| poisoned.into_inner());
    let of = |entry: usize| run.answers.iter().filter(move |((e, _), _)| *e == entry);
    eprintln!("answers by entry, with the number of their refusal, 0 for none:");
    for (i, entry) in entries().iter().enumerate() {
        let all: u64 = of(i).map(|(_, many)| many).sum();
        let past: u64 = of(i).filter(|((_, refusal), _)| ![1, 2].contains(refusal)).map(|(_, many)| many).sum();
        let each: Vec<_> = of(i).map(|((_, refusal), many)| format!("{many} of {refusal}")).collect();
        eprintln!("  {}: {all}, {} % past 1 and 2: {}", entry.name, 100 * past / all.max(1), each.join(", "));
    }
    let past: u64 = run.answers.iter().filter(|((_, refusal), _)| ![1, 2].contains(refusal)).map(|(_, many)| many).sum();
    let (reached, all) = blocks::reached();
    eprintln!(
        "inputs judged: {}, past refusals 1 and 2: {} %, calls of the library: {}, bytes of outputs compared: {}, original asked beside: {}",
        run.inputs,
        100 * past / run.inputs.max(1),
        run.tally.calls,
        run.tally.bytes,
        run.asked
    );
    eprintln!("blocks of the library reached: {reached} of {all}");
    if let Some(path) = setting("FUZZ_UNREACHED") {
        let lines: String = blocks::unreached(run.base).iter().map(|at| format!("{at:x}\n")).collect();
        std::fs::write(&path, lines).unwrap_or_else(|e| eprintln!("{path}: {e}"));
    }
}

/// Whether the original is asked too: by the bytes alone, so that an input that is run again is judged alike.
fn chosen(data: &[u8], every: u64) -> bool {
    let hash = data.iter().fold(0xcbf2_9ce4_8422_2325u64, |hash, byte| (hash ^ *byte as u64).wrapping_mul(0x100_0000_01b3));
    every > 0 && (hash >> 20) % every == 0
}

/// The rooms to try: the exact ones, one of those around them, and the lent one.
fn rooms(question: &Question, due: &Due, pick: u8) -> Vec<Rooms> {
    let mut all = question.all_rooms(due);
    let lent = if question.rooms.is_empty() { None } else { all.pop() };
    let around = if all.len() > 1 { Some(all[1 + pick as usize % (all.len() - 1)]) } else { None };
    all.truncate(1);
    all.extend(around);
    all.extend(lent.filter(|_| pick % 4 == 0));
    all
}

/// Where the quick judge and the original differ on a question, in rooms of the outputs.
pub fn judges_differ(input: &Input, question: &Question, due: &Due) -> Option<String> {
    let original = input.question(originals());
    let (quick, said) = (question.ample(), original.ample());
    for rooms in [vec![1 << 20; question.entry.outputs], vec![input.room as usize; question.entry.outputs]] {
        let (quick, said) = (quick.clone().within(&rooms), said.clone().within(&rooms));
        if said.refusal != UNJUDGED && said != quick {
            return Some(format!("in rooms {rooms:?} the quick judge says {quick:02x?}, the original {said:02x?}; ample {due:02x?}"));
        }
    }
    None
}

/// The refusal, also one that a reply says as text.
fn refusal(due: &Due) -> u32 {
    let said = due.outputs.first().and_then(|text| text.strip_prefix(b"refused ")).and_then(|text| text.first());
    said.map_or(due.refusal, |digit| (digit - b'0') as u32)
}

fn judged(data: &[u8]) {
    let input = Input::decode(entries(), data);
    let question = input.question(entries());
    let due = question.ample();
    let mut run = RUN.get_or_init(begin).lock().unwrap_or_else(|poisoned| poisoned.into_inner());
    run.inputs += 1;
    if run.inputs % 1_000_000 == 0 {
        let (reached, all) = blocks::reached();
        eprintln!("{} inputs judged, no disagreement; blocks of the library reached: {reached} of {all}", run.inputs);
    }
    *run.answers.entry((input.entry, refusal(&due))).or_default() += 1;
    let fault = run.fault;
    let all = rooms(&question, &due, input.pick);
    if let Some((rooms, due, answer)) = question.differs_in(&all, &due, fault, &mut run.tally) {
        eprintln!("DISAGREEMENT after {} inputs: {} in rooms {rooms:?}", run.inputs, question.entry.name);
        eprintln!("  due: {due:02x?}\n  the library answers: {answer:02x?}");
        smallest::print(&question, fault);
        std::process::abort();
    }
    if chosen(data, run.every) {
        run.asked += 1;
        let differ = judges_differ(&input, &question, &due);
        oracle::original::clean();
        if let Some(what) = differ {
            eprintln!("THE JUDGES DIFFER after {} inputs: {what}", run.inputs);
            smallest::print(&question, fault);
            std::process::abort();
        }
    }
}

/// libFuzzer's call before all inputs. With FUZZ_SEEDS it only writes the seeds there.
#[no_mangle]
pub extern "C" fn LLVMFuzzerInitialize(_: *mut i32, _: *mut *mut *mut i8) -> i32 {
    if let Some(folder) = setting("FUZZ_SEEDS") {
        let done = std::panic::catch_unwind(|| seeds::write(&folder));
        oracle::original::clean();
        std::process::exit(if done.is_ok() { 0 } else { 1 });
    }
    RUN.get_or_init(begin);
    0
}

/// libFuzzer's call for an input.
///
/// # Safety
/// `data` is to `size` bytes.
#[no_mangle]
pub unsafe extern "C" fn LLVMFuzzerTestOneInput(data: *const u8, size: usize) -> i32 {
    let data = if size == 0 { &[] } else { std::slice::from_raw_parts(data, size) };
    judged(data);
    0
}

/// libFuzzer's call for another input out of this one.
///
/// # Safety
/// `data` is to `room` bytes, of which `size` are the input.
#[no_mangle]
pub unsafe extern "C" fn LLVMFuzzerCustomMutator(data: *mut u8, size: usize, room: usize, seed: u32) -> usize {
    let bytes = std::slice::from_raw_parts_mut(data, room);
    mutate::mutated(bytes, size, seed)
}

/// libFuzzer's call for an input out of two.
///
/// # Safety
/// Each pointer is to as many bytes as its length says.
#[no_mangle]
pub unsafe extern "C" fn LLVMFuzzerCustomCrossOver(a: *const u8, a_size: usize, b: *const u8, b_size: usize, out: *mut u8, room: usize, seed: u32) -> usize {
    let of = |data: *const u8, size: usize| if size == 0 { &[][..] } else { std::slice::from_raw_parts(data, size) };
    mutate::crossed(of(a, a_size), of(b, b_size), std::slice::from_raw_parts_mut(out, room), seed)
}

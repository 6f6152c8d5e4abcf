//! The library's entries through its C boundary: slices go as a pointer and a length, an empty one as a null pointer. Outputs are lent as bytes that hold
//! garbage, with garbage on both sides.

use std::ptr::{null, null_mut};

use crate::entries::{Bytes, Entry};

const GARBAGE: u8 = 0xa5;
const BESIDE: usize = 32;

/// Bytes lent to an entry for its output.
pub struct Lent {
    bytes: Vec<u8>,
    room: usize,
}

impl Lent {
    pub fn new(room: usize) -> Lent {
        let mut lent = Lent { bytes: Vec::new(), room };
        lent.again(room);
        lent
    }

    /// Lent again with this room, all garbage.
    pub fn again(&mut self, room: usize) {
        self.bytes.clear();
        self.bytes.resize(BESIDE + room + BESIDE, GARBAGE);
        self.room = room;
    }

    /// Lent again with bytes that the entry reads too.
    pub fn holding(&mut self, bytes: &[u8]) {
        self.again(bytes.len());
        self.bytes[BESIDE..BESIDE + bytes.len()].copy_from_slice(bytes);
    }

    pub fn bytes(&self) -> &[u8] {
        &self.bytes[BESIDE..BESIDE + self.room]
    }

    pub fn bytes_mut(&mut self) -> &mut [u8] {
        &mut self.bytes[BESIDE..BESIDE + self.room]
    }

    /// Whether a byte beside the lent ones was written.
    pub fn beside(&self) -> bool {
        self.bytes[..BESIDE] != [GARBAGE; BESIDE] || self.bytes[BESIDE + self.room..] != [GARBAGE; BESIDE]
    }
}

/// The most inputs, numbers and outputs of an entry, its answer among these.
const INPUTS: usize = 8;
const NUMBERS: usize = 3;
const OUTPUTS: usize = 5;

/// The arguments of a call as C takes them: each slice a pointer and a length, null where it is empty. They hold while the slices stand where they are.
pub struct Arguments {
    inputs: [(*const u8, usize); INPUTS],
    numbers: [u64; NUMBERS],
    outputs: [(*mut u8, usize); OUTPUTS],
    /// Where the answer, the last output, is.
    answer: *const u8,
}

impl Arguments {
    /// An entry's, in its order.
    pub fn new(entry: &Entry, inputs: &[Bytes], numbers: &[u64], outputs: &mut [Lent]) -> Arguments {
        let due = (entry.inputs.len() - entry.held as usize, entry.numbers.len(), entry.outputs + (entry.answer > 0) as usize);
        assert_eq!((inputs.len(), numbers.len(), outputs.len()), due, "arguments of {}", entry.name);
        let mut all = Arguments { inputs: [(null(), 0); INPUTS], numbers: [0; NUMBERS], outputs: [(null_mut(), 0); OUTPUTS], answer: null() };
        for (to, bytes) in all.inputs.iter_mut().zip(inputs).filter(|(_, bytes)| !bytes.is_empty()) {
            *to = (bytes.as_ptr(), bytes.len());
        }
        all.numbers[..numbers.len()].copy_from_slice(numbers);
        for (to, lent) in all.outputs.iter_mut().zip(outputs).filter(|(_, lent)| lent.room > 0) {
            *to = (lent.bytes[BESIDE..].as_mut_ptr(), lent.room);
        }
        all.answer = all.outputs[due.2.saturating_sub(1)].0;
        all
    }

    /// A word of the answer, from 0.
    pub fn word(&self, at: usize) -> u64 {
        // Safe: an answer of the rows that are timed has that word.
        unsafe { self.answer.cast::<u64>().add(at).read_unaligned() }
    }
}

macro_rules! entry {
    ($name:ident ( $($input:ident),* ; $($number:ident : $of:ty),* ; $($output:ident),* )) => {
        // Safe: each pointer is to as many bytes as its length says, which nothing else holds during the call; null where there are none.
        pub fn $name(of: &Arguments) -> u32 {
            extern "C" {
                fn $name($($input: *const u8, _: usize,)* $($number: $of,)* $($output: *mut u8, _: usize),*) -> u32;
            }
            let [$($input,)* ..] = of.inputs;
            let [$($number,)* ..] = of.numbers;
            let [$($output,)* ..] = of.outputs;
            unsafe {
                $name(
                    $($input.0, $input.1,)*
                    $($number as $of,)*
                    $($output.0, $output.1),*
                )
            }
        }
    };
}

entry!(desk_check_book(book; ; ));
entry!(desk_check_sheet(sheet; ; ));
entry!(desk_validate_checkpoints(book; ; answer));
entry!(desk_max_checkpoint_sequence(book; ; answer));
entry!(desk_check_window_already_complete(book, window; ; answer));
entry!(desk_reconstruct_state(book; time: i64; orders, positions, answer));
entry!(desk_step(book; next: u32; marks, answer));
entry!(desk_recovery_action(marks, orders; ; answer));
entry!(desk_states_equal(book_a, marks_a, orders_a, positions_a, book_b, marks_b, orders_b, positions_b; ; answer));
entry!(desk_compare_broker_state(marks, orders, positions, sheet; ; report, answer));
entry!(desk_reply(book, sheet; ; text, answer));
entry!(desk_reconcile(positions, targets, prices; equity: i64; entries, answer));
entry!(desk_held_value(positions, prices; ; answer));
entry!(desk_join(a, b; k: u64; out, answer));
entry!(desk_reconcile_incomplete_intents(marks, orders, sheet, queries; time: i64; addendum, answer));
entry!(desk_round(log, sheet, queries; at: i64, time: i64, k: u64; orders, positions, addendum, joined, answer));
entry!(desk_f64_to_fixed_checked(; value: u64, scale: u64; answer));
entry!(desk_f64_cents_checked(; value: u64; answer));

/// Bytes of the answers of the entries without slices, eight each.
pub const PLAIN: usize = 64;

/// The entries without slices, all asked with one number; their answers one after the other, as if lent.
pub fn plain(of: &Arguments) -> u32 {
    extern "C" {
        fn desk_f64_bits(bits: u64) -> u64;
        fn desk_is_finite(bits: u64) -> bool;
        fn desk_saturating_i64(bits: u64) -> i64;
        fn desk_nearest_i64(n: i64) -> u64;
        fn desk_nearest_u64(n: u64) -> u64;
        fn desk_sqrt(bits: u64) -> u64;
        fn desk_sign_extended(ibkr_id: i32) -> u64;
        fn desk_truncated_i32(ibkr_id: i64) -> i32;
    }
    let n = of.numbers[0];
    // Safe: no pointers.
    let said = unsafe {
        [
            desk_f64_bits(n),
            desk_is_finite(n) as u64,
            desk_saturating_i64(n) as u64,
            desk_nearest_i64(n as i64),
            desk_nearest_u64(n),
            desk_sqrt(n),
            desk_sign_extended(n as i32),
            desk_truncated_i32(n as i64) as u64,
        ]
    };
    let (lent, room) = of.outputs[0];
    // Safe: the lent bytes; none, where the pointer is null.
    let lent = if room == 0 { &mut [][..] } else { unsafe { std::slice::from_raw_parts_mut(lent, room) } };
    lent.fill(0);
    if lent.len() < PLAIN {
        return 3;
    }
    for (to, from) in lent.chunks_mut(8).zip(said) {
        to.copy_from_slice(&from.to_le_bytes());
    }
    0
}

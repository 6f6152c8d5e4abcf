//! The library from Rust: the entries of include/desk.h, and safe calls of those that the examples need.
#![allow(dead_code)]

extern "C" {
    fn desk_check_book(book: *const u8, book_len: usize) -> u32;
    fn desk_check_sheet(sheet: *const u8, sheet_len: usize) -> u32;
    fn desk_reply(
        book: *const u8, book_len: usize, sheet: *const u8, sheet_len: usize, text: *mut u8, text_len: usize, answer: *mut u8, answer_len: usize,
    ) -> u32;
    fn desk_validate_checkpoints(book: *const u8, book_len: usize, answer: *mut u8, answer_len: usize) -> u32;
    fn desk_max_checkpoint_sequence(book: *const u8, book_len: usize, answer: *mut u8, answer_len: usize) -> u32;
    fn desk_check_window_already_complete(
        book: *const u8, book_len: usize, window: *const u8, window_len: usize, answer: *mut u8, answer_len: usize,
    ) -> u32;
    fn desk_reconstruct_state(
        book: *const u8, book_len: usize, time: i64, orders: *mut u8, orders_len: usize, positions: *mut u8, positions_len: usize,
        answer: *mut u8, answer_len: usize,
    ) -> u32;
    fn desk_step(book: *const u8, book_len: usize, next: u32, marks: *mut u8, marks_len: usize, answer: *mut u8, answer_len: usize) -> u32;
    fn desk_recovery_action(
        marks: *const u8, marks_len: usize, orders: *const u8, orders_len: usize, answer: *mut u8, answer_len: usize,
    ) -> u32;
    fn desk_states_equal(
        book_a: *const u8, book_a_len: usize, marks_a: *const u8, marks_a_len: usize, orders_a: *const u8, orders_a_len: usize,
        positions_a: *const u8, positions_a_len: usize, book_b: *const u8, book_b_len: usize, marks_b: *const u8, marks_b_len: usize,
        orders_b: *const u8, orders_b_len: usize, positions_b: *const u8, positions_b_len: usize, answer: *mut u8, answer_len: usize,
    ) -> u32;
    fn desk_compare_broker_state(
        marks: *const u8, marks_len: usize, orders: *const u8, orders_len: usize, positions: *const u8, positions_len: usize, sheet: *const u8,
        sheet_len: usize, report: *mut u8, report_len: usize, answer: *mut u8, answer_len: usize,
    ) -> u32;
    fn desk_reconcile_incomplete_intents(
        marks: *const u8, marks_len: usize, orders: *const u8, orders_len: usize, sheet: *const u8, sheet_len: usize, queries: *const u8,
        queries_len: usize, time: i64, addendum: *mut u8, addendum_len: usize, answer: *mut u8, answer_len: usize,
    ) -> u32;
    fn desk_join(
        a: *const u8, a_len: usize, b: *const u8, b_len: usize, k: u64, out: *mut u8, out_len: usize, answer: *mut u8, answer_len: usize,
    ) -> u32;
    fn desk_round(
        log: *const u8, log_len: usize, sheet: *const u8, sheet_len: usize, queries: *const u8, queries_len: usize, at: i64, time: i64, k: u64,
        orders: *mut u8, orders_len: usize, positions: *mut u8, positions_len: usize, addendum: *mut u8, addendum_len: usize, joined: *mut u8,
        joined_len: usize, answer: *mut u8, answer_len: usize,
    ) -> u32;
    fn desk_reconcile(
        positions: *const u8, positions_len: usize, targets: *const u8, targets_len: usize, prices: *const u8, prices_len: usize, equity: i64,
        entries: *mut u8, entries_len: usize, answer: *mut u8, answer_len: usize,
    ) -> u32;
    fn desk_held_value(
        positions: *const u8, positions_len: usize, prices: *const u8, prices_len: usize, answer: *mut u8, answer_len: usize,
    ) -> u32;
    fn desk_f64_to_fixed_checked(value: u64, scale: u64, answer: *mut u8, answer_len: usize) -> u32;
    fn desk_f64_cents_checked(value: u64, answer: *mut u8, answer_len: usize) -> u32;
    fn desk_f64_bits(n: u64) -> u64;
    fn desk_is_finite(n: u64) -> bool;
    fn desk_saturating_i64(n: u64) -> i64;
    fn desk_nearest_i64(n: i64) -> u64;
    fn desk_nearest_u64(n: u64) -> u64;
    fn desk_sqrt(n: u64) -> u64;
    fn desk_sign_extended(ibkr: i32) -> u64;
    fn desk_truncated_i32(n: i64) -> i32;
}

// Each call below is safe: a pointer is to as many bytes as its length says, and an output is a buffer that nothing else holds, so that it overlaps
// nothing. An empty slice's pointer is not null, which is allowed too. Rust runs with rounding to nearest.

pub const BOOK_MOST: usize = 1_048_576;
pub const ORDER: usize = 64;
pub const POSITION: usize = 32;
pub const DISCREPANCY: usize = 48;
pub const MARKS: usize = 176;

/// The number of a refusal, 1 to 13.
#[derive(Debug, Clone, Copy, PartialEq, Eq)]
pub struct Refused(pub u32);

/// What a recovery gives. The records fill their buffers.
pub struct Recovered {
    pub marks: [u8; MARKS],
    pub orders: Vec<u8>,
    pub positions: Vec<u8>,
    /// 0 Restart, 1 Resume, 2 ManualReview.
    pub action: u64,
}

/// The entries that settle open intents, as a book.
pub struct Addendum {
    pub entries: u64,
    pub unreached: u64,
    pub book: Vec<u8>,
}

/// A little-endian number of up to eight bytes.
pub fn number(bytes: &[u8]) -> u64 {
    bytes.iter().rev().fold(0, |n, byte| n << 8 | u64::from(*byte))
}

fn unless_refused<T>(refusal: u32, value: T) -> Result<T, Refused> {
    if refusal == 0 {
        Ok(value)
    } else {
        Err(Refused(refusal))
    }
}

fn first(mut bytes: Vec<u8>, length: u64) -> Vec<u8> {
    bytes.truncate(length as usize);
    bytes
}

/// The desk program's reply as text. A book or sheet that cannot be used is no refusal: the text says `refused N`.
pub fn reply(book: &[u8], sheet: &[u8]) -> Result<Vec<u8>, Refused> {
    let (mut text, mut answer) = (vec![0; 65_536], [0; 16]);
    let refusal = unsafe {
        desk_reply(book.as_ptr(), book.len(), sheet.as_ptr(), sheet.len(), text.as_mut_ptr(), text.len(), answer.as_mut_ptr(), answer.len())
    };
    unless_refused(refusal, first(text, number(&answer[..8])))
}

/// The verdict (0, or 4 to 7), the event and the checkpoint; a refusal where the book cannot be used.
pub fn validate_checkpoints(book: &[u8]) -> Result<(u32, u64, u64), Refused> {
    let mut answer = [0; 16];
    let verdict = unsafe { desk_validate_checkpoints(book.as_ptr(), book.len(), answer.as_mut_ptr(), answer.len()) };
    let said = (verdict, number(&answer[..8]), number(&answer[8..]));
    unless_refused(if verdict < 4 { verdict } else { 0 }, said)
}

/// Recovery, in rooms that suffice for every book: see DESK_ORDERS_ROOM of the header.
pub fn reconstruct_state(book: &[u8], time: i64) -> Result<Recovered, Refused> {
    let (mut orders, mut positions, mut answer) = (vec![0; 8192 * ORDER], vec![0; 4096 * POSITION], [0; MARKS + 24]);
    let refusal = unsafe {
        desk_reconstruct_state(
            book.as_ptr(), book.len(), time, orders.as_mut_ptr(), orders.len(), positions.as_mut_ptr(), positions.len(), answer.as_mut_ptr(),
            answer.len(),
        )
    };
    let (marks, counts) = answer.split_at(MARKS);
    let recovered = Recovered {
        marks: marks.try_into().expect("176 bytes"),
        orders: first(orders, ORDER as u64 * number(&counts[..8])),
        positions: first(positions, POSITION as u64 * number(&counts[8..16])),
        action: number(&counts[16..]),
    };
    unless_refused(refusal, recovered)
}

/// The report of discrepancies, records of 48 bytes, and whether it is critical.
pub fn compare_broker_state(state: &Recovered, sheet: &[u8]) -> Result<(Vec<u8>, bool), Refused> {
    // Room for a line for each order and position of both sides, and four more.
    let most = 2 * 1024 + state.orders.len() / ORDER + state.positions.len() / POSITION + 4;
    let (mut report, mut answer) = (vec![0; most * DISCREPANCY], [0; 16]);
    let refusal = unsafe {
        desk_compare_broker_state(
            state.marks.as_ptr(), state.marks.len(), state.orders.as_ptr(), state.orders.len(), state.positions.as_ptr(), state.positions.len(),
            sheet.as_ptr(), sheet.len(), report.as_mut_ptr(), report.len(), answer.as_mut_ptr(), answer.len(),
        )
    };
    unless_refused(refusal, (first(report, DISCREPANCY as u64 * number(&answer[..8])), number(&answer[8..]) == 1))
}

/// The entries that settle the open intents, by the sheet and the queries (0 answered, any other byte failed), at this time.
pub fn reconcile_incomplete_intents(state: &Recovered, sheet: &[u8], queries: &[u8], time: i64) -> Result<Addendum, Refused> {
    let (mut addendum, mut answer) = (vec![0; BOOK_MOST], [0; 24]);
    let refusal = unsafe {
        desk_reconcile_incomplete_intents(
            state.marks.as_ptr(), state.marks.len(), state.orders.as_ptr(), state.orders.len(), sheet.as_ptr(), sheet.len(), queries.as_ptr(),
            queries.len(), time, addendum.as_mut_ptr(), addendum.len(), answer.as_mut_ptr(), answer.len(),
        )
    };
    let settled = Addendum { entries: number(&answer[..8]), unreached: number(&answer[8..16]), book: first(addendum, number(&answer[16..])) };
    unless_refused(refusal, settled)
}

/// Book `a` and the first `k` events of `b`.
pub fn join(a: &[u8], b: &[u8], k: u64) -> Result<Vec<u8>, Refused> {
    let (mut out, mut answer) = (vec![0; BOOK_MOST], [0; 16]);
    let refusal = unsafe {
        desk_join(a.as_ptr(), a.len(), b.as_ptr(), b.len(), k, out.as_mut_ptr(), out.len(), answer.as_mut_ptr(), answer.len())
    };
    unless_refused(refusal, first(out, number(&answer[..8])))
}

/* The recovery desk as a C library: link libexports.a (`rt lib` in crates/exports). x86-64 Linux.
 *
 * Whatever the bytes, no call keeps a pointer, allocates, prints or fails to return. The library has no state, so calls may run on several threads at once.
 *
 * Slices. Each is a pointer and a length in bytes. A null pointer with length 0 is an empty slice; a null answer is therefore too short, and is refused.
 * DESK_LENT(p, n) writes both arguments, with length 0 if p is null. All numbers in bytes are little-endian. No slice needs to be aligned.
 *
 * Lent records fill their slice: orders have exactly count x DESK_ORDER bytes, positions count x DESK_POSITION, targets and prices
 * count x DESK_DRIFT_ROW, and marks exactly DESK_MARKS. Any other length is refused by 2. So lend a buffer that a call has filled to the next call with
 * the length of what was counted, not with its whole room.
 *
 * Outputs may hold anything before the call. The call decides every byte of them; bytes after what it writes are zero.
 *
 * The caller's duties, which the library cannot test:
 *  - A pointer is to as many bytes as its length says, and nobody else writes there during the call.
 *  - An output overlaps no input and no other output. Outputs are cleared first, so an input under one is lost: a round whose `joined` is the log itself
 *    zeroes the log and returns 2, and a reply whose `text` is the book is "refused 2". No promise covers an overlap.
 *    Two inputs may overlap. The marks of desk_step are altered in place and count as an output.
 *  - Floating point is in the mode in which a C program starts: rounding to nearest, subnormal numbers neither flushed nor read as zero (-ffast-math at
 *    link time changes that), no exception unmasked. These calls do f64 arithmetic, and may answer otherwise in another mode: desk_reconstruct_state,
 *    desk_step, desk_reply, desk_round, desk_reconcile, desk_f64_to_fixed_checked, desk_f64_cents_checked, desk_nearest_i64, desk_nearest_u64.
 *    desk_f64_bits, desk_saturating_i64 and desk_sqrt compare f64 values. All other calls use whole numbers only.
 *  - The thread has the stack that the call takes: see the table at the end. The largest figure is DESK_STACK.
 *
 * A function that returns `uint32_t` returns the number of its refusal, or 0 (enum desk_refusal). If several are due, it is the first in this order:
 * 1 on any input, 2 on any input, 13, 8, 1 of a book that is made, 11, 12, 3; desk_round goes call by call. Verdicts 4 to 7 come after 2, in the order of
 * validation; in a conversion 9 comes before 10. A refusal leaves every output all zero, with two exceptions: verdicts 4 to 7 carry their event or checkpoint
 * in the answer, and marks lent to a refused step keep their bytes. An answer that is too short is refused by 3, after every other refusal; then every
 * output is zero, except lent marks.
 *
 * Layouts of books, sheets, records, marks and answers: docs/FORMATS.md.
 */
#ifndef DESK_H
#define DESK_H

#include <stdbool.h>
#include <stddef.h>
#include <stdint.h>

#ifdef __cplusplus
extern "C" {
#endif

#define DESK_LENT(p, n) (p), ((p) == NULL ? (size_t)0 : (size_t)(n))

/* ---- sizes in bytes */
enum {
    /* books: the header, an event, a row, a cell; the most bytes, and the most events or rows */
    DESK_BOOK_HEADER = 24,
    DESK_EVENT = 240,
    DESK_ROW = 64,
    DESK_CELL = 16,
    DESK_BOOK_MOST = 1048576,
    DESK_EVENTS_MOST = 4096,
    /* sheets: the header, an order, a position; the most orders or positions */
    DESK_SHEET_HEADER = 24,
    DESK_SHEET_ORDER = 24,
    DESK_SHEET_POSITION = 24,
    DESK_SHEET_MOST = 1024,
    /* recovered records, and marks */
    DESK_ORDER = 64,
    DESK_POSITION = 32,
    DESK_MARKS = 176,
    /* the report */
    DESK_DISCREPANCY = 48,
    /* drift: a target or a price, an entry; the most positions, targets or prices */
    DESK_DRIFT_ROW = 24,
    DESK_DRIFT_ENTRY = 64,
    DESK_DRIFT_MOST = 1024,
    /* answers: two u64, of recovery, of reconciling, of a conversion */
    DESK_ANSWER = 16,
    DESK_RECOVERED = 200,
    DESK_RECONCILED = 24,
    DESK_FIXED = 8,
    /* desk_reply takes files up to this size, and no reply is longer */
    DESK_FILE_MOST = 65536
};

/* ---- rooms that suffice for every book and sheet, so that 3 is not returned for them; addenda and joined books have at most DESK_BOOK_MOST.
 * A list of orders has at most 4,096 and replaces the orders held before; an order_intent adds at most one; a list of positions replaces those held before.
 * The report has at most one record for each order and position of both sides, and four for the marks. */
enum {
    DESK_ORDERS_ROOM = 8192 * 64,
    DESK_POSITIONS_ROOM = 4096 * 32,
    DESK_REPORT_ROOM = (1024 + 8192 + 1024 + 4096 + 4) * 48
};

/* ---- what a call returns */
enum desk_refusal {
    DESK_DONE = 0,
    DESK_OVERSIZE = 1,      /* a book over 1,048,576 bytes, events or rows over 4,096; a list of a sheet or of drift over 1,024 */
    DESK_BROKEN = 2,        /* a layout broken, a bad symbol field, the caller's time outside 0 to 253,402,300,799,999 */
    DESK_NO_ROOM = 3,       /* an output that cannot take all that is due, or an answer that is too short */
    DESK_UNNUMBERED = 4,    /* a checkpoint without a number */
    DESK_NOT_RISING = 5,    /* a number that is not above the one before */
    DESK_MISSING = 6,       /* a checkpoint that has to be there */
    DESK_OUT_OF_ORDER = 7,  /* a checkpoint before one that it has to follow */
    DESK_NO_NUMBERS = 8,    /* last number + 1 + intents above 2^64 - 1 */
    DESK_NOT_FINITE = 9,    /* a value that is NaN or infinite */
    DESK_OUT_OF_RANGE = 10, /* a rounded value outside i64, or a product that is no number */
    DESK_BAD_WEIGHT = 11,   /* a weight not finite or beyond -1,000 to 1,000 */
    DESK_OVERFLOW = 12,     /* a product, a share difference or a held value outside i64 */
    DESK_TOO_MANY = 13      /* a join of more events than there are */
};

/* ---- the action after a recovery */
enum desk_action { DESK_RESTART = 0, DESK_RESUME = 1, DESK_MANUAL_REVIEW = 2 };

/* ---- the checkpoints, by number */
enum desk_checkpoint {
    DESK_RUN_STARTED = 1,
    DESK_POSITIONS_INTENT = 2,
    DESK_POSITIONS_FETCHED = 3,
    DESK_POSITIONS_RESULT = 4,
    DESK_DIFF_COMPUTED = 5,
    DESK_RISK_CHECK_PASSED = 6,
    DESK_ORDER_INTENT = 7,
    DESK_ORDER_SUBMITTED = 8,
    DESK_ORDER_FAILED = 9,
    DESK_ORDER_FILLED = 10,
    DESK_QUOTES_INTENT = 11,
    DESK_QUOTES_RESULT = 12,
    DESK_ACCOUNT_SUMMARY_INTENT = 13,
    DESK_ACCOUNT_SUMMARY_RESULT = 14,
    DESK_CANCEL_INTENT = 15,
    DESK_CANCEL_RESULT = 16,
    DESK_RUN_COMPLETED = 17
};

/* ---- the flags of a recovered order, byte 9 of its record */
enum desk_order_flag {
    DESK_FLAG_SUBMITTED = 1,
    DESK_FLAG_FILLED = 2,
    DESK_FLAG_FAILED = 4,
    DESK_FLAG_HAS_ID = 8,
    DESK_FLAG_HAS_REASON = 16
};

/* ---- the state of an order in a sheet */
enum desk_order_state {
    DESK_STATE_PENDING = 0,
    DESK_STATE_SUBMITTED = 1,
    DESK_STATE_PARTIALLY_FILLED = 2,
    DESK_STATE_FILLED = 3,
    DESK_STATE_CANCELLED = 4,
    DESK_STATE_REJECTED = 5
};

/* ---- the kind of a discrepancy, the u32 at 0 of its record */
enum desk_kind {
    DESK_ORPHAN_ORDER = 1,
    DESK_MISSING_ORDER = 2,
    DESK_ORDER_STATUS_MISMATCH = 3, /* never occurs */
    DESK_POSITION_MISMATCH = 4,
    DESK_INCOMPLETE_INTENT = 5,
    DESK_INCOMPLETE_POSITIONS_INTENT = 6,
    DESK_INCOMPLETE_QUOTES_INTENT = 7,
    DESK_INCOMPLETE_ACCOUNT_SUMMARY_INTENT = 8,
    DESK_INCOMPLETE_CANCEL_INTENT = 9
};

/* ---- the kind of a cell, its first byte */
enum desk_cell {
    DESK_CELL_NONE = 0,
    DESK_CELL_I64 = 1,
    DESK_CELL_U64 = 2, /* of at least 2^63 */
    DESK_CELL_F64 = 3,
    DESK_CELL_TEXT = 4,
    DESK_CELL_TRUTH = 5,
    DESK_CELL_LIST = 6
};

/* ---- layouts: 0, 1 or 2 */
uint32_t desk_check_book(const uint8_t *book, size_t book_len);
uint32_t desk_check_sheet(const uint8_t *sheet, size_t sheet_len);

/* ---- the whole reply of the desk program as text; answer: u64 length of the text, u64 0.
 * A book or sheet that cannot be used is no refusal of this call: it returns 0, and the text is `refused N` and a newline. N is 1 (also for a file over
 * 65,536 bytes), 2, or 3 for a report of more than 1,365 records; the book is tested before the sheet. The call returns 3 if `text` has no room for the
 * reply; 65,536 bytes are always enough. */
uint32_t desk_reply(const uint8_t *book, size_t book_len, const uint8_t *sheet, size_t sheet_len, uint8_t *text, size_t text_len, uint8_t *answer,
                    size_t answer_len);

/* ---- the verdict on a book's checkpoints: 0 accepted, or 1, 2, 4 to 7.
 * answer: u64 event counted from 1 (for 4 and 5, else 0), u64 checkpoint 1 to 17 (for 6 and 7, else 0). So it is not zero where 4 to 7 is returned. */
uint32_t desk_validate_checkpoints(const uint8_t *book, size_t book_len, uint8_t *answer, size_t answer_len);

/* ---- the highest checkpoint number; answer: u64 number, u64 0 */
uint32_t desk_max_checkpoint_sequence(const uint8_t *book, size_t book_len, uint8_t *answer, size_t answer_len);

/* ---- whether a window is already complete; `window` is its id, any bytes. answer: u64 1 and u64 number, or two zeros */
uint32_t desk_check_window_already_complete(const uint8_t *book, size_t book_len, const uint8_t *window, size_t window_len, uint8_t *answer,
                                            size_t answer_len);

/* ---- recovery into order and position records; `time` in milliseconds is the caller's. 3 if the records do not fit after some event, even if they fit
 * at the end. answer, DESK_RECOVERED bytes: the marks, u64 orders, u64 positions, u64 action. */
uint32_t desk_reconstruct_state(const uint8_t *book, size_t book_len, int64_t time, uint8_t *orders, size_t orders_len, uint8_t *positions,
                                size_t positions_len, uint8_t *answer, size_t answer_len);

/* ---- the marks after the event `next`, counted from 0; the lent marks are altered in place, and keep their bytes where the step is refused.
 * Before the first event the marks are: u64 1 (DESK_RUN_STARTED) at 0, the caller's i64 time at 16, and zeros. Stepped from there through every event
 * they become those of desk_reconstruct_state, if that is not refused. answer: u64 1 if an event was stepped, 0 at or past the last; u64 0. */
uint32_t desk_step(const uint8_t *book, size_t book_len, uint32_t next, uint8_t *marks, size_t marks_len, uint8_t *answer, size_t answer_len);

/* ---- the action by marks and orders; answer: u64 action, u64 0 */
uint32_t desk_recovery_action(const uint8_t *marks, size_t marks_len, const uint8_t *orders, size_t orders_len, uint8_t *answer, size_t answer_len);

/* ---- whether two recovered states are equal, each with its book; answer: u64 1 or 0, u64 0 */
uint32_t desk_states_equal(const uint8_t *book_a, size_t book_a_len, const uint8_t *marks_a, size_t marks_a_len, const uint8_t *orders_a,
                           size_t orders_a_len, const uint8_t *positions_a, size_t positions_a_len, const uint8_t *book_b, size_t book_b_len,
                           const uint8_t *marks_b, size_t marks_b_len, const uint8_t *orders_b, size_t orders_b_len, const uint8_t *positions_b,
                           size_t positions_b_len, uint8_t *answer, size_t answer_len);

/* ---- the report of discrepancies, records of 48 bytes; answer: u64 count, u64 1 if critical */
uint32_t desk_compare_broker_state(const uint8_t *marks, size_t marks_len, const uint8_t *orders, size_t orders_len, const uint8_t *positions,
                                   size_t positions_len, const uint8_t *sheet, size_t sheet_len, uint8_t *report, size_t report_len,
                                   uint8_t *answer, size_t answer_len);

/* ---- reconciling of open order intents with the sheet: writes the addendum book of the entries that settle them, at `time`. `queries` has a byte for each
 * query, 0 answered, any other failed; an intent takes up to five, until one is answered; a spent list means failed. 8 if the numbers do not suffice.
 * answer, DESK_RECONCILED bytes: u64 entries, u64 intents not reached, u64 length of the addendum. */
uint32_t desk_reconcile_incomplete_intents(const uint8_t *marks, size_t marks_len, const uint8_t *orders, size_t orders_len, const uint8_t *sheet,
                                           size_t sheet_len, const uint8_t *queries, size_t queries_len, int64_t time, uint8_t *addendum,
                                           size_t addendum_len, uint8_t *answer, size_t answer_len);

/* ---- book A and the first k events of B, with both row tables and both texts; 13 if B has fewer. answer: u64 length of the joined book, u64 0 */
uint32_t desk_join(const uint8_t *a, size_t a_len, const uint8_t *b, size_t b_len, uint64_t k, uint8_t *out, size_t out_len, uint8_t *answer,
                   size_t answer_len);

/* ---- a round on a log: recovery at the time `at`, reconciling with entries of the time `time`, and the join of the first k entries.
 * answer: u64 length of the next log, at the start of `joined`; u64 0. The log itself is only read. The refusal is that of the first call that is
 * refused: 1, 2, 3 of recovery; then 1, 2, 8, 1 of the addendum, 3 of reconciling; then 13, 1 of the joined book, 3 of join. So 3 of `orders` comes
 * before 1 of the sheet. */
uint32_t desk_round(const uint8_t *log, size_t log_len, const uint8_t *sheet, size_t sheet_len, const uint8_t *queries, size_t queries_len, int64_t at,
                    int64_t time, uint64_t k, uint8_t *orders, size_t orders_len, uint8_t *positions, size_t positions_len, uint8_t *addendum,
                    size_t addendum_len, uint8_t *joined, size_t joined_len, uint8_t *answer, size_t answer_len);

/* ---- drift: positions of 32 bytes, targets and prices of 24, entries of 64; 11 a weight, 12 a product or share difference.
 * answer: u64 count, u64 bits of the tracking error in per cent. */
uint32_t desk_reconcile(const uint8_t *positions, size_t positions_len, const uint8_t *targets, size_t targets_len, const uint8_t *prices,
                        size_t prices_len, int64_t equity, uint8_t *entries, size_t entries_len, uint8_t *answer, size_t answer_len);

/* ---- held value; 12 if a product or the total is no i64. answer: i64 value, u64 0 */
uint32_t desk_held_value(const uint8_t *positions, size_t positions_len, const uint8_t *prices, size_t prices_len, uint8_t *answer,
                         size_t answer_len);

/* ---- fixed point of an f64; value and scale are its bits. 9 not finite, 10 out of range; answer, DESK_FIXED bytes: i64 */
uint32_t desk_f64_to_fixed_checked(uint64_t value, uint64_t scale, uint8_t *answer, size_t answer_len);
uint32_t desk_f64_cents_checked(uint64_t value, uint8_t *answer, size_t answer_len);

/* ---- of the f64 whose bits are n: its bits (those of a NaN are 0x7ff8000000000000), whether it is finite, `as i64` */
uint64_t desk_f64_bits(uint64_t n);
bool desk_is_finite(uint64_t n);
int64_t desk_saturating_i64(uint64_t n);

/* ---- the bits of the f64 nearest to the integer n */
uint64_t desk_nearest_i64(int64_t n);
uint64_t desk_nearest_u64(uint64_t n);

/* ---- the bits of the square root of the f64 whose bits are n */
uint64_t desk_sqrt(uint64_t n);

/* ---- an i32 ibkr_id as the u64 that an OrderId is compared with, and the i32 that an i64 is stored as */
uint64_t desk_sign_extended(int32_t ibkr);
int32_t desk_truncated_i32(int64_t n);

/* ---- the stack in bytes, the return address and the arguments on the stack included; `include/stack` measures it and reads it off the machine code.
 * What memset, memcpy and memmove take below their return address is not counted. A dynamic loader that binds them at their first call takes its own
 * stack there; link with -z now or statically against that.
 * The figure for each call:
 * desk_check_book                          128
 * desk_check_sheet                         128
 * desk_reply                           206,464
 * desk_validate_checkpoints                320
 * desk_max_checkpoint_sequence             256
 * desk_check_window_already_complete       256
 * desk_reconstruct_state                 2,240
 * desk_step                              1,600
 * desk_recovery_action                     576
 * desk_states_equal                      1,792
 * desk_compare_broker_state                448
 * desk_reconcile_incomplete_intents        960
 * desk_join                                576
 * desk_round                             2,176
 * desk_reconcile                        67,008
 * desk_held_value                       34,176
 * desk_f64_to_fixed_checked                128
 * desk_f64_cents_checked                   128
 * desk_f64_bits                             64
 * desk_is_finite                            64
 * desk_saturating_i64                       64
 * desk_nearest_i64                          64
 * desk_nearest_u64                          64
 * desk_sqrt                                 64
 * desk_sign_extended                        64
 * desk_truncated_i32                        64
 */
enum { DESK_STACK = 206464 };

#ifdef __cplusplus
}
#endif

#endif

/* What desk.h says in words, asked of the library: says BOOK SHEET, with the reference unit. Prints each sentence that does not hold; status 1 if
 * there is one. */
#include <fenv.h>
#include <stdio.h>
#include <stdlib.h>
#include <string.h>
#include <xmmintrin.h>

#include "desk.h"

static int wrong;

static void says(int holds, const char *sentence) {
    if (!holds) {
        printf("does not hold: %s\n", sentence);
        wrong = 1;
    }
}

static uint8_t book[DESK_BOOK_MOST + 1], sheet[DESK_BOOK_MOST + 1], orders[DESK_ORDERS_ROOM], positions[DESK_POSITIONS_ROOM];
static uint8_t report[DESK_REPORT_ROOM], addendum[DESK_BOOK_MOST], joined[DESK_BOOK_MOST], text[DESK_FILE_MOST], large[DESK_BOOK_MOST + 1];
static uint8_t answer[DESK_RECOVERED], marks[DESK_MARKS];
static const uint8_t queries[8192];
static size_t book_len, sheet_len;
static const int64_t now = INT64_C(1767312000000), last = INT64_C(253402300799999);

static size_t load(const char *path, uint8_t *bytes) {
    FILE *file = fopen(path, "rb");
    if (file == NULL) {
        perror(path);
        exit(2);
    }
    size_t length = fread(bytes, 1, DESK_BOOK_MOST, file);
    fclose(file);
    return length;
}

static uint64_t number(const uint8_t *at) {
    uint64_t n;
    memcpy(&n, at, 8);
    return n;
}

static void put(uint8_t *at, uint64_t n, size_t bytes) {
    memcpy(at, &n, bytes);
}

static int zero(const uint8_t *bytes, size_t length) {
    while (length > 0 && bytes[length - 1] == 0) {
        length--;
    }
    return length == 0;
}

/* An event without cells, whose name is so many bytes of the text from `first` on. */
static uint8_t *put_event(uint8_t *at, uint32_t first, uint32_t length, uint64_t event) {
    memset(at, 0, DESK_EVENT);
    put(at, first, 4);
    put(at + 4, length, 4);
    put(at + 8, 1, 4);
    put(at + 16, event, 8);
    return at;
}

static void put_cell(uint8_t *event, int cell, int kind, uint64_t payload) {
    event[32 + DESK_CELL * cell] = (uint8_t)kind;
    put(event + 32 + DESK_CELL * cell + 8, payload, 8);
}

/* A book of two lists, of positions and of orders, that share so many rows, and of order intents up to so many events; in `large`. Its length. */
static size_t put_log(uint32_t rows, uint32_t events) {
    static const char words[] = "positions_resultdiff_computedorder_intentAB0";
    uint32_t head[] = {events, DESK_BOOK_HEADER, rows, DESK_BOOK_HEADER + events * DESK_EVENT, sizeof words - 1,
                       DESK_BOOK_HEADER + events * DESK_EVENT + rows * DESK_ROW};
    memcpy(large, head, sizeof head);
    uint8_t *at = large + DESK_BOOK_HEADER;
    put_cell(put_event(at, 0, 16, 1), 9, DESK_CELL_LIST, (uint64_t)rows << 32);
    put_cell(put_event(at + DESK_EVENT, 16, 13, 2), 10, DESK_CELL_LIST, (uint64_t)rows << 32);
    for (uint32_t i = 2; i < events; i++) {
        uint8_t *event = put_event(at + i * DESK_EVENT, 29, 12, i + 1);
        put_cell(event, 0, DESK_CELL_TEXT, UINT64_C(1) << 32); /* "p" is no symbol, so each intent adds an order */
        put_cell(event, 1, DESK_CELL_TEXT, UINT64_C(2) << 32);
        put_cell(event, 2, DESK_CELL_TEXT, UINT64_C(2) << 32);
        put_cell(event, 3, DESK_CELL_I64, 1);
        put_cell(event, 4, DESK_CELL_F64, UINT64_C(0x3ff0000000000000));
    }
    for (uint32_t i = 0; i < rows; i++) {
        uint8_t *row = large + head[3] + i * DESK_ROW;
        memset(row, 0, DESK_ROW);
        row[0] = row[16] = DESK_CELL_TEXT;
        put(row + 8, (UINT64_C(3) << 32) + 41, 8);
        put(row + 24, UINT64_C(2) << 32, 8);
        row[32] = DESK_CELL_I64;
        row[48] = DESK_CELL_F64;
    }
    memcpy(large + head[5], words, sizeof words - 1);
    return head[5] + sizeof words - 1;
}

/* The largest sheet, whose orders and positions no such book has. */
static uint8_t full[DESK_SHEET_HEADER + DESK_SHEET_MOST * (DESK_SHEET_ORDER + DESK_SHEET_POSITION)];

static void put_sheet(void) {
    uint32_t head[] = {DESK_SHEET_MOST, DESK_SHEET_HEADER, DESK_SHEET_MOST, DESK_SHEET_HEADER + DESK_SHEET_MOST * DESK_SHEET_ORDER, 0, 0};
    memcpy(full, head, sizeof head);
    for (int i = 0; i < DESK_SHEET_MOST; i++) {
        uint8_t *order = full + DESK_SHEET_HEADER + i * DESK_SHEET_ORDER, *position = full + head[3] + i * DESK_SHEET_POSITION;
        put(order, 1, 8);
        put(order + 16, DESK_STATE_REJECTED, 4);
        position[0] = 'Z';
        position[8] = 1;
    }
}

static uint32_t recover(const uint8_t *log, size_t length, int64_t time) {
    return desk_reconstruct_state(log, length, time, orders, sizeof orders, positions, sizeof positions, answer, sizeof answer);
}

static void slices(void) {
    says(desk_check_book(NULL, 0) == DESK_BROKEN, "a null pointer of length 0 is an empty slice");
    says(desk_max_checkpoint_sequence(book, book_len, NULL, 0) == DESK_NO_ROOM, "a null answer is refused by 3");
    says(desk_max_checkpoint_sequence(book, book_len, DESK_LENT((uint8_t *)NULL, 16)) == DESK_NO_ROOM, "DESK_LENT gives a null pointer the length 0");
    says(desk_max_checkpoint_sequence(book, book_len, answer, 15) == DESK_NO_ROOM && zero(answer, 15), "a short answer is refused by 3 and zeroed");
    says(desk_validate_checkpoints(book, book_len - 1, answer, 15) == DESK_BROKEN, "3 of the answer comes after every other refusal");

    says(recover(book, book_len, now) == DESK_DONE, "the reference unit is recovered");
    memcpy(marks, answer, DESK_MARKS);
    size_t orders_len = DESK_ORDER * number(answer + DESK_MARKS), positions_len = DESK_POSITION * number(answer + DESK_MARKS + 8);
    says(orders_len > 0 && zero(orders + orders_len, sizeof orders - orders_len), "the bytes after what was written are zero");
    says(desk_recovery_action(marks, DESK_MARKS, orders, orders_len, answer, DESK_ANSWER) == DESK_DONE, "marks and orders of their exact length pass");
    says(desk_recovery_action(marks, DESK_MARKS, orders, orders_len + DESK_ORDER, answer, DESK_ANSWER) == DESK_BROKEN, "a buffer is not lent whole");
    says(desk_recovery_action(marks, DESK_MARKS, orders, orders_len - 1, answer, DESK_ANSWER) == DESK_BROKEN, "orders are whole records");
    says(desk_recovery_action(marks, DESK_MARKS - 1, orders, orders_len, answer, DESK_ANSWER) == DESK_BROKEN, "marks have 176 bytes, not fewer");
    memcpy(large, marks, DESK_MARKS);
    large[DESK_MARKS] = 0;
    says(desk_recovery_action(large, DESK_MARKS + 1, orders, orders_len, answer, DESK_ANSWER) == DESK_BROKEN, "marks have 176 bytes, not more");
    says(desk_compare_broker_state(marks, DESK_MARKS, orders, orders_len, positions, positions_len - 1, sheet, sheet_len, report, sizeof report, answer,
                                   DESK_ANSWER) == DESK_BROKEN,
         "positions are whole records");
    says(desk_held_value(positions, positions_len, positions, DESK_DRIFT_ROW - 1, answer, DESK_ANSWER) == DESK_BROKEN, "prices are whole rows");
    says(recover(book, book_len, -1) == DESK_BROKEN && recover(book, book_len, last) == DESK_DONE && recover(book, book_len, last + 1) == DESK_BROKEN,
         "the caller's time is 0 to 253,402,300,799,999");
}

static void unaligned(void) {
    size_t room = 10 * DESK_ORDER + 1;
    says(recover(book, book_len, now) == DESK_DONE, "the reference unit is recovered");
    memcpy(marks, answer, DESK_MARKS);
    memcpy(addendum, orders, room);
    memcpy(large + 1, book, book_len);
    memcpy(large + DESK_FILE_MOST + 3, sheet, sheet_len);
    says(desk_reconstruct_state(large + 1, book_len, now, orders + 7, room, positions + 5, room, answer, sizeof answer) == DESK_DONE &&
             memcmp(answer, marks, DESK_MARKS) == 0 && memcmp(orders + 7, addendum, room) == 0,
         "no slice needs to be aligned");
    says(desk_reply(large + 1, book_len, large + DESK_FILE_MOST + 3, sheet_len, text + 1, sizeof text - 1, answer + 1, DESK_ANSWER) == DESK_DONE &&
             memcmp(text + 1, "verdict 0", 9) == 0,
         "no slice of a reply needs to be aligned");
}

static void overlaps(void) {
    memcpy(large, book, book_len);
    uint32_t said = desk_round(large, book_len, sheet, sheet_len, queries, sizeof queries, now, now, 1, orders, sizeof orders, positions,
                               sizeof positions, addendum, sizeof addendum, large, sizeof large, answer, DESK_ANSWER);
    says(said == DESK_BROKEN && zero(large, book_len), "a round whose `joined` is the log zeroes the log and returns 2");
    memcpy(large, book, book_len);
    said = desk_reply(large, book_len, sheet, sheet_len, large, DESK_FILE_MOST, answer, DESK_ANSWER);
    says(said == DESK_DONE && memcmp(large, "refused 2\n", 11) == 0, "a reply whose `text` is the book is \"refused 2\"");
}

/* A book without events, whose text fills it up to so many bytes; in `large`. */
static size_t put_text(size_t length) {
    uint32_t head[] = {0, DESK_BOOK_HEADER, 0, DESK_BOOK_HEADER, (uint32_t)length - DESK_BOOK_HEADER, DESK_BOOK_HEADER};
    memcpy(large, head, sizeof head);
    return length;
}

static void replies(void) {
    memset(large, 0, sizeof large);
    says(desk_reply(large, put_text(DESK_FILE_MOST), sheet, sheet_len, text, sizeof text, answer, DESK_ANSWER) == DESK_DONE &&
             memcmp(text, "verdict 6 0 1\n", 14) == 0,
         "a file of 65,536 bytes is answered");
    says(desk_reply(large, put_text(DESK_FILE_MOST + 1), sheet, sheet_len, text, sizeof text, answer, DESK_ANSWER) == DESK_DONE &&
             number(answer) == 10 && memcmp(text, "refused 1\n", 11) == 0,
         "a file over 65,536 bytes is replied to by refused 1");
    says(desk_reply(book, 0, sheet, sheet_len, text, 10, answer, DESK_ANSWER) == DESK_DONE && memcmp(text, "refused 2\n", 10) == 0,
         "a refused reply is a reply: 0 is returned");
    says(desk_reply(book, 0, sheet, sheet_len, text, 9, answer, DESK_ANSWER) == DESK_NO_ROOM && zero(text, 9) && zero(answer, DESK_ANSWER),
         "3 where `text` has no room");
    says(desk_reply(book, 0, large, DESK_FILE_MOST + 1, text, sizeof text, answer, DESK_ANSWER) == DESK_DONE && memcmp(text, "refused 2", 9) == 0,
         "the book is tested before the sheet");
}

static void verdicts(void) {
    uint32_t head[] = {0, DESK_BOOK_HEADER, 0, DESK_BOOK_HEADER, 0, DESK_BOOK_HEADER};
    says(desk_validate_checkpoints((uint8_t *)head, sizeof head, answer, DESK_ANSWER) == DESK_MISSING && number(answer) == 0 &&
             number(answer + 8) == DESK_RUN_STARTED,
         "6 names its checkpoint in the answer");
    uint8_t first[DESK_EVENT];
    memcpy(first, book + DESK_BOOK_HEADER + DESK_EVENT, DESK_EVENT);
    put(book + DESK_BOOK_HEADER + DESK_EVENT + 16, 1, 8);
    says(desk_validate_checkpoints(book, book_len, answer, DESK_ANSWER) == DESK_NOT_RISING && number(answer) == 2 && number(answer + 8) == 0,
         "5 names its event in the answer");
    memcpy(book + DESK_BOOK_HEADER + DESK_EVENT, first, DESK_EVENT);
}

static void steps(void) {
    uint8_t stepped[DESK_MARKS] = {DESK_RUN_STARTED}, before[DESK_MARKS];
    put(stepped + 16, (uint64_t)now, 8);
    memcpy(before, stepped, DESK_MARKS);
    says(desk_step(book, book_len - 1, 0, stepped, DESK_MARKS, answer, DESK_ANSWER) == DESK_BROKEN && memcmp(stepped, before, DESK_MARKS) == 0,
         "marks lent to a refused step keep their bytes");
    uint32_t next = 0;
    while (desk_step(book, book_len, next, stepped, DESK_MARKS, answer, DESK_ANSWER) == DESK_DONE && number(answer) == 1) {
        next++;
    }
    says(next == 15, "the reference unit has 15 events");
    says(recover(book, book_len, now) == DESK_DONE && memcmp(stepped, answer, DESK_MARKS) == 0, "steps from the first marks give recovery's marks");
}

static uint32_t roundly(size_t sheet_of, size_t orders_of, int64_t time, uint64_t k, size_t addendum_of, size_t joined_of) {
    return desk_round(book, book_len, sheet, sheet_of, queries, sizeof queries, now, time, k, orders, orders_of, positions, sizeof positions, addendum,
                      addendum_of, joined, joined_of, answer, DESK_ANSWER);
}

static void rounds(void) {
    size_t all = sizeof orders, most = sizeof addendum;
    says(roundly(sheet_len, all, now, 1, most, most) == DESK_DONE && number(answer) > book_len, "a round gives a longer log");
    uint32_t listed;
    memcpy(&listed, sheet, 4);
    put(sheet, DESK_SHEET_MOST + 1, 4);
    says(roundly(sheet_len, all, now, 1, most, most) == DESK_OVERSIZE, "1 of the sheet refuses a round");
    says(roundly(sheet_len, 0, now, 1, most, most) == DESK_NO_ROOM, "3 of recovery comes before 1 of the sheet");
    put(sheet, listed, 4);
    says(roundly(sheet_len, 0, -1, 1, most, most) == DESK_NO_ROOM, "3 of recovery comes before 2 of reconciling");
    says(roundly(sheet_len, all, -1, 2, 0, most) == DESK_BROKEN, "2 of reconciling comes before its 3");
    says(roundly(sheet_len, all, now, 2, 0, most) == DESK_NO_ROOM, "3 of reconciling comes before 13");
    says(roundly(sheet_len, all, now, 2, most, 0) == DESK_TOO_MANY, "13 comes before 3 of join");
    says(roundly(sheet_len, all, now, 1, most, 0) == DESK_NO_ROOM && zero(orders, sizeof orders) && zero(addendum, sizeof addendum),
         "a refused round leaves every output zero");
}

static void rooms(void) {
    uint32_t rows = DESK_EVENTS_MOST, events = (DESK_BOOK_MOST - DESK_BOOK_HEADER - rows * DESK_ROW - 64) / DESK_EVENT, all = rows + events - 2;
    size_t length = put_log(rows, events);
    says(desk_check_book(large, length) == DESK_DONE && length + 2 * DESK_EVENT > DESK_BOOK_MOST, "the largest book is one");
    says(recover(large, length, now) == DESK_DONE && number(answer + DESK_MARKS) == all && number(answer + DESK_MARKS + 8) == rows,
         "DESK_ORDERS_ROOM and DESK_POSITIONS_ROOM suffice for the largest book");
    memcpy(marks, answer, DESK_MARKS);
    put_sheet();
    says(desk_check_sheet(full, sizeof full) == DESK_DONE, "the largest sheet is one");
    says(desk_compare_broker_state(marks, DESK_MARKS, orders, all * DESK_ORDER, positions, rows * DESK_POSITION, full, sizeof full, report, sizeof report,
                                   answer, DESK_ANSWER) == DESK_DONE &&
             number(answer) == DESK_SHEET_MOST + rows + events - 2 && number(answer + 8) == 1,
         "DESK_REPORT_ROOM suffices for the largest book and sheet");
    says(desk_check_book(large, DESK_BOOK_MOST + 1) == DESK_OVERSIZE, "a book over 1,048,576 bytes is refused by 1");
    length = put_log(341, 2);
    says(desk_reply(large, length, full, sizeof full, text, sizeof text, answer, DESK_ANSWER) == DESK_DONE && memcmp(text, "verdict", 7) == 0,
         "a report of 1,365 is replied to");
    length = put_log(342, 2);
    says(desk_reply(large, length, full, sizeof full, text, sizeof text, answer, DESK_ANSWER) == DESK_DONE && memcmp(text, "refused 3\n", 11) == 0,
         "a report of more than 1,365 is replied to by refused 3");
}

/* Each room is the least that does: one byte less is refused by 3; and each limit is the last that passes. */
static void sizes(void) {
    uint8_t state[DESK_RECOVERED], entry[DESK_DRIFT_ENTRY], row[DESK_DRIFT_ROW] = "A";
    row[8] = 1;
    for (uint32_t less = 0; less < 2; less++) {
        uint32_t due = less == 0 ? DESK_DONE : DESK_NO_ROOM;
        size_t all = 4 * DESK_ORDER, three = 3 * DESK_POSITION;
        says(desk_reconstruct_state(book, book_len, now, orders, all - less, positions, three, answer, DESK_RECOVERED) == due, "4 orders of their size");
        says(desk_reconstruct_state(book, book_len, now, orders, all, positions, three - less, answer, DESK_RECOVERED) == due, "3 positions of their size");
        says(desk_reconstruct_state(book, book_len, now, orders, all, positions, three, answer, DESK_RECOVERED - less) == due, "recovery's answer");
        recover(book, book_len, now);
        memcpy(state, answer, DESK_RECOVERED);
        says(desk_compare_broker_state(state, DESK_MARKS, orders, all, positions, three, sheet, sheet_len, report, 7 * DESK_DISCREPANCY - less, answer,
                                       DESK_ANSWER) == due,
             "7 discrepancies of their size");
        says(desk_reconcile_incomplete_intents(state, DESK_MARKS, orders, all, sheet, sheet_len, queries, 1, now, addendum, sizeof addendum, answer,
                                               DESK_RECONCILED - less) == due,
             "reconciling's answer");
        says(desk_max_checkpoint_sequence(book, book_len, answer, DESK_ANSWER - less) == due, "an answer of two u64");
        says(desk_f64_cents_checked(0, answer, DESK_FIXED - less) == due, "a conversion's answer");
        says(desk_reconcile(NULL, 0, row, sizeof row, NULL, 0, 1, entry, sizeof entry - less, answer, DESK_ANSWER) == due, "a drift entry of its size");
    }
    for (uint32_t more = 0; more < 2; more++) {
        uint32_t head[] = {DESK_EVENTS_MOST + more, DESK_BOOK_HEADER, 0, 0, 0, 0};
        says(desk_check_book((uint8_t *)head, sizeof head) == (more ? DESK_OVERSIZE : DESK_BROKEN), "4,096 events at most");
        memset(large, 0, sizeof large);
        says(desk_check_book(large, DESK_BOOK_MOST + more) == (more ? DESK_OVERSIZE : DESK_BROKEN), "1,048,576 bytes at most");
        for (uint32_t i = 0; i < DESK_DRIFT_MOST + more; i++) {
            memcpy(large + i * DESK_DRIFT_ROW, row, DESK_DRIFT_ROW);
        }
        says(desk_held_value(NULL, 0, large, (DESK_DRIFT_MOST + more) * DESK_DRIFT_ROW, answer, DESK_ANSWER) == (more ? DESK_OVERSIZE : DESK_DONE),
             "1,024 prices at most");
    }
}

/* A book of one event whose cell of shares has this kind and payload. */
static uint32_t cell(int kind, uint64_t payload) {
    uint32_t head[] = {1, DESK_BOOK_HEADER, 0, DESK_BOOK_HEADER + DESK_EVENT, 0, DESK_BOOK_HEADER + DESK_EVENT};
    memcpy(large, head, sizeof head);
    put_cell(put_event(large + DESK_BOOK_HEADER, 0, 0, 0), 3, kind, payload);
    return desk_check_book(large, DESK_BOOK_HEADER + DESK_EVENT);
}

static void names(void) {
    uint64_t half = UINT64_C(1) << 63;
    says(cell(DESK_CELL_NONE, 0) == 0 && cell(DESK_CELL_NONE, 1) == 2, "a none cell has no payload");
    says(cell(DESK_CELL_I64, half - 1) == 0 && cell(DESK_CELL_I64, half) == 0, "an i64 is any payload");
    says(cell(DESK_CELL_U64, half - 1) == 2 && cell(DESK_CELL_U64, half) == 0 && cell(DESK_CELL_U64, UINT64_MAX) == 0, "a u64 is at least 2^63");
    says(cell(DESK_CELL_F64, half - 1) == 2 && cell(DESK_CELL_F64, half) == 0, "an f64 is finite");
    says(cell(DESK_CELL_TEXT, 0) == 0 && cell(DESK_CELL_TEXT, UINT64_C(1) << 32) == 2, "a text lies in the book's text");
    says(cell(DESK_CELL_TRUTH, 1) == 0 && cell(DESK_CELL_TRUTH, 2) == 2, "a truth is 0 or 1");
    says(cell(DESK_CELL_LIST, 0) == 0 && cell(DESK_CELL_LIST, 1) == 2, "a list lies in the book's rows");
    says(cell(DESK_CELL_LIST + 1, 0) == 2, "there are no more kinds of cells");

    says(recover(book, book_len, now) == DESK_DONE, "the reference unit is recovered");
    says(orders[9] == (DESK_FLAG_SUBMITTED | DESK_FLAG_FILLED | DESK_FLAG_HAS_ID), "NVDA was submitted and filled");
    says(orders[DESK_ORDER + 9] == (DESK_FLAG_SUBMITTED | DESK_FLAG_HAS_ID), "MSFT was submitted");
    says(orders[2 * DESK_ORDER + 9] == (DESK_FLAG_FAILED | DESK_FLAG_HAS_ID | DESK_FLAG_HAS_REASON), "AAPL failed");
    says(number(answer) == DESK_ORDER_INTENT && number(answer + DESK_MARKS + 16) == DESK_RESUME, "the last checkpoint is an intent; resume");

    put_sheet();
    put(full + DESK_SHEET_HEADER + 16, DESK_STATE_REJECTED + 1, 4);
    says(desk_check_sheet(full, sizeof full) == DESK_BROKEN, "there are no more states of orders");
    put(full, DESK_SHEET_MOST + 1, 4);
    says(desk_check_sheet(full, sizeof full) == DESK_OVERSIZE, "a sheet has at most 1,024 orders");
}

static uint64_t cents(double value) {
    uint64_t bits;
    memcpy(&bits, &value, 8);
    desk_f64_cents_checked(bits, answer, DESK_FIXED);
    return number(answer);
}

/* The bits of the difference, actual less target, where nothing is held: those of the target with the other sign. */
#define SMALLEST UINT64_C(0x8000000000000001)

static uint64_t difference(uint64_t target) {
    uint8_t row[DESK_DRIFT_ROW] = "A", entry[DESK_DRIFT_ENTRY];
    row[8] = 1;
    put(row + 16, target, 8);
    says(desk_reconcile(NULL, 0, row, sizeof row, NULL, 0, 1, entry, sizeof entry, answer, DESK_ANSWER) == DESK_DONE, "a drift of one target");
    return number(entry + 32);
}

static void modes(void) {
    uint64_t odd = (UINT64_C(1) << 53) + 1;
    says(desk_nearest_u64(odd) == UINT64_C(0x4340000000000000) && cents(1.005) == 100 && difference(1) == SMALLEST, "rounding is to nearest at the start");
    fesetround(FE_UPWARD);
    says(desk_nearest_i64((int64_t)odd) != UINT64_C(0x4340000000000000) && cents(1.005) != 100, "in another rounding mode the answers differ");
    says(desk_sqrt(UINT64_C(0x4000000000000000)) == UINT64_C(0x3ff6a09e667f3bcd), "desk_sqrt does not depend on the rounding mode");
    fesetround(FE_TONEAREST);
    unsigned was = _mm_getcsr();
    _mm_setcsr(was | 0x8040);
    says(difference(1) != SMALLEST, "subnormal numbers read as zero change the answers");
    _mm_setcsr(was);
}

int main(int count, char **words) {
    if (count != 3) {
        fprintf(stderr, "usage: %s BOOK SHEET\n", words[0]);
        return 2;
    }
    book_len = load(words[1], book);
    sheet_len = load(words[2], sheet);
    slices();
    unaligned();
    overlaps();
    replies();
    verdicts();
    steps();
    rounds();
    rooms();
    sizes();
    names();
    modes();
    return wrong;
}

/* A restart after a stopped run: restart BOOK SHEET. It validates and recovers the log, compares it with the broker's sheet, settles the open order
 * intents by the sheet, joins the entries to the log, and recovers that log. */
#include <inttypes.h>
#include <stdio.h>
#include <stdlib.h>
#include <string.h>

#include "desk.h"

/* Lent to the calls. One byte more than a book may have, so that a larger one is seen as such. */
static uint8_t book[DESK_BOOK_MOST + 1], sheet[DESK_BOOK_MOST + 1];
static uint8_t orders[DESK_ORDERS_ROOM], positions[DESK_POSITIONS_ROOM], report[DESK_REPORT_ROOM];
static uint8_t addendum[DESK_BOOK_MOST], joined[DESK_BOOK_MOST];

/* A recovered state: the records are in `orders` and `positions`. */
struct recovered {
    uint8_t marks[DESK_MARKS];
    size_t orders, positions;
    uint64_t action;
};

static uint64_t number(const uint8_t *at, int bytes) {
    uint64_t n = 0;
    while (bytes > 0) {
        n = 256 * n + at[--bytes];
    }
    return n;
}

/* Ends the program where a call was refused. */
static void done(uint32_t refusal, const char *call) {
    if (refusal != DESK_DONE) {
        printf("%s: refused %" PRIu32 "\n", call, refusal);
        exit(1);
    }
}

static size_t load(const char *path, uint8_t *bytes, size_t room) {
    FILE *file = fopen(path, "rb");
    size_t length = file == NULL ? 0 : fread(bytes, 1, room, file);
    if (file == NULL || ferror(file)) {
        perror(path);
        exit(2);
    }
    fclose(file);
    return length;
}

static void print_symbol(const uint8_t *field) {
    printf(" %.*s", field[8], (const char *)field);
}

static void print_verdict(const uint8_t *log, size_t length) {
    uint8_t answer[DESK_ANSWER];
    uint32_t verdict = desk_validate_checkpoints(log, length, answer, sizeof answer);
    if (verdict < DESK_UNNUMBERED) {
        done(verdict, "desk_validate_checkpoints"); /* a book that cannot be used; 4 to 7 are verdicts on one that can */
    }
    printf("verdict %" PRIu32 ", event %" PRIu64 ", checkpoint %" PRIu64 "\n", verdict, number(answer, 8), number(answer + 8, 8));
}

static struct recovered recover(const uint8_t *log, size_t length, int64_t time) {
    uint8_t answer[DESK_RECOVERED];
    done(desk_reconstruct_state(log, length, time, orders, sizeof orders, positions, sizeof positions, answer, sizeof answer),
         "desk_reconstruct_state");
    struct recovered state;
    memcpy(state.marks, answer, DESK_MARKS);
    state.orders = (size_t)number(answer + DESK_MARKS, 8);
    state.positions = (size_t)number(answer + DESK_MARKS + 8, 8);
    state.action = number(answer + DESK_MARKS + 16, 8);
    return state;
}

static void print_recovered(const struct recovered *state) {
    static const char *const actions[] = {[DESK_RESTART] = "Restart", [DESK_RESUME] = "Resume", [DESK_MANUAL_REVIEW] = "ManualReview"};
    static const char *const flags[] = {"submitted", "filled", "failed", "id", "reason"};
    printf("action %s, last checkpoint %" PRIu64 ", number %" PRIu64 "\n", actions[state->action], number(state->marks, 4),
           number(state->marks + 8, 8));
    for (size_t i = 0; i < state->orders; i++) {
        const uint8_t *order = orders + i * DESK_ORDER;
        printf("order");
        print_symbol(order);
        for (int flag = 0; flag < 5; flag++) {
            if (order[9] & 1 << flag) {
                printf(" %s", flags[flag]);
            }
        }
        printf("\n");
    }
    printf("%zu positions\n", state->positions);
}

static void compare(const struct recovered *state, size_t sheet_len) {
    static const char *const kinds[] = {
        [DESK_ORPHAN_ORDER] = "OrphanOrder",
        [DESK_MISSING_ORDER] = "MissingOrder",
        [DESK_ORDER_STATUS_MISMATCH] = "OrderStatusMismatch",
        [DESK_POSITION_MISMATCH] = "PositionMismatch",
        [DESK_INCOMPLETE_INTENT] = "IncompleteIntent",
        [DESK_INCOMPLETE_POSITIONS_INTENT] = "IncompletePositionsIntent",
        [DESK_INCOMPLETE_QUOTES_INTENT] = "IncompleteQuotesIntent",
        [DESK_INCOMPLETE_ACCOUNT_SUMMARY_INTENT] = "IncompleteAccountSummaryIntent",
        [DESK_INCOMPLETE_CANCEL_INTENT] = "IncompleteCancelIntent",
    };
    uint8_t answer[DESK_ANSWER];
    done(desk_compare_broker_state(state->marks, DESK_MARKS, orders, state->orders * DESK_ORDER, positions, state->positions * DESK_POSITION, sheet,
                                   sheet_len, report, sizeof report, answer, sizeof answer),
         "desk_compare_broker_state");
    uint64_t count = number(answer, 8);
    printf("report %" PRIu64 "%s\n", count, number(answer + 8, 8) == 1 ? ", critical" : "");
    for (uint64_t i = 0; i < count; i++) {
        const uint8_t *record = report + i * DESK_DISCREPANCY;
        printf("%s", kinds[number(record, 4)]);
        if (record[16] > 0) { /* the symbol's length */
            print_symbol(record + 8);
        }
        printf("\n");
    }
}

/* The entries that settle the open intents, in `addendum`: its length. Every query to the broker is answered. */
static size_t settle(const struct recovered *state, size_t sheet_len, int64_t time, uint64_t *entries) {
    static const uint8_t queries[DESK_ORDERS_ROOM / DESK_ORDER];
    uint8_t answer[DESK_RECONCILED];
    done(desk_reconcile_incomplete_intents(state->marks, DESK_MARKS, orders, state->orders * DESK_ORDER, sheet, sheet_len, queries, state->orders,
                                           time, addendum, sizeof addendum, answer, sizeof answer),
         "desk_reconcile_incomplete_intents");
    *entries = number(answer, 8);
    printf("entries %" PRIu64 ", intents not reached %" PRIu64 ", addendum of %" PRIu64 " bytes\n", *entries, number(answer + 8, 8),
           number(answer + 16, 8));
    return (size_t)number(answer + 16, 8);
}

static size_t join(size_t book_len, size_t addendum_len, uint64_t entries) {
    uint8_t answer[DESK_ANSWER];
    done(desk_join(book, book_len, addendum, addendum_len, entries, joined, sizeof joined, answer, sizeof answer), "desk_join");
    printf("joined log of %" PRIu64 " bytes\n", number(answer, 8));
    return (size_t)number(answer, 8);
}

int main(int count, char **words) {
    if (count != 3) {
        fprintf(stderr, "usage: %s BOOK SHEET\n", words[0]);
        return 2;
    }
    size_t book_len = load(words[1], book, sizeof book);
    size_t sheet_len = load(words[2], sheet, sizeof sheet);
    int64_t time = INT64_C(1767312000000); /* of a log without checkpoints, and of the entries */
    uint64_t entries;

    print_verdict(book, book_len);
    struct recovered state = recover(book, book_len, time);
    print_recovered(&state);
    compare(&state, sheet_len);
    size_t addendum_len = settle(&state, sheet_len, time, &entries);
    size_t joined_len = join(book_len, addendum_len, entries);
    state = recover(joined, joined_len, time);
    print_recovered(&state);
    return 0;
}

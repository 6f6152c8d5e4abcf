/* Measures the stack of each entry: stack BOOK SHEET [BOOK SHEET ..]. Each call runs on a stack of its own that is painted before; what lies between its
 * top and the lowest byte whose paint is gone is what the call took, the arguments on the stack and the return address included. Prints for each entry
 * the most that any input took, and how many calls returned 0 and how many a refusal. x86-64, System V. */
#include <stdio.h>
#include <stdlib.h>
#include <string.h>

#include "desk.h"

/* call_on(sp, f, six): f with six words in registers, and those that lie at sp. */
uint64_t call_on(uint8_t *sp, uintptr_t f, const uint64_t *six);
__asm__(".text\n"
        "call_on:\n"
        "    push %rbx\n"
        "    mov %rsp, %rbx\n"
        "    mov %rdi, %rsp\n"
        "    mov %rsi, %rax\n"
        "    mov %rdx, %r10\n"
        "    mov 0(%r10), %rdi\n"
        "    mov 8(%r10), %rsi\n"
        "    mov 16(%r10), %rdx\n"
        "    mov 24(%r10), %rcx\n"
        "    mov 32(%r10), %r8\n"
        "    mov 40(%r10), %r9\n"
        "    call *%rax\n"
        "    mov %rbx, %rsp\n"
        "    pop %rbx\n"
        "    ret\n"
        ".section .note.GNU-stack,\"\",@progbits\n"
        ".text\n");

enum { STACK = 1 << 20, WORDS = 20, ENTRIES = 64 };
static uint8_t stack[STACK] __attribute__((aligned(64)));

static struct {
    const char *name;
    size_t most;
    unsigned done, refused;
} entries[ENTRIES];

static uint32_t measure(const char *name, uintptr_t f, const uint64_t *words, size_t count, int numbered) {
    size_t stacked = count > 6 ? 8 * (count - 6) : 0;
    uint8_t *sp = stack + STACK - (stacked + 15) / 16 * 16;
    uint64_t six[6] = {0}, result = 0;
    memcpy(six, words, 8 * (count < 6 ? count : 6));
    size_t at = 0;
    while (entries[at].name != NULL && strcmp(entries[at].name, name) != 0) {
        at++;
    }
    entries[at].name = name;
    /* Two paints, so that a byte that the call sets to one of them is seen by the other. The outputs are zeroed by the call itself. */
    for (int paint = 0x5a; paint <= 0xa5; paint += 0xa5 - 0x5a) {
        memset(stack, paint, STACK);
        memcpy(sp, words + 6, stacked);
        result = call_on(sp, f, six);
        size_t free = 0;
        while (stack[free] == paint) {
            free++;
        }
        if (free < 4096) {
            fprintf(stderr, "%s: the painted stack is too small\n", name);
            exit(1);
        }
        size_t taken = (size_t)(sp + stacked - (stack + free));
        entries[at].most = taken > entries[at].most ? taken : entries[at].most;
    }
    if (numbered && (uint32_t)result != 0) {
        entries[at].refused++;
    } else {
        entries[at].done++;
    }
    return (uint32_t)result;
}

#define P(p, n) (uint64_t)(uintptr_t)(p), (uint64_t)(n)
#define CALL(f, ...) measure(#f, (uintptr_t)f, (const uint64_t[WORDS]){__VA_ARGS__}, sizeof((uint64_t[]){__VA_ARGS__}) / 8, 1)
#define PLAIN(f, n) (void)measure(#f, (uintptr_t)f, (const uint64_t[WORDS]){n}, 1, 0)

static uint8_t book[DESK_BOOK_MOST + 1], sheet[DESK_BOOK_MOST + 1], orders[DESK_ORDERS_ROOM], positions[DESK_POSITIONS_ROOM];
static uint8_t report[DESK_REPORT_ROOM], addendum[DESK_BOOK_MOST], joined[DESK_BOOK_MOST], text[DESK_FILE_MOST];
static uint8_t orders_b[DESK_ORDERS_ROOM], positions_b[DESK_POSITIONS_ROOM], answer[DESK_RECOVERED], answer_b[DESK_RECOVERED];
static const uint8_t queries[5 * DESK_ORDERS_ROOM / DESK_ORDER];

static size_t load(const char *path, uint8_t *bytes) {
    FILE *file = fopen(path, "rb");
    if (file == NULL) {
        perror(path);
        exit(2);
    }
    size_t length = fread(bytes, 1, DESK_BOOK_MOST + 1, file);
    fclose(file);
    return length;
}

static uint64_t number(const uint8_t *at) {
    uint64_t n;
    memcpy(&n, at, 8);
    return n;
}

/* Every entry that takes a book or a sheet, on one of each, with room for all and with none. */
static void logs(size_t book_len, size_t sheet_len) {
    static const uint8_t window[] = "am";
    uint64_t time = 1767312000000;
    CALL(desk_check_book, P(book, book_len));
    CALL(desk_check_sheet, P(sheet, sheet_len));
    CALL(desk_validate_checkpoints, P(book, book_len), P(answer, DESK_ANSWER));
    CALL(desk_max_checkpoint_sequence, P(book, book_len), P(answer, DESK_ANSWER));
    CALL(desk_check_window_already_complete, P(book, book_len), P(window, 2), P(answer, DESK_ANSWER));
    for (int room = 0; room < 2; room++) {
        CALL(desk_reply, P(book, book_len), P(sheet, sheet_len), P(text, room * sizeof text), P(answer, DESK_ANSWER));
        CALL(desk_reconstruct_state, P(book, book_len), time, P(orders_b, room * sizeof orders_b), P(positions_b, room * sizeof positions_b),
             P(answer_b, DESK_RECOVERED));
        CALL(desk_round, P(book, book_len), P(sheet, sheet_len), P(queries, sizeof queries), time, time, 1, P(orders, sizeof orders),
             P(positions, sizeof positions), P(addendum, sizeof addendum), P(joined, room * sizeof joined), P(answer, DESK_ANSWER));
    }
    CALL(desk_reconstruct_state, P(book, book_len), time, P(orders, sizeof orders), P(positions, sizeof positions), P(answer, DESK_RECOVERED));
    size_t orders_len = DESK_ORDER * number(answer + DESK_MARKS), positions_len = DESK_POSITION * number(answer + DESK_MARKS + 8);
    uint8_t marks[DESK_MARKS], stepped[DESK_MARKS] = {DESK_RUN_STARTED}, said[DESK_RECONCILED];
    memcpy(marks, answer, DESK_MARKS);
    CALL(desk_recovery_action, P(marks, DESK_MARKS), P(orders, orders_len), P(said, DESK_ANSWER));
    memcpy(stepped + 16, &time, 8);
    for (uint32_t next = 0; next <= DESK_EVENTS_MOST; next = next < 64 ? next + 1 : next + 997) {
        CALL(desk_step, P(book, book_len), next, P(stepped, DESK_MARKS), P(said, DESK_ANSWER));
    }
    CALL(desk_states_equal, P(book, book_len), P(marks, DESK_MARKS), P(orders, orders_len), P(positions, positions_len), P(book, book_len),
         P(marks, DESK_MARKS), P(orders_b, orders_len), P(positions_b, positions_len), P(said, DESK_ANSWER));
    for (int room = 0; room < 2; room++) {
        CALL(desk_compare_broker_state, P(marks, DESK_MARKS), P(orders, orders_len), P(positions, positions_len), P(sheet, sheet_len),
             P(report, room * sizeof report), P(said, DESK_ANSWER));
        CALL(desk_reconcile_incomplete_intents, P(marks, DESK_MARKS), P(orders, orders_len), P(sheet, sheet_len), P(queries, sizeof queries), time,
             P(addendum, room * sizeof addendum), P(said, DESK_RECONCILED));
    }
    size_t addendum_len = number(said + 16);
    for (int room = 0; room < 2; room++) {
        CALL(desk_join, P(book, book_len), P(addendum, addendum_len), number(said), P(joined, room * sizeof joined), P(answer, DESK_ANSWER));
    }
}

/* A symbol of two letters in a field of 16 bytes; the places of a list go up, down or mixed. */
static void put_symbol(uint8_t *field, size_t i) {
    memset(field, 0, 16);
    field[0] = 'A' + i / 36 % 26;
    field[1] = i % 36 < 10 ? '0' + i % 36 : 'A' + i % 36 - 10;
    field[2] = 'A' + i / 936;
    field[8] = 3;
}

/* Drift and held value of `count` symbols: one list is in order, one against it, one mixed. */
static void drift(size_t count, double weight, int64_t price) {
    static uint8_t targets[(DESK_DRIFT_MOST + 1) * DESK_DRIFT_ROW], prices[(DESK_DRIFT_MOST + 1) * DESK_DRIFT_ROW];
    static uint8_t drifted[2 * (DESK_DRIFT_MOST + 1) * DESK_DRIFT_ENTRY];
    for (size_t i = 0; i < count; i++) {
        int64_t quantity = (int64_t)(3 * i) - 7;
        put_symbol(positions + i * DESK_POSITION, i);
        memcpy(positions + i * DESK_POSITION + 16, &quantity, 8);
        put_symbol(targets + i * DESK_DRIFT_ROW, count - i + 512);
        memcpy(targets + i * DESK_DRIFT_ROW + 16, &weight, 8);
        put_symbol(prices + i * DESK_DRIFT_ROW, i * 517 % count);
        memcpy(prices + i * DESK_DRIFT_ROW + 16, &price, 8);
    }
    for (int room = 0; room < 2; room++) {
        CALL(desk_reconcile, P(positions, count * DESK_POSITION), P(targets, count * DESK_DRIFT_ROW), P(prices, count * DESK_DRIFT_ROW), 12345678,
             P(drifted, room * sizeof drifted), P(answer, DESK_ANSWER));
    }
    CALL(desk_held_value, P(positions, count * DESK_POSITION), P(prices, count * DESK_DRIFT_ROW), P(answer, DESK_ANSWER));
}

static void floats(void) {
    static const uint64_t bits[] = {0,
                                    1,
                                    0x3ff0000000000000,
                                    0x4000000000000000,
                                    0x3fdfffffffffffff,
                                    0x43e0000000000000,
                                    0x7fefffffffffffff,
                                    0xc05ec00000000000,
                                    0x7ff0000000000000,
                                    0x7ff8000000000001,
                                    0x8000000000000000,
                                    0xffffffffffffffff};
    for (size_t i = 0; i < sizeof bits / 8; i++) {
        CALL(desk_f64_to_fixed_checked, bits[i], 0x4059000000000000, P(answer, DESK_FIXED));
        CALL(desk_f64_cents_checked, bits[i], P(answer, DESK_FIXED));
        PLAIN(desk_f64_bits, bits[i]);
        PLAIN(desk_is_finite, bits[i]);
        PLAIN(desk_saturating_i64, bits[i]);
        PLAIN(desk_nearest_i64, bits[i]);
        PLAIN(desk_nearest_u64, bits[i]);
        PLAIN(desk_sqrt, bits[i]);
        PLAIN(desk_sign_extended, bits[i]);
        PLAIN(desk_truncated_i32, bits[i]);
    }
}

int main(int count, char **words) {
    for (int i = 1; i + 1 < count; i += 2) {
        size_t book_len = load(words[i], book);
        logs(book_len, load(words[i + 1], sheet));
    }
    static const size_t counts[] = {0, 1, 5, 8, 31, 32, 33, 500, DESK_DRIFT_MOST, DESK_DRIFT_MOST + 1};
    for (size_t i = 0; i < sizeof counts / sizeof counts[0]; i++) {
        drift(counts[i], 0.01, 4321);
        drift(counts[i], 2000.0, 4321);
        drift(counts[i], 0.01, INT64_MAX);
    }
    floats();
    for (size_t at = 0; entries[at].name != NULL; at++) {
        printf("%s %zu %u %u\n", entries[at].name, entries[at].most, entries[at].done, entries[at].refused);
    }
    return 0;
}

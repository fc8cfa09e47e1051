/* Case C of 01 (examples/order.life) through the proved code: owner 7 leases axis 0 and drives it, sends the same order
   again, and lets the watchdog run out. Prints a line for each record: the kind that goes in, the kind that comes out,
   and its number. */
#include "../../../bindings/c/rolthai.h"

#include <inttypes.h>
#include <stdio.h>

enum { MOST_RECORDS = 64, MOST_WORDS = ROLTHAI_INPUT_BYTES / 8 - 1 };

static uint8_t input[MOST_RECORDS * ROLTHAI_INPUT_BYTES];
static uint8_t output[MOST_RECORDS * ROLTHAI_OUTPUT_BYTES];
static size_t records;

/* Adds a record; the words are those after its kind. */
static void add(enum rolthai_input kind, const int64_t words[MOST_WORDS]) {
    uint8_t *record = input + records++ * ROLTHAI_INPUT_BYTES;
    rolthai_put(record, 0, kind);
    for (size_t word = 0; word < MOST_WORDS; word++) {
        if (words[word] < 0) {
            rolthai_put_i32(record, word + 1, (int32_t)words[word]);
        } else {
            rolthai_put(record, word + 1, (uint64_t)words[word]);
        }
    }
}

static void add_profile(void) {
    add(ROLTHAI_IN_CAPABILITY, (const int64_t[MOST_WORDS]){1, 0, 0, 2, -1000, 1000, -2000, 2000, 0, 15});
    add(ROLTHAI_IN_CAPABILITY, (const int64_t[MOST_WORDS]){2, 0, 2});
    add(ROLTHAI_IN_CAPABILITY, (const int64_t[MOST_WORDS]){3, 1, 1, 0, 0, 0, 0, 0, 0, 17, 1, 1, 1});
    add(ROLTHAI_IN_CAPABILITY, (const int64_t[MOST_WORDS]){4, 1, 1, 0, 0, 0, 0, 0, 0, 17, 1, 1, 0});
}

static void add_order(void) {
    add(ROLTHAI_IN_SUBMIT, (const int64_t[MOST_WORDS]){10, 7, 0, 42, 7, 1, 1, 1, 1, 2, 0, 100, 100, 300, -50});
}

static void add_yes(enum rolthai_input kind) {
    add(kind, (const int64_t[MOST_WORDS]){1});
}

static void add_bare(enum rolthai_input kind) {
    add(kind, (const int64_t[MOST_WORDS]){0});
}

static void add_life(void) {
    add_profile();
    add(ROLTHAI_IN_START, (const int64_t[MOST_WORDS]){42, 0, 0, 50, 250, 2000, 1000, 32, 1});
    add_yes(ROLTHAI_IN_FELL_BACK);
    add_yes(ROLTHAI_IN_FELL_BACK);
    add(ROLTHAI_IN_ACQUIRE, (const int64_t[MOST_WORDS]){0, 7, 0, 6, 2000, INT32_MIN, INT32_MAX, INT32_MIN, INT32_MAX});
    add_bare(ROLTHAI_IN_RECORDED);
    add_order();
    add_yes(ROLTHAI_IN_OBSERVED);
    add_yes(ROLTHAI_IN_EXECUTED);
    add(ROLTHAI_IN_OBSERVED, (const int64_t[MOST_WORDS]){1, 300, -50, 0});
    add_bare(ROLTHAI_IN_RECORDED);
    add_order();
    add_bare(ROLTHAI_IN_RECORDED);
    add(ROLTHAI_IN_TICK, (const int64_t[MOST_WORDS]){61});
    for (int axis = 0; axis < 2; axis++) {
        add_yes(ROLTHAI_IN_FELL_BACK);
        add_bare(ROLTHAI_IN_RECORDED);
    }
    add_bare(ROLTHAI_IN_STATE);
    add_bare(ROLTHAI_IN_EPOCH);
    add_bare(ROLTHAI_IN_RECEIPT_COUNT);
    add_bare(ROLTHAI_IN_RECORDED);
}

int main(void) {
    add_life();
    size_t written = rolthai_run(input, records * ROLTHAI_INPUT_BYTES, output, sizeof output);
    for (size_t n = 0; n < written / ROLTHAI_OUTPUT_BYTES; n++) {
        const uint8_t *in = input + n * ROLTHAI_INPUT_BYTES;
        const uint8_t *out = output + n * ROLTHAI_OUTPUT_BYTES;
        printf("%" PRIu64 " -> %" PRIu64 " %" PRIu64 "\n", rolthai_get(in, 0), rolthai_get(out, 0), rolthai_get(out, 1));
    }
    return written == records * ROLTHAI_OUTPUT_BYTES ? 0 : 1;
}

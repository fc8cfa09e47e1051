/* The stage runtime for hosts in C (docs/HOST.md). Link target/staticlib/libhost.a (`tools/archives host`), which is for
   x86-64 only.

   The runtime's state lies in words that the host lends:

       static uint64_t words[ROLTHAI_WORDS];

   A host begins a call. An answer ROLTHAI_ITEM means that a driver call is due: rolthai_item tells which, the host makes
   it and hands its result back by the reply of that kind, and so on until another answer comes.

   What a host owes, because no function can see it:

   - Each item's driver call is made exactly once, when ROLTHAI_ITEM hands it out, and answered by its reply before any
     other call. After ROLTHAI_REPLY_AWAITED and ROLTHAI_OTHER_AWAITED, rolthai_item shows the same item again: it is a
     reminder, and the driver is not called for it.
   - rolthai_new gets a boot number that no earlier start had (docs/HOST.md, "The boot number").
   - Pointers are those of as many words as the count beside them says, 8-byte aligned.
   - A slice that is written overlaps no other slice of the same call.
   - One caller at a time. No interrupt or second thread calls in while a call is under way: an interrupt counts a raise
     number up, and the main loop hands it to rolthai_poll_estop.
   - Between calls the words are the runtime's own: the host writes none of them. A copy is not a second runtime: with an
     old copy restored, orders that were carried out could be carried out again.
   - The owner of a lease and the principal of an order are who the host has found them to be; a local recovery is asked
     for by somebody at the stage.

   Counts that are too small or too large, other words and words above their field do no harm: a number answers them. */
#ifndef ROLTHAI_H
#define ROLTHAI_H

#include <stdbool.h>
#include <stddef.h>
#include <stdint.h>

#ifdef __cplusplus
extern "C" {
#endif

/* sizes -----------------------------------------------------------------------------------------------------------------

   How many words each slice has, exactly; only `out` may have more, and those are left. */

#define ROLTHAI_WORDS 2464u          /* state: what the host lends */
#define ROLTHAI_OUT_WORDS 26u        /* out: an output record */
#define ROLTHAI_RECORD_WORDS 16u     /* record: an input record, for rolthai_step */
#define ROLTHAI_START_WORDS 9u       /* start: enum rolthai_start_word */
#define ROLTHAI_CAPABILITY_WORDS 13u /* capabilities: as many for each, enum rolthai_capability_word */
#define ROLTHAI_REQUEST_WORDS 9u     /* request: enum rolthai_request_word */
#define ROLTHAI_ORDER_WORDS 15u      /* order: enum rolthai_order_word */

/* answers ---------------------------------------------------------------------------------------------------------------

   Of rolthai_clear, rolthai_new, the calls and the replies. */

enum rolthai_answer {
    ROLTHAI_CLEARED = 0,             /* rolthai_clear */
    ROLTHAI_STARTED = 2,             /* the start is over: there is a runtime */
    ROLTHAI_NO_RUNTIME = 4,          /* no start yet, or it was refused */
    ROLTHAI_ITEM = 20,               /* a driver call is due: rolthai_item tells which */
    ROLTHAI_RETURNED = 32,           /* tick, update_state, emergency_stop */
    ROLTHAI_UNRAISED = 33,           /* poll_estop: no raise since the last poll */
    ROLTHAI_SUCCEEDED = 34,          /* cancel, recover_local */
    ROLTHAI_LEASED = 35,             /* acquire, renew: rolthai_answered_lease */
    ROLTHAI_REFUSED = 36,            /* acquire, renew, cancel, recover_local: rolthai_refusal */
    ROLTHAI_SUBMITTED = 37,          /* submit, whatever was decided: rolthai_answered_receipt */
    ROLTHAI_RAISED = 38,             /* poll_estop: a raise; the stop was carried out */
    ROLTHAI_MALFORMED = 64,          /* a slice of another length, or a word above its field; nothing altered */
    ROLTHAI_SHORT = 65,              /* another number of words than ROLTHAI_WORDS, or too few in out; nothing altered */
    ROLTHAI_OTHER = 66,              /* the words were never cleared or started; nothing altered */
    ROLTHAI_INVALID_BOOT_ID = 101,   /* boot number 0 */
    ROLTHAI_INVALID_CONFIG = 102,    /* no capability or more than 16, or a configured number is 0 */
    ROLTHAI_INVALID_CAPABILITY = 103,
    ROLTHAI_DUPLICATE_CAPABILITY = 104,
    ROLTHAI_STARTUP_FAILED = 105,    /* a startup fallback failed; every used axis was tried */
    ROLTHAI_REPLY_AWAITED = 111,     /* a call while a reply is awaited; nothing altered */
    ROLTHAI_NO_REPLY_AWAITED = 112,  /* a reply while none is awaited; nothing altered */
    ROLTHAI_OTHER_AWAITED = 113      /* a reply of another kind than awaited; nothing altered */
};

/* A refusal, the reason of a fallback, and that of a receipt. */
enum rolthai_reason {
    ROLTHAI_REASON_OK = 0,
    ROLTHAI_REASON_BOUND = 1,
    ROLTHAI_REASON_STALE = 2,
    ROLTHAI_REASON_AUTHORITY = 3,
    ROLTHAI_REASON_DUPLICATE = 4,
    ROLTHAI_REASON_PRECONDITION = 5,
    ROLTHAI_REASON_OLD_SEQUENCE = 6,
    ROLTHAI_REASON_EPOCH = 7,
    ROLTHAI_REASON_UNKNOWN_CAPABILITY = 8,
    ROLTHAI_REASON_TOO_EARLY = 9,
    ROLTHAI_REASON_INVALID = 10,
    ROLTHAI_REASON_ESTOP = 11,
    ROLTHAI_REASON_FAULTED = 12,
    ROLTHAI_REASON_WATCHDOG = 13,
    ROLTHAI_REASON_LEASE_EXPIRED = 14,
    ROLTHAI_REASON_STREAM_EXPIRED = 15,
    ROLTHAI_REASON_DRIVER = 16,
    ROLTHAI_REASON_VERIFICATION = 17,
    ROLTHAI_REASON_CLOCK = 18,
    ROLTHAI_REASON_BUSY = 19,
    ROLTHAI_REASON_CANCELED = 20,
    ROLTHAI_REASON_INVALID_STORM = 21,
    ROLTHAI_REASON_STATE_STALE = 22,
    ROLTHAI_REASON_BOOT_MISMATCH = 23,
    ROLTHAI_REASON_LEASE_GRANTED = 24,
    ROLTHAI_REASON_LEASE_RENEWED = 25,
    ROLTHAI_REASON_RECOVERED = 26,
    ROLTHAI_REASON_STARTUP = 27
};

enum rolthai_state_number {
    ROLTHAI_STATE_SAFE_IDLE = 0,
    ROLTHAI_STATE_ARMED = 1,
    ROLTHAI_STATE_FAULTED = 2,
    ROLTHAI_STATE_ESTOPPED = 3
};

enum rolthai_decision {
    ROLTHAI_DECISION_EXECUTED = 0,
    ROLTHAI_DECISION_REJECTED = 1,
    ROLTHAI_DECISION_FALLBACK = 2,
    ROLTHAI_DECISION_CONTROL = 3,
    ROLTHAI_DECISION_FAILED = 4
};

enum rolthai_class {
    ROLTHAI_CLASS_STREAM = 0,
    ROLTHAI_CLASS_DISCRETE = 1,
    ROLTHAI_CLASS_CONTROL = 2
};

enum rolthai_verification {
    ROLTHAI_VERIFY_PARAMETERS = 0,
    ROLTHAI_VERIFY_STATE = 1
};

/* words of what a host hands in -----------------------------------------------------------------------------------------

   A word above its field (the type beside it) is answered ROLTHAI_MALFORMED. An i32 goes in by rolthai_of_i32: a cast
   would fill the upper 32 bits of a negative number. */

enum rolthai_start_word {
    ROLTHAI_START_BOOT_ID = 0,
    ROLTHAI_START_NOW = 1,
    ROLTHAI_START_FLAGS = 2,            /* u32 */
    ROLTHAI_START_WATCHDOG_MS = 3,      /* u32 */
    ROLTHAI_START_STATE_TTL_MS = 4,     /* u32 */
    ROLTHAI_START_MAX_LEASE_MS = 5,     /* u32 */
    ROLTHAI_START_MAX_VALID_FOR_MS = 6, /* u32 */
    ROLTHAI_START_INVALID_LIMIT = 7,    /* u16 */
    ROLTHAI_START_ESTOP_MASK = 8        /* u32 */
};

enum rolthai_capability_word {
    ROLTHAI_CAPABILITY_ID = 0,              /* u16 */
    ROLTHAI_CAPABILITY_RESOURCE = 1,        /* u8 */
    ROLTHAI_CAPABILITY_CLASS = 2,           /* enum rolthai_class */
    ROLTHAI_CAPABILITY_PARAMETER_COUNT = 3, /* u8 */
    ROLTHAI_CAPABILITY_MIN0 = 4,            /* i32 */
    ROLTHAI_CAPABILITY_MAX0 = 5,            /* i32 */
    ROLTHAI_CAPABILITY_MIN1 = 6,            /* i32 */
    ROLTHAI_CAPABILITY_MAX1 = 7,            /* i32 */
    ROLTHAI_CAPABILITY_REQUIRE_SET = 8,     /* u32 */
    ROLTHAI_CAPABILITY_REQUIRE_CLEAR = 9,   /* u32 */
    ROLTHAI_CAPABILITY_VERIFICATION = 10,   /* enum rolthai_verification */
    ROLTHAI_CAPABILITY_MASK = 11,           /* u32 */
    ROLTHAI_CAPABILITY_VALUE = 12           /* u32 */
};

enum rolthai_request_word {
    ROLTHAI_REQUEST_NOW = 0,
    ROLTHAI_REQUEST_OWNER = 1,
    ROLTHAI_REQUEST_RESOURCE = 2,     /* u8 */
    ROLTHAI_REQUEST_CAPABILITIES = 3, /* bit N is capability N */
    ROLTHAI_REQUEST_DURATION_MS = 4,  /* u32 */
    ROLTHAI_REQUEST_MIN0 = 5,         /* i32 */
    ROLTHAI_REQUEST_MAX0 = 6,         /* i32 */
    ROLTHAI_REQUEST_MIN1 = 7,         /* i32 */
    ROLTHAI_REQUEST_MAX1 = 8          /* i32 */
};

enum rolthai_order_word {
    ROLTHAI_ORDER_NOW = 0,
    ROLTHAI_ORDER_PRINCIPAL = 1, /* who sent it, as the host knows it; the requester is what the order says */
    ROLTHAI_ORDER_RECEIVED_AT = 2,
    ROLTHAI_ORDER_BOOT_ID = 3,
    ROLTHAI_ORDER_REQUESTER = 4,
    ROLTHAI_ORDER_LEASE_ID = 5,
    ROLTHAI_ORDER_ACTION_ID = 6,
    ROLTHAI_ORDER_SEQUENCE = 7,
    ROLTHAI_ORDER_CAPABILITY = 8, /* u16 */
    ROLTHAI_ORDER_BASED_ON_EPOCH = 9,
    ROLTHAI_ORDER_EXECUTE_AFTER = 10,
    ROLTHAI_ORDER_DEADLINE = 11,
    ROLTHAI_ORDER_VALID_FOR_MS = 12, /* u32 */
    ROLTHAI_ORDER_PARAMETER0 = 13,   /* i32 */
    ROLTHAI_ORDER_PARAMETER1 = 14    /* i32 */
};

/* words of what a host is told ------------------------------------------------------------------------------------------

   An output record: word 0 is its kind (enum rolthai_output), which the function also returns; word 1 the number of the
   table in docs/WIRE.md; the fields follow. An i32 comes out by rolthai_to_i32. */

enum rolthai_out_word {
    ROLTHAI_WORD_KIND = 0,
    ROLTHAI_WORD_NUMBER = 1, /* state, epoch, boot number, flags, count; of a lease, capability or receipt: 1, or 0: none */
    ROLTHAI_WORD_FIELDS = 2  /* of a capability that is read: this and enum rolthai_capability_word */
};

/* By the item's kind. */
enum rolthai_item_word {
    ROLTHAI_ITEM_AXIS = 2,       /* observe, fallback */
    ROLTHAI_ITEM_REASON = 3,     /* fallback */
    ROLTHAI_ITEM_CAPABILITY = 2, /* execute */
    ROLTHAI_ITEM_PARAMETER0 = 3, /* execute; i32 */
    ROLTHAI_ITEM_PARAMETER1 = 4  /* execute; i32 */
};

enum rolthai_config_word {
    ROLTHAI_CONFIG_WATCHDOG_MS = 2,
    ROLTHAI_CONFIG_STATE_TTL_MS = 3,
    ROLTHAI_CONFIG_MAX_LEASE_MS = 4,
    ROLTHAI_CONFIG_MAX_VALID_FOR_MS = 5,
    ROLTHAI_CONFIG_INVALID_LIMIT = 6,
    ROLTHAI_CONFIG_ESTOP_MASK = 7
};

enum rolthai_snapshot_word {
    ROLTHAI_SNAPSHOT_BOOT_ID = 2,
    ROLTHAI_SNAPSHOT_EPOCH = 3,
    ROLTHAI_SNAPSHOT_NOW = 4,
    ROLTHAI_SNAPSHOT_SENSOR_TICK = 5,
    ROLTHAI_SNAPSHOT_FLAGS = 6,
    ROLTHAI_SNAPSHOT_STATE = 7, /* enum rolthai_state_number */
    ROLTHAI_SNAPSHOT_ACTIVE_LEASES = 8,
    ROLTHAI_SNAPSHOT_RETAINED_RECEIPTS = 9,
    ROLTHAI_SNAPSHOT_NEXT_RECEIPT_ID = 10
};

enum rolthai_lease_word {
    ROLTHAI_LEASE_ID = 2,
    ROLTHAI_LEASE_OWNER = 3,
    ROLTHAI_LEASE_RESOURCE = 4,
    ROLTHAI_LEASE_CAPABILITIES = 5,
    ROLTHAI_LEASE_EXPIRES_AT = 6,
    ROLTHAI_LEASE_MIN0 = 7,  /* i32 */
    ROLTHAI_LEASE_MAX0 = 8,  /* i32 */
    ROLTHAI_LEASE_MIN1 = 9,  /* i32 */
    ROLTHAI_LEASE_MAX1 = 10, /* i32 */
    ROLTHAI_LEASE_LAST_SEQUENCE = 11,
    ROLTHAI_LEASE_LAST_RENEWAL = 12
};

enum rolthai_receipt_word {
    ROLTHAI_RECEIPT_BOOT_ID = 2,
    ROLTHAI_RECEIPT_PRINCIPAL = 3,
    ROLTHAI_RECEIPT_SAFETY_FLAGS = 4,
    ROLTHAI_RECEIPT_RECEIPT_ID = 5,
    ROLTHAI_RECEIPT_ACTION_ID = 6,
    ROLTHAI_RECEIPT_SEQUENCE = 7,
    ROLTHAI_RECEIPT_CAPABILITY = 8,
    ROLTHAI_RECEIPT_RESOURCE = 9,
    ROLTHAI_RECEIPT_LEASE_ID = 10,
    ROLTHAI_RECEIPT_DECISION = 11, /* enum rolthai_decision */
    ROLTHAI_RECEIPT_REASON = 12,   /* enum rolthai_reason */
    ROLTHAI_RECEIPT_EPOCH = 13,
    ROLTHAI_RECEIPT_RECEIVED_AT = 14,
    ROLTHAI_RECEIPT_ADMITTED_AT = 15,
    ROLTHAI_RECEIPT_EXECUTED_AT = 16,
    ROLTHAI_RECEIPT_REQUESTED0 = 17, /* i32 */
    ROLTHAI_RECEIPT_REQUESTED1 = 18, /* i32 */
    ROLTHAI_RECEIPT_OBSERVED0 = 19,  /* i32 */
    ROLTHAI_RECEIPT_OBSERVED1 = 20,  /* i32 */
    ROLTHAI_RECEIPT_PRE_STATE = 21,
    ROLTHAI_RECEIPT_POST_STATE = 22,
    ROLTHAI_RECEIPT_ORIGINAL_RECEIPT = 23, /* of a duplicate: the receipt that consumed its id */
    ROLTHAI_RECEIPT_DISPATCHED = 24,
    ROLTHAI_RECEIPT_OBSERVED_VALID = 25
};

/* a start ---------------------------------------------------------------------------------------------------------------*/

/* ROLTHAI_WORDS. */
size_t rolthai_size(void);

/* No runtime, and nothing listed: for a host that begins with rolthai_step. Not needed before rolthai_new. */
uint32_t rolthai_clear(uint64_t *state, size_t n);

/* A runtime, whatever the words were: of one before, and of an item that it waits for, nothing is left, as after a power
   cut. The first answer is an item (a startup fallback) or 101 to 104; the last reply's is ROLTHAI_STARTED or
   ROLTHAI_STARTUP_FAILED. `capabilities` has 13 words for each. */
uint32_t rolthai_new(uint64_t *state, size_t n, const uint64_t *start, size_t start_n, const uint64_t *capabilities, size_t capabilities_n);

/* calls -----------------------------------------------------------------------------------------------------------------

   `time` is now, in milliseconds. */

/* At least every watchdog_ms: under a lease an overdue one trips. */
uint32_t rolthai_tick(uint64_t *state, size_t n, uint64_t time);

/* The sensed flags, changed or not, more often than every state_ttl_ms; older ones trip under a lease. It is a tick, too. */
uint32_t rolthai_update_state(uint64_t *state, size_t n, uint32_t flags, uint64_t time);

/* While a reply is awaited this is turned away like any call, with 111: the reply comes first. What has to stop at once is
   stopped by hardware. */
uint32_t rolthai_emergency_stop(uint64_t *state, size_t n, uint64_t time);

/* `raised` is the number that interrupts count up, wrapping; a start has seen 0. Another number than the last one seen is
   an emergency stop. With no raise this is no tick. */
uint32_t rolthai_poll_estop(uint64_t *state, size_t n, uint32_t raised, uint64_t time);

/* Out of Faulted or Estopped; refused while a flag of estop_mask stands. */
uint32_t rolthai_recover_local(uint64_t *state, size_t n, uint64_t time);

uint32_t rolthai_acquire(uint64_t *state, size_t n, const uint64_t *request, size_t request_n);

/* `renewal` is above that of the renewal before, the first one above 0. */
uint32_t rolthai_renew(uint64_t *state, size_t n, uint64_t owner, uint64_t lease, uint64_t renewal, uint32_t duration_ms, uint64_t time);

uint32_t rolthai_cancel(uint64_t *state, size_t n, uint64_t owner, uint64_t lease, uint64_t time);

uint32_t rolthai_submit(uint64_t *state, size_t n, const uint64_t *order, size_t order_n);

/* replies of the driver -------------------------------------------------------------------------------------------------

   One for each kind of item; `ok` is false where the driver failed. */

/* ROLTHAI_VERIFY_PARAMETERS looks at the values, ROLTHAI_VERIFY_STATE at the sensed state. With `ok` false none is read. */
uint32_t rolthai_observed(uint64_t *state, size_t n, bool ok, int32_t value0, int32_t value1, uint32_t sensed);

uint32_t rolthai_executed(uint64_t *state, size_t n, bool ok);

uint32_t rolthai_fell_back(uint64_t *state, size_t n, bool ok);

uint32_t rolthai_recorded(uint64_t *state, size_t n);

/* what a host is told ---------------------------------------------------------------------------------------------------

   The answer is the kind of the record in `out` (enum rolthai_output), or ROLTHAI_SHORT or ROLTHAI_OTHER, which leave
   `out`. */

/* The item whose reply is awaited, ROLTHAI_OUT_OBSERVE to ROLTHAI_OUT_RECORD; ROLTHAI_OUT_UNAWAITED where none is. */
uint32_t rolthai_item(const uint64_t *state, size_t n, uint64_t *out, size_t out_n);

/* What the last answer speaks of, to be read right after ROLTHAI_LEASED, ROLTHAI_SUBMITTED and ROLTHAI_REFUSED: the
   promise is about that moment. Later they show something else under the same kind. */
uint32_t rolthai_answered_lease(const uint64_t *state, size_t n, uint64_t *out, size_t out_n);

uint32_t rolthai_answered_receipt(const uint64_t *state, size_t n, uint64_t *out, size_t out_n);

/* enum rolthai_reason, or ROLTHAI_SHORT or ROLTHAI_OTHER. */
uint32_t rolthai_refusal(const uint64_t *state, size_t n);

/* readings --------------------------------------------------------------------------------------------------------------

   At any time, also while a reply is awaited. The answers are those above; ROLTHAI_OUT_NO_RUNTIME until a start is over. */

uint32_t rolthai_state(const uint64_t *state, size_t n, uint64_t *out, size_t out_n);

uint32_t rolthai_epoch(const uint64_t *state, size_t n, uint64_t *out, size_t out_n);

uint32_t rolthai_boot_id(const uint64_t *state, size_t n, uint64_t *out, size_t out_n);

uint32_t rolthai_flags(const uint64_t *state, size_t n, uint64_t *out, size_t out_n);

uint32_t rolthai_receipt_count(const uint64_t *state, size_t n, uint64_t *out, size_t out_n);

uint32_t rolthai_config(const uint64_t *state, size_t n, uint64_t *out, size_t out_n);

uint32_t rolthai_snapshot(const uint64_t *state, size_t n, uint64_t *out, size_t out_n);

uint32_t rolthai_lease(const uint64_t *state, size_t n, uint8_t axis, uint64_t *out, size_t out_n);

uint32_t rolthai_capability(const uint64_t *state, size_t n, uint64_t index, uint64_t *out, size_t out_n);

/* Index 0 is the oldest that is kept. */
uint32_t rolthai_receipt(const uint64_t *state, size_t n, uint64_t index, uint64_t *out, size_t out_n);

/* records ---------------------------------------------------------------------------------------------------------------*/

/* One record of docs/WIRE.md in place of the functions above. The answer is the kind of the record in `out`
   (enum rolthai_output), or ROLTHAI_SHORT or ROLTHAI_OTHER, which leave `out`. ROLTHAI_MALFORMED: with record_n 16 it is
   an output record like any other, and was written; with another record_n `out` was left. A poll is answered
   ROLTHAI_OUT_POLLED and a refused start ROLTHAI_OUT_START_REFUSED, each with its number in word 1. */
uint32_t rolthai_step(uint64_t *state, size_t n, const uint64_t *record, size_t record_n, uint64_t *out, size_t out_n);

/* The kinds of input records. */
enum rolthai_input {
    ROLTHAI_IN_CAPABILITY = 1,
    ROLTHAI_IN_START = 2,
    ROLTHAI_IN_TICK = 16,
    ROLTHAI_IN_UPDATE_STATE = 17,
    ROLTHAI_IN_EMERGENCY_STOP = 18,
    ROLTHAI_IN_POLL_ESTOP = 19,
    ROLTHAI_IN_RECOVER_LOCAL = 20,
    ROLTHAI_IN_ACQUIRE = 21,
    ROLTHAI_IN_RENEW = 22,
    ROLTHAI_IN_CANCEL = 23,
    ROLTHAI_IN_SUBMIT = 24,
    ROLTHAI_IN_OBSERVED = 32,
    ROLTHAI_IN_EXECUTED = 33,
    ROLTHAI_IN_FELL_BACK = 34,
    ROLTHAI_IN_RECORDED = 35,
    ROLTHAI_IN_STATE = 48,
    ROLTHAI_IN_EPOCH = 49,
    ROLTHAI_IN_BOOT_ID = 50,
    ROLTHAI_IN_FLAGS = 51,
    ROLTHAI_IN_RECEIPT_COUNT = 52,
    ROLTHAI_IN_CONFIG = 53,
    ROLTHAI_IN_SNAPSHOT = 54,
    ROLTHAI_IN_LEASE = 55,
    ROLTHAI_IN_CAPABILITY_AT = 56,
    ROLTHAI_IN_RECEIPT_AT = 57
};

/* The kinds of output records. */
enum rolthai_output {
    ROLTHAI_OUT_LISTED = 1,
    ROLTHAI_OUT_STARTED = 2,
    ROLTHAI_OUT_START_REFUSED = 3,
    ROLTHAI_OUT_NO_RUNTIME = 4,
    ROLTHAI_OUT_UNAWAITED = 5,
    ROLTHAI_OUT_OBSERVE = 16,
    ROLTHAI_OUT_EXECUTE = 17,
    ROLTHAI_OUT_FALLBACK = 18,
    ROLTHAI_OUT_RECORD = 19,
    ROLTHAI_OUT_RETURNED = 32,
    ROLTHAI_OUT_POLLED = 33,
    ROLTHAI_OUT_SUCCEEDED = 34,
    ROLTHAI_OUT_LEASED = 35,
    ROLTHAI_OUT_REFUSED = 36,
    ROLTHAI_OUT_SETTLED = 37,
    ROLTHAI_OUT_STATE = 48,
    ROLTHAI_OUT_NUMBER = 49,
    ROLTHAI_OUT_CONFIG = 53,
    ROLTHAI_OUT_SNAPSHOT = 54,
    ROLTHAI_OUT_LEASE = 55,
    ROLTHAI_OUT_CAPABILITY = 56,
    ROLTHAI_OUT_RECEIPT = 57,
    ROLTHAI_OUT_MALFORMED = 64,
    ROLTHAI_OUT_SHORT = 65 /* rolthai_run alone */
};

/* A signed number as a word: its 32 bits, with zero bits above; and back. */
static inline uint64_t rolthai_of_i32(int32_t value) {
    return (uint32_t)value;
}

static inline int32_t rolthai_to_i32(uint64_t word) {
    uint32_t bits = (uint32_t)word;
    return bits <= INT32_MAX ? (int32_t)bits : -(int32_t)(UINT32_MAX - bits) - 1;
}

/* whole lives as bytes --------------------------------------------------------------------------------------------------

   Another archive, libwire.a (`tools/archives wire`), for tests and replays (docs/WIRE.md): the same records, each word 8
   bytes with the little end first. Nothing stays from one run to the next. */

#define ROLTHAI_INPUT_BYTES 128u
#define ROLTHAI_OUTPUT_BYTES 208u

/* Runs the input records and writes an output record for each; the number of bytes written. There is no condition on
   the bytes. The run ends before the first record whose answer does not fit. */
size_t rolthai_run(const uint8_t *input, size_t input_len, uint8_t *output, size_t output_len);

/* Writes a word of a record. */
static inline void rolthai_put(uint8_t *record, size_t word, uint64_t value) {
    for (size_t byte = 0; byte < 8; byte++) {
        record[8 * word + byte] = (uint8_t)(value >> (8 * byte));
    }
}

static inline void rolthai_put_i32(uint8_t *record, size_t word, int32_t value) {
    rolthai_put(record, word, rolthai_of_i32(value));
}

/* Reads a word of a record. */
static inline uint64_t rolthai_get(const uint8_t *record, size_t word) {
    uint64_t value = 0;
    for (size_t byte = 8; byte > 0; byte--) {
        value = (value << 8) | record[8 * word + byte - 1];
    }
    return value;
}

static inline int32_t rolthai_get_i32(const uint8_t *record, size_t word) {
    return rolthai_to_i32(rolthai_get(record, word));
}

/* receipts on a memory card ---------------------------------------------------------------------------------------------

   Another archive, libcard.a (`tools/archives card`), for the file of docs/CARD.md: a head, then a record for each receipt.
   A receipt is its 24 words, each 8 bytes with the little end first. Those of a record item are `out + 2`, so a host lends
   them as they are; that holds on little-endian hosts only, and others put each by rolthai_put:

       n = rolthai_card_write((const uint8_t *)(out + ROLTHAI_WORD_FIELDS), ROLTHAI_RECEIPT_BYTES, record, sizeof record);

   Slices are of bytes, at any address. There is no condition on what they hold, on lengths and places, and nothing stays
   from one call to the next. */

#define ROLTHAI_CARD_HEAD_BYTES 4u
#define ROLTHAI_CARD_RECORD_BYTES 129u /* the longest record */
#define ROLTHAI_RECEIPT_BYTES 192u

/* Of rolthai_card_read. */
enum rolthai_card_answer {
    ROLTHAI_CARD_READ = 0,       /* the head is right; or a record's receipt was written */
    ROLTHAI_CARD_END = 1,        /* the card ends at this place, or before it */
    ROLTHAI_CARD_NO_ROOM = 2,    /* receipt_len is below ROLTHAI_RECEIPT_BYTES; tested before the record */
    ROLTHAI_CARD_NO_HEAD = 121,  /* it is wrong or short */
    ROLTHAI_CARD_PAST_END = 122, /* the record ends past the card: after a power cut, its last one */
    ROLTHAI_CARD_UNSOUND = 123   /* another rule of the record is broken */
};

/* Writes the head at the beginning of `card`: ROLTHAI_CARD_HEAD_BYTES, or 0 and nothing written where there is no room. */
size_t rolthai_card_head(uint8_t *card, size_t card_len);

/* Writes the record of a receipt at the beginning of `card`: its bytes, 7 to ROLTHAI_CARD_RECORD_BYTES. 0, and nothing
   written: no room, or `receipt` is no receipt's words. */
size_t rolthai_card_write(const uint8_t *receipt, size_t receipt_len, uint8_t *card, size_t card_len);

/* With `at` below ROLTHAI_CARD_HEAD_BYTES it tests the head, else it reads the record there; the next one is at
   at + card[at] + 3. Only ROLTHAI_CARD_READ of a record alters `receipt`. */
uint32_t rolthai_card_read(const uint8_t *card, size_t card_len, size_t at, uint8_t *receipt, size_t receipt_len);

#ifdef __cplusplus
}
#endif

#endif

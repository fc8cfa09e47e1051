/* Lent words that hold anything, and slices of any length: there is an answer, a known one, and no byte outside a slice
   is touched. The line before the last says how many calls were made; the last is 'N passed, M failed': one for each
   thousand steps over random words, for each sound state with a word altered, for each length of the state, and for each
   other first word.

   The sanitizers see what this file does; the archive is compiled without them. So the slices that the functions get lie
   in three kinds of places: heap blocks of just their size, where the sanitizer sees this file leave them; and beside
   pages that nobody may touch, either ending where such a page begins or beginning where one ends, so that a word before
   or behind them is a fault in any code. */
#define _DEFAULT_SOURCE
#include "../../bindings/c/rolthai.h"

#include <inttypes.h>
#include <stdio.h>
#include <stdlib.h>
#include <string.h>
#include <sys/mman.h>
#include <unistd.h>

enum {
    STEPS = 4000000,
    STEPS_EACH = 1000, /* after so many the words are random again */
    AGAIN = 50, /* .. and after so many some of them */
    FLIPS = 10000,
    CALLS_AFTER = 50,
    SECONDS = 120, /* a function that does not end is ended, and that is a failure */
    MOST_CAPABILITIES = 20,
    STATE = ROLTHAI_WORDS,
    MORE = 40, /* so many lengths above it are tried */
    OUT = ROLTHAI_OUT_WORDS,
    RECORD = ROLTHAI_RECORD_WORDS
};

static const uint64_t UNTOUCHED = UINT64_C(0xa5a5a5a5a5a5a5a5);

static uint64_t first; /* the word that lent words begin with, once they are cleared */
static unsigned long passed, failed;
static unsigned long by_record, by_function; /* calls of rolthai_step, and of the others */

/* Counts, and says what is wrong, the first times. */
static void count(int good, const char *what, uint64_t at) {
    if (good) {
        passed++;
    } else if (failed++ < 10) {
        printf("FAILED %s %" PRIu64 "\n", what, at);
    }
}

/* random numbers --------------------------------------------------------------------------------------------------- */

static uint64_t seed = 1;

static uint64_t draw(void) {
    seed += UINT64_C(0x9e3779b97f4a7c15);
    uint64_t x = seed;
    x = (x ^ (x >> 30)) * UINT64_C(0xbf58476d1ce4e5b9);
    x = (x ^ (x >> 27)) * UINT64_C(0x94d049bb133111eb);
    return x ^ (x >> 31);
}

static size_t below(size_t end) {
    return (size_t)(draw() % end);
}

/* A word up to this one: small most often, large, or any. */
static uint64_t up_to(uint64_t most) {
    uint64_t word;
    switch (below(8)) {
    case 0: word = draw(); break;
    case 1: return most - below(3) % (most / 2 + 1);
    case 2: word = UINT64_C(1) << below(64); break;
    case 3: word = below(70); break;
    default: word = below(9); break;
    }
    return most == UINT64_MAX ? word : word % (most + 1);
}

static uint64_t any_word(void) {
    return up_to(UINT64_MAX);
}

/* slices ----------------------------------------------------------------------------------------------------------- */

struct slice {
    uint64_t *at;
    size_t n;
};

enum place { HEAP, ENDS, BEGINS, PLACES };

/* Room for one slice in each place. */
struct room {
    uint64_t *heap;     /* NULL: none */
    uint64_t *ends;     /* where a page begins that nobody may touch */
    uint64_t *begins;   /* where one ends */
};

/* Pages with one before and one behind that nobody may touch. */
static uint8_t *guarded(size_t bytes) {
    size_t page = (size_t)sysconf(_SC_PAGESIZE);
    size_t inside = (bytes + page - 1) / page * page;
    uint8_t *all = mmap(NULL, inside + 2 * page, PROT_NONE, MAP_PRIVATE | MAP_ANONYMOUS, -1, 0);
    if (all == MAP_FAILED || mprotect(all + page, inside, PROT_READ | PROT_WRITE) != 0) {
        perror("mmap");
        exit(2);
    }
    return all + page;
}

static struct room room_for(size_t most) {
    size_t page = (size_t)sysconf(_SC_PAGESIZE);
    size_t bytes = most * sizeof(uint64_t);
    size_t inside = (bytes + page - 1) / page * page;
    struct room room = {NULL, NULL, NULL};
    room.ends = (uint64_t *)(void *)(guarded(bytes) + inside);
    room.begins = (uint64_t *)(void *)guarded(bytes);
    return room;
}

/* A slice of so many words; the one before it in the same room is gone. */
static struct slice lend(struct room *room, enum place place, size_t n) {
    struct slice slice = {NULL, n};
    free(room->heap);
    room->heap = NULL;
    switch (place) {
    case HEAP:
        /* None at all is lent as C does it. */
        room->heap = n == 0 ? NULL : malloc(n * sizeof(uint64_t));
        if (n != 0 && room->heap == NULL) {
            exit(2);
        }
        slice.at = room->heap;
        break;
    case ENDS: slice.at = room->ends - n; break;
    default: slice.at = room->begins; break;
    }
    return slice;
}

static struct slice lend_anywhere(struct room *room, size_t n) {
    return lend(room, (enum place)below(PLACES), n);
}

static void fill(struct slice slice, uint64_t word) {
    for (size_t i = 0; i < slice.n; i++) {
        slice.at[i] = word;
    }
}

static int is_filled(struct slice slice, size_t from, uint64_t word) {
    for (size_t i = from; i < slice.n; i++) {
        if (slice.at[i] != word) {
            return 0;
        }
    }
    return 1;
}

static int is_same(struct slice slice, const uint64_t *words) {
    return slice.n == 0 || memcmp(slice.at, words, slice.n * sizeof(uint64_t)) == 0;
}

static struct room state_room, first_room, second_room, out_room;

/* records ---------------------------------------------------------------------------------------------------------- */

#define U8 UINT8_MAX
#define U16 UINT16_MAX
#define U32 UINT32_MAX
#define U64 UINT64_MAX

/* What each word of a kind holds at most, after its kind; 0 where it is not used. */
static const uint64_t KINDS[][RECORD] = {
    {1, U16, U8, 2, U8, U32, U32, U32, U32, U32, U32, 1, U32, U32, 0, 0},
    {2, U64, U64, U32, U32, U32, U32, U32, U16, U32, 0, 0, 0, 0, 0, 0},
    {16, U64, 0, 0, 0, 0, 0, 0, 0, 0, 0, 0, 0, 0, 0, 0},
    {17, U64, U32, 0, 0, 0, 0, 0, 0, 0, 0, 0, 0, 0, 0, 0},
    {18, U64, 0, 0, 0, 0, 0, 0, 0, 0, 0, 0, 0, 0, 0, 0},
    {19, U64, U32, 0, 0, 0, 0, 0, 0, 0, 0, 0, 0, 0, 0, 0},
    {20, U64, 0, 0, 0, 0, 0, 0, 0, 0, 0, 0, 0, 0, 0, 0},
    {21, U64, U64, U8, U64, U32, U32, U32, U32, U32, 0, 0, 0, 0, 0, 0},
    {22, U64, U64, U64, U64, U32, 0, 0, 0, 0, 0, 0, 0, 0, 0, 0},
    {23, U64, U64, U64, 0, 0, 0, 0, 0, 0, 0, 0, 0, 0, 0, 0},
    {24, U64, U64, U64, U64, U64, U64, U64, U64, U16, U64, U64, U64, U32, U32, U32},
    {32, 1, U32, U32, U32, 0, 0, 0, 0, 0, 0, 0, 0, 0, 0, 0},
    {33, 1, 0, 0, 0, 0, 0, 0, 0, 0, 0, 0, 0, 0, 0, 0},
    {34, 1, 0, 0, 0, 0, 0, 0, 0, 0, 0, 0, 0, 0, 0, 0},
    {35, 0, 0, 0, 0, 0, 0, 0, 0, 0, 0, 0, 0, 0, 0, 0},
    {48, 0, 0, 0, 0, 0, 0, 0, 0, 0, 0, 0, 0, 0, 0, 0},
    {49, 0, 0, 0, 0, 0, 0, 0, 0, 0, 0, 0, 0, 0, 0, 0},
    {50, 0, 0, 0, 0, 0, 0, 0, 0, 0, 0, 0, 0, 0, 0, 0},
    {51, 0, 0, 0, 0, 0, 0, 0, 0, 0, 0, 0, 0, 0, 0, 0},
    {52, 0, 0, 0, 0, 0, 0, 0, 0, 0, 0, 0, 0, 0, 0, 0},
    {53, 0, 0, 0, 0, 0, 0, 0, 0, 0, 0, 0, 0, 0, 0, 0},
    {54, 0, 0, 0, 0, 0, 0, 0, 0, 0, 0, 0, 0, 0, 0, 0},
    {55, U8, 0, 0, 0, 0, 0, 0, 0, 0, 0, 0, 0, 0, 0, 0},
    {56, U64, 0, 0, 0, 0, 0, 0, 0, 0, 0, 0, 0, 0, 0, 0},
    {57, U64, 0, 0, 0, 0, 0, 0, 0, 0, 0, 0, 0, 0, 0, 0},
};

enum { KIND_COUNT = sizeof KINDS / sizeof KINDS[0], CAPABILITY = 0, START = 1, ACQUIRE = 7, SUBMIT = 10 };

/* The fields of a kind, of which now and then one is too large. */
static void put_fields(struct slice to, size_t kind) {
    for (size_t i = 0; i < to.n; i++) {
        uint64_t most = i + 1 < RECORD ? KINDS[kind][i + 1] : 0;
        to.at[i] = up_to(most);
    }
    if (to.n > 0 && below(16) == 0) {
        to.at[below(to.n)] = any_word();
    }
}

static void put_record(struct slice to, int starts) {
    size_t kind = below(KIND_COUNT);
    if (kind == START && !starts) {
        kind = ACQUIRE;
    }
    if (to.n > 0) {
        struct slice fields = {to.at + 1, to.n - 1};
        put_fields(fields, kind);
        to.at[0] = below(32) == 0 ? any_word() : KINDS[kind][0];
        if (to.at[0] == KINDS[START][0] && !starts) {
            to.at[0] = 0;
        }
    }
}

/* the functions ---------------------------------------------------------------------------------------------------- */

enum function {
    CLEAR, NEW, TICK, UPDATE_STATE, EMERGENCY_STOP, POLL_ESTOP, RECOVER_LOCAL, ACQUIRES, RENEW, CANCEL, SUBMITS, OBSERVED,
    EXECUTED, FELL_BACK, RECORDED, REFUSAL, ITEM, ANSWERED_LEASE, ANSWERED_RECEIPT, STATE_OF, EPOCH, BOOT_ID, FLAGS,
    RECEIPT_COUNT, CONFIG, SNAPSHOT, LEASE, CAPABILITY_AT, RECEIPT_AT, STEP, FUNCTIONS
};

static int tells(enum function f) {
    return f >= ITEM;
}

/* What a call gives its function beside the state. */
struct given {
    struct slice first;  /* a start, a request, an order or a record */
    struct slice second; /* capabilities */
    struct slice out;
};

static uint32_t call(enum function f, struct slice s, const struct given *g) {
    *(f == STEP ? &by_record : &by_function) += 1;
    uint64_t time = any_word();
    uint64_t owner = any_word();
    uint64_t lease = any_word();
    uint64_t renewal = any_word();
    uint32_t bits = (uint32_t)up_to(U32);
    int32_t value0 = (int32_t)(up_to(U32) & INT32_MAX) - (below(2) ? INT32_MAX : 0);
    int32_t value1 = (int32_t)(up_to(U32) & INT32_MAX) - (below(2) ? INT32_MAX : 0);
    bool ok = below(2) == 1;
    struct slice a = g->first;
    struct slice b = g->second;
    struct slice o = g->out;
    switch (f) {
    case CLEAR: return rolthai_clear(s.at, s.n);
    case NEW: return rolthai_new(s.at, s.n, a.at, a.n, b.at, b.n);
    case TICK: return rolthai_tick(s.at, s.n, time);
    case UPDATE_STATE: return rolthai_update_state(s.at, s.n, bits, time);
    case EMERGENCY_STOP: return rolthai_emergency_stop(s.at, s.n, time);
    case POLL_ESTOP: return rolthai_poll_estop(s.at, s.n, bits, time);
    case RECOVER_LOCAL: return rolthai_recover_local(s.at, s.n, time);
    case ACQUIRES: return rolthai_acquire(s.at, s.n, a.at, a.n);
    case RENEW: return rolthai_renew(s.at, s.n, owner, lease, renewal, bits, time);
    case CANCEL: return rolthai_cancel(s.at, s.n, owner, lease, time);
    case SUBMITS: return rolthai_submit(s.at, s.n, a.at, a.n);
    case OBSERVED: return rolthai_observed(s.at, s.n, ok, value0, value1, bits);
    case EXECUTED: return rolthai_executed(s.at, s.n, ok);
    case FELL_BACK: return rolthai_fell_back(s.at, s.n, ok);
    case RECORDED: return rolthai_recorded(s.at, s.n);
    case REFUSAL: return rolthai_refusal(s.at, s.n);
    case ITEM: return rolthai_item(s.at, s.n, o.at, o.n);
    case ANSWERED_LEASE: return rolthai_answered_lease(s.at, s.n, o.at, o.n);
    case ANSWERED_RECEIPT: return rolthai_answered_receipt(s.at, s.n, o.at, o.n);
    case STATE_OF: return rolthai_state(s.at, s.n, o.at, o.n);
    case EPOCH: return rolthai_epoch(s.at, s.n, o.at, o.n);
    case BOOT_ID: return rolthai_boot_id(s.at, s.n, o.at, o.n);
    case FLAGS: return rolthai_flags(s.at, s.n, o.at, o.n);
    case RECEIPT_COUNT: return rolthai_receipt_count(s.at, s.n, o.at, o.n);
    case CONFIG: return rolthai_config(s.at, s.n, o.at, o.n);
    case SNAPSHOT: return rolthai_snapshot(s.at, s.n, o.at, o.n);
    case LEASE: return rolthai_lease(s.at, s.n, (uint8_t)up_to(U8), o.at, o.n);
    case CAPABILITY_AT: return rolthai_capability(s.at, s.n, time, o.at, o.n);
    case RECEIPT_AT: return rolthai_receipt(s.at, s.n, time, o.at, o.n);
    default: return rolthai_step(s.at, s.n, a.at, a.n, o.at, o.n);
    }
}

/* Whether it is the number of a call's answer. */
static int is_answer(uint32_t number) {
    return number == 2 || number == 4 || number == ROLTHAI_ITEM || (number >= 32 && number <= 38) || (number >= 101 && number <= 105)
        || (number >= 111 && number <= 113);
}

/* Whether it is a kind of output record. */
static int is_kind(uint32_t number) {
    return (number >= 1 && number <= 5) || (number >= 16 && number <= 19) || (number >= 32 && number <= 37) || number == 48
        || number == 49 || (number >= 53 && number <= 57) || number == 64;
}

static size_t arguments(enum function f) {
    switch (f) {
    case NEW: return ROLTHAI_START_WORDS;
    case ACQUIRES: return ROLTHAI_REQUEST_WORDS;
    case SUBMITS: return ROLTHAI_ORDER_WORDS;
    case STEP: return RECORD;
    default: return 0;
    }
}

/* Random arguments, most of them as they have to be. */
static struct given arguments_for(enum function f, int starts) {
    size_t wanted = arguments(f);
    struct given g;
    g.first = lend_anywhere(&first_room, wanted > 0 && below(16) == 0 ? below(2 * RECORD) : wanted);
    if (f == STEP) {
        put_record(g.first, starts);
    } else {
        put_fields(g.first, f == NEW ? START : f == ACQUIRES ? ACQUIRE : SUBMIT);
    }
    size_t capabilities = f == NEW ? below(MOST_CAPABILITIES + 1) : 0;
    size_t words = capabilities * ROLTHAI_CAPABILITY_WORDS;
    g.second = lend_anywhere(&second_room, f == NEW && below(16) == 0 ? below(words + 1) : words);
    for (size_t i = 0; i < g.second.n; i++) {
        g.second.at[i] = up_to(KINDS[CAPABILITY][1 + i % ROLTHAI_CAPABILITY_WORDS]);
    }
    size_t room = below(4) != 0 ? OUT : below(OUT + 4);
    g.out = lend_anywhere(&out_room, tells(f) ? room : 0);
    fill(g.out, UNTOUCHED);
    return g;
}

/* One call on lent words that begin as they have to. */
static int is_answered(enum function f, struct slice state, int starts) {
    static uint64_t before[STATE];
    struct given g = arguments_for(f, starts);
    int lacks = tells(f) && g.out.n < OUT;
    int unread = arguments(f) != g.first.n || g.second.n % ROLTHAI_CAPABILITY_WORDS != 0;
    int left = lacks || unread || (f >= REFUSAL && f != STEP);
    int has_words = arguments(f) > 0;
    if (left || has_words) {
        memcpy(before, state.at, sizeof before);
    }
    uint32_t number = call(f, state, &g);
    left = left || (has_words && number == ROLTHAI_MALFORMED);
    if (state.at[0] != first || (left && !is_same(state, before))) {
        return 0;
    }
    if (lacks || (f == STEP && unread)) {
        return number == (lacks ? ROLTHAI_SHORT : ROLTHAI_MALFORMED) && is_filled(g.out, 0, UNTOUCHED);
    }
    if (tells(f)) {
        return is_kind(number) && g.out.at[0] == number && is_filled(g.out, OUT, UNTOUCHED);
    }
    switch (f) {
    case CLEAR: return number == 0;
    case REFUSAL: return number <= 27;
    case NEW:
    case ACQUIRES:
    case SUBMITS: return unread ? number == ROLTHAI_MALFORMED : number == ROLTHAI_MALFORMED || is_answer(number);
    default: return is_answer(number);
    }
}

/* A start clears the words, so where they are to stay as they are there is none. */
static enum function any_function(int starts) {
    enum function f = below(3) == 0 ? STEP : (enum function)below(FUNCTIONS);
    return f <= NEW && !starts ? STEP : f;
}

/* a sound state ---------------------------------------------------------------------------------------------------- */

static const uint64_t CAPABILITIES[4 * ROLTHAI_CAPABILITY_WORDS] = {
    1, 0, 0, 2, (uint32_t)-1000, 1000, (uint32_t)-2000, 2000, 0, 15, 0, 0, 0, /* a drive */
    2, 0, 2, 0, 0, 0, 0, 0, 0, 0, 0, 0, 0, /* a stop */
    3, 1, 1, 0, 0, 0, 0, 0, 0, 17, 1, 1, 1, /* clamp */
    4, 1, 1, 0, 0, 0, 0, 0, 0, 17, 1, 1, 0, /* release */
};

static const uint64_t START_WORDS[ROLTHAI_START_WORDS] = {42, 0, 0, 50, 250, 2000, 1000, 32, 1};

/* An answer to a call of `live` that is none. */
static int is_strange;

/* Replies to the items of a call, now and then with a failure, or stops in between. */
static void reply(uint64_t *state, uint32_t answer, int64_t value0, int64_t value1) {
    uint64_t out[OUT];
    by_function++;
    is_strange |= !is_answer(answer);
    while (answer == ROLTHAI_ITEM && below(40) != 0) {
        bool ok = below(12) != 0;
        by_function += 2;
        switch (rolthai_item(state, STATE, out, OUT)) {
        case ROLTHAI_OUT_OBSERVE: answer = rolthai_observed(state, STATE, ok, (int32_t)value0, (int32_t)value1, 0); break;
        case ROLTHAI_OUT_EXECUTE: answer = rolthai_executed(state, STATE, ok); break;
        case ROLTHAI_OUT_FALLBACK: answer = rolthai_fell_back(state, STATE, ok); break;
        default: answer = rolthai_recorded(state, STATE); break;
        }
        is_strange |= !is_answer(answer);
    }
}

/* One call as a host makes it. */
static void live(uint64_t *state, uint64_t *now, uint64_t *orders) {
    uint64_t out[OUT];
    if (rolthai_item(state, STATE, out, OUT) != ROLTHAI_OUT_UNAWAITED) {
        reply(state, ROLTHAI_ITEM, 0, 0);
    } else {
        by_function++;
    }
    *now += below(20);
    size_t axis = below(2);
    rolthai_lease(state, STATE, (uint8_t)axis, out, OUT);
    by_function++;
    uint64_t lease = out[ROLTHAI_LEASE_ID];
    uint64_t owner = 7 + 2 * axis;
    switch (below(12)) {
    case 0: reply(state, rolthai_tick(state, STATE, *now), 0, 0); break;
    case 1: reply(state, rolthai_update_state(state, STATE, 0, *now), 0, 0); break;
    case 2: reply(state, rolthai_renew(state, STATE, owner, lease, ++*orders, 500, *now), 0, 0); break;
    case 3: reply(state, rolthai_cancel(state, STATE, owner, lease, *now), 0, 0); break;
    case 4: reply(state, rolthai_poll_estop(state, STATE, (uint32_t)(below(20) == 0), *now), 0, 0); break;
    case 5: reply(state, rolthai_recover_local(state, STATE, *now), 0, 0); break;
    case 6:
    case 7: {
        uint64_t request[ROLTHAI_REQUEST_WORDS] = {
            *now, owner, axis, axis == 0 ? 6 : 24, 2000, (uint32_t)INT32_MIN, INT32_MAX, (uint32_t)INT32_MIN, INT32_MAX};
        reply(state, rolthai_acquire(state, STATE, request, ROLTHAI_REQUEST_WORDS), 0, 0);
        break;
    }
    default: {
        rolthai_epoch(state, STATE, out, OUT);
        by_function++;
        uint64_t epoch = out[ROLTHAI_WORD_NUMBER];
        uint64_t id = below(8) == 0 ? *orders : ++*orders;
        uint64_t capability = axis == 0 ? 1 : 3 + below(2);
        uint64_t value = axis == 0 ? 300 : 0;
        uint64_t order[ROLTHAI_ORDER_WORDS] = {
            *now, owner, *now, 42, owner, lease, id, id, capability, epoch, 0, *now + 200, 100, value, 0};
        reply(state, rolthai_submit(state, STATE, order, ROLTHAI_ORDER_WORDS), (int64_t)value, 0);
        break;
    }
    }
}

/* the campaigns ---------------------------------------------------------------------------------------------------- */

/* One call as a host makes it, on any words. */
static int is_lived(struct slice state, uint64_t now, uint64_t orders) {
    is_strange = 0;
    live(state.at, &now, &orders);
    return state.at[0] == first && !is_strange;
}

/* A runtime that has just started. */
static void begin(uint64_t *sound, uint64_t *now, uint64_t *orders) {
    *now = 0;
    *orders = 0;
    size_t words = 4 * ROLTHAI_CAPABILITY_WORDS;
    uint64_t out[OUT];
    do {
        reply(sound, rolthai_new(sound, STATE, START_WORDS, ROLTHAI_START_WORDS, CAPABILITIES, words), 0, 0);
        by_function++;
    } while (rolthai_state(sound, STATE, out, OUT) == ROLTHAI_NO_RUNTIME);
}

/* Random words, and between them some of a sound state: else most of them are no runtime at all. */
static void random_words(void) {
    static uint64_t sound[STATE];
    uint64_t now = 0, orders = 0;
    for (size_t period = 0; period < STEPS / STEPS_EACH; period++) {
        if (period % 20 == 0) {
            begin(sound, &now, &orders);
        }
        live(sound, &now, &orders);
        struct slice state = lend(&state_room, (enum place)(period % PLACES), STATE);
        int small = below(3) == 0;
        for (size_t i = 0; i < STATE; i++) {
            state.at[i] = small ? below(70) : any_word();
        }
        state.at[0] = first;
        int starts = period % 4 == 3;
        int mixed = period % 4 != 0;
        int good = 1;
        for (size_t n = 0; n < STEPS_EACH; n++) {
            for (size_t i = 1; mixed && n % AGAIN == 0 && i < STATE; i++) {
                size_t which = below(8);
                state.at[i] = which < 2 ? state.at[i] : which < 7 ? sound[i] : small ? below(70) : any_word();
            }
            good &= below(4) == 0 ? is_lived(state, now, orders) : is_answered(any_function(starts), state, starts);
        }
        count(good, "random words, thousand", period);
    }
}

/* A sound state with one word altered, in one bit or in any of them. */
static void altered_words(void) {
    static uint64_t sound[STATE];
    uint64_t now = 0, orders = 0;
    for (size_t n = 0; n < FLIPS; n++) {
        if (n % 50 == 0) {
            begin(sound, &now, &orders);
        }
        for (size_t calls = 0; calls < 4; calls++) {
            live(sound, &now, &orders);
        }
        struct slice state = lend(&state_room, (enum place)(n % PLACES), STATE);
        memcpy(state.at, sound, sizeof sound);
        size_t word = 1 + below(STATE - 1);
        uint64_t bits = below(2) == 0 ? draw() | 1 : UINT64_C(1) << below(64);
        state.at[word] ^= bits;
        int good = 1;
        for (size_t calls = 0; calls < CALLS_AFTER; calls++) {
            /* Calls as a host makes them, so that the altered word is met, and any others. */
            good &= below(2) == 0 ? is_lived(state, now, orders) : is_answered(any_function(0), state, 0);
        }
        count(good, "a sound state with another word", word);
    }
}

/* Words that are turned away, and left. */
static int is_left(enum function f, struct slice state, const uint64_t *before, uint32_t demanded) {
    struct given g = arguments_for(f, 1);
    /* What is wrong with the state comes first, whatever the other slices are. */
    uint32_t number = call(f, state, &g);
    return number == demanded && is_same(state, before) && is_filled(g.out, 0, UNTOUCHED);
}

static void other_lengths(void) {
    static uint64_t before[STATE + MORE];
    for (size_t i = 0; i < STATE + MORE; i++) {
        before[i] = any_word();
    }
    before[0] = first;
    for (size_t n = 0; n <= STATE + MORE; n++) {
        if (n == STATE) {
            continue;
        }
        struct slice state = lend(&state_room, (enum place)(n % PLACES), n);
        if (n > 0) {
            memcpy(state.at, before, n * sizeof(uint64_t));
        }
        int good = 1;
        for (size_t f = 0; f < FUNCTIONS; f++) {
            good &= is_left((enum function)f, state, before, ROLTHAI_SHORT);
        }
        count(good, "words of the length", n);
    }
}

static void other_first_words(void) {
    static uint64_t before[STATE];
    for (size_t n = 0; n < 96; n++) {
        struct slice state = lend(&state_room, (enum place)(n % PLACES), STATE);
        for (size_t i = 0; i < STATE; i++) {
            state.at[i] = any_word();
        }
        /* Each bit, and any. */
        state.at[0] = n < 64 ? first ^ (UINT64_C(1) << n) : n == 64 ? 0 : any_word();
        if (state.at[0] == first) {
            state.at[0] = 0;
        }
        memcpy(before, state.at, sizeof before);
        int good = 1;
        for (size_t f = TICK; f < FUNCTIONS; f++) {
            good &= is_left((enum function)f, state, before, ROLTHAI_OTHER);
        }
        count(good, "another first word", before[0]);
    }
}

int main(int count_of, char **words) {
    if (count_of > 1) {
        seed = strtoull(words[1], NULL, 10);
    }
    alarm(SECONDS);
    state_room = room_for(STATE + MORE);
    first_room = room_for(2 * RECORD);
    second_room = room_for(MOST_CAPABILITIES * ROLTHAI_CAPABILITY_WORDS);
    out_room = room_for(OUT + 4);
    count(rolthai_size() == STATE, "the size is", rolthai_size());
    struct slice cleared = lend(&state_room, HEAP, STATE);
    count(rolthai_clear(cleared.at, cleared.n) == ROLTHAI_CLEARED, "cleared", 0);
    first = cleared.at[0];
    random_words();
    altered_words();
    other_lengths();
    other_first_words();
    struct room *rooms[] = {&state_room, &first_room, &second_room, &out_room};
    for (size_t i = 0; i < 4; i++) {
        free(rooms[i]->heap);
    }
    printf("%lu calls of rolthai_step and %lu of the other functions\n", by_record, by_function);
    printf("%lu passed, %lu failed\n", passed, failed);
    return failed == 0 && passed > 0 ? 0 : 1;
}

/* A board's main loop in C, with motors that do at once what they are told: a start under a boot number that outlasts power
   cuts, an order and the same one again, the red button, a local recovery, and the mains cut during a move. Prints what
   happens, with 01's numbers of states, decisions and reasons; with the name of a file, receipts go onto that as a memory
   card. examples/board.rs does the same in Rust. */
#define _POSIX_C_SOURCE 200112L /* ftruncate and fsync; a board has those of its file system */
#include "../bindings/c/rolthai.h"

#include <inttypes.h>
#include <stdio.h>
#include <string.h>
#include <unistd.h>

#define STATE words, ROLTHAI_WORDS
#define OUT out, ROLTHAI_OUT_WORDS
#define U64 "%" PRIu64

static uint64_t words[ROLTHAI_WORDS];   /* the runtime; nothing here writes it but the runtime */
static uint64_t out[ROLTHAI_OUT_WORDS]; /* what was told last */
static volatile uint32_t raised;        /* the red button's interrupt counts it up */
static uint32_t flags;                  /* what the sensors say; bit 0 is the button */
static int32_t speed[2];                /* of the one axis there is */
static bool cut;                        /* the mains go during the next move */

/* the boot number: two slots of a memory that keeps them (docs/HOST.md) ------------------------------------------------- */

static struct slot { uint64_t number, check; } slots[2];

static uint64_t check_of(uint64_t number) { /* on a board, a CRC */
    return ~number * UINT64_C(0x9e3779b97f4a7c15);
}

/* 0: none. */
static uint64_t kept(int slot) {
    return slots[slot].check == check_of(slots[slot].number) ? slots[slot].number : 0;
}

/* The number of this life, once it is kept; or 0, which a start refuses. */
static uint64_t next_boot_number(void) {
    int newest = kept(0) > kept(1) ? 0 : 1, other = 1 - newest;
    if (kept(newest) == 0) {
        return 0;
    }
    uint64_t number = kept(newest) + 1;
    slots[other].number = number; /* on a board: written to the memory, and read back from it */
    slots[other].check = check_of(number);
    printf("boot number " U64 ", kept in slot %d\n", number, other);
    return kept(other) == number ? number : 0;
}

/* the memory card (docs/CARD.md) ---------------------------------------------------------------------------------------- */

#define HEAD ROLTHAI_CARD_HEAD_BYTES
#define FRAME 3u                  /* the bytes of a record around its body */
#define LEAST_BODY 4u
#define MOST_BYTES (255u + FRAME) /* that a record can seem to have, by its length byte */

static FILE *card;        /* NULL: none was named, or it failed */
static bool works = true; /* false: the card failed. No lease and no order is passed on then; all else is */

/* Nothing ends here: the call in hand may be a stop, and has further axes to bring to rest. */
static bool fail(const char *why, long at) {
    fprintf(stderr, "card, byte %ld: %s\n", at, why);
    if (card != NULL) {
        fclose(card);
    }
    card = NULL;
    return works = false;
}

/* What there is from a place on, up to n bytes. A failed read must not pass for the card's end: the card is cut there. */
static bool get(long at, uint8_t *bytes, size_t n, size_t *there) {
    bool found = fseek(card, at, SEEK_SET) == 0;
    *there = fread(bytes, 1, n, card);
    return (found && !ferror(card)) || fail("cannot be read", at);
}

/* Adds bytes at the end, and onto the medium. No bytes: there was no record to write. */
static bool put(const uint8_t *bytes, size_t n) {
    fseek(card, 0, SEEK_END);
    long at = ftell(card);
    bool kept = n > 0 && fwrite(bytes, 1, n, card) == n && fflush(card) == 0 && fsync(fileno(card)) == 0;
    return kept || fail("cannot be written", at);
}

/* The words are lent as they lie in memory, which is right where that has the little end first. */
static void put_receipt(const uint64_t *receipt) {
    uint8_t record[ROLTHAI_CARD_RECORD_BYTES];
    put(record, rolthai_card_write((const uint8_t *)receipt, ROLTHAI_RECEIPT_BYTES, record, sizeof record));
}

static bool cut_to(long at) {
    bool kept = ftruncate(fileno(card), at) == 0 && fsync(fileno(card)) == 0;
    return kept || fail("cannot be cut", at);
}

/* A new card gets its head, and so does one that was cut inside of it. */
static bool open_head(void) {
    uint8_t there[HEAD], head[HEAD], none[1];
    size_t n, whole = rolthai_card_head(head, HEAD);
    if (!get(0, there, HEAD, &n)) {
        return false;
    }
    if (rolthai_card_read(there, n, 0, none, 0) == ROLTHAI_CARD_READ) {
        return true;
    }
    if (n == whole || memcmp(there, head, n) != 0) {
        return fail("this is no card; it is left as it is", 0);
    }
    return cut_to(0) && put(head, whole);
}

/* A record that ends past the card was cut short if its length byte is one that a record has, and no sound record begins
   behind it: then that byte is another than was written, and what it hides is not to be dropped. */
static bool is_short(const uint8_t *lent, size_t there) {
    uint8_t receipt[ROLTHAI_RECEIPT_BYTES], body = lent[HEAD];
    for (size_t k = 1; k < there; k++) {
        if (rolthai_card_read(lent + k, HEAD + there - k, HEAD, receipt, sizeof receipt) == ROLTHAI_CARD_READ) {
            return false;
        }
    }
    return LEAST_BODY <= body && body + FRAME <= ROLTHAI_CARD_RECORD_BYTES;
}

/* What stands at a place, and how many bytes. A card may be longer than memory, so only the record is lent, behind as many
   bytes as the head has: at places below that the reader tests the head. */
static bool look(long at, uint32_t *answer, size_t *n) {
    uint8_t lent[HEAD + MOST_BYTES] = {0}, receipt[ROLTHAI_RECEIPT_BYTES];
    if (!get(at, lent + HEAD, MOST_BYTES, n)) {
        return false;
    }
    *answer = rolthai_card_read(lent, HEAD + *n, HEAD, receipt, sizeof receipt);
    if (*answer == ROLTHAI_CARD_READ) {
        *n = lent[HEAD] + FRAME;
    } else if (*answer == ROLTHAI_CARD_PAST_END && !is_short(lent, *n)) {
        *answer = ROLTHAI_CARD_UNSOUND;
    }
    return true;
}

/* Goes to the end of the card. A short record there was left by a power cut: it is dropped, else readers stop at it. */
static bool open_card(const char *name) {
    card = fopen(name, "a+b"); /* what is written goes to the end */
    if (card == NULL) {
        return fail("cannot be opened", 0);
    }
    long at = HEAD;
    size_t n;
    uint32_t answer;
    bool read = open_head() && look(at, &answer, &n);
    while (read && answer == ROLTHAI_CARD_READ) {
        at += (long)n;
        read = look(at, &answer, &n);
    }
    if (!read || answer == ROLTHAI_CARD_END) {
        return read;
    }
    if (answer != ROLTHAI_CARD_PAST_END) {
        return fail("the record is not sound; the card is left as it is", at);
    }
    printf("card: %zu bytes of a short record, from byte %ld on, are dropped\n", n, at);
    return cut_to(at);
}

/* the loop ------------------------------------------------------------------------------------------------------------- */

/* One driver call, and its reply. */
static uint32_t turn(void) {
    switch (rolthai_item(STATE, OUT)) {
    case ROLTHAI_OUT_OBSERVE:
        printf("           observe axis " U64 "\n", out[ROLTHAI_ITEM_AXIS]);
        return rolthai_observed(STATE, true, speed[0], speed[1], 0);
    case ROLTHAI_OUT_EXECUTE:
        speed[0] = rolthai_to_i32(out[ROLTHAI_ITEM_PARAMETER0]);
        speed[1] = rolthai_to_i32(out[ROLTHAI_ITEM_PARAMETER1]);
        printf("           EXECUTE " U64 " (%" PRId32 ", %" PRId32 ")\n", out[ROLTHAI_ITEM_CAPABILITY], speed[0], speed[1]);
        return cut ? 0 : rolthai_executed(STATE, true); /* 0: the mains are gone, and no reply comes */
    case ROLTHAI_OUT_FALLBACK:
        speed[0] = speed[1] = 0;
        printf("           fall back axis " U64 ", reason " U64 "\n", out[ROLTHAI_ITEM_AXIS], out[ROLTHAI_ITEM_REASON]);
        return rolthai_fell_back(STATE, true);
    case ROLTHAI_OUT_RECORD:
        if (card != NULL) {
            put_receipt(out + ROLTHAI_WORD_FIELDS); /* before the reply, and so before anything else is done */
        }
        printf("           record " U64 ", reason " U64 "\n", out[ROLTHAI_RECEIPT_RECEIPT_ID], out[ROLTHAI_RECEIPT_REASON]);
        return rolthai_recorded(STATE);
    default:
        return ROLTHAI_NO_REPLY_AWAITED;
    }
}

/* What an answer speaks of, at once, then the state. */
static void tell(uint32_t answer) {
    printf("         = ");
    if (answer == ROLTHAI_LEASED) {
        rolthai_answered_lease(STATE, OUT);
        printf("lease " U64 " until " U64 "; ", out[ROLTHAI_LEASE_ID], out[ROLTHAI_LEASE_EXPIRES_AT]);
    } else if (answer == ROLTHAI_SUBMITTED) {
        rolthai_answered_receipt(STATE, OUT);
        printf("receipt " U64 ", decision " U64 "; ", out[ROLTHAI_RECEIPT_RECEIPT_ID], out[ROLTHAI_RECEIPT_DECISION]);
    } else if (answer == ROLTHAI_REFUSED) {
        printf("refused, reason %" PRIu32 "; ", rolthai_refusal(STATE));
    } else if (answer >= ROLTHAI_MALFORMED) {
        printf("answer %" PRIu32 "; ", answer);
    }
    rolthai_snapshot(STATE, OUT);
    printf("state " U64 ", epoch " U64 "\n", out[ROLTHAI_SNAPSHOT_STATE], out[ROLTHAI_SNAPSHOT_EPOCH]);
}

/* The items of a call, until it is answered. What has none and nothing to tell is not printed. */
static void settle(uint64_t now, const char *what, uint32_t answer) {
    if (answer == ROLTHAI_RETURNED || answer == ROLTHAI_UNRAISED) {
        return;
    }
    printf("%4" PRIu64 " ms  %s\n", now, what);
    while (answer == ROLTHAI_ITEM) {
        answer = turn();
    }
    if (answer != 0) {
        tell(answer);
    }
}

/* One round of the main loop: the button, then the sensors, which is a tick, too. */
static void serve(uint64_t now) {
    settle(now, "poll", rolthai_poll_estop(STATE, raised, now));
    settle(now, "update", rolthai_update_state(STATE, flags, now));
}

/* what is asked for: slices are the words of docs/WIRE.md from word 1 on ------------------------------------------------- */

/* DRIVE and STOP of 01's profile, both on axis 0. */
static void start(void) {
    static const uint64_t capabilities[2 * ROLTHAI_CAPABILITY_WORDS] = {
        1, 0, ROLTHAI_CLASS_STREAM, 2, (uint32_t)-1000, 1000, (uint32_t)-2000, 2000, 0, 15, ROLTHAI_VERIFY_PARAMETERS, 0, 0,
        2, 0, ROLTHAI_CLASS_CONTROL, 0, 0, 0, 0, 0, 0, 0, ROLTHAI_VERIFY_PARAMETERS, 0, 0};
    const uint64_t given[ROLTHAI_START_WORDS] = {next_boot_number(), 0, flags, 50, 250, 2000, 1000, 32, 1};
    settle(0, "start", rolthai_new(STATE, given, ROLTHAI_START_WORDS, capabilities, 2 * ROLTHAI_CAPABILITY_WORDS));
}

/* A board that cannot keep receipts begins no work; it goes on to serve the button and the sensors. */
static bool may(uint64_t now, const char *what) {
    if (!works) {
        printf("%4" PRIu64 " ms  %s: not passed on, the card failed\n", now, what);
    }
    return works;
}

/* Owner 7 asks for axis 0 with capabilities 1 and 2. */
static void acquire(uint64_t now) {
    if (!may(now, "acquire")) {
        return;
    }
    const uint64_t request[ROLTHAI_REQUEST_WORDS] = {now, 7, 0, 6, 2000, (uint32_t)-1000, 1000, (uint32_t)-2000, 2000};
    settle(now, "acquire", rolthai_acquire(STATE, request, ROLTHAI_REQUEST_WORDS));
}

/* Owner 7 orders a drive of (300, -50), in the epoch that it reads. */
static void submit(uint64_t now, uint64_t boot, uint64_t lease, uint64_t action) {
    if (!may(now, "submit")) {
        return;
    }
    rolthai_epoch(STATE, OUT);
    const uint64_t order[ROLTHAI_ORDER_WORDS] = {
        now, 7, now, boot, 7, lease, action, 1, 1, out[ROLTHAI_WORD_NUMBER], 0, now + 100, 100, 300, rolthai_of_i32(-50)};
    settle(now, "submit", rolthai_submit(STATE, order, ROLTHAI_ORDER_WORDS));
}

int main(int argc, char **argv) {
    slots[0].number = 41, slots[0].check = check_of(41); /* of the life before */
    start();
    if (argc > 1) {
        open_card(argv[1]); /* once the axes are at rest, whatever the card is; a start hands out no receipt */
    }
    acquire(0);
    submit(10, 42, 1, 1);
    submit(20, 42, 1, 1); /* the PC sends it again */
    serve(40);
    puts("the red button is pressed");
    raised++, flags = 1;
    serve(80);
    settle(90, "recover", rolthai_recover_local(STATE, 90));
    puts("the red button is pulled out");
    flags = 0;
    serve(120);
    settle(130, "recover", rolthai_recover_local(STATE, 130));
    acquire(140);
    cut = true;
    submit(150, 42, 2, 2);
    puts("the mains are cut, then once more while a boot number is written");
    cut = false;
    memset(words, 0x5a, sizeof words);
    slots[0].number = 43; /* without its checksum */
    start();
    acquire(0);
    submit(10, 42, 1, 2); /* the PC sends the order of the life before */
    submit(20, 43, 1, 2); /* .. and one of this life */
    return works ? 0 : 1;
}

/* Epochs: document 01's cases, the ticket that this project is about, and two captures that differ only between senders: sbp_collator, sbp_feed. */
#include "fed.h"

/* ---- single cases */

/* The roster's answer; a refusal leaves the state as it was. */
static void say_made(const uint16_t *roster, size_t n) {
    fill(state, sizeof state);
    const uint8_t answer = sbp_collator(state, sizeof state, roster, n);
    printf(" %d", answer);
    if (answer) {
        expect_filled(state, sizeof state);
    }
}

static void rosters(void) {
    static const uint16_t plain[] = {1, 2, 3, 4, 5, 6, 7, 8, 9}, ends[] = {0, 65535}, twice[] = {5, 6, 5}, long_and_twice[] = {1, 1, 3, 4, 5, 6, 7, 8, 9};
    printf("rosters");
    say_made(plain, 0);
    say_made(plain + 6, 1);
    say_made(ends, COUNT(ends));
    say_made(plain, 8);
    say_made(plain, 9);
    say_made(twice, COUNT(twice));
    say_made(long_and_twice, COUNT(long_and_twice));
    putchar('\n');
}

/* A line of frames that are fed one after the other. */
struct line {
    const char *name;
    const struct frame *frames;
    size_t n;
};

static void say_line(const struct line *l) {
    printf("%s", l->name);
    for (size_t i = 0; i < l->n; i++) {
        say_fed(&l->frames[i]);
    }
    putchar('\n');
}

/* n from the upper half of n_obs, the counter from the lower. */
static const struct frame HALVES[] = {
    PACKET(0, 1, 2, 0x00, 0), PACKET(0, 1, 2, 0x11, 0), PACKET(0, 1, 2, 0x10, 3),
    PACKET(0, 1, 2, 0x02, 0), PACKET(0, 1, 2, 0x10, 15), PACKET(65535, 9, 8, 0x10, 0),
};

/* 46, 22, 43, 44, 45: each before the next, and none of them drops the open epoch. */
static const struct frame REFUSALS[] = {
    PACKET(0, 5, 6, 0x20, 1), {0x004A, 9, 1, 2, 0, 8}, {SBP_MSG_OBS, 9, 1, 2, 0, 8}, PACKET(9, 1, 2, 0x00, 0),
    PACKET(0, 1, 2, 0x00, 0), PACKET(0, 5, 6, 0x12, 1), PACKET(1228, 5, 6, 0x21, 1), PACKET(0, 5, 6, 0x21, 2),
};

/* Counters and keys that come again: from one line to the next the collator goes on. */
static const struct frame REPEATED[] = {PACKET(0, 5, 6, 0x30, 1), PACKET(0, 5, 6, 0x31, 1), PACKET(0, 5, 6, 0x31, 1), PACKET(0, 5, 6, 0x32, 1)};
static const struct frame BEGUN_AGAIN[] = {
    PACKET(0, 5, 6, 0x30, 1), PACKET(0, 5, 6, 0x31, 1), PACKET(0, 5, 6, 0x30, 4),
    PACKET(0, 5, 6, 0x31, 5), PACKET(0, 5, 6, 0x32, 6), PACKET(0, 5, 6, 0x32, 6),
};
static const struct frame OTHER_WEEK[] = {PACKET(0, 5, 6, 0x20, 1), PACKET(0, 5, 7, 0x21, 1), PACKET(0, 5, 6, 0x21, 1)};
static const struct frame OTHER_TIME_AND_SIZE[] = {
    PACKET(0, 5, 6, 0x20, 1), PACKET(0, 4, 6, 0x21, 1), PACKET(0, 5, 6, 0x20, 1), PACKET(0, 5, 6, 0x31, 1),
};
static const struct frame TWO_SENDERS[] = {
    PACKET(0, 5, 6, 0x20, 1), PACKET(1228, 5, 6, 0x20, 10), PACKET(0, 5, 6, 0x21, 2), PACKET(1228, 5, 6, 0x21, 5),
};

static void come_again(void) {
    static const struct line lines[] = {
        {"repeated", REPEATED, COUNT(REPEATED)},
        {"begun-again", BEGUN_AGAIN, COUNT(BEGUN_AGAIN)},
        {"other-week", OTHER_WEEK, COUNT(OTHER_WEEK)},
        {"other-time-and-size", OTHER_TIME_AND_SIZE, COUNT(OTHER_TIME_AND_SIZE)},
        {"two-senders-one-time", TWO_SENDERS, COUNT(TWO_SENDERS)},
    };
    collate_three();
    for (size_t i = 0; i < COUNT(lines); i++) {
        say_line(&lines[i]);
    }
}

/* Epochs of 1 to 15 packets, of 15 observations each. */
static void sizes(void) {
    for (unsigned n = 1; n <= 15; n++) {
        printf("packets %u", n);
        for (unsigned i = 0; i < n; i++) {
            const struct frame f = PACKET(65535, 100, 1900, (uint8_t)(16 * n + i), 15);
            say_fed(&f);
        }
        putchar('\n');
    }
}

/* Eight senders packet by packet at one time, and a ninth that is not listed; each has as many observations as its place says. */
static void eight(void) {
    static const uint16_t listed[] = {0, 1, 2, 3, 4, 5, 6, 65535}, order[] = {65535, 6, 5, 4, 3, 2, 1, 0, 7};
    static const size_t counts[] = {7, 6, 5, 4, 3, 2, 1, 0, 8};
    collate(listed, COUNT(listed));
    printf("eight-senders");
    for (unsigned i = 0; i < 2; i++) {
        for (size_t k = 0; k < COUNT(order); k++) {
            const struct frame f = PACKET(order[k], 5, 6, (uint8_t)(0x20 + i), counts[k]);
            say_fed(&f);
        }
    }
    putchar('\n');
}

/* ---- the ticket: 400 epochs of a base and of the rover that it relays as sender 0, on one line */

/* One epoch of each, packet by packet, with a third sender's packets and a refused frame between. */
static void ticket(void) {
    unsigned base = 0, rover = 0;
    collate_three();
    for (uint32_t tow = 0; tow < 400; tow++) {
        const struct frame frames[] = {
            PACKET(1228, tow, 1900, 0x30, 12), PACKET(0, tow, 1900, 0x20, 9), PACKET(77, tow, 1900, 0x21, 9), PACKET(1228, tow, 1900, 0x31, 12),
            PACKET(0, tow, 1900, 0x00, 1), PACKET(0, tow, 1900, 0x21, 4), PACKET(1228, tow, 1900, 0x32, 1),
        };
        for (size_t i = 0; i < COUNT(frames); i++) {
            uint8_t report[SBP_REPORT];
            if (feed_frame(&frames[i], report) == SBP_EPOCH) {
                const uint16_t sender = sbp_report_of(report).sender;
                base += sender == 1228;
                rover += sender == 0;
            }
        }
    }
    printf("ticket %u %u\n", base, rover);
}

/* ---- two captures with the same frames for each sender, shuffled between senders, with noise and an unlisted sender in one */

/* Writes the frames one after the other, and says how many bytes they take. */
static size_t put_frames(uint8_t *out, size_t room, const struct frame *const *frames, size_t n) {
    size_t at = 0;
    for (size_t i = 0; i < n; i++) {
        const struct frame *f = frames[i];
        uint8_t payload[LONGEST];
        uint64_t size = 0;
        put_payload(payload, f);
        sbp_write_frame(out + at, room - at, f->kind, OWN, f->sender, payload, f->size, &size);
        at += size;
    }
    return at;
}

/* The epochs of a closed reading, for the base and the rover. */
static void say_epochs(const char *name, const uint8_t *capture, size_t n) {
    static const uint16_t roster[] = {1228, 0};
    uint8_t row[SBP_FOUND], report[SBP_REPORT];
    size_t at = 0;
    collate(roster, COUNT(roster));
    printf("%s", name);
    while (sbp_next(capture, n, at, false, row, sizeof row) == SBP_FRAME) {
        const struct sbp_found f = sbp_found_of(row);
        if (f.next <= at) {
            printf(" no end");
            break;
        }
        if (feed(f.kind, f.sender, capture + f.at + 6, f.length, report) == SBP_EPOCH) {
            say_epoch(report);
        }
        at = f.next;
    }
    putchar('\n');
}

static void two_captures(void) {
    static const struct frame base[] = {PACKET(1228, 10, 1900, 0x20, 1), PACKET(1228, 10, 1900, 0x21, 2), PACKET(1228, 20, 1900, 0x10, 3)};
    static const struct frame rover[] = {PACKET(0, 10, 1900, 0x20, 2), PACKET(0, 10, 1900, 0x21, 1), PACKET(0, 20, 1900, 0x20, 1)};
    static const struct frame stranger = PACKET(77, 10, 1900, 0x21, 1);
    static const struct frame *const ordered[] = {&base[0], &base[1], &base[2], &rover[0], &rover[1], &rover[2]};
    static const struct frame *const begun[] = {&rover[0], &base[0], &stranger, &base[1]}, *const ended[] = {&rover[1], &rover[2], &base[2]};
    uint8_t capture[400] = {0};
    size_t n = put_frames(capture, sizeof capture, ordered, COUNT(ordered));
    say_epochs("ordered", capture, n);
    /* three bytes of noise before, and five between */
    memset(capture, 0, sizeof capture);
    n = 3 + put_frames(capture + 3, sizeof capture - 3, begun, COUNT(begun));
    n += 5 + put_frames(capture + n + 5, sizeof capture - n - 5, ended, COUNT(ended));
    say_epochs("shuffled", capture, n);
}

void collated(void) {
    static const struct line halves = {"halves", HALVES, COUNT(HALVES)}, refusals = {"refusals", REFUSALS, COUNT(REFUSALS)};
    rosters();
    collate_three();
    say_line(&halves);
    collate_three();
    say_line(&refusals);
    come_again();
    sizes();
    eight();
    ticket();
    two_captures();
}

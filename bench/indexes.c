#include "indexes.h"

#include <stdio.h>
#include <stdlib.h>
#include <string.h>

#include "../link/include/sbp.h"
#include "../twins/c/index.h"
#include "captures.h"
#include "timed.h"

/* bench/twin.rs, which says what they do. */
struct rust_index {
    uint64_t reached, held, counts[24];
};
uint8_t rust_extend(struct rust_index *index, const uint8_t *capture, size_t n, struct sbp_entry *entries, size_t most);
uint8_t rust_first(const struct rust_index *index, const struct sbp_entry *entries, size_t most, uint16_t kind, uint16_t sender, uint64_t offset,
                   uint64_t *place);

enum { MORE = 1024, OFTEN = 1000, MILLION = 1000000, LEAST_FRAME = 8 };

static struct sbp_entry *entries;
static size_t most; /* so many of them are lent */
/* Ours and the C twin's index, and Rust's; and those of all but the last KiB. */
static uint8_t bytes[SBP_INDEX], early_bytes[SBP_INDEX];
static struct rust_index numbers, early_numbers;

static void lend_entries(size_t count) {
    free(entries);
    most = count;
    entries = malloc((count + 1) * sizeof *entries);
    if (entries == NULL) {
        fprintf(stderr, "no memory for the entries\n");
        exit(EXIT_FAILURE);
    }
}

static struct twin_entry *twins(struct sbp_entry *list) { return (struct twin_entry *)(void *)list; }

/* ---- made and extended: the answer, the position reached, the entries held, and all counts */

static void tell_bytes(uint8_t answer) {
    told[0] = answer, told[1] = sbp_number(bytes, 8), told[2] = sbp_number(bytes + 8, 8);
    for (int i = 0; i < 24; i++) {
        told[3] = told[3] * 31 + sbp_number(bytes + 16 + 8 * i, 8);
    }
}

static void tell_numbers(uint8_t answer) {
    told[0] = answer, told[1] = numbers.reached, told[2] = numbers.held;
    for (int i = 0; i < 24; i++) {
        told[3] = told[3] * 31 + numbers.counts[i];
    }
}

static void our_making(void) {
    sbp_index(bytes, sizeof bytes);
    tell_bytes(sbp_extend(bytes, sizeof bytes, capture, length, entries, most));
}

static void twins_making(void) {
    twin_index(bytes, sizeof bytes);
    tell_bytes(twin_extend(bytes, sizeof bytes, capture, length, twins(entries), most));
}

static void rusts_making(void) {
    memset(&numbers, 0, sizeof numbers);
    tell_numbers(rust_extend(&numbers, capture, length, entries, most));
}

static void our_extending(void) {
    uint8_t answer = 0;
    for (int i = 0; i < OFTEN; i++) {
        memcpy(bytes, early_bytes, sizeof bytes);
        answer |= sbp_extend(bytes, sizeof bytes, capture, length, entries, most);
    }
    tell_bytes(answer);
}

static void twins_extending(void) {
    uint8_t answer = 0;
    for (int i = 0; i < OFTEN; i++) {
        memcpy(bytes, early_bytes, sizeof bytes);
        answer |= twin_extend(bytes, sizeof bytes, capture, length, twins(entries), most);
    }
    tell_bytes(answer);
}

static void rusts_extending(void) {
    uint8_t answer = 0;
    for (int i = 0; i < OFTEN; i++) {
        numbers = early_numbers;
        answer |= rust_extend(&numbers, capture, length, entries, most);
    }
    tell_numbers(answer);
}

static int alike(const struct sbp_entry *a, const struct sbp_entry *b) {
    return a->offset == b->offset && a->kind == b->kind && a->sender == b->sender && a->length == b->length;
}

/* Every entry, before it is timed: to sum them up would be timed too. Gives how many there are. */
static size_t same_entries(void) {
    const side makes[] = {twins_making, rusts_making};
    our_making();
    size_t held = (size_t)told[2];
    struct sbp_entry *ours = malloc((held + 1) * sizeof *ours);
    if (ours == NULL) {
        exit(EXIT_FAILURE);
    }
    memcpy(ours, entries, held * sizeof *ours);
    for (int s = 0; s < 2; s++) {
        memset(entries, 0, held * sizeof *entries);
        makes[s]();
        for (size_t i = 0; i < held; i++) {
            if (!alike(&ours[i], &entries[i])) {
                fprintf(stderr, "side %d has another entry at %zu\n", C + s, i);
                exit(EXIT_FAILURE);
            }
        }
    }
    free(ours);
    return held;
}

static void make_early(void) {
    const size_t whole = length;
    length -= MORE;
    our_making();
    memcpy(early_bytes, bytes, sizeof bytes);
    rusts_making();
    early_numbers = numbers;
    length = whole;
}

void time_indexing(int rounds) {
    lend_entries(length / LEAST_FRAME);
    const size_t held = same_entries();
    const double made = timed("index made in one pass", rounds, 1, length, (const side[SIDES]){our_making, twins_making, rusts_making, NULL});
    make_early();
    const double extended = timed("index extended by 1 KiB at the end", rounds, 1, (size_t)MORE * OFTEN,
                                  (const side[SIDES]){our_extending, twins_extending, rusts_extending, NULL});
    printf("  made anew instead: %.0f times as long\n", made * (double)length / (extended * MORE));
    most = held;
    timed("index made, the list measured first", rounds, 1, length, (const side[SIDES]){our_making, twins_making, rusts_making, NULL});
}

/* ---- found */

static uint16_t kind, sender;
static uint64_t offset;

static void our_finding(void) { told[0] = sbp_first(bytes, sizeof bytes, entries, most, kind, sender, offset, &told[1]); }
static void twins_finding(void) { told[0] = twin_first(bytes, sizeof bytes, twins(entries), most, kind, sender, offset, &told[1]); }
static void rusts_finding(void) { told[0] = rust_first(&numbers, entries, most, kind, sender, offset, &told[1]); }

/* Frames as in a clean capture. */
static void make_million(void) {
    static const struct sbp_entry row[] = {
        {0, 0x0049, 1228, 167}, {0, 0x0049, 0, 135}, {0, 0x0049, 1228, 167}, {0, 0x0049, 0, 135}, {0, 0x0049, 1228, 167},
        {0, 0x0201, 0, 34},     {0, 0xFFFF, 1228, 4},
    };
    lend_entries(MILLION);
    uint64_t at = 0;
    for (size_t i = 0; i < most; i++) {
        entries[i] = row[i % (sizeof row / sizeof *row)];
        entries[i].offset = at;
        at += entries[i].length + 8u;
    }
    memset(bytes, 0, sizeof bytes);
    memset(&numbers, 0, sizeof numbers);
    numbers.held = most;
    for (int i = 0; i < 8; i++) {
        bytes[8 + i] = (uint8_t)(numbers.held >> 8 * i);
    }
}

static void time_question(const char *name, int rounds, uint16_t of_kind, uint16_t of_sender, uint64_t from) {
    kind = of_kind, sender = of_sender, offset = from;
    timed(name, rounds, 10, most, (const side[SIDES]){our_finding, twins_finding, rusts_finding, NULL});
}

void time_finding(int rounds) {
    make_million();
    const struct sbp_entry *last = &entries[most - 1];
    time_question("found in a million entries, the last", rounds, last->kind, last->sender, last->offset);
    time_question("found in a million entries, none", rounds, 0xFFFF, 0, 0);
}

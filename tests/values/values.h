/* What the parts of this program share: payloads to try, lines to print, and a look at memory that a call was not to touch. */
#ifndef VALUES_H
#define VALUES_H

#include <ctype.h>
#include <inttypes.h>
#include <stdio.h>
#include <string.h>

#include "sbp.h"

#define COUNT(array) (sizeof(array) / sizeof *(array))

/* OWN is the own number of the recorder that writes. */
enum { FILLED = 0xEE, OUT = 300, OWN = 1228 };

/* What is lent to a writer: more bytes than any frame takes. */
struct out {
    uint8_t bytes[OUT];
    uint64_t size;
};

/* ---- the parts, in the order and by the names of twins/python/answers.py */

void published(void);
void sums(void);
void captures(void);
void written(void);
void senders(void);
void each(void);
void orbits(void);
void flags(void);
void observations(void);
void logs(void);
void types(void);
void collated(void);
void out_of_order(void);
void indexed(void);

/* A line of a message by its name: its payload's fields and the frame that they are written as, or the refusal. */
void say_message(const char *name, const uint8_t *payload, size_t n);

/* ---- payloads */

/* Byte i is seed + step * i, so that neighbours differ. */
static inline void mix(uint8_t *bytes, size_t n, size_t seed, size_t step) {
    for (size_t i = 0; i < n; i++) {
        bytes[i] = (uint8_t)(seed + step * i);
    }
}

/* Stores the n low bytes of a number, little-endian. */
static inline void put(uint8_t *bytes, uint64_t number, unsigned n) {
    for (unsigned i = 0; i < n; i++) {
        bytes[i] = (uint8_t)(number >> (8 * i));
    }
}

/* ---- lines */

static inline void say_bytes(const uint8_t *bytes, size_t n) {
    putchar(' ');
    for (size_t i = 0; i < n; i++) {
        printf("%02x", bytes[i]);
    }
}

static inline void say_refused(uint8_t number) { printf(" refused %d", number); }

/* Memory is filled before it is lent. What a call was not to write is as it was, or the line gets a word that no answer has. */
static inline void fill(void *memory, size_t n) { memset(memory, FILLED, n); }

static inline void expect_filled(const void *memory, size_t n) {
    const uint8_t *bytes = memory;
    for (size_t i = 0; i < n; i++) {
        if (bytes[i] != FILLED) {
            printf(" touched");
            return;
        }
    }
}

static inline void say_field(char letter, uint64_t number) {
    if (letter == 'd') {
        printf(" %016" PRIx64, number);
    } else if (islower((unsigned char)letter)) {
        printf(" %" PRId64, (int64_t)number);
    } else {
        printf(" %" PRIu64, number);
    }
}

/* What was read into a row, by Python's letters of its fields (struct: unsigned in capitals, signed in small ones, d a double), or the refusal,
 * which left all the row as it was; a reading left what stands after the fields. */
static inline void say_row(uint8_t refusal, const char *letters, const uint64_t row[SBP_FIELDS_MOST]) {
    const size_t count = refusal ? 0 : strlen(letters);
    if (refusal) {
        say_refused(refusal);
    }
    for (size_t i = 0; i < count; i++) {
        say_field(letters[i], row[i]);
    }
    expect_filled(row + count, (SBP_FIELDS_MOST - count) * sizeof *row);
}

static inline void say_epoch(const uint8_t report[SBP_REPORT]) {
    const struct sbp_report r = sbp_report_of(report);
    printf(" epoch %d %d %" PRIu32 " %d %d", r.sender, r.wn, r.tow, r.n, r.observations);
}

/* Of what a writer was lent: a refusal left all as it was, and a frame what stands after it. */
static inline void expect_rest(uint8_t refusal, const struct out *out) {
    const size_t size = refusal ? 0 : (size_t)out->size;
    if (refusal) {
        expect_filled(&out->size, sizeof out->size);
    }
    if (size > OUT) {
        printf(" oversized");
        return;
    }
    expect_filled(out->bytes + size, OUT - size);
}

/* How many bytes were written, or the refusal. */
static inline void say_outcome(uint8_t refusal, const struct out *out) {
    if (refusal) {
        say_refused(refusal);
    } else {
        printf(" %" PRIu64, out->size);
    }
    expect_rest(refusal, out);
}

/* The frame that was written, or the refusal. */
static inline void say_frame(uint8_t refusal, const struct out *out) {
    if (refusal) {
        say_refused(refusal);
    } else if (out->size <= OUT) {
        say_bytes(out->bytes, (size_t)out->size);
    }
    expect_rest(refusal, out);
}

#endif

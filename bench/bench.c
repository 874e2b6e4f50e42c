/* Times the exported functions beside the C twin and the Rust twin, in one run and by turns. A line for each case: the ns a byte of each (or an
 * entry) and our time over theirs. Where it is the CRC that takes the time, two other forms of it follow: the ns a byte of Rust with eight bytes
 * looked up at a time, that of C without a table (twins/c/folded.c), and our time over this last. Each number is the median of the rounds.
 * usage: bench [MEBIBYTES [ROUNDS]], by default 64 and 9 (bench/run builds it) */
#define _POSIX_C_SOURCE 199309L
#include <stdio.h>
#include <stdlib.h>
#include <string.h>
#include <time.h>

/* Every side is a library: what it exports is called and not compiled into the loops here. */
#include "twin.h"
#undef sbp_counts
#undef sbp_collator
#undef sbp_crc
#undef sbp_answer
#undef sbp_feed
#undef sbp_list

#include "../link/include/sbp.h"
#include "../twins/c/folded.h"
#include "../twins/c/rows.h"
#include "captures.h"
#include "indexes.h"
#include "timed.h"

/* bench/folded.h says what it is. */
size_t folded_read_closed(const uint8_t *capture, size_t n, struct twin_counts *counts);

/* bench/twin.rs, which says what they do. */
uint16_t rust_crc(uint16_t start, const uint8_t *bytes, size_t n);
uint16_t rust_crc_sliced(uint16_t start, const uint8_t *bytes, size_t n);
void rust_closed(const uint8_t *capture, size_t n, uint64_t counts[4]);
void rust_closed_sliced(const uint8_t *capture, size_t n, uint64_t counts[4]);
struct rust_collator *rust_collator(const uint16_t *roster, size_t n);
void rust_collator_free(struct rust_collator *collator);
uint8_t rust_feed(struct rust_collator *collator, uint16_t type, uint16_t sender, const uint8_t *payload, size_t n, struct sbp_report *report);
uint8_t rust_read(uint16_t kind, const uint8_t *payload, size_t n, uint64_t *row, size_t room);
uint8_t rust_write(uint8_t *out, size_t room, uint16_t kind, uint16_t own, uint32_t sender, const uint64_t *row, size_t fields, uint64_t *size);
const uint8_t *rust_list(const uint8_t *capture, size_t n, uint64_t *size);

enum { ROUNDS_MAX = 99, ROOM = 8 * SBP_INPUT_MAX + 32 };

static size_t writing_room;
static uint8_t our_text[ROOM];
static char twins_text[SBP_LIST_MAX];
uint64_t told[4];
static const uint8_t *text;

/* The time that this program has had, so that others on the machine count little. */
static double now(void) {
    struct timespec t;
    clock_gettime(CLOCK_PROCESS_CPUTIME_ID, &t);
    return (double)t.tv_sec * 1e9 + (double)t.tv_nsec;
}

static int by_size(const void *a, const void *b) {
    double x = *(const double *)a, y = *(const double *)b;
    return (x > y) - (x < y);
}

static double median(double *all, int rounds) {
    qsort(all, (size_t)rounds, sizeof *all, by_size);
    return all[rounds / 2];
}

/* ---- what is timed, over the capture */

static void our_crc(void) { told[0] = sbp_crc(0, capture, length); }
static void twins_crc(void) { told[0] = twin_crc(0, capture, length); }
static void rusts_crc(void) { told[0] = rust_crc(0, capture, length); }
static void sliced_crc(void) { told[0] = rust_crc_sliced(0, capture, length); }
static void folded_crcs(void) { told[0] = folded_crc(0, capture, length); }

static size_t piece;

/* The sum of the CRCs of pieces of one length. */
static inline void crc_pieces(uint16_t (*crc)(uint16_t start, const uint8_t *bytes, size_t n)) {
    for (size_t at = 0; at + piece <= length; at += piece) {
        told[0] += crc(0, capture + at, piece);
    }
}

static void our_pieces(void) { crc_pieces(sbp_crc); }
static void twins_pieces(void) { crc_pieces(twin_crc); }
static void rusts_pieces(void) { crc_pieces(rust_crc); }
static void sliced_pieces(void) { crc_pieces(rust_crc_sliced); }
static void folded_pieces(void) { crc_pieces(folded_crc); }

/* Frame by frame: frame bytes, junk, bad, short. */
static void our_reading(void) {
    uint8_t row[SBP_FOUND];
    uint8_t answer;
    size_t at = 0;
    do {
        answer = sbp_next(capture, length, at, false, row, sizeof row);
        struct sbp_found found = sbp_found_of(row);
        told[0] += found.next - found.at;
        told[1] += found.junk;
        told[2] += found.bad;
        told[3] += found.short_;
        at = found.next;
    } while (answer == 0);
}

/* The same numbers in one call. */
static void our_totals(void) {
    uint8_t counts[SBP_TOTALS];
    sbp_totals(capture, length, counts, sizeof counts);
    for (int i = 0; i < 4; i++) {
        told[i] = sbp_number(counts + 8 * i, 8);
    }
}

static inline void read_closed(size_t (*read)(const uint8_t *capture, size_t n, struct twin_counts *counts)) {
    struct twin_counts counts;
    read(capture, length, &counts);
    told[0] = counts.frame_bytes, told[1] = counts.junk, told[2] = counts.bad, told[3] = counts.short_;
}

static void twins_reading(void) { read_closed(sbp_read_closed); }
static void folded_reading(void) { read_closed(folded_read_closed); }
static void rusts_reading(void) { rust_closed(capture, length, told); }
static void sliced_reading(void) { rust_closed_sliced(capture, length, told); }

/* Frames of a capture without noise, one after the other: the epochs, and sums of all answers and of what the epochs say. */
static void our_feeding(void) {
    const uint16_t roster[] = {1228, 0};
    uint8_t state[SBP_STATE], report[SBP_REPORT];
    sbp_collator(state, sizeof state, roster, 2);
    for (size_t at = 0; at < length; at += capture[at + 5] + 8u) {
        const uint8_t *f = capture + at;
        uint8_t answer =
            sbp_feed(state, sizeof state, (uint16_t)(f[1] | f[2] << 8), (uint16_t)(f[3] | f[4] << 8), f + 6, f[5], report, sizeof report);
        told[1] += answer;
        if (answer == 1) {
            struct sbp_report e = sbp_report_of(report);
            told[0]++;
            told[2] += (uint64_t)e.sender + e.wn + e.tow;
            told[3] += (uint64_t)e.n + e.observations;
        }
    }
}

static void twins_feeding(void) {
    const uint16_t roster[] = {1228, 0};
    struct twin_collator collator;
    struct sbp_epoch e;
    sbp_collator_make(&collator, roster, 2);
    for (size_t at = 0; at < length; at += capture[at + 5] + 8u) {
        const uint8_t *f = capture + at;
        int answer = twin_feed(&collator, (uint16_t)(f[1] | f[2] << 8), (uint16_t)(f[3] | f[4] << 8), f + 6, f[5], &e);
        told[1] += (uint64_t)answer;
        if (answer == SBP_EPOCH) {
            told[0]++;
            told[2] += (uint64_t)e.sender + e.wn + e.tow;
            told[3] += (uint64_t)e.n + e.observations;
        }
    }
}

static void rusts_feeding(void) {
    const uint16_t roster[] = {1228, 0};
    struct rust_collator *collator = rust_collator(roster, 2);
    struct sbp_report e;
    for (size_t at = 0; at < length; at += capture[at + 5] + 8u) {
        const uint8_t *f = capture + at;
        uint8_t answer = rust_feed(collator, (uint16_t)(f[1] | f[2] << 8), (uint16_t)(f[3] | f[4] << 8), f + 6, f[5], &e);
        told[1] += answer;
        if (answer == 1) {
            told[0]++;
            told[2] += (uint64_t)e.sender + e.wn + e.tow;
            told[3] += (uint64_t)e.n + e.observations;
        }
    }
    rust_collator_free(collator);
}

static void our_listing(void) {
    sbp_list(capture, length, our_text, sizeof our_text, told);
    text = our_text;
}

static void twins_listing(void) {
    told[0] = twin_list(capture, length, twins_text);
    text = (const uint8_t *)twins_text;
}

static void rusts_listing(void) { text = rust_list(capture, length, told); }

/* ---- rows: payloads of a clean capture read, and some rows written again and again */

/* OWN is the writing recorder's number; each row is written with its frame's sender. */
enum { KEPT_MOST = 4096, OWN = 1229 };

static struct kept {
    uint64_t row[SBP_FIELDS_MOST];
    size_t fields;
    uint16_t kind, sender;
} kept[KEPT_MOST];
static size_t kept_count;

/* The rows of the messages without a tail that the capture begins with; what is written of them goes where the capture was. */
static void keep_rows(void) {
    kept_count = 0;
    for (size_t at = 0; at < length && kept_count < KEPT_MOST; at += capture[at + 5] + 8u) {
        const uint8_t *f = capture + at;
        struct kept *k = &kept[kept_count];
        uint64_t size;
        uint8_t out[FRAME_MOST];
        k->kind = (uint16_t)(f[1] | f[2] << 8), k->sender = (uint16_t)(f[3] | f[4] << 8);
        twin_read(k->kind, f + 6, f[5], k->row, SBP_FIELDS_MOST);
        /* the number of fields is the one that it is written with */
        for (k->fields = 0; k->fields <= SBP_FIELDS_MOST; k->fields++) {
            if (twin_write(out, sizeof out, k->kind, OWN, k->sender, k->row, k->fields, &size) == 0) {
                kept_count++;
                break;
            }
        }
    }
}

typedef uint8_t (*reader)(uint16_t kind, const uint8_t *payload, size_t n, uint64_t *row, size_t room);
typedef uint8_t (*writer)(uint8_t *out, size_t room, uint16_t kind, uint16_t own, uint32_t sender, const uint64_t *row, size_t fields,
                          uint64_t *size);

/* The sum of all answers, and sums of the first eight numbers: same_rows has compared the rest. */
static inline void read_all(reader read) {
    uint64_t row[SBP_FIELDS_MOST] = {0};
    for (size_t at = 0; at < length; at += capture[at + 5] + 8u) {
        const uint8_t *f = capture + at;
        told[0] += read((uint16_t)(f[1] | f[2] << 8), f + 6, f[5], row, SBP_FIELDS_MOST);
        told[1] += row[0] ^ row[1], told[2] += row[2] ^ row[3] ^ row[4], told[3] += row[5] ^ row[6] ^ row[7];
    }
}

static void our_rows(void) { read_all(sbp_read); }
static void twins_rows(void) { read_all(twin_read); }
static void rusts_rows(void) { read_all(rust_read); }

/* Every row in all its numbers, before it is timed: to sum up 32 of them would be timed too. */
static void same_rows(void) {
    const reader twins[] = {twin_read, rust_read};
    for (size_t at = 0; at < length; at += capture[at + 5] + 8u) {
        const uint8_t *f = capture + at;
        uint16_t kind = (uint16_t)(f[1] | f[2] << 8);
        uint64_t ours[SBP_FIELDS_MOST] = {0};
        sbp_read(kind, f + 6, f[5], ours, SBP_FIELDS_MOST);
        for (int i = 0; i < 2; i++) {
            uint64_t row[SBP_FIELDS_MOST] = {0};
            twins[i](kind, f + 6, f[5], row, SBP_FIELDS_MOST);
            if (memcmp(ours, row, sizeof row) != 0) {
                fprintf(stderr, "side %d reads another row of type %#06x\n", C + i, kind);
                exit(EXIT_FAILURE);
            }
        }
    }
}

/* Frames one after the other, as text. */
static inline void write_all(writer write) {
    size_t at = 0;
    for (size_t i = 0; at + FRAME_MOST <= writing_room; i = i + 1 < kept_count ? i + 1 : 0) {
        const struct kept *k = &kept[i];
        uint64_t size = 0;
        if (write(capture + at, writing_room - at, k->kind, OWN, k->sender, k->row, k->fields, &size) != 0) {
            break;
        }
        at += size;
    }
    told[0] = at;
    text = capture;
}

static void our_writing(void) { write_all(sbp_write); }
static void twins_writing(void) { write_all(twin_write); }
static void rusts_writing(void) { write_all(rust_write); }

double timed(const char *name, int rounds, int times, size_t over, const side sides[SIDES]) {
    double ns[SIDES][ROUNDS_MAX], ratio[SIDES][ROUNDS_MAX];
    uint64_t ours[4];
    for (int r = 0; r < rounds; r++) {
        for (int s = 0; s < SIDES && sides[s] != NULL; s++) {
            double took = 0;
            text = NULL;
            for (int i = 0; i < times; i++) {
                memset(told, 0, sizeof told);
                double start = now();
                sides[s]();
                took += now() - start;
            }
            for (uint64_t i = 0; text != NULL && i < told[0]; i++) {
                told[1] = told[1] * 31 + text[i];
            }
            if (s == OURS) {
                memcpy(ours, told, sizeof ours);
            } else if (memcmp(ours, told, sizeof ours) != 0) {
                fprintf(stderr, "%s: side %d found something else\n", name, s);
                exit(EXIT_FAILURE);
            }
            ns[s][r] = took / ((double)over * times);
            ratio[s][r] = ns[OURS][r] / ns[s][r];
        }
    }
    const double our_ns = median(ns[OURS], rounds);
    printf("%-40s %7.3f %7.3f %7.3f", name, our_ns, median(ns[C], rounds), median(ns[RUST], rounds));
    printf(" %7.2f %7.2f", median(ratio[C], rounds), median(ratio[RUST], rounds));
    if (sides[SLICED] != NULL && sides[FOLDED] != NULL) {
        printf(" %17.3f %9.3f %9.2f", median(ns[SLICED], rounds), median(ns[FOLDED], rounds), median(ratio[FOLDED], rounds));
    }
    printf("\n");
    fflush(stdout);
    return our_ns;
}

static void pieces(const char *name, size_t of, int rounds) {
    piece = of;
    timed(name, rounds, 1, length / piece * piece, (const side[SIDES]){our_pieces, twins_pieces, rusts_pieces, sliced_pieces, folded_pieces});
}

static void readings(const char *by_frame, const char *in_one, int rounds) {
    timed(by_frame, rounds, 1, length, (const side[SIDES]){our_reading, twins_reading, rusts_reading, sliced_reading, folded_reading});
    timed(in_one, rounds, 1, length, (const side[SIDES]){our_totals, twins_reading, rusts_reading, sliced_reading, folded_reading});
}

static void feeding(const char *name, int rounds) {
    timed(name, rounds, 1, length, (const side[SIDES]){our_feeding, twins_feeding, rusts_feeding, NULL});
}

static void reading_rows(const char *name, int rounds) {
    same_rows();
    timed(name, rounds, 1, length, (const side[SIDES]){our_rows, twins_rows, rusts_rows, NULL});
}

int main(int argc, char **argv) {
    int mebibytes = argc > 1 ? atoi(argv[1]) : 64, rounds = argc > 2 ? atoi(argv[2]) : 9;
    if (mebibytes < 1 || mebibytes > 1024 || rounds < 1 || rounds > ROUNDS_MAX) {
        fprintf(stderr, "usage: bench [MEBIBYTES [ROUNDS]]\n");
        return EXIT_FAILURE;
    }
    size_t most = (size_t)mebibytes << 20;
    capture = malloc(most);
    if (capture == NULL) {
        return EXIT_FAILURE;
    }
    printf("%-40s %7s %7s %7s %7s %7s", "ns a byte", "Rattle", "C", "Rust", "to C", "to Rust");
    printf(" %17s %9s %9s\n", "Rust, sliced by 8", "C, folded", "to folded");
    clean(most);
    timed("CRC of a long buffer", rounds, 1, length, (const side[SIDES]){our_crc, twins_crc, rusts_crc, sliced_crc, folded_crcs});
    pieces("CRC of pieces of 95 bytes", 95, rounds);
    pieces("CRC of pieces of 9 bytes", 9, rounds);
    pieces("CRC of pieces of 5 bytes", 5, rounds);
    readings("closed reading, clean, frame by frame", "closed reading, clean, in one call", rounds);
    feeding("feeding epochs", rounds);
    overtaken(most);
    feeding("feeding epochs, out of order", rounds);
    clean(most);
    time_indexing(rounds);
    texts(most);
    reading_rows("rows read of LOG, 80 bytes of text", rounds);
    mixed(most);
    reading_rows("rows read of all 24 messages", rounds);
    keep_rows();
    writing_room = length;
    twins_writing();
    length = told[0];
    timed("rows written of 22 messages", rounds, 1, length, (const side[SIDES]){our_writing, twins_writing, rusts_writing, NULL});
    noise(most);
    readings("closed reading, noise, frame by frame", "closed reading, noise, in one call", rounds);
    /* Every byte begins a frame of 93 that is bad: some 200 ns a byte, so a 64th of them. */
    preambles(most / 64);
    readings("closed reading, all 0x55, frame by frame", "closed reading, all 0x55, in one call", rounds);
    /* Half of them begin one of 263. */
    dearest(most / 64);
    readings("closed reading, dearest, frame by frame", "closed reading, dearest, in one call", rounds);
    clean(SBP_INPUT_MAX);
    timed("listing of 64 KiB", rounds, (int)(most / SBP_INPUT_MAX), length, (const side[SIDES]){our_listing, twins_listing, rusts_listing, NULL});
    printf("%-40s %7s %7s %7s %7s %7s\n", "ns an entry", "Rattle", "C", "Rust", "to C", "to Rust");
    time_finding(rounds);
    return EXIT_SUCCESS;
}

/* The CRC, frames found and frames written: sbp_crc, sbp_frame_crc, sbp_next, sbp_totals, sbp_write_frame. */
#include "values.h"

/* The example frame of 003, section 4: 20 bytes of payload. */
static const uint8_t EXAMPLE[28] = {
    0x55, 0x02, 0x02, 0xCC, 0x04, 0x14, 0x70, 0x3D, 0xD0, 0x18, 0xCF, 0xEF, 0xFF, 0xFF,
    0xEF, 0xE8, 0xFF, 0xFF, 0xF0, 0x18, 0x00, 0x00, 0x00, 0x00, 0x05, 0x00, 0x43, 0x94,
};
static const uint8_t TEXT[9] = {'1', '2', '3', '4', '5', '6', '7', '8', '9'};

/* ---- frames found */

static void say_counts(const struct sbp_counts *c) {
    printf(" %" PRIu64 " %" PRIu64 " %" PRIu64 " %" PRIu64, c->framed, c->junk, c->bad, c->short_);
}

static void say_totals(const uint8_t *capture, size_t n) {
    uint8_t row[SBP_TOTALS];
    const uint8_t answer = sbp_totals(capture, n, row, sizeof row);
    if (answer) {
        say_refused(answer);
        return;
    }
    const struct sbp_counts c = sbp_counts_of(row);
    say_counts(&c);
}

/* Why a reading goes on to no frame. */
static void say_stop(uint8_t answer, const struct sbp_found *f) {
    if (answer == SBP_END) {
        printf(" end");
    } else if (answer == SBP_NEEDS) {
        printf(" needs %" PRIu64, f->needed);
    } else {
        say_refused(answer);
    }
}

/* Each frame with its payload, then how the reading ends, and what it passed. A capture has fewer frames than bytes, so the turns suffice. */
static void say_reading(const char *name, const uint8_t *capture, size_t n, bool opened) {
    struct sbp_counts c = {0, 0, 0, 0};
    size_t at = 0;
    printf("%s %s", opened ? "open" : "closed", name);
    for (size_t turn = 0; turn <= n; turn++) {
        uint8_t row[SBP_FOUND];
        const uint8_t answer = sbp_next(capture, n, at, opened, row, sizeof row);
        const struct sbp_found f = sbp_found_of(row);
        c.junk += f.junk;
        c.bad += f.bad;
        c.short_ += f.short_;
        if (answer != SBP_FRAME) {
            say_stop(answer, &f);
            break;
        }
        printf(" frame %" PRIu64 " %d %d %d", f.at, f.kind, f.sender, f.length);
        say_bytes(capture + f.at + 6, f.length);
        c.framed += f.next - f.at;
        at = f.next;
    }
    say_counts(&c);
    putchar('\n');
}

static void say_readings(const char *name, const uint8_t *capture, size_t n) {
    say_reading(name, capture, n, true);
    say_reading(name, capture, n, false);
    printf("totals %s", name);
    say_totals(capture, n);
    putchar('\n');
}

void captures(void) {
    static const uint8_t zeros[] = {0x55, 0, 0, 0, 0, 0, 0, 0};
    /* a stated length of 8 holds a whole frame: skipped by that length, it would be lost */
    static const uint8_t inside[] = {0x55, 0x01, 0x01, 0x02, 0x02, 0x08, 0x55, 0, 0, 0, 0, 0, 0, 0, 0xAA, 0xBB};
    static const uint8_t preambles[] = {0x55, 0x34, 0x12, 0x78, 0x56, 0x02, 0x55, 0x55, 0xFC, 0xD1};
    static const uint8_t noise[] = {0x01, 0x55, 0, 0, 0, 0, 0, 0, 0, 0x02, 0x03, 0x55};
    say_readings("all-zero-frame", zeros, sizeof zeros);
    say_readings("nothing", zeros, 0);
    say_readings("five-bytes", zeros, 5);
    say_readings("frame-inside-a-bad-one", inside, sizeof inside);
    say_readings("preamble-in-a-payload", preambles, sizeof preambles);
    say_readings("noise-around", noise, sizeof noise);
}

/* ---- the CRC */

static void say_crc(const char *name, const uint8_t *bytes, size_t n) { printf("crc %s %04x\n", name, sbp_crc(0, bytes, n)); }

void published(void) {
    uint8_t damaged[sizeof EXAMPLE];
    memcpy(damaged, EXAMPLE, sizeof EXAMPLE);
    damaged[27] = 0x95;
    say_crc("nothing", EXAMPLE, 0);
    say_crc("123456789", TEXT, sizeof TEXT);
    say_crc("example-frame", EXAMPLE + 1, 25);
    say_readings("example", EXAMPLE, sizeof EXAMPLE);
    say_message("baseline-ecef", EXAMPLE + 6, 20);
    say_readings("example-damaged", damaged, sizeof damaged);
}

/* The second part is begun at what the first comes to. */
static void say_parts(uint16_t start, const uint8_t *first, size_t m, const uint8_t *second, size_t n) {
    const uint16_t between = sbp_crc(start, first, m);
    printf("crc-parts %d %zu %zu %04x %04x\n", start, m, n, between, sbp_crc(between, second, n));
}

/* The check text cut at each of its ten places; then parts of 0, 1 and 255 bytes. */
static void say_all_parts(uint16_t start) {
    static const size_t sizes[] = {0, 1, 255};
    uint8_t first[255], second[255];
    mix(first, sizeof first, 3, 37);
    mix(second, sizeof second, 9, 41);
    for (size_t at = 0; at <= sizeof TEXT; at++) {
        say_parts(start, TEXT, at, TEXT + at, sizeof TEXT - at);
    }
    for (size_t i = 0; i < COUNT(sizes); i++) {
        for (size_t j = 0; j < COUNT(sizes); j++) {
            say_parts(start, first, sizes[i], second, sizes[j]);
        }
    }
}

void sums(void) {
    static const uint16_t starts[] = {0, 1, 65535};
    printf("crc-apart example-frame %04x\n", sbp_frame_crc(EXAMPLE, 6, EXAMPLE + 6, 20));
    printf("crc-apart no-header %04x\n", sbp_frame_crc(EXAMPLE, 0, EXAMPLE + 6, 20));
    printf("crc-apart no-payload %04x\n", sbp_frame_crc(EXAMPLE, 6, EXAMPLE, 0));
    for (size_t i = 0; i < COUNT(starts); i++) {
        printf("crc-from %d %04x\n", starts[i], sbp_crc(starts[i], TEXT, sizeof TEXT));
    }
    for (size_t i = 0; i < COUNT(starts); i++) {
        say_all_parts(starts[i]);
    }
}

/* ---- frames written */

/* A frame of n payload bytes: what was written, its CRC bytes, the byte after it, and the length of the frame that is found there. */
static void say_length(size_t n) {
    uint8_t payload[SBP_PAYLOAD_MOST], row[SBP_FOUND];
    struct out out;
    mix(payload, n, n, 3);
    fill(&out, sizeof out);
    printf("length %zu", n);
    say_outcome(sbp_write_frame(out.bytes, OUT, 0x1234, OWN, 0x5678, payload, n, &out.size), &out);
    printf(" %04x %02x", (unsigned)sbp_number(out.bytes + n + 6, 2), out.bytes[n + 8]);
    const uint8_t answer = sbp_next(out.bytes, OUT, 0, false, row, sizeof row);
    const struct sbp_found f = sbp_found_of(row);
    if (answer == SBP_FRAME && f.at == 0) {
        printf(" %d", f.length);
    }
    putchar('\n');
}

/* The first n bytes of a frame: what open reading answers, and closed every byte counted once. */
static void say_cut(const uint8_t *frame, size_t n) {
    uint8_t row[SBP_FOUND];
    const uint8_t answer = sbp_next(frame, n, 0, true, row, sizeof row);
    const struct sbp_found f = sbp_found_of(row);
    printf("cut %zu", n);
    if (answer == SBP_FRAME) {
        printf(" frame %d", f.sender);
    } else {
        say_stop(answer, &f);
    }
    say_totals(frame, n);
    putchar('\n');
}

static void say_all_cuts(void) {
    uint8_t payload[SBP_PAYLOAD_MOST];
    struct out out;
    mix(payload, sizeof payload, 255, 3);
    fill(&out, sizeof out);
    printf("write 255-into-263");
    say_outcome(sbp_write_frame(out.bytes, SBP_FRAME_MOST, 0x1234, OWN, SBP_NO_SENDER, payload, sizeof payload, &out.size), &out);
    putchar('\n');
    for (size_t n = 0; n <= SBP_FRAME_MOST; n++) {
        say_cut(out.bytes, n);
    }
}

/* Into twelve bytes, which are shown after it. */
static void say_written(size_t n) {
    uint8_t payload[256];
    struct out out;
    mix(payload, n, 7, 3);
    fill(&out, sizeof out);
    printf("write %zu-into-12", n);
    say_outcome(sbp_write_frame(out.bytes, 12, 0x0102, OWN, SBP_NO_SENDER, payload, n, &out.size), &out);
    say_bytes(out.bytes, 12);
    putchar('\n');
}

void written(void) {
    for (size_t n = 0; n <= SBP_PAYLOAD_MOST; n++) {
        say_length(n);
    }
    say_all_cuts();
    /* 31 before 32, and nothing written by either; then a frame that fits */
    say_written(5);
    say_written(256);
    say_written(3);
}

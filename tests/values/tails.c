/* The messages with a tail, OBS and LOG, and the carrier phase: sbp_read, sbp_observation, sbp_write_obs, sbp_write_log, sbp_carrier_phase,
 * sbp_phase_parts. */
#include "values.h"

/* ---- OBS */

static void say_observation(const uint8_t *payload, size_t n, size_t index) {
    uint64_t row[SBP_FIELDS_MOST];
    fill(row, sizeof row);
    printf("observation %zu", index);
    say_row(sbp_observation(SBP_MSG_OBS, payload, n, index, row, SBP_FIELDS_MOST), "IiBBHHBB", row);
    putchar('\n');
}

static void say_obs(const uint8_t *payload, size_t n) {
    static const size_t indices[] = {0, 1, 2, 15};
    uint64_t row[SBP_FIELDS_MOST];
    fill(row, sizeof row);
    printf("obs %zu", n);
    say_row(sbp_read(SBP_MSG_OBS, payload, n, row, SBP_FIELDS_MOST), "IHBB", row);
    putchar('\n');
    for (size_t i = 0; i < COUNT(indices); i++) {
        say_observation(payload, n, indices[i]);
    }
}

/* The two observations of a payload, and zeros after them, written again with a count. */
static void say_rewritten(const uint8_t *payload, size_t n, size_t count) {
    uint64_t head[SBP_OBS_FIELDS] = {0}, rows[16 * SBP_OBSERVATION_FIELDS] = {0};
    struct out out;
    fill(&out, sizeof out);
    sbp_read(SBP_MSG_OBS, payload, n, head, SBP_OBS_FIELDS);
    for (size_t i = 0; i < 2; i++) {
        sbp_observation(SBP_MSG_OBS, payload, n, i, rows + i * SBP_OBSERVATION_FIELDS, SBP_OBSERVATION_FIELDS);
    }
    printf("write-obs");
    say_frame(sbp_write_obs(out.bytes, OUT, SBP_MSG_OBS, OWN, 0, head, SBP_OBS_HEAD, rows, count * SBP_OBSERVATION_FIELDS, &out.size), &out);
    putchar('\n');
}

static void say_phase(int32_t l_i, uint8_t l_f) {
    printf("phase %" PRId32 " %d %" PRId64 "\n", l_i, l_f, sbp_carrier_phase(l_i, l_f));
}

static void say_phase_parts(int64_t phase) {
    int32_t l_i;
    uint8_t l_f;
    fill(&l_i, sizeof l_i);
    fill(&l_f, sizeof l_f);
    printf("parts %" PRId64, phase);
    const uint8_t refusal = sbp_phase_parts(phase, &l_i, &l_f);
    if (refusal) {
        say_refused(refusal);
        expect_filled(&l_i, sizeof l_i);
        expect_filled(&l_f, sizeof l_f);
    } else {
        printf(" %" PRId32 " %d", l_i, l_f);
    }
    putchar('\n');
}

static void say_phases(void) {
    static const int64_t phases[] = {
        -640, -1, 0, 255, 256, -256, -257, 549755813887, 549755813888, -549755813888, -549755813889, INT64_MIN,
    };
    say_phase(-3, 128);
    say_phase(-1, 255);
    say_phase(0, 0);
    say_phase(INT32_MIN, 0);
    say_phase(INT32_MAX, 255);
    for (size_t i = 0; i < COUNT(phases); i++) {
        say_phase_parts(phases[i]);
    }
}

void observations(void) {
    static const size_t sizes[] = {6, 7, 8, 39, 247, 263};
    static const size_t counts[] = {2, 15, 16};
    uint8_t payload[263];
    mix(payload, sizeof payload, 3, 37);
    for (size_t i = 0; i < COUNT(sizes); i++) {
        say_obs(payload, sizes[i]);
    }
    for (size_t i = 0; i < COUNT(counts); i++) {
        say_rewritten(payload, 39, counts[i]);
    }
    say_phases();
}

/* ---- LOG */

enum { TEXT = 300, NOWHERE = TEXT };

/* A payload of n bytes: filled to some place with what is no zero, then zeros, with a letter somewhere. */
struct log_read {
    size_t filled, letter, n;
};

/* n bytes of text, with a zero somewhere, and zeros after them, into so much room. */
struct log_written {
    size_t zero, n, padding, room;
};

static void say_log(const struct log_read *log) {
    uint8_t payload[TEXT + 1] = {0};
    uint64_t row[SBP_FIELDS_MOST];
    mix(payload, log->filled, 65, 6);
    payload[log->letter] = 'A';
    fill(row, sizeof row);
    printf("log %zu", log->n);
    say_row(sbp_read(SBP_MSG_LOG, payload, log->n, row, SBP_FIELDS_MOST), "BBB", row);
    putchar('\n');
}

/* All the room is shown. */
static void say_log_written(const struct log_written *log) {
    uint8_t text[TEXT + 1];
    struct out out;
    mix(text, TEXT, 65, 6);
    text[log->zero] = 0;
    fill(&out, sizeof out);
    printf("write-log %zu %zu", log->n, log->padding);
    say_outcome(sbp_write_log(out.bytes, log->room, OWN, SBP_NO_SENDER, 6, text, log->n, log->padding, &out.size), &out);
    say_bytes(out.bytes, log->room);
    putchar('\n');
}

void logs(void) {
    static const struct log_read reads[] = {
        /* zeros after the level and the text, or none */
        {0, NOWHERE, 0}, {1, NOWHERE, 1}, {9, NOWHERE, 9}, {9, NOWHERE, 10}, {9, NOWHERE, 200},
        {1, NOWHERE, 255}, {0, NOWHERE, 5}, {255, NOWHERE, 255}, {254, NOWHERE, 255}, {256, NOWHERE, 256},
        /* a letter after a zero; a level of 0, which ends nothing */
        {9, 10, 20}, {9, 19, 20}, {9, 9, 20}, {0, 1, 6}, {0, 2, 6}, {9, 200, 256},
    };
    static const struct log_written writes[] = {
        {NOWHERE, 0, 0, 9}, {NOWHERE, 0, 3, 13}, {NOWHERE, 5, 0, 14}, {NOWHERE, 5, 0, 13}, {NOWHERE, 5, 2, 16}, {NOWHERE, 5, 2, 15},
        /* text and zeros of 254 bytes, and of more */
        {NOWHERE, 254, 0, 264}, {NOWHERE, 255, 0, 264}, {NOWHERE, 100, 154, 264}, {NOWHERE, 100, 155, 264},
        {NOWHERE, 0, 254, 264}, {NOWHERE, 0, 255, 264}, {NOWHERE, 5, SIZE_MAX, 264},
        /* a zero in front, in the middle, at the end; in a text that is too long, before zeros that are too many, and with no room */
        {0, 5, 0, 264}, {2, 5, 0, 264}, {4, 5, 1, 264}, {299, 300, 0, 264}, {4, 5, 250, 264}, {4, 5, 0, 13},
    };
    for (size_t i = 0; i < COUNT(reads); i++) {
        say_log(&reads[i]);
    }
    for (size_t i = 0; i < COUNT(writes); i++) {
        say_log_written(&writes[i]);
    }
}

/* Who sends what a recorder writes, by its own number and the sender that it is given; and two recorders on one line: sbp_write, sbp_write_obs,
 * sbp_write_log, sbp_write_frame, and sbp_next, sbp_enlist, sbp_feed of what was written. */
#include "values.h"

struct sent;

/* Writes a frame with that payload. */
typedef uint8_t writer(const struct sent *s, const uint8_t *payload, uint16_t own, uint32_t sender, struct out *out);

/* What is written, and by which function. */
struct sent {
    const char *name;
    uint16_t kind;
    size_t n, fields; /* of the payload, and of its row */
    writer *write;
};

static uint8_t by_row(const struct sent *s, const uint8_t *payload, uint16_t own, uint32_t sender, struct out *out) {
    uint64_t row[SBP_FIELDS_MOST] = {0};
    sbp_read(s->kind, payload, s->n, row, SBP_FIELDS_MOST);
    return sbp_write(out->bytes, OUT, s->kind, own, sender, row, s->fields, &out->size);
}

static uint8_t by_observations(const struct sent *s, const uint8_t *payload, uint16_t own, uint32_t sender, struct out *out) {
    uint64_t head[SBP_OBS_FIELDS] = {0}, rows[SBP_OBSERVATIONS_MOST * SBP_OBSERVATION_FIELDS] = {0};
    sbp_read(s->kind, payload, s->n, head, SBP_OBS_FIELDS);
    for (size_t i = 0; i < head[3]; i++) {
        sbp_observation(s->kind, payload, s->n, i, rows + i * SBP_OBSERVATION_FIELDS, SBP_OBSERVATION_FIELDS);
    }
    return sbp_write_obs(out->bytes, OUT, s->kind, own, sender, head, SBP_OBS_HEAD, rows, head[3] * SBP_OBSERVATION_FIELDS, &out->size);
}

static uint8_t by_text(const struct sent *s, const uint8_t *payload, uint16_t own, uint32_t sender, struct out *out) {
    return sbp_write_log(out->bytes, OUT, own, sender, payload[0], payload + 1, s->n - 1, 0, &out->size);
}

static uint8_t by_payload(const struct sent *s, const uint8_t *payload, uint16_t own, uint32_t sender, struct out *out) {
    return sbp_write_frame(out->bytes, OUT, s->kind, own, sender, payload, s->n, &out->size);
}

/* ---- each own number with each sender that is given: those from 65536 on are none */

/* The first three are what two recorders put on one line beside their observations. */
enum { PLAIN = 3 };

static const struct sent SENT[] = {
    {"heartbeat", SBP_MSG_HEARTBEAT, 4, SBP_HEARTBEAT_FIELDS, by_row},
    {"pos-llh", SBP_MSG_POS_LLH, 34, SBP_POS_LLH_FIELDS, by_row},
    {"log", SBP_MSG_LOG, 9, 0, by_text},
    {"obs", SBP_MSG_OBS, 39, 0, by_observations},
    {"read-by-index-req", SBP_MSG_SETTINGS_READ_BY_INDEX_REQ, 2, SBP_READ_BY_INDEX_REQ_FIELDS, by_row},
    {"settings-save", SBP_MSG_SETTINGS_SAVE, 0, SBP_SETTINGS_SAVE_FIELDS, by_row},
    {"raw-00a1", 0x00A1, 0, 0, by_payload},
    {"raw-00a2", 0x00A2, 2, 0, by_payload},
    {"raw-00a0", 0x00A0, 9, 0, by_payload},
    {"raw-00a4", 0x00A4, 9, 0, by_payload},
    {"raw-00a8", 0x00A8, 9, 0, by_payload},
    {"raw-0800", 0x0800, 9, 0, by_payload},
    {"raw-ffff", 0xFFFF, 4, 0, by_payload},
};

static void say_sent(const struct sent *s, uint16_t own, uint32_t sender) {
    uint8_t payload[SBP_PAYLOAD_MOST];
    struct out out;
    mix(payload, sizeof payload, 5, 37);
    fill(&out, sizeof out);
    printf("sent %s %d %" PRIu32, s->name, own, sender);
    say_frame(s->write(s, payload, own, sender, &out), &out);
    putchar('\n');
}

static void say_senders(void) {
    static const uint16_t owns[] = {0, 0x42, 1228, 65535};
    static const uint32_t given[] = {SBP_NO_SENDER, 0, 0x42, 7, 65535, 65536 + 7, UINT32_MAX};
    for (size_t i = 0; i < COUNT(SENT); i++) {
        for (size_t j = 0; j < COUNT(owns); j++) {
            for (size_t k = 0; k < COUNT(given); k++) {
                say_sent(&SENT[i], owns[j], given[k]);
            }
        }
    }
}

/* The types whose frames do not go out under the own number, where no sender is given. */
static void say_not_own(void) {
    const uint8_t nothing = 0;
    printf("not-own");
    for (unsigned kind = 0; kind < 65536; kind++) {
        struct out out;
        fill(&out, sizeof out);
        sbp_write_frame(out.bytes, OUT, (uint16_t)kind, OWN, SBP_NO_SENDER, &nothing, 0, &out.size);
        const unsigned sender = (unsigned)sbp_number(out.bytes + 3, 2);
        if (sender != OWN) {
            printf(" %04x %u", kind, sender);
        }
    }
    putchar('\n');
}

/* ---- two recorders on one line, which write by turns and name no sender */

enum { LINE = 2048 };

static uint8_t line[LINE];
static size_t on_line;

static void put_on_line(const struct sent *s, const uint8_t *payload, uint16_t own) {
    struct out out;
    fill(&out, sizeof out);
    const uint8_t refusal = s->write(s, payload, own, SBP_NO_SENDER, &out);
    if (refusal || out.size > LINE - on_line) {
        say_refused(refusal);
        return;
    }
    memcpy(line + on_line, out.bytes, (size_t)out.size);
    on_line += (size_t)out.size;
}

static void put_message(const struct sent *s, uint16_t own) {
    uint8_t payload[SBP_PAYLOAD_MOST];
    mix(payload, sizeof payload, 5, 37);
    put_on_line(s, payload, own);
}

/* Of so many observations, all zeros. */
static void put_packet(uint32_t tow, uint8_t n_obs, size_t count, uint16_t own) {
    const struct sent packet = {"obs", SBP_MSG_OBS, 7 + 16 * count, 0, by_observations};
    uint8_t payload[SBP_PAYLOAD_MOST] = {0};
    put(payload, tow, 4);
    put(payload + 4, 1900, 2);
    payload[6] = n_obs;
    put_on_line(&packet, payload, own);
}

/* A packet of the one has one observation, of the other two. */
static void two_recorders(void) {
    static const uint16_t owns[] = {1228, 1229};
    for (size_t i = 0; i < PLAIN; i++) {
        for (size_t k = 0; k < COUNT(owns); k++) {
            put_message(&SENT[i], owns[k]);
        }
    }
    for (uint32_t tow = 1000; tow <= 3000; tow += 1000) {
        for (unsigned i = 0; i < 2; i++) {
            for (size_t k = 0; k < COUNT(owns); k++) {
                put_packet(tow, (uint8_t)(0x20 + i), k + 1, owns[k]);
            }
        }
    }
}

/* Each frame with its sender, and the epoch that it ends; the collator lists whom it meets. */
static void say_heard(void) {
    uint8_t state[SBP_STATE], row[SBP_FOUND], report[SBP_REPORT];
    size_t at = 0;
    sbp_growing(state, sizeof state);
    for (size_t turn = 0; turn < on_line && sbp_next(line, on_line, at, true, row, sizeof row) == SBP_FRAME; turn++) {
        const struct sbp_found f = sbp_found_of(row);
        printf("heard %" PRIu64 " %d %d %d", f.at, f.kind, f.sender, f.length);
        sbp_enlist(state, sizeof state, f.kind, f.sender);
        if (sbp_feed(state, sizeof state, f.kind, f.sender, line + f.at + 6, f.length, report, sizeof report) == SBP_EPOCH) {
            say_epoch(report);
        }
        putchar('\n');
        at = f.next;
    }
}

void senders(void) {
    say_senders();
    say_not_own();
    two_recorders();
    say_heard();
}

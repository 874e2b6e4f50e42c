/* Frames fed to a collator, and what it answers: what the parts about epochs share. */
#ifndef FED_H
#define FED_H

#include "values.h"

enum { HEAD = 7, EACH = 16, LONGEST = HEAD + SBP_OBSERVATIONS_MOST * EACH };

/* A frame to feed: its payload has a time, a week and n_obs, and zeros after them to its size. */
struct frame {
    uint16_t kind, sender;
    uint32_t tow;
    uint16_t wn;
    uint8_t n_obs;
    size_t size;
};

/* An OBS of so many observations. */
#define PACKET(sender, tow, wn, n_obs, count) {SBP_MSG_OBS, sender, tow, wn, n_obs, HEAD + EACH * (count)}

static uint8_t state[SBP_STATE];

static inline void put_payload(uint8_t payload[LONGEST], const struct frame *f) {
    memset(payload, 0, LONGEST);
    put(payload, f->tow, 4);
    put(payload + 4, f->wn, 2);
    payload[6] = f->n_obs;
}

static inline void collate(const uint16_t *roster, size_t n) {
    if (sbp_collator(state, sizeof state, roster, n)) {
        printf("no collator ");
    }
}

/* The base, the rover that it relays, and one more. */
static inline void collate_three(void) {
    static const uint16_t roster[] = {1228, 0, 65535};
    collate(roster, COUNT(roster));
}

/* A refusal leaves the state as it was, and all but an epoch the report. */
static inline uint8_t feed(uint16_t kind, uint16_t sender, const uint8_t *payload, size_t n, uint8_t report[SBP_REPORT]) {
    uint8_t before[SBP_STATE];
    memcpy(before, state, sizeof state);
    fill(report, SBP_REPORT);
    const uint8_t answer = sbp_feed(state, sizeof state, kind, sender, payload, n, report, SBP_REPORT);
    if (answer != SBP_EPOCH) {
        expect_filled(report, SBP_REPORT);
    }
    if (answer != SBP_EPOCH && answer != SBP_TAKEN && memcmp(before, state, sizeof state) != 0) {
        printf(" moved");
    }
    return answer;
}

static inline uint8_t feed_frame(const struct frame *f, uint8_t report[SBP_REPORT]) {
    uint8_t payload[LONGEST];
    put_payload(payload, f);
    return feed(f->kind, f->sender, payload, f->size, report);
}

/* Says what is answered; true where an epoch has ended. */
static inline bool say_fed(const struct frame *f) {
    uint8_t report[SBP_REPORT];
    const uint8_t answer = feed_frame(f, report);
    if (answer == SBP_EPOCH) {
        say_epoch(report);
    } else if (answer == SBP_TAKEN) {
        printf(" taken");
    } else {
        say_refused(answer);
    }
    return answer == SBP_EPOCH;
}

#endif

/* SBP 1.1 frames (document 003) under the rules of document 01 and of requests
 * P1 to P3 and P7: CRC, closed reading, epochs, and the listing of a capture.
 * No memory is allocated. */
#ifndef FAST_H
#define FAST_H

#include <stddef.h>
#include <stdint.h>

enum {
    SBP_ROSTER_MAX = 8,
    SBP_INPUT_MAX = 65536,
    /* Enough for the listing of any capture: at worst a frame of 15 bytes
     * gives an F line of 27 and an E line of 32, under 4 for a byte. */
    SBP_LIST_MAX = 4 * SBP_INPUT_MAX + 64
};

/* The bytes in frames, and those passed over by reason. */
struct sbp_counts {
    size_t frame_bytes;
    size_t junk;
    size_t bad;
    size_t short_;
};

/* A listed sender's place: come has a bit for each counter that has come, all
 * with this tow, wn and n; none is idle. */
struct sbp_place {
    uint32_t tow;
    uint16_t wn;
    uint16_t come;
    uint8_t n;
    uint8_t observations;
};

struct sbp_collator {
    size_t listed;
    uint16_t roster[SBP_ROSTER_MAX];
    struct sbp_place places[SBP_ROSTER_MAX];
};

struct sbp_epoch {
    uint16_t sender;
    uint16_t wn;
    uint32_t tow;
    uint8_t n;
    uint8_t observations;
};

/* What feeding answers when it does not refuse. */
enum { SBP_TAKEN = 0, SBP_EPOCH = 1 };

/* Begun at a start: 0, or the CRC of the bytes that come before. */
uint16_t sbp_crc(uint16_t start, const uint8_t *bytes, size_t length);

/* Closed reading: gives the number of frames and fills the counts. */
size_t sbp_read_closed(const uint8_t *capture, size_t length,
                       struct sbp_counts *counts);

/* A payload's answer: 0, 21, 22 or 23. */
int sbp_answer(uint16_t type, const uint8_t *payload, size_t length);

/* 0, or 41, 42; on refusal the collator is untouched. */
int sbp_collator_make(struct sbp_collator *collator, const uint16_t *roster,
                      size_t count);

/* SBP_TAKEN, or SBP_EPOCH with *epoch filled, or 46, 22, 43, 44, 45, 47 with
 * nothing changed. */
int sbp_feed(struct sbp_collator *collator, uint16_t type, uint16_t sender,
             const uint8_t *payload, size_t length, struct sbp_epoch *epoch);

/* Writes the listing of the capture and gives its length. The buffer holds
 * at least SBP_LIST_MAX bytes. */
size_t sbp_list(const uint8_t *capture, size_t length, char *text);

#endif

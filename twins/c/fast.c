#include "fast.h"

#include <string.h>

#include "messages.h"

enum { PREAMBLE = 0x55, HEADER = 6, AROUND = 8, OBS = 0x0049 };

/* The CRC of each single byte: eight single-bit steps with x^16 + x^12 +
 * x^5 + 1, highest bit first. */
static const uint16_t table[256] = {
    0x0000, 0x1021, 0x2042, 0x3063, 0x4084, 0x50a5, 0x60c6, 0x70e7,
    0x8108, 0x9129, 0xa14a, 0xb16b, 0xc18c, 0xd1ad, 0xe1ce, 0xf1ef,
    0x1231, 0x0210, 0x3273, 0x2252, 0x52b5, 0x4294, 0x72f7, 0x62d6,
    0x9339, 0x8318, 0xb37b, 0xa35a, 0xd3bd, 0xc39c, 0xf3ff, 0xe3de,
    0x2462, 0x3443, 0x0420, 0x1401, 0x64e6, 0x74c7, 0x44a4, 0x5485,
    0xa56a, 0xb54b, 0x8528, 0x9509, 0xe5ee, 0xf5cf, 0xc5ac, 0xd58d,
    0x3653, 0x2672, 0x1611, 0x0630, 0x76d7, 0x66f6, 0x5695, 0x46b4,
    0xb75b, 0xa77a, 0x9719, 0x8738, 0xf7df, 0xe7fe, 0xd79d, 0xc7bc,
    0x48c4, 0x58e5, 0x6886, 0x78a7, 0x0840, 0x1861, 0x2802, 0x3823,
    0xc9cc, 0xd9ed, 0xe98e, 0xf9af, 0x8948, 0x9969, 0xa90a, 0xb92b,
    0x5af5, 0x4ad4, 0x7ab7, 0x6a96, 0x1a71, 0x0a50, 0x3a33, 0x2a12,
    0xdbfd, 0xcbdc, 0xfbbf, 0xeb9e, 0x9b79, 0x8b58, 0xbb3b, 0xab1a,
    0x6ca6, 0x7c87, 0x4ce4, 0x5cc5, 0x2c22, 0x3c03, 0x0c60, 0x1c41,
    0xedae, 0xfd8f, 0xcdec, 0xddcd, 0xad2a, 0xbd0b, 0x8d68, 0x9d49,
    0x7e97, 0x6eb6, 0x5ed5, 0x4ef4, 0x3e13, 0x2e32, 0x1e51, 0x0e70,
    0xff9f, 0xefbe, 0xdfdd, 0xcffc, 0xbf1b, 0xaf3a, 0x9f59, 0x8f78,
    0x9188, 0x81a9, 0xb1ca, 0xa1eb, 0xd10c, 0xc12d, 0xf14e, 0xe16f,
    0x1080, 0x00a1, 0x30c2, 0x20e3, 0x5004, 0x4025, 0x7046, 0x6067,
    0x83b9, 0x9398, 0xa3fb, 0xb3da, 0xc33d, 0xd31c, 0xe37f, 0xf35e,
    0x02b1, 0x1290, 0x22f3, 0x32d2, 0x4235, 0x5214, 0x6277, 0x7256,
    0xb5ea, 0xa5cb, 0x95a8, 0x8589, 0xf56e, 0xe54f, 0xd52c, 0xc50d,
    0x34e2, 0x24c3, 0x14a0, 0x0481, 0x7466, 0x6447, 0x5424, 0x4405,
    0xa7db, 0xb7fa, 0x8799, 0x97b8, 0xe75f, 0xf77e, 0xc71d, 0xd73c,
    0x26d3, 0x36f2, 0x0691, 0x16b0, 0x6657, 0x7676, 0x4615, 0x5634,
    0xd94c, 0xc96d, 0xf90e, 0xe92f, 0x99c8, 0x89e9, 0xb98a, 0xa9ab,
    0x5844, 0x4865, 0x7806, 0x6827, 0x18c0, 0x08e1, 0x3882, 0x28a3,
    0xcb7d, 0xdb5c, 0xeb3f, 0xfb1e, 0x8bf9, 0x9bd8, 0xabbb, 0xbb9a,
    0x4a75, 0x5a54, 0x6a37, 0x7a16, 0x0af1, 0x1ad0, 0x2ab3, 0x3a92,
    0xfd2e, 0xed0f, 0xdd6c, 0xcd4d, 0xbdaa, 0xad8b, 0x9de8, 0x8dc9,
    0x7c26, 0x6c07, 0x5c64, 0x4c45, 0x3ca2, 0x2c83, 0x1ce0, 0x0cc1,
    0xef1f, 0xff3e, 0xcf5d, 0xdf7c, 0xaf9b, 0xbfba, 0x8fd9, 0x9ff8,
    0x6e17, 0x7e36, 0x4e55, 0x5e74, 0x2e93, 0x3eb2, 0x0ed1, 0x1ef0,
};

/* Instead of the register it carries the index of the next look-up, and what
 * is mixed into the one after: one exclusive or waits between two look-ups. */
uint16_t sbp_crc(uint16_t start, const uint8_t *bytes, size_t length)
{
    uint32_t high = start >> 8, low = start & 0xff;
    if (length < 2)
        return length == 0 ? start
                           : (uint16_t)(low << 8 ^ table[high ^ bytes[0]]);
    uint32_t index = high ^ bytes[0], after = low ^ bytes[1];
    for (size_t i = 2; i < length; i++) {
        uint32_t entry = table[index];
        index = after ^ entry >> 8;
        after = (entry & 0xff) ^ bytes[i];
    }
    uint32_t entry = table[index];
    return (uint16_t)(entry << 8 ^ table[after ^ entry >> 8]);
}

static inline uint16_t get16(const uint8_t *p)
{
    return (uint16_t)(p[0] | p[1] << 8);
}

static inline uint32_t get32(const uint8_t *p)
{
    return get16(p) | (uint32_t)get16(p + 2) << 16;
}

/* From *p on, the next frame's size with *p at its start, or 0 at the end. */
static inline size_t next_frame(const uint8_t *capture, size_t length,
                                size_t *p, struct sbp_counts *counts)
{
    size_t at = *p;
    while (at < length) {
        const uint8_t *here = capture + at;
        size_t left = length - at;
        if (here[0] != PREAMBLE) {
            const uint8_t *found = memchr(here, PREAMBLE, left);
            size_t junk = found ? (size_t)(found - here) : left;
            counts->junk += junk;
            at += junk;
            continue;
        }
        if (left < HEADER || left < (size_t)here[5] + AROUND) {
            counts->short_++;
            at++;
            continue;
        }
        size_t size = (size_t)here[5] + AROUND;
        /* Type through payload; the preamble is not in it. */
        if (sbp_crc(0, here + 1, size - 3) != get16(here + size - 2)) {
            counts->bad++;
            at++;
            continue;
        }
        counts->frame_bytes += size;
        *p = at;
        return size;
    }
    *p = at;
    return 0;
}

size_t sbp_read_closed(const uint8_t *capture, size_t length,
                       struct sbp_counts *counts)
{
    size_t frames = 0, p = 0, size;
    memset(counts, 0, sizeof *counts);
    while ((size = next_frame(capture, length, &p, counts)) != 0) {
        frames++;
        p += size;
    }
    return frames;
}

/* 16k + 7 with k from 0 to 15. */
static inline int obs_length(size_t length)
{
    return length % 16 == 7 && length <= 247;
}

/* One length; then GPS_TIME's ns, or the fix mode in the last byte. */
static inline int fixed_length(const uint8_t *payload, size_t length,
                               size_t wanted, int highest_mode)
{
    if (length != wanted)
        return 22;
    /* From -500000 to 500000, both moved up by 500000. */
    if (highest_mode == NS_RANGE)
        return get32(payload + 6) + 500000u <= 1000000u ? 0 : 23;
    if (highest_mode < ANY_MODE && (payload[length - 1] & 7) > highest_mode)
        return 23;
    return 0;
}

/* LOG after its level: bytes that are not zero, then zeros to the end. */
static inline int log_answer(const uint8_t *payload, size_t length)
{
    if (length == 0 || length > 255)
        return 22;
    size_t at = 1;
    while (at < length && payload[at] != 0)
        at++;
    while (at < length && payload[at] == 0)
        at++;
    return at == length ? 0 : 23;
}

int sbp_answer(uint16_t type, const uint8_t *payload, size_t length)
{
    switch (type) {
#define MESSAGE(kind, letters, wanted, highest_mode)                           \
    case kind:                                                                 \
        return fixed_length(payload, length, wanted, highest_mode);
        SBP_MESSAGES(MESSAGE)
#undef MESSAGE
    case OBS:
        return obs_length(length) ? 0 : 22;
    case 0x0401:
        return log_answer(payload, length);
    default:
        return 21;
    }
}

int sbp_collator_make(struct sbp_collator *collator, const uint16_t *roster,
                      size_t count)
{
    if (count == 0 || count > SBP_ROSTER_MAX)
        return 41;
    for (size_t i = 0; i < count; i++)
        for (size_t j = 0; j < i; j++)
            if (roster[i] == roster[j])
                return 42;
    memset(collator, 0, sizeof *collator);
    memcpy(collator->roster, roster, count * sizeof *roster);
    collator->listed = count;
    return 0;
}

int sbp_feed(struct sbp_collator *collator, uint16_t type, uint16_t sender,
             const uint8_t *payload, size_t length, struct sbp_epoch *epoch)
{
    if (type != OBS)
        return 46;
    if (!obs_length(length))
        return 22;
    size_t at = 0;
    while (at < collator->listed && collator->roster[at] != sender)
        at++;
    if (at == collator->listed)
        return 43;
    uint8_t n = payload[6] >> 4, i = payload[6] & 15;
    if (n == 0)
        return 44;
    if (i >= n)
        return 45;

    struct sbp_place *place = &collator->places[at];
    uint32_t tow = get32(payload);
    uint16_t wn = get16(payload + 4);
    uint16_t bit = (uint16_t)(1u << i), all = (uint16_t)((1u << n) - 1);
    if (place->come == 0 || place->tow != tow || place->wn != wn ||
        place->n != n) {
        /* What was open is dropped. */
        place->tow = tow;
        place->wn = wn;
        place->n = n;
        place->come = 0;
        place->observations = 0;
    }
    if (place->come & bit)
        return 47;
    place->come |= bit;
    place->observations = (uint8_t)(place->observations + length / 16);
    if (place->come != all)
        return SBP_TAKEN;
    place->come = 0;
    epoch->sender = sender;
    epoch->wn = wn;
    epoch->tow = tow;
    epoch->n = n;
    epoch->observations = place->observations;
    return SBP_EPOCH;
}

/* A space and the number; gives the place after it. */
static inline char *put(char *to, uint32_t value)
{
    char digits[10];
    size_t count = 0;
    do {
        digits[count++] = (char)('0' + value % 10);
        value /= 10;
    } while (value != 0);
    *to++ = ' ';
    while (count > 0)
        *to++ = digits[--count];
    return to;
}

static inline char *put_line(char *to, char letter, uint32_t a, uint32_t b,
                             uint32_t c, uint32_t d, uint32_t e)
{
    *to++ = letter;
    to = put(to, a);
    to = put(to, b);
    to = put(to, c);
    to = put(to, d);
    to = put(to, e);
    *to++ = '\n';
    return to;
}

/* Lists a sender at its first OBS frame while there is room. That gives the
 * first eight, as a pass beforehand would. */
static inline void enlist(struct sbp_collator *collator, uint16_t sender)
{
    for (size_t i = 0; i < collator->listed; i++)
        if (collator->roster[i] == sender)
            return;
    if (collator->listed < SBP_ROSTER_MAX)
        collator->roster[collator->listed++] = sender;
}

size_t sbp_list(const uint8_t *capture, size_t length, char *text)
{
    if (length > SBP_INPUT_MAX) {
        memcpy(text, "R 11\n", 5);
        return 5;
    }
    struct sbp_counts counts = {0, 0, 0, 0};
    struct sbp_collator collator;
    memset(&collator, 0, sizeof collator);
    char *to = text;
    size_t p = 0, size;
    while ((size = next_frame(capture, length, &p, &counts)) != 0) {
        const uint8_t *here = capture + p;
        uint16_t type = get16(here + 1), sender = get16(here + 3);
        size_t n = size - AROUND;
        to = put_line(to, 'F', (uint32_t)p, type, sender, (uint32_t)n,
                      (uint32_t)sbp_answer(type, here + HEADER, n));
        if (type == OBS) {
            struct sbp_epoch e;
            enlist(&collator, sender);
            if (sbp_feed(&collator, type, sender, here + HEADER, n, &e) ==
                SBP_EPOCH)
                to = put_line(to, 'E', e.sender, e.wn, e.tow, e.n,
                              e.observations);
        }
        p += size;
    }
    to = put_line(to, 'T', (uint32_t)length, (uint32_t)counts.frame_bytes,
                  (uint32_t)counts.junk, (uint32_t)counts.bad,
                  (uint32_t)counts.short_);
    return (size_t)(to - text);
}

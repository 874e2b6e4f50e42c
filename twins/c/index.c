#include "index.h"

#include <string.h>

#include "fast.h"
#include "messages.h"

enum { PREAMBLE = 0x55, HEADER = 6, AROUND = 8 };

/* Where the numbers stand among the bytes. */
enum { REACHED = 0, HELD = 8, COUNTS = 16 };

/* The places of the counts: OBS, the messages without a tail, LOG. */
enum {
    COUNT_0x0049,
#define MESSAGE(type, letters, length, highest_mode) COUNT_##type,
    SBP_MESSAGES(MESSAGE)
#undef MESSAGE
        COUNT_0x0401,
    COUNTED
};

static inline uint16_t get16(const uint8_t *p)
{
    return (uint16_t)(p[0] | p[1] << 8);
}

static inline uint64_t get64(const uint8_t *p)
{
    uint64_t value = 0;
    for (int i = 7; i >= 0; i--)
        value = value << 8 | p[i];
    return value;
}

static inline void put64(uint8_t *p, uint64_t value)
{
    for (int i = 0; i < 8; i++)
        p[i] = (uint8_t)(value >> 8 * i);
}

/* COUNTED for a type without a reading. */
static inline unsigned count_of(uint16_t kind)
{
    switch (kind) {
    case 0x0049:
        return COUNT_0x0049;
#define MESSAGE(type, letters, length, highest_mode)                           \
    case type:                                                                 \
        return COUNT_##type;
        SBP_MESSAGES(MESSAGE)
#undef MESSAGE
    case 0x0401:
        return COUNT_0x0401;
    default:
        return COUNTED;
    }
}

/* Open reading from *p on: the next frame's size with *p at its start, or 0
 * with *p where it stops. */
static inline size_t next_frame(const uint8_t *capture, size_t n, size_t *p)
{
    while (*p < n) {
        const uint8_t *here = capture + *p;
        size_t left = n - *p;
        if (here[0] != PREAMBLE) {
            const uint8_t *found = memchr(here, PREAMBLE, left);
            *p += found ? (size_t)(found - here) : left;
            continue;
        }
        if (left < HEADER || left < (size_t)here[5] + AROUND)
            return 0;
        size_t size = (size_t)here[5] + AROUND;
        if (sbp_crc(0, here + 1, size - 3) == get16(here + size - 2))
            return size;
        ++*p;
    }
    return 0;
}

static uint64_t frames_from(const uint8_t *capture, size_t n, size_t p)
{
    uint64_t frames = 0;
    size_t size;
    while ((size = next_frame(capture, n, &p)) != 0) {
        frames++;
        p += size;
    }
    return frames;
}

uint8_t twin_index(uint8_t *index, size_t room)
{
    if (room < TWIN_INDEX)
        return 32;
    memset(index, 0, TWIN_INDEX);
    return 0;
}

/* A list with room for every frame that may come is filled in one pass; a
 * shorter one is measured first. */
uint8_t twin_extend(uint8_t *index, size_t room, const uint8_t *capture,
                    size_t n, struct twin_entry *entries, size_t most)
{
    if (room < TWIN_INDEX)
        return 32;
    uint64_t reached = get64(index + REACHED), held = get64(index + HELD);
    if (n < reached)
        return 52;
    if (most < held)
        return 51;
    if (most - held < (n - reached) / AROUND &&
        most - held < frames_from(capture, n, reached))
        return 51;

    uint64_t counts[COUNTED + 1] = {0};
    size_t p = reached, size;
    while ((size = next_frame(capture, n, &p)) != 0) {
        const uint8_t *here = capture + p;
        uint16_t kind = get16(here + 1);
        struct twin_entry *e = &entries[held++];
        e->offset = p;
        e->kind = kind;
        e->sender = get16(here + 3);
        e->length = here[5];
        counts[count_of(kind)]++;
        p += size;
    }
    put64(index + REACHED, p);
    put64(index + HELD, held);
    for (size_t i = 0; i < COUNTED; i++) {
        uint8_t *count = index + COUNTS + 8 * i;
        put64(count, get64(count) + counts[i]);
    }
    return 0;
}

uint8_t twin_first(const uint8_t *index, size_t room,
                   const struct twin_entry *entries, size_t most, uint16_t kind,
                   uint16_t sender, uint64_t offset, uint64_t *place)
{
    if (room < TWIN_INDEX)
        return 32;
    uint64_t held = get64(index + HELD);
    if (most < held)
        return 51;
    for (uint64_t i = 0; i < held; i++) {
        const struct twin_entry *e = &entries[i];
        if (e->kind == kind && e->sender == sender && e->offset >= offset) {
            *place = i;
            return 0;
        }
    }
    return TWIN_NONE;
}

uint8_t twin_count(const uint8_t *index, size_t room, uint16_t kind,
                   uint64_t *count)
{
    if (room < TWIN_INDEX)
        return 32;
    unsigned place = count_of(kind);
    if (place == COUNTED)
        return 21;
    *count = get64(index + COUNTS + 8 * place);
    return 0;
}

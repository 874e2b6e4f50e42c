/* An index beside a capture (request P5): the frames of open reading as a lent
 * list of entries; the position reached, how many entries are held and a count
 * for each type that has a reading in TWIN_INDEX lent bytes. Numbers given back
 * are document 02's and 32; a refusal writes nothing. */
#ifndef INDEX_H
#define INDEX_H

#include <stddef.h>
#include <stdint.h>

enum { TWIN_INDEX = 208, TWIN_NONE = 1 };

struct twin_entry {
    uint64_t offset;
    uint16_t kind, sender;
    uint8_t length;
};

/* An empty index: 32. */
uint8_t twin_index(uint8_t *index, size_t room);

/* To what the capture has by now: 32, 52, 51. */
uint8_t twin_extend(uint8_t *index, size_t room, const uint8_t *capture,
                    size_t n, struct twin_entry *entries, size_t most);

/* The place of the first such entry at or after an offset, or TWIN_NONE: 32,
 * 51. */
uint8_t twin_first(const uint8_t *index, size_t room,
                   const struct twin_entry *entries, size_t most, uint16_t kind,
                   uint16_t sender, uint64_t offset, uint64_t *place);

/* The kept total: 32, 21. */
uint8_t twin_count(const uint8_t *index, size_t room, uint16_t kind,
                   uint64_t *count);

#endif

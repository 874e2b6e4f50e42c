/* Memory to lend, and whether a call has touched what it should not: each lent thing stands in a block of its own that has unreadable pages
 * around it, at its end, at its beginning, or away from both. Where no unreadable page is, GUARD bytes are. */
#ifndef LENT_H
#define LENT_H

#include <stdbool.h>
#include <stdint.h>
#include <stdio.h>
#include <stdlib.h>
#include <string.h>
#include <sys/mman.h>
#include <unistd.h>

enum { BLOCKS = 4, BLOCK = 1 << 20, GUARD = 64, GUARDED = 0xA5, FILLED = 0xEE };

struct block {
    uint8_t *start, *end; /* what can be read and written */
    uint8_t *at;          /* what is lent of it */
    size_t n;
    bool written;    /* else it is lent to be read alone, */
    uint8_t *before; /* and held this */
};

static struct block blocks[BLOCKS];
static unsigned lent; /* so many blocks in this request */

static void fail(const char *why) {
    fprintf(stderr, "driver: %s\n", why);
    exit(EXIT_FAILURE);
}

static void map_blocks(void) {
    size_t page = (size_t)sysconf(_SC_PAGESIZE);
    for (unsigned i = 0; i < BLOCKS; i++) {
        uint8_t *all = mmap(NULL, BLOCK + 2 * page, PROT_NONE, MAP_PRIVATE | MAP_ANONYMOUS, -1, 0);
        if (all == MAP_FAILED || mprotect(all + page, BLOCK, PROT_READ | PROT_WRITE) != 0) {
            fail("no memory");
        }
        blocks[i].start = all + page;
        blocks[i].end = all + page + BLOCK;
        blocks[i].before = malloc(BLOCK);
        if (blocks[i].before == NULL) {
            fail("no memory");
        }
    }
}

/* Memory of n bytes, at one of the three places by turns, with its guard bytes. */
static struct block *lend(size_t n, bool written) {
    static uint32_t turns = 1;
    if (lent == BLOCKS || n > BLOCK - 2 * GUARD) {
        fail("too much to lend");
    }
    struct block *b = &blocks[lent++];
    turns = turns * 1103515245 + 12345;
    switch (turns / 65536 % 3) {
    case 0: b->at = b->end - n; break;
    case 1: b->at = b->start; break;
    default: b->at = b->start + GUARD; break;
    }
    b->n = n;
    b->written = written;
    if (b->at > b->start) {
        memset(b->at - GUARD, GUARDED, GUARD);
    }
    if (b->at + n < b->end) {
        memset(b->at + n, GUARDED, GUARD);
    }
    return b;
}

static bool guarded(const uint8_t *bytes) {
    for (unsigned i = 0; i < GUARD; i++) {
        if (bytes[i] != GUARDED) {
            return false;
        }
    }
    return true;
}

/* Whether all guard bytes, and what was lent to be read alone, are as they were. */
static bool untouched(void) {
    for (unsigned i = 0; i < lent; i++) {
        const struct block *b = &blocks[i];
        if (b->at > b->start && !guarded(b->at - GUARD)) {
            return false;
        }
        if (b->at + b->n < b->end && !guarded(b->at + b->n)) {
            return false;
        }
        if (!b->written && memcmp(b->at, b->before, b->n) != 0) {
            return false;
        }
    }
    return true;
}

#endif

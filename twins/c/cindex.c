/* Reads a capture on standard input to its end, extends an index over it piece
 * by piece, and prints it: each entry with the place of the next like it, the
 * counts, and the position reached.
 * usage: cindex BYTES-OF-A-PIECE */
#include "index.h"

#include <inttypes.h>
#include <stdio.h>
#include <stdlib.h>

enum { MOST = 1 << 16 };

static uint8_t capture[MOST], bytes[TWIN_INDEX];
static struct twin_entry entries[MOST / 8];

static void print_entry(uint64_t held, const struct twin_entry *e)
{
    uint64_t place;
    printf("F %" PRIu64 " %d %d %d", e->offset, e->kind, e->sender, e->length);
    if (twin_first(bytes, sizeof bytes, entries, held, e->kind, e->sender,
                   e->offset + 1, &place) == 0)
        printf(" %" PRIu64, place);
    putchar('\n');
}

static void print_counts(void)
{
    for (uint32_t kind = 0; kind < 65536; kind++) {
        uint64_t count;
        if (twin_count(bytes, sizeof bytes, (uint16_t)kind, &count) == 0)
            printf("C %" PRIu32 " %" PRIu64 "\n", kind, count);
    }
}

int main(int argc, char **argv)
{
    size_t piece = argc > 1 ? (size_t)atoi(argv[1]) : 0;
    size_t length = fread(capture, 1, sizeof capture, stdin);
    if (ferror(stdin) || piece == 0)
        return 1;
    twin_index(bytes, sizeof bytes);
    for (size_t n = 0; n < length + piece; n += piece)
        if (twin_extend(bytes, sizeof bytes, capture, n < length ? n : length,
                        entries, MOST / 8) != 0)
            return 1;
    uint64_t reached = 0, held = 0;
    for (int i = 7; i >= 0; i--) {
        reached = reached << 8 | bytes[i];
        held = held << 8 | bytes[8 + i];
    }
    for (uint64_t i = 0; i < held; i++)
        print_entry(held, &entries[i]);
    print_counts();
    printf("T %" PRIu64 " %" PRIu64 "\n", reached, held);
    return fflush(stdout) == 0 ? 0 : 1;
}

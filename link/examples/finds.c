/* Finds the first frame of a type and sender that begins at an offset or after it, by an index of the file: finds FILE TYPE SENDER [OFFSET]
 * Prints F and the frame's offset, type, sender and length, or N for none; and where the type has a reading, C and how many frames of it there
 * are. An index that is kept answers any number of questions, and sbp_extend goes on with it once the capture has grown.
 * Exit status 0; 1 for trouble with a file; 2 for wrong use. */
#include "stream.h"

#include <stdlib.h>

/* Memory for so many bytes, with what was there in front. */
static void *grown(void *memory, size_t size) {
    void *larger = realloc(memory, size);
    if (larger == NULL) {
        exit(stream_trouble("finds", "memory"));
    }
    return larger;
}

/* The whole file, and its length in *n. */
static uint8_t *read_file(const char *path, size_t *n) {
    uint8_t *bytes = NULL;
    size_t room = 0;
    FILE *file = fopen(path, "rb");
    if (file == NULL) {
        exit(stream_trouble("finds", path));
    }
    *n = 0;
    do {
        room = 2 * room + 65536;
        bytes = (uint8_t *)grown(bytes, room);
        *n += fread(bytes + *n, 1, room - *n, file);
    } while (*n == room);
    if (ferror(file)) {
        exit(stream_trouble("finds", path));
    }
    fclose(file);
    return bytes;
}

/* A number of the command line, in decimal or after 0x. */
static uint64_t number(const char *word, uint64_t last) {
    char *end;
    errno = 0;
    const uint64_t value = strtoull(word, &end, strncmp(word, "0x", 2) == 0 ? 16 : 10);
    if (word[0] < '0' || word[0] > '9' || *end != '\0' || errno != 0 || value > last) {
        fprintf(stderr, "finds: '%s' is no number up to %" PRIu64 "\n", word, last);
        exit(2);
    }
    return value;
}

int main(int argc, char **argv) {
    uint8_t index[SBP_INDEX];
    uint64_t place, count;
    size_t n;
    if (argc < 4 || argc > 5) {
        fprintf(stderr, "usage: finds FILE TYPE SENDER [OFFSET]\n");
        return 2;
    }
    const uint16_t kind = (uint16_t)number(argv[2], UINT16_MAX), sender = (uint16_t)number(argv[3], UINT16_MAX);
    const uint64_t offset = argc == 5 ? number(argv[4], UINT64_MAX) : 0;
    uint8_t *capture = read_file(argv[1], &n);
    /* an entry for each 8 bytes, and so none of these calls is refused */
    const size_t most = n / 8 + 1;
    struct sbp_entry *entries = (struct sbp_entry *)grown(NULL, most * sizeof *entries);
    sbp_index(index, sizeof index);
    sbp_extend(index, sizeof index, capture, n, entries, most);
    free(capture); /* questions need the index alone */
    if (sbp_first(index, sizeof index, entries, most, kind, sender, offset, &place) == SBP_OK) {
        const struct sbp_entry *e = &entries[place];
        printf("F %" PRIu64 " %u %u %u\n", e->offset, (unsigned)e->kind, (unsigned)e->sender, (unsigned)e->length);
    } else {
        printf("N\n");
    }
    if (sbp_count(index, sizeof index, kind, &count) == SBP_OK) {
        printf("C %" PRIu64 "\n", count);
    }
    free(entries);
    return stream_printed() ? 0 : stream_trouble("finds", "standard output");
}

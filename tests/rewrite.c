/* Writes frames again with the library's own writers, one for each line of standard input; tests/tool_parts/objects.py makes these lines of what
 * `sbp json` printed. A line is a letter, the type, the sender, and how many numbers follow with these: W for sbp_write; O for sbp_write_obs, the
 * observations' numbers as a second such list; L for sbp_write_log, its level, its padding and the text's bytes; F for sbp_write_frame, its
 * payload's bytes.
 * Exit status 1 where a line is none of these or a writer refuses. */
#include <inttypes.h>
#include <stdio.h>
#include <stdlib.h>

#include "sbp.h"

static uint64_t number(void) {
    uint64_t n;
    if (scanf("%" SCNu64, &n) != 1) {
        fprintf(stderr, "rewrite: a number is missing\n");
        exit(1);
    }
    return n;
}

static size_t numbers(uint64_t *row, size_t most) {
    size_t n = (size_t)number();
    if (n > most) {
        fprintf(stderr, "rewrite: too many numbers\n");
        exit(1);
    }
    for (size_t i = 0; i < n; i++) {
        row[i] = number();
    }
    return n;
}

/* Numbers of a line: those before LOG's text, and the most of a text; a payload has fewer. OWN goes into no frame, since each has its sender. */
enum { LOG_HEAD = 2, MOST = LOG_HEAD + SBP_TEXT_MOST, OWN = 1228 };

int main(void) {
    uint64_t row[MOST], rows[SBP_OBSERVATIONS_MOST * SBP_OBSERVATION_FIELDS], size = 0;
    uint8_t frame[SBP_FRAME_MOST], bytes[MOST];
    char letter;
    while (scanf(" %c", &letter) == 1) {
        const uint16_t kind = (uint16_t)number();
        const uint32_t sender = (uint32_t)number();
        const size_t n = numbers(row, MOST);
        for (size_t i = 0; i < n; i++) {
            bytes[i] = (uint8_t)row[i];
        }
        uint8_t told = SBP_UNKNOWN_TYPE;
        if (letter == 'W') {
            told = sbp_write(frame, sizeof frame, kind, OWN, sender, row, n, &size);
        } else if (letter == 'O') {
            const size_t m = numbers(rows, sizeof rows / sizeof *rows);
            told = sbp_write_obs(frame, sizeof frame, kind, OWN, sender, row, n, rows, m, &size);
        } else if (letter == 'L' && n >= LOG_HEAD) {
            told = sbp_write_log(frame, sizeof frame, OWN, sender, bytes[0], bytes + LOG_HEAD, n - LOG_HEAD, row[1], &size);
        } else if (letter == 'F') {
            told = sbp_write_frame(frame, sizeof frame, kind, OWN, sender, bytes, n, &size);
        }
        if (told != SBP_OK || fwrite(frame, 1, (size_t)size, stdout) != size) {
            fprintf(stderr, "rewrite: %c %u: %u\n", letter, (unsigned)kind, (unsigned)told);
            return 1;
        }
    }
    return fflush(stdout) == 0 ? 0 : 1;
}

/* Follows a capture that grows and prints each frame as it comes, as sbplist does, after a position its time, fix and place, and after a line of
 * the device's log its level and text: grows FILE [SECONDS]
 * A file is followed until nothing came for so many seconds, without them for ever; a pipe until it is closed. The end prints the totals.
 * Exit status 0; 1 for trouble with a file; 2 for wrong use. */
#include "stream.h"

#include <math.h>
#include <stdlib.h>
#include <sys/stat.h>
#include <time.h>

static const char *fix_name(uint8_t fix) {
    switch (fix) {
    case SBP_FIX_SINGLE_POINT: return "single";
    case SBP_FIX_FLOAT: return "float";
    case SBP_FIX_FIXED: return "fixed";
    default: return "reserved";
    }
}

static void print_position(uint32_t tow, uint8_t fix, double a, double b, double c) {
    printf("P %" PRIu32 " %s %.17g %.17g %.17g\n", tow, fix_name(fix), a, b, c);
}

/* The zeros after the text are none of it. A line's end in it would begin a line of ours. */
static void print_log(const struct sbp_log *m, const uint8_t *text) {
    printf("L %u ", (unsigned)m->level);
    for (size_t i = 0; i < m->length; i++) {
        putchar(text[i] < ' ' ? ' ' : text[i]);
    }
    putchar('\n');
}

/* What flags mean is asked with the frame's type: 1 is fixed in POS_LLH and float in POS_ECEF. */
static void print_frame(const struct stream *s, const struct sbp_found *f) {
    uint64_t row[SBP_FIELDS_MOST];
    uint8_t answer = sbp_read(f->kind, stream_payload(s, f), f->length, row, SBP_FIELDS_MOST);
    printf("F %" PRIu64 " %u %u %u %u\n", s->before + f->at, (unsigned)f->kind, (unsigned)f->sender, (unsigned)f->length, (unsigned)answer);
    if (answer == SBP_OK && f->kind == SBP_MSG_POS_LLH) {
        const struct sbp_pos_llh m = sbp_pos_llh_of(row);
        print_position(m.tow, sbp_fix(f->kind, m.flags), m.lat, m.lon, m.height);
    }
    if (answer == SBP_OK && f->kind == SBP_MSG_POS_ECEF) {
        const struct sbp_pos_ecef m = sbp_pos_ecef_of(row);
        print_position(m.tow, sbp_fix(f->kind, m.flags), m.x, m.y, m.z);
    }
    if (answer == SBP_OK && f->kind == SBP_MSG_LOG) {
        const struct sbp_log m = sbp_log_of(row);
        print_log(&m, stream_payload(s, f) + 1);
    }
}

/* As stream_fill, but 0 only where nothing came for so long or no more can come. */
static ssize_t wait_for_more(struct stream *s, bool may_grow, double seconds) {
    const struct timespec tenth = {0, 100000000};
    ssize_t came = stream_fill(s);
    for (double waited = 0; came == 0 && may_grow && waited < seconds; waited += 0.1) {
        nanosleep(&tenth, NULL);
        came = stream_fill(s);
    }
    return came;
}

int main(int argc, char **argv) {
    static struct stream s;
    struct stat about;
    char *end = NULL;
    const double seconds = argc == 3 ? strtod(argv[2], &end) : HUGE_VAL;
    if (argc < 2 || argc > 3 || (end != NULL && (end == argv[2] || *end != '\0')) || !(seconds >= 0)) {
        fprintf(stderr, "usage: grows FILE [SECONDS]\n");
        return 2;
    }
    s.fd = open(argv[1], O_RDONLY);
    if (s.fd < 0 || fstat(s.fd, &about) != 0) {
        return stream_trouble("grows", argv[1]);
    }
    for (;;) {
        struct sbp_found f;
        if (stream_next(&s, &f) == SBP_FRAME) {
            print_frame(&s, &f);
        } else if (s.complete) {
            break;
        } else if (!stream_printed()) { /* what is known is shown before it waits */
            return stream_trouble("grows", "standard output");
        } else {
            ssize_t came = wait_for_more(&s, S_ISREG(about.st_mode), seconds);
            if (came < 0) {
                return stream_trouble("grows", argv[1]);
            }
            s.complete = came == 0;
        }
    }
    close(s.fd);
    stream_print_totals(&s);
    return stream_printed() ? 0 : stream_trouble("grows", "standard output");
}

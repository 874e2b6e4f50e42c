/* Prints the epochs of a capture of any length, its senders taken as they come, and its totals, all as sbplist does: epochs FILE
 * Exit status 0; 1 for trouble with a file; 2 for wrong use. */
#include "stream.h"

static void print_epoch(const struct sbp_report *e) {
    printf("E %u %u %" PRIu32 " %u %u\n", (unsigned)e->sender, (unsigned)e->wn, e->tow, (unsigned)e->n, (unsigned)e->observations);
}

int main(int argc, char **argv) {
    static struct stream s;
    uint8_t state[SBP_STATE], report[SBP_REPORT];
    if (argc != 2) {
        fprintf(stderr, "usage: epochs FILE\n");
        return 2;
    }
    s.fd = open(argv[1], O_RDONLY);
    if (s.fd < 0) {
        return stream_trouble("epochs", argv[1]);
    }
    /* memory of the sizes that the header names is never refused */
    sbp_growing(state, sizeof state);
    for (;;) {
        struct sbp_found f;
        if (stream_next(&s, &f) == SBP_FRAME) {
            sbp_enlist(state, sizeof state, f.kind, f.sender);
            if (sbp_feed(state, sizeof state, f.kind, f.sender, stream_payload(&s, &f), f.length, report, sizeof report) == SBP_EPOCH) {
                const struct sbp_report e = sbp_report_of(report);
                print_epoch(&e);
            }
        } else if (s.complete) {
            break;
        } else {
            ssize_t came = stream_fill(&s);
            if (came < 0) {
                return stream_trouble("epochs", argv[1]);
            }
            s.complete = came == 0;
        }
    }
    close(s.fd);
    stream_print_totals(&s);
    return stream_printed() ? 0 : stream_trouble("epochs", "standard output");
}

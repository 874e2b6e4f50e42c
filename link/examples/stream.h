/* A capture of any length, read through a buffer in which the bytes that are done with make room for those that come. To be included first. */
#ifndef STREAM_H
#define STREAM_H

#define _POSIX_C_SOURCE 200809L
#include <errno.h>
#include <fcntl.h>
#include <inttypes.h>
#include <stdio.h>
#include <unistd.h>

#include "sbp.h"

struct stream {
    int fd;
    bool complete;            /* no more comes */
    uint64_t before;          /* bytes of the capture that came before those at bytes */
    size_t n, at;             /* how many are there, and where the reading stands in them */
    struct sbp_counts counts; /* of all that was read so far */
    uint8_t bytes[1 << 16];   /* room for many frames; SBP_FRAME_MOST would do */
};

/* The next frame of what is there, or SBP_END, SBP_NEEDS where there is none. The reading is open until the capture is complete. */
static inline uint8_t stream_next(struct stream *s, struct sbp_found *f) {
    uint8_t row[SBP_FOUND];
    uint8_t told = sbp_next(s->bytes, s->n, s->at, !s->complete, row, sizeof row);
    *f = sbp_found_of(row);
    s->at = f->next;
    s->counts.junk += f->junk;
    s->counts.bad += f->bad;
    s->counts.short_ += f->short_;
    if (told == SBP_FRAME) {
        s->counts.framed += f->length + 8u;
    }
    return told;
}

/* The payload of a frame that was found, until the buffer is filled again. */
static inline const uint8_t *stream_payload(const struct stream *s, const struct sbp_found *f) {
    return s->bytes + f->at + 6;
}

/* More bytes of the capture: how many came, 0 where none are there now, -1 for an error, of which errno tells. */
static inline ssize_t stream_fill(struct stream *s) {
    memmove(s->bytes, s->bytes + s->at, s->n - s->at);
    s->before += s->at;
    s->n -= s->at;
    s->at = 0;
    ssize_t came;
    do {
        came = read(s->fd, s->bytes + s->n, sizeof s->bytes - s->n);
    } while (came < 0 && errno == EINTR);
    s->n += came > 0 ? (size_t)came : 0;
    return came;
}

/* Trouble with a file, in words, and the exit status that goes with it. */
static inline int stream_trouble(const char *program, const char *path) {
    fprintf(stderr, "%s: %s: %s\n", program, path, strerror(errno));
    return 1;
}

/* Whether all that was printed has gone out. */
static inline bool stream_printed(void) {
    return fflush(stdout) == 0 && !ferror(stdout);
}

/* The totals as sbplist prints them: length, bytes in frames, junk, bad, short. */
static inline void stream_print_totals(const struct stream *s) {
    const struct sbp_counts *t = &s->counts;
    printf("T %" PRIu64 " %" PRIu64 " %" PRIu64 " %" PRIu64 " %" PRIu64 "\n", s->before + s->n, t->framed, t->junk, t->bad, t->short_);
}

#endif

/* An index beside a capture, timed. */
#ifndef INDEXES_H
#define INDEXES_H

/* Of the capture: made in one pass and in a list that is measured first, and extended by its last KiB; and what making it anew would take. */
void time_indexing(int rounds);
/* In a million entries: the last, and none. */
void time_finding(int rounds);

#endif

/* A line of the table: the sides by turns. */
#ifndef TIMED_H
#define TIMED_H

#include <stddef.h>
#include <stdint.h>

enum { OURS, C, RUST, SLICED, FOLDED, SIDES };

typedef void (*side)(void);

/* What a call found, in numbers or as a text of told[0] bytes. All sides must find the same. */
extern uint64_t told[4];

/* Each side so many times a round; the last two may be NULL. A call goes over so many bytes or entries: gives our ns for one of them. */
double timed(const char *name, int rounds, int times, size_t over, const side sides[SIDES]);

#endif

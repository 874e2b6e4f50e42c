/* The captures that are timed: so many bytes, or for whole frames a few less, at capture, with their number in length. */
#ifndef CAPTURES_H
#define CAPTURES_H

#include <stddef.h>
#include <stdint.h>

enum { FRAME_MOST = 263 };

extern uint8_t *capture;
extern size_t length;

/* Epochs of a base and a rover, packet by packet, with positions between. */
void clean(size_t most);
/* The same with the packets of each epoch in any order, and in one epoch of eight a packet twice. */
void overtaken(size_t most);
/* Every kind of message by turns, all readable: ns and fix mode are 0, and four zeros pad the text of LOG. */
void mixed(size_t most);
/* LOGs of 80 bytes of text, with the same padding. */
void texts(size_t most);
void noise(size_t most);
/* Nothing but 0x55. */
void preambles(size_t most);
/* 0x55 and 0xFF by turns, five of each: every 0x55 begins a frame of the greatest length. */
void dearest(size_t most);

#endif

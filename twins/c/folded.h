/* CRC-16/XMODEM without a table: fast.h's sbp_crc in another form. */
#ifndef FOLDED_H
#define FOLDED_H

#include <stddef.h>
#include <stdint.h>

/* Begun at a start: 0, or the CRC of the bytes that come before. */
uint16_t folded_crc(uint16_t start, const uint8_t *bytes, size_t length);

#endif

/* Payloads as rows of 64-bit numbers, read and written; what flags say, and
 * carrier phase. Numbers given back are document 01's: 0, or a refusal, and
 * then nothing is written. */
#ifndef ROWS_H
#define ROWS_H

#include <stdbool.h>
#include <stddef.h>
#include <stdint.h>

/* The numbers of a GPS ephemeris, which no row has more of. */
enum { TWIN_FIELDS_MOST = 32 };

/* A number for each field in order: unsigned as it is, signed sign-extended,
 * a double as its bits. OBS: tow, wn, n_obs, k. LOG: level, text length,
 * padding. 21, 22, 23, 32. */
uint8_t twin_read(uint16_t kind, const uint8_t *payload, size_t n,
                  uint64_t *row, size_t room);

/* The eight numbers of one observation: 21, 22, 25, 32. */
uint8_t twin_observation(uint16_t kind, const uint8_t *payload, size_t n,
                         size_t index, uint64_t *row, size_t room);

/* The frame of a message without a tail: 21, 22, 23, 32. Here and below a
 * sender above 65535 is none given: the frame then goes out under the
 * recorder's own number, or as 0x42 where its type is 0x00A1 or 0x00A2. */
uint8_t twin_write(uint8_t *out, size_t room, uint16_t kind, uint16_t own,
                   uint32_t sender, const uint64_t *row, size_t fields,
                   uint64_t *size);

/* tow, wn and n_obs, then eight numbers an observation: 21, 22, 23, 31, 32. */
uint8_t twin_write_obs(uint8_t *out, size_t room, uint16_t kind, uint16_t own,
                       uint32_t sender, const uint64_t *head, size_t fields,
                       const uint64_t *rows, size_t numbers, uint64_t *size);

/* n bytes of text, then the padding's zeros: 23 for a zero in the text, 31,
 * 32. */
uint8_t twin_write_log(uint8_t *out, size_t room, uint16_t own, uint32_t sender,
                       uint8_t level, const uint8_t *text, size_t n,
                       size_t padding, uint64_t *size);

/* 31, 32. */
uint8_t twin_write_frame(uint8_t *out, size_t room, uint16_t kind, uint16_t own,
                         uint32_t sender, const uint8_t *payload, size_t n,
                         uint64_t *size);

/* 0 single point, 1 float, 2 fixed, 3 none of them; 21 for a type without. */
uint8_t twin_fix(uint16_t kind, uint8_t flags);

/* 0 or 1; 21 for a type without. */
uint8_t twin_raim_available(uint16_t kind, uint8_t flags);
uint8_t twin_raim_repaired(uint16_t kind, uint8_t flags);
uint8_t twin_above_sea(uint16_t kind, uint8_t flags);

/* HEARTBEAT's. */
bool twin_system_error(uint32_t flags);
bool twin_io_error(uint32_t flags);
bool twin_nap_error(uint32_t flags);
bool twin_external_antenna(uint32_t flags);

/* In 1/256 cycle, and the one pair: 33. */
int64_t twin_carrier_phase(int32_t l_i, uint8_t l_f);
uint8_t twin_phase_parts(int64_t phase, int32_t *l_i, uint8_t *l_f);

#endif

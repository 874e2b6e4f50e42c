/* SBP 1.1 (Swift Navigation Binary Protocol) for C and C++: frames, messages read and written, observation epochs, listings,
 * an index beside a capture. A proved library.
 *
 * A frame is the byte 0x55, a type and a sender of 16 bits, a length N of 8 bits, N bytes of payload and a CRC of 16 bits, all little-endian:
 * N + 8 bytes. A payload of a type that is named below has fields; every type, named or not, may stand in a frame.
 *
 * Every function ends, on any input, and changes nothing but the memory that it is lent to write. What the caller keeps is said at each: that
 * a pointer and its length agree (so many bytes or numbers are there, for the length of the call), that memory lent to be written overlaps no
 * other argument, and that a pointer to uint16_t, int32_t, uint64_t or a struct is aligned. A length of 0 may come with any pointer.
 *
 * A function that can refuse answers with a uint8_t: 0 or another small number where it was done, or one of the refusals below. A refusal
 * writes nothing: no buffer, no row, no size, no state. Where several hold, it is the first in the order in which the function names them. */
#ifndef SBP_H
#define SBP_H

#include <stdbool.h>
#include <stddef.h>
#include <stdint.h>

#if SIZE_MAX != UINT64_MAX
#error "sbp.h: the library is for processors with a size_t of 8 bytes"
#endif

#include <string.h>

#ifdef __cplusplus
extern "C" {
#endif

/* ---- names */

/* This header's version; sbp_version tells the library's in the same form. */
#define SBP_VERSION_MAJOR 0
#define SBP_VERSION_MINOR 14
#define SBP_VERSION_PATCH 0
#define SBP_VERSION (10000 * SBP_VERSION_MAJOR + 100 * SBP_VERSION_MINOR + SBP_VERSION_PATCH)

/* The types that have a reading. */
#define SBP_MSG_BASE_POS_LLH 0x0044
#define SBP_MSG_BASE_POS_ECEF 0x0048
#define SBP_MSG_OBS 0x0049
#define SBP_MSG_EPHEMERIS_GPS 0x0081
#define SBP_MSG_EPHEMERIS_SBAS 0x0082
#define SBP_MSG_EPHEMERIS_GLO 0x0083
#define SBP_MSG_IONO 0x0090
#define SBP_MSG_SV_CONFIGURATION_GPS 0x0091
#define SBP_MSG_GROUP_DELAY 0x0092
#define SBP_MSG_SETTINGS_SAVE 0x00A1
#define SBP_MSG_SETTINGS_READ_BY_INDEX_REQ 0x00A2
#define SBP_MSG_SETTINGS_READ_BY_INDEX_DONE 0x00A6
#define SBP_MSG_GPS_TIME 0x0100
#define SBP_MSG_POS_ECEF 0x0200
#define SBP_MSG_POS_LLH 0x0201
#define SBP_MSG_BASELINE_ECEF 0x0202
#define SBP_MSG_BASELINE_NED 0x0203
#define SBP_MSG_VEL_ECEF 0x0204
#define SBP_MSG_VEL_NED 0x0205
#define SBP_MSG_DOPS 0x0206
#define SBP_MSG_BASELINE_HEADING 0x0207
#define SBP_MSG_LOG 0x0401
#define SBP_MSG_STARTUP 0xFF00
#define SBP_MSG_HEARTBEAT 0xFFFF

/* For the sender of a frame to write, this (as any number above 65535) means that none is given. */
#define SBP_NO_SENDER 0x10000

/* Done; of sbp_next: a frame, the end, more bytes are needed; of sbp_feed: taken, and taken with an epoch ended; of
 * sbp_first: found, and SBP_END for none. */
#define SBP_OK 0
#define SBP_FRAME 0
#define SBP_END 1
#define SBP_NEEDS 2
#define SBP_TAKEN 0
#define SBP_EPOCH 1

/* Refusals. */
#define SBP_TOO_LONG 11            /* a capture to be listed is over 65536 bytes */
#define SBP_UNKNOWN_TYPE 21        /* the type has no such reading, writing or flag */
#define SBP_WRONG_LENGTH 22        /* a payload's length, or a number of fields, is not the type's */
#define SBP_OUT_OF_RANGE 23        /* a field is outside its range, a number is none that its field can hold, or LOG's text has a zero in it */
#define SBP_NO_SUCH_OBSERVATION 25 /* the index is not below the number of observations */
#define SBP_TOO_MUCH 31            /* a payload to write would be over 255 bytes, or have over 15 observations */
#define SBP_NO_ROOM 32             /* lent memory is too short */
#define SBP_PHASE_OUT_OF_RANGE 33  /* a carrier phase has no parts */
#define SBP_WRONG_ROSTER 41        /* a roster is empty, or has over 8 senders */
#define SBP_SENDER_TWICE 42        /* a roster has a sender twice */
#define SBP_NOT_LISTED 43          /* the frame's sender is not on the roster */
#define SBP_NO_PACKETS 44          /* the frame says that its epoch has 0 packets */
#define SBP_WRONG_COUNTER 45       /* the frame's counter is not below its epoch's number of packets */
#define SBP_NOT_OBS 46             /* the frame fed is not OBS */
#define SBP_COPY 47                /* the frame's counter has come already in the epoch that its sender has open */
#define SBP_LIST_SHORT 51          /* the list is shorter than the frames that it has to hold */
#define SBP_CAPTURE_SHORT 52       /* the capture is shorter than the position that its index has reached */

/* What sbp_fix answers. */
#define SBP_FIX_SINGLE_POINT 0
#define SBP_FIX_FLOAT 1
#define SBP_FIX_FIXED 2
#define SBP_FIX_RESERVED 3

/* Bytes of the rows, of a collator's state and of an index's numbers. */
#define SBP_FOUND 53
#define SBP_TOTALS 32
#define SBP_STATE 113
#define SBP_REPORT 11
#define SBP_INDEX 208

/* The most of each: bytes of a payload, of a frame and of LOG's text with its padding, observations in a frame, senders on a roster. */
#define SBP_PAYLOAD_MOST 255
#define SBP_FRAME_MOST 263
#define SBP_TEXT_MOST 254
#define SBP_OBSERVATIONS_MOST 15
#define SBP_ROSTER_MOST 8

/* How many numbers sbp_read gives for each type, and how many at most. */
#define SBP_BASE_POS_LLH_FIELDS 3
#define SBP_BASE_POS_ECEF_FIELDS 3
#define SBP_OBS_FIELDS 4
#define SBP_EPHEMERIS_GPS_FIELDS 32
#define SBP_EPHEMERIS_SBAS_FIELDS 20
#define SBP_EPHEMERIS_GLO_FIELDS 20
#define SBP_IONO_FIELDS 10
#define SBP_SV_CONFIGURATION_GPS_FIELDS 3
#define SBP_GROUP_DELAY_FIELDS 7
#define SBP_SETTINGS_SAVE_FIELDS 0
#define SBP_READ_BY_INDEX_REQ_FIELDS 1
#define SBP_READ_BY_INDEX_DONE_FIELDS 0
#define SBP_GPS_TIME_FIELDS 4
#define SBP_POS_ECEF_FIELDS 7
#define SBP_POS_LLH_FIELDS 8
#define SBP_BASELINE_ECEF_FIELDS 7
#define SBP_BASELINE_NED_FIELDS 8
#define SBP_VEL_ECEF_FIELDS 7
#define SBP_VEL_NED_FIELDS 8
#define SBP_DOPS_FIELDS 6
#define SBP_BASELINE_HEADING_FIELDS 4
#define SBP_LOG_FIELDS 3
#define SBP_STARTUP_FIELDS 1
#define SBP_HEARTBEAT_FIELDS 1
#define SBP_FIELDS_MOST 32

/* How many of these a part takes that several messages have. */
#define SBP_TIME_OF_WEEK_FIELDS 2
#define SBP_SATELLITE_FIELDS 3
#define SBP_EPHEMERIS_COMMON_FIELDS 9
#define SBP_MOTION_FIELDS 9

/* Of OBS: the numbers of the header that sbp_write_obs takes, and those of one observation. */
#define SBP_OBS_HEAD 3
#define SBP_OBSERVATION_FIELDS 8

/* ---- frames */

/* The version of the library that is linked: 10000 * major + 100 * minor + patch. */
uint32_t sbp_version(void);

/* The CRC of n bytes, begun at start: 0, or what the bytes before them came to. So it may be taken in parts, empty ones too:
 * sbp_crc(sbp_crc(0, a, m), b, n) is that of m bytes at a and then n at b. A frame's is that of all between the 0x55 and the CRC, begun at 0.
 * The caller keeps: n bytes are at bytes. */
uint16_t sbp_crc(uint16_t start, const uint8_t *bytes, size_t n);

/* The CRC of a frame whose header and payload lie in two buffers, which is to be the frame's last two bytes: that of the header but for its first
 * byte, and then of the payload. A frame's header is six bytes: the 0x55, type, sender and length. Any lengths are taken as they are, and no byte
 * is compared.
 * The caller keeps: header_n bytes are at header, and n at payload. */
uint16_t sbp_frame_crc(const uint8_t *header, size_t header_n, const uint8_t *payload, size_t n);

/* The next frame of a capture from a position on. Bytes other than 0x55 are passed over as junk; a 0x55 whose frame does not fit its CRC is
 * passed over as bad, that byte alone, for a frame may begin in what follows. Where the capture ends before the frame does: in closed reading
 * (opened false: the capture is complete) the byte is passed over as short, and in open reading (more may come) it stops and says how many
 * bytes are needed. What open reading has shown stays: of a longer capture that begins with this one it shows the same frames first, and going on
 * from next finds what starting over comes to. Closed reading of a capture that goes on may take frames back.
 * SBP_FRAME, SBP_END or SBP_NEEDS, and found[0 .. SBP_FOUND] has the row of sbp_found; or SBP_NO_ROOM: room is below SBP_FOUND.
 * The caller keeps: n bytes are at capture, and room bytes, that are no part of them, to write at found. at may be any number. */
uint8_t sbp_next(const uint8_t *capture, size_t n, size_t at, bool opened, uint8_t *found, size_t room);

/* The counts of a whole complete capture: SBP_OK, and counts[0 .. SBP_TOTALS] has the row of sbp_counts; or SBP_NO_ROOM: room is below
 * SBP_TOTALS.
 * The caller keeps: n bytes are at capture, and room bytes, that are no part of them, to write at counts. */
uint8_t sbp_totals(const uint8_t *capture, size_t n, uint8_t *counts, size_t room);

/* The listing of a capture of up to 65536 bytes, as the program sbplist prints it: SBP_OK, and its length in *size; or SBP_TOO_LONG,
 * SBP_NO_ROOM. 8 * n + 32 bytes have room for every listing.
 * The caller keeps: n bytes are at capture, room bytes to write at text, and size points to an aligned uint64_t; none overlaps another. */
uint8_t sbp_list(const uint8_t *capture, size_t n, uint8_t *text, size_t room, uint64_t *size);

/* ---- messages read */

/* What a payload of that type answers: SBP_OK, or SBP_UNKNOWN_TYPE, SBP_WRONG_LENGTH, SBP_OUT_OF_RANGE.
 * The caller keeps: n bytes are at payload. */
uint8_t sbp_answer(uint16_t kind, const uint8_t *payload, size_t n);

/* A payload's fields: one number for each, in order, from row[0] on: unsigned ones as they are, signed ones with their sign extended to 64 bits,
 * doubles as their bit pattern. OBS gives tow, wn, n_obs and the number of observations; LOG its level, the length of its text, which stands in
 * the payload from its second byte on and ends before the first zero, and how many zeros stand after it: another byte among them is
 * SBP_OUT_OF_RANGE. The structs below have a function from a row.
 * SBP_OK; or what sbp_answer answers, SBP_NO_ROOM: room is below the number of fields (SBP_FIELDS_MOST have room for every type).
 * The caller keeps: n bytes are at payload, and room aligned uint64_t, that are no part of them, to write at row. */
uint8_t sbp_read(uint16_t kind, const uint8_t *payload, size_t n, uint64_t *row, size_t room);

/* One observation of an OBS payload, the first having index 0: SBP_OK, and SBP_OBSERVATION_FIELDS numbers from row[0] on; or SBP_UNKNOWN_TYPE:
 * kind is not OBS, SBP_WRONG_LENGTH, SBP_NO_SUCH_OBSERVATION, SBP_NO_ROOM.
 * The caller keeps: n bytes are at payload, and room aligned uint64_t, that are no part of them, to write at row. index may be any number. */
uint8_t sbp_observation(uint16_t kind, const uint8_t *payload, size_t n, size_t index, uint64_t *row, size_t room);

/* ---- what flags mean. kind is the type of the message that the flags stand in, for the tables differ. */

/* SBP_FIX_SINGLE_POINT, SBP_FIX_FLOAT or SBP_FIX_FIXED by the message's own table, and SBP_FIX_RESERVED for a mode that its table leaves out;
 * SBP_UNKNOWN_TYPE for another type than POS_ECEF, POS_LLH, BASELINE_ECEF, BASELINE_NED and BASELINE_HEADING. */
uint8_t sbp_fix(uint16_t kind, uint8_t flags);

/* RAIM, of the same types: whether it was available, and whether it repaired the solution: 0 or 1; or SBP_UNKNOWN_TYPE. */
uint8_t sbp_raim_available(uint16_t kind, uint8_t flags);
uint8_t sbp_raim_repaired(uint16_t kind, uint8_t flags);

/* Of POS_LLH: 1 where its height is above mean sea level, 0 where it is above the ellipsoid; SBP_UNKNOWN_TYPE for another type. */
uint8_t sbp_above_sea(uint16_t kind, uint8_t flags);

/* Of HEARTBEAT: whether there is an error in the system, in input or output, in the SwiftNAP; and whether an external antenna is there. */
bool sbp_system_error(uint32_t flags);
bool sbp_io_error(uint32_t flags);
bool sbp_nap_error(uint32_t flags);
bool sbp_external_antenna(uint32_t flags);

/* The carrier phase of an observation in 1/256 cycle, from whole cycles and the part above them. */
int64_t sbp_carrier_phase(int32_t l_i, uint8_t l_f);

/* The one pair of parts of a carrier phase: SBP_OK and *l_i, *l_f; or SBP_PHASE_OUT_OF_RANGE: outside -549755813888 .. 549755813887.
 * The caller keeps: l_i points to an aligned int32_t and l_f to a byte that is no part of it. */
uint8_t sbp_phase_parts(int64_t phase, int32_t *l_i, uint8_t *l_f);

/* ---- frames written, from out[0] on; what stands after the frame is left as it was. SBP_FRAME_MOST bytes have room for every frame.
 *
 * Who sends: own is the number of the recorder that writes, which may be any. Where no sender is given (SBP_NO_SENDER) the frame goes out under
 * own; but one of type SETTINGS_READ_BY_INDEX_REQ, which devices answer from 0x42 alone, or SETTINGS_SAVE goes out as 0x42 then, whichever function
 * writes it. A sender that is given is used as it is, whatever the type, 0 and 0x42 too. Other types that devices obey from 0x42 alone, as a
 * settings write (0x00A0), need it given. */

/* A message without text or observations, from a row as sbp_read gives it, under own or sender: SBP_OK, and the frame's length in *size; or
 * SBP_UNKNOWN_TYPE: no such type, or OBS or LOG, SBP_WRONG_LENGTH: fields is not the type's number of fields, SBP_OUT_OF_RANGE, SBP_NO_ROOM.
 * Ranges: GPS_TIME's ns from -500000 to 500000; the low three bits of flags at most 2 in POS_ECEF and POS_LLH, at most 1 in BASELINE_ECEF,
 * BASELINE_NED and BASELINE_HEADING. Other fields take all that they can hold.
 * The caller keeps: room bytes to write are at out, fields aligned uint64_t at row, and size points to an aligned uint64_t; none overlaps
 * another. */
uint8_t sbp_write(uint8_t *out, size_t room, uint16_t kind, uint16_t own, uint32_t sender, const uint64_t *row, size_t fields, uint64_t *size);

/* OBS under own or sender: tow, wn and n_obs at head (fields is SBP_OBS_HEAD), and at rows SBP_OBSERVATION_FIELDS numbers for each observation
 * (numbers counts them all): SBP_OK, and the frame's length in *size; or SBP_UNKNOWN_TYPE: kind is not OBS, SBP_WRONG_LENGTH: one of the two counts,
 * SBP_OUT_OF_RANGE, SBP_TOO_MUCH: over 15 observations, SBP_NO_ROOM.
 * The caller keeps: room bytes to write are at out, so many aligned uint64_t at head and rows, and size points to an aligned uint64_t; what is
 * written overlaps nothing else. */
uint8_t sbp_write_obs(uint8_t *out, size_t room, uint16_t kind, uint16_t own, uint32_t sender, const uint64_t *head, size_t fields,
                      const uint64_t *rows, size_t numbers, uint64_t *size);

/* LOG under own or sender, with n bytes of text and so many zeros after it as padding says: SBP_OK, and the frame's length in *size; or
 * SBP_OUT_OF_RANGE: a zero in the text, SBP_TOO_MUCH: n + padding is over SBP_TEXT_MOST, SBP_NO_ROOM.
 * The caller keeps: room bytes to write are at out, n bytes at text, and size points to an aligned uint64_t; none overlaps another. padding may
 * be any number. */
uint8_t sbp_write_log(uint8_t *out, size_t room, uint16_t own, uint32_t sender, uint8_t level, const uint8_t *text, size_t n, size_t padding,
                      uint64_t *size);

/* A frame of any type with any payload, under own or sender: SBP_OK, and the frame's length in *size; or SBP_TOO_MUCH: n is over SBP_PAYLOAD_MOST,
 * SBP_NO_ROOM.
 * The caller keeps: room bytes to write are at out, n bytes at payload, and size points to an aligned uint64_t; none overlaps another. */
uint8_t sbp_write_frame(uint8_t *out, size_t room, uint16_t kind, uint16_t own, uint32_t sender, const uint8_t *payload, size_t n, uint64_t *size);

/* ---- epochs. The upper four bits of n_obs are the number n of an epoch's packets, the lower four a packet's counter i. An epoch of a sender is n
 * packets with the same tow, wn and n and with the counters 0 to n - 1, which may come in any order. A sender has at most one epoch open. Where
 * none is open, any packet opens one. A packet with another tow, wn or n drops the open epoch and opens its own. One whose counter has come already
 * in the open epoch is a copy, and does not count. The epoch ends with the packet that brings the last of its counters; a copy that comes after
 * that opens an epoch again. Every number is an ordinary sender, 0 too, and no sender's packets count for another. */

/* A fresh collator in SBP_STATE bytes, for a roster of n senders: SBP_OK; or SBP_WRONG_ROSTER, SBP_SENDER_TWICE, SBP_NO_ROOM.
 * The caller keeps: room bytes to write are at state, and n aligned uint16_t, that are no part of them, at roster. */
uint8_t sbp_collator(uint8_t *state, size_t room, const uint16_t *roster, size_t n);

/* A fresh collator in SBP_STATE bytes that lists nobody, for a roster that takes senders as they come (sbp_enlist): SBP_OK; or SBP_NO_ROOM.
 * The caller keeps: room bytes to write are at state. */
uint8_t sbp_growing(uint8_t *state, size_t room);

/* To be called before sbp_feed with the same frame: where it is of type OBS, well-formed or not, its sender is listed if it is not yet and
 * fewer than SBP_ROSTER_MOST are. A ninth sender is not, and sbp_feed answers SBP_NOT_LISTED for it. SBP_OK; or SBP_NO_ROOM.
 * The caller keeps: room bytes to read and write are at state. */
uint8_t sbp_enlist(uint8_t *state, size_t room, uint16_t kind, uint16_t sender);

/* A frame fed to a collator: SBP_TAKEN; or SBP_EPOCH: it ended an epoch, and report[0 .. SBP_REPORT] has the row of sbp_report; or SBP_NO_ROOM
 * (state or report too short), SBP_NOT_OBS, SBP_WRONG_LENGTH, SBP_NOT_LISTED, SBP_NO_PACKETS, SBP_WRONG_COUNTER, SBP_COPY: its sender's open epoch
 * has a packet with this tow, wn, n and counter already. That one stays, whatever the copy holds. Of an epoch that is dropped nothing is told.
 * The caller keeps: room bytes to read and write are at state, n bytes at payload, report_room bytes to write at report; none overlaps another. */
uint8_t sbp_feed(uint8_t *state, size_t room, uint16_t kind, uint16_t sender, const uint8_t *payload, size_t n, uint8_t *report, size_t report_room);

/* ---- an index beside a capture: where each frame stands, how far open reading has come, and how many frames there are of each type that has a
 * reading. Its numbers are SBP_INDEX bytes, and its entries a list, one for each frame in the capture's order; the caller keeps both as the calls
 * left them. While the capture grows and keeps its earlier bytes, extending comes to the index that one made afresh would be. Frames with a
 * payload that is refused are frames. Any bytes and entries are taken: they are some index, by whose numbers a call goes. */

/* A frame: where it begins in the capture, its type, its sender, the length of its payload. The bytes between the fields are nobody's. */
struct sbp_entry {
    uint64_t offset;
    uint16_t kind;
    uint16_t sender;
    uint8_t length;
};

/* An index of nothing: SBP_OK, and index[0 .. SBP_INDEX] has the numbers of an empty list; or SBP_NO_ROOM.
 * The caller keeps: room bytes to write are at index. */
uint8_t sbp_index(uint8_t *index, size_t room);

/* Reads on in a capture, whole and from its start, where the index has stopped, in open reading: to the capture's end, or to a frame that has not
 * come whole. SBP_OK, and the entries of the frames that came stand after those that were held; or SBP_NO_ROOM: room is below SBP_INDEX,
 * SBP_CAPTURE_SHORT, SBP_LIST_SHORT: most is below the frames to hold afterwards, those that were held among them. A frame takes 8 bytes or more,
 * so that n / 8 entries have room for every capture of n bytes; a list with less room than that for the bytes that are left is measured first, by
 * reading them once more. All other entries stay as they are, to the byte.
 * The caller keeps: room bytes to read and write are at index, n bytes at capture, most aligned entries to write at entries; none overlaps
 * another. */
uint8_t sbp_extend(uint8_t *index, size_t room, const uint8_t *capture, size_t n, struct sbp_entry *entries, size_t most);

/* The first frame of a type and sender that begins at offset or after it: SBP_OK, and *place is where its entry stands in the list; or SBP_END:
 * none of the frames read so far is such, and *place stays as it is; or SBP_NO_ROOM, SBP_LIST_SHORT: most is below the frames held. Any type may
 * be asked for. It goes forward from the list's first entry each time.
 * The caller keeps: room bytes are at index, most aligned entries at entries, and place points to an aligned uint64_t that is no part of them. */
uint8_t sbp_first(const uint8_t *index, size_t room, const struct sbp_entry *entries, size_t most, uint16_t kind, uint16_t sender, uint64_t offset,
                  uint64_t *place);

/* How many frames of a type were read so far: SBP_OK, and their number in *count; or SBP_NO_ROOM, SBP_UNKNOWN_TYPE.
 * The caller keeps: room bytes are at index, and count points to an aligned uint64_t that is no part of them. */
uint8_t sbp_count(const uint8_t *index, size_t room, uint16_t kind, uint64_t *count);

/* ---- the rows of bytes, little-endian, as structs: X_of is made of a row */

/* Where a frame stands or, with no frame, the reading; where to go on; the bytes needed from there; the bytes passed over on the way, for each
 * reason; the frame's type, sender and payload length. Its payload starts at at + 6. */
struct sbp_found {
    uint64_t at, next, needed, junk, bad, short_;
    uint16_t kind, sender;
    uint8_t length;
};

/* The bytes in frames and those passed over, for each reason: together they are the capture's length. */
struct sbp_counts {
    uint64_t framed, junk, bad, short_;
};

/* An epoch: its sender, week and time of week in ms, and how many packets and observations it has. */
struct sbp_report {
    uint16_t sender, wn;
    uint32_t tow;
    uint8_t n;
    uint16_t observations;
};

/* An index: the position in the capture that its reading has reached, and how many entries are held. */
struct sbp_indexed {
    uint64_t reached, held;
};

/* The number in n bytes, at most 8. */
static inline uint64_t sbp_number(const uint8_t *bytes, unsigned n) {
    uint64_t value = 0;
    for (unsigned i = n; i > 0; i--) {
        value = value << 8 | bytes[i - 1];
    }
    return value;
}

static inline struct sbp_found sbp_found_of(const uint8_t row[SBP_FOUND]) {
    const struct sbp_found f = {
        sbp_number(row, 8), sbp_number(row + 8, 8), sbp_number(row + 16, 8),
        sbp_number(row + 24, 8), sbp_number(row + 32, 8), sbp_number(row + 40, 8),
        (uint16_t)sbp_number(row + 48, 2), (uint16_t)sbp_number(row + 50, 2), row[52],
    };
    return f;
}

static inline struct sbp_counts sbp_counts_of(const uint8_t row[SBP_TOTALS]) {
    const struct sbp_counts c = {sbp_number(row, 8), sbp_number(row + 8, 8), sbp_number(row + 16, 8), sbp_number(row + 24, 8)};
    return c;
}

static inline struct sbp_report sbp_report_of(const uint8_t row[SBP_REPORT]) {
    const struct sbp_report r = {
        (uint16_t)sbp_number(row, 2), (uint16_t)sbp_number(row + 2, 2), (uint32_t)sbp_number(row + 4, 4), row[8], (uint16_t)sbp_number(row + 9, 2),
    };
    return r;
}

static inline struct sbp_indexed sbp_indexed_of(const uint8_t index[SBP_INDEX]) {
    const struct sbp_indexed x = {sbp_number(index, 8), sbp_number(index + 8, 8)};
    return x;
}

/* A refusal's name without SBP_, as "OUT_OF_RANGE"; "" for a number that is none. */
static inline const char *sbp_refusal_name(uint8_t number) {
    switch (number) {
    case SBP_TOO_LONG: return "TOO_LONG";
    case SBP_UNKNOWN_TYPE: return "UNKNOWN_TYPE";
    case SBP_WRONG_LENGTH: return "WRONG_LENGTH";
    case SBP_OUT_OF_RANGE: return "OUT_OF_RANGE";
    case SBP_NO_SUCH_OBSERVATION: return "NO_SUCH_OBSERVATION";
    case SBP_TOO_MUCH: return "TOO_MUCH";
    case SBP_NO_ROOM: return "NO_ROOM";
    case SBP_PHASE_OUT_OF_RANGE: return "PHASE_OUT_OF_RANGE";
    case SBP_WRONG_ROSTER: return "WRONG_ROSTER";
    case SBP_SENDER_TWICE: return "SENDER_TWICE";
    case SBP_NOT_LISTED: return "NOT_LISTED";
    case SBP_NO_PACKETS: return "NO_PACKETS";
    case SBP_WRONG_COUNTER: return "WRONG_COUNTER";
    case SBP_NOT_OBS: return "NOT_OBS";
    case SBP_COPY: return "COPY";
    case SBP_LIST_SHORT: return "LIST_SHORT";
    case SBP_CAPTURE_SHORT: return "CAPTURE_SHORT";
    default: return "";
    }
}

/* ---- messages as structs: X_of is made of a row that sbp_read gave, X_row makes a row for sbp_write. tow is in ms of the GPS week wn. */

/* A signed field's number in a row, and back. */
static inline uint64_t sbp_extended(int32_t value) {
    return (uint64_t)(int64_t)value;
}

static inline int32_t sbp_signed(uint64_t number) {
    const uint32_t bits = (uint32_t)number;
    int32_t value;
    memcpy(&value, &bits, sizeof value);
    return value;
}

/* A double's number in a row, and back: its bits, so that NaN patterns and minus zero stay. */
static inline uint64_t sbp_bits(double value) {
    uint64_t bits;
    memcpy(&bits, &value, sizeof bits);
    return bits;
}

static inline double sbp_double(uint64_t bits) {
    double value;
    memcpy(&value, &bits, sizeof value);
    return value;
}

/* ns is what tow was rounded by. */
struct sbp_gps_time {
    uint16_t wn;
    uint32_t tow;
    int32_t ns;
    uint8_t flags;
};

static inline struct sbp_gps_time sbp_gps_time_of(const uint64_t row[SBP_GPS_TIME_FIELDS]) {
    const struct sbp_gps_time m = {(uint16_t)row[0], (uint32_t)row[1], sbp_signed(row[2]), (uint8_t)row[3]};
    return m;
}

static inline void sbp_gps_time_row(const struct sbp_gps_time *m, uint64_t row[SBP_GPS_TIME_FIELDS]) {
    const uint64_t fields[SBP_GPS_TIME_FIELDS] = {m->wn, m->tow, sbp_extended(m->ns), m->flags};
    memcpy(row, fields, sizeof fields);
}

/* Dilution of precision in hundredths: geometric, of position, time, horizontal, vertical. */
struct sbp_dops {
    uint32_t tow;
    uint16_t gdop, pdop, tdop, hdop, vdop;
};

static inline struct sbp_dops sbp_dops_of(const uint64_t row[SBP_DOPS_FIELDS]) {
    const struct sbp_dops m = {(uint32_t)row[0], (uint16_t)row[1], (uint16_t)row[2], (uint16_t)row[3], (uint16_t)row[4], (uint16_t)row[5]};
    return m;
}

static inline void sbp_dops_row(const struct sbp_dops *m, uint64_t row[SBP_DOPS_FIELDS]) {
    const uint64_t fields[SBP_DOPS_FIELDS] = {m->tow, m->gdop, m->pdop, m->tdop, m->hdop, m->vdop};
    memcpy(row, fields, sizeof fields);
}

/* x, y and z in m, accuracy in mm. */
struct sbp_pos_ecef {
    uint32_t tow;
    double x, y, z;
    uint16_t accuracy;
    uint8_t n_sats, flags;
};

static inline struct sbp_pos_ecef sbp_pos_ecef_of(const uint64_t row[SBP_POS_ECEF_FIELDS]) {
    const struct sbp_pos_ecef m = {
        (uint32_t)row[0], sbp_double(row[1]), sbp_double(row[2]), sbp_double(row[3]), (uint16_t)row[4], (uint8_t)row[5], (uint8_t)row[6],
    };
    return m;
}

static inline void sbp_pos_ecef_row(const struct sbp_pos_ecef *m, uint64_t row[SBP_POS_ECEF_FIELDS]) {
    const uint64_t fields[SBP_POS_ECEF_FIELDS] = {m->tow, sbp_bits(m->x), sbp_bits(m->y), sbp_bits(m->z), m->accuracy, m->n_sats, m->flags};
    memcpy(row, fields, sizeof fields);
}

/* lat and lon in degrees, height in m, the accuracies in mm. */
struct sbp_pos_llh {
    uint32_t tow;
    double lat, lon, height;
    uint16_t h_accuracy, v_accuracy;
    uint8_t n_sats, flags;
};

static inline struct sbp_pos_llh sbp_pos_llh_of(const uint64_t row[SBP_POS_LLH_FIELDS]) {
    const struct sbp_pos_llh m = {
        (uint32_t)row[0], sbp_double(row[1]), sbp_double(row[2]), sbp_double(row[3]),
        (uint16_t)row[4], (uint16_t)row[5], (uint8_t)row[6], (uint8_t)row[7],
    };
    return m;
}

static inline void sbp_pos_llh_row(const struct sbp_pos_llh *m, uint64_t row[SBP_POS_LLH_FIELDS]) {
    const uint64_t fields[SBP_POS_LLH_FIELDS] = {
        m->tow, sbp_bits(m->lat), sbp_bits(m->lon), sbp_bits(m->height), m->h_accuracy, m->v_accuracy, m->n_sats, m->flags,
    };
    memcpy(row, fields, sizeof fields);
}

/* From the base to the rover: x, y, z and accuracy in mm. */
struct sbp_baseline_ecef {
    uint32_t tow;
    int32_t x, y, z;
    uint16_t accuracy;
    uint8_t n_sats, flags;
};

static inline struct sbp_baseline_ecef sbp_baseline_ecef_of(const uint64_t row[SBP_BASELINE_ECEF_FIELDS]) {
    const struct sbp_baseline_ecef m = {
        (uint32_t)row[0], sbp_signed(row[1]), sbp_signed(row[2]), sbp_signed(row[3]), (uint16_t)row[4], (uint8_t)row[5], (uint8_t)row[6],
    };
    return m;
}

static inline void sbp_baseline_ecef_row(const struct sbp_baseline_ecef *m, uint64_t row[SBP_BASELINE_ECEF_FIELDS]) {
    const uint64_t fields[SBP_BASELINE_ECEF_FIELDS] = {
        m->tow, sbp_extended(m->x), sbp_extended(m->y), sbp_extended(m->z), m->accuracy, m->n_sats, m->flags,
    };
    memcpy(row, fields, sizeof fields);
}

/* In mm/s. */
struct sbp_vel_ecef {
    uint32_t tow;
    int32_t x, y, z;
    uint16_t accuracy;
    uint8_t n_sats, flags;
};

static inline struct sbp_vel_ecef sbp_vel_ecef_of(const uint64_t row[SBP_VEL_ECEF_FIELDS]) {
    const struct sbp_vel_ecef m = {
        (uint32_t)row[0], sbp_signed(row[1]), sbp_signed(row[2]), sbp_signed(row[3]), (uint16_t)row[4], (uint8_t)row[5], (uint8_t)row[6],
    };
    return m;
}

static inline void sbp_vel_ecef_row(const struct sbp_vel_ecef *m, uint64_t row[SBP_VEL_ECEF_FIELDS]) {
    const uint64_t fields[SBP_VEL_ECEF_FIELDS] = {
        m->tow, sbp_extended(m->x), sbp_extended(m->y), sbp_extended(m->z), m->accuracy, m->n_sats, m->flags,
    };
    memcpy(row, fields, sizeof fields);
}

/* From the base to the rover: north, east, down and the accuracies in mm. */
struct sbp_baseline_ned {
    uint32_t tow;
    int32_t n, e, d;
    uint16_t h_accuracy, v_accuracy;
    uint8_t n_sats, flags;
};

static inline struct sbp_baseline_ned sbp_baseline_ned_of(const uint64_t row[SBP_BASELINE_NED_FIELDS]) {
    const struct sbp_baseline_ned m = {
        (uint32_t)row[0], sbp_signed(row[1]), sbp_signed(row[2]), sbp_signed(row[3]),
        (uint16_t)row[4], (uint16_t)row[5], (uint8_t)row[6], (uint8_t)row[7],
    };
    return m;
}

static inline void sbp_baseline_ned_row(const struct sbp_baseline_ned *m, uint64_t row[SBP_BASELINE_NED_FIELDS]) {
    const uint64_t fields[SBP_BASELINE_NED_FIELDS] = {
        m->tow, sbp_extended(m->n), sbp_extended(m->e), sbp_extended(m->d), m->h_accuracy, m->v_accuracy, m->n_sats, m->flags,
    };
    memcpy(row, fields, sizeof fields);
}

/* In mm/s. */
struct sbp_vel_ned {
    uint32_t tow;
    int32_t n, e, d;
    uint16_t h_accuracy, v_accuracy;
    uint8_t n_sats, flags;
};

static inline struct sbp_vel_ned sbp_vel_ned_of(const uint64_t row[SBP_VEL_NED_FIELDS]) {
    const struct sbp_vel_ned m = {
        (uint32_t)row[0], sbp_signed(row[1]), sbp_signed(row[2]), sbp_signed(row[3]),
        (uint16_t)row[4], (uint16_t)row[5], (uint8_t)row[6], (uint8_t)row[7],
    };
    return m;
}

static inline void sbp_vel_ned_row(const struct sbp_vel_ned *m, uint64_t row[SBP_VEL_NED_FIELDS]) {
    const uint64_t fields[SBP_VEL_NED_FIELDS] = {
        m->tow, sbp_extended(m->n), sbp_extended(m->e), sbp_extended(m->d), m->h_accuracy, m->v_accuracy, m->n_sats, m->flags,
    };
    memcpy(row, fields, sizeof fields);
}

/* heading in 1/1000 degree from true north. */
struct sbp_baseline_heading {
    uint32_t tow, heading;
    uint8_t n_sats, flags;
};

static inline struct sbp_baseline_heading sbp_baseline_heading_of(const uint64_t row[SBP_BASELINE_HEADING_FIELDS]) {
    const struct sbp_baseline_heading m = {(uint32_t)row[0], (uint32_t)row[1], (uint8_t)row[2], (uint8_t)row[3]};
    return m;
}

static inline void sbp_baseline_heading_row(const struct sbp_baseline_heading *m, uint64_t row[SBP_BASELINE_HEADING_FIELDS]) {
    const uint64_t fields[SBP_BASELINE_HEADING_FIELDS] = {m->tow, m->heading, m->n_sats, m->flags};
    memcpy(row, fields, sizeof fields);
}

/* In degrees and m. */
struct sbp_base_pos_llh {
    double lat, lon, height;
};

static inline struct sbp_base_pos_llh sbp_base_pos_llh_of(const uint64_t row[SBP_BASE_POS_LLH_FIELDS]) {
    const struct sbp_base_pos_llh m = {sbp_double(row[0]), sbp_double(row[1]), sbp_double(row[2])};
    return m;
}

static inline void sbp_base_pos_llh_row(const struct sbp_base_pos_llh *m, uint64_t row[SBP_BASE_POS_LLH_FIELDS]) {
    const uint64_t fields[SBP_BASE_POS_LLH_FIELDS] = {sbp_bits(m->lat), sbp_bits(m->lon), sbp_bits(m->height)};
    memcpy(row, fields, sizeof fields);
}

/* In m. */
struct sbp_base_pos_ecef {
    double x, y, z;
};

static inline struct sbp_base_pos_ecef sbp_base_pos_ecef_of(const uint64_t row[SBP_BASE_POS_ECEF_FIELDS]) {
    const struct sbp_base_pos_ecef m = {sbp_double(row[0]), sbp_double(row[1]), sbp_double(row[2])};
    return m;
}

static inline void sbp_base_pos_ecef_row(const struct sbp_base_pos_ecef *m, uint64_t row[SBP_BASE_POS_ECEF_FIELDS]) {
    const uint64_t fields[SBP_BASE_POS_ECEF_FIELDS] = {sbp_bits(m->x), sbp_bits(m->y), sbp_bits(m->z)};
    memcpy(row, fields, sizeof fields);
}

/* OBS's header, and the number k of its observations, which sbp_read gives. The first SBP_OBS_HEAD numbers of its row are sbp_write_obs's head. */
struct sbp_obs {
    uint32_t tow;
    uint16_t wn;
    uint8_t n_obs, k;
};

static inline struct sbp_obs sbp_obs_of(const uint64_t row[SBP_OBS_FIELDS]) {
    const struct sbp_obs m = {(uint32_t)row[0], (uint16_t)row[1], (uint8_t)row[2], (uint8_t)row[3]};
    return m;
}

static inline void sbp_obs_row(const struct sbp_obs *m, uint64_t row[SBP_OBS_FIELDS]) {
    const uint64_t fields[SBP_OBS_FIELDS] = {m->tow, m->wn, m->n_obs, m->k};
    memcpy(row, fields, sizeof fields);
}

/* A satellite's number in its constellation; constellation, band and code of its signal. */
struct sbp_satellite {
    uint16_t sat;
    uint8_t code, reserved;
};

static inline struct sbp_satellite sbp_satellite_of(const uint64_t row[SBP_SATELLITE_FIELDS]) {
    const struct sbp_satellite m = {(uint16_t)row[0], (uint8_t)row[1], (uint8_t)row[2]};
    return m;
}

static inline void sbp_satellite_row(const struct sbp_satellite *m, uint64_t row[SBP_SATELLITE_FIELDS]) {
    const uint64_t fields[SBP_SATELLITE_FIELDS] = {m->sat, m->code, m->reserved};
    memcpy(row, fields, sizeof fields);
}

/* One observation, of sbp_observation and for sbp_write_obs: pseudorange P in 2 cm, carrier phase L in cycles and 1/256 cycle, cn0 in 1/4 dB Hz;
 * lock changes where the satellite was lost in between. */
struct sbp_observation_row {
    uint32_t P;
    struct {
        int32_t i;
        uint8_t f;
    } L;
    uint8_t cn0;
    uint16_t lock;
    struct sbp_satellite sid;
};

static inline struct sbp_observation_row sbp_observation_row_of(const uint64_t row[SBP_OBSERVATION_FIELDS]) {
    const struct sbp_observation_row m = {
        (uint32_t)row[0], {sbp_signed(row[1]), (uint8_t)row[2]}, (uint8_t)row[3], (uint16_t)row[4], sbp_satellite_of(row + 5),
    };
    return m;
}

static inline void sbp_observation_row_row(const struct sbp_observation_row *m, uint64_t row[SBP_OBSERVATION_FIELDS]) {
    const uint64_t fields[] = {m->P, sbp_extended(m->L.i), m->L.f, m->cn0, m->lock};
    memcpy(row, fields, sizeof fields);
    sbp_satellite_row(&m->sid, row + 5);
}

/* A time by GPS's clock. */
struct sbp_time_of_week {
    uint32_t tow;
    uint16_t wn;
};

static inline struct sbp_time_of_week sbp_time_of_week_of(const uint64_t row[SBP_TIME_OF_WEEK_FIELDS]) {
    const struct sbp_time_of_week m = {(uint32_t)row[0], (uint16_t)row[1]};
    return m;
}

static inline void sbp_time_of_week_row(const struct sbp_time_of_week *m, uint64_t row[SBP_TIME_OF_WEEK_FIELDS]) {
    row[0] = m->tow;
    row[1] = m->wn;
}

/* What every ephemeris begins with: its satellite; toe, the time that it is for; ura, the user range accuracy, in m; fit_interval in s; valid: 1
 * where it is valid, else 0; health: of GPS as in ICD-GPS-200, 20.3.3.3.1.4, of others 0 where the satellite is healthy. */
struct sbp_ephemeris_common {
    struct sbp_satellite sid;
    struct sbp_time_of_week toe;
    double ura;
    uint32_t fit_interval;
    uint8_t valid, health;
};

static inline struct sbp_ephemeris_common sbp_ephemeris_common_of(const uint64_t row[SBP_EPHEMERIS_COMMON_FIELDS]) {
    const struct sbp_ephemeris_common m = {
        sbp_satellite_of(row), sbp_time_of_week_of(row + 3), sbp_double(row[5]), (uint32_t)row[6], (uint8_t)row[7], (uint8_t)row[8],
    };
    return m;
}

static inline void sbp_ephemeris_common_row(const struct sbp_ephemeris_common *m, uint64_t row[SBP_EPHEMERIS_COMMON_FIELDS]) {
    const uint64_t after_toe[] = {sbp_bits(m->ura), m->fit_interval, m->valid, m->health};
    sbp_satellite_row(&m->sid, row);
    sbp_time_of_week_row(&m->toe, row + 3);
    memcpy(row + 5, after_toe, sizeof after_toe);
}

/* Position in m, velocity in m/s, acceleration in m/s^2. */
struct sbp_motion {
    double pos[3], vel[3], acc[3];
};

/* A double's number is its bits, so that a run of them is copied as it is. */
static inline struct sbp_motion sbp_motion_of(const uint64_t row[SBP_MOTION_FIELDS]) {
    struct sbp_motion m;
    memcpy(m.pos, row, sizeof m.pos);
    memcpy(m.vel, row + 3, sizeof m.vel);
    memcpy(m.acc, row + 6, sizeof m.acc);
    return m;
}

static inline void sbp_motion_row(const struct sbp_motion *m, uint64_t row[SBP_MOTION_FIELDS]) {
    memcpy(row, m->pos, sizeof m->pos);
    memcpy(row + 3, m->vel, sizeof m->vel);
    memcpy(row + 6, m->acc, sizeof m->acc);
}

/* The orbit of a GPS satellite by ICD-GPS-200, table 20-III: group delay tgd in s; amplitudes of harmonic corrections to the radius (c_rs, c_rc) in
 * m, to the argument of latitude (c_uc, c_us) and the inclination (c_ic, c_is) in rad; m0, omega0, w and inc in rad; dn, omegadot and inc_dot
 * in rad/s; sqrta in m^(1/2). Its clock: af0 in s, af1 in s/s, af2 in s/s^2 from toc on. Issues of data: iode, iodc. */
struct sbp_ephemeris_gps {
    struct sbp_ephemeris_common common;
    double tgd, c_rs, c_rc, c_uc, c_us, c_ic, c_is, dn, m0, ecc, sqrta, omega0, omegadot, w, inc, inc_dot, af0, af1, af2;
    struct sbp_time_of_week toc;
    uint8_t iode;
    uint16_t iodc;
};

static inline struct sbp_ephemeris_gps sbp_ephemeris_gps_of(const uint64_t row[SBP_EPHEMERIS_GPS_FIELDS]) {
    const struct sbp_ephemeris_gps m = {
        sbp_ephemeris_common_of(row),
        sbp_double(row[9]), sbp_double(row[10]), sbp_double(row[11]), sbp_double(row[12]), sbp_double(row[13]),
        sbp_double(row[14]), sbp_double(row[15]), sbp_double(row[16]), sbp_double(row[17]), sbp_double(row[18]),
        sbp_double(row[19]), sbp_double(row[20]), sbp_double(row[21]), sbp_double(row[22]), sbp_double(row[23]),
        sbp_double(row[24]), sbp_double(row[25]), sbp_double(row[26]), sbp_double(row[27]),
        sbp_time_of_week_of(row + 28), (uint8_t)row[30], (uint16_t)row[31],
    };
    return m;
}

static inline void sbp_ephemeris_gps_row(const struct sbp_ephemeris_gps *m, uint64_t row[SBP_EPHEMERIS_GPS_FIELDS]) {
    const uint64_t orbit[] = {
        sbp_bits(m->tgd), sbp_bits(m->c_rs), sbp_bits(m->c_rc), sbp_bits(m->c_uc), sbp_bits(m->c_us),
        sbp_bits(m->c_ic), sbp_bits(m->c_is), sbp_bits(m->dn), sbp_bits(m->m0), sbp_bits(m->ecc),
        sbp_bits(m->sqrta), sbp_bits(m->omega0), sbp_bits(m->omegadot), sbp_bits(m->w), sbp_bits(m->inc),
        sbp_bits(m->inc_dot), sbp_bits(m->af0), sbp_bits(m->af1), sbp_bits(m->af2),
    };
    sbp_ephemeris_common_row(&m->common, row);
    memcpy(row + 9, orbit, sizeof orbit);
    sbp_time_of_week_row(&m->toc, row + 28);
    row[30] = m->iode;
    row[31] = m->iodc;
}

/* The orbit of an SBAS satellite at toe; its clock against SBAS's network time: a_gf0 in s, a_gf1 in s/s. */
struct sbp_ephemeris_sbas {
    struct sbp_ephemeris_common common;
    struct sbp_motion motion;
    double a_gf0, a_gf1;
};

static inline struct sbp_ephemeris_sbas sbp_ephemeris_sbas_of(const uint64_t row[SBP_EPHEMERIS_SBAS_FIELDS]) {
    const struct sbp_ephemeris_sbas m = {sbp_ephemeris_common_of(row), sbp_motion_of(row + 9), sbp_double(row[18]), sbp_double(row[19])};
    return m;
}

static inline void sbp_ephemeris_sbas_row(const struct sbp_ephemeris_sbas *m, uint64_t row[SBP_EPHEMERIS_SBAS_FIELDS]) {
    sbp_ephemeris_common_row(&m->common, row);
    sbp_motion_row(&m->motion, row + 9);
    row[18] = sbp_bits(m->a_gf0);
    row[19] = sbp_bits(m->a_gf1);
}

/* The orbit of a GLONASS satellite in PZ-90.02; gamma, by how much of the nominal its frequency is off; tau in s, the correction to its time. */
struct sbp_ephemeris_glo {
    struct sbp_ephemeris_common common;
    double gamma, tau;
    struct sbp_motion motion;
};

static inline struct sbp_ephemeris_glo sbp_ephemeris_glo_of(const uint64_t row[SBP_EPHEMERIS_GLO_FIELDS]) {
    const struct sbp_ephemeris_glo m = {sbp_ephemeris_common_of(row), sbp_double(row[9]), sbp_double(row[10]), sbp_motion_of(row + 11)};
    return m;
}

static inline void sbp_ephemeris_glo_row(const struct sbp_ephemeris_glo *m, uint64_t row[SBP_EPHEMERIS_GLO_FIELDS]) {
    sbp_ephemeris_common_row(&m->common, row);
    row[9] = sbp_bits(m->gamma);
    row[10] = sbp_bits(m->tau);
    sbp_motion_row(&m->motion, row + 11);
}

/* The delay in the ionosphere by ICD-GPS-200, 20.3.3.5.1.7: a0 to a3 and b0 to b3, the one of index i in s/semicircle^i. */
struct sbp_iono {
    struct sbp_time_of_week t_nmct;
    double a[4], b[4];
};

static inline struct sbp_iono sbp_iono_of(const uint64_t row[SBP_IONO_FIELDS]) {
    struct sbp_iono m;
    m.t_nmct = sbp_time_of_week_of(row);
    memcpy(m.a, row + 2, sizeof m.a);
    memcpy(m.b, row + 6, sizeof m.b);
    return m;
}

static inline void sbp_iono_row(const struct sbp_iono *m, uint64_t row[SBP_IONO_FIELDS]) {
    sbp_time_of_week_row(&m->t_nmct, row);
    memcpy(row + 2, m->a, sizeof m->a);
    memcpy(row + 6, m->b, sizeof m->b);
}

/* l2c_mask: which satellites send L2C, number 1 in the lowest bit, 32 in the highest. */
struct sbp_sv_configuration_gps {
    struct sbp_time_of_week t_nmct;
    uint32_t l2c_mask;
};

static inline struct sbp_sv_configuration_gps sbp_sv_configuration_gps_of(const uint64_t row[SBP_SV_CONFIGURATION_GPS_FIELDS]) {
    const struct sbp_sv_configuration_gps m = {sbp_time_of_week_of(row), (uint32_t)row[2]};
    return m;
}

static inline void sbp_sv_configuration_gps_row(const struct sbp_sv_configuration_gps *m, uint64_t row[SBP_SV_CONFIGURATION_GPS_FIELDS]) {
    sbp_time_of_week_row(&m->t_nmct, row);
    row[2] = m->l2c_mask;
}

/* Group delays of the satellite prn in 2^-35 s; bits of valid say which hold, the lowest that of tgd, then in order. */
struct sbp_group_delay {
    struct sbp_time_of_week t_op;
    uint8_t prn, valid;
    int16_t tgd, isc_l1ca, isc_l2c;
};

static inline struct sbp_group_delay sbp_group_delay_of(const uint64_t row[SBP_GROUP_DELAY_FIELDS]) {
    const struct sbp_group_delay m = {
        sbp_time_of_week_of(row), (uint8_t)row[2], (uint8_t)row[3],
        (int16_t)sbp_signed(row[4]), (int16_t)sbp_signed(row[5]), (int16_t)sbp_signed(row[6]),
    };
    return m;
}

static inline void sbp_group_delay_row(const struct sbp_group_delay *m, uint64_t row[SBP_GROUP_DELAY_FIELDS]) {
    const uint64_t after_t_op[] = {m->prn, m->valid, sbp_extended(m->tgd), sbp_extended(m->isc_l1ca), sbp_extended(m->isc_l2c)};
    sbp_time_of_week_row(&m->t_op, row);
    memcpy(row + 2, after_t_op, sizeof after_t_op);
}

/* LOG's level (0 emergency, 1 alert, 2 critical, 3 error, 4 warning, 5 notice, 6 info, 7 debug), the length of its text, and how many zeros
 * stand after that. */
struct sbp_log {
    uint8_t level, length, padding;
};

static inline struct sbp_log sbp_log_of(const uint64_t row[SBP_LOG_FIELDS]) {
    const struct sbp_log m = {(uint8_t)row[0], (uint8_t)row[1], (uint8_t)row[2]};
    return m;
}

static inline void sbp_log_row(const struct sbp_log *m, uint64_t row[SBP_LOG_FIELDS]) {
    const uint64_t fields[SBP_LOG_FIELDS] = {m->level, m->length, m->padding};
    memcpy(row, fields, sizeof fields);
}

struct sbp_read_by_index_req {
    uint16_t index;
};

static inline struct sbp_read_by_index_req sbp_read_by_index_req_of(const uint64_t row[SBP_READ_BY_INDEX_REQ_FIELDS]) {
    const struct sbp_read_by_index_req m = {(uint16_t)row[0]};
    return m;
}

static inline void sbp_read_by_index_req_row(const struct sbp_read_by_index_req *m, uint64_t row[SBP_READ_BY_INDEX_REQ_FIELDS]) {
    row[0] = m->index;
}

struct sbp_startup {
    uint32_t reserved;
};

static inline struct sbp_startup sbp_startup_of(const uint64_t row[SBP_STARTUP_FIELDS]) {
    const struct sbp_startup m = {(uint32_t)row[0]};
    return m;
}

static inline void sbp_startup_row(const struct sbp_startup *m, uint64_t row[SBP_STARTUP_FIELDS]) {
    row[0] = m->reserved;
}

/* flags: sbp_system_error and the three after it say what they mean. */
struct sbp_heartbeat {
    uint32_t flags;
};

static inline struct sbp_heartbeat sbp_heartbeat_of(const uint64_t row[SBP_HEARTBEAT_FIELDS]) {
    const struct sbp_heartbeat m = {(uint32_t)row[0]};
    return m;
}

static inline void sbp_heartbeat_row(const struct sbp_heartbeat *m, uint64_t row[SBP_HEARTBEAT_FIELDS]) {
    row[0] = m->flags;
}

#ifdef __cplusplus
}
#endif

#endif

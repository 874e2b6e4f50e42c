#include "rows.h"

#include <string.h>

#include "fast.h"
#include "messages.h"

enum { PREAMBLE = 0x55, HEADER = 6, AROUND = 8 };
enum { CLIENT = 0x42, SETTINGS_SAVE = 0x00A1, READ_BY_INDEX_REQ = 0x00A2 };
enum { OBS = 0x0049, OBS_HEAD = 7, OBS_EACH = 16, OBS_MAX = 15 };
enum { LOG = 0x0401, LOG_TEXT_MAX = 254 };
enum { GPS_TIME_NS = 2 };

struct format {
    const char *letters;
    uint8_t fields;
    uint8_t length;
    uint8_t highest_mode;
};

#define FORMAT(letters, length, highest_mode)                                  \
    {letters, sizeof letters - 1, length, highest_mode}

static const struct format obs_head = FORMAT("421", OBS_HEAD, ANY_MODE);
static const struct format observation = FORMAT("4s112211", OBS_EACH, ANY_MODE);

/* For the messages without a tail; NULL for all else. */
static const struct format *format_of(uint16_t kind)
{
    switch (kind) {
#define MESSAGE(type, letters, length, highest_mode)                           \
    case type: {                                                               \
        static const struct format f = FORMAT(letters, length, highest_mode);  \
        return &f;                                                             \
    }
        SBP_MESSAGES(MESSAGE)
#undef MESSAGE
    default:
        return NULL;
    }
}

static inline uint64_t get(const uint8_t *p, unsigned bytes)
{
    uint64_t value = 0;
    for (unsigned i = 0; i < bytes; i++)
        value |= (uint64_t)p[i] << 8 * i;
    return value;
}

static inline uint8_t *put(uint8_t *p, uint64_t value, unsigned bytes)
{
    for (unsigned i = 0; i < bytes; i++)
        p[i] = (uint8_t)(value >> 8 * i);
    return p + bytes;
}

static void take_fields(const char *letters, const uint8_t *p, uint64_t *row)
{
    for (; *letters != 0; letters++) {
        switch (*letters) {
        case '1':
            *row++ = *p;
            p += 1;
            break;
        case '2':
            *row++ = get(p, 2);
            p += 2;
            break;
        case '4':
            *row++ = get(p, 4);
            p += 4;
            break;
        case 'h':
            *row++ = (uint64_t)(int64_t)(int16_t)(uint16_t)get(p, 2);
            p += 2;
            break;
        case 's':
            *row++ = (uint64_t)(int64_t)(int32_t)(uint32_t)get(p, 4);
            p += 4;
            break;
        default:
            *row++ = get(p, 8);
            p += 8;
        }
    }
}

static uint8_t *put_fields(const char *letters, const uint64_t *row, uint8_t *p)
{
    for (; *letters != 0; letters++) {
        switch (*letters) {
        case '1':
            *p++ = (uint8_t)*row++;
            break;
        case '2':
        case 'h':
            p = put(p, *row++, 2);
            break;
        case '8':
            p = put(p, *row++, 8);
            break;
        default:
            p = put(p, *row++, 4);
        }
    }
    return p;
}

/* Whether every number fits the width of its field. */
static bool fit(const char *letters, const uint64_t *row)
{
    for (; *letters != 0; letters++, row++) {
        switch (*letters) {
        case '1':
            if (*row > UINT8_MAX)
                return false;
            break;
        case '2':
            if (*row > UINT16_MAX)
                return false;
            break;
        case '4':
            if (*row > UINT32_MAX)
                return false;
            break;
        case 'h':
            /* Moved up by 2^15: that ends where the signed numbers do. */
            if (*row + 0x8000u > UINT16_MAX)
                return false;
            break;
        case 's':
            if (*row + 0x80000000u > UINT32_MAX)
                return false;
            break;
        default:
            break;
        }
    }
    return true;
}

/* From -500000 to 500000, both moved up by 500000; flags' low three bits. */
static bool in_range(const struct format *f, const uint64_t *row)
{
    if (f->highest_mode == NS_RANGE)
        return row[GPS_TIME_NS] + 500000u <= 1000000u;
    return f->highest_mode == ANY_MODE ||
           (row[f->fields - 1] & 7) <= f->highest_mode;
}

/* 16k + 7 with k from 0 to 15. */
static inline bool obs_length(size_t n)
{
    return n % OBS_EACH == OBS_HEAD && n <= OBS_HEAD + OBS_EACH * OBS_MAX;
}

/* How many bytes come before the first zero; n where there is none. */
static inline size_t before_zero(const uint8_t *text, size_t n)
{
    /* An empty text may be NULL, which memchr does not take. */
    const uint8_t *zero = n > 0 ? memchr(text, 0, n) : NULL;
    return zero != NULL ? (size_t)(zero - text) : n;
}

/* LOG's level, how long its text is, and the padding: 22, 23. */
static inline uint8_t take_log(const uint8_t *payload, size_t n, uint64_t *row)
{
    if (n == 0 || n > 1 + LOG_TEXT_MAX)
        return 22;
    size_t text = before_zero(payload + 1, n - 1);
    for (size_t i = 1 + text; i < n; i++)
        if (payload[i] != 0)
            return 23;
    row[0] = payload[0];
    row[1] = text;
    row[2] = n - 1 - text;
    return 0;
}

uint8_t twin_read(uint16_t kind, const uint8_t *payload, size_t n,
                  uint64_t *row, size_t room)
{
    uint64_t taken[TWIN_FIELDS_MOST];
    size_t fields;
    const struct format *f = format_of(kind);
    if (f != NULL) {
        if (n != f->length)
            return 22;
        take_fields(f->letters, payload, taken);
        if (!in_range(f, taken))
            return 23;
        fields = f->fields;
    } else if (kind == OBS) {
        if (!obs_length(n))
            return 22;
        take_fields(obs_head.letters, payload, taken);
        taken[3] = n / OBS_EACH;
        fields = 4;
    } else if (kind == LOG) {
        uint8_t no = take_log(payload, n, taken);
        if (no != 0)
            return no;
        fields = 3;
    } else {
        return 21;
    }
    if (room < fields)
        return 32;
    memcpy(row, taken, fields * sizeof *row);
    return 0;
}

uint8_t twin_observation(uint16_t kind, const uint8_t *payload, size_t n,
                         size_t index, uint64_t *row, size_t room)
{
    if (kind != OBS)
        return 21;
    if (!obs_length(n))
        return 22;
    if (index >= n / OBS_EACH)
        return 25;
    if (room < observation.fields)
        return 32;
    take_fields(observation.letters, payload + OBS_HEAD + OBS_EACH * index, row);
    return 0;
}

/* The number that a frame goes out under. Devices obey settings from 0x42
 * alone. */
static uint16_t sent_as(uint16_t kind, uint16_t own, uint32_t sender)
{
    if (sender <= UINT16_MAX)
        return (uint16_t)sender;
    return kind == SETTINGS_SAVE || kind == READ_BY_INDEX_REQ ? CLIENT : own;
}

/* The six bytes before a payload; gives the place after them. */
static uint8_t *put_header(uint8_t *out, uint16_t kind, uint16_t own,
                           uint32_t sender, size_t n)
{
    out[0] = PREAMBLE;
    put(out + 1, kind, 2);
    put(out + 3, sent_as(kind, own, sender), 2);
    out[5] = (uint8_t)n;
    return out + HEADER;
}

/* The CRC of type through payload, after a payload of n bytes. */
static uint8_t seal(uint8_t *out, size_t n, uint64_t *size)
{
    put(out + HEADER + n, sbp_crc(0, out + 1, HEADER - 1 + n), 2);
    *size = n + AROUND;
    return 0;
}

uint8_t twin_write(uint8_t *out, size_t room, uint16_t kind, uint16_t own,
                   uint32_t sender, const uint64_t *row, size_t fields,
                   uint64_t *size)
{
    const struct format *f = format_of(kind);
    if (f == NULL)
        return 21;
    if (fields != f->fields)
        return 22;
    if (!fit(f->letters, row) || !in_range(f, row))
        return 23;
    if (room < (size_t)f->length + AROUND)
        return 32;
    put_fields(f->letters, row, put_header(out, kind, own, sender, f->length));
    return seal(out, f->length, size);
}

uint8_t twin_write_obs(uint8_t *out, size_t room, uint16_t kind, uint16_t own,
                       uint32_t sender, const uint64_t *head, size_t fields,
                       const uint64_t *rows, size_t numbers, uint64_t *size)
{
    const size_t each = observation.fields;
    if (kind != OBS)
        return 21;
    if (fields != obs_head.fields || numbers % each != 0)
        return 22;
    if (!fit(obs_head.letters, head))
        return 23;
    for (size_t i = 0; i < numbers; i += each)
        if (!fit(observation.letters, rows + i))
            return 23;
    if (numbers / each > OBS_MAX)
        return 31;
    size_t n = OBS_HEAD + OBS_EACH * (numbers / each);
    if (room < n + AROUND)
        return 32;
    uint8_t *p = put_header(out, kind, own, sender, n);
    p = put_fields(obs_head.letters, head, p);
    for (size_t i = 0; i < numbers; i += each)
        p = put_fields(observation.letters, rows + i, p);
    return seal(out, n, size);
}

uint8_t twin_write_log(uint8_t *out, size_t room, uint16_t own, uint32_t sender,
                       uint8_t level, const uint8_t *text, size_t n,
                       size_t padding, uint64_t *size)
{
    if (before_zero(text, n) < n)
        return 23;
    /* What is left for the padding: a sum could run over. */
    if (n > LOG_TEXT_MAX || padding > LOG_TEXT_MAX - n)
        return 31;
    size_t length = 1 + n + padding;
    if (room < length + AROUND)
        return 32;
    uint8_t *p = put_header(out, LOG, own, sender, length);
    *p++ = level;
    if (n > 0)
        memcpy(p, text, n);
    memset(p + n, 0, padding);
    return seal(out, length, size);
}

uint8_t twin_write_frame(uint8_t *out, size_t room, uint16_t kind, uint16_t own,
                         uint32_t sender, const uint8_t *payload, size_t n,
                         uint64_t *size)
{
    if (n > 255)
        return 31;
    if (room < n + AROUND)
        return 32;
    uint8_t *p = put_header(out, kind, own, sender, n);
    if (n > 0)
        memcpy(p, payload, n);
    return seal(out, n, size);
}

enum { SINGLE, FLOAT, FIXED, NO_MODE };

uint8_t twin_fix(uint16_t kind, uint8_t flags)
{
    /* Each by its own table: the two positions number float and fixed
     * differently, and the baselines have no single point. */
    static const uint8_t ecef[8] = {SINGLE,  FLOAT,   FIXED,   NO_MODE,
                                    NO_MODE, NO_MODE, NO_MODE, NO_MODE};
    static const uint8_t llh[8] = {SINGLE,  FIXED,   FLOAT,   NO_MODE,
                                   NO_MODE, NO_MODE, NO_MODE, NO_MODE};
    static const uint8_t baseline[8] = {FLOAT,   FIXED,   NO_MODE, NO_MODE,
                                        NO_MODE, NO_MODE, NO_MODE, NO_MODE};
    switch (kind) {
    case 0x0200:
        return ecef[flags & 7];
    case 0x0201:
        return llh[flags & 7];
    case 0x0202:
    case 0x0203:
    case 0x0207:
        return baseline[flags & 7];
    default:
        return 21;
    }
}

/* A bit that stands one higher in POS_LLH, after the height mode. */
static uint8_t raim(uint16_t kind, uint8_t flags, unsigned bit)
{
    switch (kind) {
    case 0x0201:
        return flags >> (bit + 1) & 1;
    case 0x0200:
    case 0x0202:
    case 0x0203:
    case 0x0207:
        return flags >> bit & 1;
    default:
        return 21;
    }
}

uint8_t twin_raim_available(uint16_t kind, uint8_t flags)
{
    return raim(kind, flags, 3);
}

uint8_t twin_raim_repaired(uint16_t kind, uint8_t flags)
{
    return raim(kind, flags, 4);
}

uint8_t twin_above_sea(uint16_t kind, uint8_t flags)
{
    return kind == 0x0201 ? flags >> 3 & 1 : 21;
}

bool twin_system_error(uint32_t flags)
{
    return flags & 1;
}

bool twin_io_error(uint32_t flags)
{
    return flags >> 1 & 1;
}

bool twin_nap_error(uint32_t flags)
{
    return flags >> 2 & 1;
}

bool twin_external_antenna(uint32_t flags)
{
    return flags >> 31;
}

int64_t twin_carrier_phase(int32_t l_i, uint8_t l_f)
{
    return (int64_t)l_i * 256 + l_f;
}

uint8_t twin_phase_parts(int64_t phase, int32_t *l_i, uint8_t *l_f)
{
    if (phase < -549755813888 || phase > 549755813887)
        return 33;
    /* The low byte is L.f also of a negative phase: what is left divides. */
    uint8_t low = (uint8_t)phase;
    *l_f = low;
    *l_i = (int32_t)((phase - low) / 256);
    return 0;
}

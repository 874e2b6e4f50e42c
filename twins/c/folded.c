/* The bytes are a polynomial over one bit, highest power first, and the CRC is
 * the remainder of x^16 times it by x^16 + x^12 + x^5 + 1. Squaring keeps that
 * sparse: for every power of two s there is no difference between
 *
 *     x^(16 s) and x^(12 s) + x^(5 s) + 1,
 *
 * so what stands high goes 4 s, 11 s and 16 s places lower, each time added.
 * With s = 64 this leaves 16 words of 64 bits, with 16 four, with 8 two, with 4
 * one, with 2 a half and with 1 the CRC. The words are counted from the end, so
 * that the first is the one with too few bytes; x^16 is two bytes of zero. */
#include "folded.h"

#include <string.h>

enum { WORDS = 16 };

static inline uint64_t turned(uint64_t w)
{
    w = (w & 0x00ff00ff00ff00ff) << 8 | (w >> 8 & 0x00ff00ff00ff00ff);
    w = (w & 0x0000ffff0000ffff) << 16 | (w >> 16 & 0x0000ffff0000ffff);
    return w << 32 | w >> 32;
}

/* The order of this machine, which is known when this is compiled. */
static inline int first_is_lowest(void)
{
    const uint16_t one = 1;
    uint8_t first;
    memcpy(&first, &one, 1);
    return first;
}

/* The first byte lowest, which costs nothing on most machines, or highest. */
static inline uint64_t low64(const uint8_t *p)
{
    uint64_t w;
    memcpy(&w, p, sizeof w);
    return first_is_lowest() ? w : turned(w);
}

static inline uint64_t high64(const uint8_t *p)
{
    return turned(low64(p));
}

static inline uint32_t high32(const uint8_t *p)
{
    return (uint32_t)p[0] << 24 | (uint32_t)p[1] << 16 | (uint32_t)p[2] << 8 |
           p[3];
}

/* One more byte. */
static inline uint16_t fold_byte(uint32_t crc, uint8_t byte)
{
    uint32_t q = crc >> 8 ^ byte;
    q ^= q >> 4;
    return (uint16_t)(crc << 8 ^ q ^ q << 5 ^ q << 12);
}

/* A high half goes into the low one, with s = 1, 2 and 4. What it adds to
 * itself on its way is in q: the half by 1 + y^4s + y^11s + y^16s where y is
 * 1/x, and that far down it is the half times (1 + y^4s)(1 + y^8s) + y^11s. */
static inline uint16_t fold_1(uint32_t w)
{
    uint32_t t = w ^ w >> 4, q = (t ^ t >> 8 ^ w >> 11) >> 16;
    return (uint16_t)(w ^ q ^ q << 5 ^ q << 12);
}

static inline uint32_t fold_2(uint32_t h, uint32_t l)
{
    uint32_t t = h ^ h >> 8, q = t ^ t >> 16 ^ h >> 22;
    return l ^ q ^ q << 10 ^ q << 24;
}

static inline uint64_t fold_4(uint64_t h, uint64_t l)
{
    uint64_t t = h ^ h >> 16, q = t ^ t >> 32 ^ h >> 44;
    return l ^ q ^ q << 20 ^ q << 48;
}

static inline uint16_t fold_two(uint64_t h, uint64_t l)
{
    uint64_t w = fold_4(h, l);
    return fold_1(fold_2((uint32_t)(w >> 32), (uint32_t)w));
}

/* With s = 8, 16 and 64 all moves by whole bytes, so that the first may stay
 * the lowest: lower places are to the left. A word goes into the next two, */
static inline void fold_8(uint64_t a, uint64_t *b, uint64_t *c)
{
    a ^= a << 32;
    *b ^= a >> 32 ^ a << 24;
    *c ^= a ^ a >> 40;
}

/* or into the next four, of which the last takes its place, */
static inline void fold_16(uint64_t *a, uint64_t *b, uint64_t *c, uint64_t *d,
                           uint64_t next)
{
    *b ^= *a;
    *c ^= *a << 48;
    *d ^= *a >> 16;
    *a ^= next;
}

static inline void fold_16s(uint64_t *a, uint64_t *b, uint64_t *c, uint64_t *d,
                            uint64_t e, uint64_t f, uint64_t g, uint64_t h)
{
    fold_16(a, b, c, d, e);
    fold_16(b, c, d, a, f);
    fold_16(c, d, a, b, g);
    fold_16(d, a, b, c, h);
}

/* or 16 into the next 16: what one of them gets from those before it, and what
 * one of the next gets from them all. */
static inline uint64_t from_earlier(const uint64_t *w, int i)
{
    return (i < 4 ? 0 : w[i - 4]) ^ (i < 11 ? 0 : w[i - 11]);
}

static inline uint64_t from_all(const uint64_t *w, int i)
{
    return w[i] ^ (i < 11 ? w[i + 5] : 0) ^ (i < 4 ? w[i + 12] : 0);
}

static inline uint16_t fold_four(uint64_t a, uint64_t b, uint64_t c, uint64_t d)
{
    fold_8(a, &b, &c);
    fold_8(b, &c, &d);
    return fold_two(turned(c), turned(d));
}

/* Four words and those at p; the last is six bytes and two of zero. */
static uint16_t fold_words(uint64_t a, uint64_t b, uint64_t c, uint64_t d,
                           const uint8_t *p, const uint8_t *end)
{
    for (; end - p > 30; p += 32)
        fold_16s(&a, &b, &c, &d, low64(p), low64(p + 8), low64(p + 16),
                 low64(p + 24));
    uint64_t last = low64(end - 8) >> 16;
    switch (end - p) {
    case 6:
        fold_16(&a, &b, &c, &d, last);
        return fold_four(b, c, d, a);
    case 14:
        fold_16(&a, &b, &c, &d, low64(p));
        fold_16(&b, &c, &d, &a, last);
        return fold_four(c, d, a, b);
    case 22:
        fold_16(&a, &b, &c, &d, low64(p));
        fold_16(&b, &c, &d, &a, low64(p + 8));
        fold_16(&c, &d, &a, &b, last);
        return fold_four(d, a, b, c);
    default:
        fold_16s(&a, &b, &c, &d, low64(p), low64(p + 8), low64(p + 16), last);
        return fold_four(a, b, c, d);
    }
}

/* From 21 words on the first four go 4, 11 and 16 words on: s = 64. */
static uint16_t fold_more(uint64_t w0, const uint8_t *p, const uint8_t *end)
{
    const uint64_t w1 = low64(p), w2 = low64(p + 8), w3 = low64(p + 16);
    uint64_t a = low64(p + 24) ^ w0, b = low64(p + 32) ^ w1;
    uint64_t c = low64(p + 40) ^ w2, d = low64(p + 48) ^ w3;
    fold_16s(&a, &b, &c, &d, low64(p + 56), low64(p + 64), low64(p + 72),
             low64(p + 80) ^ w0);
    fold_16s(&a, &b, &c, &d, low64(p + 88) ^ w1, low64(p + 96) ^ w2,
             low64(p + 104) ^ w3, low64(p + 112));
    fold_16s(&a, &b, &c, &d, low64(p + 120) ^ w0, low64(p + 128) ^ w1,
             low64(p + 136) ^ w2, low64(p + 144) ^ w3);
    return fold_words(a, b, c, d, p + 152, end);
}

/* From 33 words on, 16 at a time. */
static uint16_t fold_long(uint64_t first, const uint8_t *p, const uint8_t *end)
{
    uint64_t w[WORDS] = {first};
    for (int i = 1; i < WORDS; i++, p += 8)
        w[i] = low64(p) ^ from_earlier(w, i);
    for (;;) {
        for (int i = 0; i < WORDS; i++, p += 8)
            w[i] = low64(p) ^ from_all(w, i);
        if (end - p <= 8 * WORDS)
            break;
        for (int i = 4; i < WORDS; i++)
            w[i] ^= from_earlier(w, i);
    }
    uint64_t a = w[0], b = w[1], c = w[2], d = w[3];
    for (int i = 4; i < WORDS; i += 4)
        fold_16s(&a, &b, &c, &d, w[i], w[i + 1], w[i + 2], w[i + 3]);
    return fold_words(a, b, c, d, p, end);
}

/* 4 to 6 bytes, or 8 to 10, by halves of words. */
static inline uint16_t fold_few(uint32_t start, const uint8_t *p, size_t n)
{
    uint32_t a = (high32(p) ^ start << 16) >> (8 * (6 - n) % 32);
    uint32_t l = high32(p + n - 4) << 16;
    if (n < 7)
        return fold_1(fold_2(a, l));
    a ^= a >> 16;
    uint32_t h = high32(p + n - 6) ^ a << 16 ^ a >> 12;
    return fold_1(fold_2(h, l ^ a << 20 ^ a));
}

uint16_t folded_crc(uint16_t start, const uint8_t *bytes, size_t length)
{
    switch (length) {
    case 3:
        start = fold_byte(start, *bytes++);
        /* fallthrough */
    case 2:
        start = fold_byte(start, *bytes++);
        /* fallthrough */
    case 1:
        start = fold_byte(start, *bytes);
        /* fallthrough */
    case 0:
        return start;
    case 4:
        return fold_few(start, bytes, 4);
    case 5:
        return fold_few(start, bytes, 5);
    case 6:
        return fold_few(start, bytes, 6);
    case 7:
        return fold_few(fold_byte(start, bytes[0]), bytes + 1, 6);
    case 8:
        return fold_few(start, bytes, 8);
    case 9:
        return fold_few(start, bytes, 9);
    case 10:
        return fold_few(start, bytes, 10);
    }
    /* A start takes two bytes, so the first word must have them. */
    if (start != 0 && length % 8 == 7) {
        start = fold_byte(start, *bytes++);
        length--;
    }
    const uint8_t *end = bytes + length;
    size_t zeros = (6 - length) % 8;
    if (length < 23) {
        uint64_t h = (high64(bytes) ^ (uint64_t)start << 48) >> 8 * zeros;
        if (length > 14)
            h = fold_4(h, high64(end - 14));
        return fold_two(h, high64(end - 8) << 16);
    }
    uint64_t first = low64(bytes);
    if (start != 0)
        first ^= (uint16_t)(start << 8 | start >> 8);
    first <<= 8 * zeros;
    const uint8_t *p = bytes + 8 - zeros;
    if (length < 31)
        return fold_four(first, low64(p), low64(p + 8), low64(end - 8) >> 16);
    if (length < 159)
        return fold_words(first, low64(p), low64(p + 8), low64(p + 16), p + 24,
                          end);
    return length < 255 ? fold_more(first, p, end) : fold_long(first, p, end);
}

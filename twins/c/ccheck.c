/* Checks what clist and cindex do not show: the published CRC values, the
 * folded CRC, that a message's fields fill its length, a LOG longer than any
 * frame's, the collator's making, answers and refusals, an index's refusals,
 * the counts of closed reading, and who a frame goes out as. */
#include "fast.h"

#include <stdbool.h>
#include <stdio.h>
#include <string.h>

#include "folded.h"
#include "index.h"
#include "messages.h"
#include "rows.h"

enum { FRAME_MOST = 263 };

static int failed;

static void check(int holds, const char *what)
{
    if (!holds) {
        printf("FAILED: %s\n", what);
        failed = 1;
    }
}

/* The bytes of fields by their letters. */
static size_t width(const char *letters)
{
    size_t sum = 0;
    for (; *letters != 0; letters++)
        sum += *letters == 's'   ? 4
               : *letters == 'h' ? 2
                                 : (size_t)(*letters - '0');
    return sum;
}

static void check_lengths(void)
{
#define MESSAGE(type, letters, length, highest_mode)                           \
    check(width(letters) == length, "length of " #type);
    SBP_MESSAGES(MESSAGE)
#undef MESSAGE
}

/* The rule itself, bit by bit, from a start on. */
static unsigned plain_crc(unsigned crc, const uint8_t *bytes, size_t length)
{
    for (size_t i = 0; i < length; i++) {
        crc ^= (unsigned)bytes[i] << 8;
        for (int bit = 0; bit < 8; bit++)
            crc = crc & 0x8000 ? crc << 1 ^ 0x11021 : crc << 1;
    }
    return crc;
}

static void check_crc(void)
{
    const uint8_t nine[] = "123456789";
    check(sbp_crc(0, nine, 9) == 0x31C3, "CRC of 123456789");
    check(sbp_crc(65535, nine, 9) == 0x29B1, "the same from 65535");

    for (int b = 0; b < 256; b++) {
        uint8_t byte = (uint8_t)b;
        check(sbp_crc(0, &byte, 1) == plain_crc(0, &byte, 1), "table entry");
    }

    /* A part, and the rest begun at its CRC. */
    const uint16_t starts[] = {0, 1, 65535};
    for (size_t s = 0; s < 3; s++)
        for (size_t cut = 0; cut <= 9; cut++) {
            uint16_t first = sbp_crc(starts[s], nine, cut);
            check(first == plain_crc(starts[s], nine, cut), "CRC of a part");
            check(sbp_crc(first, nine + cut, 9 - cut) ==
                      plain_crc(starts[s], nine, 9),
                  "CRC that goes on");
        }
}

/* The table's CRC, at every length and wherever the bytes lie; and in parts. */
static void check_folded(void)
{
    enum { PLACES = 8, MOST = 700, IN_PARTS = 300 };
    static const uint16_t starts[] = {0, 1, 0x00FF, 0xFF00, 65535};
    static uint8_t bytes[PLACES + MOST];
    const uint8_t nine[] = "123456789";
    check(folded_crc(0, nine, 9) == 0x31C3, "folded CRC of 123456789");
    check(folded_crc(7, NULL, 0) == 7, "folded CRC of nothing");

    uint32_t word = 1;
    for (size_t i = 0; i < sizeof bytes; i++) {
        word = word * 1103515245 + 12345;
        bytes[i] = (uint8_t)(word >> 16);
    }
    for (size_t length = 0; length <= MOST; length++)
        for (size_t s = 0; s < sizeof starts / sizeof *starts; s++)
            for (size_t at = 0; at < PLACES; at++)
                check(folded_crc(starts[s], bytes + at, length) ==
                          sbp_crc(starts[s], bytes + at, length),
                      "folded CRC");
    for (size_t length = 0; length <= IN_PARTS; length++)
        for (size_t cut = 0; cut <= length; cut++) {
            uint16_t first = folded_crc(1, bytes, cut);
            check(folded_crc(first, bytes + cut, length - cut) ==
                      folded_crc(1, bytes, length),
                  "folded CRC that goes on");
        }
}

/* Over two frames of type and sender 0. */
static void check_index(void)
{
    const uint8_t two[16] = {0x55, 0, 0, 0, 0, 0, 0, 0, 0x55};
    const size_t room = TWIN_INDEX;
    uint8_t index[TWIN_INDEX];
    struct twin_entry list[2] = {{7, 7, 7, 7}, {7, 7, 7, 7}};
    uint64_t place = 7, count = 7;
    check(twin_index(index, room - 1) == 32, "index's 32");
    check(twin_index(index, room) == 0, "index");
    check(twin_extend(index, room - 1, two, 16, list, 2) == 32, "extend's 32");
    check(twin_extend(index, room, two, 16, list, 1) == 51, "extend's 51");
    check(list[0].offset == 7 && list[1].offset == 7, "51 writes nothing");
    check(twin_extend(index, room, two, 16, list, 2) == 0, "extended");
    check(list[0].offset == 0 && list[1].offset == 8, "entries");
    check(twin_extend(index, room, two, 15, list, 0) == 52, "52 before 51");
    check(twin_extend(index, room, two, 16, list, 1) == 51, "51, nothing new");
    check(twin_first(index, room - 1, list, 0, 0, 0, 0, &place) == 32,
          "first's 32");
    check(twin_first(index, room, list, 1, 0, 0, 0, &place) == 51,
          "first's 51");
    check(twin_first(index, room, list, 2, 0, 0, 9, &place) == TWIN_NONE,
          "none");
    check(place == 7, "none writes nothing");
    check(twin_first(index, room, list, 2, 0, 0, 8, &place) == 0 && place == 1,
          "first");
    check(twin_count(index, room - 1, 0, &count) == 32, "count's 32");
    check(twin_count(index, room, 0, &count) == 21, "count's 21");
    check(count == 7, "21 writes nothing");
    check(twin_count(index, room, 0x0401, &count) == 0 && count == 0, "count");
}

/* A way to write a frame: raw or by its message's own writer, which for one
 * without a tail takes so many numbers. */
struct way {
    const char *name;
    uint16_t kind;
    bool raw;
    size_t fields;
    bool as_client; /* given no sender it goes out as 0x42 */
};

static uint8_t write_by(const struct way *w, uint8_t *out, uint16_t own,
                        uint32_t sender, uint64_t *size)
{
    static const uint64_t row[8];
    static const uint8_t text[] = "ab";
    if (w->raw)
        return twin_write_frame(out, FRAME_MOST, w->kind, own, sender, text, 2,
                                size);
    switch (w->kind) {
    case 0x0049:
        return twin_write_obs(out, FRAME_MOST, w->kind, own, sender, row, 3,
                              row, 8, size);
    case 0x0401:
        return twin_write_log(out, FRAME_MOST, own, sender, 6, text, 2, 1,
                              size);
    default:
        return twin_write(out, FRAME_MOST, w->kind, own, sender, row, w->fields,
                          size);
    }
}

/* One whole frame, of that sender. */
static void check_sender(const struct way *w, uint16_t own, uint32_t sender,
                         uint16_t expected)
{
    uint8_t out[FRAME_MOST];
    uint64_t size = 0;
    struct sbp_counts counts;
    check(write_by(w, out, own, sender, &size) == 0, w->name);
    check(sbp_read_closed(out, size, &counts) == 1, w->name);
    check(counts.frame_bytes == size, w->name);
    check((out[1] | out[2] << 8) == w->kind, w->name);
    check((out[3] | out[4] << 8) == expected, w->name);
}

static void check_senders(void)
{
    static const struct way ways[] = {
        {"READ_BY_INDEX_REQ's sender", 0x00A2, false, 1, true},
        {"SETTINGS_SAVE's sender", 0x00A1, false, 0, true},
        {"LOG's sender", 0x0401, false, 0, false},
        {"POS_ECEF's sender", 0x0200, false, 7, false},
        {"OBS's sender", 0x0049, false, 0, false},
        {"raw 0x00A1's sender", 0x00A1, true, 0, true},
        {"raw 0x00A2's sender", 0x00A2, true, 0, true},
        {"raw 0x00A0's sender", 0x00A0, true, 0, false},
        {"raw 0x0800's sender", 0x0800, true, 0, false},
    };
    static const uint16_t owns[] = {0, 0x42, 1228, 65535};
    static const uint16_t given[] = {0, 0x42, 7, 65535};
    static const uint32_t none[] = {65536, 65536 + 7, UINT32_MAX};
    for (size_t w = 0; w < sizeof ways / sizeof *ways; w++)
        for (size_t o = 0; o < 4; o++) {
            for (size_t g = 0; g < 4; g++)
                check_sender(&ways[w], owns[o], given[g], given[g]);
            for (size_t n = 0; n < 3; n++)
                check_sender(&ways[w], owns[o], none[n],
                             ways[w].as_client ? 0x42 : owns[o]);
        }
}

/* Two recorders by turns on one line, with packets of one time: as one sender's
 * they would be one epoch and copies. */
static void check_recorders(void)
{
    static char text[SBP_LIST_MAX];
    static const char expected[] = "F 0 73 1228 7 0\nF 15 73 1229 7 0\n"
                                   "F 30 73 1228 7 0\nE 1228 1900 1000 2 0\n"
                                   "F 45 73 1229 7 0\nE 1229 1900 1000 2 0\n"
                                   "T 60 60 0 0 0\n";
    uint8_t line[60];
    uint64_t at = 0, size = 0;
    for (uint64_t packet = 0x20; packet <= 0x21; packet++)
        for (uint16_t own = 1228; own <= 1229; own++) {
            const uint64_t head[] = {1000, 1900, packet};
            check(twin_write_obs(line + at, sizeof line - at, 0x0049, own,
                                 65536, head, 3, NULL, 0, &size) == 0,
                  "a recorder's packet");
            at += size;
        }
    check(sbp_list(line, at, text) == sizeof expected - 1 &&
              memcmp(text, expected, sizeof expected - 1) == 0,
          "two recorders told apart");
}

/* ---- epochs, of a collator for senders 0, 65535 and 5 */

static struct sbp_collator collator;
static struct sbp_epoch reported;

static void make_collator(void)
{
    static const uint16_t roster[3] = {0, 65535, 5};
    check(sbp_collator_make(&collator, roster, 3) == 0, "roster");
}

/* A packet of wn 2. */
static int feed(uint16_t sender, unsigned tow, unsigned n, unsigned i,
                unsigned k)
{
    const uint8_t p[247] = {(uint8_t)tow, 0, 0, 0, 2, 0, (uint8_t)(n << 4 | i)};
    return sbp_feed(&collator, 0x0049, sender, p, 7 + 16 * k, &reported);
}

static void check_reported(unsigned sender, unsigned tow, unsigned n,
                           unsigned observations, const char *what)
{
    check(reported.sender == sender && reported.wn == 2 &&
              reported.tow == tow && reported.n == n &&
              reported.observations == observations,
          what);
}

/* How many orders n packets have. */
static unsigned orders(unsigned n)
{
    return n == 0 ? 1 : n * orders(n - 1);
}

/* The order of that number: each counter goes to one of the places there are
 * when it is put in. */
static void put_order(unsigned number, unsigned n, uint8_t *order)
{
    for (unsigned i = 0; i < n; i++) {
        unsigned at = number % (i + 1);
        number /= i + 1;
        memmove(order + at + 1, order + at, i - at);
        order[at] = (uint8_t)i;
    }
}

/* The packets of sender 5 from one place of an order to another, of which
 * counter i has i + 1 observations; none of them ends the epoch. */
static void feed_part(unsigned n, const uint8_t *order, unsigned from,
                      unsigned to)
{
    for (unsigned at = from; at < to; at++)
        check(feed(5, 1, n, order[at], order[at] + 1u) == SBP_TAKEN, "taken");
}

static void feed_last(unsigned n, const uint8_t *order)
{
    unsigned last = order[n - 1];
    check(feed(5, 1, n, last, last + 1) == SBP_EPOCH, "all have come");
    check_reported(5, 1, n, n * (n + 1) / 2, "each counted once");
}

/* A copy of the packet at one place, with other observations, before the packet
 * at another. */
static void check_copy(unsigned n, const uint8_t *order, unsigned place,
                       unsigned before)
{
    feed_part(n, order, 0, before);
    check(feed(5, 1, n, order[place], 15) == 47, "a copy's 47");
    feed_part(n, order, before, n - 1);
    feed_last(n, order);
}

/* After the report it opens an epoch of its own, which the others end. */
static void check_late_copy(unsigned n, const uint8_t *order, unsigned place)
{
    unsigned left = n - 1;
    feed_part(n, order, 0, n - 1);
    feed_last(n, order);
    check(feed(5, 1, n, order[place], 15) == SBP_TAKEN, "a late copy");
    for (unsigned at = 0; at < n; at++)
        if (at != place)
            check(feed(5, 1, n, order[at], 0) ==
                      (--left > 0 ? SBP_TAKEN : SBP_EPOCH),
                  "the others again");
    check_reported(5, 1, n, 15, "an epoch of its own");
}

static void check_orders(void)
{
    make_collator();
    for (unsigned n = 1; n <= 4; n++)
        for (unsigned number = 0; number < orders(n); number++) {
            uint8_t order[4];
            put_order(number, n, order);
            feed_part(n, order, 0, n - 1);
            feed_last(n, order);
            for (unsigned place = 0; n > 1 && place < n; place++) {
                for (unsigned before = place + 1; before < n; before++)
                    check_copy(n, order, place, before);
                check_late_copy(n, order, place);
            }
        }
}

static void check_longest(void)
{
    make_collator();
    for (unsigned i = 14; i > 0; i--) {
        check(feed(5, 1, 15, i, 15) == SBP_TAKEN, "15 backwards");
        check(feed(5, 1, 15, i, 15) == 47, "15 backwards, a copy");
    }
    check(feed(5, 1, 15, 0, 15) == SBP_EPOCH, "15 backwards, the last");
    check_reported(5, 1, 15, 225, "15 backwards, whole");
}

/* A packet of another tow, wn or n drops the two that had come, and the one that
 * was missing opens an epoch. */
static void check_other_keys(void)
{
    for (unsigned field = 0; field < 7; field++) {
        make_collator();
        uint8_t p[7] = {1, 0, 0, 0, 2, 0, 0x30};
        check(feed(5, 1, 3, 0, 1) == SBP_TAKEN, "open");
        check(feed(5, 1, 3, 2, 1) == SBP_TAKEN, "open, the second");
        p[field] ^= field < 6 ? 0x80 : 0x70; /* n becomes 4 */
        check(sbp_feed(&collator, 0x0049, 5, p, 7, &reported) == SBP_TAKEN,
              "another key");
        check(feed(5, 1, 3, 1, 1) == SBP_TAKEN, "and back");
        check(feed(5, 1, 3, 2, 2) == SBP_TAKEN, "again");
        check(feed(5, 1, 3, 0, 4) == SBP_EPOCH, "again, the last");
        check_reported(5, 1, 3, 7, "nothing of what was dropped");
    }
    /* An epoch of one packet drops too, and is one each time. */
    check(feed(5, 1, 2, 1, 1) == SBP_TAKEN, "open");
    check(feed(5, 1, 1, 0, 3) == SBP_EPOCH, "n of 1");
    check(feed(5, 1, 1, 0, 3) == SBP_EPOCH, "n of 1 again");
    check_reported(5, 1, 1, 3, "n of 1, whole");
    check(feed(5, 1, 2, 0, 1) == SBP_TAKEN, "dropped by n of 1");
}

/* The refusals in their order, each with the faults that come after it, between
 * any two packets of an epoch: nothing changes. */
static void check_refusals(void)
{
    const uint8_t zeros[7] = {0};
    make_collator();
    for (unsigned i = 3; i-- > 0;) {
        struct sbp_collator before;
        memcpy(&before, &collator, sizeof before);
        check(sbp_feed(&collator, 0x0048, 6, zeros, 6, &reported) == 46, "46");
        check(sbp_feed(&collator, 0x0049, 6, zeros, 6, &reported) == 22, "22");
        check(sbp_feed(&collator, 0x0049, 6, zeros, 7, &reported) == 43, "43");
        check(feed(5, 1, 0, i, 0) == 44, "44");
        check(feed(5, 1, 3, 3 + i, 0) == 45, "45");
        if (i < 2)
            check(feed(5, 1, 3, 2, 15) == 47, "47");
        check(memcmp(&before, &collator, sizeof before) == 0, "untouched");
        check(feed(5, 1, 3, i, 1) == (i > 0 ? SBP_TAKEN : SBP_EPOCH),
              "whole all the same");
    }
    check_reported(5, 1, 3, 3, "nothing refused is counted");
}

/* Packets of one time, in every way that two senders can take turns. */
static void check_turns(void)
{
    static const uint16_t senders[2] = {0, 65535};
    static const unsigned packets[2] = {3, 2};
    for (unsigned turns = 0; turns < 32; turns++) {
        unsigned left[2] = {3, 2};
        make_collator();
        for (unsigned bit = 0; bit < 5; bit++) {
            unsigned who = turns >> bit & 1;
            if (left[who] == 0)
                who = 1 - who;
            unsigned n = packets[who], i = --left[who];
            check(feed(senders[who], 1, n, i, n) ==
                      (i > 0 ? SBP_TAKEN : SBP_EPOCH),
                  "by turns");
            if (i == 0)
                check_reported(senders[who], 1, n, n * n, "its own");
        }
    }
}

static void check_rosters(void)
{
    const uint16_t nine[9] = {1, 1, 1, 1, 1, 1, 1, 1, 1};
    const uint16_t twice[2] = {0, 0};
    check(sbp_collator_make(&collator, twice, 0) == 41, "empty roster");
    check(sbp_collator_make(&collator, nine, 9) == 41, "long roster");
    check(sbp_collator_make(&collator, twice, 2) == 42, "sender twice");
}

int main(void)
{
    check_lengths();
    check_crc();
    check_folded();
    check_index();
    check_senders();
    check_recorders();
    check_rosters();
    check_orders();
    check_longest();
    check_other_keys();
    check_refusals();
    check_turns();

    /* A letter after zeros. */
    uint8_t log[256] = {0};
    log[254] = log[255] = 'a';
    check(sbp_answer(0x0401, log, 254) == 0, "LOG of zeros");
    check(sbp_answer(0x0401, log, 255) == 23, "LOG's 23");
    check(sbp_answer(0x0401, log, 256) == 22, "LOG's 22 before 23");

    const uint8_t five[5] = {0x55, 0, 0, 0, 0};
    const uint8_t eight[8] = {0x55, 0, 0, 0, 0, 0, 0, 0};
    struct sbp_counts counts;
    check(sbp_read_closed(five, 5, &counts) == 0 && counts.short_ == 1 &&
              counts.junk == 4,
          "five bytes");
    check(sbp_read_closed(eight, 8, &counts) == 1 && counts.frame_bytes == 8,
          "eight bytes");
    check(sbp_read_closed(NULL, 0, &counts) == 0 && counts.junk == 0,
          "no bytes");
    if (!failed)
        printf("ccheck: all hold\n");
    return failed;
}

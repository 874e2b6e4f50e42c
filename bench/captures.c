#include "captures.h"

#include <stdbool.h>
#include <string.h>

#include "twin.h"

uint8_t *capture;
size_t length;

static uint32_t word = 2463534242;

static uint32_t any(void) {
    word ^= word << 13;
    word ^= word >> 17;
    word ^= word << 5;
    return word;
}

static size_t put_frame(size_t at, uint16_t kind, uint16_t sender, uint8_t size, uint8_t n_obs, uint32_t tow) {
    uint8_t *f = capture + at;
    uint8_t head[] = {0x55, (uint8_t)kind, (uint8_t)(kind >> 8), (uint8_t)sender, (uint8_t)(sender >> 8), size};
    memcpy(f, head, 6);
    for (unsigned i = 0; i < size; i++) {
        f[6 + i] = (uint8_t)any();
    }
    if (kind == 0x0049) {
        memcpy(f + 6, &tow, 4);
        f[10] = 0x6c, f[11] = 0x07, f[12] = n_obs;
    } else if (kind == 0x0100) {
        memset(f + 12, 0, 4); /* ns */
    } else if (kind >= 0x0200 && kind <= 0x0207 && kind != 0x0206) {
        f[5 + size] &= 0xF8; /* fix mode */
    } else if (kind == 0x0401) {
        for (unsigned i = 1; i < size; i++) {
            f[6 + i] |= 1; /* text: no zero */
        }
        memset(f + 2 + size, 0, 4); /* padding */
    }
    uint16_t sum = twin_crc(0, f + 1, size + 5u);
    f[size + 6] = (uint8_t)sum, f[size + 7] = (uint8_t)(sum >> 8);
    return at + size + 8;
}

/* The n_obs of an epoch's packets as they come; gives how many. */
static size_t put_packets(uint8_t *packets, uint8_t n, bool overtaking) {
    size_t count = 0;
    while (count < n) {
        packets[count] = (uint8_t)(n << 4 | count);
        count++;
    }
    if (overtaking && any() % 8 == 0) {
        packets[count++] = packets[any() % n];
    }
    for (size_t left = count; overtaking && left > 1; left--) {
        size_t at = any() % left;
        uint8_t last = packets[left - 1];
        packets[left - 1] = packets[at];
        packets[at] = last;
    }
    return count;
}

static void put_epochs(size_t most, bool overtaking) {
    length = 0;
    for (uint32_t tow = 0; length + 2000 < most; tow += 100) {
        uint8_t base[4], rover[3];
        size_t of_base = put_packets(base, 3, overtaking), of_rover = put_packets(rover, 2, overtaking);
        for (size_t i = 0; i < of_base || i < of_rover; i++) {
            if (i < of_base) {
                length = put_frame(length, 0x0049, 1228, 7 + 16 * 10, base[i], tow);
            }
            if (i < of_rover) {
                length = put_frame(length, 0x0049, 0, 7 + 16 * 8, rover[i], tow);
            }
        }
        length = put_frame(length, 0x0201, 0, 34, 0, tow);
        length = put_frame(length, 0xFFFF, 1228, 4, 0, tow);
    }
}

void clean(size_t most) { put_epochs(most, false); }
void overtaken(size_t most) { put_epochs(most, true); }

void mixed(size_t most) {
    static const struct {
        uint16_t kind;
        uint8_t size;
    } kinds[] = {
        {0x0100, 11}, {0x0206, 14}, {0x0200, 32}, {0x0201, 34}, {0x0202, 20},  {0x0204, 20},  {0x0203, 22},  {0x0205, 22},
        {0x0207, 10}, {0x0044, 24}, {0x0048, 24}, {0x0049, 39}, {0x0081, 185}, {0x0082, 112}, {0x0083, 112}, {0x0090, 70},
        {0x0091, 10}, {0x0092, 14}, {0x0401, 25}, {0x00A1, 0},  {0x00A6, 0},   {0x00A2, 2},   {0xFF00, 4},   {0xFFFF, 4},
    };
    const unsigned all = sizeof kinds / sizeof *kinds;
    length = 0;
    while (length + FRAME_MOST <= most) {
        unsigned i = any() % all;
        length = put_frame(length, kinds[i].kind, 1228, kinds[i].size, 0x10, 0);
    }
}

void texts(size_t most) {
    length = 0;
    while (length + FRAME_MOST <= most) {
        length = put_frame(length, 0x0401, 1228, 1 + 80 + 4, 0, 0);
    }
}

void noise(size_t most) {
    length = most;
    for (size_t i = 0; i < most; i++) {
        capture[i] = (uint8_t)any();
    }
}

void preambles(size_t most) {
    length = most;
    memset(capture, 0x55, most);
}

void dearest(size_t most) {
    length = most;
    for (size_t i = 0; i < most; i++) {
        capture[i] = i / 5 % 2 == 0 ? 0x55 : 0xFF;
    }
}

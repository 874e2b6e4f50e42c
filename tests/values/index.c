/* An index beside a capture: sbp_index, sbp_extend, sbp_first, sbp_count. */
#define _DEFAULT_SOURCE /* for mmap */
#include "values.h"

#include <stdlib.h>
#include <sys/mman.h>
#include <unistd.h>

enum { CAPTURE = 256, LIST = 16, KINDS = 65536 };

static const size_t FAR = (size_t)1 << 32;

/* What the caller keeps. */
struct kept {
    uint8_t index[SBP_INDEX + 1]; /* one more than is taken */
    struct sbp_entry entries[LIST];
};

/* Document 01's capture, whose last byte begins a frame that does not come; then frames of any payload. */
static const uint8_t START[45] = {
    0x00, 0x55, 0x02, 0x02, 0xCC, 0x04, 0x14, 0x70, 0x3D, 0xD0, 0x18, 0xCF, 0xEF, 0xFF, 0xFF, 0xEF, 0xE8, 0xFF, 0xFF, 0xF0, 0x18, 0x00, 0x00,
    0x00, 0x00, 0x05, 0x00, 0x43, 0x94, 0x55, 0x49, 0x00, 0x00, 0x00, 0x07, 0xE8, 0x03, 0x00, 0x00, 0x6C, 0x07, 0x10, 0x87, 0x22, 0x55,
};
static const struct {
    uint16_t kind, sender;
    size_t n;
} FRAMES[] = {
    {0xFFFF, 1228, 4}, {0xFFFF, 0, 4}, {0x0800, 1228, 10}, {0x0049, 1228, 6}, {0x0401, 0, 0}, {0xFFFF, 1228, 4}, {0x00A1, 66, 0}, {0xFFFF, 0, 4},
};

/* The last frame lacks its last byte. */
static size_t make_capture(uint8_t capture[CAPTURE]) {
    uint8_t payload[SBP_PAYLOAD_MOST];
    size_t at = sizeof START;
    mix(payload, sizeof payload, 3, 37);
    memcpy(capture, START, sizeof START);
    for (size_t i = 0; i < COUNT(FRAMES); i++) {
        uint64_t size = 0;
        sbp_write_frame(capture + at, CAPTURE - at, FRAMES[i].kind, OWN, FRAMES[i].sender, payload, FRAMES[i].n, &size);
        at += size;
    }
    return at - 1;
}

static uint64_t reached(const struct kept *k) { return sbp_number(k->index, 8); }

static uint64_t held(const struct kept *k) { return sbp_number(k->index + 8, 8); }

static void expect_same(const struct kept *k, const struct kept *before) {
    if (memcmp(k, before, sizeof *k) != 0) {
        printf(" touched");
    }
}

/* In lists of more and more entries, until one is long enough: how many it has, the position reached, and the entries held. */
static void say_extended(struct kept *k, const uint8_t *capture, size_t n) {
    const struct kept before = *k;
    size_t most = 0;
    uint8_t answer = sbp_extend(k->index, SBP_INDEX, capture, n, k->entries, most);
    printf("extend %zu", n);
    while (answer == SBP_LIST_SHORT && most < LIST) {
        expect_same(k, &before);
        answer = sbp_extend(k->index, SBP_INDEX, capture, n, k->entries, ++most);
    }
    if (answer) {
        say_refused(answer);
        expect_same(k, &before);
    } else {
        printf(" %zu %" PRIu64 " %" PRIu64, most, reached(k), held(k));
    }
    expect_filled(k->entries + most, (LIST - most) * sizeof *k->entries);
    putchar('\n');
}

static void say_entries(const struct kept *k) {
    for (size_t i = 0; i < held(k) && i < LIST; i++) {
        const struct sbp_entry *e = &k->entries[i];
        printf("entry %zu %" PRIu64 " %d %d %d\n", i, e->offset, e->kind, e->sender, e->length);
    }
}

/* The types that are counted, and how many are not. */
static void say_counts_kept(const struct kept *k) {
    unsigned refused = 0;
    for (unsigned kind = 0; kind < KINDS; kind++) {
        uint64_t count;
        fill(&count, sizeof count);
        const uint8_t answer = sbp_count(k->index, SBP_INDEX, (uint16_t)kind, &count);
        if (answer == SBP_UNKNOWN_TYPE) {
            refused++;
            expect_filled(&count, sizeof count);
        } else {
            printf("count %04x %d %" PRIu64 "\n", kind, answer, count);
        }
    }
    printf("uncounted %u\n", refused);
}

/* The place found, or none, or the refusal. */
static void say_place(uint8_t answer, uint64_t place) {
    if (answer == SBP_OK) {
        printf(" %" PRIu64, place);
        return;
    }
    if (answer == SBP_END) {
        printf(" none");
    } else {
        say_refused(answer);
    }
    expect_filled(&place, sizeof place);
}

static void say_first(const struct kept *k, size_t most, uint16_t kind, uint16_t sender, uint64_t offset) {
    uint64_t place;
    fill(&place, sizeof place);
    printf("first %d %d %" PRIu64, kind, sender, offset);
    const uint8_t answer = sbp_first(k->index, SBP_INDEX, k->entries, most, kind, sender, offset, &place);
    say_place(answer, place);
    putchar('\n');
}

/* Each frame at its offset, one before and one after; its type of another sender, and another type of its sender. */
static void say_firsts(const struct kept *k) {
    for (size_t i = 0; i < held(k) && i < LIST; i++) {
        const struct sbp_entry *e = &k->entries[i];
        for (uint64_t offset = e->offset - 1; offset <= e->offset + 1; offset++) {
            say_first(k, LIST, e->kind, e->sender, offset);
        }
        say_first(k, LIST, e->kind, (uint16_t)(e->sender + 1), 0);
        say_first(k, LIST, (uint16_t)(e->kind + 1), e->sender, 0);
        say_first(k, LIST, e->kind, e->sender, UINT64_MAX);
    }
}

/* 52 before 51, and both with nothing written; 51 also where nothing new came, and in asking. */
static void say_short(struct kept *k, const uint8_t *capture, size_t n) {
    const struct kept before = *k;
    const size_t all = (size_t)held(k), end = (size_t)reached(k);
    printf("short");
    say_refused(sbp_extend(k->index, SBP_INDEX, capture, end - 1, k->entries, 0));
    say_refused(sbp_extend(k->index, SBP_INDEX, capture, end - 1, k->entries, all));
    say_refused(sbp_extend(k->index, SBP_INDEX, capture, end, k->entries, all - 1));
    say_refused(sbp_extend(k->index, SBP_INDEX, capture, n, k->entries, 0));
    expect_same(k, &before);
    say_refused(sbp_extend(k->index, SBP_INDEX, capture, end, k->entries, all));
    putchar('\n');
    say_first(k, all - 1, k->entries[0].kind, k->entries[0].sender, 0);
}

/* An index in so many bytes: the answers of all four, the last three of them asked about a list of no entries, which is nowhere. */
static void say_index_room(size_t room) {
    struct kept k;
    uint64_t place, count;
    fill(&k, sizeof k);
    fill(&place, sizeof place);
    fill(&count, sizeof count);
    printf("index-room %zu", room);
    const uint8_t answer = sbp_index(k.index, room);
    const size_t taken = answer ? 0 : SBP_INDEX;
    say_refused(answer);
    say_refused(sbp_extend(k.index, room, START, 0, NULL, 0));
    say_place(sbp_first(k.index, room, NULL, 0, 0, 0, 0, &place), place);
    say_refused(sbp_count(k.index, room, SBP_MSG_OBS, &count));
    expect_filled(k.index + taken, sizeof k.index - taken);
    expect_filled(k.entries, sizeof k.entries);
    putchar('\n');
}

/* The capture after 4 GiB that were read: they are not read again, for they cannot be. */
static void say_far(const uint8_t *end, size_t n) {
    const size_t page = (size_t)sysconf(_SC_PAGESIZE);
    uint8_t *capture = mmap(NULL, FAR + page, PROT_NONE, MAP_PRIVATE | MAP_ANONYMOUS | MAP_NORESERVE, -1, 0);
    if (capture == MAP_FAILED || mprotect(capture + FAR, page, PROT_READ | PROT_WRITE) != 0) {
        fprintf(stderr, "values: no memory\n");
        exit(EXIT_FAILURE);
    }
    memcpy(capture + FAR, end, n);
    struct kept k;
    fill(&k, sizeof k);
    sbp_index(k.index, SBP_INDEX);
    put(k.index, FAR, 8);
    say_extended(&k, capture, FAR + n);
    say_entries(&k);
    say_first(&k, LIST, k.entries[2].kind, k.entries[2].sender, k.entries[2].offset);
    say_first(&k, LIST, k.entries[2].kind, k.entries[2].sender, k.entries[2].offset + 1);
    munmap(capture, FAR + page);
}

void indexed(void) {
    static const size_t rooms[] = {0, SBP_INDEX - 1, SBP_INDEX, SBP_INDEX + 1};
    uint8_t capture[CAPTURE];
    const size_t n = make_capture(capture);
    struct kept k;
    fill(&k, sizeof k);
    for (size_t i = 0; i < COUNT(rooms); i++) {
        say_index_room(rooms[i]);
    }
    sbp_index(k.index, SBP_INDEX);
    for (size_t size = 0; size <= n; size++) {
        say_extended(&k, capture, size);
    }
    say_entries(&k);
    say_counts_kept(&k);
    say_firsts(&k);
    say_short(&k, capture, n);
    say_far(capture, n);
}

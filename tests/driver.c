/* Calls the exported functions as told on standard input, and tells what came out: twins/rust/src/bin/twincalls asks and compares, and says
 * what requests and replies are. */
#define _DEFAULT_SOURCE /* for mmap */
#include "lent.h"
#include "sbp.h"

static uint8_t state[1 << 10]; /* a collator's, from request to request */

/* ---- requests */

static uint64_t number(unsigned n) {
    uint8_t bytes[8];
    if (fread(bytes, 1, n, stdin) != n) {
        exit(EXIT_SUCCESS);
    }
    return sbp_number(bytes, n);
}

/* A count, and so many things of some bytes each. */
static struct block *received(size_t each, bool written) {
    size_t count = number(4);
    struct block *b = lend(count * each, written);
    if (fread(b->at, 1, b->n, stdin) != b->n) {
        fail("a request is cut");
    }
    return b;
}

/* To be read alone. */
static struct block *given(size_t each) {
    struct block *b = received(each, false);
    memcpy(b->before, b->at, b->n);
    return b;
}

static struct block *filled(size_t n) {
    struct block *b = lend(n, true);
    memset(b->at, FILLED, n);
    return b;
}

/* A count of things to be written. */
static struct block *room_for(size_t each) { return filled(number(4) * each); }

/* The state, of which so many bytes are lent; keep_state takes it back. */
static struct block *lend_state(void) {
    size_t room = number(4);
    if (room > sizeof state) {
        fail("too much to lend");
    }
    struct block *b = lend(room, true);
    memcpy(b->at, state, room);
    return b;
}


/* ---- replies */

static void tell(uint64_t value, unsigned n) {
    for (unsigned i = 0; i < n; i++) {
        putchar((int)(value >> (8 * i) & 0xFF));
    }
}

static void tell_hash(const uint8_t *bytes, size_t n) {
    uint64_t hash = 0xcbf29ce484222325;
    for (size_t i = 0; i < n; i++) {
        hash = (hash ^ bytes[i]) * 0x100000001b3;
    }
    tell(hash, 8);
}

/* An answer of some bytes, and what was lent to be written. */
static void reply(uint64_t answer, unsigned n) {
    tell(answer, n);
    tell(untouched(), 1);
    for (unsigned i = 0; i < lent; i++) {
        if (blocks[i].written) {
            tell_hash(blocks[i].at, blocks[i].n);
        }
    }
}

/* What is lent after the state's own bytes is told a second time, by itself. */
static void keep_state(const struct block *b) {
    size_t own = b->n < SBP_STATE ? b->n : SBP_STATE;
    memcpy(state, b->at, b->n);
    tell_hash(b->at + own, b->n - own);
}

static uint64_t *numbers(struct block *b) { return (uint64_t *)(void *)b->at; }

/* ---- frames and listings */

static void crc(void) {
    uint16_t start = (uint16_t)number(2);
    struct block *bytes = given(1);
    reply(sbp_crc(start, bytes->at, bytes->n), 2);
}

static void frame_crc(void) {
    struct block *header = given(1), *payload = given(1);
    reply(sbp_frame_crc(header->at, header->n, payload->at, payload->n), 2);
}

static void answer(void) {
    uint16_t kind = (uint16_t)number(2);
    struct block *payload = given(1);
    reply(sbp_answer(kind, payload->at, payload->n), 1);
}

static void next(void) {
    size_t at = number(8);
    bool opened = number(1) != 0;
    struct block *row = room_for(1), *capture = given(1);
    reply(sbp_next(capture->at, capture->n, at, opened, row->at, row->n), 1);
}

static void totals(void) {
    struct block *row = room_for(1), *capture = given(1);
    reply(sbp_totals(capture->at, capture->n, row->at, row->n), 1);
}

static void list(void) {
    struct block *text = room_for(1), *size = filled(8), *capture = given(1);
    reply(sbp_list(capture->at, capture->n, text->at, text->n, numbers(size)), 1);
}

/* ---- rows */

static void read_row(void) {
    uint16_t kind = (uint16_t)number(2);
    struct block *row = room_for(8), *payload = given(1);
    reply(sbp_read(kind, payload->at, payload->n, numbers(row), row->n / 8), 1);
}

static void observation(void) {
    uint16_t kind = (uint16_t)number(2);
    size_t index = number(8);
    struct block *row = room_for(8), *payload = given(1);
    reply(sbp_observation(kind, payload->at, payload->n, index, numbers(row), row->n / 8), 1);
}

static void write_row(void) {
    uint16_t kind = (uint16_t)number(2), own = (uint16_t)number(2);
    uint32_t sender = (uint32_t)number(4);
    struct block *out = room_for(1), *size = filled(8), *row = given(8);
    reply(sbp_write(out->at, out->n, kind, own, sender, numbers(row), row->n / 8, numbers(size)), 1);
}

static void write_obs(void) {
    uint16_t kind = (uint16_t)number(2), own = (uint16_t)number(2);
    uint32_t sender = (uint32_t)number(4);
    struct block *out = room_for(1), *size = filled(8), *head = given(8), *rows = given(8);
    reply(sbp_write_obs(out->at, out->n, kind, own, sender, numbers(head), head->n / 8, numbers(rows), rows->n / 8, numbers(size)), 1);
}

static void write_log(void) {
    uint16_t own = (uint16_t)number(2);
    uint32_t sender = (uint32_t)number(4);
    uint8_t level = (uint8_t)number(1);
    size_t padding = number(8);
    struct block *out = room_for(1), *size = filled(8), *words = given(1);
    reply(sbp_write_log(out->at, out->n, own, sender, level, words->at, words->n, padding, numbers(size)), 1);
}

static void write_frame(void) {
    uint16_t kind = (uint16_t)number(2), own = (uint16_t)number(2);
    uint32_t sender = (uint32_t)number(4);
    struct block *out = room_for(1), *size = filled(8), *payload = given(1);
    reply(sbp_write_frame(out->at, out->n, kind, own, sender, payload->at, payload->n, numbers(size)), 1);
}

/* ---- flags and phase */

/* All flags of a type. */
static void flags(void) {
    uint16_t kind = (uint16_t)number(2);
    for (unsigned f = 0; f < 256; f++) {
        tell(sbp_fix(kind, (uint8_t)f), 1);
        tell(sbp_raim_available(kind, (uint8_t)f), 1);
        tell(sbp_raim_repaired(kind, (uint8_t)f), 1);
        tell(sbp_above_sea(kind, (uint8_t)f), 1);
    }
}

static void heartbeat(void) {
    uint32_t f = (uint32_t)number(4);
    tell(sbp_system_error(f), 1);
    tell(sbp_io_error(f), 1);
    tell(sbp_nap_error(f), 1);
    tell(sbp_external_antenna(f), 1);
}

static void phase(void) {
    int32_t l_i = (int32_t)number(4);
    tell((uint64_t)sbp_carrier_phase(l_i, (uint8_t)number(1)), 8);
}

static void parts(void) {
    int64_t whole = (int64_t)number(8);
    struct block *l_i = filled(4), *l_f = filled(1);
    reply(sbp_phase_parts(whole, (int32_t *)(void *)l_i->at, l_f->at), 1);
}

static void version(void) {
    tell(sbp_version(), 4);
    tell(SBP_VERSION, 4);
}

/* ---- collators: the state is that of the request before */

static void collator(void) {
    memset(state, FILLED, sizeof state);
    struct block *s = lend_state(), *roster = given(2);
    reply(sbp_collator(s->at, s->n, (const uint16_t *)(void *)roster->at, roster->n / 2), 1);
    keep_state(s);
}

static void growing(void) {
    memset(state, FILLED, sizeof state);
    struct block *s = lend_state();
    reply(sbp_growing(s->at, s->n), 1);
    keep_state(s);
}

static void enlist(void) {
    struct block *s = lend_state();
    uint16_t kind = (uint16_t)number(2), sender = (uint16_t)number(2);
    reply(sbp_enlist(s->at, s->n, kind, sender), 1);
    keep_state(s);
}

static void feed(void) {
    struct block *s = lend_state(), *report = room_for(1);
    uint16_t kind = (uint16_t)number(2), sender = (uint16_t)number(2);
    struct block *payload = given(1);
    reply(sbp_feed(s->at, s->n, kind, sender, payload->at, payload->n, report->at, report->n), 1);
    keep_state(s);
}

/* ---- indexes: what a call has left is sent with the next */

/* A list of no entries comes with any pointer. */
static struct sbp_entry *entries_at(struct block *b) {
    static uintptr_t turn;
    if (b->n == 0 && ++turn % 3 > 0) {
        return (struct sbp_entry *)(turn % 3 - 1);
    }
    return (struct sbp_entry *)(void *)b->at;
}

static size_t entries_of(const struct block *b) { return b->n / sizeof(struct sbp_entry); }

/* What stands after an entry's last field is nobody's in so many of the first entries, and is told as zeros. */
static void clear_between(struct block *b, size_t held) {
    const size_t fields = offsetof(struct sbp_entry, length) + 1;
    for (size_t i = 0; i < held && i < entries_of(b); i++) {
        memset(b->at + i * sizeof(struct sbp_entry) + fields, 0, sizeof(struct sbp_entry) - fields);
    }
}

static void make_index(void) {
    struct block *index = room_for(1);
    reply(sbp_index(index->at, index->n), 1);
}

static void extend(void) {
    struct block *index = received(1, true), *entries = received(sizeof(struct sbp_entry), true);
    size_t held = number(4);
    struct block *capture = given(1);
    uint8_t answer = sbp_extend(index->at, index->n, capture->at, capture->n, entries_at(entries), entries_of(entries));
    clear_between(entries, held);
    reply(answer, 1);
}

static void first(void) {
    struct block *index = given(1), *entries = given(sizeof(struct sbp_entry)), *place = filled(8);
    uint16_t kind = (uint16_t)number(2), sender = (uint16_t)number(2);
    uint64_t offset = number(8);
    reply(sbp_first(index->at, index->n, entries_at(entries), entries_of(entries), kind, sender, offset, numbers(place)), 1);
}

static void count(void) {
    struct block *index = given(1), *total = filled(8);
    uint16_t kind = (uint16_t)number(2);
    reply(sbp_count(index->at, index->n, kind, numbers(total)), 1);
}

int main(void) {
    map_blocks();
    for (;;) {
        lent = 0;
        switch (number(1)) {
        case 'c': crc(); break;
        case 'C': frame_crc(); break;
        case 'a': answer(); break;
        case 'n': next(); break;
        case 't': totals(); break;
        case 'l': list(); break;
        case 'r': read_row(); break;
        case 'o': observation(); break;
        case 'w': write_row(); break;
        case 'W': write_obs(); break;
        case 'L': write_log(); break;
        case 'F': write_frame(); break;
        case 'x': flags(); break;
        case 'h': heartbeat(); break;
        case 'p': phase(); break;
        case 'P': parts(); break;
        case 'v': version(); break;
        case 'm': collator(); break;
        case 'g': growing(); break;
        case 'e': enlist(); break;
        case 'f': feed(); break;
        case 'I': make_index(); break;
        case 'E': extend(); break;
        case 'q': first(); break;
        case 'k': count(); break;
        default: fail("no such request");
        }
        fflush(stdout);
    }
}

/* Packets out of order (request P7): every order, copies, another epoch in between, refused frames in between, two senders, and the ticket's 400
 * epochs through two queues. From one line to the next the collator goes on. */
#include "fed.h"

enum { MOST = 4 };

/* ---- orders */

/* What is said of n numbers, those below n in some order. */
typedef void saying(unsigned n, const unsigned *order);

static bool among(const unsigned *numbers, unsigned n, unsigned number) {
    for (unsigned i = 0; i < n; i++) {
        if (numbers[i] == number) {
            return true;
        }
    }
    return false;
}

/* All orders that begin with the numbers that are chosen, one after the other as words in a book. */
static void begun(unsigned n, unsigned chosen, unsigned order[MOST], saying *say) {
    if (chosen == n) {
        say(n, order);
        return;
    }
    for (unsigned i = 0; i < n; i++) {
        if (!among(order, chosen, i)) {
            order[chosen] = i;
            begun(n, chosen + 1, order, say);
        }
    }
}

static void each_order(unsigned n, saying *say) {
    unsigned order[MOST] = {0};
    begun(n, 0, order, say);
}

static void say_numbered(const char *name, unsigned n, const unsigned *order) {
    printf("%s", name);
    for (unsigned p = 0; p < n; p++) {
        printf(" %u", order[p]);
    }
}

static void say_packet(uint16_t sender, unsigned n, unsigned i, size_t count) {
    const struct frame f = PACKET(sender, 5, 6, (uint8_t)(16 * n + i), count);
    say_fed(&f);
}

/* Packet i of one sender has 2^i observations, so that each is seen in the sum. */
static void say_own(unsigned n, unsigned i) { say_packet(0, n, i, (size_t)1 << i); }

static void say_order(unsigned n, const unsigned *order) {
    say_numbered("order", n, order);
    for (unsigned p = 0; p < n; p++) {
        say_own(n, order[p]);
    }
    putchar('\n');
}

/* Before each packet come copies of all before it, with more observations. */
static void say_copied(unsigned n, const unsigned *order) {
    say_numbered("copied", n, order);
    for (unsigned p = 0; p < n; p++) {
        for (unsigned q = 0; q < p; q++) {
            say_packet(0, n, order[q], 15);
        }
        say_own(n, order[p]);
    }
    putchar('\n');
}

/* After each packet come frames like the first one, each but for one thing, for which it is refused. */
static void say_refused_after(unsigned n, const unsigned *order) {
    static const struct frame refused[] = {
        {0x004A, 0, 5, 6, 0x30, HEAD + EACH}, {SBP_MSG_OBS, 0, 5, 6, 0x30, HEAD + EACH + 1}, PACKET(9, 5, 6, 0x30, 1),
        PACKET(0, 5, 6, 0x00, 1), PACKET(0, 5, 6, 0x33, 1),
    };
    say_numbered("refused", n, order);
    for (unsigned p = 0; p < n; p++) {
        say_own(n, order[p]);
        for (size_t i = 0; i < COUNT(refused); i++) {
            say_fed(&refused[i]);
        }
    }
    putchar('\n');
}

/* Two senders at one time: 0 and 1 are the packets of the one, 2 and 3 those of the other. */
static void say_overtaking(unsigned n, const unsigned *order) {
    say_numbered("overtaking", n, order);
    for (unsigned p = 0; p < n; p++) {
        const unsigned i = order[p];
        say_packet(i < 2 ? 0 : 1228, 2, i % 2, (size_t)1 << i);
    }
    putchar('\n');
}

/* ---- after an epoch, and between its packets */

/* One of an epoch's packets comes twice more after it, and then the others. */
static void say_late(unsigned n, unsigned i) {
    printf("late %u %u", n, i);
    for (unsigned k = 0; k < n; k++) {
        say_own(n, k);
    }
    say_packet(0, n, i, 15);
    say_packet(0, n, i, 15);
    for (unsigned k = 0; k < n; k++) {
        if (k != i) {
            say_own(n, k);
        }
    }
    putchar('\n');
}

static void late(void) {
    for (unsigned n = 1; n <= MOST; n++) {
        for (unsigned i = 0; i < n; i++) {
            say_late(n, i);
        }
    }
}

/* Of an epoch of three some packets; some of another; those of the first that are missing, and the others again. */
static void say_between(const struct frame *other, unsigned came, unsigned others) {
    printf("between %" PRIu32 " %d %d %u %u", other->tow, other->wn, other->n_obs >> 4, came, others);
    for (unsigned i = 0; i < came; i++) {
        say_own(3, i);
    }
    for (unsigned i = 0; i < others; i++) {
        struct frame f = *other;
        f.n_obs = (uint8_t)(f.n_obs + i);
        say_fed(&f);
    }
    for (unsigned i = came; i < 3 + came; i++) {
        say_own(3, i % 3);
    }
    putchar('\n');
}

static void between(void) {
    static const struct frame others[] = {PACKET(0, 4, 6, 0x30, 9), PACKET(0, 5, 7, 0x30, 9), PACKET(0, 5, 6, 0x20, 9), PACKET(0, 5, 6, 0x10, 9)};
    for (size_t i = 0; i < COUNT(others); i++) {
        for (unsigned came = 1; came <= 2; came++) {
            for (unsigned n = 1; n <= (unsigned)others[i].n_obs >> 4; n++) {
                say_between(&others[i], came, n);
            }
        }
    }
}

/* ---- epochs of 1 to 15 packets */

static void backwards(void) {
    for (unsigned n = 1; n <= 15; n++) {
        printf("backwards %u", n);
        for (unsigned i = n; i > 0; i--) {
            say_packet(0, n, i - 1, 15);
        }
        putchar('\n');
    }
}

static void twice(void) {
    for (unsigned n = 1; n <= 15; n++) {
        printf("twice %u", n);
        for (unsigned i = 0; i < n; i++) {
            say_packet(0, n, i, 2);
            say_packet(0, n, i, 3);
        }
        putchar('\n');
    }
}

/* ---- the ticket: 400 epochs of a base and of the rover that it relays as sender 0, by a radio with two queues */

struct queue {
    const struct frame *frames;
    size_t left;
};

/* One epoch of each, a stranger's packet and a refused one. The bits of the time say from which queue the next one comes. */
static void say_queues(uint32_t tow, unsigned *base, unsigned *rover) {
    static const struct frame one[] = {
        PACKET(1228, 0, 1900, 0x30, 12), PACKET(77, 0, 1900, 0x20, 9), PACKET(0, 0, 1900, 0x20, 9), PACKET(1228, 0, 1900, 0x32, 1),
    };
    static const struct frame other[] = {PACKET(0, 0, 1900, 0x00, 1), PACKET(1228, 0, 1900, 0x31, 12), PACKET(0, 0, 1900, 0x21, 4)};
    struct queue queues[] = {{one, COUNT(one)}, {other, COUNT(other)}};
    printf("queues %" PRIu32, tow);
    for (size_t bit = 0; bit < COUNT(one) + COUNT(other); bit++) {
        const uint32_t turn = tow >> bit & 1;
        struct queue *q = &queues[queues[turn].left > 0 ? turn : 1 - turn];
        struct frame f = *q->frames;
        f.tow = tow;
        q->frames++;
        q->left--;
        if (say_fed(&f)) {
            *base += f.sender == 1228;
            *rover += f.sender == 0;
        }
    }
    putchar('\n');
}

static void two_queues(void) {
    unsigned base = 0, rover = 0;
    collate_three();
    for (uint32_t tow = 0; tow < 400; tow++) {
        say_queues(tow, &base, &rover);
    }
    printf("two-queues %u %u\n", base, rover);
}

void out_of_order(void) {
    static const uint16_t roster[] = {0, 1228};
    collate(roster, 1);
    for (unsigned n = 1; n <= MOST; n++) {
        each_order(n, say_order);
    }
    for (unsigned n = 1; n <= MOST; n++) {
        each_order(n, say_copied);
    }
    late();
    between();
    each_order(3, say_refused_after);
    collate(roster, COUNT(roster));
    each_order(4, say_overtaking);
    backwards();
    twice();
    two_queues();
}

/* Messages without a tail read into rows and written again, what their flags mean, and what every type answers: sbp_read, sbp_write, sbp_answer,
 * sbp_fix and the other flags. */
#include "values.h"

/* Its fields by Python's letters. */
struct message {
    const char *name;
    uint16_t kind;
    const char *fields;
};

#define TIME "IH"
#define COMMON "HBB" TIME "dIBB"
#define VECTOR "ddd"
#define MOTION VECTOR VECTOR VECTOR
#define ORBIT_GPS "dddddddddddddddd"
#define CLOCK_GPS "ddd" TIME "BH"

static const struct message MESSAGES[] = {
    {"gps-time", SBP_MSG_GPS_TIME, "HIiB"},
    {"dops", SBP_MSG_DOPS, "IHHHHH"},
    {"pos-ecef", SBP_MSG_POS_ECEF, "I" VECTOR "HBB"},
    {"pos-llh", SBP_MSG_POS_LLH, "I" VECTOR "HHBB"},
    {"baseline-ecef", SBP_MSG_BASELINE_ECEF, "IiiiHBB"},
    {"vel-ecef", SBP_MSG_VEL_ECEF, "IiiiHBB"},
    {"baseline-ned", SBP_MSG_BASELINE_NED, "IiiiHHBB"},
    {"vel-ned", SBP_MSG_VEL_NED, "IiiiHHBB"},
    {"baseline-heading", SBP_MSG_BASELINE_HEADING, "IIBB"},
    {"base-pos-llh", SBP_MSG_BASE_POS_LLH, VECTOR},
    {"base-pos-ecef", SBP_MSG_BASE_POS_ECEF, VECTOR},
    {"ephemeris-gps", SBP_MSG_EPHEMERIS_GPS, COMMON ORBIT_GPS CLOCK_GPS},
    {"ephemeris-sbas", SBP_MSG_EPHEMERIS_SBAS, COMMON MOTION "dd"},
    {"ephemeris-glo", SBP_MSG_EPHEMERIS_GLO, COMMON "dd" MOTION},
    {"iono", SBP_MSG_IONO, TIME "dddddddd"},
    {"sv-configuration-gps", SBP_MSG_SV_CONFIGURATION_GPS, TIME "I"},
    {"group-delay", SBP_MSG_GROUP_DELAY, TIME "BBhhh"},
    {"read-by-index-req", SBP_MSG_SETTINGS_READ_BY_INDEX_REQ, "H"},
    {"startup", SBP_MSG_STARTUP, "I"},
    {"heartbeat", SBP_MSG_HEARTBEAT, "I"},
    {"settings-save", SBP_MSG_SETTINGS_SAVE, ""},
    {"read-by-index-done", SBP_MSG_SETTINGS_READ_BY_INDEX_DONE, ""},
};

static size_t size_of(const char *fields) {
    size_t size = 0;
    for (; *fields; fields++) {
        const int letter = toupper((unsigned char)*fields);
        size += letter == 'B' ? 1 : letter == 'H' ? 2 : letter == 'I' ? 4 : 8;
    }
    return size;
}

/* ---- a message */

/* The fields that are read, and the frame that they are written as. */
static void say(const struct message *m, const uint8_t *payload, size_t n) {
    uint64_t row[SBP_FIELDS_MOST];
    struct out out;
    fill(row, sizeof row);
    fill(&out, sizeof out);
    printf("%s", m->name);
    const uint8_t refusal = sbp_read(m->kind, payload, n, row, SBP_FIELDS_MOST);
    say_row(refusal, m->fields, row);
    if (!refusal) {
        say_frame(sbp_write(out.bytes, OUT, m->kind, OWN, 0x0201, row, strlen(m->fields), &out.size), &out);
    }
    putchar('\n');
}

void say_message(const char *name, const uint8_t *payload, size_t n) {
    for (size_t i = 0; i < COUNT(MESSAGES); i++) {
        if (strcmp(MESSAGES[i].name, name) == 0) {
            say(&MESSAGES[i], payload, n);
        }
    }
}

/* ---- every message: at its length and one off, at the ends of its ranges, with NaNs and minus zero */

/* Those that have a payload, all at their length and some bytes more or less. */
static void say_all(const uint8_t *payload, size_t more, size_t less) {
    for (size_t i = 0; i < COUNT(MESSAGES); i++) {
        if (*MESSAGES[i].fields) {
            say(&MESSAGES[i], payload, size_of(MESSAGES[i].fields) + more - less);
        }
    }
}

static void say_lengths(size_t seed) {
    uint8_t payload[SBP_PAYLOAD_MOST];
    mix(payload, sizeof payload, seed, 37);
    say_all(payload, 0, 1);
    say_all(payload, 0, 0);
    say_all(payload, 1, 0);
}

static void say_ns(int64_t ns) {
    uint8_t payload[11] = {0};
    put(payload + 6, (uint64_t)ns, 4);
    say_message("gps-time", payload, sizeof payload);
}

/* The same pattern in each of three doubles. */
static void say_positions(uint64_t bits) {
    uint8_t payload[34] = {0};
    for (size_t at = 4; at < 28; at += 8) {
        put(payload + at, bits, 8);
    }
    say_message("pos-llh", payload, 34);
    say_message("pos-ecef", payload, 32);
    say_message("base-pos-llh", payload + 4, 24);
    say_message("base-pos-ecef", payload + 4, 24);
}

void each(void) {
    static const int64_t ns[] = {500000, 500001, -500000, -500001};
    static const uint64_t patterns[] = {0x8000000000000000, 0x7FF0000000000001, 0xFFF8000000000123, 0x7FFFFFFFFFFFFFFF};
    const uint8_t zero = 0;
    say_lengths(0);
    say_lengths(5);
    for (size_t i = 0; i < COUNT(ns); i++) {
        say_ns(ns[i]);
    }
    for (size_t i = 0; i < COUNT(patterns); i++) {
        say_positions(patterns[i]);
    }
    say_message("settings-save", &zero, 0);
    say_message("settings-save", &zero, 1);
    say_message("read-by-index-done", &zero, 0);
    say_message("read-by-index-done", &zero, 1);
}

/* ---- each kind of double in each place of the ephemerides and of IONO, and group delays at the ends of their range */

/* Minus zero, both infinities, both ends of the subnormals, two NaN patterns; the first by its turn. */
static void put_doubles(uint8_t *bytes, size_t n, size_t turn) {
    static const uint64_t patterns[] = {
        0x8000000000000000, 0x7FF0000000000000, 0xFFF0000000000000, 1, 0x800FFFFFFFFFFFFF, 0x7FF0000000000001, 0xFFF8000000000123,
    };
    for (size_t i = 0; i < n; i++) {
        put(bytes + 8 * i, patterns[(turn + i) % COUNT(patterns)], 8);
    }
}

static void say_doubles(size_t turn) {
    uint8_t payload[185], iono[70];
    mix(payload, sizeof payload, 5, 37);
    mix(iono, sizeof iono, 5, 37);
    put_doubles(payload + 10, 1, turn);
    put_doubles(payload + 24, 19, turn);
    put_doubles(iono + 6, 8, turn);
    say_message("ephemeris-gps", payload, 185);
    say_message("ephemeris-sbas", payload, 112);
    say_message("ephemeris-glo", payload, 112);
    say_message("iono", iono, 70);
}

static void say_delays(int64_t tgd, int64_t isc_l1ca, int64_t isc_l2c) {
    uint8_t payload[14] = {0};
    put(payload + 8, (uint64_t)tgd, 2);
    put(payload + 10, (uint64_t)isc_l1ca, 2);
    put(payload + 12, (uint64_t)isc_l2c, 2);
    say_message("group-delay", payload, sizeof payload);
}

void orbits(void) {
    for (size_t turn = 0; turn < 7; turn++) {
        say_doubles(turn);
    }
    say_delays(-32768, 32767, -1);
    say_delays(-1, -32768, 32767);
    say_delays(32767, -1, -32768);
}

/* ---- flags: a flags byte at all its values, HEARTBEAT's bit by bit */

static const uint16_t ECEF[] = {SBP_MSG_POS_ECEF};
static const uint16_t LLH[] = {SBP_MSG_POS_LLH};
static const uint16_t BASELINES[] = {SBP_MSG_BASELINE_ECEF, SBP_MSG_BASELINE_NED, SBP_MSG_BASELINE_HEADING};
static const uint16_t BUT_LLH[] = {SBP_MSG_POS_ECEF, SBP_MSG_BASELINE_ECEF, SBP_MSG_BASELINE_NED, SBP_MSG_BASELINE_HEADING};

/* What types that have one table answer; 255 where one of them answers otherwise. */
static uint8_t agreed(uint8_t (*asked)(uint16_t, uint8_t), const uint16_t *kinds, size_t n, uint8_t flags) {
    const uint8_t first = asked(kinds[0], flags);
    for (size_t i = 1; i < n; i++) {
        if (asked(kinds[i], flags) != first) {
            return 255;
        }
    }
    return first;
}

static void say_fix(const uint16_t *kinds, size_t n, uint8_t flags) {
    static const char *const words[] = {"single", "float", "fixed", "reserved"};
    const uint8_t fix = agreed(sbp_fix, kinds, n, flags);
    printf(" %s", fix < COUNT(words) ? words[fix] : "none");
}

/* The answer of a payload of zeros whose last byte is flags. */
static void say_answer(uint16_t kind, size_t n, uint8_t flags) {
    uint8_t payload[34] = {0};
    payload[n - 1] = flags;
    printf(" %d", sbp_answer(kind, payload, n));
}

/* The answer of each ranged message and what its fix mode means, then the other bits. */
static void say_flags(uint8_t flags) {
    printf("flags %d", flags);
    say_answer(SBP_MSG_POS_ECEF, 32, flags);
    say_fix(ECEF, COUNT(ECEF), flags);
    say_answer(SBP_MSG_POS_LLH, 34, flags);
    say_fix(LLH, COUNT(LLH), flags);
    say_answer(SBP_MSG_BASELINE_ECEF, 20, flags);
    say_fix(BASELINES, COUNT(BASELINES), flags);
    say_answer(SBP_MSG_BASELINE_NED, 22, flags);
    say_answer(SBP_MSG_BASELINE_HEADING, 10, flags);
    printf(" %d", agreed(sbp_raim_available, BUT_LLH, COUNT(BUT_LLH), flags));
    printf(" %d", agreed(sbp_raim_repaired, BUT_LLH, COUNT(BUT_LLH), flags));
    printf(" %d", sbp_above_sea(SBP_MSG_POS_LLH, flags));
    printf(" %d", sbp_raim_available(SBP_MSG_POS_LLH, flags));
    printf(" %d\n", sbp_raim_repaired(SBP_MSG_POS_LLH, flags));
}

static void say_heartbeat(uint32_t flags) {
    printf("heartbeat-flags %08" PRIx32 " %d %d %d %d\n", flags, sbp_system_error(flags), sbp_io_error(flags), sbp_nap_error(flags),
           sbp_external_antenna(flags));
}

void flags(void) {
    for (unsigned value = 0; value < 256; value++) {
        say_flags((uint8_t)value);
    }
    say_heartbeat(0);
    for (unsigned bit = 0; bit < 32; bit++) {
        say_heartbeat(UINT32_C(1) << bit);
    }
    say_heartbeat(UINT32_MAX);
}

/* ---- types */

/* The lengths up to 264 at which zeros are taken. */
static void say_taken(uint16_t kind) {
    static const uint8_t zeros[264];
    printf("lengths %04x", kind);
    for (size_t n = 0; n <= sizeof zeros; n++) {
        if (sbp_answer(kind, zeros, n) == SBP_OK) {
            printf(" %zu", n);
        }
    }
    putchar('\n');
}

/* How many types answer 21 to an empty payload, and how many 22. */
static void say_unknown(void) {
    const uint8_t nothing = 0;
    unsigned answers[256] = {0};
    for (unsigned kind = 0; kind < 65536; kind++) {
        answers[sbp_answer((uint16_t)kind, &nothing, 0)]++;
    }
    printf("types %u %u\n", answers[SBP_UNKNOWN_TYPE], answers[SBP_WRONG_LENGTH]);
}

void types(void) {
    for (size_t i = 0; i < COUNT(MESSAGES); i++) {
        say_taken(MESSAGES[i].kind);
    }
    say_taken(SBP_MSG_OBS);
    say_taken(SBP_MSG_LOG);
    say_unknown();
}

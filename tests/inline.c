/* Calls every inline function of sbp.h, looks at every name in it and holds its sizes, and what it says of LOG's text, of the CRC and of an index,
 * to the library. What is not as it should be is a line 'differs: ..'; the last line is 'N passed, M failed'. No two bytes of a row are alike, so that a
 * field from another place, of another width or without its sign shows.
 * usage: inline (tests/header.sh builds and runs it) */
#include <inttypes.h>
#include <stdio.h>

#include "sbp.h"

#define OWN 1228 /* the own number of the recorder that writes */

static unsigned passed, failed;

static void same(const char *where, const char *what, uint64_t got, uint64_t wanted) {
    if (got == wanted) {
        passed++;
    } else {
        failed++;
        printf("differs: %s: %s is 0x%" PRIx64 ", not 0x%" PRIx64 "\n", where, what, got, wanted);
    }
}

#define SAME(what, got, wanted) same(__func__, what, got, wanted)

/* ---- messages */

/* Bytes that begin a double's number: a NaN that is not quiet, negative by its sign bit. A processor that moves it as a number makes it quiet. */
#define NAN_TOP 0xFFF4000000000000

/* Doubles that are no ordinary numbers: zero and minus zero, infinities, a subnormal. */
static const uint64_t ends[] = {0, 0x8000000000000000, 0x7FF0000000000000, 0xFFF0000000000000, 1};

enum pattern { NEGATIVE, POSITIVE, NANS, ENDS };

/* The number of a field of so many bytes, the bytes counting up from first. POSITIVE has all bits the other way. */
static uint64_t patterned(enum pattern pattern, unsigned first, unsigned size) {
    uint64_t value = 0;
    for (unsigned i = 0; i < size; i++) {
        value |= (uint64_t)((first + i) % 256) << 8 * i;
    }
    return pattern == POSITIVE ? ~value & UINT64_MAX >> (64 - 8 * size) : value;
}

/* A row by its fields' formats: B, H and I unsigned of 1, 2 and 4 bytes, h and i signed of 2 and 4, d a double. */
static void fill(uint64_t *row, const char *formats, enum pattern pattern) {
    unsigned first = 0x81;
    for (size_t i = 0; formats[i] != '\0'; i++) {
        const char format = formats[i];
        const unsigned size = format == 'B' ? 1 : format == 'H' || format == 'h' ? 2 : format == 'd' ? 8 : 4;
        row[i] = patterned(pattern, first, size);
        if ((format == 'h' || format == 'i') && pattern != POSITIVE) {
            row[i] |= UINT64_MAX << 8 * size;
        }
        if (format == 'd' && pattern == NANS) {
            row[i] = NAN_TOP | (row[i] & 0x0000FFFFFFFFFFFF);
        }
        if (format == 'd' && pattern == ENDS) {
            row[i] = ends[i % (sizeof ends / sizeof *ends)];
        }
        first += size;
    }
}

static uint64_t bits(double value) {
    uint64_t number;
    memcpy(&number, &value, sizeof number);
    return number;
}

/* A field has the number of its place in the row, and its format's size. A conversion to uint64_t extends the sign of a signed one. */
#define HELD(field, got, wanted, size) (SAME(#field, got, wanted), SAME("sizeof " #field, sizeof(field), size))
#define U8(field, wanted) HELD(field, (uint64_t)(field), wanted, 1)
#define U16(field, wanted) HELD(field, (uint64_t)(field), wanted, 2)
#define U32(field, wanted) HELD(field, (uint64_t)(field), wanted, 4)
#define S16(field, wanted) HELD(field, (uint64_t)(field), wanted, 2)
#define S32(field, wanted) HELD(field, (uint64_t)(field), wanted, 4)
#define F64(field, wanted) HELD(field, bits(field), wanted, 8)

/* The struct m makes the row again, and nothing after it. */
#define BACK(name, count)                                        \
    do {                                                         \
        uint64_t back[(count) + 1];                              \
        memset(back, 0xEE, sizeof back);                         \
        name##_row(&m, back);                                    \
        for (size_t i = 0; i < (count); i++) {                   \
            SAME("a number of its row", back[i], row[i]);        \
        }                                                        \
        SAME("after its row", back[count], 0xEEEEEEEEEEEEEEEE);  \
    } while (0)

static void gps_time(const uint64_t *row) {
    const struct sbp_gps_time m = sbp_gps_time_of(row);
    U16(m.wn, row[0]);
    U32(m.tow, row[1]);
    S32(m.ns, row[2]);
    U8(m.flags, row[3]);
    BACK(sbp_gps_time, 4);
}

static void dops(const uint64_t *row) {
    const struct sbp_dops m = sbp_dops_of(row);
    U32(m.tow, row[0]);
    U16(m.gdop, row[1]);
    U16(m.pdop, row[2]);
    U16(m.tdop, row[3]);
    U16(m.hdop, row[4]);
    U16(m.vdop, row[5]);
    BACK(sbp_dops, 6);
}

static void pos_ecef(const uint64_t *row) {
    const struct sbp_pos_ecef m = sbp_pos_ecef_of(row);
    U32(m.tow, row[0]);
    F64(m.x, row[1]);
    F64(m.y, row[2]);
    F64(m.z, row[3]);
    U16(m.accuracy, row[4]);
    U8(m.n_sats, row[5]);
    U8(m.flags, row[6]);
    BACK(sbp_pos_ecef, 7);
}

static void pos_llh(const uint64_t *row) {
    const struct sbp_pos_llh m = sbp_pos_llh_of(row);
    U32(m.tow, row[0]);
    F64(m.lat, row[1]);
    F64(m.lon, row[2]);
    F64(m.height, row[3]);
    U16(m.h_accuracy, row[4]);
    U16(m.v_accuracy, row[5]);
    U8(m.n_sats, row[6]);
    U8(m.flags, row[7]);
    BACK(sbp_pos_llh, 8);
}

static void baseline_ecef(const uint64_t *row) {
    const struct sbp_baseline_ecef m = sbp_baseline_ecef_of(row);
    U32(m.tow, row[0]);
    S32(m.x, row[1]);
    S32(m.y, row[2]);
    S32(m.z, row[3]);
    U16(m.accuracy, row[4]);
    U8(m.n_sats, row[5]);
    U8(m.flags, row[6]);
    BACK(sbp_baseline_ecef, 7);
}

static void vel_ecef(const uint64_t *row) {
    const struct sbp_vel_ecef m = sbp_vel_ecef_of(row);
    U32(m.tow, row[0]);
    S32(m.x, row[1]);
    S32(m.y, row[2]);
    S32(m.z, row[3]);
    U16(m.accuracy, row[4]);
    U8(m.n_sats, row[5]);
    U8(m.flags, row[6]);
    BACK(sbp_vel_ecef, 7);
}

static void baseline_ned(const uint64_t *row) {
    const struct sbp_baseline_ned m = sbp_baseline_ned_of(row);
    U32(m.tow, row[0]);
    S32(m.n, row[1]);
    S32(m.e, row[2]);
    S32(m.d, row[3]);
    U16(m.h_accuracy, row[4]);
    U16(m.v_accuracy, row[5]);
    U8(m.n_sats, row[6]);
    U8(m.flags, row[7]);
    BACK(sbp_baseline_ned, 8);
}

static void vel_ned(const uint64_t *row) {
    const struct sbp_vel_ned m = sbp_vel_ned_of(row);
    U32(m.tow, row[0]);
    S32(m.n, row[1]);
    S32(m.e, row[2]);
    S32(m.d, row[3]);
    U16(m.h_accuracy, row[4]);
    U16(m.v_accuracy, row[5]);
    U8(m.n_sats, row[6]);
    U8(m.flags, row[7]);
    BACK(sbp_vel_ned, 8);
}

static void baseline_heading(const uint64_t *row) {
    const struct sbp_baseline_heading m = sbp_baseline_heading_of(row);
    U32(m.tow, row[0]);
    U32(m.heading, row[1]);
    U8(m.n_sats, row[2]);
    U8(m.flags, row[3]);
    BACK(sbp_baseline_heading, 4);
}

static void base_pos_llh(const uint64_t *row) {
    const struct sbp_base_pos_llh m = sbp_base_pos_llh_of(row);
    F64(m.lat, row[0]);
    F64(m.lon, row[1]);
    F64(m.height, row[2]);
    BACK(sbp_base_pos_llh, 3);
}

static void base_pos_ecef(const uint64_t *row) {
    const struct sbp_base_pos_ecef m = sbp_base_pos_ecef_of(row);
    F64(m.x, row[0]);
    F64(m.y, row[1]);
    F64(m.z, row[2]);
    BACK(sbp_base_pos_ecef, 3);
}

static void obs(const uint64_t *row) {
    const struct sbp_obs m = sbp_obs_of(row);
    U32(m.tow, row[0]);
    U16(m.wn, row[1]);
    U8(m.n_obs, row[2]);
    U8(m.k, row[3]);
    BACK(sbp_obs, 4);
}

static void observation_row(const uint64_t *row) {
    const struct sbp_observation_row m = sbp_observation_row_of(row);
    U32(m.P, row[0]);
    S32(m.L.i, row[1]);
    U8(m.L.f, row[2]);
    U8(m.cn0, row[3]);
    U16(m.lock, row[4]);
    U16(m.sid.sat, row[5]);
    U8(m.sid.code, row[6]);
    U8(m.sid.reserved, row[7]);
    BACK(sbp_observation_row, 8);
}

/* The parts that several messages have, from their first number on. */

static void time_of_week(const struct sbp_time_of_week m, const uint64_t *row) {
    U32(m.tow, row[0]);
    U16(m.wn, row[1]);
}

static void ephemeris_common(const struct sbp_ephemeris_common m, const uint64_t *row) {
    U16(m.sid.sat, row[0]);
    U8(m.sid.code, row[1]);
    U8(m.sid.reserved, row[2]);
    time_of_week(m.toe, row + 3);
    F64(m.ura, row[5]);
    U32(m.fit_interval, row[6]);
    U8(m.valid, row[7]);
    U8(m.health, row[8]);
}

static void motion(const struct sbp_motion m, const uint64_t *row) {
    for (size_t i = 0; i < 3; i++) {
        F64(m.pos[i], row[i]);
        F64(m.vel[i], row[3 + i]);
        F64(m.acc[i], row[6 + i]);
    }
}

static void ephemeris_gps(const uint64_t *row) {
    const struct sbp_ephemeris_gps m = sbp_ephemeris_gps_of(row);
    ephemeris_common(m.common, row);
    F64(m.tgd, row[9]);
    F64(m.c_rs, row[10]);
    F64(m.c_rc, row[11]);
    F64(m.c_uc, row[12]);
    F64(m.c_us, row[13]);
    F64(m.c_ic, row[14]);
    F64(m.c_is, row[15]);
    F64(m.dn, row[16]);
    F64(m.m0, row[17]);
    F64(m.ecc, row[18]);
    F64(m.sqrta, row[19]);
    F64(m.omega0, row[20]);
    F64(m.omegadot, row[21]);
    F64(m.w, row[22]);
    F64(m.inc, row[23]);
    F64(m.inc_dot, row[24]);
    F64(m.af0, row[25]);
    F64(m.af1, row[26]);
    F64(m.af2, row[27]);
    time_of_week(m.toc, row + 28);
    U8(m.iode, row[30]);
    U16(m.iodc, row[31]);
    BACK(sbp_ephemeris_gps, 32);
}

static void ephemeris_sbas(const uint64_t *row) {
    const struct sbp_ephemeris_sbas m = sbp_ephemeris_sbas_of(row);
    ephemeris_common(m.common, row);
    motion(m.motion, row + 9);
    F64(m.a_gf0, row[18]);
    F64(m.a_gf1, row[19]);
    BACK(sbp_ephemeris_sbas, 20);
}

static void ephemeris_glo(const uint64_t *row) {
    const struct sbp_ephemeris_glo m = sbp_ephemeris_glo_of(row);
    ephemeris_common(m.common, row);
    F64(m.gamma, row[9]);
    F64(m.tau, row[10]);
    motion(m.motion, row + 11);
    BACK(sbp_ephemeris_glo, 20);
}

static void iono(const uint64_t *row) {
    const struct sbp_iono m = sbp_iono_of(row);
    time_of_week(m.t_nmct, row);
    for (size_t i = 0; i < 4; i++) {
        F64(m.a[i], row[2 + i]);
        F64(m.b[i], row[6 + i]);
    }
    BACK(sbp_iono, 10);
}

static void sv_configuration_gps(const uint64_t *row) {
    const struct sbp_sv_configuration_gps m = sbp_sv_configuration_gps_of(row);
    time_of_week(m.t_nmct, row);
    U32(m.l2c_mask, row[2]);
    BACK(sbp_sv_configuration_gps, 3);
}

static void group_delay(const uint64_t *row) {
    const struct sbp_group_delay m = sbp_group_delay_of(row);
    time_of_week(m.t_op, row);
    U8(m.prn, row[2]);
    U8(m.valid, row[3]);
    S16(m.tgd, row[4]);
    S16(m.isc_l1ca, row[5]);
    S16(m.isc_l2c, row[6]);
    BACK(sbp_group_delay, 7);
}

static void log_(const uint64_t *row) {
    const struct sbp_log m = sbp_log_of(row);
    U8(m.level, row[0]);
    U8(m.length, row[1]);
    U8(m.padding, row[2]);
    BACK(sbp_log, 3);
}

static void read_by_index_req(const uint64_t *row) {
    const struct sbp_read_by_index_req m = sbp_read_by_index_req_of(row);
    U16(m.index, row[0]);
    BACK(sbp_read_by_index_req, 1);
}

static void startup(const uint64_t *row) {
    const struct sbp_startup m = sbp_startup_of(row);
    U32(m.reserved, row[0]);
    BACK(sbp_startup, 1);
}

static void heartbeat(const uint64_t *row) {
    const struct sbp_heartbeat m = sbp_heartbeat_of(row);
    U32(m.flags, row[0]);
    BACK(sbp_heartbeat, 1);
}

static const struct {
    const char *formats;
    void (*test)(const uint64_t *row);
} messages[] = {
    {"HIiB", gps_time},
    {"IHHHHH", dops},
    {"IdddHBB", pos_ecef},
    {"IdddHHBB", pos_llh},
    {"IiiiHBB", baseline_ecef},
    {"IiiiHBB", vel_ecef},
    {"IiiiHHBB", baseline_ned},
    {"IiiiHHBB", vel_ned},
    {"IIBB", baseline_heading},
    {"ddd", base_pos_llh},
    {"ddd", base_pos_ecef},
    {"IHBB", obs},
    {"IiBBHHBB", observation_row},
    {"HBBIHdIBB" "ddddddddddddddddddd" "IHBH", ephemeris_gps},
    {"HBBIHdIBB" "ddddddddd" "dd", ephemeris_sbas},
    {"HBBIHdIBB" "dd" "ddddddddd", ephemeris_glo},
    {"IHdddddddd", iono},
    {"IHI", sv_configuration_gps},
    {"IHBBhhh", group_delay},
    {"BBB", log_},
    {"H", read_by_index_req},
    {"I", startup},
    {"I", heartbeat},
};

static void messages_both_ways(void) {
    for (size_t i = 0; i < sizeof messages / sizeof *messages; i++) {
        for (int pattern = NEGATIVE; pattern <= ENDS; pattern++) {
            uint64_t row[SBP_FIELDS_MOST];
            fill(row, messages[i].formats, (enum pattern)pattern);
            messages[i].test(row);
        }
    }
}

/* ---- rows of bytes */

/* The bytes 1, 2, 3 and so on. */
static void counted(uint8_t *bytes, size_t n) {
    for (size_t i = 0; i < n; i++) {
        bytes[i] = (uint8_t)(i + 1);
    }
}

static void found(void) {
    uint8_t bytes[SBP_FOUND];
    counted(bytes, sizeof bytes);
    const struct sbp_found f = sbp_found_of(bytes);
    SAME("at", f.at, 0x0807060504030201);
    SAME("next", f.next, 0x100F0E0D0C0B0A09);
    SAME("needed", f.needed, 0x1817161514131211);
    SAME("junk", f.junk, 0x201F1E1D1C1B1A19);
    SAME("bad", f.bad, 0x2827262524232221);
    SAME("short_", f.short_, 0x302F2E2D2C2B2A29);
    SAME("kind", f.kind, 0x3231);
    SAME("sender", f.sender, 0x3433);
    SAME("length", f.length, 0x35);
}

static void counts(void) {
    uint8_t bytes[SBP_TOTALS];
    counted(bytes, sizeof bytes);
    const struct sbp_counts c = sbp_counts_of(bytes);
    SAME("framed", c.framed, 0x0807060504030201);
    SAME("junk", c.junk, 0x100F0E0D0C0B0A09);
    SAME("bad", c.bad, 0x1817161514131211);
    SAME("short_", c.short_, 0x201F1E1D1C1B1A19);
}

static void report(void) {
    uint8_t bytes[SBP_REPORT];
    counted(bytes, sizeof bytes);
    const struct sbp_report r = sbp_report_of(bytes);
    SAME("sender", r.sender, 0x0201);
    SAME("wn", r.wn, 0x0403);
    SAME("tow", r.tow, 0x08070605);
    SAME("n", r.n, 0x09);
    SAME("observations", r.observations, 0x0B0A);
}

static void indexed(void) {
    uint8_t bytes[SBP_INDEX];
    counted(bytes, sizeof bytes);
    const struct sbp_indexed x = sbp_indexed_of(bytes);
    SAME("reached", x.reached, 0x0807060504030201);
    SAME("held", x.held, 0x100F0E0D0C0B0A09);
}

/* ---- the parts of rows */

static void numbers(void) {
    uint8_t bytes[8];
    counted(bytes, sizeof bytes);
    SAME("sbp_number of 0 bytes", sbp_number(bytes, 0), 0);
    SAME("sbp_number of 1 byte", sbp_number(bytes, 1), 0x01);
    SAME("sbp_number of 3 bytes", sbp_number(bytes, 3), 0x030201);
    SAME("sbp_number of 8 bytes", sbp_number(bytes, 8), 0x0807060504030201);
}

static void signs(void) {
    SAME("sbp_extended of the least", sbp_extended(INT32_MIN), 0xFFFFFFFF80000000);
    SAME("sbp_extended of -2", sbp_extended(-2), 0xFFFFFFFFFFFFFFFE);
    SAME("sbp_extended of the most", sbp_extended(INT32_MAX), 0x7FFFFFFF);
    SAME("sbp_signed of the least", sbp_signed(0xFFFFFFFF80000000) == INT32_MIN, true);
    SAME("sbp_signed of -2", sbp_signed(0xFFFFFFFFFFFFFFFE) == -2, true);
    SAME("sbp_signed of the most", sbp_signed(0x7FFFFFFF) == INT32_MAX, true);
}

static void doubles(void) {
    SAME("sbp_bits of 1", sbp_bits(1.0), 0x3FF0000000000000);
    SAME("sbp_bits of minus zero", sbp_bits(-0.0), 0x8000000000000000);
    SAME("sbp_double to 1", sbp_double(0x3FF0000000000000) < 1.0 || sbp_double(0x3FF0000000000000) > 1.0, false);
    SAME("sbp_double to a NaN and back", sbp_bits(sbp_double(NAN_TOP + 1)), NAN_TOP + 1);
}

/* ---- names */

#define NAME(name, number) SAME(#name, name, number)

static void types(void) {
    NAME(SBP_MSG_BASE_POS_LLH, 0x0044);
    NAME(SBP_MSG_BASE_POS_ECEF, 0x0048);
    NAME(SBP_MSG_OBS, 0x0049);
    NAME(SBP_MSG_EPHEMERIS_GPS, 0x0081);
    NAME(SBP_MSG_EPHEMERIS_SBAS, 0x0082);
    NAME(SBP_MSG_EPHEMERIS_GLO, 0x0083);
    NAME(SBP_MSG_IONO, 0x0090);
    NAME(SBP_MSG_SV_CONFIGURATION_GPS, 0x0091);
    NAME(SBP_MSG_GROUP_DELAY, 0x0092);
    NAME(SBP_MSG_SETTINGS_SAVE, 0x00A1);
    NAME(SBP_MSG_SETTINGS_READ_BY_INDEX_REQ, 0x00A2);
    NAME(SBP_MSG_SETTINGS_READ_BY_INDEX_DONE, 0x00A6);
    NAME(SBP_MSG_GPS_TIME, 0x0100);
    NAME(SBP_MSG_POS_ECEF, 0x0200);
    NAME(SBP_MSG_POS_LLH, 0x0201);
    NAME(SBP_MSG_BASELINE_ECEF, 0x0202);
    NAME(SBP_MSG_BASELINE_NED, 0x0203);
    NAME(SBP_MSG_VEL_ECEF, 0x0204);
    NAME(SBP_MSG_VEL_NED, 0x0205);
    NAME(SBP_MSG_DOPS, 0x0206);
    NAME(SBP_MSG_BASELINE_HEADING, 0x0207);
    NAME(SBP_MSG_LOG, 0x0401);
    NAME(SBP_MSG_STARTUP, 0xFF00);
    NAME(SBP_MSG_HEARTBEAT, 0xFFFF);
    NAME(SBP_NO_SENDER, 65536);
}

static void answers(void) {
    NAME(SBP_OK, 0);
    NAME(SBP_FRAME, 0);
    NAME(SBP_END, 1);
    NAME(SBP_NEEDS, 2);
    NAME(SBP_TAKEN, 0);
    NAME(SBP_EPOCH, 1);
    NAME(SBP_FIX_SINGLE_POINT, 0);
    NAME(SBP_FIX_FLOAT, 1);
    NAME(SBP_FIX_FIXED, 2);
    NAME(SBP_FIX_RESERVED, 3);
}

static void sizes(void) {
    NAME(SBP_FOUND, 53);
    NAME(SBP_TOTALS, 32);
    NAME(SBP_STATE, 113);
    NAME(SBP_REPORT, 11);
    NAME(SBP_INDEX, 208);
    NAME(SBP_PAYLOAD_MOST, 255);
    NAME(SBP_FRAME_MOST, 263);
    NAME(SBP_TEXT_MOST, 254);
    NAME(SBP_OBSERVATIONS_MOST, 15);
    NAME(SBP_ROSTER_MOST, 8);
}

static void fields(void) {
    NAME(SBP_BASE_POS_LLH_FIELDS, 3);
    NAME(SBP_BASE_POS_ECEF_FIELDS, 3);
    NAME(SBP_OBS_FIELDS, 4);
    NAME(SBP_EPHEMERIS_GPS_FIELDS, 32);
    NAME(SBP_EPHEMERIS_SBAS_FIELDS, 20);
    NAME(SBP_EPHEMERIS_GLO_FIELDS, 20);
    NAME(SBP_IONO_FIELDS, 10);
    NAME(SBP_SV_CONFIGURATION_GPS_FIELDS, 3);
    NAME(SBP_GROUP_DELAY_FIELDS, 7);
    NAME(SBP_SETTINGS_SAVE_FIELDS, 0);
    NAME(SBP_READ_BY_INDEX_REQ_FIELDS, 1);
    NAME(SBP_READ_BY_INDEX_DONE_FIELDS, 0);
    NAME(SBP_GPS_TIME_FIELDS, 4);
    NAME(SBP_POS_ECEF_FIELDS, 7);
    NAME(SBP_POS_LLH_FIELDS, 8);
    NAME(SBP_BASELINE_ECEF_FIELDS, 7);
    NAME(SBP_BASELINE_NED_FIELDS, 8);
    NAME(SBP_VEL_ECEF_FIELDS, 7);
    NAME(SBP_VEL_NED_FIELDS, 8);
    NAME(SBP_DOPS_FIELDS, 6);
    NAME(SBP_BASELINE_HEADING_FIELDS, 4);
    NAME(SBP_LOG_FIELDS, 3);
    NAME(SBP_STARTUP_FIELDS, 1);
    NAME(SBP_HEARTBEAT_FIELDS, 1);
    NAME(SBP_FIELDS_MOST, 32);
    NAME(SBP_TIME_OF_WEEK_FIELDS, 2);
    NAME(SBP_SATELLITE_FIELDS, 3);
    NAME(SBP_EPHEMERIS_COMMON_FIELDS, 9);
    NAME(SBP_MOTION_FIELDS, 9);
    NAME(SBP_OBS_HEAD, 3);
    NAME(SBP_OBSERVATION_FIELDS, 8);
}

static void version(void) {
    NAME(SBP_VERSION_MAJOR, 0);
    NAME(SBP_VERSION_MINOR, 14);
    NAME(SBP_VERSION_PATCH, 0);
    NAME(SBP_VERSION, 1400);
    SAME("sbp_version()", sbp_version(), 1400);
}

static const struct {
    unsigned number, named;
    const char *name;
} refusals[] = {
#define REFUSAL(number, name) {number, SBP_##name, #name}
    REFUSAL(11, TOO_LONG),
    REFUSAL(21, UNKNOWN_TYPE),
    REFUSAL(22, WRONG_LENGTH),
    REFUSAL(23, OUT_OF_RANGE),
    REFUSAL(25, NO_SUCH_OBSERVATION),
    REFUSAL(31, TOO_MUCH),
    REFUSAL(32, NO_ROOM),
    REFUSAL(33, PHASE_OUT_OF_RANGE),
    REFUSAL(41, WRONG_ROSTER),
    REFUSAL(42, SENDER_TWICE),
    REFUSAL(43, NOT_LISTED),
    REFUSAL(44, NO_PACKETS),
    REFUSAL(45, WRONG_COUNTER),
    REFUSAL(46, NOT_OBS),
    REFUSAL(47, COPY),
    REFUSAL(51, LIST_SHORT),
    REFUSAL(52, CAPTURE_SHORT),
};

/* The name of each number, and none of all others. */
static void refusal_names(void) {
    for (unsigned number = 0; number < 256; number++) {
        const char *wanted = "";
        for (size_t i = 0; i < sizeof refusals / sizeof *refusals; i++) {
            if (refusals[i].number == number) {
                wanted = refusals[i].name;
                SAME(wanted, refusals[i].named, number);
            }
        }
        const char *got = sbp_refusal_name((uint8_t)number);
        if (strcmp(got, wanted) == 0) {
            passed++;
        } else {
            failed++;
            printf("differs: the refusal %u has the name '%s', not '%s'\n", number, got, wanted);
        }
    }
}

/* ---- the library's own sizes: lent memory of so many bytes or numbers has room, and of one less has none */

static void rows_have_room(void) {
    uint8_t bytes[SBP_STATE];
    const uint16_t roster[] = {1228};
    const uint8_t capture[] = {0};
    SAME("sbp_next", sbp_next(capture, 1, 0, false, bytes, SBP_FOUND), SBP_END);
    SAME("sbp_next with less", sbp_next(capture, 1, 0, false, bytes, SBP_FOUND - 1), SBP_NO_ROOM);
    SAME("sbp_totals", sbp_totals(capture, 1, bytes, SBP_TOTALS), SBP_OK);
    SAME("sbp_totals with less", sbp_totals(capture, 1, bytes, SBP_TOTALS - 1), SBP_NO_ROOM);
    SAME("sbp_collator", sbp_collator(bytes, SBP_STATE, roster, 1), SBP_OK);
    SAME("sbp_collator with less", sbp_collator(bytes, SBP_STATE - 1, roster, 1), SBP_NO_ROOM);
    SAME("sbp_growing", sbp_growing(bytes, SBP_STATE), SBP_OK);
    SAME("sbp_growing with less", sbp_growing(bytes, SBP_STATE - 1), SBP_NO_ROOM);
}

static void rosters_have_room(void) {
    uint8_t state[SBP_STATE];
    const uint16_t roster[SBP_ROSTER_MOST + 1] = {0, 1, 2, 3, 4, 5, 6, 7, 8};
    SAME("sbp_collator for the most", sbp_collator(state, sizeof state, roster, SBP_ROSTER_MOST), SBP_OK);
    SAME("sbp_collator for one more", sbp_collator(state, sizeof state, roster, SBP_ROSTER_MOST + 1), SBP_WRONG_ROSTER);
}

static void report_has_room(void) {
    uint8_t state[SBP_STATE], row[SBP_REPORT];
    const uint8_t packet[] = {0, 0, 0, 0, 0, 0, 0x10};
    sbp_growing(state, sizeof state);
    SAME("sbp_enlist", sbp_enlist(state, sizeof state, SBP_MSG_OBS, 1228), SBP_OK);
    SAME("sbp_enlist with less", sbp_enlist(state, sizeof state - 1, SBP_MSG_OBS, 1228), SBP_NO_ROOM);
    SAME("sbp_feed", sbp_feed(state, sizeof state, SBP_MSG_OBS, 1228, packet, sizeof packet, row, SBP_REPORT), SBP_EPOCH);
    SAME("sbp_feed with less", sbp_feed(state, sizeof state, SBP_MSG_OBS, 1228, packet, sizeof packet, row, SBP_REPORT - 1), SBP_NO_ROOM);
}

/* What the library answers to a copy has the name that is looked at above. */
static void copy_is_named(void) {
    uint8_t state[SBP_STATE], row[SBP_REPORT];
    const uint16_t roster[] = {1228};
    const uint8_t packet[] = {0, 0, 0, 0, 0, 0, 0x21};
    sbp_collator(state, sizeof state, roster, 1);
    SAME("sbp_feed of a packet", sbp_feed(state, sizeof state, SBP_MSG_OBS, 1228, packet, sizeof packet, row, SBP_REPORT), SBP_TAKEN);
    SAME("sbp_feed of its copy", sbp_feed(state, sizeof state, SBP_MSG_OBS, 1228, packet, sizeof packet, row, SBP_REPORT), SBP_COPY);
}

/* A type, the length of the shortest payload of it, and how many numbers that gives. */
static const struct {
    uint16_t kind;
    size_t length, fields;
} kinds[] = {
    {SBP_MSG_BASE_POS_LLH, 24, SBP_BASE_POS_LLH_FIELDS},
    {SBP_MSG_BASE_POS_ECEF, 24, SBP_BASE_POS_ECEF_FIELDS},
    {SBP_MSG_OBS, 7, SBP_OBS_FIELDS},
    {SBP_MSG_EPHEMERIS_GPS, 185, SBP_EPHEMERIS_GPS_FIELDS},
    {SBP_MSG_EPHEMERIS_SBAS, 112, SBP_EPHEMERIS_SBAS_FIELDS},
    {SBP_MSG_EPHEMERIS_GLO, 112, SBP_EPHEMERIS_GLO_FIELDS},
    {SBP_MSG_IONO, 70, SBP_IONO_FIELDS},
    {SBP_MSG_SV_CONFIGURATION_GPS, 10, SBP_SV_CONFIGURATION_GPS_FIELDS},
    {SBP_MSG_GROUP_DELAY, 14, SBP_GROUP_DELAY_FIELDS},
    {SBP_MSG_SETTINGS_SAVE, 0, SBP_SETTINGS_SAVE_FIELDS},
    {SBP_MSG_SETTINGS_READ_BY_INDEX_REQ, 2, SBP_READ_BY_INDEX_REQ_FIELDS},
    {SBP_MSG_SETTINGS_READ_BY_INDEX_DONE, 0, SBP_READ_BY_INDEX_DONE_FIELDS},
    {SBP_MSG_GPS_TIME, 11, SBP_GPS_TIME_FIELDS},
    {SBP_MSG_POS_ECEF, 32, SBP_POS_ECEF_FIELDS},
    {SBP_MSG_POS_LLH, 34, SBP_POS_LLH_FIELDS},
    {SBP_MSG_BASELINE_ECEF, 20, SBP_BASELINE_ECEF_FIELDS},
    {SBP_MSG_BASELINE_NED, 22, SBP_BASELINE_NED_FIELDS},
    {SBP_MSG_VEL_ECEF, 20, SBP_VEL_ECEF_FIELDS},
    {SBP_MSG_VEL_NED, 22, SBP_VEL_NED_FIELDS},
    {SBP_MSG_DOPS, 14, SBP_DOPS_FIELDS},
    {SBP_MSG_BASELINE_HEADING, 10, SBP_BASELINE_HEADING_FIELDS},
    {SBP_MSG_LOG, 1, SBP_LOG_FIELDS},
    {SBP_MSG_STARTUP, 4, SBP_STARTUP_FIELDS},
    {SBP_MSG_HEARTBEAT, 4, SBP_HEARTBEAT_FIELDS},
};

static void fields_have_room(void) {
    const uint8_t payload[SBP_PAYLOAD_MOST] = {0};
    for (size_t i = 0; i < sizeof kinds / sizeof *kinds; i++) {
        const uint16_t kind = kinds[i].kind;
        const size_t length = kinds[i].length, most = SBP_FIELDS_MOST;
        uint64_t row[SBP_FIELDS_MOST];
        SAME("sbp_read", sbp_read(kind, payload, length, row, kinds[i].fields), SBP_OK);
        if (kinds[i].fields > 0) {
            SAME("sbp_read with less", sbp_read(kind, payload, length, row, kinds[i].fields - 1), SBP_NO_ROOM);
            SAME("sbp_read of a byte less", sbp_read(kind, payload, length - 1, row, most), SBP_WRONG_LENGTH);
        }
        SAME("sbp_read of a byte more", sbp_read(kind, payload, length + 1, row, most), kind == SBP_MSG_LOG ? SBP_OK : SBP_WRONG_LENGTH);
    }
}

static void observations_have_room(void) {
    const uint8_t payload[7 + 16] = {0};
    uint64_t row[SBP_OBSERVATION_FIELDS];
    SAME("sbp_observation", sbp_observation(SBP_MSG_OBS, payload, sizeof payload, 0, row, SBP_OBSERVATION_FIELDS), SBP_OK);
    SAME("sbp_observation with less", sbp_observation(SBP_MSG_OBS, payload, sizeof payload, 0, row, SBP_OBSERVATION_FIELDS - 1), SBP_NO_ROOM);
}

/* The longest of each, and one more. */
static void frames_have_room(void) {
    uint8_t out[SBP_FRAME_MOST];
    const uint8_t bytes[SBP_PAYLOAD_MOST + 1] = {0};
    const uint64_t head[SBP_OBS_HEAD] = {0}, rows[(SBP_OBSERVATIONS_MOST + 1) * SBP_OBSERVATION_FIELDS] = {0};
    const size_t all = SBP_OBSERVATIONS_MOST * SBP_OBSERVATION_FIELDS;
    uint64_t size = 0;
    SAME("sbp_write_frame", sbp_write_frame(out, SBP_FRAME_MOST, 1, OWN, SBP_NO_SENDER, bytes, SBP_PAYLOAD_MOST, &size), SBP_OK);
    SAME("its size", size, SBP_FRAME_MOST);
    SAME("with less room", sbp_write_frame(out, SBP_FRAME_MOST - 1, 1, OWN, SBP_NO_SENDER, bytes, SBP_PAYLOAD_MOST, &size), SBP_NO_ROOM);
    SAME("with more", sbp_write_frame(out, SBP_FRAME_MOST, 1, OWN, SBP_NO_SENDER, bytes, SBP_PAYLOAD_MOST + 1, &size), SBP_TOO_MUCH);
    SAME("sbp_write_obs", sbp_write_obs(out, SBP_FRAME_MOST, SBP_MSG_OBS, OWN, SBP_NO_SENDER, head, SBP_OBS_HEAD, rows, all, &size), SBP_OK);
    SAME("with one observation more",
         sbp_write_obs(out, SBP_FRAME_MOST, SBP_MSG_OBS, OWN, SBP_NO_SENDER, head, SBP_OBS_HEAD, rows, all + SBP_OBSERVATION_FIELDS, &size),
         SBP_TOO_MUCH);
}

/* ---- LOG: its text ends before the first zero after the level, and all bytes from there on are zeros */

/* A text to write: its length, where it has a zero (at its length: nowhere), the zeros to write after it, and what that is answered. */
static const struct {
    size_t n, zero, padding;
    uint8_t told;
} texts[] = {
    {0, 0, 0, SBP_OK},
    {4, 4, 0, SBP_OK},
    {4, 4, 1, SBP_OK},
    {0, 0, SBP_TEXT_MOST, SBP_OK},
    {100, 100, SBP_TEXT_MOST - 100, SBP_OK},
    {SBP_TEXT_MOST, SBP_TEXT_MOST, 0, SBP_OK},
    {0, 0, SBP_TEXT_MOST + 1, SBP_TOO_MUCH},
    {100, 100, SBP_TEXT_MOST - 99, SBP_TOO_MUCH},
    {SBP_TEXT_MOST, SBP_TEXT_MOST, 1, SBP_TOO_MUCH},
    {SBP_TEXT_MOST + 1, SBP_TEXT_MOST + 1, 0, SBP_TOO_MUCH},
    {4, 4, 1 << 8, SBP_TOO_MUCH}, /* 0 in too few bits, or in a sum */
    {4, 4, 1 << 16, SBP_TOO_MUCH},
    {4, 4, (size_t)1 << 32, SBP_TOO_MUCH},
    {4, 4, SIZE_MAX - 3, SBP_TOO_MUCH},
    {0, 0, SIZE_MAX, SBP_TOO_MUCH},
    {4, 0, 0, SBP_OUT_OF_RANGE},
    {4, 2, 0, SBP_OUT_OF_RANGE},
    {4, 3, 0, SBP_OUT_OF_RANGE},
    {4, 3, SIZE_MAX, SBP_OUT_OF_RANGE},
    {SBP_TEXT_MOST, SBP_TEXT_MOST - 1, 0, SBP_OUT_OF_RANGE},
    {300, 299, 0, SBP_OUT_OF_RANGE},
};

/* Whether so many bytes are all this one. */
static bool all_are(const uint8_t *bytes, size_t n, uint8_t byte) {
    for (size_t i = 0; i < n; i++) {
        if (bytes[i] != byte) {
            return false;
        }
    }
    return true;
}

/* The frame holds the level, the text and the zeros, and reads as it was written. */
static void log_back(const uint8_t *frame, uint64_t size, uint8_t level, size_t n, size_t padding) {
    uint64_t row[SBP_LOG_FIELDS] = {0};
    SAME("its size", size, 9 + n + padding);
    SAME("its level", frame[6], level);
    SAME("its text", all_are(frame + 7, n, 'x'), true);
    SAME("its zeros", all_are(frame + 7 + n, padding, 0), true);
    SAME("sbp_read", sbp_read(SBP_MSG_LOG, frame + 6, 1 + n + padding, row, SBP_LOG_FIELDS), SBP_OK);
    const struct sbp_log m = sbp_log_of(row);
    SAME("the level read", m.level, level);
    SAME("the length read", m.length, n);
    SAME("the padding read", m.padding, padding);
}

static void logs_written(void) {
    for (size_t i = 0; i < sizeof texts / sizeof *texts; i++) {
        uint8_t text[300], out[SBP_FRAME_MOST];
        const size_t n = texts[i].n, padding = texts[i].padding;
        const uint8_t level = i % 2 == 0 ? 0 : 0xA6, told = texts[i].told;
        uint64_t size = 77;
        memset(text, 'x', sizeof text);
        memset(out, 0xEE, sizeof out);
        if (texts[i].zero < n) {
            text[texts[i].zero] = 0;
        }
        SAME("sbp_write_log", sbp_write_log(out, sizeof out, OWN, SBP_NO_SENDER, level, text, n, padding, &size), told);
        if (told == SBP_OK) {
            log_back(out, size, level, n, padding);
            SAME("with less room", sbp_write_log(out, 8 + n + padding, OWN, SBP_NO_SENDER, level, text, n, padding, &size), SBP_NO_ROOM);
        } else {
            SAME("a refusal's size", size, 77);
            SAME("a refusal's frame", all_are(out, sizeof out, 0xEE), true);
            SAME("without room", sbp_write_log(out, 0, OWN, SBP_NO_SENDER, level, text, n, padding, &size), told);
        }
    }
}

/* Another byte after a zero. */
static const struct {
    uint8_t payload[5];
    size_t n;
} torn[] = {
    {{6, 0, 'x'}, 3},
    {{0, 0, 'x'}, 3},
    {{6, 't', 0, 'x'}, 4},
    {{6, 't', 0, 'x', 0}, 5},
    {{6, 't', 0, 0, 'x'}, 5},
};

static void logs_refused(void) {
    const uint8_t longer[SBP_PAYLOAD_MOST + 1] = {6, 0, 'x'};
    uint64_t row[SBP_LOG_FIELDS] = {77, 77, 77};
    for (size_t i = 0; i < sizeof torn / sizeof *torn; i++) {
        SAME("sbp_answer", sbp_answer(SBP_MSG_LOG, torn[i].payload, torn[i].n), SBP_OUT_OF_RANGE);
        SAME("sbp_read", sbp_read(SBP_MSG_LOG, torn[i].payload, torn[i].n, row, SBP_LOG_FIELDS), SBP_OUT_OF_RANGE);
    }
    SAME("sbp_read of nothing", sbp_read(SBP_MSG_LOG, longer, 0, row, SBP_LOG_FIELDS), SBP_WRONG_LENGTH);
    SAME("sbp_read of too much", sbp_read(SBP_MSG_LOG, longer, sizeof longer, row, SBP_LOG_FIELDS), SBP_WRONG_LENGTH);
    for (size_t i = 0; i < SBP_LOG_FIELDS; i++) {
        SAME("a refusal's row", row[i], 77);
    }
}

/* ---- the CRC in parts: the published values from two starts, and 003's example frame in two buffers */

static void crcs(void) {
    const uint8_t text[] = "123456789";
    const uint8_t header[] = {0x55, 0x02, 0x02, 0xcc, 0x04, 0x14};
    const uint8_t payload[] = {0x70, 0x3d, 0xd0, 0x18, 0xcf, 0xef, 0xff, 0xff, 0xef, 0xe8, 0xff, 0xff, 0xf0, 0x18, 0, 0, 0, 0, 5, 0};
    for (size_t at = 0; at <= 9; at++) {
        SAME("a CRC from 0, in two parts", sbp_crc(sbp_crc(0, text, at), text + at, 9 - at), 0x31C3);
        SAME("a CRC from 65535, in two parts", sbp_crc(sbp_crc(65535, text, at), text + at, 9 - at), 0x29B1);
    }
    SAME("a frame's CRC", sbp_frame_crc(header, sizeof header, payload, sizeof payload), 0x9443);
    SAME("a frame's CRC in parts", sbp_crc(sbp_crc(0, header + 1, 5), payload, sizeof payload), 0x9443);
}

/* ---- an index: three frames, and the beginning of a fourth */

static const struct sbp_entry three[] = {{2, 0xB2A1, 0xD2C1, 3}, {13, SBP_MSG_HEARTBEAT, 1228, 4}, {25, 0xB2A1, 0xD2C1, 0}};

/* The frames of three at their offsets, junk before them and a short after; says the capture's length. */
static size_t capture_of_three(uint8_t capture[64]) {
    const uint8_t payload[4] = {0};
    size_t n = 2;
    memset(capture, 0, 64);
    for (size_t i = 0; i < 3; i++) {
        uint64_t size = 0;
        SAME("a frame", sbp_write_frame(capture + n, 64 - n, three[i].kind, OWN, three[i].sender, payload, three[i].length, &size), SBP_OK);
        SAME("its place", n, three[i].offset);
        n += (size_t)size;
    }
    capture[n] = 0x55;
    return n + 1;
}

static void same_entry(const struct sbp_entry *got, const struct sbp_entry *wanted) {
    SAME("offset", got->offset, wanted->offset);
    SAME("kind", got->kind, wanted->kind);
    SAME("sender", got->sender, wanted->sender);
    SAME("length", got->length, wanted->length);
}

/* Where the library has a field, the header has it: an entry is filled, and its neighbours are not. */
static void entries(void) {
    uint8_t capture[64], index[SBP_INDEX];
    struct sbp_entry list[5];
    const size_t n = capture_of_three(capture);
    memset(list, 0xEE, sizeof list);
    SAME("sizeof struct sbp_entry", sizeof(struct sbp_entry), 16);
    SAME("sbp_index", sbp_index(index, SBP_INDEX), SBP_OK);
    SAME("sbp_extend", sbp_extend(index, SBP_INDEX, capture, n, list + 1, 4), SBP_OK);
    const struct sbp_indexed x = sbp_indexed_of(index);
    SAME("reached", x.reached, n - 1);
    SAME("held", x.held, 3);
    for (size_t i = 0; i < 3; i++) {
        same_entry(&list[i + 1], &three[i]);
    }
    SAME("before the list", all_are((const uint8_t *)&list[0], sizeof *list, 0xEE), true);
    SAME("after the entries held", all_are((const uint8_t *)&list[4], sizeof *list, 0xEE), true);
}

static void questions(void) {
    uint8_t capture[64], index[SBP_INDEX];
    struct sbp_entry list[3];
    uint64_t place = 77, count = 77;
    const size_t n = capture_of_three(capture);
    sbp_index(index, SBP_INDEX);
    sbp_extend(index, SBP_INDEX, capture, n, list, 3);
    SAME("sbp_first", sbp_first(index, SBP_INDEX, list, 3, 0xB2A1, 0xD2C1, 2, &place), SBP_OK);
    SAME("its place", place, 0);
    SAME("sbp_first after it", sbp_first(index, SBP_INDEX, list, 3, 0xB2A1, 0xD2C1, 3, &place), SBP_OK);
    SAME("its place", place, 2);
    SAME("sbp_first of another sender", sbp_first(index, SBP_INDEX, list, 3, 0xB2A1, 1228, 0, &place), SBP_END);
    SAME("sbp_first of a shorter list", sbp_first(index, SBP_INDEX, list, 2, 0xB2A1, 0xD2C1, 0, &place), SBP_LIST_SHORT);
    SAME("sbp_first with less", sbp_first(index, SBP_INDEX - 1, list, 3, 0xB2A1, 0xD2C1, 0, &place), SBP_NO_ROOM);
    SAME("the place of none", place, 2);
    SAME("sbp_count", sbp_count(index, SBP_INDEX, SBP_MSG_HEARTBEAT, &count), SBP_OK);
    SAME("the count", count, 1);
    SAME("sbp_count of no type", sbp_count(index, SBP_INDEX, 0xB2A1, &count), SBP_UNKNOWN_TYPE);
    SAME("sbp_count with less", sbp_count(index, SBP_INDEX - 1, SBP_MSG_OBS, &count), SBP_NO_ROOM);
    SAME("a refusal's count", count, 1);
}

/* In their order, with nothing written; and n / 8 entries have room for every capture. */
static void indexes_refused(void) {
    uint8_t capture[64], index[SBP_INDEX], before[SBP_INDEX];
    struct sbp_entry list[8];
    const size_t n = capture_of_three(capture);
    SAME("sbp_index with less", sbp_index(index, SBP_INDEX - 1), SBP_NO_ROOM);
    sbp_index(index, SBP_INDEX);
    SAME("sbp_extend with less", sbp_extend(index, SBP_INDEX - 1, capture, n, list, 3), SBP_NO_ROOM);
    SAME("sbp_extend of a shorter list", sbp_extend(index, SBP_INDEX, capture, n, list, 2), SBP_LIST_SHORT);
    SAME("sbp_extend after a refusal", sbp_extend(index, SBP_INDEX, capture, n, list, 3), SBP_OK);
    memcpy(before, index, sizeof index);
    SAME("a list that has become shorter", sbp_extend(index, SBP_INDEX, capture, n, list, 2), SBP_LIST_SHORT);
    SAME("a capture that has become shorter", sbp_extend(index, SBP_INDEX, capture, n - 2, list, 2), SBP_CAPTURE_SHORT);
    SAME("a refusal's index", memcmp(index, before, sizeof index) == 0, true);
    SAME("sbp_extend by nothing", sbp_extend(index, SBP_INDEX, capture, n - 1, list, 3), SBP_OK);
    SAME("an index extended by nothing", memcmp(index, before, sizeof index) == 0, true);
    memset(capture, 0, sizeof capture);
    for (size_t at = 0; at < sizeof capture; at += 8) {
        capture[at] = 0x55; /* a frame: the CRC of five zeros is 0 */
    }
    sbp_index(index, SBP_INDEX);
    SAME("an entry for each 8 bytes", sbp_extend(index, SBP_INDEX, capture, sizeof capture, list, sizeof capture / 8), SBP_OK);
    SAME("those held", sbp_indexed_of(index).held, 8);
}

int main(void) {
    messages_both_ways();
    found();
    counts();
    report();
    indexed();
    numbers();
    signs();
    doubles();
    types();
    answers();
    sizes();
    fields();
    version();
    refusal_names();
    rows_have_room();
    rosters_have_room();
    report_has_room();
    copy_is_named();
    fields_have_room();
    observations_have_room();
    frames_have_room();
    logs_written();
    logs_refused();
    crcs();
    entries();
    questions();
    indexes_refused();
    printf("%u passed, %u failed\n", passed, failed);
    return failed != 0;
}

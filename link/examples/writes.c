/* Writes a small capture to standard output: writes > FILE
 * Exit status 0; 1 for a frame that is refused or cannot be put out; 2 for wrong use. */
#include <stdio.h>
#include <stdlib.h>

#include "sbp.h"

#define OWN 1228 /* this recorder's own number: its frames go out under it where they are given no sender */
#define ROVER 0  /* an ordinary sender, whose positions are passed on */

static uint8_t frame[SBP_FRAME_MOST];
static uint64_t size;

/* Puts out the frame that a writer has written, and gives up where it was refused. */
static void put(const char *what, uint8_t told) {
    if (told != SBP_OK) {
        fprintf(stderr, "writes: %s: %s\n", what, sbp_refusal_name(told));
        exit(1);
    }
    if (fwrite(frame, 1, (size_t)size, stdout) != size) {
        perror("writes: standard output");
        exit(1);
    }
}

static void put_time(void) {
    const struct sbp_gps_time m = {1900, 416300400, -250, 0};
    uint64_t row[SBP_GPS_TIME_FIELDS];
    sbp_gps_time_row(&m, row);
    put("GPS_TIME", sbp_write(frame, sizeof frame, SBP_MSG_GPS_TIME, OWN, SBP_NO_SENDER, row, SBP_GPS_TIME_FIELDS, &size));
}

/* In POS_LLH the low bits of flags are 1 for a fixed solution. */
static void put_position(uint32_t sender) {
    const struct sbp_pos_llh m = {416300400, 37.7749, -122.4194, 21.5, 15, 25, 9, 1};
    uint64_t row[SBP_POS_LLH_FIELDS];
    sbp_pos_llh_row(&m, row);
    put("POS_LLH", sbp_write(frame, sizeof frame, SBP_MSG_POS_LLH, OWN, sender, row, SBP_POS_LLH_FIELDS, &size));
}

/* Packet 0 of 1, so a whole epoch, with two observations; their carrier phases are given in 1/256 cycle. */
static void put_observations(void) {
    const struct sbp_obs m = {416300400, 1900, 0x10, 2};
    struct sbp_observation_row seen[2] = {{1052512345, {0, 0}, 168, 900, {5, 0, 0}}, {1101122334, {0, 0}, 181, 901, {31, 0, 0}}};
    const int64_t phases[2] = {-28160000640, 31140123457};
    uint64_t head[SBP_OBS_FIELDS], rows[2 * SBP_OBSERVATION_FIELDS];
    sbp_obs_row(&m, head);
    for (size_t i = 0; i < 2; i++) {
        if (sbp_phase_parts(phases[i], &seen[i].L.i, &seen[i].L.f) != SBP_OK) {
            fprintf(stderr, "writes: a carrier phase is out of range\n");
            exit(1);
        }
        sbp_observation_row_row(&seen[i], rows + i * SBP_OBSERVATION_FIELDS);
    }
    put("OBS", sbp_write_obs(frame, sizeof frame, SBP_MSG_OBS, OWN, SBP_NO_SENDER, head, SBP_OBS_HEAD, rows, 2 * SBP_OBSERVATION_FIELDS, &size));
}

static void put_log(void) {
    const uint8_t text[] = {'s', 't', 'a', 'r', 't', 'e', 'd'};
    put("LOG", sbp_write_log(frame, sizeof frame, OWN, SBP_NO_SENDER, 6, text, sizeof text, 0, &size)); /* no zeros after it */
}

/* Asks a device for a setting: given no sender it goes out as 0x42, which devices answer. */
static void put_request(void) {
    const struct sbp_read_by_index_req m = {7};
    uint64_t row[SBP_READ_BY_INDEX_REQ_FIELDS];
    sbp_read_by_index_req_row(&m, row);
    put("READ_BY_INDEX_REQ",
        sbp_write(frame, sizeof frame, SBP_MSG_SETTINGS_READ_BY_INDEX_REQ, OWN, SBP_NO_SENDER, row, SBP_READ_BY_INDEX_REQ_FIELDS, &size));
}

/* A type that has no reading is a frame all the same. */
static void put_any(void) {
    const uint8_t payload[] = {1, 2, 3, 4};
    put("a frame", sbp_write_frame(frame, sizeof frame, 0x0800, OWN, SBP_NO_SENDER, payload, sizeof payload, &size));
}

int main(int argc, char **argv) {
    (void)argv;
    if (argc != 1) {
        fprintf(stderr, "usage: writes > FILE\n");
        return 2;
    }
    put_time();
    put_position(ROVER);
    put_position(SBP_NO_SENDER);
    put_observations();
    put_log();
    put_request();
    put_any();
    if (fflush(stdout) != 0) {
        perror("writes: standard output");
        return 1;
    }
    return 0;
}

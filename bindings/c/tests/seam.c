/* A seam: exact halves, the faulty side, and number 31. */
#include "tests.h"

#include <string.h>

static const uint64_t LATEST = (UINT64_C(1) << 41) - 1;

static void closed(uint64_t left, uint64_t right, uint64_t midpoint, uint64_t half_gap) {
    uint32_t side = 9;
    polzaintu_halves halves;
    fill(&halves, sizeof halves);
    CHECK(polzaintu_seam(left, false, right, false, &side, &halves) == 0);
    CHECK(side == POLZAINTU_CLOSED);
    CHECK(bits(halves.midpoint) == midpoint);
    CHECK(bits(halves.half_gap) == half_gap);
}

/* The number and the side, where no halves are written; a refused seam leaves the side too. */
static void kept(uint64_t left, bool left_faulty, uint64_t right, bool right_faulty,
                 uint32_t number, uint32_t expected_side) {
    uint32_t side = 9;
    polzaintu_halves halves, before;
    fill(&halves, sizeof halves);
    fill(&before, sizeof before);
    CHECK(polzaintu_seam(left, left_faulty, right, right_faulty, &side, &halves) == number);
    CHECK(side == expected_side);
    CHECK(memcmp(&halves, &before, sizeof halves) == 0);
}

static void open_at(uint64_t left, bool left_faulty, uint64_t right, bool right_faulty,
                    uint32_t side) {
    kept(left, left_faulty, right, right_faulty, 0, side);
}

static void refused(uint64_t left, bool left_faulty, uint64_t right, bool right_faulty) {
    kept(left, left_faulty, right, right_faulty, 31, 9);
}

void seam_tests(void) {
    closed(1500, 1500, 0x4097700000000000, 0);
    closed(1500, 1536, 0x4097b80000000000, 0x4032000000000000);
    closed(1536, 1500, 0x4097b80000000000, 0xc032000000000000);
    /* An odd gap has half a tick. */
    closed(1500, 1501, bits(1500.5), bits(0.5));
    closed(1501, 1500, bits(1500.5), bits(-0.5));
    closed(0, 0, 0, 0);
    closed(0, LATEST, bits(1099511627775.5), bits(1099511627775.5));
    closed(LATEST, 0, bits(1099511627775.5), bits(-1099511627775.5));
    closed(LATEST, LATEST, bits(2199023255551.0), 0);

    open_at(1500, true, 1500, false, POLZAINTU_OPEN_LEFT);
    open_at(1500, false, 1500, true, POLZAINTU_OPEN_RIGHT);
    open_at(1500, true, 1500, true, POLZAINTU_OPEN_BOTH);
    /* A faulty tile's time is not read. */
    open_at(UINT64_MAX, true, LATEST, false, POLZAINTU_OPEN_LEFT);
    open_at(LATEST, false, UINT64_MAX, true, POLZAINTU_OPEN_RIGHT);
    open_at(UINT64_MAX, true, UINT64_MAX, true, POLZAINTU_OPEN_BOTH);

    const uint64_t late[] = {LATEST + 1, UINT64_C(1) << 63, UINT64_MAX};
    for (size_t i = 0; i < sizeof late / sizeof *late; i++) {
        refused(late[i], false, 1500, false);
        refused(1500, false, late[i], false);
        refused(late[i], false, late[i], false);
        /* On an open seam too. */
        refused(late[i], false, 1500, true);
        refused(1500, true, late[i], false);
    }
}

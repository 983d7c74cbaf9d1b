/* NULL with a count of 0, wherever a pointer comes with a count: it is not followed. */
#include "tests.h"

static void rows(void) {
    polzaintu_ends ends = {77, 78};
    uint64_t gap = 77;
    polzaintu_survey survey = {0, 77, 78};
    CHECK(polzaintu_row(&PRINTED, NULL, 0, NULL, 0, NULL, 0, NULL, 0, NULL, 0, NULL, 0, NULL, 0,
                        &ends) == 21);
    CHECK(ends.earliest == 77 && ends.latest == 78);
    CHECK(polzaintu_widest_gap(&PRINTED, NULL, 0, &gap) == 21);
    CHECK(gap == 77);
    CHECK(polzaintu_survey_row(&PRINTED, NULL, 0, &survey) == 21);
    CHECK(survey.row == 0 && survey.gap == 77 && survey.largest == 78);
}

static void places(void) {
    bool faulty = true;
    polzaintu_pair pair = {77, 78};
    uint32_t side = 9;
    polzaintu_halves halves = {1, 2};
    CHECK(polzaintu_mark(&PRINTED, NULL, 0, 0, &faulty) == 21);
    CHECK(faulty);
    CHECK(polzaintu_row_seam(&PRINTED, NULL, 0, NULL, 0, 0, &pair, &side, &halves) == 21);
    CHECK(pair.left == 77 && pair.right == 78 && side == 9);
    bool found = true;
    polzaintu_wide wide = {77, 78, 79};
    CHECK(polzaintu_first_wide(&PRINTED, NULL, 0, NULL, 0, 0, &found, &wide) == 21);
    CHECK(found && wide.left == 77 && wide.right == 78 && wide.half_ticks == 79);
}

/* Lends a step no row and no letters. */
static uint32_t bare(polzaintu_wall *wall, const uint8_t *part, size_t part_len, uint64_t *offset) {
    return polzaintu_wall_step(wall, part, part_len, NULL, 0, NULL, 0, NULL, 0, offset);
}

/* At each stage: rows and letters where they may have any length, and a part of a file that has
 * ended. */
static void steps(void) {
    const uint8_t settings[27] = {1,  0, 24, 0, 6,   0, 1, 0, 0, 0, 100, 0, 0, 0,
                                  10, 0, 0,  1, 144, 0, 0, 0, 0, 0, 0,   0, 12};
    const uint8_t start[51] = {2, 0, 48};
    uint64_t row[6], next[6], offset = 77;
    uint8_t letters[6] = {0};
    polzaintu_wall wall;
    polzaintu_wall_new(&wall);
    CHECK(bare(&wall, settings, 27, &offset) == 0);
    CHECK(bare(&wall, NULL, 0, &offset) == POLZAINTU_UNFIT);
    CHECK(polzaintu_wall_step(&wall, start, 51, row, 6, next, 6, NULL, 0, &offset) ==
          POLZAINTU_UNFIT);
    CHECK(polzaintu_wall_step(&wall, start, 51, row, 6, next, 6, letters, 6, &offset) == 0);
    CHECK(offset == 77);
    CHECK(polzaintu_wall_step(&wall, NULL, 0, next, 6, row, 6, letters, 6, &offset) == 43);
    CHECK(offset == 78);
    CHECK(bare(&wall, NULL, 0, &offset) == 43);
    polzaintu_wall_new(&wall);
    CHECK(bare(&wall, NULL, 0, &offset) == 43);
    CHECK(offset == 0);
    wall.stage = POLZAINTU_ENDED;
    CHECK(bare(&wall, NULL, 0, &offset) == 0);
}

void empty_tests(void) {
    rows();
    places();
    steps();
}

/* The reach of a broken tile: B of rows by hand, and ranges held against counted hops. */
#include "tests.h"

#include <string.h>

static const uint64_t GAP_MOST = (UINT64_C(1) << 41) - 1;

static void widest_of(const uint64_t row[6], uint64_t expected) {
    uint64_t gap = 0;
    CHECK(polzaintu_widest_gap(&PRINTED, row, 6, &gap) == 0);
    CHECK(gap == expected);
}

static void gaps_by_hand(void) {
    widest_of((uint64_t[]){10, 20, 50, 40, 45, 50}, 40); /* columns 0 and 2 */
    widest_of((uint64_t[]){50, 45, 40, 10, 20, 50}, 40); /* columns 3 and 5 */
    widest_of((uint64_t[]){10, 20, 20, 51, 40, 45}, 31); /* columns 2 and 3 */
    widest_of((uint64_t[]){0, 30, 10, 20, 10, 0}, 30);   /* columns 0 and 1 */
    widest_of((uint64_t[]){7, 7, 7, 7, 7, 7}, 0);
    widest_of((uint64_t[]){0, 1, 2, 2, 2, UINT64_MAX}, UINT64_MAX - 2);
}

/* Turned away with the number, the gap left as it was. */
static void no_gap(polzaintu_settings settings, size_t length, uint32_t number) {
    uint64_t row[8], before[8];
    fill(row, sizeof row);
    fill(before, sizeof before);
    uint64_t gap = 77;
    CHECK(polzaintu_widest_gap(&settings, row, length, &gap) == number);
    CHECK(gap == 77);
    CHECK(memcmp(row, before, sizeof row) == 0);
}

static void gap_numbers(void) {
    for (size_t i = 0; i < REFUSED_SETTINGS_COUNT; i++) {
        no_gap(REFUSED_SETTINGS[i].settings, 6, REFUSED_SETTINGS[i].number);
        no_gap(REFUSED_SETTINGS[i].settings, 0, REFUSED_SETTINGS[i].number);
    }
    no_gap(PRINTED, 5, 21);
    no_gap(PRINTED, 7, 21);
    no_gap(PRINTED, 0, 21);
}

/* The fewest steps from neighbour to neighbour, found one step after the other. */
static void count_hops(size_t width, size_t from, uint64_t hops[POLZAINTU_WIDTH_MOST]) {
    for (size_t c = 0; c < width; c++)
        hops[c] = c == from ? 0 : UINT64_MAX;
    for (uint64_t n = 0; n < width; n++)
        for (size_t a = 0; a < width; a++)
            for (size_t b = 0; b < width; b++)
                if (hops[a] == n && hops[b] > n + 1 && neighbours(width, a, b))
                    hops[b] = n + 1;
}

static void ranges_of_width(size_t width) {
    polzaintu_settings settings = PRINTED;
    settings.width = width;
    settings.rows = width;
    for (size_t column = 0; column < width; column++) {
        uint64_t hops[POLZAINTU_WIDTH_MOST];
        count_hops(width, column, hops);
        for (uint64_t rows = 1; rows <= width; rows++) {
            polzaintu_range range;
            const polzaintu_broken broken = {1000, rows, column};
            CHECK(polzaintu_reach(&settings, &broken, &range) == 0);
            CHECK(range.ticks == 2000 + 96 + (rows - 1));
            for (size_t c = 0; c < width; c++)
                CHECK((range.first <= c && c <= range.last) == (hops[c] <= rows));
        }
    }
}

static bool same_range(polzaintu_range a, polzaintu_range b) {
    return a.ticks == b.ticks && a.first == b.first && a.last == b.last;
}

/* So many rows below, and in a row as many after row 7. */
static void range_is(uint64_t gap, uint64_t rows, uint64_t column, polzaintu_range expected) {
    const polzaintu_settings settings = {9, 1024, 100, 10, 400, 0, 12};
    const polzaintu_broken broken = {.gap = gap, .rows = rows, .column = column};
    polzaintu_range range;
    CHECK(polzaintu_reach(&settings, &broken, &range) == 0);
    CHECK(same_range(range, expected));
    const uint64_t row = rows + 7 <= 1024 ? 7 : 1024 - rows;
    const polzaintu_broken_in_row there = {
        .gap = gap, .row = row, .later = row + rows, .column = column};
    fill(&range, sizeof range);
    CHECK(polzaintu_reach_in_row(&settings, &there, &range) == 0);
    CHECK(same_range(range, expected));
}

static void ranges_by_hand(void) {
    range_is(60, 1, 4, (polzaintu_range){216, 3, 5});
    range_is(60, 2, 4, (polzaintu_range){217, 2, 6});
    range_is(60, 3, 4, (polzaintu_range){218, 0, 8});
    range_is(60, 1, 0, (polzaintu_range){216, 0, 2});
    range_is(60, 1, 2, (polzaintu_range){216, 0, 3});
    range_is(60, 1, 6, (polzaintu_range){216, 5, 8});
    range_is(60, 2, 8, (polzaintu_range){217, 5, 8});
    range_is(0, 1024, 8, (polzaintu_range){96 + 1023, 0, 8});
    range_is(GAP_MOST, 1, 0, (polzaintu_range){2 * GAP_MOST + 96, 0, 2});
}

/* Turned away with the number, the range left as it was. */
static void no_range(polzaintu_settings settings, uint64_t gap, uint64_t rows, uint64_t column,
                     uint32_t number) {
    const polzaintu_broken broken = {.gap = gap, .rows = rows, .column = column};
    const polzaintu_broken_in_row there = {.gap = gap, .row = 0, .later = rows, .column = column};
    polzaintu_range range, before;
    fill(&range, sizeof range);
    fill(&before, sizeof before);
    CHECK(polzaintu_reach(&settings, &broken, &range) == number);
    CHECK(memcmp(&range, &before, sizeof range) == 0);
    CHECK(polzaintu_reach_in_row(&settings, &there, &range) == number);
    CHECK(memcmp(&range, &before, sizeof range) == 0);
}

static void range_numbers(void) {
    for (size_t i = 0; i < REFUSED_SETTINGS_COUNT; i++) {
        no_range(REFUSED_SETTINGS[i].settings, 0, 1, 0, REFUSED_SETTINGS[i].number);
        /* It does not fit either. */
        no_range(REFUSED_SETTINGS[i].settings, UINT64_MAX, 0, UINT64_MAX,
                 REFUSED_SETTINGS[i].number);
    }
    no_range(PRINTED, 0, 0, 0, POLZAINTU_UNFIT);
    no_range(PRINTED, 0, 2, 0, POLZAINTU_UNFIT);
    no_range(PRINTED, 0, UINT64_MAX, 0, POLZAINTU_UNFIT);
    no_range(PRINTED, 0, 1, 6, POLZAINTU_UNFIT);
    no_range(PRINTED, 0, 1, UINT64_MAX, POLZAINTU_UNFIT);
    no_range(PRINTED, GAP_MOST + 1, 1, 0, POLZAINTU_UNFIT);
    no_range(PRINTED, UINT64_MAX, 1, 0, POLZAINTU_UNFIT);
}

/* A later row that is none: the tile's own, one before it, one past R. */
static void no_later_row(void) {
    const uint64_t rows[][2] = {{1, 1}, {1, 0}, {0, 2}, {UINT64_MAX, 1}, {0, UINT64_MAX}};
    for (size_t i = 0; i < sizeof rows / sizeof *rows; i++) {
        const polzaintu_broken_in_row there = {
            .gap = 0, .row = rows[i][0], .later = rows[i][1], .column = 0};
        polzaintu_range range, before;
        fill(&range, sizeof range);
        fill(&before, sizeof before);
        CHECK(polzaintu_reach_in_row(&PRINTED, &there, &range) == POLZAINTU_UNFIT);
        CHECK(memcmp(&range, &before, sizeof range) == 0);
    }
}

/* Rows 0 and 1 of a wall with R 2; the first has the larger reach, 2 * 80 + 8 * 12 + 1. */
static void surveyed_rows(void) {
    const polzaintu_settings settings = {6, 2, 100, 10, 400, 0, 12};
    const uint64_t rows[2][6] = {{0, 0, 0, 80, 0, 0}, {9, 9, 9, 45, 9, 9}};
    polzaintu_survey survey = {0, 0, 0};
    CHECK(polzaintu_survey_row(&settings, rows[0], 6, &survey) == 0);
    CHECK(survey.row == 1 && survey.gap == 80 && survey.largest == 257);
    CHECK(polzaintu_survey_row(&settings, rows[1], 6, &survey) == 0);
    CHECK(survey.row == 2 && survey.gap == 36 && survey.largest == 257);
    CHECK(polzaintu_survey_row(&settings, rows[1], 6, &survey) == POLZAINTU_UNFIT);
    CHECK(survey.row == 2 && survey.gap == 36 && survey.largest == 257);
}

/* Turned away with the number, the survey and the row left as they were. */
static void not_surveyed(polzaintu_settings settings, uint64_t due, uint64_t last_time,
                         size_t length, uint32_t number) {
    uint64_t row[7] = {0, 0, 0, 0, 0, last_time, 0}, held[7];
    memcpy(held, row, sizeof row);
    polzaintu_survey survey = {due, 77, 78};
    CHECK(polzaintu_survey_row(&settings, row, length, &survey) == number);
    CHECK(survey.row == due && survey.gap == 77 && survey.largest == 78);
    CHECK(memcmp(row, held, sizeof row) == 0);
}

static void survey_numbers(void) {
    for (size_t i = 0; i < REFUSED_SETTINGS_COUNT; i++)
        not_surveyed(REFUSED_SETTINGS[i].settings, UINT64_MAX, 0, 0, REFUSED_SETTINGS[i].number);
    not_surveyed(PRINTED, UINT64_MAX, 0, 5, 21);
    not_surveyed(PRINTED, 0, 0, 7, 21);
    not_surveyed(PRINTED, 0, 0, 0, 21);
    not_surveyed(PRINTED, 1, 0, 6, POLZAINTU_UNFIT);
    not_surveyed(PRINTED, UINT64_MAX, 0, 6, POLZAINTU_UNFIT);
    not_surveyed(PRINTED, 0, GAP_MOST + 1, 6, POLZAINTU_UNFIT);
}

void reach_tests(void) {
    gaps_by_hand();
    gap_numbers();
    ranges_of_width(6);
    ranges_of_width(7);
    ranges_of_width(9);
    ranges_of_width(16);
    ranges_by_hand();
    range_numbers();
    no_later_row();
    surveyed_rows();
    survey_numbers();
}

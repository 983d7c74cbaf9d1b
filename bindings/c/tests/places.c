/* The seams of a row in order, a column's mark and a link's place, for walls of some widths. */
#include "tests.h"

#include <string.h>

static const uint64_t LATEST = (UINT64_C(1) << 41) - 1;

/* Turned away with the number, the columns left as they were. */
static void no_columns(polzaintu_settings settings, uint64_t seam, uint32_t number) {
    polzaintu_pair pair = {77, 78};
    CHECK(polzaintu_seam_columns(&settings, seam, &pair) == number);
    CHECK(pair.left == 77 && pair.right == 78);
}

/* Every two neighbours once, by left and then right column. */
static void seams_in_order(size_t width) {
    const polzaintu_settings settings = of_width(width);
    uint64_t seam = 0;
    for (size_t left = 0; left < width; left++)
        for (size_t right = left + 1; right < width; right++)
            if (neighbours(width, left, right)) {
                polzaintu_pair pair = {77, 78};
                CHECK(polzaintu_seam_columns(&settings, seam++, &pair) == 0);
                CHECK(pair.left == left && pair.right == right);
            }
    CHECK(seam == width + 1);
    no_columns(settings, seam, POLZAINTU_UNFIT);
    no_columns(settings, UINT64_MAX, POLZAINTU_UNFIT);
}

/* Each seam of a row whose tiles are faulty as the marks say is that of its two tiles. */
static void row_seams(uint8_t marks) {
    const uint64_t times[6] = {1500, 1501, 1499, 1536, 0, LATEST};
    for (uint64_t seam = 0; seam <= 6; seam++) {
        polzaintu_pair pair, expected_pair;
        uint32_t side = 9, expected_side = 9;
        polzaintu_halves halves = {1, 2}, expected = {1, 2};
        CHECK(polzaintu_row_seam(&PRINTED, times, 6, &marks, 1, seam, &pair, &side, &halves) == 0);
        CHECK(polzaintu_seam_columns(&PRINTED, seam, &expected_pair) == 0);
        const size_t l = expected_pair.left, r = expected_pair.right;
        CHECK(polzaintu_seam(times[l], marks >> l & 1, times[r], marks >> r & 1, &expected_side,
                             &expected) == 0);
        CHECK(pair.left == l && pair.right == r);
        CHECK(side == expected_side);
        CHECK(bits(halves.midpoint) == bits(expected.midpoint));
        CHECK(bits(halves.half_gap) == bits(expected.half_gap));
    }
}

/* Turned away with the number; all that is lent is left as it was. */
static void no_row_seam(polzaintu_settings settings, size_t times_len, size_t marks_len,
                        uint64_t seam, uint32_t number) {
    uint64_t times[7] = {LATEST + 1, 0, 0, 0, 0, 0, 0}, held[7];
    uint8_t marks[2] = {0, 0};
    memcpy(held, times, sizeof times);
    polzaintu_pair pair = {77, 78};
    uint32_t side = 9;
    polzaintu_halves halves = {1, 2};
    CHECK(polzaintu_row_seam(&settings, times, times_len, marks, marks_len, seam, &pair, &side,
                             &halves) == number);
    CHECK(pair.left == 77 && pair.right == 78 && side == 9);
    CHECK(bits(halves.midpoint) == bits(1) && bits(halves.half_gap) == bits(2));
    CHECK(memcmp(times, held, sizeof times) == 0 && marks[0] == 0 && marks[1] == 0);
}

static void row_seam_numbers(void) {
    for (size_t i = 0; i < REFUSED_SETTINGS_COUNT; i++) {
        no_columns(REFUSED_SETTINGS[i].settings, UINT64_MAX, REFUSED_SETTINGS[i].number);
        no_row_seam(REFUSED_SETTINGS[i].settings, 0, 0, 7, REFUSED_SETTINGS[i].number);
    }
    no_row_seam(PRINTED, 5, 1, 7, 21);
    no_row_seam(PRINTED, 7, 1, 7, 21);
    no_row_seam(PRINTED, 0, 1, 7, 21);
    no_row_seam(PRINTED, 6, 0, 7, 21);
    no_row_seam(PRINTED, 6, 2, 7, 21);
    no_row_seam(PRINTED, 6, 1, 7, POLZAINTU_UNFIT);
    no_row_seam(PRINTED, 6, 1, UINT64_MAX, POLZAINTU_UNFIT);
    no_row_seam(PRINTED, 6, 1, 0, 31);
    no_row_seam(PRINTED, 6, 1, 1, 31);
}

/* Turned away with the number, the answer left as it was. */
static void no_mark(polzaintu_settings settings, size_t length, uint64_t column, uint32_t number) {
    uint8_t marks[34];
    memset(marks, 0xff, sizeof marks);
    for (int held = 0; held <= 1; held++) {
        bool faulty = held;
        CHECK(polzaintu_mark(&settings, marks, length, column, &faulty) == number);
        CHECK(faulty == (bool)held);
    }
}

/* One bit set among all the others, and one clear. */
static void marks_of(size_t width) {
    const polzaintu_settings settings = of_width(width);
    const size_t length = (width + 7) / 8;
    for (size_t set = 0; set < width; set++)
        for (size_t column = 0; column < width; column++) {
            uint8_t marks[POLZAINTU_WIDTH_MOST / 8] = {0};
            bool faulty = column != set;
            marks[set / 8] = (uint8_t)(1 << set % 8);
            CHECK(polzaintu_mark(&settings, marks, length, column, &faulty) == 0);
            CHECK(faulty == (column == set));
        }
    no_mark(settings, length, width, POLZAINTU_UNFIT);
    no_mark(settings, length, UINT64_MAX, POLZAINTU_UNFIT);
    no_mark(settings, length - 1, width, 21);
    no_mark(settings, length + 1, 0, 21);
    no_mark(settings, 0, 0, 21);
}

/* Turned away with the number, the place left as it was. */
static void no_link(polzaintu_settings settings, uint64_t tile, uint64_t sender, uint32_t number) {
    uint64_t place = 77;
    CHECK(polzaintu_link_place(&settings, tile, sender, &place) == number);
    CHECK(place == 77);
}

static void links_of(size_t width) {
    const polzaintu_settings settings = of_width(width);
    for (size_t tile = 0; tile < width; tile++)
        for (size_t sender = 0; sender < width + 2; sender++) {
            if (sender < width && (tile == sender || neighbours(width, tile, sender))) {
                uint64_t place = UINT64_MAX;
                CHECK(polzaintu_link_place(&settings, tile, sender, &place) == 0);
                CHECK(place == link_place(width, tile, sender));
            } else {
                no_link(settings, tile, sender, POLZAINTU_UNFIT);
            }
        }
    no_link(settings, width, width - 1, POLZAINTU_UNFIT);
    no_link(settings, UINT64_MAX, UINT64_MAX, POLZAINTU_UNFIT);
    no_link(settings, 0, UINT64_MAX, POLZAINTU_UNFIT);
}

void places_tests(void) {
    const size_t widths[] = {6, 7, 8, 9, 16, 256};
    for (size_t i = 0; i < sizeof widths / sizeof *widths; i++) {
        seams_in_order(widths[i]);
        marks_of(widths[i]);
        links_of(widths[i] < 256 ? widths[i] : 40);
    }
    for (unsigned marks = 0; marks < 64; marks++)
        row_seams((uint8_t)marks);
    row_seam_numbers();
    for (size_t i = 0; i < REFUSED_SETTINGS_COUNT; i++) {
        no_mark(REFUSED_SETTINGS[i].settings, 34, UINT64_MAX, REFUSED_SETTINGS[i].number);
        no_link(REFUSED_SETTINGS[i].settings, UINT64_MAX, 0, REFUSED_SETTINGS[i].number);
    }
}

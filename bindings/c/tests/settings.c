/* Settings: every limit from both sides, and the order between the numbers. */
#include "tests.h"

const polzaintu_settings PRINTED = {6, 1, 100, 10, 400, 0, 12};

const struct refused_settings REFUSED_SETTINGS[] = {
    {{5, 1, 100, 10, 400, 0, 12}, 1},     {{257, 1, 100, 10, 400, 0, 12}, 1},
    {{6, 0, 100, 10, 400, 0, 12}, 2},     {{6, 1025, 100, 10, 400, 0, 12}, 2},
    {{6, 1, 0, 0, 400, 0, 12}, 3},        {{6, 1, 1000001, 10, 400, 0, 12}, 3},
    {{6, 1, 100, 101, 400, 0, 12}, 4},    {{6, 1, 100, 10, 0, 0, 12}, 5},
    {{6, 1, 100, 10, 1000001, 0, 12}, 5}, {{6, 1, 100, 10, 400, 10001, 12}, 6},
    {{6, 1, 100, 10, 400, 0, 0}, 7},      {{6, 1, 100, 10, 1000000, 0, 62501}, 7},
    {{6, 1, 100, 10, 400, 0, 11}, 8},     {{6, 1, 100, 10, 400, 10000, 15}, 8},
    {{6, 1, 100, 10, 191, 0, 12}, 9},     {{6, 1, 100, 10, 999999, 0, 62500}, 9},
};

const size_t REFUSED_SETTINGS_COUNT = sizeof REFUSED_SETTINGS / sizeof *REFUSED_SETTINGS;

static const polzaintu_settings PASSED[] = {
    {6, 1, 100, 10, 400, 0, 12},    {256, 1024, 1000000, 0, 1000000, 0, 62500},
    {6, 1, 1, 0, 32, 0, 2},         {6, 1, 10, 10, 400, 0, 12},
    {6, 1, 100, 10, 192, 0, 12},    {6, 1, 100, 10, 400, 10000, 16},
    {6, 1, 100, 8, 192, 10000, 12},
};

static uint32_t number_of(polzaintu_settings settings) {
    return polzaintu_settings_refusal(&settings);
}

/* All seven wrong, and then one after the other made right: the lowest number is given. */
static void lowest_applies(void) {
    polzaintu_settings s = {5, 0, 0, 101, 0, 10001, 0};
    CHECK(number_of(s) == 1);
    s.width = 6;
    CHECK(number_of(s) == 2);
    s.rows = 1;
    CHECK(number_of(s) == 3);
    s.delay = 100;
    CHECK(number_of(s) == 4);
    s.uncertainty = 10;
    CHECK(number_of(s) == 5);
    s.hold = 100;
    CHECK(number_of(s) == 6);
    s.drift = 0;
    CHECK(number_of(s) == 7);
    s.unit = 11;
    CHECK(number_of(s) == 8);
    s.unit = 12;
    CHECK(number_of(s) == 9);
    s.hold = 192;
    CHECK(number_of(s) == 0);
}

/* No sum or product of large numbers goes astray. */
static void largest_words(void) {
    const uint64_t most = UINT64_MAX;
    CHECK(number_of((polzaintu_settings){most, most, most, most, most, most, most}) == 1);
    CHECK(number_of((polzaintu_settings){6, most, most, most, most, most, most}) == 2);
    CHECK(number_of((polzaintu_settings){6, 1, most, most, most, most, most}) == 3);
    CHECK(number_of((polzaintu_settings){6, 1, 100, most, most, most, most}) == 4);
    CHECK(number_of((polzaintu_settings){6, 1, 100, 10, most, most, most}) == 5);
    CHECK(number_of((polzaintu_settings){6, 1, 100, 10, 400, most, most}) == 6);
    CHECK(number_of((polzaintu_settings){6, 1, 100, 10, 400, 0, most}) == 7);
}

void settings_tests(void) {
    for (size_t i = 0; i < REFUSED_SETTINGS_COUNT; i++)
        CHECK(number_of(REFUSED_SETTINGS[i].settings) == REFUSED_SETTINGS[i].number);
    for (size_t i = 0; i < sizeof PASSED / sizeof *PASSED; i++)
        CHECK(number_of(PASSED[i]) == 0);
    lowest_applies();
    largest_words();
}

/* The words of the answers, and the version. */
#include "tests.h"

#include <string.h>

void words_tests(void) {
    const char *none = polzaintu_words(10);
    CHECK(strcmp(none, "no such number") == 0);
    const uint32_t given[] = {0,  1,  2,  3,  4,  5,  6,  7,  8,  9,  11, 12, 13, 21, 22,
                              23, 24, 25, 26, 31, 41, 42, 43, 44, 45, 51, 52, 53, 54};
    size_t found = 0;
    for (uint32_t number = 0; number < 100; number++)
        found += strcmp(polzaintu_words(number), none) != 0;
    CHECK(found == sizeof given / sizeof *given);
    for (size_t i = 0; i < sizeof given / sizeof *given; i++)
        CHECK(strcmp(polzaintu_words(given[i]), none) != 0);
    CHECK(strcmp(polzaintu_words(31), "a correct tile has a time above 2^41 - 1") == 0);
    CHECK(strcmp(polzaintu_words(53), "the phase of a tile is greater than 999,999") == 0);
    CHECK(strcmp(polzaintu_words(54), "the sender is none of the tile's predecessors") == 0);
    CHECK(strcmp(polzaintu_words(POLZAINTU_UNFIT), "what was lent does not fit") == 0);

    CHECK(POLZAINTU_VERSION == 8000);
    CHECK(polzaintu_version() == POLZAINTU_VERSION);
}

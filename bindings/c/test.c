/* Runs every test of the C interface against the archive. */
#include "tests/tests.h"

#include <stdio.h>
#include <stdlib.h>
#include <string.h>

static unsigned checks, failures;

void check(bool holds, const char *text, const char *file, int line) {
    checks++;
    if (!holds) {
        failures++;
        fprintf(stderr, "%s:%d: not so: %s\n", file, line, text);
    }
}

void fill(void *memory, size_t count) {
    unsigned char *bytes = memory;
    for (size_t i = 0; i < count; i++)
        bytes[i] = (unsigned char)(0xa5 + 31 * i);
}

polzaintu_settings of_width(size_t width) {
    polzaintu_settings settings = PRINTED;
    settings.width = width;
    return settings;
}

bool neighbours(size_t width, size_t a, size_t b) {
    size_t left = a < b ? a : b, right = a < b ? b : a;
    return right - left == 1 || (left == 0 && right == 2) ||
           (left + 3 == width && right + 1 == width);
}

size_t link_place(size_t width, size_t tile, size_t sender) {
    size_t place = 0;
    for (size_t c = 0; c <= tile; c++) {
        size_t end = c < tile ? width : sender;
        for (size_t s = 0; s < end; s++)
            place += s == c || neighbours(width, c, s);
    }
    return place;
}

uint64_t bits(double number) {
    uint64_t word;
    memcpy(&word, &number, sizeof word);
    return word;
}

uint64_t seeded(uint64_t *seed) {
    uint64_t word = *seed += UINT64_C(0x9e3779b97f4a7c15);
    word = (word ^ word >> 30) * UINT64_C(0xbf58476d1ce4e5b9);
    word = (word ^ word >> 27) * UINT64_C(0x94d049bb133111eb);
    return word ^ word >> 31;
}

int main(void) {
    settings_tests();
    tile_tests();
    row_tests();
    seam_tests();
    waves_tests();
    waves_reading_tests();
    board_tests();
    board_run_tests();
    places_tests();
    wide_tests();
    reach_tests();
    empty_tests();
    words_tests();
    wall_tests();
    wall_number_tests();
    printf("%u checks, %u failed\n", checks, failures);
    return failures == 0 ? EXIT_SUCCESS : EXIT_FAILURE;
}

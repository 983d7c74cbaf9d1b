/* What the tests share: a check that counts, settings to start from, the shape of a row, and a
 * source of numbers. */
#ifndef TESTS_H
#define TESTS_H

#include "../polzaintu.h"

/* Counts a check, and says on standard error where one fails. */
void check(bool holds, const char *text, const char *file, int line);

#define CHECK(holds) check((holds), #holds, __FILE__, __LINE__)

/* Fills memory with bytes that differ from place to place, so that a write anywhere is seen. */
void fill(void *memory, size_t count);

/* W 6, R 1, d 100, u 10, A 400, r 0, h 12. */
extern const polzaintu_settings PRINTED;

/* The same with another W. */
polzaintu_settings of_width(size_t width);

/* Settings just past each limit, and the number under which they are turned away. */
struct refused_settings {
    polzaintu_settings settings;
    uint32_t number;
};
extern const struct refused_settings REFUSED_SETTINGS[];
extern const size_t REFUSED_SETTINGS_COUNT;

/* Whether two columns of a row are neighbours. */
bool neighbours(size_t width, size_t a, size_t b);

/* Where the value of a link stands among the 3W + 2 of a row. */
size_t link_place(size_t width, size_t tile, size_t sender);

/* The bits of a 64-bit floating number. */
uint64_t bits(double number);

/* The next number of a small seeded source. */
uint64_t seeded(uint64_t *seed);

void settings_tests(void);
void tile_tests(void);
void row_tests(void);
void seam_tests(void);
void waves_tests(void);
void waves_reading_tests(void);
void board_tests(void);
void board_run_tests(void);
void places_tests(void);
void wide_tests(void);
void reach_tests(void);
void empty_tests(void);
void words_tests(void);
void wall_tests(void);
void wall_number_tests(void);

#endif

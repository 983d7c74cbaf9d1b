/* A small wall file in memory, and the steps through one. */
#ifndef WALL_FILE_H
#define WALL_FILE_H

#include "tests.h"

/* Where the fields of the small wall begin, and where the file ends. */
enum {
    TAG_1 = 0,
    TAG_2 = 27,
    TAG_3 = 78,
    TAG_4 = 82,
    LAST_TAG_3 = 281,
    LAST_TAG_4 = 285,
    END = 484
};

struct wall_file {
    uint8_t bytes[END + 8];
    size_t length;
};

/* W 6, R 2 and otherwise the printed wall: row 0 is 1000, but 1080 in column 3. */
struct wall_file small_wall(void);

/* Writes a big-endian number of so many bytes. */
void put(struct wall_file *file, size_t at, size_t size, uint64_t number);

/* Writes tag 1. */
void put_settings(struct wall_file *file, polzaintu_settings settings);

/* Where a tile's drift and phase, and where the value of a link, stand in a row's tag 4. */
size_t drift_at(size_t tag_4, size_t tile);
size_t phase_at(size_t tag_4, size_t tile);
size_t link_at(size_t tag_4, size_t tile, size_t sender);

/* A file on its way: where it stands, the last row accepted, and what a step wrote: a row and six
 * letters. Two bytes more follow the letters. */
struct walk {
    polzaintu_wall wall;
    uint64_t row[6], next[6];
    uint64_t offset;
    uint8_t letters[8];
};

/* A walk of which no step is taken; its rows and letters hold what `fill` leaves. */
struct walk begin(void);

/* Takes a step of a file of which so many bytes are taken. */
uint32_t step(struct walk *walk, const struct wall_file *file, uint64_t taken);

/* Takes so many steps, which all pass. */
void go(struct walk *walk, const struct wall_file *file, size_t steps);

#endif

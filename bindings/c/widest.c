/* Prints the widest seam of the wall file on standard input: of the closed seams of rows 1 to R the
 * one whose half gap, sign dropped, is largest, and of several the first in the order of wallrun.
 * The line is `widest ROW LEFT RIGHT HALF_GAP`, `no closed seam` or `refused NUMBER at OFFSET`. */
#include "polzaintu.h"

#include <inttypes.h>
#include <stdio.h>
#include <stdlib.h>

struct widest {
    bool found;
    uint64_t row;
    polzaintu_pair columns;
    double half_gap;
};

static double size_of(double gap) {
    return gap < 0 ? -gap : gap;
}

/* Looks at each seam of a row, in the order of wallrun. */
static uint32_t look_at_row(struct widest *widest, const polzaintu_settings *settings,
                            uint64_t number, const uint64_t *times, const uint8_t *marks) {
    for (uint64_t seam = 0; seam <= settings->width; seam++) {
        polzaintu_pair columns;
        uint32_t side;
        polzaintu_halves halves;
        const uint32_t answer =
            polzaintu_row_seam(settings, times, settings->width, marks, (settings->width + 7) / 8,
                               seam, &columns, &side, &halves);
        if (answer != 0)
            return answer;
        if (side == POLZAINTU_CLOSED &&
            (!widest->found || size_of(widest->half_gap) < size_of(halves.half_gap)))
            *widest = (struct widest){true, number, columns, halves.half_gap};
    }
    return 0;
}

static int failed(const char *what) {
    perror(what);
    return EXIT_FAILURE;
}

/* The exit status, once the line is printed. */
static int finish(void) {
    return fflush(stdout) == 0 ? EXIT_SUCCESS : failed("widest: standard output");
}

int main(void) {
    static const uint8_t NO_MARKS[POLZAINTU_WIDTH_MOST / 8];
    uint8_t part[POLZAINTU_DUE_MOST];
    uint64_t rows[2][POLZAINTU_WIDTH_MOST] = {{0}};
    uint64_t *times = rows[0], *next = rows[1];
    uint8_t letters[POLZAINTU_WIDTH_MOST]; /* a seam has no use for them */
    struct widest widest = {false, 0, {0, 0}, 0.0};
    polzaintu_wall wall;
    polzaintu_wall_new(&wall);
    while (wall.stage != POLZAINTU_ENDED) {
        const polzaintu_wall before = wall;
        const size_t width = polzaintu_wall_width(&wall);
        const size_t length = fread(part, 1, polzaintu_wall_due(&wall), stdin);
        if (ferror(stdin))
            return failed("widest: standard input");
        uint64_t offset;
        const uint32_t number = polzaintu_wall_step(&wall, part, length, times, width, next, width,
                                                    letters, width, &offset);
        if (number != 0) {
            printf("refused %" PRIu32 " at %" PRIu64 "\n", number, offset);
            return finish();
        }
        /* The last row accepted: its marks come with the next one, and the last of all has none. */
        const bool ends = before.stage == POLZAINTU_END_DUE;
        if (ends || (before.stage == POLZAINTU_ROW_DUE && before.row > 0)) {
            const uint32_t answer = look_at_row(&widest, &before.settings, before.row, times,
                                                ends ? NO_MARKS : part + 3);
            if (answer != 0) {
                fprintf(stderr, "widest: %s\n", polzaintu_words(answer));
                return EXIT_FAILURE;
            }
        }
        if (before.stage == POLZAINTU_START_DUE || before.stage == POLZAINTU_ROW_DUE) {
            uint64_t *written = next;
            next = times;
            times = written;
        }
    }
    if (widest.found)
        printf("widest %" PRIu64 " %" PRIu64 " %" PRIu64 " %.1f\n", widest.row, widest.columns.left,
               widest.columns.right, widest.half_gap);
    else
        printf("no closed seam\n");
    return finish();
}

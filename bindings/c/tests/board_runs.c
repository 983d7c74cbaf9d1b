/* Runs of a tile: at which close it pulses, from its senders' stamps, whatever the repeats, and
 * closes at once beside closes one by one. */
#include "board_calls.h"

#include <string.h>

#define SILENT POLZAINTU_SILENT

/* No sender. */
#define NOBODY 4

/* The stamps of own and the neighbours as events, at each reading in this order of the senders; the
 * one that chatters pulses at every later reading too. The tile must wait at every close before
 * reading due, and pulse there. Answers what it is then. */
static polzaintu_board run(polzaintu_board board, const polzaintu_stamps *stamps,
                           const uint64_t *order, uint64_t chatters, uint64_t due) {
    const uint64_t by_sender[] = {stamps->own, stamps->neighbours[0], stamps->neighbours[1],
                                  stamps->neighbours[2]};
    bool waits = true;
    for (uint64_t reading = board.reading; reading <= due; reading++) {
        for (uint64_t i = 0; i <= stamps->count; i++) {
            const uint64_t stamp = by_sender[order[i]];
            if (stamp == reading || (stamp < reading && order[i] == chatters))
                waits = waits && board_pulse(&board, order[i]) == 0;
        }
        if (reading < due)
            waits = waits && board_close(&board) == POLZAINTU_WAITS && board.reading == reading + 1;
    }
    CHECK(waits);
    CHECK(board_close(&board) == POLZAINTU_PULSES);
    CHECK(board.reading == due && board.stage == POLZAINTU_BOARD_PULSED);
    return board;
}

/* The same from a start, where no sender chatters. */
static void pulses_at(polzaintu_settings settings, const polzaintu_stamps *stamps, uint64_t first,
                      const uint64_t *order, uint64_t due) {
    const polzaintu_board start = board_started(settings, stamps->count, first);
    const polzaintu_board board = run(start, stamps, order, NOBODY, due);
    CHECK(repeats_are(&board, 0, 0, 0, 0));
}

/* The next order of n numbers, as words in a dictionary; false after the last. */
static bool next_order(uint64_t *order, size_t n) {
    for (size_t i = n - 1; i > 0; i--)
        if (order[i - 1] < order[i]) {
            size_t j = n - 1;
            while (order[j] < order[i - 1])
                j--;
            const uint64_t swapped = order[i - 1];
            order[i - 1] = order[j];
            order[j] = swapped;
            for (size_t low = i, high = n - 1; low < high; low++, high--) {
                const uint64_t end = order[low];
                order[low] = order[high];
                order[high] = end;
            }
            return true;
        }
    return false;
}

static void in_every_order(polzaintu_settings settings, polzaintu_stamps stamps, uint64_t p) {
    uint64_t order[] = {0, 1, 2, 3};
    size_t orders = 0;
    do {
        pulses_at(settings, &stamps, 0, order, p + settings.hold);
        orders++;
    } while (next_order(order, stamps.count + 1));
    CHECK(orders == (stamps.count == 2 ? 6 : 24));
}

/* The tile cases, each with its P; of two neighbours the third place is not heard. */
static void tile_cases(void) {
    const struct {
        polzaintu_stamps stamps;
        uint64_t p;
    } cases[] = {
        {{100, {100, 100, 0}, 2}, 100},    {{120, {100, 100, 0}, 2}, 112},
        {{112, {100, 100, 0}, 2}, 112},    {{136, {100, 100, 0}, 2}, 112},
        {{137, {100, 100, 0}, 2}, 113},    {{160, {100, 100, 0}, 2}, 136},
        {{200, {100, 100, 0}, 2}, 136},    {{64, {100, 100, 0}, 2}, 64},
        {{63, {100, 100, 0}, 2}, 64},      {{0, {100, 100, 0}, 2}, 64},
        {{220, {100, 300, 0}, 2}, 208},    {{220, {300, 100, 0}, 2}, 208},
        {{110, {0, 100, 0}, 2}, 86},       {{110, {100, 0, 0}, 2}, 86},
        {{SILENT, {100, 130, 0}, 2}, 166}, {{SILENT, {130, 100, 0}, 2}, 166},
        {{90, {SILENT, 100, 0}, 2}, 90},   {{90, {100, SILENT, 0}, 2}, 90},
        {{50, {SILENT, 100, 0}, 2}, 64},   {{50, {100, SILENT, 0}, 2}, 64},
        {{220, {200, 300, 100}, 3}, 208},  {{SILENT, {130, 100, 110}, 3}, 166},
        {{50, {100, SILENT, 120}, 3}, 64},
    };
    for (size_t i = 0; i < sizeof cases / sizeof *cases; i++)
        in_every_order(PRINTED, cases[i].stamps, cases[i].p);
    /* J is 25. */
    const polzaintu_settings drifting = {6, 1, 100, 8, 192, 10000, 12};
    in_every_order(drifting, (polzaintu_stamps){137, {100, 100, 0}, 2}, 112);
}

/* The tile pulses at P + A, P as polzaintu_tile has it for all stamps, those after the tile's own
 * pulse too. */
static void as_the_tile(polzaintu_stamps stamps) {
    const uint64_t order[] = {0, 1, 2, 3};
    polzaintu_forwarded forwarded = {0};
    CHECK(polzaintu_tile(&PRINTED, &stamps, &forwarded) == 0);
    pulses_at(PRINTED, &stamps, 700, order, (uint64_t)forwarded.p + PRINTED.hold);
}

/* Correct stamps that are A - 9h = 292 apart, and one sender that is faulty. */
static void far_apart(uint64_t faulty) {
    const uint64_t early = 1000, late = 1292;
    as_the_tile((polzaintu_stamps){faulty, {early, late, 0}, 2});
    as_the_tile((polzaintu_stamps){early, {faulty, late, 0}, 2});
    as_the_tile((polzaintu_stamps){late, {faulty, early, 0}, 2});
    as_the_tile((polzaintu_stamps){early, {late, faulty, 0}, 2});
    as_the_tile((polzaintu_stamps){faulty, {early, late, 1100}, 3});
    as_the_tile((polzaintu_stamps){late, {early, faulty, 1100}, 3});
}

/* Own 1000 and a neighbour at 0 make it due at 1400. The other neighbour, where it comes so late,
 * makes it due at 1376, which is over: it pulses at once. After the pulse it is ignored. */
static void due_earlier_than_now(void) {
    const uint64_t order[] = {0, 1, 2};
    const struct {
        uint64_t late, due;
    } runs[] = {{1376, 1376}, {1377, 1377}, {1390, 1390},
                {1400, 1400}, {1401, 1400}, {SILENT, 1400}};
    for (size_t i = 0; i < sizeof runs / sizeof *runs; i++) {
        const polzaintu_stamps stamps = {1000, {0, runs[i].late, 0}, 2};
        pulses_at(PRINTED, &stamps, 0, order, runs[i].due);
    }
}

/* Runs in which a sender pulses at every reading from its stamp on, and runs that begin with other
 * counts: the tile pulses where it does without. */
static void any_repeats(polzaintu_stamps stamps, uint64_t due) {
    const uint64_t order[] = {0, 1, 2, 3};
    const polzaintu_board start = board_started(PRINTED, stamps.count, 0);
    for (uint64_t chatters = 0; chatters <= stamps.count; chatters++) {
        const uint64_t stamp = chatters == 0 ? stamps.own : stamps.neighbours[chatters - 1];
        const polzaintu_board board = run(start, &stamps, order, chatters, due);
        uint64_t repeats[4] = {0};
        repeats[chatters] = stamp == SILENT ? 0 : due - stamp;
        CHECK(memcmp(board.repeats, repeats, sizeof repeats) == 0);
    }
    const uint64_t counts[][4] = {{0, 65535, 3, 0},
                                  {65535, 0, 65534, 1},
                                  {65535, 65535, 65535, 65535},
                                  {1, 2, 3, UINT64_MAX}};
    for (size_t i = 0; i < sizeof counts / sizeof *counts; i++) {
        polzaintu_board counted = start;
        memcpy(counted.repeats, counts[i], sizeof counts[i]);
        CHECK(board_pulse(&counted, stamps.count + 1) == 54);
        const polzaintu_board board = run(counted, &stamps, order, NOBODY, due);
        CHECK(memcmp(board.repeats, counts[i], sizeof counts[i]) == 0);
    }
}

/* Own at the latest start, and a neighbour so far before the last reading that it is due then, or a
 * reading later. Its stamp is over 2^41 - 1. */
static void last_reading(void) {
    const struct {
        uint64_t before;
        uint32_t answer;
        uint64_t stage;
    } runs[] = {{364, POLZAINTU_PULSES, POLZAINTU_BOARD_PULSED},
                {363, POLZAINTU_DONE, POLZAINTU_BOARD_ENDED},
                {0, POLZAINTU_DONE, POLZAINTU_BOARD_ENDED}};
    for (size_t i = 0; i < sizeof runs / sizeof *runs; i++) {
        polzaintu_board board = board_started(PRINTED, 2, LATEST_START);
        CHECK(board_pulse(&board, 0) == 0);
        CHECK(board_close_many(&board, LAST_READING - LATEST_START - runs[i].before) ==
              POLZAINTU_WAITS);
        CHECK(board_pulse(&board, 1) == 0);
        polzaintu_board at_once = board;
        CHECK(board_close_many(&board, runs[i].before) == POLZAINTU_WAITS);
        CHECK(board.reading == LAST_READING && board.stage == POLZAINTU_BOARD_RUNNING);
        CHECK(board_close(&board) == runs[i].answer);
        CHECK(board.reading == LAST_READING && board.stage == runs[i].stage);
        CHECK(board_close_many(&at_once, UINT64_MAX) == runs[i].answer);
        CHECK(same_board(&board, &at_once));
    }
}

static void one_by_one(polzaintu_board board, uint64_t n) {
    polzaintu_board single = board;
    uint32_t answer = POLZAINTU_WAITS;
    for (uint64_t i = 0; i < n; i++)
        if (single.stage == POLZAINTU_BOARD_RUNNING)
            answer = board_close(&single);
    CHECK(board_close_many(&board, n) == answer);
    CHECK(same_board(&board, &single));
}

/* Boards that pulse, pulse at the last reading, and end there. */
static void many_closes(void) {
    polzaintu_board boards[3];
    for (size_t i = 0; i < 3; i++) {
        boards[i] = board_started(PRINTED, 2, 1000);
        boards[i].reading = i == 0 ? 1000 : LAST_READING - 400;
        CHECK(board_pulse(&boards[i], 0) == 0);
        if (i < 2)
            CHECK(board_pulse(&boards[i], 1) == 0);
        const uint64_t numbers[] = {0, 1, 2, 399, 400, 401, 402, 1000};
        for (size_t j = 0; j < sizeof numbers / sizeof *numbers; j++)
            one_by_one(boards[i], numbers[j]);
    }
    CHECK(board_close_many(&boards[0], UINT64_MAX) == POLZAINTU_PULSES);
    CHECK(boards[0].reading == 1400);
    CHECK(board_close_many(&boards[1], 401) == POLZAINTU_PULSES);
    CHECK(boards[1].reading == LAST_READING);
    CHECK(board_close_many(&boards[2], UINT64_MAX) == POLZAINTU_DONE);
    CHECK(boards[2].reading == LAST_READING);
}

void board_run_tests(void) {
    tile_cases();
    far_apart(SILENT);
    for (uint64_t faulty = 700; faulty < 1800; faulty += 23)
        far_apart(faulty);
    due_earlier_than_now();
    any_repeats((polzaintu_stamps){1000, {0, 1390, 0}, 2}, 1390);
    any_repeats((polzaintu_stamps){1000, {0, SILENT, 0}, 2}, 1400);
    any_repeats((polzaintu_stamps){SILENT, {130, 100, 110}, 3}, 566);
    any_repeats((polzaintu_stamps){220, {200, 300, 100}, 3}, 608);
    last_reading();
    many_closes();
}

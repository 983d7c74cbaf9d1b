/* A running tile: numbers 1 to 9, 11, 12 and 54, what it counts, what it ignores once its run is
 * over, and what does not fit. */
#include "board_calls.h"

#include <string.h>

/* A start is turned away with the number, and all that was lent holds what it held. */
static void no_start(polzaintu_settings settings, uint64_t count, uint64_t reading,
                     uint32_t number) {
    const polzaintu_settings settings_before = settings;
    polzaintu_board board, before;
    fill(&board, sizeof board);
    fill(&before, sizeof before);
    CHECK(polzaintu_board_start(&settings, count, reading, &board) == number);
    CHECK(memcmp(&settings, &settings_before, sizeof settings) == 0);
    CHECK(same_board(&board, &before));
}

static void starts(void) {
    for (size_t i = 0; i < REFUSED_SETTINGS_COUNT; i++) {
        const struct refused_settings *r = &REFUSED_SETTINGS[i];
        no_start(r->settings, 2, 0, r->number);
        /* 11 and 12 apply too. */
        no_start(r->settings, 4, LATEST_START + 1, r->number);
    }
    const uint64_t counts[] = {0, 1, 4, 5, UINT64_C(1) << 32, (UINT64_C(1) << 32) + 2, UINT64_MAX};
    for (size_t i = 0; i < sizeof counts / sizeof *counts; i++) {
        no_start(PRINTED, counts[i], 0, 11);
        /* 12 applies too. */
        no_start(PRINTED, counts[i], LATEST_START + 1, 11);
    }
    const uint64_t late[] = {LATEST_START + 1, LAST_READING, LAST_READING + 1, UINT64_C(1) << 63,
                             UINT64_MAX};
    for (uint64_t count = 2; count <= 3; count++) {
        for (size_t i = 0; i < sizeof late / sizeof *late; i++)
            no_start(PRINTED, count, late[i], 12);
        board_started(PRINTED, count, 0);
        board_started(PRINTED, count, LATEST_START);
    }
}

/* A tile that has heard all its senders at reading 7: own once more, the first neighbour twice
 * more, and so on. */
static polzaintu_board repeated(uint64_t count) {
    polzaintu_board board = board_started(PRINTED, count, 7);
    for (uint64_t sender = 0; sender <= count; sender++)
        for (uint64_t i = 0; i <= sender + 1; i++)
            CHECK(board_pulse(&board, sender) == 0);
    return board;
}

static void other_senders(void) {
    for (uint64_t count = 2; count <= 3; count++) {
        polzaintu_board board = repeated(count);
        const uint64_t other[] = {count + 1, 4, 5, UINT64_C(1) << 32, UINT64_MAX};
        for (size_t i = 0; i < sizeof other / sizeof *other; i++)
            CHECK(board_pulse(&board, other[i]) == 54);
        CHECK(repeats_are(&board, 1, 2, 3, count == 3 ? 4 : 0));
    }
}

/* The first pulse of a sender is its stamp; a second in the same reading is a repeat, as is one in a
 * later reading. */
static void first_pulses(void) {
    polzaintu_board board = board_started(PRINTED, 3, 5);
    CHECK(board_pulse(&board, 2) == 0 && board_pulse(&board, 2) == 0);
    CHECK(board.stamps[2] == 5 && repeats_are(&board, 0, 0, 1, 0));
    CHECK(board_close(&board) == POLZAINTU_WAITS);
    CHECK(board_pulse(&board, 2) == 0 && board_pulse(&board, 0) == 0);
    CHECK(board_pulse(&board, 3) == 0 && board_pulse(&board, 3) == 0);
    CHECK(board.stamps[0] == 6 && board.stamps[2] == 5 && board.stamps[3] == 6);
    CHECK(board.stamps[1] == POLZAINTU_SILENT);
    CHECK(repeats_are(&board, 0, 0, 2, 1) && board.reading == 6);
}

/* Each sender's at its own place, in its first reading and in turn in a later one; the place past
 * the count stays 0. */
static void repeats(void) {
    for (uint64_t count = 2; count <= 3; count++) {
        polzaintu_board board = repeated(count);
        CHECK(repeats_are(&board, 1, 2, 3, count == 3 ? 4 : 0));
        CHECK(board_close_many(&board, 9) == POLZAINTU_WAITS);
        for (uint64_t i = 0; i < 2 * (count + 1); i++)
            CHECK(board_pulse(&board, i % (count + 1)) == 0);
        CHECK(repeats_are(&board, 3, 4, 5, count == 3 ? 6 : 0));
    }
}

/* A count stays at 65,535, and another goes on. */
static void most_repeats(void) {
    polzaintu_board board = board_started(PRINTED, 2, 0);
    CHECK(board_pulse(&board, 1) == 0);
    bool one_by_one = true;
    for (uint64_t i = 1; i <= 65535; i++)
        one_by_one = one_by_one && board_pulse(&board, 1) == 0 && board.repeats[1] == i;
    CHECK(one_by_one);
    CHECK(board_pulse(&board, 1) == 0 && repeats_are(&board, 0, 65535, 0, 0));
    CHECK(board_pulse(&board, 0) == 0 && repeats_are(&board, 0, 65535, 0, 0));
    CHECK(board_pulse(&board, 0) == 0 && repeats_are(&board, 1, 65535, 0, 0));
    for (uint64_t most = 0; most <= 3; most++) {
        board = repeated(3);
        board.repeats[most] = 65534;
        for (uint64_t i = 1; i <= 3; i++)
            for (uint64_t sender = 0; sender <= 3; sender++) {
                CHECK(board_pulse(&board, sender) == 0);
                CHECK(board.repeats[sender] == (sender == most ? 65535 : sender + 1 + i));
            }
    }
}

/* Nothing changes, and no sender is turned away. */
static void ignores_everything(polzaintu_board board) {
    const polzaintu_board before = board;
    for (uint64_t sender = 0; sender <= 5; sender++)
        CHECK(board_pulse(&board, sender) == 0);
    CHECK(board_pulse(&board, UINT64_MAX) == 0);
    CHECK(board_close(&board) == POLZAINTU_DONE);
    CHECK(board_close_many(&board, 0) == POLZAINTU_DONE);
    CHECK(board_close_many(&board, 1) == POLZAINTU_DONE);
    CHECK(board_close_many(&board, UINT64_MAX) == POLZAINTU_DONE);
    CHECK(same_board(&board, &before));
}

/* A repeat before the close that ends the run is counted; after it neither that nor a first pulse
 * is. */
static void over(void) {
    polzaintu_board board = board_started(PRINTED, 2, 1000);
    CHECK(board_pulse(&board, 0) == 0 && board_pulse(&board, 1) == 0);
    CHECK(board_close_many(&board, 400) == POLZAINTU_WAITS);
    CHECK(board_pulse(&board, 1) == 0);
    CHECK(board_close(&board) == POLZAINTU_PULSES);
    CHECK(board.stage == POLZAINTU_BOARD_PULSED && board.reading == 1400);
    CHECK(repeats_are(&board, 0, 1, 0, 0));
    ignores_everything(board);

    board = board_started(PRINTED, 3, 1000);
    CHECK(board_pulse(&board, 3) == 0 && board_pulse(&board, 3) == 0);
    CHECK(board_close_many(&board, LAST_READING - 1000) == POLZAINTU_WAITS);
    CHECK(board_pulse(&board, 3) == 0);
    CHECK(board_close(&board) == POLZAINTU_DONE);
    CHECK(board.stage == POLZAINTU_BOARD_ENDED && board.reading == LAST_READING);
    CHECK(repeats_are(&board, 0, 0, 0, 2));
    ignores_everything(board);
}

/* At each stage: what fits at its limit, and what does not past it. */
static void unfit_boards(void) {
    for (uint64_t stage = 0; stage <= 2; stage++) {
        polzaintu_board fit = board_started(PRINTED, 3, 1000);
        fit.stage = stage;
        polzaintu_board board;
        for (size_t i = 0; i < REFUSED_SETTINGS_COUNT; i++) {
            board = fit;
            board.settings = REFUSED_SETTINGS[i].settings;
            board_unfit(board);
        }
        const uint64_t counts[] = {0, 1, 4, UINT64_C(1) << 32, UINT64_MAX};
        for (size_t i = 0; i < sizeof counts / sizeof *counts; i++) {
            board = fit;
            board.count = counts[i];
            board_unfit(board);
        }
        const uint64_t past[] = {LAST_READING + 1, UINT64_C(1) << 63, UINT64_MAX - 1};
        for (size_t i = 0; i < sizeof past / sizeof *past; i++) {
            for (size_t place = 0; place < 4; place++) {
                board = fit;
                board.stamps[place] = past[i];
                board_unfit(board);
                /* The place past the count, too. */
                board.count = 2;
                board_unfit(board);
            }
            board = fit;
            board.reading = past[i];
            board_unfit(board);
        }
        board = fit;
        board.reading = UINT64_MAX;
        board_unfit(board);

        /* The repeats are not looked at. */
        board = fit;
        for (size_t place = 0; place < 4; place++) {
            board.stamps[place] = LAST_READING;
            board.repeats[place] = UINT64_MAX;
        }
        board.reading = LAST_READING;
        CHECK(board_pulse(&board, 0) == 0);
        CHECK(board_close(&board) == POLZAINTU_DONE);
    }
    const uint64_t stages[] = {3, 4, UINT64_C(1) << 32, UINT64_MAX};
    for (size_t i = 0; i < sizeof stages / sizeof *stages; i++) {
        polzaintu_board board = board_started(PRINTED, 2, 1000);
        board.stage = stages[i];
        board_unfit(board);
    }
}

static void copies(void) {
    polzaintu_board first = board_started(PRINTED, 2, 1000);
    CHECK(board_pulse(&first, 0) == 0);
    polzaintu_board second = first;
    CHECK(board_pulse(&first, 1) == 0 && board_pulse(&first, 1) == 0);
    CHECK(board_close_many(&first, 401) == POLZAINTU_PULSES);
    CHECK(second.stage == POLZAINTU_BOARD_RUNNING && second.stamps[1] == POLZAINTU_SILENT);
    CHECK(repeats_are(&first, 0, 1, 0, 0) && repeats_are(&second, 0, 0, 0, 0));
    CHECK(board_close_many(&second, 401) == POLZAINTU_WAITS);
}

void board_tests(void) {
    starts();
    other_senders();
    first_pulses();
    repeats();
    most_repeats();
    over();
    unfit_boards();
    copies();
}

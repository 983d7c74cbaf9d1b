#include "board_calls.h"

#include <string.h>

bool same_board(const polzaintu_board *a, const polzaintu_board *b) {
    return memcmp(a, b, sizeof *a) == 0;
}

bool repeats_are(const polzaintu_board *board, uint64_t own, uint64_t first, uint64_t second,
                 uint64_t third) {
    const uint64_t repeats[] = {own, first, second, third};
    return memcmp(board->repeats, repeats, sizeof repeats) == 0;
}

polzaintu_board board_started(polzaintu_settings settings, uint64_t count, uint64_t reading) {
    polzaintu_board board;
    fill(&board, sizeof board);
    CHECK(polzaintu_board_start(&settings, count, reading, &board) == 0);
    CHECK(memcmp(&board.settings, &settings, sizeof settings) == 0);
    CHECK(board.count == count && board.reading == reading);
    for (size_t place = 0; place < 4; place++)
        CHECK(board.stamps[place] == POLZAINTU_SILENT);
    CHECK(repeats_are(&board, 0, 0, 0, 0));
    CHECK(board.stage == POLZAINTU_BOARD_RUNNING);
    return board;
}

uint32_t board_pulse(polzaintu_board *board, uint64_t sender) {
    polzaintu_board expected = *board;
    const uint32_t number = polzaintu_board_pulse(board, sender);
    const bool running = expected.stage == POLZAINTU_BOARD_RUNNING;
    if (number == 0 && running && sender <= expected.count) {
        if (expected.stamps[sender] == POLZAINTU_SILENT)
            expected.stamps[sender] = board->stamps[sender];
        else
            expected.repeats[sender] = board->repeats[sender];
    }
    CHECK(same_board(board, &expected));
    return number;
}

/* Closes left the board, but for its reading and stage. */
static void only_moved(const polzaintu_board *board, polzaintu_board before) {
    before.reading = board->reading;
    before.stage = board->stage;
    CHECK(same_board(board, &before));
}

uint32_t board_close(polzaintu_board *board) {
    const polzaintu_board before = *board;
    uint32_t answer = 9;
    CHECK(polzaintu_board_close(board, &answer) == 0);
    only_moved(board, before);
    return answer;
}

uint32_t board_close_many(polzaintu_board *board, uint64_t n) {
    const polzaintu_board before = *board;
    uint32_t answer = 9;
    CHECK(polzaintu_board_close_many(board, n, &answer) == 0);
    only_moved(board, before);
    return answer;
}

void board_unfit(polzaintu_board board) {
    const polzaintu_board before = board;
    const uint64_t any[] = {0, 1, 3, 4, UINT64_MAX};
    uint32_t answer = 9;
    for (size_t i = 0; i < sizeof any / sizeof *any; i++) {
        CHECK(polzaintu_board_pulse(&board, any[i]) == POLZAINTU_UNFIT);
        CHECK(polzaintu_board_close_many(&board, any[i], &answer) == POLZAINTU_UNFIT);
    }
    CHECK(polzaintu_board_close(&board, &answer) == POLZAINTU_UNFIT);
    CHECK(answer == 9);
    CHECK(same_board(&board, &before));
}

/* The calls on a running tile, with what each must leave. */
#ifndef BOARD_CALLS_H
#define BOARD_CALLS_H

#include "tests.h"

/* The latest first reading, and the last reading that opens. */
#define LATEST_START ((UINT64_C(1) << 41) - 1)
#define LAST_READING ((UINT64_C(1) << 42) - 1)

/* Byte for byte. */
bool same_board(const polzaintu_board *a, const polzaintu_board *b);

/* Whether own and the three neighbours have these counts of repeats. */
bool repeats_are(const polzaintu_board *board, uint64_t own, uint64_t first, uint64_t second,
                 uint64_t third);

/* A start, which passes; the board holds what the header says. */
polzaintu_board board_started(polzaintu_settings settings, uint64_t count, uint64_t reading);

/* A pulse, and its number. It must leave all but the sender's stamp, or its count of repeats where
 * it was heard before; and those too where it is turned away or the run is over. */
uint32_t board_pulse(polzaintu_board *board, uint64_t sender);

/* A close, and n of them, which are accepted, and what they answer. They must leave all but the
 * reading and the stage. */
uint32_t board_close(polzaintu_board *board);
uint32_t board_close_many(polzaintu_board *board, uint64_t n);

/* No call is accepted, and each leaves all that is lent. */
void board_unfit(polzaintu_board board);

#endif

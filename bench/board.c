/* board COUNT PULSES CLOSES MANY: to a running tile with that many neighbours, all heard, so many pulses, then closes one by
 * one, then a hundred at once. */
#include "../bindings/c/polzaintu.h"

#include <stdio.h>
#include <stdlib.h>

int main(int words, char **word) {
    if (words != 5)
        return 2;
    const uint64_t count = strtoull(word[1], NULL, 10), pulses = strtoull(word[2], NULL, 10);
    const uint64_t closes = strtoull(word[3], NULL, 10), many = strtoull(word[4], NULL, 10);
    /* A is long enough that the tile waits at every close. */
    const polzaintu_settings settings = {6, 1, 100, 10, 1000000, 0, 12};
    polzaintu_board board;
    if (polzaintu_board_start(&settings, count, 0, &board) != 0)
        return 1;
    uint32_t answer = 0, other = 0;
    for (uint64_t i = 0; i <= count + pulses; i++)
        other += polzaintu_board_pulse(&board, i % (count + 1)) != 0;
    for (uint64_t i = 0; i < closes; i++)
        other += polzaintu_board_close(&board, &answer) != 0 || answer != POLZAINTU_WAITS;
    for (uint64_t i = 0; i < many; i++)
        other += polzaintu_board_close_many(&board, 100, &answer) != 0 || answer != POLZAINTU_WAITS;
    printf("%llu", (unsigned long long)board.reading);
    for (size_t place = 0; place < 4; place++)
        printf(" %llu", (unsigned long long)board.repeats[place]);
    printf(" %u\n", other);
    return other != 0;
}

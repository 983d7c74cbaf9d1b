/* waves N HAND_INS QUESTIONS: that many hand-ins to the last N waves of a seam, then as many questions. */
#include "../bindings/c/polzaintu.h"

#include <stdio.h>
#include <stdlib.h>

int main(int words, char **word) {
    if (words != 4)
        return 2;
    const uint64_t hand_ins = strtoull(word[2], NULL, 10), questions = strtoull(word[3], NULL, 10);
    polzaintu_waves waves;
    if (polzaintu_waves_start(strtoull(word[1], NULL, 10), &waves) != 0)
        return 1;
    uint32_t side, refused = 0;
    polzaintu_halves halves;
    polzaintu_half_ticks half_ticks = {0};
    polzaintu_half_gaps half_gaps = {0};
    for (uint64_t i = 0; i < hand_ins; i++)
        refused += polzaintu_waves_hand_in(&waves, 1000, false, 1000 + i * 37 % 101, false, &side, &halves) != 0;
    for (uint64_t i = 0; i < questions; i++)
        refused += polzaintu_waves_ask(&waves, &half_ticks, &half_gaps) != 0;
    printf("%lld %lld %f %f %u\n", (long long)half_ticks.largest, (long long)half_ticks.smallest,
           half_gaps.largest, half_gaps.smallest, refused);
    return refused != 0;
}

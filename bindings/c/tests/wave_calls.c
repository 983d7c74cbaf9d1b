#include "wave_calls.h"

#include <string.h>

bool same_waves(const polzaintu_waves *a, const polzaintu_waves *b) {
    return memcmp(a, b, sizeof *a) == 0;
}

polzaintu_waves started(uint64_t n) {
    polzaintu_waves waves;
    fill(&waves, sizeof waves);
    CHECK(polzaintu_waves_start(n, &waves) == 0);
    return waves;
}

uint32_t hand_in(polzaintu_waves *waves, uint64_t left, bool left_faulty, uint64_t right,
                 bool right_faulty) {
    const polzaintu_waves held = *waves;
    uint32_t side = 9, seam_side = 9;
    polzaintu_halves halves, seam_halves;
    fill(&halves, sizeof halves);
    fill(&seam_halves, sizeof seam_halves);
    const uint32_t number =
        polzaintu_waves_hand_in(waves, left, left_faulty, right, right_faulty, &side, &halves);
    CHECK(polzaintu_seam(left, left_faulty, right, right_faulty, &seam_side, &seam_halves) ==
          number);
    CHECK(side == seam_side);
    CHECK(memcmp(&halves, &seam_halves, sizeof halves) == 0);
    CHECK(number == 0 || same_waves(waves, &held));
    return number;
}

void ends_are(const polzaintu_waves *waves, int64_t largest, int64_t smallest) {
    const polzaintu_waves held = *waves;
    polzaintu_half_ticks half_ticks;
    polzaintu_half_gaps half_gaps;
    fill(&half_ticks, sizeof half_ticks);
    fill(&half_gaps, sizeof half_gaps);
    CHECK(polzaintu_waves_ask(waves, &half_ticks, &half_gaps) == 0);
    CHECK(half_ticks.largest == largest);
    CHECK(half_ticks.smallest == smallest);
    CHECK(bits(half_gaps.largest) == bits((double)largest / 2));
    CHECK(bits(half_gaps.smallest) == bits((double)smallest / 2));
    CHECK(same_waves(waves, &held));
}

void no_ends(const polzaintu_waves *waves, uint32_t number) {
    const polzaintu_waves held = *waves;
    polzaintu_half_ticks half_ticks, ticks_before;
    polzaintu_half_gaps half_gaps, gaps_before;
    fill(&half_ticks, sizeof half_ticks);
    fill(&ticks_before, sizeof ticks_before);
    fill(&half_gaps, sizeof half_gaps);
    fill(&gaps_before, sizeof gaps_before);
    CHECK(polzaintu_waves_ask(waves, &half_ticks, &half_gaps) == number);
    CHECK(memcmp(&half_ticks, &ticks_before, sizeof half_ticks) == 0);
    CHECK(memcmp(&half_gaps, &gaps_before, sizeof half_gaps) == 0);
    CHECK(same_waves(waves, &held));
}

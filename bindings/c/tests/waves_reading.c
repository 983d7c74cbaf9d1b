/* The last waves of a seam beside a plain reading of all that were handed in. */
#include "wave_calls.h"

static const uint64_t LATEST = (UINT64_C(1) << 41) - 1;

/* Mostly small, so that gaps are often the same; now and then an end of the range, or late. */
static uint64_t some_time(uint64_t *seed) {
    switch (seeded(seed) % 16) {
    case 0:
        return LATEST;
    case 1:
        return LATEST + 1;
    case 2:
        return seeded(seed) & LATEST;
    default:
        return seeded(seed) % 32;
    }
}

enum { WAVES = 2000 };

/* Every wave that was not turned away, of which the last n are looked at. */
struct reading {
    struct {
        bool closed;
        int64_t gap;
    } all[WAVES];
    size_t count;
};

static void ends_as_read(const polzaintu_waves *waves, const struct reading *reading, size_t n) {
    bool any = false;
    int64_t largest = 0, smallest = 0;
    for (size_t i = reading->count < n ? 0 : reading->count - n; i < reading->count; i++) {
        if (!reading->all[i].closed)
            continue;
        const int64_t gap = reading->all[i].gap;
        largest = !any || gap > largest ? gap : largest;
        smallest = !any || gap < smallest ? gap : smallest;
        any = true;
    }
    if (any)
        ends_are(waves, largest, smallest);
    else
        no_ends(waves, 52);
}

/* Hand-ins in stretches with few and with many faulty tiles, each with a question or none. */
static void beside_a_reading(uint64_t n) {
    uint64_t seed = n;
    struct reading reading = {.count = 0};
    polzaintu_waves waves = started(n);
    for (size_t i = 0; i < WAVES; i++) {
        const uint64_t faulty = i / 100 % 2 == 0 ? 10 : 95;
        const uint64_t left = some_time(&seed), right = some_time(&seed);
        const bool left_faulty = seeded(&seed) % 100 < faulty;
        const bool right_faulty = seeded(&seed) % 100 < faulty;
        const bool late = (!left_faulty && left > LATEST) || (!right_faulty && right > LATEST);
        CHECK(hand_in(&waves, left, left_faulty, right, right_faulty) == (late ? 31 : 0));
        if (!late) {
            reading.all[reading.count].closed = !left_faulty && !right_faulty;
            reading.all[reading.count].gap = (int64_t)right - (int64_t)left;
            reading.count++;
        }
        if (seeded(&seed) % 2 == 0)
            ends_as_read(&waves, &reading, n);
    }
}

void waves_reading_tests(void) {
    const uint64_t sizes[] = {1, 2, 3, 63, 64};
    for (size_t i = 0; i < sizeof sizes / sizeof *sizes; i++)
        beside_a_reading(sizes[i]);
}

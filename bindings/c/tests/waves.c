/* The last waves of a seam: which of them count, numbers 31, 51 and 52, and what does not fit. */
#include "wave_calls.h"

#include <string.h>

static const uint64_t LATEST = (UINT64_C(1) << 41) - 1;
static const uint64_t LEVEL = UINT64_C(1) << 41;

static void closed(polzaintu_waves *waves, uint64_t left, uint64_t right) {
    CHECK(hand_in(waves, left, false, right, false) == 0);
}

static void open_left(polzaintu_waves *waves) {
    CHECK(hand_in(waves, 1500, true, 1500, false) == 0);
}

static void starts(void) {
    const uint64_t outside[] = {0, 65, 66, UINT64_C(1) << 32, UINT64_C(1) << 63, UINT64_MAX};
    for (size_t i = 0; i < sizeof outside / sizeof *outside; i++) {
        polzaintu_waves waves, before;
        fill(&waves, sizeof waves);
        fill(&before, sizeof before);
        CHECK(polzaintu_waves_start(outside[i], &waves) == 51);
        CHECK(same_waves(&waves, &before));
    }
    for (uint64_t n = 1; n <= POLZAINTU_WAVES_MOST; n++) {
        const polzaintu_waves waves = started(n);
        for (size_t place = 0; place < POLZAINTU_WAVES_MOST; place++)
            CHECK(waves.gaps[place] == 0);
        CHECK(waves.n == n && waves.next == 0);
        no_ends(&waves, 52);
    }
}

/* Each place as the header has it. */
static void places(void) {
    polzaintu_waves waves = started(3);
    closed(&waves, 1500, 1536);
    open_left(&waves);
    CHECK(waves.gaps[0] == LEVEL + 36 && waves.gaps[1] == 0 && waves.next == 2);
    closed(&waves, 1536, 1500);
    CHECK(waves.gaps[2] == LEVEL - 36 && waves.next == 0);
    closed(&waves, LATEST, 0);
    closed(&waves, 0, LATEST);
    CHECK(waves.gaps[0] == 1 && waves.gaps[1] == 2 * LEVEL - 1 && waves.next == 2);
    CHECK(waves.n == 3);
    for (size_t place = 3; place < POLZAINTU_WAVES_MOST; place++)
        CHECK(waves.gaps[place] == 0);
}

/* The n-th wave from the end counts, the one before it does not. */
static void last_waves(uint64_t n) {
    polzaintu_waves waves = started(n);
    closed(&waves, 0, 1000);
    for (uint64_t i = 1; i < n; i++)
        closed(&waves, 0, i);
    ends_are(&waves, 1000, n == 1 ? 1000 : 1);
    closed(&waves, 0, 500);
    ends_are(&waves, 500, n == 1 ? 500 : 1);
    closed(&waves, 400, 0);
    ends_are(&waves, n == 1 ? -400 : 500, -400);
}

static void leaving(void) {
    polzaintu_waves waves = started(2);
    closed(&waves, 0, 90);
    ends_are(&waves, 90, 90);
    closed(&waves, 5, 0);
    ends_are(&waves, 90, -5);
    closed(&waves, 0, 30);
    ends_are(&waves, 30, -5);
    closed(&waves, 0, 20);
    ends_are(&waves, 30, 20);
    ends_are(&waves, 30, 20);
}

static void open_waves(uint64_t n) {
    polzaintu_waves waves = started(n);
    open_left(&waves);
    no_ends(&waves, 52);
    closed(&waves, 0, 8);
    for (uint64_t i = 1; i < n; i++) {
        open_left(&waves);
        ends_are(&waves, 8, 8);
    }
    open_left(&waves);
    no_ends(&waves, 52);
    closed(&waves, 8, 0);
    ends_are(&waves, -8, -8);
}

static void late_waves(void) {
    polzaintu_waves waves = started(2);
    closed(&waves, 0, 40);
    closed(&waves, 0, 10);
    const uint64_t late[] = {LATEST + 1, UINT64_C(1) << 63, UINT64_MAX};
    for (size_t i = 0; i < sizeof late / sizeof *late; i++) {
        CHECK(hand_in(&waves, late[i], false, 1500, false) == 31);
        CHECK(hand_in(&waves, 1500, false, late[i], false) == 31);
        CHECK(hand_in(&waves, late[i], false, late[i], false) == 31);
        CHECK(hand_in(&waves, late[i], false, 1500, true) == 31);
        CHECK(hand_in(&waves, 1500, true, late[i], false) == 31);
        ends_are(&waves, 40, 10);
    }
    closed(&waves, 0, 20);
    ends_are(&waves, 20, 10);
}

static void gaps_by_hand(void) {
    const int64_t most = (int64_t)LATEST;
    polzaintu_waves waves = started(64);
    closed(&waves, 0, LATEST);
    ends_are(&waves, most, most);
    closed(&waves, LATEST, 0);
    ends_are(&waves, most, -most);

    waves = started(3);
    closed(&waves, LATEST, LATEST);
    ends_are(&waves, 0, 0);
    closed(&waves, 1500, 1501);
    ends_are(&waves, 1, 0);
    closed(&waves, 1501, 1500);
    ends_are(&waves, 1, -1);
    closed(&waves, 0, 0);
    ends_are(&waves, 1, -1);
    closed(&waves, 7, 7);
    ends_are(&waves, 0, -1);
    closed(&waves, 7, 7);
    ends_are(&waves, 0, 0);
}

/* A faulty tile's time is not read. */
static void unread_times(void) {
    const uint64_t unread[] = {0, LATEST, LATEST + 1, UINT64_MAX};
    for (size_t i = 0; i < sizeof unread / sizeof *unread; i++) {
        polzaintu_waves waves = started(4);
        closed(&waves, 0, 3);
        CHECK(hand_in(&waves, unread[i], true, 5, false) == 0);
        CHECK(hand_in(&waves, 5, false, unread[i], true) == 0);
        CHECK(hand_in(&waves, unread[i], true, unread[i], true) == 0);
        ends_are(&waves, 3, 3);
        open_left(&waves);
        no_ends(&waves, 52);
    }
}

/* Waves that were never started: nothing is taken or told, and nothing changes. */
static void unfit(uint64_t n, uint64_t next) {
    polzaintu_waves waves = started(2);
    closed(&waves, 0, 3);
    waves.n = n;
    waves.next = next;
    const polzaintu_waves held = waves;
    const struct {
        uint64_t left;
        bool left_faulty;
    } given[] = {{1500, false}, {1500, true}, {LATEST + 1, false}};
    for (size_t i = 0; i < sizeof given / sizeof *given; i++) {
        uint32_t side = 9;
        polzaintu_halves halves, before;
        fill(&halves, sizeof halves);
        fill(&before, sizeof before);
        CHECK(polzaintu_waves_hand_in(&waves, given[i].left, given[i].left_faulty, 1536, false,
                                      &side, &halves) == POLZAINTU_UNFIT);
        CHECK(side == 9);
        CHECK(memcmp(&halves, &before, sizeof halves) == 0);
        CHECK(same_waves(&waves, &held));
    }
    no_ends(&waves, POLZAINTU_UNFIT);
}

static void unfit_waves(void) {
    unfit(0, 0);
    unfit(0, UINT64_MAX);
    unfit(65, 0);
    unfit(65, 64);
    unfit(UINT64_MAX, 0);
    unfit(2, 2);
    unfit(2, 3);
    unfit(64, 64);
    unfit(64, UINT64_MAX);
}

/* A word that is no gap's gives no number, and neither does a place past n. */
static void other_words(void) {
    const uint64_t other[] = {2 * LEVEL, 2 * LEVEL + 1, UINT64_C(1) << 63, UINT64_MAX};
    for (size_t i = 0; i < sizeof other / sizeof *other; i++) {
        polzaintu_waves waves = started(2);
        waves.gaps[0] = other[i];
        no_ends(&waves, 52);
        waves.gaps[1] = LEVEL - 7;
        ends_are(&waves, -7, -7);
        waves.gaps[2] = LEVEL;
        ends_are(&waves, -7, -7);
        closed(&waves, 0, 9);
        ends_are(&waves, 9, -7);
    }
    polzaintu_waves waves = started(2);
    waves.gaps[0] = 2 * LEVEL - 1;
    waves.gaps[1] = 1;
    ends_are(&waves, (int64_t)LATEST, -(int64_t)LATEST);
}

static void copies(void) {
    polzaintu_waves first = started(2);
    closed(&first, 0, 40);
    polzaintu_waves second = first;
    closed(&first, 0, 10);
    closed(&first, 0, 20);
    closed(&second, 6, 0);
    ends_are(&first, 20, 10);
    ends_are(&second, 40, -6);
    second = first;
    closed(&second, 0, 30);
    ends_are(&first, 20, 10);
    ends_are(&second, 30, 20);
}

void waves_tests(void) {
    starts();
    places();
    leaving();
    late_waves();
    gaps_by_hand();
    unread_times();
    unfit_waves();
    other_words();
    copies();
    const uint64_t sizes[] = {1, 2, 3, 63, 64};
    for (size_t i = 0; i < sizeof sizes / sizeof *sizes; i++) {
        last_waves(sizes[i]);
        open_waves(sizes[i]);
    }
}

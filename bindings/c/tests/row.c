/* A row: times and letters worked out by hand, numbers 21 to 26 and 53, and the order between
 * them. */
#include "tests.h"

#include <string.h>

#define SILENT POLZAINTU_SILENT
#define LINKS_MOST (3 * POLZAINTU_WIDTH_MOST + 2)

static const uint64_t LATEST = (UINT64_C(1) << 40) - 1;

/* All that a call is lent. */
struct row_call {
    polzaintu_settings settings;
    uint64_t before[POLZAINTU_WIDTH_MOST], links[LINKS_MOST], times[POLZAINTU_WIDTH_MOST];
    polzaintu_ends ends;
    size_t before_len, marks_len, drifts_len, phases_len, links_len, times_len, letters_len;
    uint32_t drifts[POLZAINTU_WIDTH_MOST], phases[POLZAINTU_WIDTH_MOST];
    uint8_t marks[POLZAINTU_WIDTH_MOST / 8], letters[POLZAINTU_WIDTH_MOST];
};

static uint32_t run(struct row_call *call) {
    return polzaintu_row(&call->settings, call->before, call->before_len, call->marks,
                         call->marks_len, call->drifts, call->drifts_len, call->phases,
                         call->phases_len, call->links, call->links_len, call->times,
                         call->times_len, call->letters, call->letters_len, &call->ends);
}

/* No faults: all times 1000, drifts and phases 0, delays 100. Past each length, and where the call
 * is to write, there is what `fill` leaves. */
static struct row_call quiet(size_t width) {
    struct row_call call;
    fill(&call, sizeof call);
    call.settings = PRINTED;
    call.settings.width = width;
    call.before_len = call.drifts_len = call.phases_len = width;
    call.times_len = call.letters_len = width;
    call.marks_len = (width + 7) / 8;
    call.links_len = 3 * width + 2;
    for (size_t c = 0; c < width; c++) {
        call.before[c] = 1000;
        call.drifts[c] = call.phases[c] = 0;
    }
    for (size_t i = 0; i < call.marks_len; i++)
        call.marks[i] = 0;
    for (size_t i = 0; i < call.links_len; i++)
        call.links[i] = 100;
    return call;
}

static void mark(struct row_call *call, size_t column) {
    call->marks[column / 8] |= (uint8_t)(1 << column % 8);
}

/* Marks a column, and has it send the same on each of its links. */
static void fault(struct row_call *call, size_t column, uint64_t arrival) {
    size_t width = call->before_len;
    mark(call, column);
    for (size_t tile = 0; tile < width; tile++)
        if (tile == column || neighbours(width, tile, column))
            call->links[link_place(width, tile, column)] = arrival;
}

/* The call writes these times, their letters and ends, and nothing else. */
static void planned(struct row_call call, const uint64_t *times, const char *letters,
                    polzaintu_ends ends) {
    struct row_call expected;
    memcpy(&expected, &call, sizeof call);
    memcpy(expected.times, times, call.times_len * sizeof *times);
    memcpy(expected.letters, letters, call.letters_len);
    expected.ends = ends;
    CHECK(run(&call) == 0);
    CHECK(memcmp(&call, &expected, sizeof call) == 0);
}

/* The call is turned away with the number, and all that was lent holds what it held. */
static void refused(struct row_call call, uint32_t number) {
    struct row_call before;
    memcpy(&before, &call, sizeof call);
    CHECK(run(&call) == number);
    CHECK(memcmp(&call, &before, sizeof call) == 0);
}

static void accepted(struct row_call call) {
    CHECK(run(&call) == 0);
}

static void printed_wall(void) {
    struct row_call call = quiet(6);
    call.before[3] = 1080;
    planned(call, (uint64_t[]){1500, 1500, 1500, 1536, 1500, 1500}, "kkklkk",
            (polzaintu_ends){1500, 1536});
}

/* A clock of drift 10,000 reads 1111 at 1100, and first reads 1511 at 1497. */
static void drifts_round(void) {
    struct row_call call = quiet(6);
    call.settings.drift = 10000;
    call.settings.unit = 16;
    call.drifts[1] = call.drifts[5] = 10000;
    planned(call, (uint64_t[]){1500, 1497, 1500, 1500, 1500, 1497}, "kkkkkk",
            (polzaintu_ends){1497, 1500});
}

/* All clocks of drift 10,000. */
static struct row_call drifting(size_t width) {
    struct row_call call = quiet(width);
    call.settings.drift = 10000;
    call.settings.unit = 16;
    for (size_t c = 0; c < width; c++)
        call.drifts[c] = 10000;
    return call;
}

/* All arrivals at 1100 read 1111 at each phase; at 1496 it is 1510.96, so that from phase 40,000 on
 * 1511 is met a tick earlier. */
static void phases_move_pulses(void) {
    struct row_call call = drifting(6);
    const uint32_t phases[6] = {0, 39999, 40000, 999999, 39999, 40000};
    memcpy(call.phases, phases, sizeof phases);
    planned(call, (uint64_t[]){1497, 1497, 1496, 1496, 1497, 1496}, "kkkkkk",
            (polzaintu_ends){1496, 1497});
    call.phases[5] = 1000000;
    refused(call, 53);
}

/* Arrivals at 1099 are at 1109.99: from phase 10,000 on they read 1110, and the pulse waits for
 * 1510, of which 1495 lacks 0.05. */
static void phases_move_stamps(void) {
    struct row_call call = drifting(6);
    const uint32_t phases[6] = {0, 9999, 10000, 49999, 50000, 999999};
    memcpy(call.phases, phases, sizeof phases);
    for (size_t c = 0; c < 6; c++)
        call.before[c] = 999;
    planned(call, (uint64_t[]){1495, 1495, 1496, 1496, 1495, 1495}, "kkkkkk",
            (polzaintu_ends){1495, 1496});
}

/* In a wide row, where most tiles are worked out eight at a time: two like tiles but for the phase
 * are a tick apart. */
static void phases_of_a_wide_row(void) {
    struct row_call call = drifting(256);
    uint64_t times[256];
    char letters[256];
    for (size_t c = 0; c < 256; c++) {
        call.phases[c] = 39999 + c % 2;
        times[c] = 1497 - c % 2;
        letters[c] = 'k';
    }
    planned(call, times, letters, (polzaintu_ends){1496, 1497});
}

/* A clock that doesn't drift reads the same at every phase. */
static void phases_without_drift(void) {
    struct row_call call = quiet(6);
    call.before[3] = 1080;
    for (size_t c = 0; c < 6; c++)
        call.phases[c] = 999999;
    planned(call, (uint64_t[]){1500, 1500, 1500, 1536, 1500, 1500}, "kkklkk",
            (polzaintu_ends){1500, 1536});
}

/* Own at 1115 is at 1126.15, the neighbours read 1111: with a phase of 0.85 own is h after them. */
static void phases_decide_letters(void) {
    struct row_call call = drifting(9);
    call.before[4] = 1015;
    call.phases[4] = 849999;
    CHECK(run(&call) == 0);
    CHECK(call.letters[4] == 'k');
    call.phases[4] = 850000;
    CHECK(run(&call) == 0);
    CHECK(call.letters[4] == 'm');
}

/* Column 3 is heard by tiles 2 to 5. */
static void faults(void) {
    const uint64_t silent[] = {1500, 1500, 1500, 1536, 1500, 1500};
    const uint64_t early[] = {1500, 1500, 1476, 1464, 1476, 1476};
    struct row_call call = quiet(6);
    fault(&call, 3, SILENT);
    call.before[3] = UINT64_MAX; /* a faulty tile's time is not read */
    planned(call, silent, "kkklkk", (polzaintu_ends){1500, 1536});
    fault(&call, 3, LATEST);
    planned(call, silent, "kkklkk", (polzaintu_ends){1500, 1536});
    fault(&call, 3, 0);
    planned(call, early, "kkbebb", (polzaintu_ends){1464, 1500});
}

static void widest_wall(void) {
    uint64_t times[256];
    char letters[256];
    for (size_t c = 0; c < 256; c++) {
        times[c] = 1500;
        letters[c] = 'k';
    }
    planned(quiet(256), times, letters, (polzaintu_ends){1500, 1500});
}

/* One column at each border between two letters, all others at 1000: h is 12 and J is 24. */
static void letters_by_column(size_t width) {
    static const struct {
        uint64_t own;
        char letter;
    } BORDERS[] = {
        {963, 'e'},  {964, 'k'},  {1011, 'k'}, {1012, 'm'},
        {1036, 'm'}, {1037, 'b'}, {1060, 'b'}, {1061, 'l'},
    };
    for (size_t i = 0; i < sizeof BORDERS / sizeof *BORDERS; i++)
        for (size_t column = 0; column < width; column++) {
            struct row_call call = quiet(width);
            call.before[column] = BORDERS[i].own;
            CHECK(run(&call) == 0);
            CHECK(call.letters[column] == BORDERS[i].letter);
        }
}

/* Each letter is the one that the tile answers for the stamps of its column. */
static void letters_of_tiles(void) {
    const uint64_t own[6] = {1180, 1116, 1040, 1100, 1150, 1100};
    struct row_call call = quiet(6);
    for (size_t c = 0; c < 6; c++)
        call.before[c] = own[c] - 100;
    CHECK(run(&call) == 0);
    for (size_t tile = 0; tile < 6; tile++) {
        polzaintu_stamps stamps = {own[tile], {0, 0, 0}, 0};
        for (size_t c = 0; c < 6; c++)
            if (neighbours(6, tile, c))
                stamps.neighbours[stamps.count++] = own[c];
        polzaintu_forwarded answer;
        CHECK(polzaintu_tile(&PRINTED, &stamps, &answer) == 0);
        CHECK(call.letters[tile] == answer.letter);
        CHECK(call.times[tile] == (uint64_t)answer.p + 400);
    }
    CHECK(memcmp(call.letters, "lmebbk", 6) == 0);
}

static void settings_numbers(void) {
    for (size_t i = 0; i < REFUSED_SETTINGS_COUNT; i++) {
        struct row_call call = quiet(6);
        call.settings = REFUSED_SETTINGS[i].settings;
        refused(call, REFUSED_SETTINGS[i].number);
        call.times_len = 0; /* 21 applies too */
        refused(call, REFUSED_SETTINGS[i].number);
    }
}

static void wrong_length(size_t *length, struct row_call *call) {
    size_t right = *length;
    const size_t wrong[] = {right - 1, right + 1, 0};
    for (size_t i = 0; i < 3; i++) {
        *length = wrong[i];
        refused(*call, 21);
    }
    *length = right;
}

static void wrong_lengths(size_t width) {
    struct row_call call = quiet(width);
    wrong_length(&call.before_len, &call);
    wrong_length(&call.marks_len, &call);
    wrong_length(&call.drifts_len, &call);
    wrong_length(&call.phases_len, &call);
    wrong_length(&call.links_len, &call);
    wrong_length(&call.times_len, &call);
    wrong_length(&call.letters_len, &call);
}

static void stray_marks(size_t width) {
    for (size_t column = width; column < (width + 7) / 8 * 8; column++) {
        struct row_call call = quiet(width);
        mark(&call, column);
        refused(call, 22);
    }
}

static void late_times(void) {
    for (size_t column = 0; column < 9; column++) {
        struct row_call call = quiet(9);
        call.before[column] = LATEST;
        accepted(call);
        call.before[column] = LATEST + 1;
        refused(call, 23);
        call.before[column] = UINT64_MAX;
        refused(call, 23);
        fault(&call, column, SILENT);
        accepted(call);
    }
}

static bool hears(size_t width, size_t tile, size_t sender) {
    return tile == sender || neighbours(width, tile, sender);
}

/* Two faulty tiles: 24 where some tile hears both. */
static void crowded(size_t width) {
    for (size_t a = 0; a < width; a++)
        for (size_t b = a + 1; b < width; b++) {
            struct row_call call = quiet(width);
            fault(&call, a, SILENT);
            fault(&call, b, SILENT);
            bool both = false;
            for (size_t tile = 0; tile < width; tile++)
                both = both || (hears(width, tile, a) && hears(width, tile, b));
            if (both)
                refused(call, 24);
            else
                accepted(call);
        }
}

static void fast_drifts(void) {
    for (size_t column = 0; column < 9; column++) {
        struct row_call call = quiet(9);
        call.drifts[column] = 1;
        refused(call, 25);
        call.drifts[column] = UINT32_MAX;
        refused(call, 25);
        call.settings.drift = 100;
        call.settings.unit = 13;
        call.drifts[column] = 100;
        accepted(call);
        call.drifts[column] = 101;
        refused(call, 25);
    }
}

static void large_phases(void) {
    const uint32_t large[] = {1000000, 1000001, 1 << 24, UINT32_C(1) << 31, UINT32_MAX};
    for (size_t column = 0; column < 9; column++) {
        struct row_call call = quiet(9);
        call.phases[column] = 999999;
        accepted(call);
        for (size_t i = 0; i < sizeof large / sizeof *large; i++) {
            call.phases[column] = large[i];
            refused(call, 53);
        }
    }
}

/* A phase over its limit in one column, a drift or a delay over its own in another. */
static void phases_between_drifts_and_links(void) {
    for (size_t phase = 0; phase < 9; phase++)
        for (size_t other = 0; other < 9; other++) {
            struct row_call call = quiet(9);
            call.phases[phase] = 1000000;
            call.links[link_place(9, other, other)] = 101;
            refused(call, 53);
            call.drifts[other] = 1;
            refused(call, 25);
        }
}

static void bad_links(void) {
    for (size_t place = 0; place < 3 * 9 + 2; place++) {
        struct row_call call = quiet(9);
        call.links[place] = 90;
        accepted(call);
        const uint64_t bad[] = {89, 101, 0, SILENT, LATEST};
        for (size_t i = 0; i < sizeof bad / sizeof *bad; i++) {
            call.links[place] = bad[i];
            refused(call, 26);
        }
    }
    for (size_t column = 0; column < 9; column++) {
        struct row_call call = quiet(9);
        fault(&call, column, LATEST);
        accepted(call);
        fault(&call, column, LATEST + 1);
        refused(call, 26);
        fault(&call, column, SILENT - 1);
        refused(call, 26);
    }
}

/* Each fault is added to those that come after it, further on in the row. */
static void first_applies(void) {
    struct row_call call = quiet(9);
    call.links[0] = 101;
    refused(call, 26);
    call.phases[8] = 1000000;
    refused(call, 53);
    call.drifts[8] = 1;
    refused(call, 25);
    mark(&call, 4);
    mark(&call, 5);
    refused(call, 24);
    call.before[8] = LATEST + 1;
    refused(call, 23);
    mark(&call, 15);
    refused(call, 22);
    call.links_len--;
    refused(call, 21);
    call.settings.hold = 191;
    refused(call, 9);
    call.settings.rows = 0;
    refused(call, 2);
}

void row_tests(void) {
    printed_wall();
    drifts_round();
    phases_move_pulses();
    phases_move_stamps();
    phases_of_a_wide_row();
    phases_without_drift();
    phases_decide_letters();
    faults();
    widest_wall();
    letters_by_column(9);
    letters_by_column(24);
    letters_of_tiles();
    settings_numbers();
    wrong_lengths(6);
    wrong_lengths(9);
    stray_marks(6);
    stray_marks(9);
    stray_marks(15);
    late_times();
    crowded(6);
    crowded(9);
    crowded(17);
    fast_drifts();
    large_phases();
    phases_between_drifts_and_links();
    bad_links();
    first_applies();
}

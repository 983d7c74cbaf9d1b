/* A wall file by steps: what each step leaves, and what does not fit. */
#include "wall_file.h"

#include <string.h>

static void stands(const struct walk *walk, uint64_t stage, uint64_t row, uint64_t offset,
                   size_t due) {
    CHECK(walk->wall.stage == stage);
    CHECK(walk->wall.row == row);
    CHECK(walk->wall.offset == offset);
    CHECK(walk->wall.settings.width == 6 && walk->wall.settings.rows == 2);
    CHECK(walk->wall.settings.delay == 100 && walk->wall.settings.uncertainty == 10);
    CHECK(walk->wall.settings.hold == 400 && walk->wall.settings.drift == 0);
    CHECK(walk->wall.settings.unit == 12);
    CHECK(polzaintu_wall_due(&walk->wall) == due);
    CHECK(polzaintu_wall_width(&walk->wall) == 6);
}

static void row_is(const uint64_t row[6], const uint64_t expected[6]) {
    CHECK(memcmp(row, expected, 6 * sizeof *row) == 0);
}

/* The letters that a step wrote; NULL where none has written any. What is past them is not written. */
static void letters_are(const struct walk *walk, const char *letters) {
    struct walk expected = begin();
    if (letters)
        memcpy(expected.letters, letters, 6);
    CHECK(memcmp(walk->letters, expected.letters, sizeof walk->letters) == 0);
}

static void accepted_wall(void) {
    struct wall_file file = small_wall();
    struct walk walk = begin();
    CHECK(walk.wall.stage == POLZAINTU_SETTINGS_DUE);
    CHECK(polzaintu_wall_due(&walk.wall) == 27);
    CHECK(polzaintu_wall_width(&walk.wall) == 0);
    go(&walk, &file, 1);
    stands(&walk, POLZAINTU_START_DUE, 0, TAG_2, 3 + 48);
    letters_are(&walk, NULL);
    go(&walk, &file, 1);
    stands(&walk, POLZAINTU_ROW_DUE, 0, TAG_3, 4 + 3 + 196);
    row_is(walk.next, (uint64_t[]){1000, 1000, 1000, 1080, 1000, 1000});
    letters_are(&walk, NULL); /* row 0 has none */
    go(&walk, &file, 1);
    stands(&walk, POLZAINTU_ROW_DUE, 1, LAST_TAG_3, 4 + 3 + 196);
    row_is(walk.next, (uint64_t[]){1500, 1500, 1500, 1536, 1500, 1500});
    letters_are(&walk, "kkklkk");
    go(&walk, &file, 1);
    stands(&walk, POLZAINTU_END_DUE, 2, END, 1);
    /* Tile 3's own stamp is 1636, its neighbours' are 1600: D is 24, P is 1612. */
    row_is(walk.next, (uint64_t[]){2000, 2000, 2000, 2012, 2000, 2000});
    letters_are(&walk, "kkkmkk");
    memcpy(walk.letters, "??????", 6);
    go(&walk, &file, 1);
    letters_are(&walk, "??????"); /* the end writes none */
    CHECK(walk.wall.stage == POLZAINTU_ENDED);
    CHECK(polzaintu_wall_due(&walk.wall) == 0);
    CHECK(polzaintu_wall_width(&walk.wall) == 0);
    row_is(walk.next, (uint64_t[]){2000, 2000, 2000, 2012, 2000, 2000});
}

/* The printed wall's row 1 with the bits of each seam, in the order of wallrun. */
static void printed_seams(void) {
    static const struct {
        size_t left, right;
        uint64_t midpoint, half_gap;
    } SEAMS[] = {
        {0, 1, 0x4097700000000000, 0},
        {0, 2, 0x4097700000000000, 0},
        {1, 2, 0x4097700000000000, 0},
        {2, 3, 0x4097b80000000000, 0x4032000000000000},
        {3, 4, 0x4097b80000000000, 0xc032000000000000},
        {3, 5, 0x4097b80000000000, 0xc032000000000000},
        {4, 5, 0x4097700000000000, 0},
    };
    struct wall_file file = small_wall();
    put_settings(&file, PRINTED);
    file.length = LAST_TAG_3;
    struct walk walk = begin();
    go(&walk, &file, 4);
    CHECK(walk.wall.stage == POLZAINTU_ENDED);
    for (size_t i = 0; i < sizeof SEAMS / sizeof *SEAMS; i++) {
        uint32_t side = 9;
        polzaintu_halves halves;
        CHECK(polzaintu_seam(walk.row[SEAMS[i].left], false, walk.row[SEAMS[i].right], false, &side,
                             &halves) == 0);
        CHECK(side == POLZAINTU_CLOSED);
        CHECK(bits(halves.midpoint) == SEAMS[i].midpoint);
        CHECK(bits(halves.half_gap) == SEAMS[i].half_gap);
    }
}

/* A faulty tile in row 1, silent on each of its links: its mark comes with row 2. */
static void faulty_tile(void) {
    struct wall_file file = small_wall();
    put(&file, LAST_TAG_3 + 3, 1, 1 << 3);
    for (size_t tile = 2; tile < 6; tile++)
        put(&file, link_at(LAST_TAG_4, tile, 3), 8, POLZAINTU_SILENT);
    struct walk walk = begin();
    go(&walk, &file, 3);
    letters_are(&walk, "kkklkk"); /* the faulty tile's too */
    go(&walk, &file, 1);
    row_is(walk.next, (uint64_t[]){2000, 2000, 2000, 2036, 2000, 2000});
    letters_are(&walk, "kkklkk");
}

/* Clocks of drift 10,000 in row 1, with phases, and an even row 0: 1511 is met a tick earlier from
 * phase 40,000 on. In row 2 nothing drifts. */
static void phases(void) {
    static const uint32_t PHASES[6] = {0, 39999, 40000, 999999, 40000, 39999};
    struct wall_file file = small_wall();
    polzaintu_settings settings = PRINTED;
    settings.rows = 2;
    settings.drift = 10000;
    settings.unit = 16;
    put_settings(&file, settings);
    put(&file, TAG_2 + 3 + 8 * 3, 8, 1000);
    for (size_t tile = 0; tile < 6; tile++) {
        put(&file, drift_at(TAG_4, tile), 2, 10000);
        put(&file, phase_at(TAG_4, tile), 4, PHASES[tile]);
        put(&file, phase_at(LAST_TAG_4, tile), 4, 999999);
    }
    struct walk walk = begin();
    go(&walk, &file, 3);
    row_is(walk.next, (uint64_t[]){1497, 1497, 1496, 1496, 1496, 1497});
    letters_are(&walk, "kkkkkk");
    go(&walk, &file, 1);
    row_is(walk.next, (uint64_t[]){1997, 1997, 1996, 1996, 1996, 1997});
    go(&walk, &file, 1);
    CHECK(walk.wall.stage == POLZAINTU_ENDED);
}

/* The search range of the small wall, from rows 0 and 1; row 0 has the larger reach. */
static void surveyed_wall(void) {
    struct wall_file file = small_wall();
    struct walk walk = begin();
    polzaintu_survey survey = {0, 0, 0};
    go(&walk, &file, 2);
    while (walk.wall.stage == POLZAINTU_ROW_DUE) {
        CHECK(survey.row == walk.wall.row);
        CHECK(polzaintu_survey_row(&walk.wall.settings, walk.row, 6, &survey) == 0);
        go(&walk, &file, 1);
    }
    CHECK(survey.row == walk.wall.settings.rows);
    CHECK(survey.gap == 36 && survey.largest == 2 * 80 + 8 * 12 + 1);
}

/* The lengths of the rows and letters that a step is lent. */
struct lengths {
    size_t row, next, letters;
};

static const struct lengths SIX = {6, 6, 6};

/* A step that is lent so much of the file does not fit, and changes nothing. */
static void unfit_part(struct walk walk, size_t part_len, struct lengths lent) {
    struct wall_file file = small_wall();
    const struct wall_file file_before = file;
    const struct walk before = walk;
    CHECK(polzaintu_wall_step(&walk.wall, file.bytes, part_len, walk.row, lent.row, walk.next,
                              lent.next, walk.letters, lent.letters,
                              &walk.offset) == POLZAINTU_UNFIT);
    CHECK(memcmp(&walk, &before, sizeof walk) == 0);
    CHECK(memcmp(file.bytes, file_before.bytes, sizeof file.bytes) == 0);
}

static void unfit(struct walk walk, struct lengths lent) {
    unfit_part(walk, polzaintu_wall_due(&walk.wall), lent);
    unfit_part(walk, 0, lent);
}

/* A part longer than is due, at every stage but the last. */
static void longer_parts(void) {
    struct wall_file file = small_wall();
    for (size_t steps = 0; steps <= 5; steps++) {
        struct walk walk = begin();
        go(&walk, &file, steps);
        unfit_part(walk, polzaintu_wall_due(&walk.wall) + 1, SIX);
        unfit_part(walk, file.length, SIX);
    }
}

/* Rows or letters of another length, at stages 1 to 3. */
static void unfit_rows(void) {
    static const struct lengths OTHERS[] = {
        {5, 6, 6}, {6, 5, 6}, {0, 6, 6}, {6, 0, 6}, {7, 7, 6},
        {6, 6, 5}, {6, 6, 7}, {6, 6, 0}, {7, 7, 7}, {5, 5, 5},
    };
    struct wall_file file = small_wall();
    for (size_t steps = 1; steps <= 4; steps++) {
        struct walk walk = begin();
        go(&walk, &file, steps);
        for (size_t i = 0; i < sizeof OTHERS / sizeof *OTHERS; i++)
            unfit(walk, OTHERS[i]);
    }
}

static void unfit_walls(void) {
    struct wall_file file = small_wall();
    for (size_t steps = 1; steps <= 4; steps++) {
        struct walk walk = begin(), changed;
        go(&walk, &file, steps);
        changed = walk;
        changed.wall.settings.unit = 0;
        unfit(changed, SIX);
        changed = walk;
        changed.wall.row = 3;
        unfit(changed, SIX);
        changed = walk;
        changed.wall.offset = UINT64_MAX;
        unfit(changed, SIX);
    }
}

/* Stages that no file comes to: one past all, and a refusal without a number. */
static void unfit_stages(void) {
    struct walk walk = begin();
    walk.wall.stage = 6;
    unfit(walk, SIX);
    walk.wall.stage = UINT64_MAX;
    unfit(walk, SIX);
    walk.wall.stage = POLZAINTU_REFUSED;
    unfit(walk, SIX);
    walk.wall.row = POLZAINTU_UNFIT;
    unfit(walk, SIX);
    walk.wall.row = UINT64_C(1) << 32;
    unfit(walk, SIX);
}

static const struct lengths ANY[] = {{6, 6, 6}, {0, 0, 0}, {6, 6, 0}, {5, 0, 8}};

/* A step of a file that has ended changes nothing, whatever rows and letters are lent. */
static void ended(void) {
    struct wall_file file = small_wall();
    struct walk walk = begin();
    go(&walk, &file, 5);
    const struct walk before = walk;
    for (size_t i = 0; i < sizeof ANY / sizeof *ANY; i++) {
        CHECK(polzaintu_wall_step(&walk.wall, file.bytes, 0, walk.row, ANY[i].row, walk.next,
                                  ANY[i].next, walk.letters, ANY[i].letters, &walk.offset) == 0);
        CHECK(memcmp(&walk, &before, sizeof walk) == 0);
    }
}

/* The settings are taken whatever rows and letters are lent, and write none. */
static void settings_step(void) {
    struct wall_file file = small_wall();
    for (size_t i = 0; i < sizeof ANY / sizeof *ANY; i++) {
        struct walk walk = begin(), expected = walk;
        CHECK(polzaintu_wall_step(&walk.wall, file.bytes, 27, walk.row, ANY[i].row, walk.next,
                                  ANY[i].next, walk.letters, ANY[i].letters, &walk.offset) == 0);
        CHECK(walk.wall.stage == POLZAINTU_START_DUE);
        expected.wall = walk.wall;
        CHECK(memcmp(&walk, &expected, sizeof walk) == 0);
    }
}

/* The settings need no row; the widest wall's rows have the most bytes. */
static void most_bytes(void) {
    struct wall_file file = small_wall();
    polzaintu_settings settings = PRINTED;
    settings.width = POLZAINTU_WIDTH_MOST;
    put_settings(&file, settings);
    polzaintu_wall wall;
    uint64_t row[POLZAINTU_WIDTH_MOST], next[POLZAINTU_WIDTH_MOST], offset;
    uint8_t letters[POLZAINTU_WIDTH_MOST] = {0}, start[3 + 8 * POLZAINTU_WIDTH_MOST] = {2, 8};
    polzaintu_wall_new(&wall);
    CHECK(polzaintu_wall_step(&wall, file.bytes, 27, row, 0, next, 0, letters, 0, &offset) == 0);
    CHECK(polzaintu_wall_due(&wall) == sizeof start);
    CHECK(polzaintu_wall_width(&wall) == POLZAINTU_WIDTH_MOST);
    CHECK(polzaintu_wall_step(&wall, start, sizeof start, row, POLZAINTU_WIDTH_MOST, next,
                              POLZAINTU_WIDTH_MOST, letters, POLZAINTU_WIDTH_MOST, &offset) == 0);
    CHECK(polzaintu_wall_due(&wall) == POLZAINTU_DUE_MOST);
}

void wall_tests(void) {
    accepted_wall();
    printed_seams();
    faulty_tile();
    phases();
    surveyed_wall();
    settings_step();
    most_bytes();
    unfit_rows();
    unfit_walls();
    unfit_stages();
    longer_parts();
    ended();
}

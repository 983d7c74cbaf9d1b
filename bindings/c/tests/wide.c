/* The first wide seam of a row: limits, open seams, the order of the seams, every number, and rows
 * beside a plain reading. */
#include "tests.h"

#include <string.h>

static const uint64_t LATEST = (UINT64_C(1) << 41) - 1;

/* What a call is lent to read, with room for one place too many. */
struct lent {
    polzaintu_settings settings;
    uint64_t times[POLZAINTU_WIDTH_MOST + 1];
    uint8_t marks[POLZAINTU_WIDTH_MOST / 8 + 1];
    size_t times_len, marks_len;
};

/* A row of correct tiles that all pulse at 1500. */
static struct lent level(size_t width) {
    struct lent lent = {
        .settings = of_width(width), .times_len = width, .marks_len = (width + 7) / 8};
    for (size_t c = 0; c < width; c++)
        lent.times[c] = 1500;
    return lent;
}

static struct lent narrow(const uint64_t times[6], uint8_t marks) {
    struct lent lent = level(6);
    memcpy(lent.times, times, 6 * sizeof *times);
    lent.marks[0] = marks;
    return lent;
}

static bool faulty(const struct lent *lent, size_t column) {
    return lent->marks[column / 8] >> column % 8 & 1;
}

/* Asks with found and wide as they are lent; what is read is left as it was. */
static uint32_t ask(const struct lent *lent, uint64_t limit, bool *found, polzaintu_wide *wide) {
    struct lent before;
    memcpy(&before, lent, sizeof before);
    const uint32_t answer = polzaintu_first_wide(&lent->settings, lent->times, lent->times_len,
                                                 lent->marks, lent->marks_len, limit, found, wide);
    CHECK(memcmp(&before, lent, sizeof before) == 0);
    return answer;
}

/* The seam is found, whatever found and wide hold before. */
static void wide_at(const struct lent *lent, uint64_t limit, uint64_t left, uint64_t right,
                    uint64_t half_ticks) {
    for (int held = 0; held <= 1; held++) {
        bool found = held;
        polzaintu_wide wide;
        fill(&wide, sizeof wide);
        CHECK(ask(lent, limit, &found, &wide) == 0);
        CHECK(found);
        CHECK(wide.left == left && wide.right == right && wide.half_ticks == half_ticks);
    }
}

/* The answer, and found after it, where wide is left as it was; a refusal leaves found too. */
static void kept(const struct lent *lent, uint64_t limit, uint32_t number) {
    for (int held = 0; held <= 1; held++) {
        bool found = held;
        polzaintu_wide wide, before;
        fill(&wide, sizeof wide);
        fill(&before, sizeof before);
        CHECK(ask(lent, limit, &found, &wide) == number);
        CHECK(found == (number != 0 && held));
        CHECK(memcmp(&wide, &before, sizeof wide) == 0);
    }
}

static void none_wide(const struct lent *lent, uint64_t limit) {
    kept(lent, limit, 0);
}

static void refused(const struct lent *lent, uint64_t limit, uint32_t number) {
    kept(lent, limit, number);
}

static void limits_by_hand(void) {
    /* The printed wall. The half gap of 18 ticks is 36 half ticks. */
    const uint64_t printed[6] = {1500, 1500, 1500, 1536, 1500, 1500};
    struct lent lent = narrow(printed, 0);
    wide_at(&lent, 0, 2, 3, 36);
    wide_at(&lent, 35, 2, 3, 36);
    none_wide(&lent, 36);
    /* Open on the right, on the left, and both, until the wide ones come or are gone. */
    lent.marks[0] = 1 << 2;
    wide_at(&lent, 35, 3, 4, 36);
    lent.marks[0] = 1 << 2 | 1 << 4;
    wide_at(&lent, 35, 3, 5, 36);
    lent.marks[0] = 1 << 3;
    none_wide(&lent, 0);
    lent.marks[0] = 1 << 2 | 1 << 3;
    none_wide(&lent, 0);
    lent.marks[0] = 0x3f;
    none_wide(&lent, 0);
    /* Marks past the last column are not looked at. */
    lent.marks[0] = 0xc0;
    wide_at(&lent, 35, 2, 3, 36);
    lent.marks[0] = 0xc0 | 1 << 3;
    none_wide(&lent, 35);

    /* No gap is over no limit, and an odd gap is not halved. */
    lent = level(6);
    none_wide(&lent, 0);
    lent.times[5] = 1501;
    wide_at(&lent, 0, 3, 5, 1);
    none_wide(&lent, 1);
    lent.times[5] = 1499;
    wide_at(&lent, 0, 3, 5, 1);
    none_wide(&lent, 1);

    /* The widest gap that there is, either way, and limits past it. */
    const uint64_t ends[2][6] = {{0, 0, LATEST, 0, 0, 0}, {LATEST, LATEST, 0, 0, 0, 0}};
    for (size_t i = 0; i < 2; i++) {
        lent = narrow(ends[i], 0);
        wide_at(&lent, 0, 0, 2, LATEST);
        wide_at(&lent, LATEST - 1, 0, 2, LATEST);
        none_wide(&lent, LATEST);
        none_wide(&lent, LATEST + 1);
        none_wide(&lent, UINT64_C(1) << 42);
        none_wide(&lent, UINT64_MAX);
    }
}

/* Two correct tiles among faulty ones, whose times are not read, up to four columns apart. They are
 * found, the right one later and earlier, where they are neighbours. */
static void two_correct_tiles(size_t width) {
    struct lent lent = level(width);
    memset(lent.times, 0xff, sizeof lent.times);
    memset(lent.marks, 0xff, sizeof lent.marks);
    for (size_t left = 0; left < width; left++)
        for (size_t right = left + 1; right < width && right <= left + 4; right++) {
            lent.marks[left / 8] ^= (uint8_t)(1 << left % 8);
            lent.marks[right / 8] ^= (uint8_t)(1 << right % 8);
            for (int later = 0; later <= 1; later++) {
                lent.times[left] = later ? 100 : 137;
                lent.times[right] = later ? 137 : 100;
                if (neighbours(width, left, right))
                    wide_at(&lent, 36, left, right, 37);
                else
                    none_wide(&lent, 0);
                none_wide(&lent, 37);
            }
            lent.times[left] = lent.times[right] = UINT64_MAX;
            lent.marks[left / 8] ^= (uint8_t)(1 << left % 8);
            lent.marks[right / 8] ^= (uint8_t)(1 << right % 8);
        }
}

/* A seam that is turned away counts before the first wide one alone. */
static void late_times(void) {
    const uint64_t late[] = {LATEST + 1, UINT64_C(1) << 63, UINT64_MAX};
    for (size_t i = 0; i < sizeof late / sizeof *late; i++) {
        /* After the wide seam 0-1, in every other column, and so in 0-2 right after it. */
        for (size_t column = 2; column < 6; column++) {
            struct lent lent = level(6);
            lent.times[1] = 1505;
            lent.times[column] = late[i];
            wide_at(&lent, 4, 0, 1, 5);
            refused(&lent, 5, 31);
            /* A faulty tile's time is not read. */
            lent.marks[0] = (uint8_t)(1 << column);
            wide_at(&lent, 4, 0, 1, 5);
            none_wide(&lent, 5);
        }
        /* Before the wide seam 4-5, and in it; columns 2 and 3 are faulty. */
        for (size_t column = 0; column < 6; column++) {
            struct lent lent = level(6);
            lent.times[5] = 1505;
            lent.marks[0] = 1 << 2 | 1 << 3;
            wide_at(&lent, 4, 4, 5, 5);
            lent.times[column] = late[i];
            if (faulty(&lent, column))
                wide_at(&lent, 4, 4, 5, 5);
            else
                refused(&lent, 4, 31);
        }
        /* An open seam is turned away for its correct tile. */
        struct lent lent = level(6);
        lent.times[1] = late[i];
        lent.marks[0] = 0x3f ^ 1 << 1;
        refused(&lent, 0, 31);
        refused(&lent, UINT64_MAX, 31);
    }
    struct lent lent = level(6);
    lent.times[5] = LATEST;
    wide_at(&lent, 0, 3, 5, LATEST - 1500);
}

static void lengths(size_t width) {
    struct lent lent = level(width);
    lent.times[0] = UINT64_MAX;
    lent.times[1] = 0;
    const size_t times[] = {0, width - 1, width + 1},
                 marks[] = {0, lent.marks_len - 1, lent.marks_len + 1};
    for (size_t i = 0; i < sizeof times / sizeof *times; i++) {
        lent.times_len = times[i];
        refused(&lent, 0, 21);
    }
    lent.times_len = width;
    for (size_t i = 0; i < sizeof marks / sizeof *marks; i++) {
        lent.marks_len = marks[i];
        refused(&lent, 0, 21);
    }
    lent.marks_len = (width + 7) / 8;
    refused(&lent, 0, 31);
}

static void refused_settings(void) {
    for (size_t i = 0; i < REFUSED_SETTINGS_COUNT; i++) {
        struct lent lent = level(6);
        lent.settings = REFUSED_SETTINGS[i].settings;
        refused(&lent, 0, REFUSED_SETTINGS[i].number);
        lent.times[0] = UINT64_MAX;
        refused(&lent, 0, REFUSED_SETTINGS[i].number);
        lent.times_len = lent.marks_len = 0;
        refused(&lent, UINT64_MAX, REFUSED_SETTINGS[i].number);
    }
}

/* Each two neighbours by left and then right column, up to the first that decides. */
static void as_read(const struct lent *lent, size_t width, uint64_t limit) {
    for (size_t left = 0; left < width; left++)
        for (size_t right = left + 1; right < width; right++) {
            if (!neighbours(width, left, right))
                continue;
            const uint64_t l = lent->times[left], r = lent->times[right];
            const bool open = faulty(lent, left) || faulty(lent, right);
            if ((!faulty(lent, left) && l > LATEST) || (!faulty(lent, right) && r > LATEST)) {
                refused(lent, limit, 31);
                return;
            }
            const uint64_t gap = l < r ? r - l : l - r;
            if (!open && gap > limit) {
                wide_at(lent, limit, left, right, gap);
                return;
            }
        }
    none_wide(lent, limit);
}

/* Rows with near times, a few of them late, with few faulty tiles or many, and limits about as large
 * as the gaps. */
static void beside_a_reading(size_t width) {
    uint64_t seed = width;
    for (size_t i = 0; i < 500; i++) {
        struct lent lent = level(width);
        const uint64_t spread = 1 + seeded(&seed) % 40, marked = i % 3 == 0 ? 60 : 5;
        const uint64_t late = i % 2 == 0 ? 0 : 3;
        for (size_t c = 0; c < width; c++) {
            lent.times[c] = seeded(&seed) % 100 < late ? LATEST + 1 : seeded(&seed) % spread;
            if (seeded(&seed) % 100 < marked)
                lent.marks[c / 8] |= (uint8_t)(1 << c % 8);
        }
        as_read(&lent, width, seeded(&seed) % (spread + 1));
    }
}

void wide_tests(void) {
    limits_by_hand();
    late_times();
    refused_settings();
    const size_t widths[] = {6, 7, 8, 9, 17, 256};
    for (size_t i = 0; i < sizeof widths / sizeof *widths; i++) {
        two_correct_tiles(widths[i]);
        lengths(widths[i]);
        beside_a_reading(widths[i]);
    }
}

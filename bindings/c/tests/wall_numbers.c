/* Wall files that are turned away: every number with its offset, and the order between them. */
#include "wall_file.h"

#include <string.h>

/* A step of a file that is turned away: the same number and offset again, whatever is lent. */
static void refused_again(struct walk walk, uint32_t number, uint64_t offset, size_t part_len,
                          size_t row_len, size_t next_len, size_t letters_len) {
    uint8_t part[8] = {0};
    walk.offset = 77;
    struct walk expected = walk;
    expected.offset = offset;
    CHECK(polzaintu_wall_step(&walk.wall, part, part_len, walk.row, row_len, walk.next, next_len,
                              walk.letters, letters_len, &walk.offset) == number);
    CHECK(memcmp(&walk, &expected, sizeof walk) == 0);
}

/* The file is turned away at one of its steps, with the number and the offset; that step leaves the
 * file, both rows and the letters, and there is nothing more to take. */
static void refused(struct wall_file file, uint32_t number, uint64_t offset) {
    const struct wall_file lent = file;
    struct walk walk = begin(), before = walk;
    uint32_t answer = 0;
    for (size_t steps = 0; answer == 0 && steps < 5; steps++) {
        before = walk;
        answer = step(&walk, &file, steps == 0 ? 0 : walk.wall.offset);
        CHECK(memcmp(walk.row, before.row, sizeof walk.row) == 0);
        if (answer == 0)
            memcpy(walk.row, walk.next, sizeof walk.row);
    }
    CHECK(answer == number);
    CHECK(walk.offset == offset);
    CHECK(memcmp(walk.next, before.next, sizeof walk.next) == 0);
    CHECK(memcmp(walk.letters, before.letters, sizeof walk.letters) == 0);
    CHECK(memcmp(file.bytes, lent.bytes, sizeof file.bytes) == 0);
    CHECK(walk.wall.stage == POLZAINTU_REFUSED);
    CHECK(walk.wall.row == number && walk.wall.offset == offset);
    CHECK(memcmp(&walk.wall.settings, &before.wall.settings, sizeof walk.wall.settings) == 0);
    CHECK(polzaintu_wall_due(&walk.wall) == 0);
    CHECK(polzaintu_wall_width(&walk.wall) == 0);
    refused_again(walk, number, offset, 0, 6, 6, 6);
    refused_again(walk, number, offset, 8, 0, 5, 0);
    refused_again(walk, number, offset, 0, 6, 6, 8);
}

static const uint64_t FIELDS[] = {TAG_1, TAG_2, TAG_3, TAG_4, LAST_TAG_3, LAST_TAG_4, END};

/* 43 for every length at which the file can be cut, at the field that is due then. */
static void cuts(void) {
    struct wall_file file = small_wall();
    size_t field = 0;
    for (file.length = 0; file.length < END; file.length++) {
        if (file.length == FIELDS[field + 1])
            field++;
        refused(file, 43, FIELDS[field]);
    }
}

static void wrong_fields(void) {
    for (size_t i = 0; FIELDS[i] < END; i++) {
        struct wall_file file = small_wall();
        size_t at = FIELDS[i];
        file.bytes[at + 2] ^= 1;
        refused(file, 42, at);
        file.bytes[at + 1] ^= 1;
        refused(file, 42, at);
        file.length = at + 3; /* 43 applies too */
        refused(file, 42, at);
        file.bytes[at] ^= 8;
        refused(file, 41, at);
        file.length = at + 2; /* under three bytes are left */
        refused(file, 43, at);
    }
}

static void bytes_after(void) {
    struct wall_file file = small_wall();
    for (file.length = END + 1; file.length < sizeof file.bytes; file.length++)
        refused(file, 44, END);
}

static void settings_numbers(void) {
    for (size_t i = 0; i < REFUSED_SETTINGS_COUNT; i++) {
        struct wall_file file = small_wall();
        put_settings(&file, REFUSED_SETTINGS[i].settings);
        refused(file, REFUSED_SETTINGS[i].number, TAG_1);
    }
}

static void late_starts(void) {
    const uint64_t latest = (UINT64_C(1) << 39) - 1;
    for (size_t c = 0; c < 6; c++) {
        struct wall_file file = small_wall();
        struct walk walk = begin();
        put(&file, TAG_2 + 3 + 8 * c, 8, latest);
        go(&walk, &file, 5);
        put(&file, TAG_2 + 3 + 8 * c, 8, latest + 1);
        refused(file, 45, TAG_2);
        put(&file, TAG_2 + 3 + 8 * c, 8, UINT64_MAX);
        refused(file, 45, TAG_2);
    }
}

/* Each fault is added to those that come after it; they are judged once tag 4 is there. */
static void row_numbers(size_t tag_3) {
    struct wall_file file = small_wall();
    size_t tag_4 = tag_3 + 4;
    put(&file, link_at(tag_4, 0, 0), 8, 101);
    refused(file, 26, tag_4);
    put(&file, link_at(tag_4, 0, 0), 8, 89);
    refused(file, 26, tag_4);
    put(&file, phase_at(tag_4, 5), 4, 1000000);
    refused(file, 53, tag_4);
    put(&file, phase_at(tag_4, 0), 4, UINT32_MAX);
    refused(file, 53, tag_4);
    put(&file, drift_at(tag_4, 5), 2, 1);
    refused(file, 25, tag_4);
    put(&file, tag_3 + 3, 1, 0x03);
    refused(file, 24, tag_4);
    put(&file, tag_3 + 3, 1, 0x83);
    refused(file, 22, tag_4);
    file.length = tag_4 + 3 + 195;
    refused(file, 43, tag_4);
    file.bytes[tag_4 + 2] ^= 1;
    refused(file, 42, tag_4);
    file.bytes[tag_4] = 3;
    refused(file, 41, tag_4);
}

/* The form of tag 4 before there were phases, of which the length alone is looked at. */
static void old_form(void) {
    struct wall_file file = small_wall();
    put(&file, TAG_4 + 1, 2, 172);
    refused(file, 42, TAG_4);
    file = small_wall();
    put(&file, LAST_TAG_4 + 1, 2, 172);
    refused(file, 42, LAST_TAG_4);
}

/* A faulty arrival that is too late, and the latest that is not. */
static void late_arrival(void) {
    struct wall_file file = small_wall();
    struct walk walk = begin();
    put(&file, TAG_3 + 3, 1, 1);
    for (size_t tile = 0; tile < 3; tile++)
        put(&file, link_at(TAG_4, tile, 0), 8, (UINT64_C(1) << 40) - 1);
    go(&walk, &file, 5);
    put(&file, link_at(TAG_4, 2, 0), 8, UINT64_C(1) << 40);
    refused(file, 26, TAG_4);
}

/* 23 comes where the row is not the one that the last step wrote. */
static void late_row(void) {
    struct wall_file file = small_wall();
    struct walk walk = begin();
    go(&walk, &file, 2);
    walk.row[4] = UINT64_C(1) << 40;
    const struct walk before = walk;
    CHECK(step(&walk, &file, TAG_3) == 23);
    CHECK(walk.offset == TAG_4);
    CHECK(walk.wall.stage == POLZAINTU_REFUSED && walk.wall.row == 23);
    CHECK(memcmp(walk.row, before.row, sizeof walk.row) == 0);
    CHECK(memcmp(walk.next, before.next, sizeof walk.next) == 0);
    CHECK(memcmp(walk.letters, before.letters, sizeof walk.letters) == 0);
}

void wall_number_tests(void) {
    cuts();
    wrong_fields();
    bytes_after();
    settings_numbers();
    late_starts();
    row_numbers(TAG_3);
    row_numbers(LAST_TAG_3);
    old_form();
    late_arrival();
    late_row();
}

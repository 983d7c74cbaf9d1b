#include "wall_file.h"

#include <string.h>

void put(struct wall_file *file, size_t at, size_t size, uint64_t number) {
    for (size_t i = 0; i < size; i++)
        file->bytes[at + i] = (uint8_t)(number >> 8 * (size - 1 - i));
}

static void put_field(struct wall_file *file, size_t at, uint8_t tag, size_t length) {
    put(file, at, 1, tag);
    put(file, at + 1, 2, length);
}

void put_settings(struct wall_file *file, polzaintu_settings s) {
    put_field(file, TAG_1, 1, 24);
    put(file, TAG_1 + 3, 2, s.width);
    put(file, TAG_1 + 5, 2, s.rows);
    put(file, TAG_1 + 7, 4, s.delay);
    put(file, TAG_1 + 11, 4, s.uncertainty);
    put(file, TAG_1 + 15, 4, s.hold);
    put(file, TAG_1 + 19, 4, s.drift);
    put(file, TAG_1 + 23, 4, s.unit);
}

size_t drift_at(size_t tag_4, size_t tile) {
    return tag_4 + 3 + 6 * tile + 8 * link_place(6, tile, 0);
}

size_t phase_at(size_t tag_4, size_t tile) {
    return drift_at(tag_4, tile) + 2;
}

size_t link_at(size_t tag_4, size_t tile, size_t sender) {
    return tag_4 + 3 + 6 * (tile + 1) + 8 * link_place(6, tile, sender);
}

/* A row without faults: no marks of the row before, drifts and phases 0, delays 100. */
static void put_row(struct wall_file *file, size_t tag_3) {
    put_field(file, tag_3, 3, 1);
    put(file, tag_3 + 3, 1, 0);
    put_field(file, tag_3 + 4, 4, 196);
    for (size_t tile = 0; tile < 6; tile++) {
        put(file, drift_at(tag_3 + 4, tile), 2, 0);
        put(file, phase_at(tag_3 + 4, tile), 4, 0);
        for (size_t sender = 0; sender < 6; sender++)
            if (tile == sender || neighbours(6, tile, sender))
                put(file, link_at(tag_3 + 4, tile, sender), 8, 100);
    }
}

struct wall_file small_wall(void) {
    struct wall_file file;
    fill(file.bytes, sizeof file.bytes);
    file.length = END;
    polzaintu_settings settings = PRINTED;
    settings.rows = 2;
    put_settings(&file, settings);
    put_field(&file, TAG_2, 2, 48);
    for (size_t c = 0; c < 6; c++)
        put(&file, TAG_2 + 3 + 8 * c, 8, c == 3 ? 1080 : 1000);
    put_row(&file, TAG_3);
    put_row(&file, LAST_TAG_3);
    return file;
}

struct walk begin(void) {
    struct walk walk;
    fill(&walk, sizeof walk);
    polzaintu_wall_new(&walk.wall);
    return walk;
}

uint32_t step(struct walk *walk, const struct wall_file *file, uint64_t taken) {
    size_t due = polzaintu_wall_due(&walk->wall), left = file->length - taken;
    return polzaintu_wall_step(&walk->wall, file->bytes + taken, due < left ? due : left, walk->row,
                               6, walk->next, 6, walk->letters, 6, &walk->offset);
}

void go(struct walk *walk, const struct wall_file *file, size_t steps) {
    for (size_t i = 0; i < steps; i++) {
        uint64_t stage = walk->wall.stage;
        CHECK(step(walk, file, stage == POLZAINTU_SETTINGS_DUE ? 0 : walk->wall.offset) == 0);
        if (stage == POLZAINTU_START_DUE || stage == POLZAINTU_ROW_DUE)
            memcpy(walk->row, walk->next, sizeof walk->row);
    }
}

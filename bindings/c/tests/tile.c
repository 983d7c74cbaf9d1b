/* A tile: the cases of the forwarding rule, each with its letter, and numbers 11 to 13. */
#include "tests.h"

#include <string.h>

#define SILENT POLZAINTU_SILENT

static const uint64_t LATEST = (UINT64_C(1) << 41) - 1;

struct tile_case {
    polzaintu_stamps stamps;
    int64_t p, letter;
};

/* h 12, r 0, so J is 24. The third place holds what would be refused if it were read. */
static const struct tile_case CASES[] = {
    {{100, {100, 100, SILENT - 1}, 2}, 100, 'k'},
    {{120, {100, 100, SILENT - 1}, 2}, 112, 'm'},
    {{200, {100, 100, SILENT - 1}, 2}, 136, 'l'},
    {{0, {100, 100, SILENT - 1}, 2}, 64, 'e'},
    {{220, {100, 300, SILENT - 1}, 2}, 208, 'm'},
    {{110, {0, 100, SILENT - 1}, 2}, 86, 'b'},
    /* Own is min - 3h, or a tick beside it. */
    {{63, {100, 100, SILENT - 1}, 2}, 64, 'e'},
    {{64, {100, 100, SILENT - 1}, 2}, 64, 'k'},
    {{65, {100, 100, SILENT - 1}, 2}, 65, 'k'},
    /* D is 0, where P is own, or a tick beside it. */
    {{111, {100, 100, SILENT - 1}, 2}, 111, 'k'},
    {{112, {100, 100, SILENT - 1}, 2}, 112, 'm'},
    {{113, {100, 100, SILENT - 1}, 2}, 112, 'm'},
    /* D is J. */
    {{135, {100, 100, SILENT - 1}, 2}, 112, 'm'},
    {{136, {100, 100, SILENT - 1}, 2}, 112, 'm'},
    {{137, {100, 100, SILENT - 1}, 2}, 113, 'b'},
    /* Own - J is max + 3h. */
    {{159, {100, 100, SILENT - 1}, 2}, 135, 'b'},
    {{160, {100, 100, SILENT - 1}, 2}, 136, 'b'},
    {{161, {100, 100, SILENT - 1}, 2}, 136, 'l'},
    /* Own is silent, or a neighbour is: then own is kept however late it comes. */
    {{SILENT, {100, 130, SILENT - 1}, 2}, 166, 'l'},
    {{90, {SILENT, 100, SILENT - 1}, 2}, 90, 'k'},
    {{50, {100, SILENT, SILENT - 1}, 2}, 64, 'e'},
    {{63, {SILENT, 100, SILENT - 1}, 2}, 64, 'e'},
    {{64, {SILENT, 100, SILENT - 1}, 2}, 64, 'k'},
    {{112, {100, SILENT, SILENT - 1}, 2}, 112, 'k'},
    {{137, {100, SILENT, SILENT - 1}, 2}, 137, 'k'},
    {{1000, {100, SILENT, SILENT - 1}, 2}, 1000, 'k'},
    /* Three neighbours: the earliest and the latest decide, whichever places they have. */
    {{220, {200, 300, 100}, 3}, 208, 'm'},
    {{220, {100, 200, 300}, 3}, 208, 'm'},
    {{207, {300, 100, 200}, 3}, 207, 'k'},
    {{232, {300, 100, 200}, 3}, 208, 'm'},
    {{233, {300, 100, 200}, 3}, 209, 'b'},
    {{360, {300, 100, 200}, 3}, 336, 'b'},
    {{361, {300, 100, 200}, 3}, 336, 'l'},
    {{SILENT, {130, 100, 110}, 3}, 166, 'l'},
    {{50, {100, SILENT, 120}, 3}, 64, 'e'},
    {{64, {120, 100, SILENT}, 3}, 64, 'k'},
    {{1000, {SILENT, 100, 120}, 3}, 1000, 'k'},
};

static void cases(void) {
    for (size_t i = 0; i < sizeof CASES / sizeof *CASES; i++) {
        const struct tile_case *c = &CASES[i];
        bool heard = c->stamps.own != SILENT;
        polzaintu_forwarded answer;
        fill(&answer, sizeof answer);
        CHECK(polzaintu_tile(&PRINTED, &c->stamps, &answer) == 0);
        CHECK(answer.p == c->p);
        CHECK(answer.corrected == heard);
        CHECK(answer.correction == (heard ? (int64_t)c->stamps.own - c->p : 0));
        CHECK(answer.letter == c->letter);
    }
}

/* Where r is 10,000, J is 25. */
static void step_rounds_up(void) {
    const polzaintu_settings drifting = {6, 1, 100, 8, 192, 10000, 12};
    const struct tile_case ties[] = {
        {{137, {100, 100, 0}, 2}, 112, POLZAINTU_MIDDLE},
        {{138, {100, 100, 0}, 2}, 113, POLZAINTU_BACK},
        {{161, {100, 100, 0}, 2}, 136, POLZAINTU_BACK},
        {{162, {100, 100, 0}, 2}, 136, POLZAINTU_LATE},
    };
    for (size_t i = 0; i < sizeof ties / sizeof *ties; i++) {
        polzaintu_forwarded answer;
        CHECK(polzaintu_tile(&drifting, &ties[i].stamps, &answer) == 0);
        CHECK(answer.p == ties[i].p && answer.letter == ties[i].letter);
        CHECK(answer.correction == (int64_t)ties[i].stamps.own - ties[i].p);
        CHECK(answer.corrected == 1);
    }
}

/* The latest stamps that are accepted. */
static void latest_stamps(void) {
    const polzaintu_stamps stamps = {SILENT, {LATEST, LATEST, LATEST}, 3};
    polzaintu_forwarded answer;
    CHECK(polzaintu_tile(&PRINTED, &stamps, &answer) == 0);
    CHECK(answer.p == (int64_t)LATEST + 36 && answer.corrected == 0);
    CHECK(answer.letter == POLZAINTU_LATE);
}

/* A tile is turned away with the number, and all that was lent holds what it held. */
static void refused(polzaintu_settings settings, polzaintu_stamps stamps, uint32_t number) {
    const polzaintu_settings settings_before = settings;
    const polzaintu_stamps stamps_before = stamps;
    polzaintu_forwarded answer, answer_before;
    fill(&answer, sizeof answer);
    fill(&answer_before, sizeof answer_before);
    CHECK(polzaintu_tile(&settings, &stamps, &answer) == number);
    CHECK(memcmp(&settings, &settings_before, sizeof settings) == 0);
    CHECK(memcmp(&stamps, &stamps_before, sizeof stamps) == 0);
    CHECK(memcmp(&answer, &answer_before, sizeof answer) == 0);
}

static void numbers(void) {
    for (size_t i = 0; i < REFUSED_SETTINGS_COUNT; i++) {
        const struct refused_settings *r = &REFUSED_SETTINGS[i];
        refused(r->settings, (polzaintu_stamps){100, {100, 100, 100}, 2}, r->number);
        /* 11, 12 and 13 apply too. */
        refused(r->settings, (polzaintu_stamps){SILENT, {SILENT, LATEST + 1, 0}, 4}, r->number);
    }
    const uint64_t counts[] = {0, 1, 4, 5, UINT64_C(1) << 32, (UINT64_C(1) << 32) + 2, UINT64_MAX};
    for (size_t i = 0; i < sizeof counts / sizeof *counts; i++) {
        refused(PRINTED, (polzaintu_stamps){100, {100, 100, 100}, counts[i]}, 11);
        /* 12 and 13 apply too. */
        refused(PRINTED, (polzaintu_stamps){SILENT, {SILENT, LATEST + 1, 0}, counts[i]}, 11);
    }
    const uint64_t late[] = {LATEST + 1, UINT64_C(1) << 63, SILENT - 1};
    for (size_t i = 0; i < sizeof late / sizeof *late; i++) {
        refused(PRINTED, (polzaintu_stamps){late[i], {100, 100, 0}, 2}, 12);
        refused(PRINTED, (polzaintu_stamps){100, {late[i], 100, 0}, 2}, 12);
        refused(PRINTED, (polzaintu_stamps){100, {100, late[i], 0}, 2}, 12);
        refused(PRINTED, (polzaintu_stamps){100, {100, 100, late[i]}, 3}, 12);
        /* 13 applies too. */
        refused(PRINTED, (polzaintu_stamps){SILENT, {SILENT, late[i], 0}, 2}, 12);
    }
    refused(PRINTED, (polzaintu_stamps){SILENT, {SILENT, 100, 0}, 2}, 13);
    refused(PRINTED, (polzaintu_stamps){SILENT, {100, SILENT, 0}, 2}, 13);
    refused(PRINTED, (polzaintu_stamps){100, {SILENT, SILENT, 0}, 2}, 13);
    refused(PRINTED, (polzaintu_stamps){100, {100, SILENT, SILENT}, 3}, 13);
    refused(PRINTED, (polzaintu_stamps){SILENT, {SILENT, SILENT, SILENT}, 3}, 13);
}

void tile_tests(void) {
    cases();
    step_rounds_up();
    latest_stamps();
    numbers();
}

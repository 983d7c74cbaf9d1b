/* The pulse planner for C: link libpolzaintu.a, which `rt lib` in crates/polzaintu writes for x86-64.
 *
 * Every function answers every input and keeps nothing between calls. An answer of uint32_t is 0,
 * or the number under which the call is turned away: the lowest that applies, where 53 stands
 * between 25 and 26, and what was lent to the call holds what it held. A wall file keeps an order
 * of its own, and stays turned away (polzaintu_wall_step). Each function lists its numbers;
 * polzaintu_words has the words of each, and docs/NUMBERS.md a table. Times, delays, stamps and
 * gaps are in ticks; W, R, d, u, A, r and h are the settings. A clause of docs/REQUIREMENTS.md is
 * named as in §4.2.
 *
 * What a caller owes:
 * - A pointer that comes with a count may be NULL where the count is 0, as an empty std::vector
 *   has it; it is not followed then. No other is NULL. Each is aligned for its type, and reaches
 *   as many values as its count says, or one where it has no count.
 * - What a call writes overlaps nothing else that the call is lent. No call works in place: one
 *   that is lent an array both to read and to write may read what it has written, and its answer
 *   and its times are then wrong without a number.
 * - Nobody else reads or writes what a call writes before the call returns. Nobody writes what a
 *   call reads.
 * - A bool is 0 or 1.
 *
 * The archive takes each struct as an array of 64-bit words; the sizes are asserted below. */
#ifndef POLZAINTU_H
#define POLZAINTU_H

#include <assert.h>
#include <stdbool.h>
#include <stddef.h>
#include <stdint.h>

/* Marks an answer that a caller has to look at. */
#if defined(__cplusplus) && __cplusplus >= 201703L
#define POLZAINTU_ANSWER [[nodiscard]]
#elif !defined(__cplusplus) && defined(__STDC_VERSION__) && __STDC_VERSION__ >= 202311L
#define POLZAINTU_ANSWER [[nodiscard]]
#elif defined(__GNUC__)
#define POLZAINTU_ANSWER __attribute__((warn_unused_result))
#else
#define POLZAINTU_ANSWER
#endif

#ifdef __cplusplus
extern "C" {
#endif

/* The version of this header; polzaintu_version answers that of the archive. */
#define POLZAINTU_VERSION_MAJOR 0
#define POLZAINTU_VERSION_MINOR 8
#define POLZAINTU_VERSION_PATCH 0

/* The version as one number, which grows from version to version. */
#define POLZAINTU_VERSION                                                                          \
    ((POLZAINTU_VERSION_MAJOR * 1000 + POLZAINTU_VERSION_MINOR) * 1000 + POLZAINTU_VERSION_PATCH)

/* POLZAINTU_VERSION as it was where the archive was built. */
POLZAINTU_ANSWER uint32_t polzaintu_version(void);

/* A silent sender, as a stamp and as a link value. */
#define POLZAINTU_SILENT UINT64_MAX

/* What was lent does not fit: an answer apart from the numbers. */
#define POLZAINTU_UNFIT UINT32_MAX

/* The most tiles of a row, the most bytes that a step of a wall file is to be given, and the most
 * waves of a seam that are held. */
#define POLZAINTU_WIDTH_MOST 256
#define POLZAINTU_DUE_MOST 7734
#define POLZAINTU_WAVES_MOST 64

/* The words of an answer. */
POLZAINTU_ANSWER static inline const char *polzaintu_words(uint32_t number) {
    switch (number) {
    case 0:
        return "accepted";
    /* numbers.tsv: begin; bindings/words writes these */
    case 1:
        return "W is outside 6 to 256";
    case 2:
        return "R is outside 1 to 1,024";
    case 3:
        return "d is outside 1 to 1,000,000";
    case 4:
        return "u is greater than d";
    case 5:
        return "A is outside 1 to 1,000,000";
    case 6:
        return "r is greater than 10,000";
    case 7:
        return "h is outside 1 to 62,500";
    case 8:
        return "h is less than u + c + 2, where c is r * A / (1,000,000 + r) rounded up";
    case 9:
        return "A is less than 16h";
    case 11:
        return "the count of neighbours is neither 2 nor 3";
    case 12:
        return "a stamp that is not silent, or the first reading of a running tile, is outside 0 "
               "to 2^41 - 1";
    case 13:
        return "more than one stamp is silent";
    case 21:
        return "something lent is not as long as W asks";
    case 22:
        return "a mark is set beyond column W - 1";
    case 23:
        return "the row before has a correct tile with a time above 2^40 - 1";
    case 24:
        return "more than one of a tile's senders is faulty";
    case 25:
        return "the drift of a tile is greater than r";
    case 26:
        return "the delay of a correct sender is outside d - u to d, or a faulty sender's pulse, "
               "unless silent, arrives after 2^40 - 1";
    case 31:
        return "a correct tile has a time above 2^41 - 1";
    case 41:
        return "the tag is not the one due";
    case 42:
        return "the length is not the one due";
    case 43:
        return "the file stops before the field due is complete";
    case 44:
        return "the file goes on after its last field";
    case 45:
        return "a time of row 0 is above 2^39 - 1";
    case 51:
        return "n is outside 1 to 64";
    case 52:
        return "no closed wave is held";
    case 53:
        return "the phase of a tile is greater than 999,999";
    case 54:
        return "the sender is none of the tile's predecessors";
    /* numbers.tsv: end */
    case POLZAINTU_UNFIT:
        return "what was lent does not fit";
    default:
        return "no such number";
    }
}

/* ---- Settings: §2.1 to §2.6 ---- */

typedef struct {
    uint64_t width;       /* W, the tiles of a row: 6 to 256 */
    uint64_t rows;        /* R, the rows after row 0: 1 to 1,024 */
    uint64_t delay;       /* d, the longest delay of a link: 1 to 1,000,000 */
    uint64_t uncertainty; /* u, by how much a delay may be shorter: 0 to d */
    uint64_t hold;        /* A, how long a tile holds a pulse: 1 to 1,000,000, and at least 16h */
    uint64_t drift;       /* r, the largest drift, in parts per million: 0 to 10,000 */
    uint64_t unit;        /* h, the unit of the rule: 1 to 62,500, and at least u + c + 2, where c
                             is r * A / (1,000,000 + r) rounded up */
} polzaintu_settings;

/* Checks settings. Every function that is given settings repeats these checks first.
 *
 * Answers 0; 1 to 7 W, R, d, u, A, r, h by turns; 8 and 9 h and A against the others. */
POLZAINTU_ANSWER uint32_t polzaintu_settings_refusal(const polzaintu_settings *settings);

/* ---- A tile: §6.1 to §6.3, by the rule of §4.1 to §5.3; its letter §E3.1 to §E3.3 ---- */

typedef struct {
    uint64_t own;           /* the stamp of the sender in the tile's own column */
    uint64_t neighbours[3]; /* those of the neighbours; places past the count are not read */
    uint64_t count;         /* how many neighbours there are: 2 or 3 */
} polzaintu_stamps;

/* Which part of the rule P comes from, as a letter in ASCII. Of the neighbours' stamps that are not
 * silent, min is the earliest and max the latest; their middle is the largest that the smaller of
 * min + 8hs and max - 8hs can be, s being 0, 1, 2 and so on. J is 2h + 2h * r / 1,000,000, the
 * fraction rounded up. */
enum {
    POLZAINTU_KEPT = 'k',   /* P is own */
    POLZAINTU_EARLY = 'e',  /* P is min - 3h, and own is before P */
    POLZAINTU_MIDDLE = 'm', /* P is the neighbours' middle + h, whatever own is */
    POLZAINTU_BACK = 'b',   /* P is own - J */
    POLZAINTU_LATE = 'l'    /* P is max + 3h, and own is after P + J or silent */
};

typedef struct {
    int64_t p;          /* P: the tile pulses when its clock reads P + A */
    int64_t correction; /* own - P, below zero where the tile waits; 0 where own is silent */
    int64_t corrected;  /* 1; 0 where own is silent, since there is no correction then */
    int64_t letter;     /* which rule fixed P: one of the five above */
} polzaintu_forwarded;

/* What a tile forwards, by the forwarding rule. A stamp is 0 to 2^41 - 1, or POLZAINTU_SILENT.
 * Writes the answer.
 *
 * Answers 0; 1 to 9; 11 for the count, 12 for a stamp, 13 for silence. */
POLZAINTU_ANSWER uint32_t polzaintu_tile(const polzaintu_settings *settings,
                                         const polzaintu_stamps *stamps,
                                         polzaintu_forwarded *answer);

/* ---- A row: §7.1 to §7.6, letters §E3.4, phases §E4.2, marks and links by place §17.4 ----
 *
 * Columns c and c + 1 are neighbours; so are columns 0 and 2, and columns W - 3 and W - 1. A tile's
 * senders are the tiles of the row before in its own column and that column's neighbours: four for
 * columns 2 and W - 3, three for every other.
 *
 * The fault marks of a row are (W + 7) / 8 bytes: byte c / 8 has the mark of column c at its bit
 * c % 8, the lowest being bit 0. A bit beyond column W - 1 is 0.
 *
 * The link values of a row are 3W + 2, tile after tile and, of each tile, sender after sender as
 * their columns rise. */

typedef struct {
    uint64_t earliest, latest; /* over all W tiles of the row */
} polzaintu_ends;

/* Works out a row from the row before. Writes its times and letters, and the earliest and latest of
 * the times.
 *
 *   before  the W times of the row before, up to 2^40 - 1; a faulty tile's is not read
 *   marks   the fault marks of the row before
 *   drifts  the W drifts of the row's tiles, 0 to r
 *   phases  the W phases of the row's tiles, 0 to 999,999: how far into a reading each clock
 *           starts, in millionths
 *   links   the link values: of a correct sender the delay, d - u to d; of a faulty one the tick
 *           at which its pulse arrives, up to 2^40 - 1, or POLZAINTU_SILENT
 *   times   the W times to be written
 *   letters the W letters to be written, of each tile the one that polzaintu_tile answers; a tile
 *           that the next row's marks say is faulty has one too
 *
 * A clock of drift p and phase q reads (t * (1,000,000 + p) + q) / 1,000,000 at tick t, rounded
 * down.
 *
 * Answers 0; 1 to 9; 21 for a length, 22 and 24 for the marks, 23 for a time before, 25 for a
 * drift, 53 for a phase, which comes after 25 and before 26, 26 for a link value. */
POLZAINTU_ANSWER uint32_t polzaintu_row(const polzaintu_settings *settings, const uint64_t *before,
                                        size_t before_len, const uint8_t *marks, size_t marks_len,
                                        const uint32_t *drifts, size_t drifts_len,
                                        const uint32_t *phases, size_t phases_len,
                                        const uint64_t *links, size_t links_len, uint64_t *times,
                                        size_t times_len, uint8_t *letters, size_t letters_len,
                                        polzaintu_ends *ends);

/* Whether a tile is marked faulty. Bits beyond column W - 1 are not read. Writes faulty.
 *
 * Answers 0; 1 to 9; 21 marks of another length; POLZAINTU_UNFIT where column is not 0 to W - 1. */
POLZAINTU_ANSWER uint32_t polzaintu_mark(const polzaintu_settings *settings, const uint8_t *marks,
                                         size_t marks_len, uint64_t column, bool *faulty);

/* Where the link from the sender's column to the tile's stands among the link values. Writes the
 * place.
 *
 * Answers 0; 1 to 9; POLZAINTU_UNFIT where tile is not 0 to W - 1 or has no such sender. */
POLZAINTU_ANSWER uint32_t polzaintu_link_place(const polzaintu_settings *settings, uint64_t tile,
                                               uint64_t sender, uint64_t *place);

/* ---- A seam, two neighbouring tiles of one row: §8.1 to §8.4, of a row by place §17.4 ---- */

enum {
    POLZAINTU_CLOSED = 0,     /* neither tile is faulty */
    POLZAINTU_OPEN_LEFT = 1,  /* the left tile is faulty */
    POLZAINTU_OPEN_RIGHT = 2, /* the right tile is faulty */
    POLZAINTU_OPEN_BOTH = 3   /* both are faulty */
};

typedef struct {
    double midpoint; /* half the sum of the two times, exact */
    double half_gap; /* half of right time minus left time, exact; a gap of 0 is plus zero */
} polzaintu_halves;

/* Joins two tiles, each with its time and whether it is faulty; a faulty tile's time is not read.
 * Writes the side, one of the four above, and the halves where it is POLZAINTU_CLOSED; the halves
 * of an open seam are left as they were.
 *
 * Answers 0; 31. */
POLZAINTU_ANSWER uint32_t polzaintu_seam(uint64_t left, bool left_faulty, uint64_t right,
                                         bool right_faulty, uint32_t *side,
                                         polzaintu_halves *halves);

typedef struct {
    uint64_t left, right; /* columns */
} polzaintu_pair;

/* The columns of a row's seam. A row has W + 1 seams, numbered from 0 to W in the order in which
 * wallrun prints them. Writes the columns.
 *
 * Answers 0; 1 to 9; POLZAINTU_UNFIT where seam is over W. */
POLZAINTU_ANSWER uint32_t polzaintu_seam_columns(const polzaintu_settings *settings, uint64_t seam,
                                                 polzaintu_pair *columns);

/* A row's seam with its columns, from the row's W times and its fault marks; the last row of a wall
 * file has none, and is lent bytes of 0. Writes the columns, the side and the halves, as
 * polzaintu_seam_columns and polzaintu_seam do.
 *
 * Answers 0; 1 to 9; 21 times or marks of another length; POLZAINTU_UNFIT where seam is over W;
 * 31. */
POLZAINTU_ANSWER uint32_t polzaintu_row_seam(const polzaintu_settings *settings,
                                             const uint64_t *times, size_t times_len,
                                             const uint8_t *marks, size_t marks_len, uint64_t seam,
                                             polzaintu_pair *columns, uint32_t *side,
                                             polzaintu_halves *halves);

/* ---- Whether a seam of a row is too wide: §E7.1, §E7.2, §E7.6 ---- */

typedef struct {
    uint64_t left, right; /* columns */
    uint64_t half_ticks;  /* the half gap in half ticks, its sign dropped: as many as the two times
                             are ticks apart */
} polzaintu_wide;

/* The first wide seam of a row, in the order of polzaintu_seam_columns from 0 to W: closed, and
 * with a half gap, its sign dropped, of more half ticks than the limit, which is any number. The
 * times and marks are lent as to polzaintu_row_seam; bits beyond column W - 1 are not read. Writes
 * found, and where that is true wide; where it is false, wide is left as it was.
 *
 * Answers 0; 1 to 9; 21 times or marks of another length; 31 where polzaintu_seam turns a seam away
 * that comes before every wide one: nothing after the first is looked at. */
POLZAINTU_ANSWER uint32_t polzaintu_first_wide(const polzaintu_settings *settings,
                                               const uint64_t *times, size_t times_len,
                                               const uint8_t *marks, size_t marks_len,
                                               uint64_t limit, bool *found, polzaintu_wide *wide);

/* ---- The last waves of a seam: §E1.1 to §E1.7 ----
 *
 * Of one seam the last n waves are held: the largest and the smallest half gap of those that are
 * closed can be asked for at any time. */

/* The waves held; polzaintu_waves_start and polzaintu_waves_hand_in alone write it. It may be
 * copied: each copy goes on by itself. */
typedef struct {
    uint64_t gaps[POLZAINTU_WAVES_MOST]; /* the first n are in use, one for each wave held: right
                                            time minus left time plus 2^41, so 1 to 2^42 - 1, or 0
                                            for an open wave or none; any other gives no number */
    uint64_t n;                          /* how many waves are held at most: 1 to 64 */
    uint64_t next;                       /* the place that the next wave takes: 0 to n - 1 */
} polzaintu_waves;

/* Signed half gaps in half ticks: as many as right time minus left time has ticks. */
typedef struct {
    int64_t largest, smallest;
} polzaintu_half_ticks;

/* The same in ticks, as half_gap of polzaintu_halves: exact, and a gap of 0 is plus zero. */
typedef struct {
    double largest, smallest;
} polzaintu_half_gaps;

/* Begins with no wave; at most n are to be held. Writes the waves.
 *
 * Answers 0; 51. */
POLZAINTU_ANSWER uint32_t polzaintu_waves_start(uint64_t n, polzaintu_waves *waves);

/* Hands in the next wave, as polzaintu_seam is given it. Writes the side and the halves as that
 * does, and the waves: an open one takes a place too, and once n are held each takes that of the
 * oldest. One that is turned away takes none.
 *
 * Answers 0; POLZAINTU_UNFIT where *waves was never started: n is over 64, or next not below n;
 * 31. */
POLZAINTU_ANSWER uint32_t polzaintu_waves_hand_in(polzaintu_waves *waves, uint64_t left,
                                                  bool left_faulty, uint64_t right,
                                                  bool right_faulty, uint32_t *side,
                                                  polzaintu_halves *halves);

/* The largest and the smallest half gap of the closed waves held. Writes both, in half ticks and in
 * ticks.
 *
 * Answers 0; POLZAINTU_UNFIT as above; 52. */
POLZAINTU_ANSWER uint32_t polzaintu_waves_ask(const polzaintu_waves *waves,
                                              polzaintu_half_ticks *half_ticks,
                                              polzaintu_half_gaps *half_gaps);

/* ---- The tile as it runs: §E5.1 to §E5.9, §E6.1 to §E6.4 ----
 *
 * A tile event by event, on its own clock: its senders' pulses come in at the open reading, until
 * that is closed. Then the tile pulses, and its run is over, or the next reading opens. */

/* How far its run has come. */
enum {
    POLZAINTU_BOARD_RUNNING = 0,
    POLZAINTU_BOARD_PULSED = 1, /* over: the tile has pulsed */
    POLZAINTU_BOARD_ENDED = 2   /* over: it has closed reading 2^42 - 1, and has not pulsed */
};

/* What a close answers. */
enum {
    POLZAINTU_WAITS = 0,  /* the next reading is open */
    POLZAINTU_PULSES = 1, /* the tile pulses now */
    POLZAINTU_DONE = 2    /* the run is over, and the tile does not pulse now */
};

/* A running tile; the four functions below alone write it. It may be copied: each copy goes on by
 * itself. */
typedef struct {
    polzaintu_settings settings;
    uint64_t count;      /* how many neighbours there are: 2 or 3 */
    uint64_t stamps[4];  /* of own, then of each neighbour, the reading at which it was first heard:
                            0 to 2^42 - 1, or POLZAINTU_SILENT; a place past the count stays so */
    uint64_t repeats[4]; /* of own, then of each neighbour, the pulses after its first: 0 to 65,535,
                            where it stays; a place past the count stays 0 */
    uint64_t reading;    /* the open reading, or the one whose close ended the run: 0 to 2^42 - 1 */
    uint64_t stage;      /* one of the three above */
} polzaintu_board;

/* Begins with nothing heard, at a first reading of 0 to 2^41 - 1; count is how many neighbours
 * there are. Writes the board.
 *
 * Answers 0; 1 to 9; 11 for the count, 12 for the reading. */
POLZAINTU_ANSWER uint32_t polzaintu_board_start(const polzaintu_settings *settings, uint64_t count,
                                                uint64_t reading, polzaintu_board *board);

/* A pulse comes in at the open reading; the sender is 0 for own, 1 to the count for a neighbour.
 * Writes the board: the sender's first pulse is its stamp, any other is a repeat and only counted
 * as one of that sender. Once the run is over every pulse is ignored, whoever sends it.
 *
 * Answers 0; POLZAINTU_UNFIT where *board was never started: a stage over 2, settings that don't
 * pass, a count other than 2 or 3, a stamp that is neither POLZAINTU_SILENT nor at most 2^42 - 1,
 * or a reading over 2^42 - 1; 54 for the sender. */
POLZAINTU_ANSWER uint32_t polzaintu_board_pulse(polzaintu_board *board, uint64_t sender);

/* Closes the open reading. Where at most one of own and the neighbours is unheard, there is a P, by
 * the rule of polzaintu_tile, the unheard one being silent. The tile pulses where the reading is
 * P + A or more. Otherwise, and while there is no P, the next reading opens; after reading 2^42 - 1
 * none does, and the run is over. Once it is, a close is ignored. Writes the board, and the answer:
 * one of the three above.
 *
 * Answers 0; POLZAINTU_UNFIT as above. */
POLZAINTU_ANSWER uint32_t polzaintu_board_close(polzaintu_board *board, uint32_t *answer);

/* n closes, one by one, in constant time. Writes the board, and the answer: POLZAINTU_PULSES where
 * the tile pulses at one of them, otherwise POLZAINTU_WAITS, or POLZAINTU_DONE where the run is over
 * after them. n may be 0, which leaves the board.
 *
 * Answers 0; POLZAINTU_UNFIT as above. */
POLZAINTU_ANSWER uint32_t polzaintu_board_close_many(polzaintu_board *board, uint64_t n,
                                                     uint32_t *answer);

/* ---- How far one broken tile reaches: §12.3, §15.1 to §15.3 ---- */

/* Writes B of a row's W times to gap: how far apart two neighbours pulse at most.
 *
 * Answers 0; 1 to 9; 21 a row that is not W long. */
POLZAINTU_ANSWER uint32_t polzaintu_widest_gap(const polzaintu_settings *settings,
                                               const uint64_t *row, size_t row_len, uint64_t *gap);

typedef struct {
    uint64_t ticks; /* no pulse differs by more */
    uint64_t first; /* no pulse of a column before this one differs */
    uint64_t last;  /* nor of a column after this one */
} polzaintu_range;

/* A broken tile, and how many rows below it a search looks. */
typedef struct {
    uint64_t gap;    /* B of the tile's row: 0 to 2^41 - 1 */
    uint64_t rows;   /* 1 to R */
    uint64_t column; /* the tile's: 0 to W - 1 */
} polzaintu_broken;

/* What a search has to cover so many rows below a broken tile: by how much a pulse can differ from
 * what it would be were that tile correct and all else equal, and in which columns. The ticks are
 * 2 * gap + 8h + (rows - 1), the columns those within as many steps from neighbour to neighbour as
 * there are rows. Writes the range.
 *
 * Answers 0; 1 to 9; POLZAINTU_UNFIT where gap, rows or column is outside its range. */
POLZAINTU_ANSWER uint32_t polzaintu_reach(const polzaintu_settings *settings,
                                          const polzaintu_broken *broken, polzaintu_range *range);

/* A broken tile by its row, and a later row in which a search looks. */
typedef struct {
    uint64_t gap;    /* B of the tile's row: 0 to 2^41 - 1 */
    uint64_t row;    /* the tile's */
    uint64_t later;  /* after the tile's row, up to R */
    uint64_t column; /* the tile's: 0 to W - 1 */
} polzaintu_broken_in_row;

/* The same, later - row rows below the tile.
 *
 * Answers 0; 1 to 9; POLZAINTU_UNFIT where gap, later or column is outside its range. */
POLZAINTU_ANSWER uint32_t polzaintu_reach_in_row(const polzaintu_settings *settings,
                                                 const polzaintu_broken_in_row *broken,
                                                 polzaintu_range *range);

/* The search range of a whole wall, row by row: all zeros before row 0. */
typedef struct {
    uint64_t row;     /* the row that is due, so R once all are surveyed */
    uint64_t gap;     /* B of the last row surveyed */
    uint64_t largest; /* the largest reach so far: of each row surveyed, that in row R */
} polzaintu_survey;

/* Surveys the row that is due; rows 0 to R - 1 are to be handed in, in their order, of a wall
 * without faults. Once survey->row is R, no pulse of the wall differs by more than
 * survey->largest, whichever one tile of it breaks. Writes the survey.
 *
 * Answers 0; 1 to 9; 21 a row that is not W long; POLZAINTU_UNFIT where survey->row is R or more,
 * or B of the row is over 2^41 - 1. */
POLZAINTU_ANSWER uint32_t polzaintu_survey_row(const polzaintu_settings *settings,
                                               const uint64_t *row, size_t row_len,
                                               polzaintu_survey *survey);

/* ---- A wall file, step by step: §9.1 to §9.8, §17.3, its letters §E3.6 ----
 *
 * The settings, row 0, each row 1 to R and the end of the file are a step each. docs/FORMAT.md has
 * the format. */

/* What is due. */
enum {
    POLZAINTU_SETTINGS_DUE = 0,
    POLZAINTU_START_DUE = 1, /* row 0 */
    POLZAINTU_ROW_DUE = 2,   /* the next row: the marks of the row before, then its own tiles */
    POLZAINTU_END_DUE = 3,   /* the end of the file */
    POLZAINTU_ENDED = 4,     /* nothing: the file has ended rightly */
    POLZAINTU_REFUSED = 5    /* nothing: the file is turned away */
};

/* How far a file has been taken; polzaintu_wall_new and polzaintu_wall_step alone write it. */
typedef struct {
    uint64_t stage;              /* what is due, one of the six above */
    polzaintu_settings settings; /* the file's, at stages 1 to 4, and at 5 where they were taken */
    uint64_t row;                /* the last row accepted, at stages 2 to 4; at 5 the number */
    uint64_t offset;             /* the bytes taken, at stages 1 to 4; at 5 the refusal's offset */
} polzaintu_wall;

/* Begins a file. */
void polzaintu_wall_new(polzaintu_wall *wall);

/* How many bytes the next step is to be given; fewer only where the file ends before. At most
 * POLZAINTU_DUE_MOST; 1 at stage 3, so that a byte too many is seen, and 0 at stages 4 and 5. */
POLZAINTU_ANSWER size_t polzaintu_wall_due(const polzaintu_wall *wall);

/* W at stages 1 to 3, otherwise 0. */
POLZAINTU_ANSWER size_t polzaintu_wall_width(const polzaintu_wall *wall);

/* Takes the due part of the file.
 *
 *   part    the bytes that are due
 *   row     the W times of the last row accepted; they are read at stage 2 alone
 *   next    W times, written at stage 1 with row 0 and at stage 2 with the next row
 *   letters W letters, written at stage 2 with those of the next row; row 0 has none
 *   offset  written where the file is turned away
 *
 * At stages 0, 4 and 5 both rows and the letters may have any length. The marks of a row come with
 * the row after it: once a step at stage 2 is taken, the (W + 7) / 8 bytes from part[3] on are the
 * marks of `row`, whose letters are those that the step before wrote. The last row has no marks.
 *
 * Answers 0 where the part is taken and *wall has moved on. At stage 4 nothing is taken and nothing
 * changes.
 *
 * Answers 1 to 9, 22 to 26, 41 to 45, or 53 where the file is turned away. Then *wall is at stage
 * 5, *offset is the byte offset that wallrun prints, and next and letters hold what they held. 23
 * can't come where *wall and `row` are as the steps of one file left them. Of each field the header
 * is looked at first, then whether the body is there, then what it holds; the contents of tags 3
 * and 4 are looked at together.
 *
 * At stage 5 it answers the same number again, whatever it is lent, and writes the same offset;
 * nothing else changes.
 *
 * Answers POLZAINTU_UNFIT, and nothing has changed, where part is longer than is due; where at
 * stages 1 to 3 row, next or letters is not W long; and where *wall is none that a file begun with
 * polzaintu_wall_new comes to: a stage over 5, a stage 5 whose number is 0 or not below 2^32 - 1,
 * and at stages 1 to 3 settings that don't pass, a row over R or an offset over 2^32 - 1. */
POLZAINTU_ANSWER uint32_t polzaintu_wall_step(polzaintu_wall *wall, const uint8_t *part,
                                              size_t part_len, const uint64_t *row, size_t row_len,
                                              uint64_t *next, size_t next_len, uint8_t *letters,
                                              size_t letters_len, uint64_t *offset);

static_assert(sizeof(size_t) == 8, "a count is a 64-bit word");
static_assert(sizeof(bool) == 1, "a bool is a byte");
static_assert(sizeof(double) == 8, "a double is a 64-bit floating number");
static_assert(sizeof(polzaintu_settings) == 7 * 8, "seven words");
static_assert(sizeof(polzaintu_stamps) == 5 * 8, "five words");
static_assert(sizeof(polzaintu_forwarded) == 4 * 8, "four words");
static_assert(sizeof(polzaintu_ends) == 2 * 8, "two words");
static_assert(sizeof(polzaintu_halves) == 2 * 8, "two words");
static_assert(sizeof(polzaintu_pair) == 2 * 8, "two words");
static_assert(sizeof(polzaintu_wide) == 3 * 8, "three words");
static_assert(sizeof(polzaintu_waves) == 66 * 8, "sixty-six words");
static_assert(sizeof(polzaintu_half_ticks) == 2 * 8, "two words");
static_assert(sizeof(polzaintu_half_gaps) == 2 * 8, "two words");
static_assert(sizeof(polzaintu_board) == 18 * 8, "eighteen words");
static_assert(sizeof(polzaintu_range) == 3 * 8, "three words");
static_assert(sizeof(polzaintu_broken) == 3 * 8, "three words");
static_assert(sizeof(polzaintu_broken_in_row) == 4 * 8, "four words");
static_assert(sizeof(polzaintu_survey) == 3 * 8, "three words");
static_assert(sizeof(polzaintu_wall) == 10 * 8, "ten words");

#ifdef __cplusplus
}
#endif

#endif

/* The calls on the last waves of a seam, with what each must leave. */
#ifndef WAVE_CALLS_H
#define WAVE_CALLS_H

#include "tests.h"

/* Byte for byte. */
bool same_waves(const polzaintu_waves *a, const polzaintu_waves *b);

/* A start, which passes. */
polzaintu_waves started(uint64_t n);

/* Hands in a wave, and answers the number. The number, the side and the halves must be those of the
 * seam, and a wave that is turned away must leave the waves as they were. */
uint32_t hand_in(polzaintu_waves *waves, uint64_t left, bool left_faulty, uint64_t right,
                 bool right_faulty);

/* The question is answered with these, in half ticks and in ticks, and leaves the waves. */
void ends_are(const polzaintu_waves *waves, int64_t largest, int64_t smallest);

/* The question is turned away with the number, and leaves all that is lent. */
void no_ends(const polzaintu_waves *waves, uint32_t number);

#endif

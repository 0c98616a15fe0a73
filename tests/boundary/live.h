/* Answers of the live call, compared to the last bit: +0.0 and -0.0 are equal, but not the same. */
#ifndef LIVE_H
#define LIVE_H

#include "torskavel.h"

#include <string.h>

static inline int same_bits(double a, double b) {
    return memcmp(&a, &b, sizeof a) == 0;
}

static inline int live_gives(
    struct torskavel_live_point_answer a, uint32_t number, size_t place, double numerator, double uncertainty) {
    return a.number == number && a.place == place && same_bits(a.numerator, numerator) &&
        same_bits(a.uncertainty, uncertainty);
}

#endif

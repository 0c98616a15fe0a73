/* A net that is built, and a block, in slices of the largest lengths, for tests that ask for points. */
#ifndef SCENE_H
#define SCENE_H

#include "expect.h"
#include "torskavel.h"

static uint32_t net[TORSKAVEL_MAX_PLACES];
static int32_t work[TORSKAVEL_MAX_PLACES];
static int16_t corrections[TORSKAVEL_MAX_ENTRIES];
static uint16_t uncertainties[TORSKAVEL_MAX_ENTRIES];

/* The net and the block's slices as they are lent: whole, or so many elements of them. */
#define LENT_PART(places, entries) net, (places), corrections, (entries), uncertainties, (entries)
#define LENT LENT_PART(TORSKAVEL_MAX_PLACES, TORSKAVEL_MAX_ENTRIES)

/* The unit with the net of v1 to v4, which is built, and a block of one correction and one uncertainty, with the origin
   0, 0, 0. */
static inline struct torskavel_unit unit_of(
    const uint8_t v[4], const uint16_t n[3], int16_t correction, uint16_t uncertainty) {
    uint8_t order[TORSKAVEL_MAX_ORDER];
    size_t length = 0;
    for (uint8_t d = 1; d <= 4; d++)
        for (unsigned i = 1; i < v[d - 1]; i++) order[length++] = d;
    const struct torskavel_unit_answer a = torskavel_build(
        torskavel_empty_unit(), order, length, net, TORSKAVEL_MAX_PLACES, work, TORSKAVEL_MAX_PLACES);
    EXPECT(a.number == 0);
    struct torskavel_unit unit = a.unit;
    unit.has_block = 1;
    unit.n1 = n[0];
    unit.n2 = n[1];
    unit.n3 = n[2];
    for (size_t i = 0; i < TORSKAVEL_MAX_ENTRIES; i++) {
        corrections[i] = correction;
        uncertainties[i] = uncertainty;
    }
    return unit;
}

/* The example of the specification's sections 8 to 11. */
static inline struct torskavel_unit example(void) {
    const uint8_t v[4] = {2, 1, 1, 1};
    const uint16_t n[3] = {4, 3, 2};
    const struct torskavel_unit unit = unit_of(v, n, 0, 3);
    corrections[0] = 10;
    corrections[1] = 20;
    corrections[18] = -30;
    corrections[23] = TORSKAVEL_NEVER_MEASURED;
    uncertainties[23] = 0;
    return unit;
}

static inline uint64_t denominator(size_t degree, uint64_t divisor) {
    uint64_t product = 1;
    for (size_t i = 1; i <= degree; i++) product *= i * divisor;
    return product;
}

static inline uint32_t largest_divisor(size_t degree, uint64_t largest) {
    uint32_t most = 1; /* from below, so that no product is past 64 bits */
    while (most < TORSKAVEL_MAX_DIVISOR && denominator(degree, most + 1) <= largest) most++;
    return most;
}

#endif

/* Points on the far faces of a block, where a coordinate is (ob + nb) * divisor: they are answered, a step further is
   refused, by the exact call and by the live call, in one call and placed first. What is expected was worked out by hand,
   or is the constant of a block. */
#include "expect.h"
#include "live.h"
#include "placings.h"
#include "scene.h"
#include "torskavel.h"

#include <stdlib.h>

#define OUTSIDE TORSKAVEL_REFUSED_OUTSIDE

/* What the exact and the live call answer, and whether the live call meets 15 before it looks at the point. */
struct both {
    struct torskavel_point_answer exact;
    struct torskavel_live_point_answer live;
    int meets_15;
};

static struct both answer(struct torskavel_unit unit, int32_t x, int32_t y, int32_t z, uint32_t d) {
    const uint64_t over = denominator(TORSKAVEL_DEGREE(unit.v1, unit.v2, unit.v3, unit.v4), d);
    const struct both a = {
        torskavel_answer(unit, LENT, x, y, z, d),
        torskavel_live_answer(unit, LENT, x, y, z, d, 1),
        over > TORSKAVEL_MAX_LIVE_DENOMINATOR,
    };
    EXPECT(in_two_calls(unit, x, y, z, d));
    return a;
}

static int live_is(struct both a, uint32_t number, size_t place, double n, double u) {
    if (a.meets_15) return live_gives(a.live, TORSKAVEL_REFUSED_LIVE_DENOMINATOR, 0, 0.0, 0.0);
    return live_gives(a.live, number, place, n, u);
}

static int gives(struct both a, int64_t numerator, uint64_t uncertainty, uint64_t over) {
    return a.exact.number == 0 && a.exact.place == 0 && a.exact.numerator == numerator &&
        a.exact.uncertainty == uncertainty && a.exact.denominator == over &&
        live_is(a, 0, 0, (double)numerator, (double)uncertainty);
}

static int refuses(struct both a, uint32_t number, size_t place) {
    return a.exact.number == number && a.exact.place == place && a.exact.numerator == 0 && a.exact.uncertainty == 0 &&
        a.exact.denominator == 0 && live_is(a, number, place, 0.0, 0.0);
}

/* The simple net reads at a whole position the entry one before it on every axis, and along an axis straight between two
   of them. The block has 100 at (0,0,0), -40 at (1,0,0), else 0. */
static void by_hand(void) {
    const uint8_t v[4] = {1, 1, 1, 1};
    const uint16_t n[3] = {2, 2, 2};
    const struct torskavel_unit unit = unit_of(v, n, 0, 5);
    corrections[0] = 100;
    corrections[1] = -40;
    EXPECT(gives(answer(unit, 2, 1, 1, 1), -40, 5, 1));
    EXPECT(gives(answer(unit, 1, 2, 1, 1), 0, 5, 1));
    EXPECT(gives(answer(unit, 2, 2, 2, 1), 0, 5, 1));
    EXPECT(gives(answer(unit, 3, 2, 2, 2), 60, 10, 2)); /* half way from 100 to -40 */
    EXPECT(gives(answer(unit, 4, 2, 2, 2), -80, 10, 2));
    EXPECT(gives(answer(unit, 8, 5, 4, 4), -120, 20, 4)); /* a quarter of the way from -40 to 0 */
    EXPECT(refuses(answer(unit, 0, 1, 1, 1), OUTSIDE, 0));
    EXPECT(refuses(answer(unit, 3, 1, 1, 1), OUTSIDE, 0));
    EXPECT(refuses(answer(unit, 5, 2, 2, 2), OUTSIDE, 0));
    EXPECT(refuses(answer(unit, 2, 3, 2, 1), OUTSIDE, 0));
}

/* On a face too every entry of the window is wanted and every share looked at, also where the weights make them count
   nothing. */
static void what_counts_nothing(void) {
    const uint8_t v[4] = {1, 1, 1, 1};
    const uint16_t n[3] = {3, 2, 2};
    const struct torskavel_unit unit = unit_of(v, n, -7, 3);
    corrections[0] = TORSKAVEL_NEVER_MEASURED; /* before the window, which is from (1,0,0) to (2,1,1) */
    EXPECT(gives(answer(unit, 3, 1, 1, 1), -7, 3, 1));
    corrections[1] = TORSKAVEL_NEVER_MEASURED; /* in the window; what counts is (2,0,0) alone */
    EXPECT(refuses(answer(unit, 3, 1, 1, 1), TORSKAVEL_REFUSED_UNMEASURED, 1));
    corrections[1] = -7;
    net[0] = 1; /* a share of (2,1,1) at the cell's low corner, whose weight is 0 */
    EXPECT(refuses(answer(unit, 3, 1, 1, 1), TORSKAVEL_REFUSED_SHARES, 0));
}

/* A constant block answers the constant on each far face, edge and corner, with the lowest coordinate inside on every
   other axis; a step past a face, or before the lowest, is refused. */
static void all_faces(struct torskavel_unit unit, const uint8_t v[4], const uint16_t n[3], uint32_t divisor) {
    const uint64_t over = denominator(TORSKAVEL_DEGREE(v[0], v[1], v[2], v[3]), divisor);
    const int32_t origin[3] = {unit.o1, unit.o2, unit.o3};
    for (unsigned faces = 0; faces < 8; faces++) {
        int32_t at[3];
        for (size_t b = 0; b < 3; b++)
            at[b] = (int32_t)divisor * (origin[b] + (faces >> b & 1 ? n[b] : v[b] + v[3] - 1));
        EXPECT(gives(answer(unit, at[0], at[1], at[2], divisor), -7 * (int64_t)over, 3 * over, over));
        for (size_t b = 0; b < 3; b++) {
            const int32_t step = faces >> b & 1 ? 1 : -1;
            at[b] += step;
            EXPECT(refuses(answer(unit, at[0], at[1], at[2], divisor), OUTSIDE, 0));
            at[b] -= step;
        }
    }
}

/* With the origin 0, about the middle, and at both ends of 16 bits. */
static void constant(const uint8_t v[4], const uint16_t n[3], uint32_t divisor) {
    const int16_t most = INT16_MAX, least = INT16_MIN;
    const int16_t origins[][3] = {{0, 0, 0}, {-3, -2, -1}, {most, least, 5}, {least, most, most}, {-1, 5, least}};
    struct torskavel_unit unit = unit_of(v, n, -7, 3);
    for (size_t i = 0; i < sizeof origins / sizeof origins[0]; i++) {
        unit.o1 = origins[i][0];
        unit.o2 = origins[i][1];
        unit.o3 = origins[i][2];
        all_faces(unit, v, n, divisor);
    }
}

/* A block with fewer entries than the extent on an axis has no point inside, its far faces neither. */
static void too_small(const uint8_t v[4], uint32_t divisor) {
    for (size_t b = 0; b < 3; b++) {
        uint16_t n[3] = {(uint16_t)(v[0] + v[3]), (uint16_t)(v[1] + v[3]), (uint16_t)(v[2] + v[3])};
        n[b]--;
        const struct torskavel_unit unit = unit_of(v, n, -7, 3);
        EXPECT(refuses(answer(unit, n[0] * divisor, n[1] * divisor, n[2] * divisor, divisor), OUTSIDE, 0));
    }
}

/* Nets of every degree, each direction repeated; blocks of just the extents and of more. */
static void constants(void) {
    for (uint8_t more = 0; more <= TORSKAVEL_MAX_ORDER; more++)
        for (uint8_t d = 0; d < 4; d++) {
            uint8_t v[4] = {1, 1, 1, 1};
            v[d] = (uint8_t)(v[d] + more - more / 2);
            v[(d + 1) % 4] = (uint8_t)(v[(d + 1) % 4] + more / 2);
            const uint16_t n[3] = {(uint16_t)(v[0] + v[3]), (uint16_t)(v[1] + v[3] + 1), (uint16_t)(v[2] + v[3] + 2)};
            const size_t degree = TORSKAVEL_DEGREE(v[0], v[1], v[2], v[3]);
            constant(v, n, 1);
            constant(v, n, largest_divisor(degree, TORSKAVEL_MAX_DENOMINATOR));
            constant(v, n, largest_divisor(degree, TORSKAVEL_MAX_LIVE_DENOMINATOR));
            too_small(v, 2);
        }
}

int main(void) {
    by_hand();
    what_counts_nothing();
    constants();
    return failures == 0 ? EXIT_SUCCESS : EXIT_FAILURE;
}

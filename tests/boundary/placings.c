/* Placing and valuing as two calls: placings by hand, which of them a unit takes, whatever their fields and bytes, and
   where 17 and 15 stand among the checks. What is expected was worked out by hand, or is what the one call answers. */
#include "placings.h"
#include "expect.h"
#include "live.h"
#include "scene.h"
#include "torskavel.h"

#include <stdlib.h>

#define IMPOSSIBLE TORSKAVEL_REFUSED_PLACING

typedef struct torskavel_placing placing;
typedef struct torskavel_unit unit;

/* Whether both valuing calls refuse a placing, with zeros and without a place. */
static int refuses(unit held, placing q, uint32_t number) {
    return exact_gives(torskavel_value(held, LENT, q), number, 0, 0, 0, 0) &&
        live_gives(torskavel_live_value(held, LENT, q, 1), number, 0, 0.0, 0.0) &&
        live_gives(torskavel_live_value(held, LENT, q, 0), number, 0, 0.0, 0.0);
}

static int is_impossible(unit held, placing q) {
    return refuses(held, q, IMPOSSIBLE);
}

/* Whether a placing is taken, and valued as its point is answered. */
static int is_possible(unit held, placing q) {
    const uint32_t d = q.l0 + q.l1 + q.l2 + q.l3, k[3] = {q.k1, q.k2, q.k3};
    int32_t x[3];
    if (torskavel_value(held, LENT, q).number == IMPOSSIBLE) return 0;
    for (uint32_t b = 1; b <= 3; b++)
        x[b - 1] = k[b - 1] * d + (q.p == b ? q.l1 + q.l2 + q.l3 : q.r == b ? q.l2 + q.l3 : q.l3);
    return valued_as(held, q, x[0], x[1], x[2], d);
}

/* The example of the specification: within a cell, on far faces of axis 1 and of axis 3, and before a gap. */
static void by_hand(void) {
    const unit held = example();
    const struct { int32_t x, y, z; placing placing; uint32_t number; size_t place; int n; unsigned u, over; } points[] = {
        {10, 5, 7, {2, 1, 1, 3, 1, 2, 1, 1, 1, 1}, 0, 0, 40, 96, 32},
        {16, 5, 7, {3, 1, 1, 1, 3, 2, 0, 1, 2, 1}, 0, 0, -30, 96, 32},
        {8, 4, 8, {2, 1, 1, 3, 1, 2, 0, 4, 0, 0}, 0, 0, 0, 96, 32},
        {12, 8, 4, {3, 2, 1, 1, 2, 3, 4, 0, 0, 0}, TORSKAVEL_REFUSED_UNMEASURED, 23, 0, 0, 0},
        {16, 12, 8, {3, 2, 1, 1, 2, 3, 0, 0, 0, 4}, TORSKAVEL_REFUSED_UNMEASURED, 23, 0, 0, 0},
    };
    for (size_t i = 0; i < sizeof points / sizeof points[0]; i++) {
        const placing q = points[i].placing;
        const uint32_t number = points[i].number;
        const size_t place = points[i].place;
        const struct torskavel_placing_answer a = torskavel_place(held, points[i].x, points[i].y, points[i].z, 4);
        EXPECT(a.number == 0 && a.place == 0 && is_placing(a.placing, q));
        const struct torskavel_point_answer exact = torskavel_value(held, LENT, q);
        EXPECT(exact_gives(exact, number, place, points[i].n, points[i].u, points[i].over));
        for (unsigned byte = 0; byte < 256; byte++) { /* 0 alone switches the uncertainty off */
            const struct torskavel_live_point_answer live = torskavel_live_value(held, LENT, q, (uint8_t)byte);
            EXPECT(live_gives(live, number, place, points[i].n, byte == 0 ? 0.0 : points[i].u));
        }
    }
    net[87] = 3;
    EXPECT(refuses(held, points[0].placing, TORSKAVEL_REFUSED_SHARES));
}

/* A divisor D has as many possible placings as points inside: by the axes of the example (2D+1)(2D+1)(D+1). With weights up
   to 3 all placings are met whose divisor is up to 3. */
static void as_many_as_points(void) {
    const unit held = example();
    size_t taken[4] = {0, 0, 0, 0}, refused[4] = {0, 0, 0, 0}, all[4] = {0, 0, 0, 0};
    for (uint32_t cell = 0; cell < 5 * 4 * 3; cell++)
        for (uint32_t axes = 0; axes < 5 * 5 * 5; axes++)
            for (uint32_t weights = 0; weights < 4 * 4 * 4 * 4; weights++) {
                const placing q = {cell % 5, cell / 5 % 4, cell / 20, (uint8_t)(axes % 5), (uint8_t)(axes / 5 % 5),
                    (uint8_t)(axes / 25), weights & 3, weights >> 2 & 3, weights >> 4 & 3, weights >> 6};
                const uint32_t d = q.l0 + q.l1 + q.l2 + q.l3;
                if (d > 3) continue;
                all[d]++;
                taken[d] += is_possible(held, q);
                refused[d] += is_impossible(held, q);
            }
    for (uint32_t d = 0; d <= 3; d++) {
        EXPECT(taken[d] == (d == 0 ? 0 : (2 * d + 1) * (2 * d + 1) * (d + 1)));
        EXPECT(taken[d] + refused[d] == all[d]);
    }
}

/* All points of some divisors, those outside beside them. */
static void all_points(void) {
    const unit held = example();
    for (uint32_t d = 1; d <= 5; d++) {
        size_t placed = 0, same = 0, all = 0;
        for (int32_t x = -1; x <= 4 * (int32_t)d + 1; x++)
            for (int32_t y = -1; y <= 3 * (int32_t)d + 1; y++)
                for (int32_t z = -1; z <= 2 * (int32_t)d + 1; z++) {
                    all++;
                    placed += torskavel_place(held, x, y, z, d).number == 0;
                    same += in_two_calls(held, x, y, z, d);
                }
        EXPECT(placed == (2 * d + 1) * (2 * d + 1) * (d + 1) && same == all);
    }
}

/* Each byte of a placing in memory takes each value: of so many the placing is possible. The cell may be 2 and 3 on axis 1,
   1 and 2 on axis 2, 1 on axis 3; without l1 the axis order 3, 1, 2 would be 1, 3, 2; the divisor is up to 4096. */
static void any_bytes(void) {
    const unit held = example();
    const placing within = {2, 1, 1, 3, 1, 2, 1, 1, 1, 1};
    const size_t right[sizeof within] = {2, 1, 1, 1, 2, 1, 1, 1, 1, 1, 1, 1, 1, 1, 1, 256, /* the padding */
        256, 16, 1, 1, 255, 16, 1, 1, 256, 16, 1, 1, 256, 16, 1, 1};
    for (size_t at = 0; at < sizeof within; at++) {
        size_t possible = 0, impossible = 0;
        for (unsigned byte = 0; byte < 256; byte++) {
            placing q = within;
            ((unsigned char *)&q)[at] = (unsigned char)byte;
            possible += is_possible(held, q);
            impossible += is_impossible(held, q);
        }
        EXPECT(possible == right[at] && impossible == 256 - right[at]);
    }
    for (unsigned byte = 0; byte < 256; byte++) {
        placing q;
        memset(&q, (int)byte, sizeof q);
        EXPECT(is_impossible(held, q));
    }
}

/* Numbers past what a narrower sum or product holds. Cut to 32, 16 or 8 bits, most of these are possible: the weights
   add up to 4, the cell is 2, 1, 1. */
static void past_32_bits(void) {
    const unit held = example();
    const placing within = {2, 1, 1, 3, 1, 2, 1, 1, 1, 1};
    const uint32_t top = UINT32_MAX, half = UINT32_C(1) << 31, quarter = UINT32_C(1) << 30;
    const uint32_t weights[][4] = {{top, 2, 1, 2}, {1, top, 2, 2}, {2, 1, top, 2}, {2, 1, 2, top}, {half, half, 2, 2},
        {2, half, half, 2}, {2, 2, half, half}, {quarter, quarter, quarter, quarter + 4}, {top - 2, 1, 1, 1},
        {1, top - 2, 1, 1}, {top, top, top, top}, {4, half, half, 0}, {top, 1, 0, 0}};
    const uint32_t more[] = {256, 65536, quarter, half, top, top - 1, top - 2};
    for (size_t i = 0; i < sizeof weights / sizeof weights[0]; i++) {
        placing q = within;
        q.l0 = weights[i][0];
        q.l1 = weights[i][1];
        q.l2 = weights[i][2];
        q.l3 = weights[i][3];
        EXPECT(is_impossible(held, q));
    }
    for (size_t i = 0; i < sizeof more / sizeof more[0]; i++) {
        const placing k1 = {2 + more[i], 1, 1, 3, 1, 2, 1, 1, 1, 1}, k2 = {2, 1 + more[i], 1, 3, 1, 2, 1, 1, 1, 1};
        const placing k3 = {2, 1, 1 + more[i], 3, 1, 2, 1, 1, 1, 1};
        EXPECT(is_impossible(held, k1) && is_impossible(held, k2) && is_impossible(held, k3));
    }
    const placing last = {top, top, top, 1, 2, 3, 1, 1, 1, 1};
    EXPECT(is_impossible(held, last));
}

/* The largest divisor of each degree is taken, one more is not, however the weights add up to it. The exact call takes
   larger ones than the live call, which refuses them by 15. */
static void divisors(void) {
    for (uint8_t degree = 1; degree <= TORSKAVEL_MAX_DEGREE; degree++) {
        const uint8_t v[4] = {degree, 1, 1, 1};
        const uint16_t n[3] = {11, 3, 3};
        const unit held = unit_of(v, n, -32767, 65535);
        const uint32_t most = largest_divisor(degree, TORSKAVEL_MAX_DENOMINATOR);
        const uint32_t live = largest_divisor(degree, TORSKAVEL_MAX_LIVE_DENOMINATOR);
        const uint32_t tried[] = {1, live, live + 1, most, most + 1, 4096, 4097, 65536, UINT32_MAX};
        for (size_t i = 0; i < sizeof tried / sizeof tried[0]; i++) {
            const uint32_t d = tried[i];
            const placing q[] = {{10, 2, 2, 1, 2, 3, d, 0, 0, 0}, {10, 2, 2, 2, 1, 3, 0, d, 0, 0},
                {10, 2, 2, 2, 3, 1, 0, 0, d, 0}, {10, 2, 2, 1, 2, 3, 0, 0, 0, d}};
            for (size_t j = 0; j < sizeof q / sizeof q[0]; j++) {
                if (d > most) {
                    EXPECT(is_impossible(held, q[j]));
                    continue;
                }
                const uint64_t over = denominator(degree, d);
                EXPECT(is_possible(held, q[j]));
                EXPECT(exact_gives(torskavel_value(held, LENT, q[j]), 0, 0, -32767 * (int64_t)over, 65535 * over, over));
                EXPECT((torskavel_live_value(held, LENT, q[j], 1).number == 15) == (d > live));
            }
        }
    }
}

/* The placing call: all that can be wrong at once, then mended check by check. What is refused has a placing of zeros,
   which is itself impossible. */
static void order_of_placing(void) {
    const uint8_t v[4] = {5, 1, 1, 1};
    const uint16_t n[3] = {7, 3, 3};
    const unit held = unit_of(v, n, 1, 1);
    const placing zeros = {0, 0, 0, 0, 0, 0, 0, 0, 0, 0}, corner = {6, 2, 2, 1, 2, 3, 0, 0, 0, 297};
    const struct { uint32_t number; int32_t x; uint32_t d; } steps[] = {{21, -1, 0}, {22, -1, 0}, {10, -1, 0},
        {10, -1, 4097}, {10, 0, UINT32_MAX}, {11, -1, 298}, {11, 0, 4096}, {12, -1, 297}, {12, 0, 297},
        {12, 5 * 297 - 1, 297}, {12, 7 * 297 + 1, 297}, {12, INT32_MAX, 297}, {12, INT32_MIN, 297}, {0, 7 * 297, 297}};
    for (size_t i = 0; i < sizeof steps / sizeof steps[0]; i++) {
        unit changed = held;
        const uint32_t number = steps[i].number, d = steps[i].d;
        changed.has_net = number != 21;
        changed.has_block = number != 21 && number != 22;
        const struct torskavel_placing_answer a = torskavel_place(changed, steps[i].x, 3 * d, 3 * d, d);
        EXPECT(a.number == number && a.place == 0 && is_placing(a.placing, number == 0 ? corner : zeros));
        EXPECT(in_two_calls(changed, steps[i].x, 3 * d, 3 * d, d));
    }
    EXPECT(is_impossible(held, zeros));
}

/* The valuing calls, likewise: 17 comes before the slices are looked at, and in a live call 15 too. */
static void order_of_valuing(void) {
    const uint8_t v[4] = {5, 1, 1, 1};
    const uint16_t n[3] = {7, 3, 3};
    const unit held = unit_of(v, n, 1, 1);
    const size_t places = TORSKAVEL_PLACES(5, 1, 1, 1), entries = TORSKAVEL_ENTRIES(7, 3, 3);
    const struct { uint32_t number, live; size_t places, entries; uint32_t k1, d; } steps[] = {
        {21, 21, 0, 0, 0, 0}, {22, 22, 0, 0, 0, 0}, {17, 17, 0, 0, 6, 0}, {17, 17, 0, 0, 6, 4097}, {17, 17, 0, 0, 6, 298},
        {17, 17, 0, 0, 4, 65}, {17, 17, 0, 0, 4, 64}, {17, 17, 0, 0, 7, 64}, {4, 15, 0, 0, 6, 297},
        {4, 15, places - 1, 0, 6, 65}, {4, 4, places - 1, 0, 6, 64}, {9, 15, places, entries - 1, 6, 65},
        {9, 9, places, entries - 1, 6, 64}, {13, 15, places, entries, 6, 65}, {13, 13, places, entries, 6, 64},
        {23, 23, places, entries, 6, 64}, {0, 0, places, entries, 6, 64},
    };
    for (size_t i = 0; i < sizeof steps / sizeof steps[0]; i++) {
        unit changed = held;
        const uint32_t number = steps[i].number, live = steps[i].live;
        const placing q = {steps[i].k1, 2, 2, 1, 2, 3, steps[i].d, 0, 0, 0};
        changed.has_net = number != 21;
        changed.has_block = number != 21 && number != 22;
        corrections[entries - 1] = number == 23 || number == 0 ? 1 : TORSKAVEL_NEVER_MEASURED;
        net[0] = number != 0; /* no share stands there in the defined net */
        const struct torskavel_point_answer exact =
            torskavel_value(changed, LENT_PART(steps[i].places, steps[i].entries), q);
        EXPECT(exact.number == number && exact.place == (number == 13 ? entries - 1 : 0));
        for (uint8_t flag = 0; flag < 2; flag++) {
            const struct torskavel_live_point_answer a =
                torskavel_live_value(changed, LENT_PART(steps[i].places, steps[i].entries), q, flag);
            EXPECT(a.number == live && a.place == (live == 13 ? entries - 1 : 0));
        }
    }
}

int main(void) {
    by_hand();
    as_many_as_points();
    all_points();
    any_bytes();
    past_32_bits();
    divisors();
    order_of_placing();
    order_of_valuing();
    return failures == 0 ? EXIT_SUCCESS : EXIT_FAILURE;
}

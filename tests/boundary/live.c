/* The live call: its floats to the last bit, its flag, where 15 stands among the checks, and the divisors
   that it takes. What is expected was worked out by hand, or is the constant of a block. */
#include "expect.h"
#include "live.h"
#include "scene.h"
#include "torskavel.h"

#include <stdlib.h>
#include <xmmintrin.h>

enum { ROUNDED = 0x20 };

/* The unit with the net of a degree, by repeats of direction 1. */
static struct torskavel_unit unit_of_degree(
    uint8_t degree, const uint16_t n[3], int16_t correction, uint16_t uncertainty) {
    const uint8_t v[4] = {degree, 1, 1, 1};
    return unit_of(v, n, correction, uncertainty);
}

typedef struct torskavel_live_point_answer answer;

static answer live(struct torskavel_unit unit, int32_t x, int32_t y, int32_t z, uint32_t d) {
    return torskavel_live_answer(unit, LENT, x, y, z, d, 1);
}

static int gives(answer a, double numerator, double uncertainty) {
    return live_gives(a, 0, 0, numerator, uncertainty);
}

static int refuses(answer a, uint32_t number, size_t place) {
    return live_gives(a, number, place, 0.0, 0.0);
}

static void by_hand(void) {
    const struct torskavel_unit unit = example();
    EXPECT(gives(live(unit, 10, 5, 7, 4), 40.0, 96.0));
    EXPECT(gives(live(unit, 16, 5, 7, 4), -30.0, 96.0)); /* on the far face of axis 1 */
    EXPECT(refuses(live(unit, 17, 5, 7, 4), TORSKAVEL_REFUSED_OUTSIDE, 0));
    EXPECT(refuses(live(unit, 7, 5, 7, 4), TORSKAVEL_REFUSED_OUTSIDE, 0));
    EXPECT(refuses(live(unit, 12, 8, 4, 4), TORSKAVEL_REFUSED_UNMEASURED, 23));
    net[87] = 3;
    EXPECT(refuses(live(unit, 10, 5, 7, 4), TORSKAVEL_REFUSED_SHARES, 0));
}

/* Every byte as the flag: 0 alone switches the uncertainty off, and no check goes by it. */
static void flags(void) {
    const struct torskavel_unit unit = example();
    for (unsigned byte = 0; byte < 256; byte++) {
        const uint8_t flag = (uint8_t)byte;
        answer a;
        a = torskavel_live_answer(unit, LENT_PART(175, 24), 10, 5, 7, 4, flag);
        EXPECT(gives(a, 40.0, byte == 0 ? 0.0 : 96.0));
        a = torskavel_live_answer(unit, net, 175, corrections, 24, uncertainties, 23, 10, 5, 7, 4, flag);
        EXPECT(refuses(a, TORSKAVEL_REFUSED_BLOCK_LENGTH, 0));
        a = torskavel_live_answer(unit, LENT_PART(175, 24), 12, 8, 4, 4, flag);
        EXPECT(refuses(a, TORSKAVEL_REFUSED_UNMEASURED, 23));
    }
}

/* N is +0.0: where all is 0, where opposites meet, and where negative numbers are weighed with 0. The simple
   net reads at a whole position the entry one before it on every axis, and half way between two half of both. */
static void zeros(void) {
    const uint16_t n[3] = {2, 2, 2};
    struct torskavel_unit unit = unit_of_degree(1, n, 0, 0);
    EXPECT(gives(live(unit, 1, 1, 1, 1), 0.0, 0.0));
    corrections[0] = 40;
    corrections[1] = -40;
    EXPECT(gives(live(unit, 3, 2, 2, 2), 0.0, 0.0));
    corrections[0] = -40;
    corrections[1] = 40;
    EXPECT(gives(live(unit, 3, 2, 2, 2), 0.0, 0.0));
    for (size_t entry = 0; entry < 8; entry++) {
        unit = unit_of_degree(1, n, -7, 5);
        corrections[entry] = 0;
        const int32_t x = 1 + (entry & 1), y = 1 + (entry >> 1 & 1), z = 1 + (entry >> 2 & 1);
        EXPECT(gives(live(unit, x, y, z, 1), 0.0, 5.0));
    }
}

/* The divisors that the header names: with them the largest numbers of a block are answered exactly; one more
   is refused, inside and outside, where the exact call goes on. */
static void divisors(void) {
    static const uint32_t largest[TORSKAVEL_MAX_DEGREE] = {4096, 4096, 2840, 275, 64, 23, 11, 6, 4};
    const uint16_t n[3] = {11, 3, 3};
    EXPECT(TORSKAVEL_MAX_LIVE_DENOMINATOR == UINT64_C(1) << 37);
    for (uint8_t degree = 1; degree <= TORSKAVEL_MAX_DEGREE; degree++) {
        const struct torskavel_unit unit = unit_of_degree(degree, n, -32767, 65535);
        const uint32_t d = largest[degree - 1], past = d + 1;
        const double over = (double)denominator(degree, d);
        EXPECT(denominator(degree, d) <= TORSKAVEL_MAX_LIVE_DENOMINATOR);
        EXPECT(gives(live(unit, 10 * d + d / 2, 2 * d + d / 3, 2 * d, d), -32767.0 * over, 65535.0 * over));
        EXPECT(gives(live(unit, 11 * d, 3 * d, 3 * d, d), -32767.0 * over, 65535.0 * over));
        EXPECT(refuses(live(unit, 11 * d + 1, 3 * d, 3 * d, d), TORSKAVEL_REFUSED_OUTSIDE, 0));
        const uint32_t number = past > TORSKAVEL_MAX_DIVISOR ? 10 : TORSKAVEL_REFUSED_LIVE_DENOMINATOR;
        EXPECT(number == 10 || denominator(degree, past) > TORSKAVEL_MAX_LIVE_DENOMINATOR);
        EXPECT(refuses(live(unit, 10 * past, 2 * past, 2 * past, past), number, 0));
        EXPECT(refuses(live(unit, 0, 0, 0, past), number, 0));
        const struct torskavel_point_answer exact =
            torskavel_answer(unit, LENT, 10 * past, 2 * past, 2 * past, past);
        EXPECT(number == 10 || (exact.number == 0 && exact.denominator == denominator(degree, past)));
    }
}

/* All that can be wrong at once, then mended check by check. */
static void order_of_checks(void) {
    const uint16_t n[3] = {7, 3, 3};
    const struct torskavel_unit held = unit_of_degree(5, n, 1, 1);
    const size_t places = TORSKAVEL_PLACES(5, 1, 1, 1), entries = TORSKAVEL_ENTRIES(7, 3, 3);
    struct { uint32_t number; size_t places, entries; int32_t x; uint32_t d; } steps[] = {
        {21, 0, 0, 0, 0}, {22, 0, 0, 0, 0}, {4, places - 1, 0, 0, 0}, {9, places, entries - 1, 0, 0},
        {10, places, entries, 0, 0}, {10, places, entries, 0, 4097}, {11, places, entries, 0, 298},
        {15, places, entries, 0, 297}, {15, places, entries, -1, 65}, {12, places, entries, -1, 64},
        {12, places, entries, 0, 64}, {13, places, entries, 384, 64}, {23, places, entries, 384, 64},
        {0, places, entries, 384, 64},
    };
    for (size_t i = 0; i < sizeof steps / sizeof steps[0]; i++) {
        struct torskavel_unit unit = held;
        const uint32_t number = steps[i].number, d = steps[i].d;
        unit.has_net = number != 21;
        unit.has_block = number != 21 && number != 22;
        corrections[entries - 1] = number == 23 || number == 0 ? 1 : TORSKAVEL_NEVER_MEASURED;
        net[0] = number != 0; /* no share stands there in the defined net */
        for (uint8_t flag = 0; flag < 2; flag++) {
            const answer a = torskavel_live_answer(unit, LENT_PART(steps[i].places, steps[i].entries),
                steps[i].x, 2 * d, 2 * d, d, flag);
            EXPECT(number == 0 ? a.number == 0 : refuses(a, number, number == 13 ? entries - 1 : 0));
        }
    }
}

int main(void) {
    _mm_setcsr(_mm_getcsr() & ~(unsigned)ROUNDED);
    by_hand();
    flags();
    zeros();
    divisors();
    order_of_checks();
    EXPECT((_mm_getcsr() & ROUNDED) == 0); /* no step of any call has rounded */
    return failures == 0 ? EXIT_SUCCESS : EXIT_FAILURE;
}

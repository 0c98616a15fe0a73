/* Placing and valuing, against the one call for the same point, exactly and live. */
#ifndef PLACINGS_H
#define PLACINGS_H

#include "live.h"
#include "scene.h"
#include "torskavel.h"

/* By its fields: the byte of padding has no promised value. */
static inline int is_placing(struct torskavel_placing a, struct torskavel_placing b) {
    return a.k1 == b.k1 && a.k2 == b.k2 && a.k3 == b.k3 && a.p == b.p && a.r == b.r && a.s == b.s && a.l0 == b.l0 &&
        a.l1 == b.l1 && a.l2 == b.l2 && a.l3 == b.l3;
}

static inline int exact_gives(
    struct torskavel_point_answer a, uint32_t number, size_t place, int64_t n, uint64_t u, uint64_t over) {
    return a.number == number && a.place == place && a.numerator == n && a.uncertainty == u && a.denominator == over;
}

/* Whether a placing is valued as the point is answered, by the whole slices, the uncertainty on and switched off. */
static inline int valued_as(
    struct torskavel_unit unit, struct torskavel_placing placing, int32_t x, int32_t y, int32_t z, uint32_t d) {
    const struct torskavel_point_answer exact = torskavel_answer(unit, LENT, x, y, z, d);
    int same = exact_gives(torskavel_value(unit, LENT, placing), exact.number, exact.place, exact.numerator,
        exact.uncertainty, exact.denominator);
    for (uint8_t flag = 0; flag < 2; flag++) {
        const struct torskavel_live_point_answer live = torskavel_live_answer(unit, LENT, x, y, z, d, flag);
        same &= live_gives(torskavel_live_value(unit, LENT, placing, flag), live.number, live.place, live.numerator,
            live.uncertainty);
    }
    return same;
}

/* Whether the two calls give what the one gives: the placing call its refusal, with a placing of zeros, or the
   valuing calls all the rest. */
static inline int in_two_calls(struct torskavel_unit unit, int32_t x, int32_t y, int32_t z, uint32_t d) {
    const struct torskavel_placing zeros = {0, 0, 0, 0, 0, 0, 0, 0, 0, 0};
    const struct torskavel_placing_answer a = torskavel_place(unit, x, y, z, d);
    if (a.number == 0) return a.place == 0 && valued_as(unit, a.placing, x, y, z, d);
    return exact_gives(torskavel_answer(unit, LENT, x, y, z, d), a.number, a.place, 0, 0, 0) &&
        is_placing(a.placing, zeros);
}

#endif

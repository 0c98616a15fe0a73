/* The records of torskavel.h, which takes this file in; below them the layouts that the archive has, for the compiler to
   compare its own with. */
#ifndef TORSKAVEL_LAYOUT_H
#define TORSKAVEL_LAYOUT_H

#include <stddef.h>
#include <stdint.h>

/*
 * What a unit holds: a net of multiplicities v1 to v4, and a block of sizes n1, n2, n3 with its origin o1, o2, o3, where
 * its low corner stands, counted in entries. The numbers themselves stand in the slices that the caller keeps and lends to
 * each call.
 *
 * Any bytes may stand in it, as after a bad read of a flash memory. has_net and has_block say by 1 that there is one; every
 * other byte counts as absent, and so do multiplicities and sizes that break the limits. The origin has no limits.
 */
struct torskavel_unit {
    uint8_t has_net;
    uint8_t v1, v2, v3, v4;
    uint8_t has_block;
    uint16_t n1, n2, n3;
    int16_t o1, o2, o3;
};

/*
 * The placing of a point: the cell k1, k2, k3 that it lies in, the axes p, r, s in the order of their remainders, numbered
 * 1, 2, 3, and the weights l0 to l3 of the tetrahedron's corners, whose sum is the divisor.
 *
 * Any values may stand in it: torskavel_value and torskavel_live_value refuse by 17 what no point of the unit has.
 */
struct torskavel_placing {
    uint32_t k1, k2, k3;
    uint8_t p, r, s;
    uint32_t l0, l1, l2, l3;
};

/* The answer of a call that changes the unit: torskavel_load sets its block half, sizes and origin together, the others
   its net half, and the other half is kept byte for byte. A refused call answers the unit as it was handed in, byte for
   byte. */
struct torskavel_unit_answer {
    uint32_t number;
    size_t place;
    struct torskavel_unit unit;
};

/* The answer of a placing call. A refused call answers a placing of zeros, which no unit takes. */
struct torskavel_placing_answer {
    uint32_t number;
    size_t place;
    struct torskavel_placing placing;
};

/* The answer of a point call or a valuing call: shift numerator / denominator and uncertainty / denominator, both in tenths
   of a micrometre, not reduced. A refused call answers zeros. */
struct torskavel_point_answer {
    uint32_t number;
    size_t place;
    int64_t numerator;
    uint64_t uncertainty;
    uint64_t denominator;
};

/* The answer of a live call or a live valuing call: N and U as floats, not divided by the denominator. A refused call
   answers +0.0 for both. */
struct torskavel_live_point_answer {
    uint32_t number;
    size_t place;
    double numerator;
    double uncertainty;
};

#if defined(__cplusplus) && __cplusplus >= 201103L
#define TORSKAVEL_ASSERT(fact) static_assert(fact, #fact)
#define TORSKAVEL_ALIGN(type) alignof(type)
#elif defined(__STDC_VERSION__) && __STDC_VERSION__ >= 201112L
#define TORSKAVEL_ASSERT(fact) _Static_assert(fact, #fact)
#define TORSKAVEL_ALIGN(type) _Alignof(type)
#endif
#ifdef TORSKAVEL_ASSERT
TORSKAVEL_ASSERT(sizeof(struct torskavel_unit) == 18 && TORSKAVEL_ALIGN(struct torskavel_unit) == 2);
TORSKAVEL_ASSERT(offsetof(struct torskavel_unit, has_net) == 0);
TORSKAVEL_ASSERT(offsetof(struct torskavel_unit, v1) == 1 && offsetof(struct torskavel_unit, v2) == 2);
TORSKAVEL_ASSERT(offsetof(struct torskavel_unit, v3) == 3 && offsetof(struct torskavel_unit, v4) == 4);
TORSKAVEL_ASSERT(offsetof(struct torskavel_unit, has_block) == 5 && offsetof(struct torskavel_unit, n1) == 6);
TORSKAVEL_ASSERT(offsetof(struct torskavel_unit, n2) == 8 && offsetof(struct torskavel_unit, n3) == 10);
TORSKAVEL_ASSERT(offsetof(struct torskavel_unit, o1) == 12 && offsetof(struct torskavel_unit, o2) == 14);
TORSKAVEL_ASSERT(offsetof(struct torskavel_unit, o3) == 16);
TORSKAVEL_ASSERT(sizeof(struct torskavel_placing) == 32 && TORSKAVEL_ALIGN(struct torskavel_placing) == 4);
TORSKAVEL_ASSERT(offsetof(struct torskavel_placing, k1) == 0 && offsetof(struct torskavel_placing, k2) == 4);
TORSKAVEL_ASSERT(offsetof(struct torskavel_placing, k3) == 8 && offsetof(struct torskavel_placing, p) == 12);
TORSKAVEL_ASSERT(offsetof(struct torskavel_placing, r) == 13 && offsetof(struct torskavel_placing, s) == 14);
TORSKAVEL_ASSERT(offsetof(struct torskavel_placing, l0) == 16 && offsetof(struct torskavel_placing, l1) == 20);
TORSKAVEL_ASSERT(offsetof(struct torskavel_placing, l2) == 24 && offsetof(struct torskavel_placing, l3) == 28);
TORSKAVEL_ASSERT(sizeof(struct torskavel_unit_answer) == 40 && TORSKAVEL_ALIGN(struct torskavel_unit_answer) == 8);
TORSKAVEL_ASSERT(offsetof(struct torskavel_unit_answer, number) == 0);
TORSKAVEL_ASSERT(offsetof(struct torskavel_unit_answer, place) == 8);
TORSKAVEL_ASSERT(offsetof(struct torskavel_unit_answer, unit) == 16);
TORSKAVEL_ASSERT(sizeof(struct torskavel_placing_answer) == 48);
TORSKAVEL_ASSERT(TORSKAVEL_ALIGN(struct torskavel_placing_answer) == 8);
TORSKAVEL_ASSERT(offsetof(struct torskavel_placing_answer, number) == 0);
TORSKAVEL_ASSERT(offsetof(struct torskavel_placing_answer, place) == 8);
TORSKAVEL_ASSERT(offsetof(struct torskavel_placing_answer, placing) == 16);
TORSKAVEL_ASSERT(sizeof(struct torskavel_point_answer) == 40 && TORSKAVEL_ALIGN(struct torskavel_point_answer) == 8);
TORSKAVEL_ASSERT(offsetof(struct torskavel_point_answer, number) == 0);
TORSKAVEL_ASSERT(offsetof(struct torskavel_point_answer, place) == 8);
TORSKAVEL_ASSERT(offsetof(struct torskavel_point_answer, numerator) == 16);
TORSKAVEL_ASSERT(offsetof(struct torskavel_point_answer, uncertainty) == 24);
TORSKAVEL_ASSERT(offsetof(struct torskavel_point_answer, denominator) == 32);
TORSKAVEL_ASSERT(sizeof(struct torskavel_live_point_answer) == 32);
TORSKAVEL_ASSERT(TORSKAVEL_ALIGN(struct torskavel_live_point_answer) == 8);
TORSKAVEL_ASSERT(offsetof(struct torskavel_live_point_answer, number) == 0);
TORSKAVEL_ASSERT(offsetof(struct torskavel_live_point_answer, place) == 8);
TORSKAVEL_ASSERT(offsetof(struct torskavel_live_point_answer, numerator) == 16);
TORSKAVEL_ASSERT(offsetof(struct torskavel_live_point_answer, uncertainty) == 24);
#undef TORSKAVEL_ASSERT
#undef TORSKAVEL_ALIGN
#endif

#endif

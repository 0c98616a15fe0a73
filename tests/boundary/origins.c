/* Blocks with an origin: which files set one, a block that is moved by it, coordinates at both ends of 32 bits, and what
   does not look at it. What is expected is what the block answers at the origin 0, or follows from its sizes. */
#include "expect.h"
#include "live.h"
#include "placings.h"
#include "scene.h"
#include "torskavel.h"

#include <stdlib.h>
#include <string.h>

#define OUTSIDE TORSKAVEL_REFUSED_OUTSIDE

typedef struct torskavel_unit unit;

static uint8_t file[TORSKAVEL_MAX_FILE];

static void put(size_t at, unsigned number) {
    file[at] = (uint8_t)(number & 255);
    file[at + 1] = (uint8_t)(number >> 8 & 255);
}

static struct torskavel_unit_answer load(unit held, size_t length) {
    return torskavel_load(
        held, file, length, corrections, TORSKAVEL_MAX_ENTRIES, uncertainties, TORSKAVEL_MAX_ENTRIES);
}

static unit moved(unit held, int o1, int o2, int o3) {
    held.o1 = (int16_t)o1;
    held.o2 = (int16_t)o2;
    held.o3 = (int16_t)o3;
    return held;
}

/* Every number of 16 bits as the origin of each axis: a load sets it, with the sizes, over whatever was there. */
static void every_origin(void) {
    const unit before = {1, 1, 1, 1, 1, 7, 300, 301, 302, -4, -5, -6};
    const int origin[3] = {-1, 258, INT16_MIN};
    memset(file, 0, sizeof file);
    for (size_t b = 0; b < 3; b++) put(2 * b, 1);
    for (size_t axis = 0; axis < 3; axis++)
        for (int o = INT16_MIN; o <= INT16_MAX; o++) {
            int right[3];
            for (size_t b = 0; b < 3; b++) {
                right[b] = b == axis ? o : origin[b];
                put(6 + 2 * b, (unsigned)right[b]);
            }
            const struct torskavel_unit_answer a = load(before, TORSKAVEL_FILE(1, 1, 1));
            EXPECT(a.number == 0 && a.unit.has_block == 1 && a.unit.n1 == 1 && a.unit.n2 == 1 && a.unit.n3 == 1);
            EXPECT(a.unit.o1 == right[0] && a.unit.o2 == right[1] && a.unit.o3 == right[2]);
        }
}

/* Files of the layout before 0.7.0, which have no origin, of all sizes that are allowed: none is taken. */
static void old_files(void) {
    const unit empty = torskavel_empty_unit();
    size_t refused = 0, all = 0;
    memset(file, 0, sizeof file);
    for (unsigned n1 = 1; n1 <= TORSKAVEL_MAX_SIZE; n1++)
        for (unsigned n2 = 1; n2 <= TORSKAVEL_MAX_SIZE; n2++)
            for (unsigned n3 = 1; n3 <= TORSKAVEL_MAX_SIZE; n3++) {
                const size_t entries = TORSKAVEL_ENTRIES(n1, n2, n3);
                if (entries > TORSKAVEL_MAX_ENTRIES) continue;
                put(0, n1);
                put(2, n2);
                put(4, n3);
                const struct torskavel_unit_answer a = load(empty, 6 + 4 * entries);
                const uint32_t right = entries == 1 ? TORSKAVEL_REFUSED_FILE_HEADER : TORSKAVEL_REFUSED_FILE_LENGTH;
                refused += a.number == right && a.place == 0 && memcmp(&a.unit, &empty, sizeof empty) == 0;
                all++;
            }
    EXPECT(refused == all && all > 10000);
}

/* A file of each length: 5 up to 11 bytes, whatever its sizes; past them 6 where they are not allowed, else 7. */
static void every_length(void) {
    const unit empty = torskavel_empty_unit();
    memset(file, 0, sizeof file);
    for (unsigned n1 = 0; n1 <= 2; n1++)
        for (size_t length = 0; length < 40; length++) {
            put(0, n1);
            put(2, 1);
            put(4, 1);
            const uint32_t past = n1 == 0 ? TORSKAVEL_REFUSED_SIZES : TORSKAVEL_REFUSED_FILE_LENGTH;
            const uint32_t number = load(empty, length).number;
            if (length < 12) EXPECT(number == TORSKAVEL_REFUSED_FILE_HEADER);
            else EXPECT(number == (n1 > 0 && length == 12 + 4 * n1 ? 0 : past));
        }
}

/* Whether the moved block gives at the moved point what the block at the origin 0 gives: exactly, live and placed. */
static int same_at(unit held, unit there, int32_t x, int32_t y, int32_t z, uint32_t d) {
    const int32_t step = (int32_t)d;
    const int32_t mx = x + there.o1 * step, my = y + there.o2 * step, mz = z + there.o3 * step;
    const struct torskavel_point_answer exact = torskavel_answer(held, LENT, x, y, z, d);
    const struct torskavel_placing_answer placed = torskavel_place(held, x, y, z, d);
    const struct torskavel_placing_answer moved_there = torskavel_place(there, mx, my, mz, d);
    int same = exact_gives(torskavel_answer(there, LENT, mx, my, mz, d), exact.number, exact.place, exact.numerator,
        exact.uncertainty, exact.denominator);
    for (uint8_t flag = 0; flag < 2; flag++) {
        const struct torskavel_live_point_answer live = torskavel_live_answer(held, LENT, x, y, z, d, flag);
        same &= live_gives(torskavel_live_answer(there, LENT, mx, my, mz, d, flag), live.number, live.place,
            live.numerator, live.uncertainty);
    }
    return same && moved_there.number == placed.number && moved_there.place == 0 &&
        is_placing(moved_there.placing, placed.placing) && in_two_calls(there, mx, my, mz, d);
}

/* All points of some divisors, those outside beside them, before the origin too, for origins on one axis and on all. */
static void moved_blocks(void) {
    const int most = INT16_MAX, least = INT16_MIN;
    const int origins[][3] = {{1, 0, 0}, {0, 1, 0}, {0, 0, 1}, {-1, 0, 0}, {0, -1, 0}, {0, 0, -1}, {-2, -1, -1},
        {most, least, -7}, {least, -7, most}, {-7, most, least}, {least, least, least}, {most, most, most}};
    const unit held = example();
    for (size_t i = 0; i < sizeof origins / sizeof origins[0]; i++) {
        const unit there = moved(held, origins[i][0], origins[i][1], origins[i][2]);
        size_t same = 0, all = 0;
        for (uint32_t d = 1; d <= 4; d++)
            for (int32_t x = -2; x <= 4 * (int32_t)d + 2; x++)
                for (int32_t y = -2; y <= 3 * (int32_t)d + 2; y++)
                    for (int32_t z = -2; z <= 2 * (int32_t)d + 2; z++) {
                        same += same_at(held, there, x, y, z, d);
                        all++;
                    }
        EXPECT(same == all);
        EXPECT(same_at(held, there, 4 * 4096, 3 * 4096, 2 * 4096, 4096)); /* the far corner, over the largest divisor */
        EXPECT(same_at(held, there, 4 * 4096, 3 * 4096, 2 * 4096 + 1, 4096));
        EXPECT(same_at(held, there, 2 * 4096, 4096, 4096, 4096));
        EXPECT(same_at(held, there, 2 * 4096 - 1, 4096, 4096, 4096));
    }
}

/* Both ends of 32 bits, and coordinates that are inside in their low 16, 24, 27 or 30 bits alone: outside, on whichever
   axis. */
static void far_away(unit there, uint32_t d) {
    const int32_t step = (int32_t)d, away[] = {1 << 16, 1 << 24, 1 << 27, 1 << 30};
    const int32_t inside[3] = {(there.o1 + 2) * step, (there.o2 + 1) * step, (there.o3 + 1) * step};
    EXPECT(torskavel_answer(there, LENT, inside[0], inside[1], inside[2], d).number == 0);
    for (size_t i = 0; i < 3 * 10; i++) {
        const size_t axis = i / 10, kind = i % 10;
        int32_t at[3] = {inside[0], inside[1], inside[2]};
        if (kind < 4) at[axis] += away[kind];
        else if (kind < 8) at[axis] -= away[kind - 4];
        else at[axis] = kind == 8 ? INT32_MAX : INT32_MIN;
        EXPECT(exact_gives(torskavel_answer(there, LENT, at[0], at[1], at[2], d), OUTSIDE, 0, 0, 0, 0));
        EXPECT(live_gives(torskavel_live_answer(there, LENT, at[0], at[1], at[2], d, 1), OUTSIDE, 0, 0.0, 0.0));
        EXPECT(in_two_calls(there, at[0], at[1], at[2], d));
    }
}

/* With origins at both ends of 16 bits, and the largest product of origin and divisor. */
static void ends_of_32_bits(void) {
    const int origins[] = {0, 1, -1, INT16_MAX, INT16_MIN};
    const unit held = example();
    for (size_t i = 0; i < 5; i++) {
        const unit there = moved(held, origins[i], origins[(i + 1) % 5], origins[i]);
        far_away(there, 1);
        far_away(there, 7);
        far_away(there, TORSKAVEL_MAX_DIVISOR);
    }
}

/* What a caller of 0.6.0 may still hand over: the compiler takes a coordinate from 2^31 on, and it is read as a negative
   number, which is outside at the origin 0 as it was before. */
static void old_coordinates(void) {
    const uint32_t from_2_31_on[] = {UINT32_C(2147483648), UINT32_C(4000000000), UINT32_MAX};
    const unit held = example();
    for (size_t i = 0; i < 3; i++) {
        const uint32_t x = from_2_31_on[i];
        EXPECT(exact_gives(torskavel_answer(held, LENT, x, 1, 1, 1), OUTSIDE, 0, 0, 0, 0));
        EXPECT(exact_gives(torskavel_answer(held, LENT, 2, x, 1, 1), OUTSIDE, 0, 0, 0, 0));
        EXPECT(torskavel_place(held, 2, 1, x, 1).number == OUTSIDE);
    }
    EXPECT(torskavel_answer(moved(held, -3, 0, 0), LENT, UINT32_MAX, 1, 1, 1).number == 0); /* -1, which is inside there */
}

/* A placing does not have the origin in it, so it is valued alike whatever the origin of the unit. */
static void valued_anywhere(void) {
    const int origins[] = {0, 1, -1, 64, INT16_MAX, INT16_MIN};
    const unit held = example();
    const struct torskavel_placing q = {2, 1, 1, 3, 1, 2, 1, 1, 1, 1}, none = {2, 1, 1, 3, 1, 1, 1, 1, 1, 1};
    for (size_t i = 0; i < 6; i++)
        for (size_t j = 0; j < 6; j++) {
            const unit there = moved(held, origins[i], origins[j], origins[(i + j) % 6]);
            EXPECT(exact_gives(torskavel_value(there, LENT, q), 0, 0, 40, 96, 32));
            EXPECT(live_gives(torskavel_live_value(there, LENT, q, 1), 0, 0, 40.0, 96.0));
            EXPECT(torskavel_value(there, LENT, none).number == TORSKAVEL_REFUSED_PLACING);
        }
}

int main(void) {
    every_origin();
    old_files();
    every_length();
    moved_blocks();
    ends_of_32_bits();
    old_coordinates();
    valued_anywhere();
    return failures == 0 ? EXIT_SUCCESS : EXIT_FAILURE;
}

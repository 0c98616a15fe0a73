/*
 * Torskavel for C99, C++11 and later: the calls of the archive that `rt lib --cpu x86-64` in crates/c_api writes,
 * crates/c_api/out/libc_api.a. Beside this file stand torskavel_layout.h, with the records, and torskavel_limits.h.
 *
 * A call answers or refuses by number, whatever numbers, bytes, counts, unit record and placing it is handed; a refused
 * call leaves the record and every slice as they were, but for the two work slices of an inspection.
 * docs/SPECIFICATION.md has all.
 *
 * For users of 0.6.0. 0.7.0 gives a block an origin, o1, o2, o3:
 *
 *   - Recompile all that calls the library: the unit record has grown from 12 bytes to 18, and coordinates are signed. A
 *     caller that is not compiled again still links, and then hands over garbage.
 *   - Convert the field files that were written for an earlier version: put six zero bytes behind the sizes, as by
 *     (head -c 6 OLD; head -c 6 /dev/zero; tail -c +7 OLD) > NEW
 *     A file without them is refused, by 5 where it has one entry, else by 7. So is a new file that lost its last six
 *     bytes, which converted may load and give wrong figures: copy a refused file again before you convert it.
 *   - Programs that write field files must write the origin. Buffers of 6 + 4n or 16390 bytes for a file must grow:
 *     TORSKAVEL_FILE, TORSKAVEL_MAX_FILE. Unit records that you have stored take six zero bytes at their end.
 *   - Keep your coordinates: with the origin 0, 0, 0 every call answers as it did. C still takes a coordinate from 2^31
 *     on, as a uint32_t of 4000000000, and hands it over as a negative number: at the origin 0 it meets 12 as before.
 *
 * What the archive is:
 *
 *   - Code for x86-64 Linux with its C calling convention, SSE2 and no later extension, position independent. A call wants
 *     the stack pointer aligned to 16 bytes, and uses the 128 bytes below it (the red zone): an interrupt handler that
 *     runs on the same stack must leave them alone.
 *   - At most TORSKAVEL_MAX_CODE bytes of code and constants, no data that is written, no heap. Nothing is kept between
 *     calls. It needs no functions from outside but memset and memcpy.
 *   - A call takes at most TORSKAVEL_MAX_STACK bytes of stack, its arguments and return address and the red zone
 *     included, what memset and memcpy take not included. Only the calls that answer or value a point take as much, for
 *     its blended numbers; torskavel_build, torskavel_inspect and torskavel_place take at most TORSKAVEL_MAX_STACK_BUILD;
 *     torskavel_empty_unit, torskavel_factory and torskavel_load at most TORSKAVEL_MAX_STACK_LOAD.
 *
 * What the caller owes, since no call can test it. A slice is two arguments: a pointer to its first element and the count
 * of its elements (not bytes).
 *
 *   - The pointer is aligned for its elements, and all counted elements may be read and, where the pointer is not to
 *     const, written until the call returns. Where the count is 0 the pointer is not looked at: it may be NULL.
 *   - Every counted element has been given a value: memory fresh from malloc has not, from calloc it has.
 *   - A slice whose pointer is not to const overlaps no other slice of the same call. Slices only read may overlap.
 *   - While a call runs nobody else writes to its slices, and nobody reads those that it writes: they are half-written
 *     until it returns. Calls that keep to this may run at the same time, as points over one net and one block.
 *   - While torskavel_live_answer or torskavel_live_value runs the processor rounds to nearest, as at a program's start:
 *     bits 13 and 14 of MXCSR are 0. No step of them rounds, but the sign of a sum that is zero depends on these bits. No
 *     other call uses floats.
 *
 * The padding of an answer has no promised value: compare fields, not bytes. A unit has no padding. A placing has one byte
 * of it, behind s: no call looks at it, and it need not have been given a value.
 */
#ifndef TORSKAVEL_H
#define TORSKAVEL_H

#include <stddef.h>
#include <stdint.h>

#include "torskavel_layout.h"
#include "torskavel_limits.h"

#ifdef __cplusplus
extern "C" {
#endif

#define TORSKAVEL_VERSION_MAJOR 0
#define TORSKAVEL_VERSION_MINOR 7
#define TORSKAVEL_VERSION_PATCH 0

/*
 * The number of an answer: 0 where the call was not refused, else the first that applies, in the order that stands at each
 * call. The place of an answer is what is said here, and 0 where nothing is said.
 */
enum torskavel_refused {
    TORSKAVEL_REFUSED_NOT = 0,
    TORSKAVEL_REFUSED_ORDER_LENGTH = 1,    /* the order is longer than 8 */
    TORSKAVEL_REFUSED_ORDER_BYTE = 2,      /* a byte of the order is not 1 to 4; place: the first such byte's position */
    TORSKAVEL_REFUSED_MULTIPLICITIES = 3,  /* a multiplicity is 0, or their sum is above 12 */
    TORSKAVEL_REFUSED_NET_LENGTH = 4,      /* the net slice or a work slice is shorter than W1 * W2 * W3 */
    TORSKAVEL_REFUSED_FILE_HEADER = 5,     /* the file is under 12 bytes */
    TORSKAVEL_REFUSED_SIZES = 6,           /* a size is not 1 to 64, or their product is above 4096 */
    TORSKAVEL_REFUSED_FILE_LENGTH = 7,     /* the file's length is not 12 + 4 * n1 * n2 * n3 */
    TORSKAVEL_REFUSED_UNCERTAINTY = 8,     /* an uncertainty of the file is above 32767; place: the lowest such entry */
    TORSKAVEL_REFUSED_BLOCK_LENGTH = 9,    /* a block slice is shorter than n1 * n2 * n3 */
    TORSKAVEL_REFUSED_DIVISOR = 10,        /* the divisor is 0 or above 4096 */
    TORSKAVEL_REFUSED_DENOMINATOR = 11,    /* the denominator m! * divisor^m would be above 2^48 */
    TORSKAVEL_REFUSED_OUTSIDE = 12,        /* the point is not inside the block; none before its origin is */
    TORSKAVEL_REFUSED_UNMEASURED = 13,     /* the point needs an entry that was never measured; place: the lowest such */
    TORSKAVEL_REFUSED_NET_DIFFERS = 14,    /* the net is not the defined one; place: the lowest index that differs */
    TORSKAVEL_REFUSED_LIVE_DENOMINATOR = 15, /* in the live calls alone: m! * divisor^m is above 2^37 */
    TORSKAVEL_REFUSED_UNCERTAIN_GAP = 16,  /* the uncertainty of a gap in the file is not 0; place: the lowest such entry */
    TORSKAVEL_REFUSED_PLACING = 17,        /* no point of the unit has the placing that was handed in */
    TORSKAVEL_REFUSED_NO_NET = 21,         /* the unit has no net */
    TORSKAVEL_REFUSED_NO_BLOCK = 22,       /* the unit has no block */
    TORSKAVEL_REFUSED_SHARES = 23          /* no net that answers this point was lent: its shares do not add up to m! */
};

/* The unit that holds neither net nor block: all zeros. */
struct torskavel_unit torskavel_empty_unit(void);

/*
 * Builds the net of an order, a list of directions 1 to 4: each byte is one repeat of its direction, on top of
 * multiplicities 1, 1, 1, 1. Refused by 1, 2, 4.
 *
 * The net is written to the first W1 * W2 * W3 elements of net; those past it stay as they are. work needs as many
 * elements, also for the empty order, and holds nothing of use afterwards; a refused build writes to neither.
 */
struct torskavel_unit_answer torskavel_build(
    struct torskavel_unit unit,
    const uint8_t *order, size_t order_length,
    uint32_t *net, size_t net_length,
    int32_t *work, size_t work_length);

/*
 * Copies the net of the factory shape, multiplicities 2, 2, 2, 1, from a table of the library: the numbers that a build by
 * the order 1, 3, 2 writes, and the unit that it answers. Refused by 4.
 *
 * The net is written to the first TORSKAVEL_FACTORY_PLACES elements of net, whatever they held; those past it stay as they
 * are. Where there are fewer, none is written. No work slice is needed.
 */
struct torskavel_unit_answer torskavel_factory(struct torskavel_unit unit, uint32_t *net, size_t net_length);

/*
 * Inspects a net from elsewhere: whether the first W1 * W2 * W3 elements of net are the defined net of four
 * multiplicities. Where they are, the unit answered has that net. Refused by 3, 4, 14.
 *
 * defined and work need W1 * W2 * W3 elements each, and hold nothing of use afterwards, also where the call was refused.
 */
struct torskavel_unit_answer torskavel_inspect(
    struct torskavel_unit unit,
    uint8_t v1, uint8_t v2, uint8_t v3, uint8_t v4,
    const uint32_t *net, size_t net_length,
    uint32_t *defined, size_t defined_length,
    int32_t *work, size_t work_length);

/*
 * Loads a field file: n1, n2, n3, then the origin o1, o2, o3 (signed, two's complement), then n1 * n2 * n3 corrections
 * (signed likewise), then as many uncertainties, all in 16 bits, the low byte first. So corrections begin at byte 12. The
 * origin may be any. Refused by 5, 6, 7, 8, 16, 9, in this order.
 *
 * The numbers are written to the first n1 * n2 * n3 elements of corrections and of uncertainties; those past them stay as
 * they are. A refused load writes to neither.
 */
struct torskavel_unit_answer torskavel_load(
    struct torskavel_unit unit,
    const uint8_t *file, size_t file_length,
    int16_t *corrections, size_t corrections_length,
    uint16_t *uncertainties, size_t uncertainties_length);

/*
 * Answers the point (x / divisor, y / divisor, z / divisor), counted in entries, from the lent net and block. The unit's
 * origin says where the block stands: its low corner is at (o1, o2, o3). Refused by 21, 22, 4, 9, 10, 11, 12, 13, 23, in
 * this order. Writes to no slice.
 *
 * On axis b a coordinate is read from the origin: t is the coordinate less ob * divisor, in unbounded numbers. Where t is
 * negative the point is before the origin and refused by 12. k is t divided by the divisor and rounded down; but k is
 * nb - 1 where t is nb * divisor, the far face. The point is inside where vb + v4 - 1 <= k <= nb - 1. So inside are the
 * coordinates from (ob + vb + v4 - 1) * divisor to (ob + nb) * divisor, both included; where nb is less than vb + v4,
 * none.
 *
 * 8 and 16 are checks of files alone: lent uncertainties may be any, up to 65535. That of a gap is not looked at and
 * changes no answer, so a block that an earlier version has loaded keeps working.
 */
struct torskavel_point_answer torskavel_answer(
    struct torskavel_unit unit,
    const uint32_t *net, size_t net_length,
    const int16_t *corrections, size_t corrections_length,
    const uint16_t *uncertainties, size_t uncertainties_length,
    int32_t x, int32_t y, int32_t z, uint32_t divisor);

/*
 * The live call: answers a point with the numbers of the exact call, torskavel_answer, as floats. Refused by
 * 21, 22, 4, 9, 10, 11, 15, 12, 13, 23, in this order. Writes to no slice.
 *
 * numerator is N and uncertainty is U, exactly; zero is +0.0, all 64 bits 0. They are numerators and not quotients: divide
 * them by m! * divisor^m, which is the same for all points of one unit and divisor, for tenths of a micrometre.
 *
 * with_uncertainty of 0 switches the uncertainty off, which is then answered as +0.0; every other byte leaves it on. It
 * changes neither N nor any check: the slice of uncertainties is wanted all the same.
 *
 * 15 is the only check that the exact call has not, so what is answered here is answered there, with the same numbers. By
 * 10, 11 and 15 the largest divisor for the degrees 1 to 9 is 4096, 4096, 2840, 275, 64, 23, 11, 6, 4.
 */
struct torskavel_live_point_answer torskavel_live_answer(
    struct torskavel_unit unit,
    const uint32_t *net, size_t net_length,
    const int16_t *corrections, size_t corrections_length,
    const uint16_t *uncertainties, size_t uncertainties_length,
    int32_t x, int32_t y, int32_t z, uint32_t divisor,
    uint8_t with_uncertainty);

/*
 * The placing call: places a point, for torskavel_value and torskavel_live_value. One placing serves any number of blocks
 * of these sizes and this origin, say those of the two axes of a stage. Refused by 21, 22, 10, 11, 12, in this order, as
 * torskavel_answer refuses the point where neither 4 nor 9 applies.
 */
struct torskavel_placing_answer torskavel_place(
    struct torskavel_unit unit, int32_t x, int32_t y, int32_t z, uint32_t divisor);

/*
 * The valuing call: answers what torskavel_answer answers at the point that a placing stands for, from the lent net and
 * block. Refused by 21, 22, 17, 4, 9, 13, 23, in this order. Writes to no slice.
 *
 * The divisor is l0 + l1 + l2 + l3. The remainders are l1 + l2 + l3 on axis p, l2 + l3 on axis r and l3 on axis s, and the
 * point's coordinate on axis b is (ob + kb) * divisor + its remainder. The origin is not in a placing, and is not looked
 * at here. 17 is for a placing that torskavel_place gives for no coordinates and divisor of this unit. It gives exactly
 * those with
 *
 *   - p, r, s: 1, 2, 3 in some order, p < r where l1 is 0 and r < s where l2 is 0;
 *   - a divisor from 1 to 4096, and m! * divisor^m up to 2^48;
 *   - on each axis b vb + v4 - 1 <= kb <= nb - 1, and kb = nb - 1 where the remainder is the divisor (the far face).
 *
 * So a placing from a unit with other multiplicities, sizes or origin is refused, or stands for the same coordinates here,
 * each read from its unit's origin.
 */
struct torskavel_point_answer torskavel_value(
    struct torskavel_unit unit,
    const uint32_t *net, size_t net_length,
    const int16_t *corrections, size_t corrections_length,
    const uint16_t *uncertainties, size_t uncertainties_length,
    struct torskavel_placing placing);

/*
 * The live valuing call: what torskavel_live_answer answers at the point that a placing stands for. Refused by
 * 21, 22, 17, 15, 4, 9, 13, 23, in this order: 15 comes before the lengths of the slices here. Writes to no slice.
 */
struct torskavel_live_point_answer torskavel_live_value(
    struct torskavel_unit unit,
    const uint32_t *net, size_t net_length,
    const int16_t *corrections, size_t corrections_length,
    const uint16_t *uncertainties, size_t uncertainties_length,
    struct torskavel_placing placing,
    uint8_t with_uncertainty);

#ifdef __cplusplus
}
#endif

#endif

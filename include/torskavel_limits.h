/* The limits and sizes of torskavel.h, which takes this file in. */
#ifndef TORSKAVEL_LIMITS_H
#define TORSKAVEL_LIMITS_H

#include <stddef.h>
#include <stdint.h>

/* The most bytes of code and constants, and of stack; torskavel.h says for which calls. */
#define TORSKAVEL_MAX_CODE 28672
#define TORSKAVEL_MAX_STACK 12288
#define TORSKAVEL_MAX_STACK_BUILD 2048
#define TORSKAVEL_MAX_STACK_LOAD 288

/* The limits: an order's bytes; the sum of the four multiplicities, each at least 1; a net's degree and places; a block's
   size on an axis and its entries; a file's bytes, and an uncertainty in it; a point's divisor, its denominator, and its
   denominator in a live call. */
#define TORSKAVEL_MAX_ORDER 8
#define TORSKAVEL_MAX_MULTIPLICITY_SUM 12
#define TORSKAVEL_MAX_DEGREE 9
#define TORSKAVEL_MAX_PLACES 753571
#define TORSKAVEL_MAX_SIZE 64
#define TORSKAVEL_MAX_ENTRIES 4096
#define TORSKAVEL_MAX_FILE 16396
#define TORSKAVEL_MAX_UNCERTAINTY 32767
#define TORSKAVEL_MAX_DIVISOR 4096
#define TORSKAVEL_MAX_DENOMINATOR UINT64_C(281474976710656)
#define TORSKAVEL_MAX_LIVE_DENOMINATOR UINT64_C(137438953472)

/* The correction of a gap, an entry that was never measured. In a file its uncertainty is 0. */
#define TORSKAVEL_NEVER_MEASURED (-32768)

/* For multiplicities within the limits, the degree m of their net, the places on an axis of its box, and its places
   W1 * W2 * W3. Place (x, y, z) has the index x + W1 * (y + W2 * z). The factory shape is 2, 2, 2, 1. */
#define TORSKAVEL_DEGREE(v1, v2, v3, v4) ((size_t)(v1) + (size_t)(v2) + (size_t)(v3) + (size_t)(v4) - 3)
#define TORSKAVEL_WIDTH(degree, vb, v4) ((size_t)(degree) * ((size_t)(vb) + (size_t)(v4)) + 1)
#define TORSKAVEL_PLACES(v1, v2, v3, v4) \
    (TORSKAVEL_WIDTH(TORSKAVEL_DEGREE(v1, v2, v3, v4), v1, v4) * \
     TORSKAVEL_WIDTH(TORSKAVEL_DEGREE(v1, v2, v3, v4), v2, v4) * \
     TORSKAVEL_WIDTH(TORSKAVEL_DEGREE(v1, v2, v3, v4), v3, v4))
#define TORSKAVEL_FACTORY_PLACES 2197

/* For three sizes, the entries of their block and the bytes of its file. Entry (j1, j2, j3) has the index
   j1 + n1 * (j2 + n2 * j3). */
#define TORSKAVEL_ENTRIES(n1, n2, n3) ((size_t)(n1) * (size_t)(n2) * (size_t)(n3))
#define TORSKAVEL_FILE(n1, n2, n3) (12 + 4 * TORSKAVEL_ENTRIES(n1, n2, n3))

#endif

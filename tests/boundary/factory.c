/* torskavel_factory: what it writes and what it leaves, for every length of the slice and any bytes of the
   record. The numbers are those of a build by the order 1, 3, 2, and some that were worked out by hand. */
#include "expect.h"
#include "live.h"
#include "torskavel.h"

#include <stdlib.h>
#include <string.h>

#define PLACES TORSKAVEL_FACTORY_PLACES
#define SHORT TORSKAVEL_REFUSED_NET_LENGTH

/* Elements before and after the slice that must stay. */
enum { BESIDE = 64, ENTRIES = TORSKAVEL_ENTRIES(3, 3, 3) };

static const uint8_t order[] = {1, 3, 2};
static uint32_t memory[BESIDE + PLACES + BESIDE], *const net = memory + BESIDE;
static uint32_t built[PLACES], defined[PLACES];
static int32_t work[PLACES];

/* The record with the factory shape in its net half. */
static struct torskavel_unit shaped(struct torskavel_unit unit) {
    unit.has_net = 1;
    unit.v1 = unit.v2 = unit.v3 = 2;
    unit.v4 = 1;
    return unit;
}

static int gives(struct torskavel_unit_answer a, uint32_t number, struct torskavel_unit unit) {
    return a.number == number && a.place == 0 && memcmp(&a.unit, &unit, sizeof unit) == 0;
}

/* Other at each element, and larger than any number of the net. */
static uint32_t paint(size_t i) {
    return UINT32_C(0xa5000000) + (uint32_t)i;
}

/* Calls with so many elements of painted memory: the first PLACES must then hold the net, or none where there
   are fewer, and all others the paint. */
static int copies(struct torskavel_unit unit, size_t length) {
    const size_t first = BESIDE, past = length < PLACES ? first : first + PLACES;
    int right = 1;
    for (size_t i = 0; i < sizeof memory / sizeof memory[0]; i++) memory[i] = paint(i);
    const struct torskavel_unit_answer a = torskavel_factory(unit, net, length);
    for (size_t i = 0; i < sizeof memory / sizeof memory[0]; i++)
        right &= memory[i] == (i >= first && i < past ? built[i - first] : paint(i));
    return right && (length < PLACES ? gives(a, SHORT, unit) : gives(a, 0, shaped(unit)));
}

static void every_length(void) {
    const struct torskavel_unit held = {1, 3, 1, 1, 2, 1, 4, 3, 3, -2, 300, 7};
    size_t length = 0;
    EXPECT(TORSKAVEL_PLACES(2, 2, 2, 1) == PLACES);
    while (length <= PLACES + BESIDE && copies(held, length)) length++;
    EXPECT(length == PLACES + BESIDE + 1);
    EXPECT(gives(torskavel_factory(held, NULL, 0), SHORT, held));
}

/* A record of which each byte takes each value, and one of the same byte throughout: the block half is kept,
   whatever the net half held; a refused call keeps both. The build answers the same unit. */
static void any_bytes(void) {
    const struct torskavel_unit held = {1, 3, 1, 1, 2, 1, 4, 3, 3, -2, 300, 7};
    size_t copied = 0, refused = 0, as_built = 0;
    for (size_t at = 0; at <= sizeof held; at++)
        for (unsigned byte = 0; byte < 256; byte++) {
            struct torskavel_unit unit = held;
            if (at < sizeof unit) ((unsigned char *)&unit)[at] = (unsigned char)byte;
            if (at == sizeof unit) memset(&unit, (int)byte, sizeof unit);
            copied += copies(unit, PLACES);
            refused += copies(unit, PLACES - 1);
            as_built += gives(torskavel_build(unit, order, 3, built, PLACES, work, PLACES), 0, shaped(unit));
        }
    EXPECT(copied == 19 * 256);
    EXPECT(refused == 19 * 256);
    EXPECT(as_built == 19 * 256);
}

/* The copied net in use, for a unit that was loaded before: the inspector passes it, a point is answered. At
   the position 2, 2, 2 from the origin, which is -2, 1, 0, entry (1,1,1) counts 6 of 24, the net's number at
   (4,4,4), and entry (0,1,1) counts 2, that at (8,4,4). */
static void in_use(void) {
    static const uint8_t file[TORSKAVEL_FILE(3, 3, 3)] = {
        3, 0, 3, 0, 3, 0, 0xfe, 0xff, 1, 0, 0, 0, [12 + 2 * 12] = 40, [12 + 2 * 13] = 100};
    const struct torskavel_unit empty = torskavel_empty_unit();
    int16_t corrections[ENTRIES];
    uint16_t uncertainties[ENTRIES];
    struct torskavel_unit_answer a =
        torskavel_load(empty, file, sizeof file, corrections, ENTRIES, uncertainties, ENTRIES);
    EXPECT(a.number == 0);
    for (size_t i = 0; i < ENTRIES; i++) uncertainties[i] = 5;
    a = torskavel_factory(a.unit, net, PLACES);
    EXPECT(a.number == 0 && net[6 + 13 * (6 + 13 * 6)] == 12);
    const struct torskavel_unit unit = a.unit;
    EXPECT(gives(torskavel_inspect(unit, 2, 2, 2, 1, net, PLACES, defined, PLACES, work, PLACES), 0, unit));
    const struct torskavel_point_answer exact =
        torskavel_answer(unit, net, PLACES, corrections, ENTRIES, uncertainties, ENTRIES, 0, 3, 2, 1);
    EXPECT(exact.number == 0 && exact.numerator == 680);
    EXPECT(exact.uncertainty == 120 && exact.denominator == 24);
    const struct torskavel_live_point_answer live =
        torskavel_live_answer(unit, net, PLACES, corrections, ENTRIES, uncertainties, ENTRIES, 0, 3, 2, 1, 1);
    EXPECT(live_gives(live, 0, 0, 680.0, 120.0));
}

int main(void) {
    const struct torskavel_unit empty = torskavel_empty_unit();
    EXPECT(gives(torskavel_build(empty, order, 3, built, PLACES, work, PLACES), 0, shaped(empty)));
    every_length();
    any_bytes();
    in_use();
    return failures == 0 ? EXIT_SUCCESS : EXIT_FAILURE;
}

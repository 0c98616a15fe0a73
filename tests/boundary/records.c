/* Unit records with any bytes, which half of them a call sets, and NULL for empty slices; of torskavel_factory they stand
   in factory.c. */
#include "expect.h"
#include "torskavel.h"

#include <stdlib.h>
#include <string.h>

/* The simple net, and a block of sizes 2, 2, 2 with the origin -3, 5, 32767. */
#define PLACES TORSKAVEL_PLACES(1, 1, 1, 1)
#define ENTRIES TORSKAVEL_ENTRIES(2, 2, 2)
#define NO_NET TORSKAVEL_REFUSED_NO_NET
#define NO_BLOCK TORSKAVEL_REFUSED_NO_BLOCK
#define SHORT_NET TORSKAVEL_REFUSED_NET_LENGTH
#define SHORT_BLOCK TORSKAVEL_REFUSED_BLOCK_LENGTH

static uint32_t net[PLACES], defined[PLACES];
static int32_t work[PLACES];
static int16_t corrections[ENTRIES];
static uint16_t uncertainties[ENTRIES];
static const uint8_t file[TORSKAVEL_FILE(2, 2, 2)] = {2, 0, 2, 0, 2, 0, 0xfd, 0xff, 5, 0, 0xff, 0x7f};
static const struct torskavel_unit held = {1, 1, 1, 1, 1, 1, 2, 2, 2, -3, 5, 32767};

static struct torskavel_unit_answer build(struct torskavel_unit unit, size_t places) {
    return torskavel_build(unit, NULL, 0, net, places, work, PLACES);
}

static struct torskavel_unit_answer load(struct torskavel_unit unit, size_t entries) {
    return torskavel_load(unit, file, sizeof file, corrections, entries, uncertainties, ENTRIES);
}

/* The number of both calls for the point one step from the origin on each axis, the second also with the uncertainty
   switched off, and of the two that value its placing. The placing call looks at no slice. */
static uint32_t number_at_1(struct torskavel_unit unit, const uint32_t *lent, const int16_t *c, const uint16_t *u) {
    const size_t places = lent ? PLACES : 0, first = c ? ENTRIES : 0, second = u ? ENTRIES : 0;
    const int32_t x = unit.o1 + 1, y = unit.o2 + 1, z = unit.o3 + 1;
    const uint32_t number = torskavel_answer(unit, lent, places, c, first, u, second, x, y, z, 1).number;
    EXPECT(torskavel_live_answer(unit, lent, places, c, first, u, second, x, y, z, 1, 1).number == number);
    EXPECT(torskavel_live_answer(unit, lent, places, c, first, u, second, x, y, z, 1, 0).number == number);
    const struct torskavel_placing placing = {1, 1, 1, 1, 2, 3, 1, 0, 0, 0};
    EXPECT(torskavel_value(unit, lent, places, c, first, u, second, placing).number == number);
    EXPECT(torskavel_live_value(unit, lent, places, c, first, u, second, placing, 1).number == number);
    EXPECT(torskavel_live_value(unit, lent, places, c, first, u, second, placing, 0).number == number);
    EXPECT(torskavel_place(unit, x, y, z, 1).number == (number == NO_NET || number == NO_BLOCK ? number : 0));
    return number;
}

static uint32_t number_of(struct torskavel_unit unit) {
    return number_at_1(unit, net, corrections, uncertainties);
}

static int gives(struct torskavel_unit_answer answer, uint32_t number, struct torskavel_unit unit) {
    return answer.number == number && answer.place == 0 && memcmp(&answer.unit, &unit, sizeof unit) == 0;
}

/* Every byte as a flag: 1 alone says present, a refused call answers the same bytes, a changed half leaves the other's. */
static void flags(void) {
    for (unsigned byte = 0; byte < 256; byte++) {
        struct torskavel_unit no_net = held, no_block = held;
        no_net.has_net = no_block.has_block = (uint8_t)byte;
        EXPECT(gives(build(no_net, PLACES), 0, held));
        EXPECT(gives(build(no_net, PLACES - 1), SHORT_NET, no_net));
        EXPECT(gives(build(no_block, PLACES), 0, no_block));
        EXPECT(gives(load(no_block, ENTRIES), 0, held));
        EXPECT(gives(load(no_block, ENTRIES - 1), SHORT_BLOCK, no_block));
        EXPECT(gives(load(no_net, ENTRIES), 0, no_net));
        EXPECT(number_of(no_net) == (byte == 1 ? 0 : NO_NET));
        EXPECT(number_of(no_block) == (byte == 1 ? 0 : NO_BLOCK));
    }
}

/* A record of one byte throughout. */
static void worn_records(void) {
    for (unsigned byte = 0; byte < 256; byte++) {
        struct torskavel_unit unit, built, loaded;
        memset(&unit, (int)byte, sizeof unit);
        built = loaded = unit;
        built.has_net = built.v1 = built.v2 = built.v3 = built.v4 = 1;
        loaded.has_block = 1;
        loaded.n1 = loaded.n2 = loaded.n3 = 2;
        loaded.o1 = held.o1;
        loaded.o2 = held.o2;
        loaded.o3 = held.o3;
        EXPECT(gives(build(unit, PLACES), 0, built) && gives(build(unit, 0), SHORT_NET, unit));
        EXPECT(gives(load(unit, ENTRIES), 0, loaded) && gives(load(unit, 0), SHORT_BLOCK, unit));
        EXPECT(gives(torskavel_inspect(unit, 1, 1, 1, 1, net, PLACES, defined, PLACES, work, PLACES), 0, built));
        EXPECT(number_of(unit) == (byte == 1 ? NO_BLOCK : NO_NET));
    }
}

/* Each byte of the origin takes each value: the unit has its net and block all the same, a build and an inspection keep
   the origin, a refused load too, and a load sets it. */
static void any_origin(void) {
    for (size_t at = offsetof(struct torskavel_unit, o1); at < sizeof held; at++)
        for (unsigned byte = 0; byte < 256; byte++) {
            struct torskavel_unit unit = held;
            ((unsigned char *)&unit)[at] = (unsigned char)byte;
            EXPECT(number_of(unit) == 0);
            EXPECT(gives(build(unit, PLACES), 0, unit) && gives(build(unit, 0), SHORT_NET, unit));
            EXPECT(gives(torskavel_inspect(unit, 1, 1, 1, 1, net, PLACES, defined, PLACES, work, PLACES), 0, unit));
            EXPECT(gives(load(unit, ENTRIES), 0, held) && gives(load(unit, 0), SHORT_BLOCK, unit));
        }
}

/* The empty unit is zeros in all its bytes, those of the origin too. */
static void empty_unit(void) {
    const unsigned char zeros[sizeof held] = {0};
    const struct torskavel_unit empty = torskavel_empty_unit();
    EXPECT(memcmp(&empty, zeros, sizeof empty) == 0);
}

static uint32_t inspect(const uint32_t *lent, uint32_t *first, int32_t *second) {
    const struct torskavel_unit empty = torskavel_empty_unit();
    return torskavel_inspect(
        empty, 1, 1, 1, 1, lent, lent ? PLACES : 0, first, first ? PLACES : 0, second, second ? PLACES : 0).number;
}

/* NULL with the count 0, for every slice of every call. */
static void empty_slices(void) {
    const struct torskavel_unit empty = torskavel_empty_unit();
    EXPECT(torskavel_build(empty, NULL, 0, net, PLACES, work, PLACES).number == 0);
    EXPECT(torskavel_build(empty, NULL, 0, NULL, 0, work, PLACES).number == SHORT_NET);
    EXPECT(torskavel_build(empty, NULL, 0, net, PLACES, NULL, 0).number == SHORT_NET);
    EXPECT(inspect(net, defined, work) == 0 && inspect(NULL, defined, work) == SHORT_NET);
    EXPECT(inspect(net, NULL, work) == SHORT_NET && inspect(net, defined, NULL) == SHORT_NET);
    EXPECT(torskavel_load(empty, NULL, 0, NULL, 0, NULL, 0).number == TORSKAVEL_REFUSED_FILE_HEADER);
    EXPECT(torskavel_load(empty, file, sizeof file, NULL, 0, uncertainties, ENTRIES).number == SHORT_BLOCK);
    EXPECT(torskavel_load(empty, file, sizeof file, corrections, ENTRIES, NULL, 0).number == SHORT_BLOCK);
    EXPECT(number_at_1(held, net, corrections, uncertainties) == 0);
    EXPECT(number_at_1(held, NULL, corrections, uncertainties) == SHORT_NET);
    EXPECT(number_at_1(held, net, NULL, uncertainties) == SHORT_BLOCK);
    EXPECT(number_at_1(held, net, corrections, NULL) == SHORT_BLOCK);
    EXPECT(number_at_1(empty, NULL, NULL, NULL) == NO_NET);
}

int main(void) {
    flags();
    worn_records();
    any_origin();
    empty_unit();
    empty_slices();
    return failures == 0 ? EXIT_SUCCESS : EXIT_FAILURE;
}

/* 16: a file whose entry was never measured and yet has an uncertainty is refused at load; lent slices that have
   such an entry answer as ever. What is expected was worked out by hand. */
#include "expect.h"
#include "live.h"
#include "torskavel.h"

#include <stdlib.h>
#include <string.h>

/* The simple net, and a block of sizes 2, 2, 2. */
#define PLACES TORSKAVEL_PLACES(1, 1, 1, 1)
#define GAP TORSKAVEL_NEVER_MEASURED
#define UNCERTAIN_GAP TORSKAVEL_REFUSED_UNCERTAIN_GAP

enum { ENTRIES = 8, PAINT = 77 };

static uint32_t net[PLACES];
static int32_t work[PLACES];

struct block {
    int16_t corrections[ENTRIES];
    uint16_t uncertainties[ENTRIES];
};

/* 100 at (0,0,0), else 0; all uncertainties 5. */
static struct block some_block(void) {
    return (struct block){{100}, {5, 5, 5, 5, 5, 5, 5, 5}};
}

static struct block with_entry(size_t entry, int16_t correction, uint16_t uncertainty) {
    struct block block = some_block();
    block.corrections[entry] = correction;
    block.uncertainties[entry] = uncertainty;
    return block;
}

/* Loads a block's file into painted slices: a refused load must leave them and the unit, one that passes must write the
   file's numbers as they are. */
static int loads(struct block block, size_t room, uint32_t number, size_t place) {
    const struct torskavel_unit before = {1, 1, 1, 1, 1, 7, 300, 301, 302, 1, 2, 3};
    const struct torskavel_unit after = {1, 1, 1, 1, 1, 1, 2, 2, 2, TORSKAVEL_NEVER_MEASURED, -1, 5};
    /* The origin may be the number that marks a gap among the corrections. */
    uint8_t file[TORSKAVEL_FILE(2, 2, 2)] = {2, 0, 2, 0, 2, 0, 0, 0x80, 0xff, 0xff, 5, 0};
    struct block lent;
    for (size_t i = 0; i < ENTRIES; i++) {
        const uint16_t correction = (uint16_t)block.corrections[i], uncertainty = block.uncertainties[i];
        file[12 + 2 * i] = (uint8_t)(correction & 255);
        file[12 + 2 * i + 1] = (uint8_t)(correction >> 8);
        file[12 + 2 * (ENTRIES + i)] = (uint8_t)(uncertainty & 255);
        file[12 + 2 * (ENTRIES + i) + 1] = (uint8_t)(uncertainty >> 8);
    }
    memset(&lent, PAINT, sizeof lent);
    const struct block painted = lent;
    const struct torskavel_unit_answer a =
        torskavel_load(before, file, sizeof file, lent.corrections, room, lent.uncertainties, ENTRIES);
    const struct torskavel_unit *unit = number == 0 ? &after : &before;
    const struct block *held = number == 0 ? &block : &painted;
    return a.number == number && a.place == place && memcmp(&a.unit, unit, sizeof *unit) == 0 &&
        memcmp(&lent, held, sizeof lent) == 0;
}

/* Each entry as the gap: 0 passes, every other uncertainty up to the limit of files is refused. */
static void each_entry(void) {
    const uint16_t refused[] = {1, 5, 255, 256, TORSKAVEL_MAX_UNCERTAINTY};
    for (size_t entry = 0; entry < ENTRIES; entry++) {
        EXPECT(loads(with_entry(entry, GAP, 0), ENTRIES, 0, 0));
        for (size_t i = 0; i < sizeof refused / sizeof refused[0]; i++) {
            EXPECT(loads(with_entry(entry, GAP, refused[i]), ENTRIES, UNCERTAIN_GAP, entry));
            EXPECT(loads(with_entry(entry, GAP + 1, refused[i]), ENTRIES, 0, 0));
            EXPECT(loads(with_entry(entry, 32767, refused[i]), ENTRIES, 0, 0));
        }
    }
}

/* A gap with an uncertainty, and another entry beside it: the lowest such gap is told, after 8 wherever that stands and
   before 9. */
static void order_of_checks(void) {
    for (size_t gap = 0; gap < ENTRIES; gap++) {
        EXPECT(loads(with_entry(gap, GAP, 5), 7, UNCERTAIN_GAP, gap));
        EXPECT(loads(with_entry(gap, GAP, 0), 7, TORSKAVEL_REFUSED_BLOCK_LENGTH, 0));
        EXPECT(loads(with_entry(gap, GAP, 40000), ENTRIES, TORSKAVEL_REFUSED_UNCERTAINTY, gap));
        for (size_t other = 0; other < ENTRIES; other++) {
            if (other == gap) continue;
            struct block block = with_entry(gap, GAP, 5);
            block.uncertainties[other] = 40000;
            EXPECT(loads(block, ENTRIES, TORSKAVEL_REFUSED_UNCERTAINTY, other));
            block.uncertainties[other] = 9;
            block.corrections[other] = GAP;
            EXPECT(loads(block, ENTRIES, UNCERTAIN_GAP, gap < other ? gap : other));
            block.uncertainties[other] = 0;
            EXPECT(loads(block, ENTRIES, UNCERTAIN_GAP, gap));
        }
    }
}

/* What both calls for a point answer from lent slices: one number and place, N and U. */
static int answers(const uint16_t n[3], const int16_t *c, const uint16_t *u, int32_t x,
                   struct torskavel_point_answer right) {
    const struct torskavel_unit unit = {1, 1, 1, 1, 1, 1, n[0], n[1], n[2], 0, 0, 0};
    const size_t entries = TORSKAVEL_ENTRIES(n[0], n[1], n[2]);
    const struct torskavel_point_answer exact =
        torskavel_answer(unit, net, PLACES, c, entries, u, entries, x, 1, 1, 1);
    const struct torskavel_live_point_answer live =
        torskavel_live_answer(unit, net, PLACES, c, entries, u, entries, x, 1, 1, 1, 1);
    return exact.number == right.number && exact.place == right.place && exact.numerator == right.numerator &&
        exact.uncertainty == right.uncertainty && exact.denominator == right.denominator &&
        live_gives(live, right.number, right.place, (double)right.numerator, (double)right.uncertainty);
}

/* As if an earlier version had loaded them: a gap in the window meets 13 whatever its uncertainty, and one outside
   changes nothing. At the position 3, 1, 1 the simple net reads entry (2,0,0). */
static void lent_slices(void) {
    const struct torskavel_point_answer gap_0 = {TORSKAVEL_REFUSED_UNMEASURED, 0, 0, 0, 0};
    const struct torskavel_point_answer gap_1 = {TORSKAVEL_REFUSED_UNMEASURED, 1, 0, 0, 0}, read = {0, 0, -40, 6, 1};
    const uint16_t cube[3] = {2, 2, 2}, longer[3] = {3, 2, 2}, lent[] = {0, 5, TORSKAVEL_MAX_UNCERTAINTY, 65535};
    EXPECT(torskavel_build(torskavel_empty_unit(), NULL, 0, net, PLACES, work, PLACES).number == 0);
    for (size_t i = 0; i < sizeof lent / sizeof lent[0]; i++) {
        const struct block block = with_entry(1, GAP, lent[i]);
        EXPECT(answers(cube, block.corrections, block.uncertainties, 1, gap_1));
        const int16_t corrections[12] = {GAP, 0, -40};
        const uint16_t uncertainties[12] = {lent[i], 5, 6};
        EXPECT(answers(longer, corrections, uncertainties, 3, read));
        EXPECT(answers(longer, corrections, uncertainties, 1, gap_0));
    }
}

int main(void) {
    each_entry();
    order_of_checks();
    lent_slices();
    return failures == 0 ? EXIT_SUCCESS : EXIT_FAILURE;
}

/* A unit from C: the factory's net is copied and inspected, a field file loaded, points answered, exactly and
   live, from a block with an origin too, a point placed once for both axes of a stage, and another net built.
   Run with the paths of three field files: two of the same sizes, one for each axis, and another that has an
   origin. */
#include "torskavel.h"

#include <inttypes.h>
#include <stdbool.h>
#include <stdio.h>

/* For the larger of the two nets. That of the factory has TORSKAVEL_FACTORY_PLACES. */
#define PLACES TORSKAVEL_PLACES(3, 2, 2, 1)
#define ENTRIES TORSKAVEL_MAX_ENTRIES

static uint32_t net[PLACES], defined[PLACES];
static int32_t work[PLACES];
static struct block {
    int16_t corrections[ENTRIES];
    uint16_t uncertainties[ENTRIES];
} first, second, moved; /* of the two axes, and of the file with an origin */
static uint8_t file[TORSKAVEL_MAX_FILE + 1]; /* one byte more, so that too long a file is seen */

/* Whether the call was refused; then the line ends with the refusal. */
static bool refused(uint32_t number, size_t place) {
    if (number != 0) printf("refused %" PRIu32 ", place %zu\n", number, place);
    return number != 0;
}

/* Prints what net the unit has got, with one of its numbers, or the refusal. */
static struct torskavel_unit got(struct torskavel_unit_answer a) {
    const struct torskavel_unit u = a.unit;
    if (!refused(a.number, a.place)) {
        const size_t degree = TORSKAVEL_DEGREE(u.v1, u.v2, u.v3, u.v4);
        const size_t w1 = TORSKAVEL_WIDTH(degree, u.v1, u.v4), w2 = TORSKAVEL_WIDTH(degree, u.v2, u.v4);
        printf("multiplicities %d %d %d %d, ", u.v1, u.v2, u.v3, u.v4);
        printf("number %" PRIu32 " at (6, 6, 6)\n", net[6 + w1 * (6 + w2 * 6)]);
    }
    return u;
}

static struct torskavel_unit factory(struct torskavel_unit unit) {
    printf("factory: ");
    return got(torskavel_factory(unit, net, PLACES));
}

static struct torskavel_unit build(struct torskavel_unit unit, const uint8_t *order, size_t length) {
    printf("build");
    for (size_t i = 0; i < length; i++) printf(" %d", order[i]);
    printf(": ");
    return got(torskavel_build(unit, order, length, net, PLACES, work, PLACES));
}

static struct torskavel_unit inspect(struct torskavel_unit unit) {
    printf("inspect 2 2 2 1: ");
    struct torskavel_unit_answer a =
        torskavel_inspect(unit, 2, 2, 2, 1, net, PLACES, defined, PLACES, work, PLACES);
    if (!refused(a.number, a.place)) printf("passed\n");
    return a.unit;
}

/* Reads a file, and answers its length; 0 where it cannot be read. */
static size_t read_file(const char *path) {
    size_t length = 0;
    FILE *in = fopen(path, "rb");
    if (in) {
        length = fread(file, 1, sizeof file, in);
        fclose(in);
    }
    return length;
}

static struct torskavel_unit load(struct torskavel_unit unit, size_t length, struct block *block) {
    printf("load %zu bytes: ", length);
    struct torskavel_unit_answer a =
        torskavel_load(unit, file, length, block->corrections, ENTRIES, block->uncertainties, ENTRIES);
    const struct torskavel_unit u = a.unit;
    if (!refused(a.number, a.place)) {
        printf("block %d %d %d, origin %d %d %d\n", u.n1, u.n2, u.n3, u.o1, u.o2, u.o3);
    }
    return u;
}

static void asked(const char *call, int32_t x, int32_t y, int32_t z, uint32_t divisor) {
    printf("%s (%" PRId32 ", %" PRId32 ", %" PRId32 ")/%" PRIu32, call, x, y, z, divisor);
}

/* Prints the shift and its uncertainty, or the refusal. */
static void answered(struct torskavel_point_answer a) {
    if (refused(a.number, a.place)) return;
    printf("shift %" PRId64 "/%" PRIu64 ", ", a.numerator, a.denominator);
    printf("uncertainty %" PRIu64 "/%" PRIu64 "\n", a.uncertainty, a.denominator);
}

static void answer_by(const struct block *block, struct torskavel_unit unit, int32_t x, int32_t y, int32_t z,
    uint32_t divisor) {
    asked("point", x, y, z, divisor);
    printf(": ");
    answered(torskavel_answer(
        unit, net, PLACES, block->corrections, ENTRIES, block->uncertainties, ENTRIES, x, y, z, divisor));
}

static void answer(struct torskavel_unit unit, int32_t x, int32_t y, int32_t z, uint32_t divisor) {
    answer_by(&first, unit, x, y, z, divisor);
}

/* Prints N and U, and what they are once divided, or the refusal. */
static void live_answered(struct torskavel_live_point_answer a, uint32_t divisor, bool with_uncertainty) {
    if (refused(a.number, a.place)) return;
    /* m! * divisor^m, where m is 4: a unit that is asked point after point works it out once */
    const double over = 24.0 * divisor * divisor * divisor * divisor;
    printf("N %.1f, shift %.4f", a.numerator, a.numerator / over);
    if (with_uncertainty) printf(", U %.1f, uncertainty %.4f", a.uncertainty, a.uncertainty / over);
    printf("\n");
}

static void live(
    struct torskavel_unit unit, int32_t x, int32_t y, int32_t z, uint32_t divisor, bool with_uncertainty) {
    asked("live", x, y, z, divisor);
    printf(with_uncertainty ? ": " : ", uncertainty switched off: ");
    struct torskavel_live_point_answer a = torskavel_live_answer(unit, net, PLACES, first.corrections, ENTRIES,
        first.uncertainties, ENTRIES, x, y, z, divisor, with_uncertainty);
    live_answered(a, divisor, with_uncertainty);
}

/* Prints the placing, or the refusal. */
static struct torskavel_placing_answer place(
    struct torskavel_unit unit, int32_t x, int32_t y, int32_t z, uint32_t divisor) {
    asked("place", x, y, z, divisor);
    printf(": ");
    const struct torskavel_placing_answer a = torskavel_place(unit, x, y, z, divisor);
    const struct torskavel_placing q = a.placing;
    if (!refused(a.number, a.place)) {
        printf("cell %" PRIu32 " %" PRIu32 " %" PRIu32 ", ", q.k1, q.k2, q.k3);
        printf("axis order %d %d %d, ", q.p, q.r, q.s);
        printf("weights %" PRIu32 " %" PRIu32 " %" PRIu32 " %" PRIu32 "\n", q.l0, q.l1, q.l2, q.l3);
    }
    return a;
}

/* Values a placing exactly and live. */
static void value(
    const char *name, struct torskavel_unit unit, const struct block *block, struct torskavel_placing q) {
    const int16_t *c = block->corrections;
    const uint16_t *u = block->uncertainties;
    printf("value, %s: ", name);
    answered(torskavel_value(unit, net, PLACES, c, ENTRIES, u, ENTRIES, q));
    printf("live value, %s: ", name);
    const uint32_t divisor = q.l0 + q.l1 + q.l2 + q.l3;
    live_answered(torskavel_live_value(unit, net, PLACES, c, ENTRIES, u, ENTRIES, q, true), divisor, true);
}

/* The load sets the block's origin: coordinates are read from there, and may be negative. */
static void from_the_origin(struct torskavel_unit unit, const char *path) {
    unit = load(unit, read_file(path), &moved);
    answer_by(&moved, unit, -6, -7, -4, 10);
    answer_by(&moved, unit, 20, -7, -4, 10); /* on the far face of axis 1: 20 is (-4 + 6) * 10 */
    answer_by(&moved, unit, -41, -7, -4, 10); /* before the origin, which is at -4 * 10 */
}

/* One placing for both axes of the stage. The point is on the far face of a block with 3 entries on axis 2: in
   a block with 4 entries there no point has this placing. */
static void stage(struct torskavel_unit unit) {
    const struct torskavel_placing_answer placed = place(unit, 5, 6, 5, 2);
    if (placed.number != 0) return; /* a refused call has no placing to value */
    value("first axis", unit, &first, placed.placing);
    value("second axis", unit, &second, placed.placing);
    unit.n2 = 4;
    value("another block", unit, &first, placed.placing);
}

int main(int count, char **words) {
    if (count != 4) {
        fprintf(stderr, "usage: %s FIELD-FILE FIELD-FILE FIELD-FILE\n", words[0]);
        return 1;
    }
    struct torskavel_unit unit = torskavel_empty_unit();
    answer(unit, 5, 5, 5, 2);
    unit = factory(unit);
    const size_t length = read_file(words[1]);
    unit = load(unit, length, &first);
    answer(unit, 5, 5, 5, 2);
    answer(unit, 5, 6, 5, 2); /* on the far face of axis 2, which has 3 entries: 6 is 3 * 2 */
    answer(unit, 5, 7, 5, 2); /* past it */
    answer(unit, 7, 5, 5, 2);
    if (length >= 2) file[length - 2] = 11; /* an uncertainty for the last entry, which was never measured */
    unit = load(unit, length, &first);
    live(unit, 5, 5, 5, 2, true);
    live(unit, 5, 5, 5, 2, false);
    answer(unit, 690, 690, 690, 276); /* the same point, over a divisor that is too large for a live call */
    live(unit, 690, 690, 690, 276, true);
    from_the_origin(unit, words[3]);
    unit = load(unit, read_file(words[2]), &second);
    stage(unit);
    unit = inspect(unit);
    net[0] = 1;
    unit = inspect(unit);
    answer(unit, 4, 4, 4, 2);
    unit = build(unit, (const uint8_t[]){1, 5}, 2);
    unit = build(unit, (const uint8_t[]){1, 3, 2, 1}, 4); /* one repeat more than the factory's net has */
    return 0;
}

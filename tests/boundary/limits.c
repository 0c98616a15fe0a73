/* Holds every constant of the headers to what the calls do: the last value within each limit passes, the first past it is
   refused, every refusal number is met, and macros give just what a call needs. The live call's are held in
   live.c, 16 in gaps.c, 17 in placings.c, the places of the factory shape in factory.c. Coordinates and origins,
   which may be any of their types, stand in origins.c. */
#include "expect.h"
#include "torskavel.h"

#include <stdlib.h>
#include <string.h>

/* The field file of these sizes, all numbers 0, the origin too. */
struct file {
    uint8_t bytes[TORSKAVEL_MAX_FILE + 1];
    size_t length;
};

static uint32_t net[TORSKAVEL_MAX_PLACES], defined[TORSKAVEL_MAX_PLACES];
static int32_t work[TORSKAVEL_MAX_PLACES];
static int16_t corrections[TORSKAVEL_MAX_ENTRIES];
static uint16_t uncertainties[TORSKAVEL_MAX_ENTRIES];
static struct file file;

/* The numbers that calls have answered. */
static int met[TORSKAVEL_REFUSED_SHARES + 1];

static uint32_t note(uint32_t number) {
    EXPECT(number <= TORSKAVEL_REFUSED_SHARES);
    if (number <= TORSKAVEL_REFUSED_SHARES) met[number] = 1;
    return number;
}

static struct torskavel_unit_answer build(struct torskavel_unit unit, const uint8_t *order, size_t length,
                                          size_t net_length, size_t work_length) {
    struct torskavel_unit_answer a = torskavel_build(unit, order, length, net, net_length, work, work_length);
    note(a.number);
    return a;
}

static struct torskavel_unit_answer inspect(const uint8_t v[4], size_t places) {
    struct torskavel_unit_answer a =
        torskavel_inspect(torskavel_empty_unit(), v[0], v[1], v[2], v[3], net, places, defined, places, work, places);
    note(a.number);
    return a;
}

static void make_file(unsigned n1, unsigned n2, unsigned n3) {
    const unsigned n[3] = {n1, n2, n3};
    memset(&file, 0, sizeof file);
    for (size_t i = 0; i < 3; i++) {
        file.bytes[2 * i] = (uint8_t)(n[i] & 255);
        file.bytes[2 * i + 1] = (uint8_t)(n[i] >> 8);
    }
    file.length = TORSKAVEL_FILE(n1, n2, n3);
    if (file.length > TORSKAVEL_MAX_FILE) file.length = TORSKAVEL_MAX_FILE;
}

static struct torskavel_unit_answer load(struct torskavel_unit unit, size_t entries) {
    struct torskavel_unit_answer a =
        torskavel_load(unit, file.bytes, file.length, corrections, entries, uncertainties, entries);
    note(a.number);
    return a;
}

static struct torskavel_point_answer answer(struct torskavel_unit unit, int32_t x, int32_t y, int32_t z, uint32_t d) {
    struct torskavel_point_answer a = torskavel_answer(unit, net, TORSKAVEL_MAX_PLACES, corrections,
        TORSKAVEL_MAX_ENTRIES, uncertainties, TORSKAVEL_MAX_ENTRIES, x, y, z, d);
    note(a.number);
    return a;
}

/* The unit of an order, its net built, and of a block of zeros. */
static struct torskavel_unit unit_of(const uint8_t *order, size_t length, unsigned n) {
    struct torskavel_unit_answer a =
        build(torskavel_empty_unit(), order, length, TORSKAVEL_MAX_PLACES, TORSKAVEL_MAX_PLACES);
    EXPECT(a.number == 0);
    make_file(n, n, n);
    a = load(a.unit, TORSKAVEL_MAX_ENTRIES);
    EXPECT(a.number == 0);
    return a.unit;
}

static void orders(void) {
    const struct torskavel_unit empty = torskavel_empty_unit();
    uint8_t order[TORSKAVEL_MAX_ORDER + 1];
    memset(order, 4, sizeof order);
    struct torskavel_unit_answer a = build(empty, order, TORSKAVEL_MAX_ORDER, TORSKAVEL_MAX_PLACES, TORSKAVEL_MAX_PLACES);
    EXPECT(a.number == TORSKAVEL_REFUSED_NOT && a.unit.v4 == 9);
    EXPECT(build(empty, order, TORSKAVEL_MAX_ORDER, TORSKAVEL_MAX_PLACES - 1, TORSKAVEL_MAX_PLACES).number == 4);
    a = build(empty, order, TORSKAVEL_MAX_ORDER + 1, TORSKAVEL_MAX_PLACES, TORSKAVEL_MAX_PLACES);
    EXPECT(a.number == TORSKAVEL_REFUSED_ORDER_LENGTH && a.place == 0);
    for (unsigned byte = 0; byte < 256; byte++) {
        order[3] = (uint8_t)byte;
        a = build(empty, order, 4, 0, 0);
        const int direction = byte >= 1 && byte <= 4;
        EXPECT(a.number == (direction ? TORSKAVEL_REFUSED_NET_LENGTH : TORSKAVEL_REFUSED_ORDER_BYTE));
        EXPECT(a.place == (direction ? 0 : 3));
    }
}

/* A net passes in slices of just its places, and one element fewer of any is refused. */
static void net_of(const uint8_t v[4]) {
    const struct torskavel_unit empty = torskavel_empty_unit();
    const size_t places = TORSKAVEL_PLACES(v[0], v[1], v[2], v[3]);
    uint8_t order[TORSKAVEL_MAX_ORDER];
    size_t length = 0;
    for (uint8_t d = 1; d <= 4; d++)
        for (unsigned i = 1; i < v[d - 1]; i++) order[length++] = d;
    EXPECT(build(empty, order, length, places, places).number == 0);
    EXPECT(build(empty, order, length, places - 1, places).number == TORSKAVEL_REFUSED_NET_LENGTH);
    EXPECT(build(empty, order, length, places, places - 1).number == TORSKAVEL_REFUSED_NET_LENGTH);
    EXPECT(inspect(v, places).number == 0);
    EXPECT(inspect(v, places - 1).number == TORSKAVEL_REFUSED_NET_LENGTH);
    net[places - 1]++;
    const struct torskavel_unit_answer a = inspect(v, places);
    EXPECT(a.number == TORSKAVEL_REFUSED_NET_DIFFERS && a.place == places - 1);
}

/* All nets up to the highest sum; past it none. */
static void nets(void) {
    size_t most = 0, degree = 0;
    for (uint8_t v1 = 1; v1 <= 10; v1++)
        for (uint8_t v2 = 1; v2 <= 10; v2++)
            for (uint8_t v3 = 1; v3 <= 10; v3++)
                for (uint8_t v4 = 1; v4 <= 10; v4++) {
                    const uint8_t v[4] = {v1, v2, v3, v4};
                    if (v1 + v2 + v3 + v4 > TORSKAVEL_MAX_MULTIPLICITY_SUM) {
                        EXPECT(inspect(v, TORSKAVEL_MAX_PLACES).number == TORSKAVEL_REFUSED_MULTIPLICITIES);
                        continue;
                    }
                    net_of(v);
                    if (TORSKAVEL_PLACES(v1, v2, v3, v4) > most) most = TORSKAVEL_PLACES(v1, v2, v3, v4);
                    if (TORSKAVEL_DEGREE(v1, v2, v3, v4) > degree) degree = TORSKAVEL_DEGREE(v1, v2, v3, v4);
                }
    EXPECT(most == TORSKAVEL_MAX_PLACES && degree == TORSKAVEL_MAX_DEGREE);
    for (size_t zero = 0; zero < 4; zero++) {
        uint8_t v[4] = {1, 1, 1, 1};
        v[zero] = 0;
        EXPECT(inspect(v, TORSKAVEL_MAX_PLACES).number == TORSKAVEL_REFUSED_MULTIPLICITIES);
    }
}

static void sizes(void) {
    const struct torskavel_unit empty = torskavel_empty_unit();
    make_file(TORSKAVEL_MAX_SIZE, TORSKAVEL_MAX_ENTRIES / TORSKAVEL_MAX_SIZE, 1);
    EXPECT(file.length == TORSKAVEL_MAX_FILE);
    EXPECT(load(empty, TORSKAVEL_MAX_ENTRIES).number == 0);
    EXPECT(load(empty, TORSKAVEL_MAX_ENTRIES - 1).number == TORSKAVEL_REFUSED_BLOCK_LENGTH);
    file.length++;
    EXPECT(load(empty, TORSKAVEL_MAX_ENTRIES).number == TORSKAVEL_REFUSED_FILE_LENGTH);
    file.length -= 2;
    EXPECT(load(empty, TORSKAVEL_MAX_ENTRIES).number == TORSKAVEL_REFUSED_FILE_LENGTH);
    file.length = 12;
    EXPECT(load(empty, TORSKAVEL_MAX_ENTRIES).number == TORSKAVEL_REFUSED_FILE_LENGTH);
    file.length = 11;
    EXPECT(load(empty, TORSKAVEL_MAX_ENTRIES).number == TORSKAVEL_REFUSED_FILE_HEADER);
    make_file(TORSKAVEL_MAX_SIZE + 1, 1, 1);
    EXPECT(load(empty, TORSKAVEL_MAX_ENTRIES).number == TORSKAVEL_REFUSED_SIZES);
    make_file(1, 0, 1);
    EXPECT(load(empty, TORSKAVEL_MAX_ENTRIES).number == TORSKAVEL_REFUSED_SIZES);
    /* The least product above the most entries that sizes within their limit have. */
    make_file(41, 50, 2);
    EXPECT(TORSKAVEL_ENTRIES(41, 50, 2) == TORSKAVEL_MAX_ENTRIES + 4);
    EXPECT(load(empty, TORSKAVEL_MAX_ENTRIES).number == TORSKAVEL_REFUSED_SIZES);
}

static void set_uncertainty(size_t entries, size_t entry, unsigned number) {
    file.bytes[12 + 2 * (entries + entry)] = (uint8_t)(number & 255);
    file.bytes[12 + 2 * (entries + entry) + 1] = (uint8_t)(number >> 8);
}

static void files(void) {
    const struct torskavel_unit empty = torskavel_empty_unit();
    make_file(2, 3, 1);
    file.bytes[12 + 2 * 4 + 1] = 0x80; /* of entry 4 the correction */
    set_uncertainty(6, 5, TORSKAVEL_MAX_UNCERTAINTY);
    EXPECT(load(empty, 6).number == 0);
    EXPECT(corrections[4] == TORSKAVEL_NEVER_MEASURED && uncertainties[5] == TORSKAVEL_MAX_UNCERTAINTY);
    set_uncertainty(6, 5, TORSKAVEL_MAX_UNCERTAINTY + 1);
    const struct torskavel_unit_answer a = load(empty, 6);
    EXPECT(a.number == TORSKAVEL_REFUSED_UNCERTAINTY && a.place == 5);
    EXPECT(uncertainties[5] == TORSKAVEL_MAX_UNCERTAINTY);
}

static uint64_t denominator(unsigned degree, uint64_t divisor) {
    uint64_t product = 1;
    for (unsigned i = 1; i <= degree; i++) product *= i * divisor;
    return product;
}

static void divisors(void) {
    const struct torskavel_unit unit = unit_of(NULL, 0, 2);
    const struct torskavel_point_answer a =
        answer(unit, TORSKAVEL_MAX_DIVISOR, TORSKAVEL_MAX_DIVISOR, TORSKAVEL_MAX_DIVISOR, TORSKAVEL_MAX_DIVISOR);
    EXPECT(a.number == 0 && a.denominator == TORSKAVEL_MAX_DIVISOR);
    const uint32_t past = TORSKAVEL_MAX_DIVISOR + 1;
    EXPECT(answer(unit, past, past, past, past).number == TORSKAVEL_REFUSED_DIVISOR);
    EXPECT(answer(unit, 1, 1, 1, 0).number == TORSKAVEL_REFUSED_DIVISOR);
}

/* From degree 4 on the denominator limits the divisor. The net m, 1, 1, 1 has degree m, and entry 9 is inside. */
static void denominators(void) {
    const uint8_t order[TORSKAVEL_MAX_ORDER] = {1, 1, 1, 1, 1, 1, 1, 1};
    EXPECT(TORSKAVEL_MAX_DENOMINATOR == UINT64_C(1) << 48);
    for (unsigned degree = 4; degree <= TORSKAVEL_MAX_DEGREE; degree++) {
        const struct torskavel_unit unit = unit_of(order, degree - 1, 10);
        uint32_t most = 1;
        while (denominator(degree, most + 1) <= TORSKAVEL_MAX_DENOMINATOR) most++;
        const struct torskavel_point_answer a = answer(unit, 9 * most, 9 * most, 9 * most, most);
        EXPECT(a.number == 0 && a.denominator == denominator(degree, most));
        const uint32_t past = most + 1;
        EXPECT(answer(unit, 9 * past, 9 * past, 9 * past, past).number == TORSKAVEL_REFUSED_DENOMINATOR);
    }
}

static void points(void) {
    struct torskavel_unit unit = torskavel_empty_unit();
    EXPECT(answer(unit, 1, 1, 1, 1).number == TORSKAVEL_REFUSED_NO_NET);
    unit = build(unit, NULL, 0, 27, 27).unit;
    EXPECT(answer(unit, 1, 1, 1, 1).number == TORSKAVEL_REFUSED_NO_BLOCK);
    unit = unit_of(NULL, 0, 3);
    EXPECT(answer(unit, 0, 1, 1, 1).number == TORSKAVEL_REFUSED_OUTSIDE);
    EXPECT(answer(unit, 3, 1, 1, 1).number == TORSKAVEL_REFUSED_NOT);
    EXPECT(answer(unit, 4, 1, 1, 1).number == TORSKAVEL_REFUSED_OUTSIDE);
    corrections[1 + 3 * (1 + 3 * 1)] = TORSKAVEL_NEVER_MEASURED;
    struct torskavel_point_answer a = answer(unit, 2, 2, 2, 1);
    EXPECT(a.number == TORSKAVEL_REFUSED_UNMEASURED && a.place == 13);
    EXPECT(a.numerator == 0 && a.uncertainty == 0 && a.denominator == 0);
    unit = unit_of(NULL, 0, 2);
    /* Lent uncertainties may be above those of files. */
    for (size_t i = 0; i < 8; i++) uncertainties[i] = 65535;
    a = answer(unit, 1, 1, 1, 1);
    EXPECT(a.number == 0 && a.uncertainty == 65535 * a.denominator);
    net[13]++;
    EXPECT(answer(unit, 1, 1, 1, 1).number == TORSKAVEL_REFUSED_SHARES);
}

int main(void) {
    orders();
    nets();
    sizes();
    files();
    divisors();
    denominators();
    points();
    for (int number = 0; number <= TORSKAVEL_REFUSED_SHARES; number++)
        EXPECT(met[number] || (number > TORSKAVEL_REFUSED_NET_DIFFERS && number < TORSKAVEL_REFUSED_NO_NET));
    return failures == 0 ? EXIT_SUCCESS : EXIT_FAILURE;
}

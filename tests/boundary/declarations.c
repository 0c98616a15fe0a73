/* Prints what torskavel.h declares: constants, layouts, and what the macros give. declarations.rs prints the same from the
   Rust declarations. Compiled as C and as C++. */
#include "torskavel.h"

#include <stdio.h>

#define SHOW(name) printf(#name " %lld\n", (long long)TORSKAVEL_##name)
#define SHOW_SIZE(type) printf(#type " size %zu\n", sizeof(struct torskavel_##type))
#define SHOW_FIELD(type, field) printf(#type "." #field " at %zu\n", offsetof(struct torskavel_##type, field))

static void show_constants(void) {
    SHOW(VERSION_MAJOR);
    SHOW(VERSION_MINOR);
    SHOW(VERSION_PATCH);
    SHOW(MAX_CODE);
    SHOW(MAX_STACK);
    SHOW(MAX_STACK_BUILD);
    SHOW(MAX_STACK_LOAD);
    SHOW(MAX_ORDER);
    SHOW(MAX_MULTIPLICITY_SUM);
    SHOW(MAX_DEGREE);
    SHOW(MAX_PLACES);
    SHOW(MAX_SIZE);
    SHOW(MAX_ENTRIES);
    SHOW(MAX_FILE);
    SHOW(MAX_UNCERTAINTY);
    SHOW(MAX_DIVISOR);
    SHOW(MAX_DENOMINATOR);
    SHOW(MAX_LIVE_DENOMINATOR);
    SHOW(NEVER_MEASURED);
    SHOW(FACTORY_PLACES);
}

static void show_refusals(void) {
    SHOW(REFUSED_NOT);
    SHOW(REFUSED_ORDER_LENGTH);
    SHOW(REFUSED_ORDER_BYTE);
    SHOW(REFUSED_MULTIPLICITIES);
    SHOW(REFUSED_NET_LENGTH);
    SHOW(REFUSED_FILE_HEADER);
    SHOW(REFUSED_SIZES);
    SHOW(REFUSED_FILE_LENGTH);
    SHOW(REFUSED_UNCERTAINTY);
    SHOW(REFUSED_BLOCK_LENGTH);
    SHOW(REFUSED_DIVISOR);
    SHOW(REFUSED_DENOMINATOR);
    SHOW(REFUSED_OUTSIDE);
    SHOW(REFUSED_UNMEASURED);
    SHOW(REFUSED_NET_DIFFERS);
    SHOW(REFUSED_LIVE_DENOMINATOR);
    SHOW(REFUSED_UNCERTAIN_GAP);
    SHOW(REFUSED_PLACING);
    SHOW(REFUSED_NO_NET);
    SHOW(REFUSED_NO_BLOCK);
    SHOW(REFUSED_SHARES);
}

static void show_records(void) {
    SHOW_SIZE(unit);
    SHOW_FIELD(unit, has_net);
    SHOW_FIELD(unit, v1);
    SHOW_FIELD(unit, v2);
    SHOW_FIELD(unit, v3);
    SHOW_FIELD(unit, v4);
    SHOW_FIELD(unit, has_block);
    SHOW_FIELD(unit, n1);
    SHOW_FIELD(unit, n2);
    SHOW_FIELD(unit, n3);
    SHOW_FIELD(unit, o1);
    SHOW_FIELD(unit, o2);
    SHOW_FIELD(unit, o3);
    SHOW_SIZE(placing);
    SHOW_FIELD(placing, k1);
    SHOW_FIELD(placing, k2);
    SHOW_FIELD(placing, k3);
    SHOW_FIELD(placing, p);
    SHOW_FIELD(placing, r);
    SHOW_FIELD(placing, s);
    SHOW_FIELD(placing, l0);
    SHOW_FIELD(placing, l1);
    SHOW_FIELD(placing, l2);
    SHOW_FIELD(placing, l3);
}

static void show_answers(void) {
    SHOW_SIZE(unit_answer);
    SHOW_FIELD(unit_answer, number);
    SHOW_FIELD(unit_answer, place);
    SHOW_FIELD(unit_answer, unit);
    SHOW_SIZE(placing_answer);
    SHOW_FIELD(placing_answer, number);
    SHOW_FIELD(placing_answer, place);
    SHOW_FIELD(placing_answer, placing);
    SHOW_SIZE(point_answer);
    SHOW_FIELD(point_answer, number);
    SHOW_FIELD(point_answer, place);
    SHOW_FIELD(point_answer, numerator);
    SHOW_FIELD(point_answer, uncertainty);
    SHOW_FIELD(point_answer, denominator);
    SHOW_SIZE(live_point_answer);
    SHOW_FIELD(live_point_answer, number);
    SHOW_FIELD(live_point_answer, place);
    SHOW_FIELD(live_point_answer, numerator);
    SHOW_FIELD(live_point_answer, uncertainty);
}

/* The places of all nets, and the entries and file bytes of some blocks. */
static void show_macros(void) {
    static const unsigned n[][3] = {{1, 1, 1}, {2, 3, 5}, {64, 64, 1}, {16, 16, 16}, {65535, 65535, 65535}};
    for (int v1 = 1; v1 <= 9; v1++)
        for (int v2 = 1; v2 <= 9; v2++)
            for (int v3 = 1; v3 <= 9; v3++)
                for (int v4 = 1; v1 + v2 + v3 + v4 <= 12; v4++)
                    printf("places %d %d %d %d: %zu\n", v1, v2, v3, v4, TORSKAVEL_PLACES(v1, v2, v3, v4));
    for (size_t i = 0; i < sizeof n / sizeof n[0]; i++) {
        const size_t entries = TORSKAVEL_ENTRIES(n[i][0], n[i][1], n[i][2]);
        printf("entries %u %u %u: %zu", n[i][0], n[i][1], n[i][2], entries);
        printf(", file %zu\n", TORSKAVEL_FILE(n[i][0], n[i][1], n[i][2]));
    }
}

int main(void) {
    show_constants();
    show_refusals();
    show_records();
    show_answers();
    show_macros();
    return 0;
}

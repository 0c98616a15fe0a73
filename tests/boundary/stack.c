/* Measures the stack of each call: makes it on a painted stack, and looks how far down the paint is gone. */
#define _POSIX_C_SOURCE 200809L
#include "expect.h"
#include "torskavel.h"

#include <pthread.h>
#include <stdlib.h>

enum { STACK = 1 << 20, OWN = 160, PLACES = TORSKAVEL_MAX_PLACES, ENTRIES = TORSKAVEL_MAX_ENTRIES };

static uint32_t net[PLACES], defined[PLACES];
static int32_t work[PLACES];
static int16_t corrections[ENTRIES];
static uint16_t uncertainties[ENTRIES];
static uint8_t file[TORSKAVEL_MAX_FILE] = {16, 0, 16, 0, 16, 0};
/* The last entry was never measured, and has an uncertainty. */
static uint8_t uncertain_gap[TORSKAVEL_MAX_FILE] = {
    16, 0, 16, 0, 16, 0, [12 + 2 * (ENTRIES - 1) + 1] = 0x80, [12 + 4 * ENTRIES - 2] = 1};

static unsigned char stack[STACK] __attribute__((aligned(4096)));
static struct torskavel_unit unit;
static struct torskavel_unit_answer changed, refused;
static struct torskavel_placing_answer placed;
static struct torskavel_point_answer answered;
static struct torskavel_live_point_answer live;

/* In the place of the C library's, so that their stack is not counted. */
void *memset(void *to, int byte, size_t count) {
    void *next = to;
    __asm__ volatile("rep stosb" : "+D"(next), "+c"(count) : "a"(byte) : "memory");
    return to;
}

void *memcpy(void *restrict to, const void *restrict from, size_t count) {
    void *next = to;
    __asm__ volatile("rep movsb" : "+D"(next), "+S"(from), "+c"(count) : : "memory");
    return to;
}

static void empty_unit(void) {
    unit = torskavel_empty_unit();
}

static void factory(void) {
    changed = torskavel_factory(unit, net, PLACES);
}

/* The calls below go their longest way: an order in which every direction is taken up, then the defined net again. */
static void build(void) {
    static const uint8_t order[] = {4, 1, 3, 2, 4, 1, 3, 2};
    changed = torskavel_build(unit, order, sizeof order, net, PLACES, work, PLACES);
}

static void inspect(void) {
    changed = torskavel_inspect(unit, 3, 3, 3, 3, net, PLACES, defined, PLACES, work, PLACES);
}

static void load(void) {
    changed = torskavel_load(unit, file, sizeof file, corrections, ENTRIES, uncertainties, ENTRIES);
}

/* 8 and 16 are looked for, entry by entry, only where one of them applies. */
static void load_refused(void) {
    refused = torskavel_load(unit, uncertain_gap, sizeof uncertain_gap, corrections, ENTRIES, uncertainties, ENTRIES);
}

static void answer(void) {
    answered = torskavel_answer(unit, net, PLACES, corrections, ENTRIES, uncertainties, ENTRIES, 50, 51, 52, 9);
}

static void live_answer(void) {
    live =
        torskavel_live_answer(unit, net, PLACES, corrections, ENTRIES, uncertainties, ENTRIES, 22, 23, 24, 4, 1);
}

/* The uncertainty switched off. */
static void live_shift(void) {
    live =
        torskavel_live_answer(unit, net, PLACES, corrections, ENTRIES, uncertainties, ENTRIES, 22, 23, 24, 4, 0);
}

/* The placings of these points are valued. */
static void place(void) {
    placed = torskavel_place(unit, 50, 51, 52, 9);
}

static void place_live(void) {
    placed = torskavel_place(unit, 22, 23, 24, 4);
}

static void value(void) {
    answered = torskavel_value(unit, net, PLACES, corrections, ENTRIES, uncertainties, ENTRIES, placed.placing);
}

static void live_value(void) {
    live = torskavel_live_value(unit, net, PLACES, corrections, ENTRIES, uncertainties, ENTRIES, placed.placing, 1);
}

static void live_value_shift(void) {
    live = torskavel_live_value(unit, net, PLACES, corrections, ENTRIES, uncertainties, ENTRIES, placed.placing, 0);
}

/* How far below this function's frame a call goes, its arguments included; OWN or less counts as OWN. */
static __attribute__((noinline)) size_t depth(void (*call)(void), unsigned char paint) {
    unsigned char *const here = (unsigned char *)__builtin_frame_address(0);
    for (volatile unsigned char *p = stack; p < here - OWN; p++) *p = paint;
    call();
    const volatile unsigned char *p = stack;
    while (p < here - OWN && *p == paint) p++;
    return (size_t)(here - p);
}

static void measure(const char *name, void (*call)(void), size_t most) {
    const size_t first = depth(call, 0xa5), second = depth(call, 0x5a);
    const size_t deepest = first > second ? first : second;
    printf("%s %zu\n", name, deepest);
    EXPECT(deepest <= most);
    EXPECT(changed.number == 0 && placed.number == 0 && answered.number == 0 && live.number == 0);
    if (call == factory || call == build || call == inspect || call == load) unit = changed.unit;
}

static void *run(void *unused) {
    measure("empty_unit", empty_unit, TORSKAVEL_MAX_STACK_LOAD);
    measure("load", load, TORSKAVEL_MAX_STACK_LOAD);
    measure("load_refused", load_refused, TORSKAVEL_MAX_STACK_LOAD);
    EXPECT(refused.number == TORSKAVEL_REFUSED_UNCERTAIN_GAP && refused.place == ENTRIES - 1);
    measure("factory", factory, TORSKAVEL_MAX_STACK_LOAD);
    measure("build", build, TORSKAVEL_MAX_STACK_BUILD);
    measure("inspect", inspect, TORSKAVEL_MAX_STACK_BUILD);
    measure("answer", answer, TORSKAVEL_MAX_STACK);
    measure("live_answer", live_answer, TORSKAVEL_MAX_STACK);
    measure("live_shift", live_shift, TORSKAVEL_MAX_STACK);
    measure("place", place, TORSKAVEL_MAX_STACK_BUILD);
    measure("value", value, TORSKAVEL_MAX_STACK);
    measure("place_live", place_live, TORSKAVEL_MAX_STACK_BUILD);
    measure("live_value", live_value, TORSKAVEL_MAX_STACK);
    measure("live_value_shift", live_value_shift, TORSKAVEL_MAX_STACK);
    return unused;
}

int main(void) {
    pthread_attr_t attributes;
    pthread_t thread;
    EXPECT(pthread_attr_init(&attributes) == 0);
    EXPECT(pthread_attr_setstack(&attributes, stack, sizeof stack) == 0);
    EXPECT(pthread_create(&thread, &attributes, run, NULL) == 0 && pthread_join(thread, NULL) == 0);
    return failures == 0 ? EXIT_SUCCESS : EXIT_FAILURE;
}

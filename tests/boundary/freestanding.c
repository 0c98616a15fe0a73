/* Linked with the archive and nothing else, not even a C library: memset and memcpy are all that it has to bring along. */
#include "torskavel.h"

enum { PLACES = TORSKAVEL_FACTORY_PLACES, ENTRIES = TORSKAVEL_ENTRIES(3, 3, 3) };

static uint32_t net[PLACES], defined[PLACES];
static int32_t work[PLACES];
static int16_t corrections[ENTRIES];
static uint16_t uncertainties[ENTRIES];
static const uint8_t order[] = {1, 3, 2}, file[TORSKAVEL_FILE(3, 3, 3)] = {3, 0, 3, 0, 3, 0};

void *memset(void *to, int byte, size_t count);
void *memcpy(void *restrict to, const void *restrict from, size_t count);

void *memset(void *to, int byte, size_t count) {
    volatile unsigned char *next = to;
    while (count-- > 0) *next++ = (unsigned char)byte;
    return to;
}

void *memcpy(void *restrict to, const void *restrict from, size_t count) {
    volatile unsigned char *next = to;
    const unsigned char *read = from;
    while (count-- > 0) *next++ = *read++;
    return to;
}

/* A net built, copied and inspected, a file loaded, a point asked by both calls, placed and valued: 0 where none was
   refused. */
static uint32_t run(void) {
    struct torskavel_unit_answer a = torskavel_build(torskavel_empty_unit(), order, 3, net, PLACES, work, PLACES);
    if (a.number != 0) return a.number;
    a = torskavel_factory(a.unit, net, PLACES);
    if (a.number != 0) return a.number;
    a = torskavel_inspect(a.unit, 2, 2, 2, 1, net, PLACES, defined, PLACES, work, PLACES);
    if (a.number != 0) return a.number;
    a = torskavel_load(a.unit, file, sizeof file, corrections, ENTRIES, uncertainties, ENTRIES);
    if (a.number != 0) return a.number;
    uint32_t number =
        torskavel_answer(a.unit, net, PLACES, corrections, ENTRIES, uncertainties, ENTRIES, 5, 5, 5, 2).number;
    if (number != 0) return number;
    number =
        torskavel_live_answer(a.unit, net, PLACES, corrections, ENTRIES, uncertainties, ENTRIES, 5, 5, 5, 2, 1).number;
    if (number != 0) return number;
    const struct torskavel_placing_answer placed = torskavel_place(a.unit, 5, 5, 5, 2);
    if (placed.number != 0) return placed.number;
    const struct torskavel_placing q = placed.placing;
    number = torskavel_value(a.unit, net, PLACES, corrections, ENTRIES, uncertainties, ENTRIES, q).number;
    if (number != 0) return number;
    return torskavel_live_value(a.unit, net, PLACES, corrections, ENTRIES, uncertainties, ENTRIES, q, 1).number;
}

/* Linux enters here with an aligned stack and no return address; exit is its call 60. */
__attribute__((force_align_arg_pointer, noreturn)) void _start(void);

void _start(void) {
    const uint32_t number = run();
    __asm__ volatile("syscall" : : "a"(60), "D"(number) : "rcx", "r11", "memory");
    __builtin_unreachable();
}

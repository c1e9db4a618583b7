/* Opening: the proved functions, with a number for the store that no other open store of the
 * process has. By that number a join tells two stores apart, so it matters also if several copies
 * of this library are loaded or linked. */
#include "lrc_store.h"

#include <stdatomic.h>
#include <sys/random.h>

/* The proved functions, for the processor at hand (choice.c). */
uint32_t lrc_store_open_numbered(uint32_t width, uint32_t limit, uint64_t number, lrc_slot *slot);
uint32_t lrc_store_open_unjournaled_numbered(uint32_t width, uint64_t number, lrc_slot *slot);

enum { COUNT_BITS = 23, ALIGNMENT = 64 };

/* How many numbers were counted. Each copy of the library has one, at an address of its own. */
static _Alignas(ALIGNMENT) _Atomic uint64_t counted;

/* The address of `counted` and a count. It comes back after 2^23 further ones. */
static uint64_t counted_number(void) {
    const uint64_t place = (uint64_t)(uintptr_t)&counted / ALIGNMENT;
    const uint64_t count = atomic_fetch_add(&counted, 1);
    return place << COUNT_BITS | (count & ((1u << COUNT_BITS) - 1));
}

/* 64 random bits, or a counted number if the kernel gives none. */
static uint64_t new_number(void) {
    uint64_t number;
    if (getrandom(&number, sizeof number, GRND_NONBLOCK) == (ssize_t)sizeof number) return number;
    return counted_number();
}

uint32_t lrc_store_open(uint32_t width, uint32_t limit, lrc_slot *slot) {
    return lrc_store_open_numbered(width, limit, new_number(), slot);
}

uint32_t lrc_store_open_unjournaled(uint32_t width, lrc_slot *slot) {
    return lrc_store_open_unjournaled_numbered(width, new_number(), slot);
}

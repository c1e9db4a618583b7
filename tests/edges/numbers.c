/* The numbers that library/store_open.c gives to stores all differ, with and without random bits,
 * also between copies of the library. Link with two copies of that file, whose functions are
 * renamed (tests/test_edges.py). */
#include "store_test.h"
#include <stdlib.h>
#include <sys/types.h>

enum { STORES = 1000, WIDTH = 7, LIMIT = 11, STATUS = 5, UNJOURNALED = 6 };

uint32_t first_open(uint32_t width, uint32_t limit, lrc_slot *slot);
uint32_t second_open(uint32_t width, uint32_t limit, lrc_slot *slot);
uint32_t first_unjournaled(uint32_t width, lrc_slot *slot);
uint32_t second_unjournaled(uint32_t width, lrc_slot *slot);
uint32_t open_numbered(uint32_t width, uint32_t limit, uint64_t number, lrc_slot *slot);
uint32_t unjournaled_numbered(uint32_t width, uint64_t number, lrc_slot *slot);
ssize_t getrandom(void *target, size_t len, unsigned flags);

static uint64_t numbers[8 * STORES];
static size_t count;
static int is_random;
static lrc_slot slot;

/* In place of the proved functions. */
uint32_t unjournaled_numbered(uint32_t width, uint64_t number, lrc_slot *given) {
    EXPECT(width, WIDTH);
    EXPECT(given == &slot, 1);
    numbers[count++] = number;
    return UNJOURNALED;
}

uint32_t open_numbered(uint32_t width, uint32_t limit, uint64_t number, lrc_slot *given) {
    EXPECT(unjournaled_numbered(width, number, given), UNJOURNALED);
    EXPECT(limit, LIMIT);
    return STATUS;
}

/* In place of the kernel: different bits each time, or some and an error. */
ssize_t getrandom(void *target, size_t len, unsigned flags) {
    static uint64_t state = 1;
    (void)flags;
    state = state * 6364136223846793005u + 1442695040888963407u;
    memset(target, 1, len);
    if (is_random && len == sizeof state) memcpy(target, &state, len);
    return is_random ? (ssize_t)len : state & 1u << 20 ? -1 : 3;
}

static int compare(const void *one, const void *other) {
    const uint64_t a = *(const uint64_t *)one, b = *(const uint64_t *)other;
    return (a > b) - (a < b);
}

int main(void) {
    for (is_random = 0; is_random < 2; is_random++)
        for (int i = 0; i < STORES; i++) {
            EXPECT(first_open(WIDTH, LIMIT, &slot), STATUS);
            EXPECT(second_open(WIDTH, LIMIT, &slot), STATUS);
            EXPECT(first_unjournaled(WIDTH, &slot), UNJOURNALED);
            EXPECT(second_unjournaled(WIDTH, &slot), UNJOURNALED);
        }
    EXPECT(count, 8 * STORES);
    qsort(numbers, count, sizeof *numbers, compare);
    for (size_t i = 1; i < count; i++) EXPECT(numbers[i - 1] != numbers[i], 1);
    return report("numbers");
}

/* What the tests of the store in C share: expectations, names, and bytes to store. */
#ifndef STORE_TEST_H
#define STORE_TEST_H
#include "expect.h"
#include "lrc_store.h"
#include <string.h>

/* a name and its length, as two arguments */
#define NAME(text) (const uint8_t *)(text), strlen(text)

/* bytes that differ from place to place and from seed to seed */
static inline void fill(uint8_t *bytes, size_t len, unsigned seed) {
    for (size_t i = 0; i < len; i++) bytes[i] = (uint8_t)(i * 7 + i / 251 + seed * 13 + 1);
}

/* Copies the first pieces of a range that is lent, at most 64, and gives how many bytes these are.
 */
static inline size_t gather(lrc_slot *lent, uint8_t *target) {
    lrc_slice slices[64];
    uint64_t count = 0;
    size_t len = 0;
    for (size_t i = 0; i < 64; i++) slices[i] = (lrc_slice){(const uint8_t *)"", 0};
    EXPECT(lrc_slot_slices(lent, slices, 64, &count), LRC_STORE_DONE);
    for (uint64_t i = 0; i < count; len += slices[i++].len)
        memcpy(target + len, slices[i].at, slices[i].len);
    return len;
}

/* Copies all runs of a range that is lent, from a byte on, so many at a time. Gives the number of
 * runs. */
static inline size_t gather_runs(lrc_slot *lent, uint64_t from, size_t capacity, uint8_t *target) {
    lrc_slice runs[64];
    uint64_t count = 0;
    size_t number = 0;
    do {
        for (size_t i = 0; i < 64; i++) runs[i] = (lrc_slice){(const uint8_t *)"", 0};
        EXPECT(lrc_slot_runs(lent, from, runs, capacity, &count), LRC_STORE_DONE);
        for (uint64_t i = 0; i < count; i++) {
            EXPECT(runs[i].len > 0, 1);
            memcpy(target, runs[i].at, runs[i].len);
            target += runs[i].len;
            from += runs[i].len;
        }
        for (uint64_t i = count; i < 64; i++) EXPECT(runs[i].len, 0);
        number += count;
    } while (count == capacity);
    return number;
}
#endif

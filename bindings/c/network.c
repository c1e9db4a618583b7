/* Rebuilds a fragment as others arrive, updates one in place, and rebuilds two at once. It prints
 * HELL, HALL and HALLO, F. */
#include "lrc_coder.h"
#include <stdio.h>
#include <string.h>

#define LEN 4

static uint8_t stripe[16][LEN];

/* Rebuilds a lost fragment into `target`, from fragments that `fetch` reads one by one. */
static uint32_t rebuild(uint16_t lost, uint8_t fragment, uint8_t *target, size_t len,
                        void (*fetch)(uint8_t number, uint8_t *into, size_t len)) {
    uint8_t numbers[16], coefficients[16], arrived[64];
    uint32_t count, status = lrc_recipe(12, lost, fragment, numbers, coefficients, &count);
    if (status != LRC_DONE || len > sizeof arrived)
        return status != LRC_DONE ? status : LRC_BAD_ARGUMENT;
    memset(target, 0, len);
    for (uint32_t i = 0; i < count; i++) {
        fetch(numbers[i], arrived, len);
        lrc_add(target, len, coefficients[i], arrived, len);
    }
    return LRC_DONE;
}

/* Overwrites a data fragment, and changes the four parities to match. */
static uint32_t update(uint8_t fragment, uint8_t *data, const uint8_t *change, size_t len,
                       uint8_t *const *parities) {
    uint8_t difference[64];
    if (len > sizeof difference) return LRC_BAD_ARGUMENT;
    for (size_t i = 0; i < len; i++) {
        difference[i] = data[i] ^ change[i];
        data[i] = change[i];
    }
    return lrc_encode_add_arrays(12, len, fragment, difference, parities);
}

/* Rebuilds lost fragments into `targets`, from those that a plan reads. `numbers` has up to four
 * lost fragments, and LRC_NONE for no more; a target for none is not written. */
static uint32_t repair(uint16_t lost, const uint8_t numbers[4], uint8_t targets[4][LEN],
                       void (*fetch)(uint8_t number, uint8_t *into, size_t len)) {
    uint8_t plan[LRC_PLAN_BYTES], arrived[16][LEN];
    lrc_slice slices[16];
    uint16_t reads;
    uint32_t status = lrc_plan(12, lost, numbers, plan, &reads);
    if (status != LRC_DONE) return status;
    for (uint8_t i = 0; i < 16; i++) {
        slices[i].at = arrived[i];
        slices[i].len = reads >> i & 1 ? LEN : 0;
        if (reads >> i & 1) fetch(i, arrived[i], LEN);
    }
    return lrc_plan_decode(plan, slices, 0, LEN, targets[0], LEN, targets[1], LEN, targets[2], LEN,
                           targets[3], LEN);
}

/* Stands for a read from another machine. */
static void fetch(uint8_t number, uint8_t *into, size_t len) { memcpy(into, stripe[number], len); }

int main(void) {
    uint8_t *parities[4] = {stripe[12], stripe[13], stripe[14], stripe[15]};
    const uint8_t *data[12];
    uint8_t rebuilt[LEN], targets[4][LEN];
    for (int i = 0; i < 12; i++) {
        memcpy(stripe[i], "HELLO, FRAGMENTS OF DATA OF MANY FRAGMENTS OF DATA" + 4 * i, LEN);
        data[i] = stripe[i];
    }
    if (lrc_encode_arrays(12, LEN, data, parities) != LRC_DONE ||
        rebuild(1, 0, rebuilt, LEN, fetch) != LRC_DONE)
        return 1;
    printf("%.4s\n", (const char *)rebuilt);
    if (update(0, stripe[0], (const uint8_t *)"HALL", LEN, parities) != LRC_DONE ||
        rebuild(1, 0, rebuilt, LEN, fetch) != LRC_DONE)
        return 1;
    printf("%.4s\n", (const char *)rebuilt);
    if (repair(3, (const uint8_t[4]){0, 1, LRC_NONE, LRC_NONE}, targets, fetch) != LRC_DONE)
        return 1;
    return printf("%.8s\n", (const char *)targets[0]) < 0;
}

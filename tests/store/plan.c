/* What library/store_plan.c hands on to the proved function, and what it refuses. Link with that
 * file, and without the library. */
#include "store_test.h"

static lrc_slot *seen_slot, *seen_other;
static uint64_t *seen_items, seen_most;
static int calls;

uint32_t lrc_store_plan_part_of_any(lrc_slot *slot, lrc_slot *other, uint64_t most,
                                    uint64_t *items);
uint32_t lrc_store_plan_part_of_any(lrc_slot *slot, lrc_slot *other, uint64_t most,
                                    uint64_t *items) {
    calls++;
    seen_slot = slot;
    seen_other = other;
    seen_most = most;
    seen_items = items;
    return LRC_STORE_OCCUPIED;
}

int main(void) {
    static const uint64_t sizes[] = {1, 2, 512, UINT64_C(1) << 32, UINT64_MAX};
    lrc_slot slot = LRC_SLOT_EMPTY, other = LRC_SLOT_EMPTY;
    uint64_t items = 77;
    EXPECT(lrc_store_plan_part(&slot, &other, 0, &items), LRC_STORE_BAD_ARGUMENT);
    EXPECT(calls, 0);
    EXPECT(items, 77);
    for (int i = 0; i < 5; i++) {
        EXPECT(lrc_store_plan_part(&slot, &other, sizes[i], &items), LRC_STORE_OCCUPIED);
        EXPECT(seen_slot == &slot && seen_other == &other && seen_items == &items, 1);
        EXPECT(seen_most, sizes[i]);
        EXPECT(calls, i + 1);
    }
    return report("plan");
}

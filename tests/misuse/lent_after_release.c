/* Lent bytes are read after the release of their slot. */
#include "misuse.h"

int main(void) {
    lrc_slot slot = LRC_SLOT_EMPTY, range = LRC_SLOT_EMPTY;
    lrc_slice slice = {(const uint8_t *)"", 0};
    uint64_t version = 0, pieces = 0, count = 0;
    open_store(&slot);
    put(&slot, "a");
    EXPECT(lrc_store_lend(&slot, NAME("a"), 0, 4, &range, &version, &pieces), LRC_STORE_DONE);
    EXPECT(lrc_slot_slices(&range, &slice, 1, &count), LRC_STORE_DONE);
    lrc_slot_release(&range);
    lrc_slot_release(&slot);
    printf("%c\n", slice.at[0]);
    return report("misuse");
}

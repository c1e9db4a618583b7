/* The range goes into the slot of the session. */
#include "misuse.h"

int main(void) {
    lrc_slot slot = LRC_SLOT_EMPTY;
    uint64_t version = 0, pieces = 0;
    open_store(&slot);
    put(&slot, "a");
    EXPECT(lrc_store_lend(&slot, NAME("a"), 0, 4, &slot, &version, &pieces), LRC_STORE_OCCUPIED);
    lrc_slot_release(&slot);
    return report("misuse");
}

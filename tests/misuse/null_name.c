/* The name is NULL, at length 0. */
#include "misuse.h"

int main(void) {
    lrc_slot slot = LRC_SLOT_EMPTY;
    uint64_t version = 0;
    open_store(&slot);
    EXPECT(lrc_store_put(&slot, NULL, 0, BLOB, 12, &version), LRC_STORE_BAD_NAME);
    lrc_slot_release(&slot);
    return report("misuse");
}

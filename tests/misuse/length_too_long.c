/* The blob has fewer bytes than its length says. */
#include "misuse.h"

int main(void) {
    lrc_slot slot = LRC_SLOT_EMPTY;
    uint64_t version = 0;
    uint8_t *blob = malloc(16);
    memset(blob, 1, 16);
    open_store(&slot);
    EXPECT(lrc_store_put(&slot, NAME("a"), blob, 1600, 12, &version), LRC_STORE_DONE);
    lrc_slot_release(&slot);
    free(blob);
    return report("misuse");
}

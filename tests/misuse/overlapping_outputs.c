/* One variable takes three outputs. */
#include "misuse.h"

int main(void) {
    lrc_slot slot = LRC_SLOT_EMPTY;
    uint64_t number = 0;
    uint8_t target[4];
    open_store(&slot);
    put(&slot, "a");
    EXPECT(lrc_store_read(&slot, NAME("a"), 0, target, 4, &number, &number, &number),
           LRC_STORE_DONE);
    lrc_slot_release(&slot);
    return report("misuse");
}

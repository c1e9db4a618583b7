/* A slot is initialised anew, and what it held is not released. */
#include "misuse.h"

int main(void) {
    static lrc_slot slot;
    for (int i = 0; i < 2; i++) {
        slot = (lrc_slot)LRC_SLOT_EMPTY;
        open_store(&slot);
        put(&slot, "a");
    }
    lrc_slot_release(&slot);
    return report("misuse");
}

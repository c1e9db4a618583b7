/* A slot is copied, and both are used. */
#include "misuse.h"

int main(void) {
    lrc_slot slot = LRC_SLOT_EMPTY, copy;
    open_store(&slot);
    copy = slot;
    put(&copy, "a");
    lrc_slot_release(&slot);
    put(&copy, "a");
    lrc_slot_release(&copy);
    return report("misuse");
}

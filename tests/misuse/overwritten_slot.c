/* A slot is overwritten by bytes that no function left there. */
#include "misuse.h"

int main(void) {
    lrc_slot slot = LRC_SLOT_EMPTY;
    open_store(&slot);
    memset(&slot, 0x55, sizeof slot);
    lrc_slot_release(&slot);
    return report("misuse");
}

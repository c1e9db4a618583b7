/* The version is printed, and the name is none. */
#include "misuse.h"

int main(void) {
    lrc_slot slot = LRC_SLOT_EMPTY;
    uint64_t version;
    open_store(&slot);
    lrc_store_put(&slot, NAME("NO NAME"), BLOB, 12, &version);
    printf("version %" PRIu64 "\n", version);
    lrc_slot_release(&slot);
    return report("misuse");
}

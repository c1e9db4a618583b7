/* What a plug-in with its own copy of the library does: it opens a store that has a blob. */
#include "lrc_store.h"

__attribute__((visibility("default"))) uint32_t open_store(lrc_slot *slot, uint32_t width);

uint32_t open_store(lrc_slot *slot, uint32_t width) {
    uint64_t version = 0;
    const uint32_t status = lrc_store_open(width, 100, slot);
    return status ? status
                  : lrc_store_put(slot, (const uint8_t *)"kept", 4, (const uint8_t *)"bytes", 5, 12,
                                  &version);
}

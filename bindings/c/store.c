#include "lrc_store.h"
#include <stdio.h>

#define GREETING (const uint8_t *)"greeting", 8

int main(void) {
    lrc_slot store = LRC_SLOT_EMPTY;
    uint64_t version, lent, built, entries;
    uint32_t lawful;
    uint8_t text[12];
    if (lrc_store_open_unjournaled(4, &store) || /* fragments of 4 bytes */
        lrc_store_put(&store, GREETING, (const uint8_t *)"HELLO, WORLD", 12, 12, &version) ||
        lrc_store_lose(&store, GREETING, 0, 0, &version) || /* two fragments of stripe 0 fail */
        lrc_store_lose(&store, GREETING, 0, 2, &version) ||
        lrc_store_read(&store, GREETING, 0, text, 12, &version, &lent, &built) || /* degraded */
        lrc_store_repair(&store, GREETING, 0, 0, &version) ||
        lrc_store_repair(&store, GREETING, 0, 2, &version) ||
        lrc_store_close(&store, &entries, &lawful))
        return 1;
    return printf("%.12s\n", (const char *)text) < 0;
}

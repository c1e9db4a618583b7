/* What programs that break a rule of lrc_store.h have in common. */
#ifndef MISUSE_H
#define MISUSE_H
#include "store_test.h"

#define BLOB (const uint8_t *)"some bytes", 10

/* Fills a slot with the first session of a store. */
static inline void open_store(lrc_slot *slot) {
    EXPECT(lrc_store_open(4, 100, slot), LRC_STORE_DONE);
}

/* Stores a blob by the session in a slot. */
static inline void put(lrc_slot *slot, const char *name) {
    uint64_t version = 0;
    EXPECT(lrc_store_put(slot, NAME(name), BLOB, 12, &version), LRC_STORE_DONE);
}
#endif

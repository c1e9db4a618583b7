/* Calls of a store of fifty blobs, of 64 bytes each, in so many rounds: `put`, `read` or `stat`.
 * What they take is counted from outside. */
#include "store_test.h"
#include <stdio.h>
#include <stdlib.h>

enum { BLOBS = 50, BYTES = 64, WIDTH = 6 };

static char names[BLOBS][17];
static uint8_t blob[BYTES], got[BYTES];

static uint32_t put(lrc_slot *slot, const char *name) {
    uint64_t version;
    return lrc_store_put(slot, NAME(name), blob, BYTES, 12, &version);
}

static uint32_t read(lrc_slot *slot, const char *name) {
    uint64_t version, lent, built;
    return lrc_store_read(slot, NAME(name), 0, got, BYTES, &version, &lent, &built);
}

static uint32_t stat(lrc_slot *slot, const char *name) {
    uint64_t version, len, stripes, lost;
    return lrc_store_stat(slot, NAME(name), &version, &len, &stripes, &lost);
}

int main(int count, char **words) {
    uint32_t (*call)(lrc_slot *, const char *) = count == 3 && !strcmp(words[1], "put")    ? put
                                                 : count == 3 && !strcmp(words[1], "read") ? read
                                                                                           : stat;
    lrc_slot slot = LRC_SLOT_EMPTY;
    EXPECT(lrc_store_open_unjournaled(WIDTH, &slot), LRC_STORE_DONE);
    for (int i = 0; i < BLOBS; i++) {
        snprintf(names[i], sizeof names[i], "key-000000-%05d", i * 7919 % BLOBS);
        EXPECT(put(&slot, names[i]), LRC_STORE_DONE);
    }
    for (int round = atoi(words[count - 1]); round > 0; round--)
        for (int i = 0; i < BLOBS; i++) EXPECT(call(&slot, names[i]), LRC_STORE_DONE);
    lrc_slot_release(&slot);
    return report("instructions");
}

/* A session of no pool is given to one. */
#include "misuse.h"

int main(void) {
    lrc_slot slot = LRC_SLOT_EMPTY, own = LRC_SLOT_EMPTY;
    lrc_pool *pool = NULL;
    open_store(&slot);
    EXPECT(lrc_store_split(&slot, 1, &own), LRC_STORE_DONE);
    EXPECT(lrc_pool_open(&slot, &pool), LRC_STORE_DONE);
    lrc_pool_give(pool, &own);
    return report("misuse");
}

/* A session is used after it was given back. */
#include "misuse.h"

int main(void) {
    lrc_slot slot = LRC_SLOT_EMPTY, *session = NULL;
    lrc_pool *pool = NULL;
    open_store(&slot);
    EXPECT(lrc_pool_open(&slot, &pool), LRC_STORE_DONE);
    EXPECT(lrc_pool_take(pool, &session, 0), LRC_STORE_DONE);
    lrc_pool_give(pool, session);
    put(session, "a");
    EXPECT(lrc_pool_close(pool, &slot), LRC_STORE_DONE);
    lrc_slot_release(&slot);
    return report("misuse");
}

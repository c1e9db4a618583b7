/* A session is given to a pool that did not lend it. */
#include "misuse.h"

int main(void) {
    lrc_slot slots[2] = {LRC_SLOT_EMPTY, LRC_SLOT_EMPTY}, *session = NULL;
    lrc_pool *pools[2] = {NULL, NULL};
    for (int i = 0; i < 2; i++) {
        open_store(&slots[i]);
        EXPECT(lrc_pool_open(&slots[i], &pools[i]), LRC_STORE_DONE);
    }
    EXPECT(lrc_pool_take(pools[0], &session, 0), LRC_STORE_DONE);
    lrc_pool_give(pools[1], session);
    return report("misuse");
}

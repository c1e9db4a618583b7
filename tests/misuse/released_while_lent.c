/* A session is released while it is lent. */
#include "misuse.h"

int main(void) {
    lrc_options options = {sizeof options, 4, 1, 100, 0};
    lrc_shards *shards = NULL;
    lrc_pool *pool = NULL;
    lrc_slot *session = NULL;
    uint64_t entries = 0;
    uint32_t lawful = 0;
    EXPECT(lrc_shards_open(&options, &shards), LRC_STORE_DONE);
    EXPECT(lrc_shards_at(shards, 0, &pool), LRC_STORE_DONE);
    EXPECT(lrc_pool_take(pool, &session, 0), LRC_STORE_DONE);
    put(session, "a");
    lrc_slot_release(session);
    lrc_pool_give(pool, session);
    EXPECT(lrc_shards_close(shards, &entries, &lawful), LRC_STORE_EMPTY);
    return report("misuse");
}

/* A session is given back while another thread is inside a call with it. */
#include "inside.h"

static lrc_slot slot, *session;
static lrc_pool *pool;

static void *give(void *argument) {
    lrc_pool_give(pool, session);
    return argument;
}

static void give_in_another_thread(void) {
    pthread_t thread;
    EXPECT(pthread_create(&thread, NULL, give, NULL), 0);
    EXPECT(pthread_join(thread, NULL), 0);
}

int main(void) {
    open_store(&slot);
    EXPECT(lrc_pool_open(&slot, &pool), LRC_STORE_DONE);
    EXPECT(lrc_pool_take(pool, &session, 0), LRC_STORE_DONE);
    at_malloc = give_in_another_thread;
    put(session, "a");
    EXPECT(lrc_pool_close(pool, &slot), LRC_STORE_DONE);
    lrc_slot_release(&slot);
    return report("misuse");
}

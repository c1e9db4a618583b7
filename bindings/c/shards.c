#include "lrc_store.h"
#include <inttypes.h>
#include <pthread.h>
#include <stdio.h>

enum { BLOBS = 1000 };

static lrc_shards *store;

/* Puts a blob, and loses two fragments of its stripe, on a session of the name's shard. */
static int put_and_lose(const uint8_t *name, size_t len) {
    lrc_pool *pool;
    lrc_slot *session;
    uint64_t version;
    if (lrc_shards_find(store, name, len, &pool) || lrc_pool_take(pool, &session, -1)) return 1;
    const int failed = lrc_store_put_wait(session, name, len, (const uint8_t *)"HELLO, WORLD", 12,
                                          12, &version, -1) ||
                       lrc_store_lose_wait(session, name, len, 0, 0, &version, -1) ||
                       lrc_store_lose_wait(session, name, len, 0, 2, &version, -1);
    lrc_pool_give(pool, session);
    return failed;
}

static int read_to(uint8_t text[12], const uint8_t *name, size_t len) {
    lrc_pool *pool;
    lrc_slot *session;
    uint64_t version, lent, built;
    if (lrc_shards_find(store, name, len, &pool) || lrc_pool_take(pool, &session, -1)) return 1;
    const int failed =
        lrc_store_read_wait(session, name, len, 0, text, 12, &version, &lent, &built, -1) != 0;
    lrc_pool_give(pool, session);
    return failed;
}

/* Repairs what is lost. Two threads at once share the work. */
static void *mend(void *repaired) {
    lrc_shards_mend(store, repaired, -1);
    return NULL;
}

int main(void) {
    const lrc_options options = {sizeof options, 4, 16, 0, 0}; /* 16 shards, no journals */
    uint64_t repaired[2] = {0, 0}, entries;
    uint32_t lawful;
    uint8_t text[12];
    lrc_numbers numbers;
    pthread_t threads[2];
    if (lrc_shards_open(&options, &store)) return 1;
    for (unsigned i = 0; i < BLOBS; i++) {
        char name[16];
        const int len = snprintf(name, sizeof name, "greeting-%u", i);
        if (put_and_lose((const uint8_t *)name, (size_t)len)) return 1;
    }
    if (read_to(text, (const uint8_t *)"greeting-7", 10)) return 1; /* degraded */
    for (int i = 0; i < 2; i++)
        if (pthread_create(&threads[i], NULL, mend, &repaired[i])) return 1;
    for (int i = 0; i < 2; i++) pthread_join(threads[i], NULL);
    if (lrc_shards_numbers(store, &numbers, -1)) return 1;
    printf("%.12s: %" PRIu64 " repaired, %" PRIu64 " lost\n", (const char *)text,
           repaired[0] + repaired[1], numbers.lost);
    return lrc_shards_close(store, &entries, &lawful) != 0;
}

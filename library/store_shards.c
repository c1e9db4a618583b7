/* A store of several shards.
 *
 * Each shard is a store with a pool of its sessions. A name belongs to the shard that the proved
 * lrc_store_shard tells, so no two shards have blobs of one name. */
#include "deadline.h"
#include "pool.h"

#include <pthread.h>
#include <stdatomic.h>
#include <stdlib.h>

enum { MOST_SHARDS = 64, LAWFUL = 1, UNCHECKED = 2 };

struct lrc_shards {
    uint32_t count;
    _Atomic uint32_t mends; /* how many mends began */
    lrc_pool *pools[];
};

/* Whether the caller knows no option that this version lacks. */
static int are_known(const lrc_options *options) {
    const unsigned char *bytes = (const unsigned char *)options;
    if (options->size < sizeof *options || options->reserved) return 0;
    for (size_t i = sizeof *options; i < options->size; i++)
        if (bytes[i]) return 0;
    return 1;
}

/* Frees the shards that were opened. */
static void release(lrc_shards *shards) {
    for (uint32_t shard = 0; shard < shards->count; shard++) {
        lrc_slot slot = LRC_SLOT_EMPTY;
        lrc_pool_close(shards->pools[shard], &slot);
        lrc_slot_release(&slot);
    }
    free(shards);
}

static uint32_t open_shard(const lrc_options *options, lrc_pool **pool) {
    lrc_slot slot = LRC_SLOT_EMPTY;
    uint32_t status = options->limit ? lrc_store_open(options->width, options->limit, &slot)
                                     : lrc_store_open_unjournaled(options->width, &slot);
    if (status == LRC_STORE_DONE) status = lrc_pool_open(&slot, pool);
    lrc_slot_release(&slot);
    return status;
}

uint32_t lrc_shards_open(const lrc_options *options, lrc_shards **shards) {
    if (!are_known(options) || options->shards < 1 || options->shards > MOST_SHARDS)
        return LRC_STORE_BAD_ARGUMENT;
    lrc_shards *made = calloc(1, sizeof *made + options->shards * sizeof(lrc_pool *));
    if (!made) return LRC_STORE_NO_MEMORY;
    while (made->count < options->shards) {
        const uint32_t status = open_shard(options, &made->pools[made->count]);
        if (status != LRC_STORE_DONE) {
            release(made);
            return status;
        }
        made->count++;
    }
    *shards = made;
    return LRC_STORE_DONE;
}

uint32_t lrc_shards_at(lrc_shards *shards, uint32_t shard, lrc_pool **pool) {
    if (shard >= shards->count) return LRC_STORE_NOTHING_LEFT;
    *pool = shards->pools[shard];
    return LRC_STORE_DONE;
}

uint32_t lrc_shards_find(lrc_shards *shards, const uint8_t *name, size_t name_len,
                         lrc_pool **pool) {
    uint32_t shard = 0;
    const uint32_t status = lrc_store_shard(name, name_len, shards->count, &shard);
    return status == LRC_STORE_DONE ? lrc_shards_at(shards, shard, pool) : status;
}

/* A call on each shard: its arguments, and what it writes. */
struct call {
    uint32_t (*run)(lrc_slot *session, struct call *call, int64_t timeout_ms);
    uint64_t keep, count;
    int64_t of_step_ms;
    lrc_numbers numbers;
};

struct lent {
    lrc_pool *pool;
    lrc_slot *session;
};

static void give_back(void *argument) {
    const struct lent *lent = argument;
    lrc_pool_give(lent->pool, lent->session);
}

/* Makes a call on a session of the pool, which gets it back also if the thread is cancelled. */
static uint32_t call_on(lrc_pool *pool, struct call *call, int64_t deadline) {
    struct lent lent = {pool, NULL};
    uint32_t status = lrc_pool_take(pool, &lent.session, left_ms(deadline));
    if (status != LRC_STORE_DONE) return status;
    pthread_cleanup_push(give_back, &lent);
    status = call->run(lent.session, call, left_ms(deadline));
    pthread_cleanup_pop(1);
    return status;
}

static uint64_t sum(uint64_t a, uint64_t b) { return a > UINT64_MAX - b ? UINT64_MAX : a + b; }

static uint32_t add_numbers(lrc_slot *session, struct call *call, int64_t timeout_ms) {
    lrc_numbers of_shard, *all = &call->numbers;
    const uint32_t status = lrc_store_numbers_wait(session, &of_shard, timeout_ms);
    if (status != LRC_STORE_DONE) return status;
    all->blobs = sum(all->blobs, of_shard.blobs);
    all->bytes = sum(all->bytes, of_shard.bytes);
    all->lost = sum(all->lost, of_shard.lost);
    all->unrecoverable = sum(all->unrecoverable, of_shard.unrecoverable);
    all->calls = sum(all->calls, of_shard.calls);
    all->entries = sum(all->entries, of_shard.entries);
    return status;
}

uint32_t lrc_shards_numbers(lrc_shards *shards, lrc_numbers *numbers, int64_t timeout_ms) {
    const int64_t deadline = deadline_after(timeout_ms);
    struct call call = {.run = add_numbers};
    for (uint32_t shard = 0; shard < shards->count; shard++) {
        const uint32_t status = call_on(shards->pools[shard], &call, deadline);
        if (status != LRC_STORE_DONE) return status;
    }
    *numbers = call.numbers;
    return LRC_STORE_DONE;
}

static uint32_t trim(lrc_slot *session, struct call *call, int64_t timeout_ms) {
    uint64_t discarded = 0;
    const uint32_t status = lrc_store_trim_wait(session, call->keep, &discarded, timeout_ms);
    call->count += discarded;
    return status;
}

uint32_t lrc_shards_trim(lrc_shards *shards, uint64_t keep, uint64_t *discarded,
                         int64_t timeout_ms) {
    const int64_t deadline = deadline_after(timeout_ms);
    struct call call = {.run = trim, .keep = keep};
    uint32_t status = LRC_STORE_DONE;
    for (uint32_t shard = 0; status == LRC_STORE_DONE && shard < shards->count; shard++)
        status =
            is_over(deadline) ? LRC_STORE_BUSY : call_on(shards->pools[shard], &call, deadline);
    if (status == LRC_STORE_DONE || call.count) *discarded = call.count;
    return status;
}

/* Each step of it has the whole timeout. */
static uint32_t mend(lrc_slot *session, struct call *call, int64_t timeout_ms) {
    uint64_t repaired = 0;
    (void)timeout_ms;
    const uint32_t status = lrc_store_mend_wait(session, &repaired, call->of_step_ms);
    call->count += repaired;
    return status;
}

/* The shard that a mend begins with: of two that begin one after the other, far apart. */
static uint32_t first_shard(lrc_shards *shards) {
    const uint32_t before = atomic_fetch_add(&shards->mends, 1);
    return (uint32_t)((before * UINT64_C(0x9E3779B9) & UINT32_MAX) * shards->count >> 32);
}

uint32_t lrc_shards_mend(lrc_shards *shards, uint64_t *repaired, int64_t timeout_ms) {
    const uint32_t first = first_shard(shards);
    struct call call = {.run = mend, .of_step_ms = timeout_ms};
    uint32_t status = LRC_STORE_DONE;
    for (uint32_t i = 0; status == LRC_STORE_DONE && i < shards->count; i++)
        status =
            call_on(shards->pools[(first + i) % shards->count], &call, deadline_after(timeout_ms));
    if (status == LRC_STORE_DONE || call.count) *repaired = call.count;
    return status;
}

/* Closes a shard, of which no session is lent, and frees it. LRC_STORE_EMPTY if a session was not
 * given back, so that the others have not all places of the store. */
static uint32_t close_shard(lrc_pool *pool, uint64_t *entries, uint32_t *lawful) {
    lrc_slot slot = LRC_SLOT_EMPTY;
    uint64_t of_shard = 0;
    uint32_t of_journal = LAWFUL, status = lrc_pool_close(pool, &slot);
    if (status == LRC_STORE_DONE) status = lrc_store_close(&slot, &of_shard, &of_journal);
    lrc_slot_release(&slot); /* if it could not be closed */
    *entries += of_shard;
    *lawful = status == LRC_STORE_DONE ? of_journal : UNCHECKED;
    return status == LRC_STORE_DONE ? LRC_STORE_DONE : LRC_STORE_EMPTY;
}

uint32_t lrc_shards_close(lrc_shards *shards, uint64_t *entries, uint32_t *lawful) {
    uint32_t status = LRC_STORE_DONE;
    for (uint32_t shard = 0; shard < shards->count; shard++)
        if (pool_is_busy(shards->pools[shard])) return LRC_STORE_NOT_ALONE;
    *entries = 0;
    *lawful = LAWFUL;
    for (uint32_t shard = 0; shard < shards->count; shard++) {
        uint32_t of_journal;
        const uint32_t closed = close_shard(shards->pools[shard], entries, &of_journal);
        if (closed != LRC_STORE_DONE) status = closed;
        if (of_journal != LAWFUL) *lawful = of_journal;
    }
    free(shards);
    return status;
}

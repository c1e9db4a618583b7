/* Calls of the store on a session that they take and give back, so that a call of the Go package is
 * one call of C. A preamble of cgo includes this file, and defines _GoString_. */
#ifndef CALLS_H
#define CALLS_H
#include "lrc_store.h"

#include <stdlib.h>
#include <string.h>

/* The status of a call, and the numbers that it wrote. The others are 0. */
typedef struct {
    uint32_t status;
    uint64_t version;
    uint64_t count; /* of planned or discarded items */
    uint64_t len, stripes, lost;
} lrc_reply;

/* The reply of a hold, with the version. */
typedef struct {
    lrc_reply reply;
    lrc_slot version;
} lrc_holding;

/* The name as two arguments, of which the address is not NULL. */
#define NAME (const uint8_t *)(_GoStringLen(name) ? _GoStringPtr(name) : ""), _GoStringLen(name)

/* The body of a call on a session of the pool that `find` writes. */
#define ON_SESSION(find, call)                                                                     \
    lrc_reply reply = {0};                                                                         \
    lrc_pool *pool = NULL;                                                                         \
    lrc_slot *slot = NULL;                                                                         \
    reply.status = (find);                                                                         \
    /* Go lets no more calls in than there are sessions, so that none waits here */                \
    if (reply.status == LRC_STORE_DONE) reply.status = lrc_pool_take(pool, &slot, timeout_ms);     \
    if (reply.status != LRC_STORE_DONE) return reply;                                              \
    reply.status = (call);                                                                         \
    lrc_pool_give(pool, slot);                                                                     \
    return reply

/* Of a call of `name`, and of a call of the shard with a number. */
#define AT_NAME(call) ON_SESSION(lrc_shards_find(shards, NAME, &pool), call)
#define AT_SHARD(call) ON_SESSION(lrc_shards_at(shards, shard, &pool), call)

static inline lrc_reply store_put(lrc_shards *shards, _GoString_ name, const uint8_t *blob,
                                  size_t len, uint32_t data_fragments, int64_t timeout_ms) {
    if (!len) blob = (const uint8_t *)"";
    AT_NAME(lrc_store_put_wait(slot, NAME, blob, len, data_fragments, &reply.version, timeout_ms));
}

static inline lrc_reply store_put_from(lrc_shards *shards, _GoString_ name, lrc_slot *copy,
                                       uint32_t data_fragments, int64_t timeout_ms) {
    AT_NAME(lrc_store_put_from_wait(slot, NAME, copy, data_fragments, &reply.version, timeout_ms));
}

static inline lrc_reply store_read(lrc_shards *shards, _GoString_ name, uint64_t start,
                                   uint8_t *target, size_t len, int64_t timeout_ms) {
    uint64_t lent, built;
    uint8_t none;
    if (!len) target = &none;
    AT_NAME(lrc_store_read_wait(slot, NAME, start, target, len, &reply.version, &lent, &built,
                                timeout_ms));
}

static inline lrc_reply store_lend(lrc_shards *shards, _GoString_ name, uint64_t start,
                                   uint64_t len, lrc_slot *range, int64_t timeout_ms) {
    AT_NAME(lrc_store_lend_wait(slot, NAME, start, len, range, &reply.version, &reply.count,
                                timeout_ms));
}

static inline lrc_reply store_lose(lrc_shards *shards, _GoString_ name, uint64_t stripe,
                                   uint64_t fragment, int64_t timeout_ms) {
    AT_NAME(lrc_store_lose_wait(slot, NAME, stripe, fragment, &reply.version, timeout_ms));
}

static inline lrc_reply store_repair(lrc_shards *shards, _GoString_ name, uint64_t stripe,
                                     uint64_t fragment, int64_t timeout_ms) {
    AT_NAME(lrc_store_repair_wait(slot, NAME, stripe, fragment, &reply.version, timeout_ms));
}

static inline lrc_reply store_delete(lrc_shards *shards, _GoString_ name, int64_t timeout_ms) {
    AT_NAME(lrc_store_delete_wait(slot, NAME, &reply.version, timeout_ms));
}

static inline lrc_reply store_stat(lrc_shards *shards, _GoString_ name, int64_t timeout_ms) {
    AT_NAME(lrc_store_stat_wait(slot, NAME, &reply.version, &reply.len, &reply.stripes, &reply.lost,
                                timeout_ms));
}

static inline lrc_reply store_trim(lrc_shards *shards, uint64_t keep, int64_t timeout_ms) {
    lrc_reply reply = {0};
    reply.status = lrc_shards_trim(shards, keep, &reply.count, timeout_ms);
    return reply;
}

static inline lrc_reply store_plan(lrc_shards *shards, uint32_t shard, lrc_slot *plan,
                                   uint64_t most, int64_t timeout_ms) {
    AT_SHARD(lrc_store_plan_part_wait(slot, plan, most, &reply.count, timeout_ms));
}

/* Writes the next item of a plan, and returns whether there is one. */
static inline int next_item(lrc_slot *plan, lrc_item *item) {
    uint64_t count = 0;
    *item = (lrc_item){{(const uint8_t *)"", 0}, 0, 0, 0};
    return lrc_slot_items(plan, item, 1, &count) == LRC_STORE_DONE && count;
}

static inline lrc_reply store_mend_step(lrc_shards *shards, uint32_t shard, lrc_slot *plan,
                                        int64_t timeout_ms) {
    AT_SHARD(lrc_store_mend_step_wait(slot, plan, &reply.version, timeout_ms));
}

static inline lrc_reply store_hold(lrc_shards *shards, _GoString_ name, lrc_slot *held,
                                   int64_t timeout_ms) {
    AT_NAME(lrc_store_hold_wait(slot, NAME, held, &reply.version, &reply.len, timeout_ms));
}

/* The same, for a caller that keeps no slot. */
static inline lrc_holding store_holding(lrc_shards *shards, _GoString_ name, int64_t timeout_ms) {
    lrc_holding held = {.version = LRC_SLOT_EMPTY};
    held.reply = store_hold(shards, name, &held.version, timeout_ms);
    return held;
}

static inline lrc_reply store_restore(lrc_shards *shards, _GoString_ name, lrc_slot *held,
                                      uint64_t stripe, uint64_t fragment, const uint8_t *bytes,
                                      size_t len, int64_t timeout_ms) {
    if (!len) bytes = (const uint8_t *)"";
    AT_NAME(lrc_store_restore_wait(slot, held, stripe, fragment, bytes, len, &reply.version,
                                   timeout_ms));
}

static inline lrc_reply store_numbers(lrc_shards *shards, lrc_numbers *numbers,
                                      int64_t timeout_ms) {
    lrc_reply reply = {0};
    reply.status = lrc_shards_numbers(shards, numbers, timeout_ms);
    return reply;
}

static inline uint32_t store_open(uint32_t width, uint32_t shards, uint32_t limit,
                                  lrc_shards **opened) {
    const lrc_options options = {sizeof options, width, shards, limit, 0};
    return lrc_shards_open(&options, opened);
}

/* Closes a store of which no session is lent. */
static inline uint32_t store_close(lrc_shards *shards) {
    uint64_t entries;
    uint32_t lawful;
    return lrc_shards_close(shards, &entries, &lawful);
}

/* The bytes of a fragment of a held version, which are valid until the slot is passed on. */
static inline uint32_t fragment_of(lrc_slot *held, uint64_t stripe, uint64_t fragment,
                                   lrc_slice *bytes) {
    *bytes = (lrc_slice){(const uint8_t *)"", 0};
    return lrc_slot_fragment(held, stripe, fragment, bytes);
}

static inline void name_of(const uint8_t *key, size_t len, uint8_t *name) {
    lrc_store_name(len ? key : (const uint8_t *)"", len, name);
}

/* An empty slot, which C keeps in place. NULL if out of memory. */
static inline lrc_slot *new_slot(void) { return calloc(1, sizeof(lrc_slot)); }

static inline void free_slot(lrc_slot *slot) {
    lrc_slot_release(slot);
    free(slot);
}

/* A slot with a copy of the bytes, which a put takes without a further one. NULL if out of memory.
 */
static inline lrc_slot *copy_of(const uint8_t *bytes, size_t len) {
    lrc_slot *copy = new_slot();
    lrc_buffer buffer = {(uint8_t *)"", 0};
    if (!copy || lrc_slot_reserve(len, copy) != LRC_STORE_DONE) {
        free(copy);
        return NULL;
    }
    lrc_slot_buffer(copy, &buffer);
    if (buffer.len) memcpy(buffer.at, bytes, buffer.len);
    return copy;
}

/* Writes runs of a lent range from the byte `from` on, and returns their number. */
static inline uint64_t runs_of(lrc_slot *range, uint64_t from, lrc_slice *runs, size_t capacity) {
    uint64_t count = 0;
    for (size_t i = 0; i < capacity; i++) runs[i] = (lrc_slice){(const uint8_t *)"", 0};
    lrc_slot_runs(range, from, runs, capacity, &count);
    return count;
}

/* Copies a range of a held version, also one of no byte. */
static inline uint32_t copy_to(lrc_slot *version, uint64_t start, uint8_t *target, size_t len) {
    uint8_t none;
    return lrc_slot_copy(version, start, len ? target : &none, len);
}

/* Copies all bytes of a version, and frees it. */
static inline uint32_t copy_all(lrc_slot version, uint8_t *target, size_t len) {
    const uint32_t status = copy_to(&version, 0, target, len);
    lrc_slot_release(&version);
    return status;
}

#endif

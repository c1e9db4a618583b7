/* The calls of library/store_shards.c on all shards, over shards that a test makes up, and a clock
 * that stands still unless a shard takes its time. Link with that file and --wrap=clock_gettime,
 * and without the library. */
#include "store_test.h"

#include "pool.h"

#include <time.h>

enum { MOST = 64, FIELDS = 6, STEP_MS = 30, NS_IN_MS = 1000000, NS_IN_S = 1000000000 };

/* A shard: what it says, how long a call on it takes, and what it was asked. */
struct lrc_pool {
    lrc_slot session;
    lrc_numbers numbers;
    uint64_t count, entries, keep;
    uint32_t lawful, status;
    int64_t takes_ms, session_ms, call_ms;
    unsigned calls, order;
};

static lrc_pool pools[MOST];
static uint32_t opened, widths, limits, lent;
static unsigned asked;
static int64_t now = INT64_C(7000000000000);

int __wrap_clock_gettime(clockid_t by, struct timespec *time);
int __wrap_clock_gettime(clockid_t by, struct timespec *time) {
    EXPECT(by, CLOCK_MONOTONIC);
    *time = (struct timespec){now / NS_IN_S, now % NS_IN_S};
    return 0;
}

uint32_t lrc_store_open(uint32_t width, uint32_t limit, lrc_slot *slot) {
    widths += width;
    limits += limit;
    slot->at = &pools;
    return LRC_STORE_DONE;
}

uint32_t lrc_store_open_unjournaled(uint32_t width, lrc_slot *slot) {
    widths += width;
    slot->at = &pools;
    return LRC_STORE_DONE;
}

uint32_t lrc_pool_open(lrc_slot *slot, lrc_pool **pool) {
    slot->at = NULL;
    *pool = &pools[opened++];
    return LRC_STORE_DONE;
}

uint32_t lrc_pool_close(lrc_pool *pool, lrc_slot *slot) {
    slot->at = pool;
    return LRC_STORE_DONE;
}

uint32_t lrc_store_close(lrc_slot *slot, uint64_t *entries, uint32_t *lawful) {
    const lrc_pool *pool = slot->at;
    *entries = pool->entries;
    *lawful = pool->lawful;
    slot->at = NULL;
    return LRC_STORE_DONE;
}

void lrc_slot_release(lrc_slot *slot) { slot->at = NULL; }

int pool_is_busy(lrc_pool *pool) {
    (void)pool;
    return 0;
}

uint32_t lrc_pool_take(lrc_pool *pool, lrc_slot **session, int64_t timeout_ms) {
    pool->session_ms = timeout_ms;
    pool->session.at = pool;
    *session = &pool->session;
    lent++;
    return LRC_STORE_DONE;
}

void lrc_pool_give(lrc_pool *pool, lrc_slot *session) {
    EXPECT(session == &pool->session, 1);
    lent--;
}

/* A call on a session, which takes its time. */
static lrc_pool *called(lrc_slot *session, int64_t timeout_ms) {
    lrc_pool *pool = session->at;
    pool->call_ms = timeout_ms;
    pool->order = asked++;
    pool->calls++;
    now += pool->takes_ms * NS_IN_MS;
    return pool;
}

uint32_t lrc_store_numbers_wait(lrc_slot *slot, lrc_numbers *numbers, int64_t timeout_ms) {
    const lrc_pool *pool = called(slot, timeout_ms);
    if (!pool->status) *numbers = pool->numbers;
    return pool->status;
}

uint32_t lrc_store_trim_wait(lrc_slot *slot, uint64_t keep, uint64_t *discarded,
                             int64_t timeout_ms) {
    lrc_pool *pool = called(slot, timeout_ms);
    pool->keep = keep;
    *discarded = pool->count;
    return pool->status;
}

uint32_t lrc_store_mend_wait(lrc_slot *slot, uint64_t *repaired, int64_t timeout_ms) {
    const lrc_pool *pool = called(slot, timeout_ms);
    *repaired = pool->count;
    return pool->status;
}

uint32_t lrc_store_shard(const uint8_t *name, size_t name_len, uint32_t shards, uint32_t *shard) {
    (void)name;
    *shard = (uint32_t)name_len % shards;
    return LRC_STORE_DONE;
}

/* A store of so many shards, which are empty. */
static lrc_shards *store_of(uint32_t count) {
    const lrc_options options = {sizeof options, 4, count, 9, 0};
    lrc_shards *shards = NULL;
    memset(pools, 0, sizeof pools);
    for (unsigned i = 0; i < MOST; i++) pools[i].lawful = 1;
    opened = widths = limits = 0;
    EXPECT(lrc_shards_open(&options, &shards), LRC_STORE_DONE);
    EXPECT(opened, count);
    EXPECT(widths, 4 * count);
    EXPECT(limits, 9 * count);
    return shards;
}

static void closed(lrc_shards *shards, uint64_t wanted, uint32_t wanted_lawful) {
    uint64_t entries = 1234;
    uint32_t lawful = 1234;
    EXPECT(lent, 0);
    EXPECT(lrc_shards_close(shards, &entries, &lawful), LRC_STORE_DONE);
    EXPECT(entries, wanted);
    EXPECT(lawful, wanted_lawful);
}

/* The numbers as an array, in the order of the header. */
static uint64_t *fields_of(lrc_numbers *numbers) {
    EXPECT(sizeof *numbers, FIELDS * sizeof(uint64_t));
    return &numbers->blobs;
}

/* One shard alone has numbers, entries, and something to discard and to repair: the totals are its
 * own, whichever it is. */
static void counts_each_shard(uint32_t count) {
    for (uint32_t alone = 0; alone < count; alone++) {
        lrc_shards *shards = store_of(count);
        lrc_numbers numbers = {0, 0, 0, 0, 0, 0};
        uint64_t total = 99;
        lrc_pool *pool = NULL;
        pools[alone].numbers = (lrc_numbers){11, 22, 33, 44, 55, 66};
        pools[alone].count = 7;
        pools[alone].entries = 5;
        EXPECT(lrc_shards_numbers(shards, &numbers, -1), LRC_STORE_DONE);
        for (uint64_t i = 0; i < FIELDS; i++) EXPECT(fields_of(&numbers)[i], 11 * (i + 1));
        EXPECT(lrc_shards_trim(shards, 3, &total, -1), LRC_STORE_DONE);
        EXPECT(total, 7);
        EXPECT(pools[alone].keep, 3);
        EXPECT(lrc_shards_mend(shards, &total, -1), LRC_STORE_DONE);
        EXPECT(total, 7);
        for (uint32_t i = 0; i < count; i++) EXPECT(pools[i].calls, 3);
        EXPECT(lrc_shards_at(shards, alone, &pool), LRC_STORE_DONE);
        EXPECT(pool == &pools[alone], 1);
        closed(shards, 5, 1);
    }
}

/* The check of one shard's journal alone tells of the whole store, whichever shard it is. */
static void checks_each_shard(uint32_t count) {
    for (uint32_t lawful = 0; lawful <= 2; lawful += 2)
        for (uint32_t alone = 0; alone < count; alone++) {
            lrc_shards *shards = store_of(count);
            for (uint32_t i = 0; i < count; i++) pools[i].entries = i;
            pools[alone].lawful = lawful;
            closed(shards, count * (count - 1) / 2, lawful);
        }
}

/* A total is the sum, or the largest number if the sum is more. */
static void sums_end_at_64_bits(void) {
    static const uint64_t rows[][4] = {
        {UINT64_MAX, 0, 0, UINT64_MAX},
        {0, 0, UINT64_MAX, UINT64_MAX},
        {UINT64_MAX - 2, 1, 1, UINT64_MAX},
        {UINT64_MAX - 2, 1, 0, UINT64_MAX - 1},
        {UINT64_MAX - 1, 1, 1, UINT64_MAX},
        {UINT64_MAX, 1, 1, UINT64_MAX},
        {UINT64_C(1) << 63, UINT64_C(1) << 63, 5, UINT64_MAX},
        {1, UINT64_MAX, UINT64_MAX, UINT64_MAX},
        {UINT32_MAX, 1, UINT32_MAX, UINT64_C(1) + 2 * (uint64_t)UINT32_MAX},
    };
    for (size_t row = 0; row < sizeof rows / sizeof *rows; row++)
        for (unsigned field = 0; field < FIELDS; field++) {
            lrc_shards *shards = store_of(3);
            lrc_numbers numbers = {1, 1, 1, 1, 1, 1};
            for (unsigned i = 0; i < 3; i++) fields_of(&pools[i].numbers)[field] = rows[row][i];
            EXPECT(lrc_shards_numbers(shards, &numbers, 0), LRC_STORE_DONE);
            for (unsigned i = 0; i < FIELDS; i++)
                EXPECT(fields_of(&numbers)[i], i == field ? rows[row][3] : 0);
            closed(shards, 0, 1);
        }
}

/* A shard that refuses ends the call, and what the others did before counts. */
static void stops_at_a_refusal(void) {
    for (uint32_t bad = 0; bad < 5; bad++) {
        lrc_shards *shards = store_of(5);
        lrc_numbers numbers = {9, 9, 9, 9, 9, 9};
        uint64_t total = 99;
        for (uint32_t i = 0; i < 5; i++) pools[i].count = 1u << i;
        pools[bad].status = LRC_STORE_NO_MEMORY;
        EXPECT(lrc_shards_numbers(shards, &numbers, -1), LRC_STORE_NO_MEMORY);
        EXPECT(numbers.blobs == 9 && numbers.entries == 9, 1);
        EXPECT(lrc_shards_trim(shards, 0, &total, -1), LRC_STORE_NO_MEMORY);
        EXPECT(total, (2u << bad) - 1);
        for (uint32_t i = 0; i < 5; i++) EXPECT(pools[i].calls, i <= bad ? 2 : 0);
        closed(shards, 0, 1);
    }
}

/* All shards have one deadline together. If it passes between two of them, no further one is
 * trimmed, and what was discarded before counts. */
static void has_one_deadline(void) {
    static const int64_t left[] = {100, 70, 40, 10, 0, 0};
    lrc_shards *shards = store_of(6);
    lrc_numbers numbers;
    uint64_t total = 99;
    for (unsigned i = 0; i < 6; i++) pools[i].takes_ms = STEP_MS, pools[i].count = 1;
    EXPECT(lrc_shards_trim(shards, 0, &total, 100), LRC_STORE_BUSY);
    EXPECT(total, 4);
    for (unsigned i = 0; i < 6; i++) EXPECT(pools[i].calls, i < 4);
    for (unsigned i = 0; i < 4; i++) EXPECT(pools[i].call_ms, left[i]);
    EXPECT(lrc_shards_trim(shards, 0, &total, 4 * STEP_MS), LRC_STORE_BUSY);
    EXPECT(total, 4);
    EXPECT(lrc_shards_trim(shards, 0, &total, 5 * STEP_MS + 1), LRC_STORE_DONE);
    EXPECT(total, 6);
    EXPECT(lrc_shards_numbers(shards, &numbers, 100), LRC_STORE_DONE);
    for (unsigned i = 0; i < 6; i++) {
        EXPECT(pools[i].session_ms, left[i]);
        EXPECT(pools[i].call_ms, left[i]);
    }
    pools[0].takes_ms = 10000; /* a mend has the whole timeout for each step */
    EXPECT(lrc_shards_mend(shards, &total, 100), LRC_STORE_DONE);
    EXPECT(total, 6);
    for (unsigned i = 0; i < 6; i++) {
        EXPECT(pools[i].session_ms, 100);
        EXPECT(pools[i].call_ms, 100);
    }
    closed(shards, 0, 1);
}

/* A timeout is handed on as it is, also one of more than 32 bits. */
static void hands_timeouts_on(void) {
    static const int64_t rows[][2] = {
        {0, 0},
        {1, 1},
        {INT32_MAX, INT32_MAX},
        {INT64_C(1) << 31, INT64_C(1) << 31},
        {UINT32_MAX, UINT32_MAX},
        {INT64_C(1) << 32, INT64_C(1) << 32},
        {(INT64_C(1) << 32) + 5, (INT64_C(1) << 32) + 5},
        {INT64_C(1) << 43, INT64_C(1) << 43},
        {INT64_C(9223365036853), INT64_C(9223365036853)}, /* to the end of the clock */
        {INT64_C(9223365036854), -1},
        {INT64_MAX, -1},
        {-1, -1},
        {INT64_MIN, -1},
    };
    lrc_shards *shards = store_of(1);
    const int64_t before = now;
    uint64_t total;
    lrc_numbers numbers;
    now = INT64_C(7000000000000);
    for (size_t row = 0; row < sizeof rows / sizeof *rows; row++) {
        EXPECT(lrc_shards_numbers(shards, &numbers, rows[row][0]), LRC_STORE_DONE);
        EXPECT(pools[0].session_ms, rows[row][1]);
        EXPECT(pools[0].call_ms, rows[row][1]);
        EXPECT(lrc_shards_trim(shards, 0, &total, rows[row][0]), LRC_STORE_DONE);
        EXPECT(pools[0].call_ms, rows[row][1]);
    }
    now = before;
    closed(shards, 0, 1);
}

/* A mend takes the shards in turn, each once. */
static void mends_in_turn(uint32_t count) {
    lrc_shards *shards = store_of(count);
    uint64_t total = 0;
    for (unsigned turn = 1; turn <= 5; turn++) {
        asked = 0;
        EXPECT(lrc_shards_mend(shards, &total, -1), LRC_STORE_DONE);
        for (uint32_t i = 0; i < count; i++) {
            EXPECT(pools[i].calls, turn);
            EXPECT(pools[(i + 1) % count].order, (pools[i].order + 1) % count);
        }
    }
    closed(shards, 0, 1);
}

int main(void) {
    for (uint32_t count = 1; count <= MOST; count++) {
        counts_each_shard(count);
        checks_each_shard(count);
        mends_in_turn(count);
    }
    sums_end_at_64_bits();
    stops_at_a_refusal();
    has_one_deadline();
    hands_timeouts_on();
    return report("totals");
}

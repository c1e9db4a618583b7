/* A store of several shards. Link with --wrap of malloc, calloc and lrc_store_numbers_wait. */
#include "asleep.h"
#include "store_test.h"
#include <pthread.h>
#include <stdatomic.h>
#include <unistd.h>

enum { SESSIONS = 63, SHARDS = 16, THREADS = 4, NAMES = 200, LOST = 3, BLOB = 100 };

/* How many requests for memory are granted before one is refused; none is if this is negative. */
static atomic_int granted = -1;
/* Whether the numbers of a shard never come, until the thread is cancelled. */
static atomic_int is_held, holds_numbers;
/* That of the last numbers of a shard. */
static _Atomic int64_t last_timeout_ms;

static int is_refused(void) { return granted >= 0 && granted-- == 0; }

void *__real_malloc(size_t size);
void *__wrap_malloc(size_t size);
void *__wrap_malloc(size_t size) { return is_refused() ? NULL : __real_malloc(size); }

void *__real_calloc(size_t count, size_t size);
void *__wrap_calloc(size_t count, size_t size);
void *__wrap_calloc(size_t count, size_t size) {
    return is_refused() ? NULL : __real_calloc(count, size);
}

uint32_t __real_lrc_store_numbers_wait(lrc_slot *slot, lrc_numbers *numbers, int64_t timeout_ms);
uint32_t __wrap_lrc_store_numbers_wait(lrc_slot *slot, lrc_numbers *numbers, int64_t timeout_ms);
uint32_t __wrap_lrc_store_numbers_wait(lrc_slot *slot, lrc_numbers *numbers, int64_t timeout_ms) {
    last_timeout_ms = timeout_ms;
    while (holds_numbers) {
        is_held = 1;
        usleep(1000); /* a cancellation point */
    }
    return __real_lrc_store_numbers_wait(slot, numbers, timeout_ms);
}

static lrc_options of(uint32_t width, uint32_t shards, uint32_t limit) {
    return (lrc_options){sizeof(lrc_options), width, shards, limit, 0};
}

static lrc_shards *opened(uint32_t shards, uint32_t limit) {
    const lrc_options options = of(4, shards, limit);
    lrc_shards *made = NULL;
    EXPECT(lrc_shards_open(&options, &made), LRC_STORE_DONE);
    return made;
}

/* Closes the store, whose journals have so many entries. */
static void closed(lrc_shards *shards, uint64_t wanted, uint32_t wanted_lawful) {
    uint64_t entries = 1234;
    uint32_t lawful = 1234;
    EXPECT(lrc_shards_close(shards, &entries, &lawful), LRC_STORE_DONE);
    EXPECT(entries, wanted);
    EXPECT(lawful, wanted_lawful);
}

/* The shards of names, as Python counts them from the definition of the hash. */
static void finds_the_shard(void) {
    const struct {
        const char *name;
        uint32_t of_1, of_2, of_16, of_64;
    } rows[] = {
        {"a", 0, 1, 14, 56},
        {"greeting", 0, 0, 3, 13},
        {"photo-1", 0, 0, 2, 9},
        {"0123456789abcdef", 0, 0, 0, 3},
        {"a.name-of_32-bytes.0123456789abc", 0, 0, 6, 25},
    };
    uint32_t shard = 99;
    for (size_t i = 0; i < sizeof rows / sizeof *rows; i++) {
        const uint32_t counts[] = {1, 2, 16, 64};
        const uint32_t wanted[] = {rows[i].of_1, rows[i].of_2, rows[i].of_16, rows[i].of_64};
        for (int k = 0; k < 4; k++) {
            EXPECT(lrc_store_shard(NAME(rows[i].name), counts[k], &shard), LRC_STORE_DONE);
            EXPECT(shard, wanted[k]);
        }
    }
    shard = 99;
    EXPECT(lrc_store_shard(NAME("A"), 2, &shard), LRC_STORE_BAD_NAME);
    EXPECT(lrc_store_shard(NAME(""), 2, &shard), LRC_STORE_BAD_NAME);
    EXPECT(lrc_store_shard(NAME("a"), 0, &shard), LRC_STORE_BAD_ARGUMENT);
    EXPECT(lrc_store_shard(NAME("a"), 65, &shard), LRC_STORE_BAD_ARGUMENT);
    EXPECT(lrc_store_shard(NAME("a"), UINT32_MAX, &shard), LRC_STORE_BAD_ARGUMENT);
    EXPECT(shard, 99);
}

static void refused(lrc_options options, uint32_t status) {
    lrc_shards *made = NULL;
    EXPECT(lrc_shards_open(&options, &made), status);
    EXPECT(made == NULL, 1);
}

/* Options of a later version are accepted if they are 0. */
static void refuses_options(void) {
    struct {
        lrc_options known;
        uint32_t later[2];
    } options = {of(4, 2, 0), {0, 0}};
    lrc_shards *made = NULL;
    refused(of(0, 2, 0), LRC_STORE_BAD_WIDTH);
    refused(of(65537, 2, 5), LRC_STORE_BAD_WIDTH);
    refused(of(4, 0, 0), LRC_STORE_BAD_ARGUMENT);
    refused(of(4, 65, 0), LRC_STORE_BAD_ARGUMENT);
    refused(of(4, 2, 1048577), LRC_STORE_BAD_ARGUMENT);
    options.known.size = sizeof options.known - 1;
    refused(options.known, LRC_STORE_BAD_ARGUMENT);
    options.known.size = sizeof options.known;
    options.known.reserved = 1;
    refused(options.known, LRC_STORE_BAD_ARGUMENT);
    options.known.size = sizeof options;
    refused(options.known, LRC_STORE_BAD_ARGUMENT);
    options.known.reserved = 0;
    for (int i = 0; i < 2; i++) {
        options.later[i] = 1u << 31;
        EXPECT(lrc_shards_open(&options.known, &made), LRC_STORE_BAD_ARGUMENT);
        options.later[i] = 0;
    }
    EXPECT(made == NULL, 1);
    EXPECT(lrc_shards_open(&options.known, &made), LRC_STORE_DONE);
    closed(made, 0, 2);
}

/* The options have no byte that is not looked at. */
static void has_no_padding(void) {
    EXPECT(sizeof(lrc_options), offsetof(lrc_options, reserved) + sizeof(uint32_t));
}

/* Lends a session of a shard, puts a blob on it, and releases it. Puts `other` in its place. */
static void lose_session(lrc_shards *shards, uint32_t shard, lrc_slot *other) {
    lrc_pool *pool = NULL;
    lrc_slot *session = NULL;
    uint64_t version;
    EXPECT(lrc_shards_at(shards, shard, &pool), LRC_STORE_DONE);
    EXPECT(lrc_pool_take(pool, &session, 0), LRC_STORE_DONE);
    EXPECT(lrc_store_put(session, NAME("a"), (const uint8_t *)"HELLO", 5, 12, &version),
           LRC_STORE_DONE);
    lrc_slot_release(session);
    *session = *other;
    other->at = NULL;
    lrc_pool_give(pool, session);
}

/* A store of which a lent session was released, or replaced by one of another store, says so at its
 * end, and is freed. The journals of the other shards count. */
static void closes_without_a_session(void) {
    for (uint32_t lost = 0; lost < 3; lost++) {
        lrc_shards *shards = opened(3, 10);
        lrc_slot none = LRC_SLOT_EMPTY, other = LRC_SLOT_EMPTY;
        uint64_t entries = 1234;
        uint32_t lawful = 1234;
        for (uint32_t shard = 0; shard < 3; shard++) {
            lrc_pool *pool = NULL;
            lrc_slot *session = NULL;
            uint64_t version, len, stripes, fragments;
            EXPECT(lrc_shards_at(shards, shard, &pool), LRC_STORE_DONE);
            EXPECT(lrc_pool_take(pool, &session, 0), LRC_STORE_DONE);
            EXPECT(lrc_store_stat(session, NAME("a"), &version, &len, &stripes, &fragments),
                   LRC_STORE_NO_NAME);
            lrc_pool_give(pool, session);
        }
        if (lost == 1) EXPECT(lrc_store_open(4, 10, &other), LRC_STORE_DONE);
        lose_session(shards, lost, lost == 1 ? &other : &none);
        EXPECT(lrc_shards_close(shards, &entries, &lawful), LRC_STORE_EMPTY);
        EXPECT(entries, 2);
        EXPECT(lawful, 2);
    }
}

/* If memory runs out anywhere, all shards that were opened are freed, and nothing is written. */
static void refuses_without_memory(void) {
    const lrc_options options = of(4, 3, 10);
    lrc_shards *made = NULL;
    uint32_t status = LRC_STORE_NO_MEMORY;
    for (int requests = 0; status == LRC_STORE_NO_MEMORY && requests < 1000; requests++) {
        EXPECT(made == NULL, 1);
        granted = requests;
        status = lrc_shards_open(&options, &made);
        granted = -1;
    }
    EXPECT(status, LRC_STORE_DONE);
    if (made) closed(made, 0, 1);
}

/* A session of the shard of a name. */
static lrc_slot *taken(lrc_shards *shards, const char *name, lrc_pool **pool) {
    lrc_slot *session = NULL;
    EXPECT(lrc_shards_find(shards, NAME(name), pool), LRC_STORE_DONE);
    EXPECT(lrc_pool_take(*pool, &session, -1), LRC_STORE_DONE);
    return session;
}

static void name_to(char name[8], unsigned number) { snprintf(name, 8, "n%u", number); }

/* Puts a blob, and loses fragments of its first stripe. */
static void put_and_lose(lrc_shards *shards, unsigned number) {
    char name[8];
    lrc_pool *pool = NULL;
    uint64_t version;
    uint8_t blob[BLOB];
    name_to(name, number);
    fill(blob, sizeof blob, number);
    lrc_slot *session = taken(shards, name, &pool);
    EXPECT(lrc_store_put_wait(session, NAME(name), blob, sizeof blob, 12, &version, -1), 0);
    for (unsigned fragment = 0; fragment < LOST; fragment++)
        EXPECT(lrc_store_lose_wait(session, NAME(name), 0, fragment, &version, -1), 0);
    lrc_pool_give(pool, session);
}

static void read_back(lrc_shards *shards, unsigned number) {
    char name[8];
    lrc_pool *pool = NULL;
    uint64_t version, lent, built;
    uint8_t blob[BLOB], got[BLOB];
    name_to(name, number);
    fill(blob, sizeof blob, number);
    lrc_slot *session = taken(shards, name, &pool);
    EXPECT(
        lrc_store_read_wait(session, NAME(name), 0, got, sizeof got, &version, &lent, &built, -1),
        0);
    lrc_pool_give(pool, session);
    EXPECT(memcmp(got, blob, sizeof blob), 0);
}

static lrc_shards *shared;

static void *work(void *argument) {
    const unsigned first = (unsigned)(uintptr_t)argument;
    for (unsigned i = first; i < NAMES; i += THREADS) put_and_lose(shared, i);
    for (unsigned i = first; i < NAMES; i += THREADS) read_back(shared, i);
    return NULL;
}

static void *mend_all(void *argument) {
    EXPECT(lrc_shards_mend(shared, argument, -1), LRC_STORE_DONE);
    return NULL;
}

static void in_threads(void *(*run)(void *), void *arguments[], unsigned count) {
    pthread_t threads[THREADS];
    for (unsigned i = 0; i < count; i++)
        EXPECT(pthread_create(&threads[i], NULL, run, arguments[i]), 0);
    for (unsigned i = 0; i < count; i++) EXPECT(pthread_join(threads[i], NULL), 0);
}

static void counted(lrc_shards *shards, uint64_t blobs, uint64_t lost) {
    lrc_numbers all = {0, 0, 0, 0, 0, 0};
    EXPECT(lrc_shards_numbers(shards, &all, -1), LRC_STORE_DONE);
    EXPECT(all.blobs, blobs);
    EXPECT(all.bytes, blobs * BLOB);
    EXPECT(all.lost, lost);
    EXPECT(all.unrecoverable, 0);
    EXPECT(all.calls >= blobs, 1);
    EXPECT(all.entries, 0);
}

/* Each shard has the blobs of its names, and so each blob is in one. */
static void has_names_apart(lrc_shards *shards) {
    uint64_t blobs = 0, wanted[SHARDS] = {0};
    char name[8];
    for (unsigned i = 0; i < NAMES; i++) {
        uint32_t shard = 0;
        name_to(name, i);
        EXPECT(lrc_store_shard(NAME(name), SHARDS, &shard), LRC_STORE_DONE);
        wanted[shard]++;
    }
    for (uint32_t shard = 0; shard < SHARDS; shard++) {
        lrc_pool *pool = NULL;
        lrc_slot *session = NULL;
        lrc_numbers numbers;
        EXPECT(lrc_shards_at(shards, shard, &pool), LRC_STORE_DONE);
        EXPECT(lrc_pool_take(pool, &session, 0), LRC_STORE_DONE);
        EXPECT(lrc_store_numbers_wait(session, &numbers, 0), LRC_STORE_DONE);
        lrc_pool_give(pool, session);
        EXPECT(numbers.blobs, wanted[shard]);
        blobs += numbers.blobs;
    }
    EXPECT(blobs, NAMES);
}

static void serves_threads(void) {
    uint64_t repaired[2] = {0, 0};
    lrc_pool *pool = NULL;
    shared = opened(SHARDS, 0);
    in_threads(work, (void *[]){(void *)0, (void *)1, (void *)2, (void *)3}, THREADS);
    EXPECT(lrc_shards_at(shared, SHARDS, &pool), LRC_STORE_NOTHING_LEFT);
    EXPECT(lrc_shards_find(shared, NAME("A"), &pool), LRC_STORE_BAD_NAME);
    EXPECT(pool == NULL, 1);
    has_names_apart(shared);
    counted(shared, NAMES, NAMES * LOST);
    in_threads(mend_all, (void *[]){&repaired[0], &repaired[1]}, 2);
    EXPECT(repaired[0] + repaired[1], NAMES * LOST);
    counted(shared, NAMES, 0);
    for (unsigned i = 0; i < NAMES; i++) read_back(shared, i);
    closed(shared, 0, 2);
}

/* Lends all sessions of a shard, or gives them back. */
static void block(lrc_pool *pool, lrc_slot *sessions[SESSIONS], int is_blocked) {
    for (int i = 0; i < SESSIONS; i++)
        if (is_blocked)
            EXPECT(lrc_pool_take(pool, &sessions[i], 0), LRC_STORE_DONE);
        else
            lrc_pool_give(pool, sessions[i]);
}

/* n1 is a name of the first of two shards, and n0 of the second. */
static lrc_shards *with_two_blobs(uint32_t limit) {
    lrc_shards *shards = opened(2, limit);
    put_and_lose(shards, 1);
    put_and_lose(shards, 0);
    return shards;
}

/* A mend begins with the first shard, and the next one with the other. It says what it repaired
 * before it was refused. */
static void mends_from_different_shards(void) {
    lrc_shards *shards = with_two_blobs(0);
    lrc_slot *sessions[SESSIONS];
    lrc_pool *first = NULL;
    uint64_t repaired = 99;
    EXPECT(lrc_shards_at(shards, 0, &first), LRC_STORE_DONE);
    block(first, sessions, 1);
    EXPECT(lrc_shards_mend(shards, &repaired, 0), LRC_STORE_BUSY);
    EXPECT(repaired, 99);
    EXPECT(lrc_shards_mend(shards, &repaired, 0), LRC_STORE_BUSY);
    EXPECT(repaired, LOST);
    block(first, sessions, 0);
    EXPECT(lrc_shards_mend(shards, &repaired, 0), LRC_STORE_DONE);
    EXPECT(repaired, LOST);
    EXPECT(lrc_shards_mend(shards, &repaired, 0), LRC_STORE_DONE);
    EXPECT(repaired, 0);
    counted(shards, 2, 0);
    closed(shards, 0, 2);
}

/* Each shard keeps the last entries of its journal. */
static void trims(void) {
    lrc_shards *shards = with_two_blobs(10);
    lrc_slot *sessions[SESSIONS];
    lrc_pool *pools[2] = {NULL, NULL};
    uint64_t discarded = 99;
    for (uint32_t shard = 0; shard < 2; shard++)
        EXPECT(lrc_shards_at(shards, shard, &pools[shard]), LRC_STORE_DONE);
    block(pools[0], sessions, 1);
    EXPECT(lrc_shards_trim(shards, 1, &discarded, 0), LRC_STORE_BUSY);
    EXPECT(discarded, 99);
    block(pools[0], sessions, 0);
    block(pools[1], sessions, 1);
    EXPECT(lrc_shards_trim(shards, 1, &discarded, 20), LRC_STORE_BUSY);
    EXPECT(discarded, LOST);
    block(pools[1], sessions, 0);
    EXPECT(lrc_shards_trim(shards, 1, &discarded, -1), LRC_STORE_DONE);
    EXPECT(discarded, LOST);
    closed(shards, 2, 1);
}

/* If a shard is busy, no number is written, and the store is not closed. */
static void waits_for_a_shard(void) {
    lrc_shards *shards = with_two_blobs(10);
    lrc_slot *sessions[SESSIONS];
    lrc_pool *second = NULL;
    lrc_numbers numbers = {7, 7, 7, 7, 7, 7};
    uint64_t entries = 7;
    uint32_t lawful = 7;
    EXPECT(lrc_shards_at(shards, 1, &second), LRC_STORE_DONE);
    block(second, sessions, 1);
    EXPECT(lrc_shards_numbers(shards, &numbers, 0), LRC_STORE_BUSY);
    EXPECT(lrc_shards_numbers(shards, &numbers, 20), LRC_STORE_BUSY);
    EXPECT(numbers.blobs == 7 && numbers.bytes == 7 && numbers.calls == 7, 1);
    EXPECT(lrc_shards_close(shards, &entries, &lawful), LRC_STORE_NOT_ALONE);
    EXPECT(entries == 7 && lawful == 7, 1);
    block(second, sessions, 0);
    EXPECT(lrc_shards_numbers(shards, &numbers, 0), LRC_STORE_DONE);
    EXPECT(numbers.lost, 2 * LOST);
    EXPECT(numbers.calls, 2 + 2 * LOST);
    EXPECT(numbers.entries, 2 + 2 * LOST);
    closed(shards, 2 + 2 * LOST, 1);
}

struct blocked {
    lrc_pool *pool;
    lrc_slot *session;
};

static void *give_later(void *argument) {
    const struct blocked *blocked = argument;
    until_others_sleep();
    lrc_pool_give(blocked->pool, blocked->session);
    return NULL;
}

/* Without a deadline a call waits until a session comes. */
static void waits_without_a_deadline(void) {
    lrc_shards *shards = with_two_blobs(0);
    lrc_slot *sessions[SESSIONS];
    struct blocked blocked = {NULL, NULL};
    lrc_numbers numbers;
    pthread_t thread;
    EXPECT(lrc_shards_at(shards, 1, &blocked.pool), LRC_STORE_DONE);
    block(blocked.pool, sessions, 1);
    blocked.session = sessions[0];
    EXPECT(pthread_create(&thread, NULL, give_later, &blocked), 0);
    EXPECT(lrc_shards_numbers(shards, &numbers, -1), LRC_STORE_DONE);
    EXPECT(numbers.blobs, 2);
    EXPECT(pthread_join(thread, NULL), 0);
    for (int i = 1; i < SESSIONS; i++) lrc_pool_give(blocked.pool, sessions[i]);
    closed(shards, 0, 2);
}

/* The wait for a session and the call on it have one deadline together. */
static void has_one_deadline(void) {
    lrc_shards *shards = opened(1, 0);
    lrc_slot *sessions[SESSIONS];
    struct blocked blocked = {NULL, NULL};
    lrc_numbers numbers;
    pthread_t thread;
    EXPECT(lrc_shards_at(shards, 0, &blocked.pool), LRC_STORE_DONE);
    block(blocked.pool, sessions, 1);
    blocked.session = sessions[0];
    EXPECT(pthread_create(&thread, NULL, give_later, &blocked), 0);
    EXPECT(lrc_shards_numbers(shards, &numbers, 5000), LRC_STORE_DONE);
    EXPECT(last_timeout_ms > 0 && last_timeout_ms <= 5000 - (LOOKS - 1), 1);
    EXPECT(pthread_join(thread, NULL), 0);
    EXPECT(lrc_shards_numbers(shards, &numbers, -7), LRC_STORE_DONE);
    EXPECT(last_timeout_ms, -1);
    EXPECT(lrc_shards_numbers(shards, &numbers, 0), LRC_STORE_DONE);
    EXPECT(last_timeout_ms, 0);
    for (int i = 1; i < SESSIONS; i++) lrc_pool_give(blocked.pool, sessions[i]);
    closed(shards, 0, 2);
}

static void *count_for_ever(void *argument) {
    lrc_numbers numbers;
    (void)argument;
    EXPECT(lrc_shards_numbers(shared, &numbers, -1), LRC_STORE_DONE); /* until it is cancelled */
    return NULL;
}

/* A thread that is cancelled gives its session back. */
static void gives_back_when_cancelled(void) {
    pthread_t thread;
    void *result = NULL;
    shared = opened(2, 0);
    holds_numbers = 1;
    EXPECT(pthread_create(&thread, NULL, count_for_ever, NULL), 0);
    while (!is_held) usleep(1000);
    EXPECT(pthread_cancel(thread), 0);
    EXPECT(pthread_join(thread, &result), 0);
    EXPECT(result == PTHREAD_CANCELED, 1);
    holds_numbers = 0;
    closed(shared, 0, 2);
}

/* With a word it cancels no thread. With the word `shared` it refuses no memory either, as the
 * library may be a shared object. */
int main(int words, char **word) {
    alarm(60); /* a call that never returns ends the test */
    finds_the_shard();
    refuses_options();
    has_no_padding();
    closes_without_a_session();
    serves_threads();
    mends_from_different_shards();
    trims();
    waits_for_a_shard();
    waits_without_a_deadline();
    has_one_deadline();
    if (words < 2 || strcmp(word[1], "shared") != 0) refuses_without_memory();
    if (words < 2) gives_back_when_cancelled();
    return report("shards");
}

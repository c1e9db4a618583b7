/* The pool of the sessions of a store. Link with --wrap=malloc, --wrap=calloc and
 * --wrap=pthread_cond_clockwait. */
#include "asleep.h"
#include "store_test.h"
#include <pthread.h>
#include <stdatomic.h>
#include <time.h>
#include <unistd.h>

enum { SESSIONS = 63, THREADS = 100, TURNS = 50, ROUNDS = 300, SLACK_US = 60000000 };

/* Whether memory is refused. */
static atomic_int refuses_memory;

void *__real_malloc(size_t size);
void *__wrap_malloc(size_t size);
void *__wrap_malloc(size_t size) { return refuses_memory ? NULL : __real_malloc(size); }

void *__real_calloc(size_t count, size_t size);
void *__wrap_calloc(size_t count, size_t size);
void *__wrap_calloc(size_t count, size_t size) {
    return refuses_memory ? NULL : __real_calloc(count, size);
}

/* Whether a thread that waits is cancelled when its session has come, before it goes on. */
static atomic_int cancels_at_wake;

int __real_pthread_cond_clockwait(pthread_cond_t *came, pthread_mutex_t *mutex, clockid_t by,
                                  const struct timespec *end);
int __wrap_pthread_cond_clockwait(pthread_cond_t *came, pthread_mutex_t *mutex, clockid_t by,
                                  const struct timespec *end);
int __wrap_pthread_cond_clockwait(pthread_cond_t *came, pthread_mutex_t *mutex, clockid_t by,
                                  const struct timespec *end) {
    const int status = __real_pthread_cond_clockwait(came, mutex, by, end);
    if (cancels_at_wake) {
        pthread_cancel(pthread_self());
        pthread_testcancel();
    }
    return status;
}

static int64_t now_us(void) {
    struct timespec now;
    clock_gettime(CLOCK_MONOTONIC, &now);
    return (int64_t)now.tv_sec * 1000000 + now.tv_nsec / 1000;
}

static lrc_pool *opened(void) {
    lrc_slot slot = LRC_SLOT_EMPTY, other = LRC_SLOT_EMPTY;
    lrc_pool *pool = NULL;
    EXPECT(lrc_store_open(4, 100000, &slot), LRC_STORE_DONE);
    EXPECT(lrc_pool_open(&slot, &pool), LRC_STORE_DONE);
    EXPECT(lrc_store_split(&slot, 1, &other), LRC_STORE_EMPTY);
    return pool;
}

/* Closes a pool, and its store, which has so many entries. */
static void closed(lrc_pool *pool, uint64_t wanted) {
    lrc_slot slot = LRC_SLOT_EMPTY;
    uint64_t entries = 0;
    uint32_t lawful = 0;
    EXPECT(lrc_pool_close(pool, &slot), LRC_STORE_DONE);
    EXPECT(lrc_store_close(&slot, &entries, &lawful), LRC_STORE_DONE);
    EXPECT(entries, wanted);
    EXPECT(lawful, 1);
}

static void refuses(void) {
    lrc_slot slot = LRC_SLOT_EMPTY, other = LRC_SLOT_EMPTY, *session = NULL;
    lrc_pool *pool = NULL;
    EXPECT(lrc_pool_open(&slot, &pool), LRC_STORE_EMPTY);
    EXPECT(lrc_slot_reserve(1, &other), LRC_STORE_DONE);
    EXPECT(lrc_pool_open(&other, &pool), LRC_STORE_EMPTY);
    lrc_slot_release(&other);
    EXPECT(pool == NULL, 1);
    pool = opened();
    EXPECT(lrc_pool_take(pool, &session, 0), LRC_STORE_DONE);
    EXPECT(lrc_pool_close(pool, &slot), LRC_STORE_NOT_ALONE);
    lrc_pool_give(pool, session);
    EXPECT(lrc_slot_reserve(1, &other), LRC_STORE_DONE);
    EXPECT(lrc_pool_close(pool, &other), LRC_STORE_OCCUPIED);
    lrc_slot_release(&other);
    uint64_t entries;
    uint32_t lawful;
    EXPECT(lrc_store_open(4, 100, &other), LRC_STORE_DONE);
    EXPECT(lrc_store_close(&other, &entries, &lawful), LRC_STORE_DONE); /* it holds nothing now */
    EXPECT(lrc_pool_close(pool, &other), LRC_STORE_DONE);
    EXPECT(lrc_store_close(&other, &entries, &lawful), LRC_STORE_DONE);
    lrc_slot_release(&other);
}

/* A pool of a session that cannot be split lends that one. */
static void lends_one(void) {
    lrc_slot slot = LRC_SLOT_EMPTY, other = LRC_SLOT_EMPTY, *one = NULL, *none = NULL;
    lrc_pool *pool = NULL;
    EXPECT(lrc_store_open(4, 100, &slot), LRC_STORE_DONE);
    EXPECT(lrc_store_split(&slot, 1, &other), LRC_STORE_DONE);
    EXPECT(lrc_pool_open(&other, &pool), LRC_STORE_DONE);
    EXPECT(lrc_pool_take(pool, &one, 0), LRC_STORE_DONE);
    EXPECT(lrc_pool_take(pool, &none, 0), LRC_STORE_BUSY);
    lrc_pool_give(pool, one);
    EXPECT(lrc_pool_close(pool, &other), LRC_STORE_DONE);
    EXPECT(lrc_store_join(&slot, &other), LRC_STORE_DONE);
    lrc_slot_release(&slot);
}

/* Without memory there is no pool and no further session, and nothing else is changed. */
static void refuses_without_memory(void) {
    lrc_slot slot = LRC_SLOT_EMPTY, *one = NULL, *other = NULL;
    lrc_pool *pool = NULL;
    EXPECT(lrc_store_open(4, 100, &slot), LRC_STORE_DONE);
    refuses_memory = 1;
    EXPECT(lrc_pool_open(&slot, &pool), LRC_STORE_NO_MEMORY);
    refuses_memory = 0;
    EXPECT(lrc_pool_open(&slot, &pool), LRC_STORE_DONE);
    EXPECT(lrc_pool_take(pool, &one, -1), LRC_STORE_DONE);
    refuses_memory = 1;
    EXPECT(lrc_pool_take(pool, &other, -1), LRC_STORE_NO_MEMORY);
    EXPECT(other == NULL, 1);
    lrc_pool_give(pool, one);
    EXPECT(lrc_pool_take(pool, &other, -1), LRC_STORE_DONE);
    EXPECT(other == one, 1);
    lrc_pool_give(pool, other);
    refuses_memory = 0;
    closed(pool, 0);
}

/* The session used last is lent next, and each thread has one of its own. */
static void lends_each_once(lrc_pool *pool, lrc_slot *taken[SESSIONS]) {
    uint64_t version = 0;
    for (int i = 0; i < SESSIONS; i++) {
        EXPECT(lrc_pool_take(pool, &taken[i], 0), LRC_STORE_DONE);
        for (int k = 0; k < i; k++) EXPECT(taken[k] != taken[i], 1);
        EXPECT(lrc_store_delete_wait(taken[i], NAME("a"), &version, -1), LRC_STORE_NO_NAME);
    }
}

static void lends_all(void) {
    lrc_pool *pool = opened();
    lrc_slot *taken[SESSIONS], *session = NULL;
    lends_each_once(pool, taken);
    EXPECT(lrc_pool_take(pool, &session, 0), LRC_STORE_BUSY);
    EXPECT(session == NULL, 1);
    const int64_t start = now_us();
    EXPECT(lrc_pool_take(pool, &session, 30), LRC_STORE_BUSY);
    EXPECT(now_us() - start >= 30000 && now_us() - start < SLACK_US, 1);
    EXPECT(session == NULL, 1);
    lrc_pool_give(pool, taken[5]);
    EXPECT(lrc_pool_take(pool, &session, 0), LRC_STORE_DONE);
    EXPECT(session == taken[5], 1);
    for (int i = SESSIONS - 1; i >= 0; i--) lrc_pool_give(pool, taken[i]);
    lends_each_once(pool, taken);
    for (int i = 1; i < SESSIONS; i++) lrc_pool_give(pool, taken[i]);
    lrc_slot slot = LRC_SLOT_EMPTY;
    EXPECT(lrc_pool_close(pool, &slot), LRC_STORE_NOT_ALONE);
    lrc_pool_give(pool, taken[0]);
    closed(pool, 2 * SESSIONS);
}

struct waiter {
    lrc_pool *pool;
    lrc_slot *got;
    atomic_int is_done;
};

static void *wait_for_session(void *argument) {
    struct waiter *waiter = argument;
    EXPECT(lrc_pool_take(waiter->pool, &waiter->got, -1), LRC_STORE_DONE);
    waiter->is_done = 1;
    return NULL;
}

/* Starts a thread that waits in the line. */
static pthread_t waiting(struct waiter *waiter) {
    pthread_t thread;
    EXPECT(pthread_create(&thread, NULL, wait_for_session, waiter), 0);
    until_others_sleep();
    EXPECT(waiter->is_done, 0);
    return thread;
}

static void joined(pthread_t thread, int is_cancelled) {
    void *status = NULL;
    EXPECT(pthread_join(thread, &status), 0);
    EXPECT(status == PTHREAD_CANCELED, is_cancelled);
}

/* Sessions go to those that wait in the order in which they came. One that was cancelled or whose
 * deadline passed is left out. */
static void lines_up(void) {
    lrc_pool *pool = opened();
    lrc_slot *taken[SESSIONS], *none = NULL;
    struct waiter waiters[4] = {{pool, NULL, 0}, {pool, NULL, 0}, {pool, NULL, 0}, {pool, NULL, 0}};
    pthread_t threads[4];
    lends_each_once(pool, taken);
    for (int i = 0; i < 4; i++) threads[i] = waiting(&waiters[i]);
    EXPECT(lrc_pool_take(pool, &none, 20), LRC_STORE_BUSY);
    EXPECT(pthread_cancel(threads[1]), 0);
    joined(threads[1], 1);
    EXPECT(lrc_pool_take(pool, &none, 20), LRC_STORE_BUSY);
    lrc_pool_give(pool, taken[7]);
    lrc_pool_give(pool, taken[8]);
    joined(threads[0], 0);
    joined(threads[2], 0);
    EXPECT(waiters[0].got == taken[7], 1);
    EXPECT(waiters[2].got == taken[8], 1);
    EXPECT(waiters[3].is_done, 0);
    EXPECT(pthread_cancel(threads[3]), 0);
    joined(threads[3], 1);
    lrc_pool_give(pool, taken[9]);
    EXPECT(lrc_pool_take(pool, &none, 0), LRC_STORE_DONE);
    EXPECT(none == taken[9], 1);
    for (int i = 0; i < SESSIONS; i++) lrc_pool_give(pool, taken[i]);
    closed(pool, SESSIONS);
}

/* Gives a session to the first in the line, which gets this one. */
static void reaches(lrc_pool *pool, lrc_slot *session, struct waiter *waiter, pthread_t thread) {
    lrc_pool_give(pool, session);
    joined(thread, 0);
    EXPECT(waiter->got == session, 1);
}

/* Several threads wait, and the last of them gives up, at its deadline or as it is cancelled. The
 * next one that comes stands behind the others. */
static void last_gives_up(int is_cancelled) {
    lrc_pool *pool = opened();
    lrc_slot *taken[SESSIONS], *none = NULL;
    struct waiter waiters[4] = {{pool, NULL, 0}, {pool, NULL, 0}, {pool, NULL, 0}, {pool, NULL, 0}};
    pthread_t threads[4];
    lends_each_once(pool, taken);
    for (int i = 0; i < 2; i++) threads[i] = waiting(&waiters[i]);
    if (is_cancelled) {
        const pthread_t last = waiting(&waiters[3]);
        EXPECT(pthread_cancel(last), 0);
        joined(last, 1);
    } else {
        EXPECT(lrc_pool_take(pool, &none, 20), LRC_STORE_BUSY);
    }
    for (int i = 2; i < 4; i++) threads[i] = waiting(&waiters[i]);
    for (int i = 0; i < 4; i++) reaches(pool, taken[i], &waiters[i], threads[i]);
    lrc_pool_give(pool, taken[4]);
    EXPECT(lrc_pool_take(pool, &none, 0), LRC_STORE_DONE);
    EXPECT(none == taken[4], 1);
    for (int i = 0; i < SESSIONS; i++) lrc_pool_give(pool, taken[i]);
    closed(pool, SESSIONS);
}

/* The only one that waits gives up: the next one that comes is the first. */
static void only_one_gives_up(void) {
    lrc_pool *pool = opened();
    lrc_slot *taken[SESSIONS], *none = NULL;
    struct waiter waiter = {pool, NULL, 0};
    lends_each_once(pool, taken);
    for (int i = 0; i < 2; i++) EXPECT(lrc_pool_take(pool, &none, 5), LRC_STORE_BUSY);
    const pthread_t thread = waiting(&waiter);
    reaches(pool, taken[0], &waiter, thread);
    for (int i = 0; i < SESSIONS; i++) lrc_pool_give(pool, taken[i]);
    closed(pool, SESSIONS);
}

/* Each session has a label of its own in the journal, and the one used last is lent next. */
static void labels_sessions(void) {
    lrc_pool *pool = opened();
    lrc_slot *taken[SESSIONS], *again = NULL, slot = LRC_SLOT_EMPTY, journal = LRC_SLOT_EMPTY;
    lrc_entry entry = {.who = 99};
    uint64_t discarded = 99, entries = 99;
    uint32_t lawful = 99;
    lends_each_once(pool, taken);
    for (int i = 0; i < SESSIONS; i++) lrc_pool_give(pool, taken[(i + 30) % SESSIONS]);
    for (int i = SESSIONS - 1; i >= 0; i--) {
        EXPECT(lrc_pool_take(pool, &again, 0), LRC_STORE_DONE);
        EXPECT(again == taken[(i + 30) % SESSIONS], 1);
    }
    for (int i = 0; i < SESSIONS; i++) lrc_pool_give(pool, taken[i]);
    EXPECT(lrc_pool_close(pool, &slot), LRC_STORE_DONE);
    EXPECT(lrc_store_close_to(&slot, &journal, &discarded, &entries, &lawful), LRC_STORE_DONE);
    EXPECT(entries, SESSIONS);
    for (unsigned i = 0; i < SESSIONS; i++) {
        entry.name = (lrc_slice){(const uint8_t *)"", 0};
        EXPECT(lrc_slot_entry(&journal, i, &entry), LRC_STORE_DONE);
        EXPECT(entry.who, i + 1);
    }
    lrc_slot_release(&journal);
}

/* A session comes to a thread that is cancelled before it goes on: it goes back. */
static void cancels_when_it_came(void) {
    lrc_pool *pool = opened();
    lrc_slot *taken[SESSIONS];
    struct waiter waiter = {pool, NULL, 0};
    pthread_t thread;
    lends_each_once(pool, taken);
    thread = waiting(&waiter);
    cancels_at_wake = 1;
    lrc_pool_give(pool, taken[0]);
    joined(thread, 1);
    cancels_at_wake = 0;
    EXPECT(waiter.got == NULL, 1);
    taken[0] = NULL;
    EXPECT(lrc_pool_take(pool, &taken[0], 0), LRC_STORE_DONE);
    if (!taken[0]) return;
    for (int i = 0; i < SESSIONS; i++) lrc_pool_give(pool, taken[i]);
    closed(pool, SESSIONS);
}

/* A session comes to a thread that is cancelled at the same time: it goes back. */
static void cancels(void) {
    lrc_pool *pool = opened();
    lrc_slot *taken[SESSIONS];
    lends_each_once(pool, taken);
    for (int i = 0; i < ROUNDS; i++) {
        struct waiter waiter = {pool, NULL, 0};
        pthread_t thread;
        EXPECT(pthread_create(&thread, NULL, wait_for_session, &waiter), 0);
        usleep(300);
        pthread_cancel(thread);
        lrc_pool_give(pool, taken[0]);
        EXPECT(pthread_join(thread, NULL), 0);
        if (waiter.got) lrc_pool_give(pool, waiter.got);
        taken[0] = NULL;
        EXPECT(lrc_pool_take(pool, &taken[0], 0), LRC_STORE_DONE);
        if (!taken[0]) return;
    }
    for (int i = 0; i < SESSIONS; i++) lrc_pool_give(pool, taken[i]);
    closed(pool, SESSIONS);
}

static lrc_pool *shared;

/* Puts and reads blobs of its own, each by a session that it takes. */
static void *work(void *argument) {
    const unsigned number = (unsigned)(uintptr_t)argument;
    char name[16];
    snprintf(name, sizeof name, "n%u", number);
    for (unsigned turn = 0; turn < TURNS; turn++) {
        lrc_slot *session = NULL;
        uint64_t version, lent, built;
        uint8_t blob[48], got[48];
        fill(blob, sizeof blob, number * TURNS + turn);
        EXPECT(lrc_pool_take(shared, &session, -1), LRC_STORE_DONE);
        EXPECT(lrc_store_put_wait(session, NAME(name), blob, sizeof blob, 12, &version, -1), 0);
        lrc_pool_give(shared, session);
        EXPECT(lrc_pool_take(shared, &session, 60000), LRC_STORE_DONE);
        EXPECT(lrc_store_read_wait(session, NAME(name), 0, got, sizeof got, &version, &lent, &built,
                                   -1),
               0);
        lrc_pool_give(shared, session);
        EXPECT(memcmp(got, blob, sizeof blob), 0);
    }
    return NULL;
}

static void serves_more_threads_than_sessions(void) {
    pthread_t threads[THREADS];
    shared = opened();
    for (uintptr_t i = 0; i < THREADS; i++)
        EXPECT(pthread_create(&threads[i], NULL, work, (void *)i), 0);
    for (int i = 0; i < THREADS; i++) EXPECT(pthread_join(threads[i], NULL), 0);
    closed(shared, 2 * THREADS * TURNS);
}

/* With a word it does not stand in for functions that the library calls: it may be a shared
 * object. */
int main(int words, char **word) {
    (void)word;
    alarm(60); /* a call that never returns ends the test */
    refuses();
    lends_one();
    if (words < 2) refuses_without_memory();
    lends_all();
    lines_up();
    last_gives_up(0);
    if (words < 2) last_gives_up(1);
    only_one_gives_up();
    labels_sessions();
    if (words < 2) cancels_when_it_came();
    cancels();
    serves_more_threads_than_sessions();
    return report("pool");
}

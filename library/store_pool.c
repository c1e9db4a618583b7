/* A pool of the sessions of a store.
 *
 * One session, the root, has the places that are left. It is lent only if it has none from the
 * beginning, and is then the only session. The sessions that nobody has stand in a stack, so that
 * the one used last, whose memory is in a cache, is lent next. If there is none, threads wait in a
 * line, and a session that is given back goes to the first of them.
 *
 * Under the mutex the root learns of each session that is given back, and each session learns of
 * the root before it is lent. So each use, from the loan to the return, stands after all that the
 * uses have seen which ended before it began: the law of crates/pool_order. */
#define _GNU_SOURCE
#include "deadline.h"
#include "pool.h"

#include <pthread.h>
#include <stdlib.h>

enum { MOST_SESSIONS = 64 };

struct waiter {
    struct waiter *next;
    pthread_cond_t came;
    lrc_slot *session;
    lrc_pool *pool;
};

struct lrc_pool {
    pthread_mutex_t mutex;
    lrc_slot root, sessions[MOST_SESSIONS];
    lrc_slot *idle[MOST_SESSIONS + 1];
    unsigned made, idle_count;
    int can_split;  /* whether the root may have a place for a further session */
    int lends_root; /* whether it had none from the beginning */
    struct waiter *first, **end;
};

/* Splits a session off the root, or gives the root itself if it is the only session. */
static uint32_t make_session(lrc_pool *pool, lrc_slot **session) {
    if (!pool->can_split) return LRC_STORE_NO_PASS;
    lrc_slot *made = &pool->sessions[pool->made];
    const uint32_t status = lrc_store_split(&pool->root, pool->made + 1, made);
    if (status == LRC_STORE_NO_PASS) {
        pool->can_split = 0;
        if (pool->made) return status;
        pool->lends_root = 1;
        *session = &pool->root;
        return LRC_STORE_DONE;
    }
    if (status != LRC_STORE_DONE) return status;
    pool->made++;
    *session = made;
    return LRC_STORE_DONE;
}

/* Makes a pool whose root is the session in the slot, which splits off another one, if it can. */
uint32_t lrc_pool_open(lrc_slot *slot, lrc_pool **pool) {
    lrc_pool *made = calloc(1, sizeof *made);
    lrc_slot *first = NULL;
    if (!made) return LRC_STORE_NO_MEMORY;
    made->root = *slot;
    made->can_split = 1;
    made->end = &made->first;
    const uint32_t status = make_session(made, &first);
    if (status != LRC_STORE_DONE) {
        *slot = made->root;
        free(made);
        return status;
    }
    made->idle[made->idle_count++] = first;
    pthread_mutex_init(&made->mutex, NULL);
    slot->at = NULL;
    *pool = made;
    return LRC_STORE_DONE;
}

/* Has the root learn of a session, and a session of the root. Both are of one store, so neither is
 * refused. */
static void teach_root(lrc_pool *pool, lrc_slot *session) {
    if (!pool->lends_root) lrc_slot_learn(&pool->root, session);
}

static void learn_of_root(lrc_pool *pool, lrc_slot *session) {
    if (!pool->lends_root) lrc_slot_learn(session, &pool->root);
}

/* Takes a waiter out of the line, if it stands there. */
static void leave_line(lrc_pool *pool, const struct waiter *waiter) {
    struct waiter **at = &pool->first;
    while (*at && *at != waiter) at = &(*at)->next;
    if (!*at) return;
    *at = waiter->next;
    if (!*at) pool->end = at;
}

/* Gives a session to the first waiter, or lays it down. */
static void pass_on(lrc_pool *pool, lrc_slot *session) {
    struct waiter *next = pool->first;
    if (!next) {
        pool->idle[pool->idle_count++] = session;
        return;
    }
    leave_line(pool, next);
    next->session = session;
    pthread_cond_signal(&next->came);
}

/* Ends a wait: of one that was cancelled, with the session that it got meanwhile. */
static void end_wait(void *argument) {
    struct waiter *waiter = argument;
    lrc_pool *pool = waiter->pool;
    leave_line(pool, waiter);
    if (waiter->session) pass_on(pool, waiter->session);
    pthread_mutex_unlock(&pool->mutex);
    pthread_cond_destroy(&waiter->came);
}

/* Waits in the line until a session comes or the deadline passes, and gives the mutex back. */
static lrc_slot *wait_for_session(lrc_pool *pool, int64_t deadline) {
    struct waiter waiter = {NULL, PTHREAD_COND_INITIALIZER, NULL, pool};
    const struct timespec end = {deadline / NS_OF_S, deadline % NS_OF_S};
    lrc_slot *session;
    int is_over = 0;
    *pool->end = &waiter;
    pool->end = &waiter.next;
    pthread_cleanup_push(end_wait, &waiter);
    while (!waiter.session && !is_over)
        is_over = pthread_cond_clockwait(&waiter.came, &pool->mutex, CLOCK_MONOTONIC, &end) != 0;
    session = waiter.session;
    waiter.session = NULL;
    if (session) learn_of_root(pool, session);
    pthread_cleanup_pop(1);
    return session;
}

uint32_t lrc_pool_take(lrc_pool *pool, lrc_slot **session, int64_t timeout_ms) {
    uint32_t status = LRC_STORE_DONE;
    pthread_mutex_lock(&pool->mutex);
    if (pool->idle_count) {
        *session = pool->idle[--pool->idle_count];
        learn_of_root(pool, *session);
    } else
        status = make_session(pool, session);
    if (status == LRC_STORE_NO_PASS && timeout_ms != 0) {
        lrc_slot *came = wait_for_session(pool, deadline_after(timeout_ms));
        if (came) *session = came;
        return came ? LRC_STORE_DONE : LRC_STORE_BUSY;
    }
    pthread_mutex_unlock(&pool->mutex);
    return status == LRC_STORE_NO_PASS ? LRC_STORE_BUSY : status;
}

void lrc_pool_give(lrc_pool *pool, lrc_slot *session) {
    pthread_mutex_lock(&pool->mutex);
    teach_root(pool, session);
    pass_on(pool, session);
    pthread_mutex_unlock(&pool->mutex);
}

/* Whether a session is lent. */
static int is_lent(const lrc_pool *pool) {
    return pool->idle_count < pool->made + (pool->lends_root != 0);
}

int pool_is_busy(lrc_pool *pool) {
    pthread_mutex_lock(&pool->mutex);
    const int is_busy = is_lent(pool);
    pthread_mutex_unlock(&pool->mutex);
    return is_busy;
}

uint32_t lrc_pool_close(lrc_pool *pool, lrc_slot *slot) {
    if (slot->at) return LRC_STORE_OCCUPIED;
    if (pool_is_busy(pool)) return LRC_STORE_NOT_ALONE;
    for (unsigned i = 0; i < pool->made; i++) {
        lrc_store_join(&pool->root, &pool->sessions[i]);
        lrc_slot_release(&pool->sessions[i]); /* if it is not the one that was lent */
    }
    *slot = pool->root;
    pthread_mutex_destroy(&pool->mutex);
    free(pool);
    return LRC_STORE_DONE;
}

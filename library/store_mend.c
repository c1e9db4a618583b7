/* A mending: one plan of repairs that any number of threads work off.
 *
 * The plan is made in parts. A part is copied out of its slot as tickets, which threads draw under
 * a mutex, and repair outside of it. A ticket whose repair has to be tried again is handed back,
 * and is drawn before others. */
#define _GNU_SOURCE
#include "deadline.h"
#include "lrc_store.h"
#include "mend.h"

#include <pthread.h>
#include <stdlib.h>
#include <string.h>

enum { MOST_NAME = 32, MOST_WORKERS = 64 };

/* A lost fragment that is to be repaired. */
struct ticket {
    uint8_t name[MOST_NAME];
    size_t name_len;
    uint64_t stripe, fragment;
};

struct lrc_mending {
    pthread_mutex_t mutex;
    pthread_cond_t planned;
    lrc_slot plan;   /* for the thread that plans alone */
    int is_planning; /* whether a thread makes the next part */
    int is_last;     /* whether no part is behind this one */
    size_t drawn, count, back_count;
    struct ticket tickets[PLANNED_AT_ONCE], back[MOST_WORKERS];
};

uint32_t lrc_mending_open(lrc_mending **mending) {
    lrc_mending *made = calloc(1, sizeof *made);
    if (!made) return LRC_STORE_NO_MEMORY;
    pthread_mutex_init(&made->mutex, NULL);
    pthread_cond_init(&made->planned, NULL);
    *mending = made;
    return LRC_STORE_DONE;
}

void lrc_mending_close(lrc_mending *mending) {
    lrc_slot_release(&mending->plan);
    pthread_cond_destroy(&mending->planned);
    pthread_mutex_destroy(&mending->mutex);
    free(mending);
}

/* Makes tickets of the items in the slot, and empties the list there. */
static void take_items(lrc_mending *mending) {
    lrc_item item = {{(const uint8_t *)"", 0}, 0, 0, 0};
    uint64_t count = 0;
    mending->drawn = mending->count = 0;
    for (;;) {
        lrc_slot_items(&mending->plan, &item, 1, &count);
        if (!count) return;
        struct ticket *ticket = &mending->tickets[mending->count++];
        memcpy(ticket->name, item.name.at, item.name.len);
        ticket->name_len = item.name.len;
        ticket->stripe = item.stripe;
        ticket->fragment = item.fragment;
        item.name = (lrc_slice){(const uint8_t *)"", 0};
        lrc_slot_skip(&mending->plan);
    }
}

/* Ends the making of a part. Those that wait for it draw, or make it themselves. */
static void end_planning(void *argument) {
    lrc_mending *mending = argument;
    pthread_mutex_lock(&mending->mutex);
    mending->is_planning = 0;
    pthread_cond_broadcast(&mending->planned);
    pthread_mutex_unlock(&mending->mutex);
}

/* Makes the next part, for the thread that has taken this on. */
static uint32_t plan(lrc_mending *mending, lrc_slot *session, int64_t timeout_ms) {
    uint64_t items = 0;
    uint32_t status;
    pthread_cleanup_push(end_planning, mending);
    status = lrc_store_plan_part_wait(session, &mending->plan, PLANNED_AT_ONCE, &items, timeout_ms);
    if (status == LRC_STORE_DONE) {
        pthread_mutex_lock(&mending->mutex);
        mending->is_last = items < PLANNED_AT_ONCE;
        take_items(mending);
        pthread_mutex_unlock(&mending->mutex);
    }
    pthread_cleanup_pop(1);
    return status;
}

static void unlock(void *mutex) { pthread_mutex_unlock(mutex); }

static int has_ticket(const lrc_mending *mending) {
    return mending->back_count || mending->drawn < mending->count;
}

/* Locks the mutex: while a thread makes the next part, not before that is over or the deadline has
 * passed. */
static void lock_to_draw(lrc_mending *mending, int64_t deadline) {
    const struct timespec end = {deadline / NS_OF_S, deadline % NS_OF_S};
    pthread_mutex_lock(&mending->mutex);
    pthread_cleanup_push(unlock, &mending->mutex);
    while (!has_ticket(mending) && !mending->is_last && mending->is_planning &&
           !pthread_cond_clockwait(&mending->planned, &mending->mutex, CLOCK_MONOTONIC, &end)) {
    }
    pthread_cleanup_pop(0);
}

/* Draws a ticket, if there is one at hand. LRC_STORE_NOTHING_LEFT: there are no more;
 * LRC_STORE_BUSY: another thread has not made the next part by the deadline; LRC_STORE_EMPTY: the
 * caller has taken on to make it. */
static uint32_t draw_at_hand(lrc_mending *mending, struct ticket *ticket, int64_t deadline) {
    uint32_t status = LRC_STORE_DONE;
    lock_to_draw(mending, deadline);
    if (mending->back_count)
        *ticket = mending->back[--mending->back_count];
    else if (mending->drawn < mending->count)
        *ticket = mending->tickets[mending->drawn++];
    else if (mending->is_last)
        status = LRC_STORE_NOTHING_LEFT;
    else
        status = mending->is_planning ? LRC_STORE_BUSY : LRC_STORE_EMPTY;
    if (status == LRC_STORE_EMPTY) mending->is_planning = 1;
    pthread_mutex_unlock(&mending->mutex);
    return status;
}

/* Draws a ticket, and makes the next part for it if need be. */
static uint32_t draw(lrc_mending *mending, lrc_slot *session, struct ticket *ticket,
                     int64_t timeout_ms) {
    const int64_t deadline = deadline_after(timeout_ms);
    for (;;) {
        uint32_t status = draw_at_hand(mending, ticket, deadline);
        if (status != LRC_STORE_EMPTY) return status;
        status = plan(mending, session, left_ms(deadline));
        if (status != LRC_STORE_DONE) return status;
    }
}

struct drawn {
    lrc_mending *mending;
    struct ticket ticket;
};

/* Hands a ticket back. There is room for one of each session of a store; a ticket beyond is of
 * another store, and is dropped. */
static void hand_back(void *argument) {
    const struct drawn *drawn = argument;
    lrc_mending *mending = drawn->mending;
    pthread_mutex_lock(&mending->mutex);
    if (mending->back_count < MOST_WORKERS) mending->back[mending->back_count++] = drawn->ticket;
    pthread_mutex_unlock(&mending->mutex);
}

/* Repairs the fragment of a ticket. The ticket is handed back if that has to be tried again, and
 * if the thread is cancelled. */
static uint32_t repair(struct drawn *drawn, lrc_slot *session, int64_t timeout_ms) {
    const struct ticket *ticket = &drawn->ticket;
    uint64_t version;
    uint32_t status;
    pthread_cleanup_push(hand_back, drawn);
    status = lrc_store_repair_wait(session, ticket->name, ticket->name_len, ticket->stripe,
                                   ticket->fragment, &version, timeout_ms);
    pthread_cleanup_pop(!is_past(status));
    return status;
}

uint32_t lrc_mending_work(lrc_mending *mending, lrc_slot *session, uint64_t *repaired,
                          int64_t timeout_ms) {
    struct drawn drawn = {.mending = mending};
    uint64_t all = 0;
    uint32_t status = draw(mending, session, &drawn.ticket, timeout_ms);
    while (status == LRC_STORE_DONE) {
        status = repair(&drawn, session, timeout_ms);
        all += status == LRC_STORE_DONE;
        if (is_past(status)) status = draw(mending, session, &drawn.ticket, timeout_ms);
    }
    if (status == LRC_STORE_NOTHING_LEFT) status = LRC_STORE_DONE;
    if (status == LRC_STORE_DONE || all) *repaired = all;
    return status;
}

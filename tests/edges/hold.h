/* Holds a store's critical section: a thread makes a call, and stays in one of the allocations that
 * the call makes there. Link with -Wl,--wrap=malloc -Wl,--wrap=realloc. */
#ifndef EDGES_HOLD_H
#define EDGES_HOLD_H

#include "store_test.h"

#include <pthread.h>
#include <stdlib.h>
#include <time.h>

void *__real_malloc(size_t size);
void *__real_realloc(void *old, size_t size);
void *__wrap_malloc(size_t size);
void *__wrap_realloc(void *old, size_t size);

/* How far the holding thread is. */
enum { HOLD_RUNS, HOLD_STAYS, HOLD_IS_RELEASED, HOLD_ENDED };

struct hold {
    lrc_slot slot; /* a session for the holding thread */
    long passes;   /* the allocations before the one that stays */
    int64_t stays; /* for so many milliseconds; negative: until it is released */
    pthread_t thread;
};

static pthread_mutex_t hold_lock = PTHREAD_MUTEX_INITIALIZER;
static pthread_cond_t hold_change = PTHREAD_COND_INITIALIZER;
static int hold_state = HOLD_ENDED;
static __thread struct hold *holding;

static inline int64_t milliseconds(void) {
    struct timespec now;
    clock_gettime(CLOCK_MONOTONIC, &now);
    return (int64_t)now.tv_sec * 1000 + now.tv_nsec / 1000000;
}

static inline void sleep_ms(int64_t count) {
    const int64_t end = milliseconds() + count;
    const struct timespec pause = {0, 500000};
    while (milliseconds() < end) nanosleep(&pause, NULL);
}

static void hold_become(int state) {
    pthread_mutex_lock(&hold_lock);
    hold_state = state;
    pthread_cond_broadcast(&hold_change);
    pthread_mutex_unlock(&hold_lock);
}

static void stay(void) {
    struct hold *hold = holding;
    if (!hold || hold->passes-- != 0) return;
    hold_become(HOLD_STAYS);
    if (hold->stays >= 0) {
        sleep_ms(hold->stays);
        return;
    }
    pthread_mutex_lock(&hold_lock);
    while (hold_state == HOLD_STAYS) pthread_cond_wait(&hold_change, &hold_lock);
    pthread_mutex_unlock(&hold_lock);
}

void *__wrap_malloc(size_t size) {
    stay();
    return __real_malloc(size);
}

void *__wrap_realloc(void *old, size_t size) {
    stay();
    return __real_realloc(old, size);
}

/* Puts a new name, which the catalogue takes memory for. */
static void *hold_in_call(void *argument) {
    struct hold *hold = argument;
    uint64_t version = 0;
    holding = hold;
    EXPECT(
        lrc_store_put_wait(&hold->slot, NAME("held"), (const uint8_t *)"held", 4, 12, &version, -1),
        LRC_STORE_DONE);
    holding = NULL;
    hold_become(HOLD_ENDED);
    return NULL;
}

/* Starts the thread, and returns once it stays in the allocation or has ended. */
static void hold_start(struct hold *hold, long passes, int64_t stays) {
    hold->passes = passes;
    hold->stays = stays;
    hold_state = HOLD_RUNS;
    EXPECT(pthread_create(&hold->thread, NULL, hold_in_call, hold), 0);
    pthread_mutex_lock(&hold_lock);
    while (hold_state == HOLD_RUNS) pthread_cond_wait(&hold_change, &hold_lock);
    pthread_mutex_unlock(&hold_lock);
}

static void hold_end(struct hold *hold) {
    if (hold->stays < 0) hold_become(HOLD_IS_RELEASED);
    EXPECT(pthread_join(hold->thread, NULL), 0);
}

/* Which allocation of that put is in the critical section: another session is refused meanwhile. */
static long hold_passes(void) {
    for (long passes = 0; passes < 50; passes++) {
        lrc_slot slot = LRC_SLOT_EMPTY;
        struct hold hold = {LRC_SLOT_EMPTY, 0, 0, 0};
        uint64_t version, len, stripes, lost;
        uint32_t status;
        EXPECT(lrc_store_open(4, 100, &slot), LRC_STORE_DONE);
        EXPECT(lrc_store_split(&slot, 1, &hold.slot), LRC_STORE_DONE);
        hold_start(&hold, passes, -1);
        status = lrc_store_stat(&slot, NAME("a"), &version, &len, &stripes, &lost);
        hold_end(&hold);
        lrc_slot_release(&hold.slot);
        lrc_slot_release(&slot);
        if (status == LRC_STORE_BUSY) return passes;
    }
    fprintf(stderr, "a put allocates nothing in the critical section, so it cannot be held\n");
    exit(1);
}
#endif

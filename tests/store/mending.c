/* Mendings: one plan that many threads work off. Link with library/store_mend.c, and with
 * --wrap=calloc,--wrap=lrc_store_plan_part_wait. With a word it cancels no thread, after which
 * ThreadSanitizer reports an error of its own. */
#include "asleep.h"
#include "store_test.h"
#include <pthread.h>
#include <stdatomic.h>
#include <stdio.h>
#include <time.h>
#include <unistd.h>

enum { WIDTH = 4, STRIPES = 700, LOST_EACH = 3, WORKERS = 8, SLOW_MS = 60000 };

static atomic_int refuses_memory;

void *__real_calloc(size_t count, size_t size);
void *__wrap_calloc(size_t count, size_t size);
void *__wrap_calloc(size_t count, size_t size) {
    return refuses_memory ? NULL : __real_calloc(count, size);
}

/* Whether the thread that makes a part of a plan stays there. */
static atomic_int plans_for_ever;

uint32_t __real_lrc_store_plan_part_wait(lrc_slot *slot, lrc_slot *other, uint64_t most,
                                         uint64_t *items, int64_t timeout_ms);
uint32_t __wrap_lrc_store_plan_part_wait(lrc_slot *slot, lrc_slot *other, uint64_t most,
                                         uint64_t *items, int64_t timeout_ms);
uint32_t __wrap_lrc_store_plan_part_wait(lrc_slot *slot, lrc_slot *other, uint64_t most,
                                         uint64_t *items, int64_t timeout_ms) {
    if (plans_for_ever == 1) plans_for_ever = 2;
    while (plans_for_ever) usleep(1000); /* a cancellation point */
    return __real_lrc_store_plan_part_wait(slot, other, most, items, timeout_ms);
}

static int64_t now_ms(void) {
    struct timespec now;
    clock_gettime(CLOCK_MONOTONIC, &now);
    return (int64_t)now.tv_sec * 1000 + now.tv_nsec / 1000000;
}

/* A store of two blobs, with so many lost fragments in each stripe of the first. */
static lrc_slot degraded(uint32_t limit) {
    static uint8_t blob[STRIPES * 12 * WIDTH];
    lrc_slot slot = LRC_SLOT_EMPTY;
    uint64_t version;
    for (size_t i = 0; i < sizeof blob; i++) blob[i] = (uint8_t)(i * 7 + i / 251);
    EXPECT(lrc_store_open(WIDTH, limit, &slot), LRC_STORE_DONE);
    EXPECT(lrc_store_put(&slot, NAME("a"), blob, sizeof blob, 12, &version), LRC_STORE_DONE);
    EXPECT(lrc_store_put(&slot, NAME("b"), blob, 12 * WIDTH, 12, &version), LRC_STORE_DONE);
    for (uint64_t stripe = 0; stripe < STRIPES; stripe++)
        for (uint64_t fragment = 0; fragment < LOST_EACH; fragment++)
            EXPECT(lrc_store_lose(&slot, NAME("a"), stripe, 5 * fragment, &version),
                   LRC_STORE_DONE);
    for (uint64_t fragment = 0; fragment < 5; fragment++) /* of which one can be rebuilt */
        EXPECT(lrc_store_lose(&slot, NAME("b"), 0, fragment < 4 ? fragment : 8, &version),
               LRC_STORE_DONE);
    return slot;
}

static uint64_t lost_of(lrc_slot *slot) {
    lrc_numbers numbers = {0};
    EXPECT(lrc_store_numbers(slot, &numbers), LRC_STORE_DONE);
    return numbers.lost;
}

static void closed(lrc_slot *slot) {
    uint64_t entries;
    uint32_t lawful;
    EXPECT(lrc_store_close(slot, &entries, &lawful), LRC_STORE_DONE);
    EXPECT(lawful, 1);
}

struct worker {
    pthread_t thread;
    lrc_mending *mending;
    lrc_slot session;
    uint64_t repaired;
    uint32_t status;
};

static void *work(void *argument) {
    struct worker *worker = argument;
    worker->status =
        lrc_mending_work(worker->mending, &worker->session, &worker->repaired, SLOW_MS);
    return NULL;
}

/* Each fragment is repaired once, whatever the number of threads. */
static void shared(unsigned count) {
    struct worker workers[WORKERS] = {{0}};
    lrc_slot slot = degraded(100000);
    lrc_mending *mending = NULL;
    uint64_t all = 0;
    EXPECT(lrc_mending_open(&mending), LRC_STORE_DONE);
    for (unsigned i = 0; i < count; i++) {
        workers[i].mending = mending;
        EXPECT(lrc_store_split(&slot, i + 1, &workers[i].session), LRC_STORE_DONE);
    }
    for (unsigned i = 0; i < count; i++)
        EXPECT(pthread_create(&workers[i].thread, NULL, work, &workers[i]), 0);
    for (unsigned i = 0; i < count; i++) {
        pthread_join(workers[i].thread, NULL);
        EXPECT(workers[i].status, LRC_STORE_DONE);
        all += workers[i].repaired;
        EXPECT(lrc_store_join(&slot, &workers[i].session), LRC_STORE_DONE);
    }
    EXPECT(all, STRIPES * LOST_EACH + 1);
    EXPECT(lost_of(&slot), 4);
    all = 7;
    EXPECT(lrc_mending_work(mending, &slot, &all, 0), LRC_STORE_DONE);
    EXPECT(all, 0);
    lrc_mending_close(mending);
    closed(&slot);
}

/* A full journal stops a mending, which goes on where it stopped. */
static void stops_and_goes_on(void) {
    lrc_slot slot = degraded(STRIPES * LOST_EACH + 7 + 600);
    lrc_mending *mending = NULL;
    uint64_t repaired = 77, discarded;
    EXPECT(lrc_mending_open(&mending), LRC_STORE_DONE);
    EXPECT(lrc_mending_work(mending, &slot, &repaired, -1), LRC_STORE_JOURNAL_FULL);
    EXPECT(repaired, 600);
    EXPECT(lost_of(&slot), STRIPES * LOST_EACH + 5 - 600);
    repaired = 77;
    EXPECT(lrc_mending_work(mending, &slot, &repaired, 0), LRC_STORE_JOURNAL_FULL);
    EXPECT(repaired, 77);
    EXPECT(lrc_store_trim(&slot, 0, &discarded), LRC_STORE_DONE);
    EXPECT(lrc_mending_work(mending, &slot, &repaired, -1), LRC_STORE_DONE);
    EXPECT(repaired, STRIPES * LOST_EACH + 1 - 600);
    EXPECT(lost_of(&slot), 4);
    lrc_mending_close(mending);
    closed(&slot);
}

static void refuses(void) {
    lrc_slot slot = LRC_SLOT_EMPTY;
    lrc_mending *mending = NULL;
    uint64_t repaired = 77;
    refuses_memory = 1;
    EXPECT(lrc_mending_open(&mending), LRC_STORE_NO_MEMORY);
    EXPECT(mending == NULL, 1);
    refuses_memory = 0;
    EXPECT(lrc_mending_open(&mending), LRC_STORE_DONE);
    EXPECT(lrc_mending_work(mending, &slot, &repaired, -1), LRC_STORE_EMPTY);
    EXPECT(repaired, 77);
    lrc_mending_close(mending);
}

/* A mending that is closed early, with items of a part that nobody drew. */
static void closes_early(void) {
    lrc_slot slot = degraded(STRIPES * LOST_EACH + 7 + 3);
    lrc_mending *mending = NULL;
    uint64_t repaired = 0;
    EXPECT(lrc_mending_open(&mending), LRC_STORE_DONE);
    EXPECT(lrc_mending_work(mending, &slot, &repaired, -1), LRC_STORE_JOURNAL_FULL);
    EXPECT(repaired, 3);
    lrc_mending_close(mending);
    closed(&slot);
}

/* The names of items that are left out are not repaired; what remains is. */
static void skips(void) {
    lrc_slot slot = degraded(100000), plan = LRC_SLOT_EMPTY;
    lrc_item items[3] = {{{(const uint8_t *)"", 0}, 0, 0, 0},
                         {{(const uint8_t *)"", 0}, 0, 0, 0},
                         {{(const uint8_t *)"", 0}, 0, 0, 0}};
    uint64_t count = 0, version;
    EXPECT(lrc_slot_skip(&plan), LRC_STORE_EMPTY);
    EXPECT(lrc_slot_skip(&slot), LRC_STORE_EMPTY);
    EXPECT(lrc_store_plan(&slot, &plan, &count), LRC_STORE_DONE);
    EXPECT(count, STRIPES * LOST_EACH + 5);
    for (int i = 0; i < 4; i++) EXPECT(lrc_slot_skip(&plan), LRC_STORE_DONE);
    EXPECT(lrc_slot_items(&plan, items, 3, &count), LRC_STORE_DONE);
    EXPECT(count, 3);
    EXPECT(items[0].stripe, 1);
    EXPECT(items[0].fragment, 5);
    EXPECT(items[2].stripe, 2);
    EXPECT(lrc_store_mend_step(&slot, &plan, &version), LRC_STORE_DONE);
    EXPECT(lrc_store_repair(&slot, NAME("a"), 1, 5, &version), LRC_STORE_NOT_LOST);
    for (uint64_t i = 5; i < STRIPES * LOST_EACH + 5; i++)
        EXPECT(lrc_slot_skip(&plan), LRC_STORE_DONE);
    EXPECT(lrc_slot_skip(&plan), LRC_STORE_NOTHING_LEFT);
    EXPECT(lrc_store_mend_step(&slot, &plan, &version), LRC_STORE_NOTHING_LEFT);
    lrc_slot_release(&plan);
    closed(&slot);
}

/* A worker that makes a part of the plan as long as `plans_for_ever` says so. */
static struct worker planner(lrc_slot *slot, lrc_mending *mending) {
    struct worker worker = {.mending = mending};
    EXPECT(lrc_store_split(slot, 1, &worker.session), LRC_STORE_DONE);
    return worker;
}

static void start_planning(struct worker *worker) {
    plans_for_ever = 1;
    EXPECT(pthread_create(&worker->thread, NULL, work, worker), 0);
    while (plans_for_ever != 2) usleep(1000);
}

/* While another thread makes a part, a caller returns at its deadline. */
static void deadlines(void) {
    lrc_mending *mending = NULL;
    lrc_slot slot = degraded(100000);
    uint64_t repaired = 77;
    EXPECT(lrc_mending_open(&mending), LRC_STORE_DONE);
    struct worker worker = planner(&slot, mending);
    start_planning(&worker);
    for (int64_t timeout_ms = 0; timeout_ms <= 60; timeout_ms += 30) {
        const int64_t began = now_ms();
        EXPECT(lrc_mending_work(mending, &slot, &repaired, timeout_ms), LRC_STORE_BUSY);
        const int64_t took = now_ms() - began;
        EXPECT(took >= timeout_ms - 1 && took < SLOW_MS, 1);
    }
    EXPECT(repaired, 77);
    plans_for_ever = 0;
    pthread_join(worker.thread, NULL);
    EXPECT(worker.status, LRC_STORE_DONE);
    EXPECT(worker.repaired, STRIPES * LOST_EACH + 1);
    EXPECT(lrc_store_join(&slot, &worker.session), LRC_STORE_DONE);
    lrc_mending_close(mending);
    closed(&slot);
}

/* A caller that waits for a part makes it itself, once the thread that was at it is cancelled. */
static void cancels(void) {
    lrc_mending *mending = NULL;
    lrc_slot slot = degraded(100000);
    EXPECT(lrc_mending_open(&mending), LRC_STORE_DONE);
    struct worker first = planner(&slot, mending), second = planner(&slot, mending);
    start_planning(&first);
    EXPECT(pthread_create(&second.thread, NULL, work, &second), 0);
    until_others_sleep();
    pthread_cancel(first.thread);
    pthread_join(first.thread, NULL);
    plans_for_ever = 0;
    pthread_join(second.thread, NULL);
    EXPECT(second.status, LRC_STORE_DONE);
    EXPECT(second.repaired, STRIPES * LOST_EACH + 1);
    EXPECT(lrc_store_join(&slot, &first.session), LRC_STORE_DONE);
    EXPECT(lrc_store_join(&slot, &second.session), LRC_STORE_DONE);
    lrc_mending_close(mending);
    closed(&slot);
}

int main(int words, char **word) {
    (void)word;
    alarm(100); /* a call that never returns ends the test */
    refuses();
    skips();
    shared(1);
    shared(WORKERS);
    stops_and_goes_on();
    closes_early();
    deadlines();
    if (words < 2) cancels();
    return report("mending");
}

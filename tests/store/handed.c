/* Tickets of a mending that threads hand back, over a plan and repairs that a test makes up. Link
 * with library/store_mend.c, and without the library. With a word it cancels no thread, after which
 * ThreadSanitizer reports an error of its own. */
#include "asleep.h"
#include "store_test.h"

#include <pthread.h>
#include <stdatomic.h>
#include <unistd.h>

enum { WORKERS = 64, PART = 512, MOST = 3 * PART, FOREVER = -1, UNWRITTEN = 77777 };

/* The items of the plan: how many there are, how many parts have been made of, and how often each
 * was repaired. */
static uint64_t items, planned, shown;
static atomic_uint repaired[MOST];

/* A thread that makes a part stays until `plan_gate` is open, and one that holds its ticket until
 * `repair_gate` is. It then returns `repair_says`. So many parts are refused before one is made. */
static atomic_int planners, holders, plan_gate, repair_gate, refusals;
static _Atomic uint32_t repair_says;
static __thread int holds;

static void pass(atomic_int *inside, const atomic_int *gate) {
    ++*inside;
    while (!*gate) usleep(1000); /* a cancellation point */
}

uint32_t lrc_store_plan_part_wait(lrc_slot *slot, lrc_slot *other, uint64_t most, uint64_t *count,
                                  int64_t timeout_ms) {
    (void)timeout_ms;
    EXPECT(slot->at != NULL, 1);
    EXPECT(most, PART);
    EXPECT(shown, planned); /* no item of the part before is left */
    pass(&planners, &plan_gate);
    if (refusals > 0 && refusals--) return LRC_STORE_NO_MEMORY;
    const uint64_t left = items - planned;
    *count = left < most ? left : most;
    planned += *count;
    other->at = &planned;
    return LRC_STORE_DONE;
}

uint32_t lrc_slot_items(lrc_slot *slot, lrc_item *of, size_t capacity, uint64_t *count) {
    (void)slot;
    EXPECT(capacity, 1);
    *count = shown < planned;
    if (*count) *of = (lrc_item){{(const uint8_t *)"blob", 4}, 1, shown / 16, shown % 16};
    return LRC_STORE_DONE;
}

uint32_t lrc_slot_skip(lrc_slot *slot) {
    (void)slot;
    shown++;
    return LRC_STORE_DONE;
}

void lrc_slot_release(lrc_slot *slot) { slot->at = NULL; }

uint32_t lrc_store_repair_wait(lrc_slot *slot, const uint8_t *name, size_t name_len,
                               uint64_t stripe, uint64_t fragment, uint64_t *version,
                               int64_t timeout_ms) {
    (void)version;
    (void)timeout_ms;
    EXPECT(slot->at != NULL, 1);
    EXPECT(name_len == 4 && memcmp(name, "blob", 4) == 0, 1);
    EXPECT(16 * stripe + fragment < items, 1);
    if (holds) pass(&holders, &repair_gate);
    if (holds && repair_says != LRC_STORE_DONE) return repair_says;
    repaired[16 * stripe + fragment]++;
    return LRC_STORE_DONE;
}

/* Begins anew with a plan of so many items. No thread makes a part for now. */
static lrc_mending *mending_of(uint64_t count) {
    lrc_mending *mending = NULL;
    items = count;
    planned = shown = 0;
    memset(repaired, 0, sizeof repaired);
    planners = holders = plan_gate = repair_gate = refusals = 0;
    repair_says = LRC_STORE_DONE;
    EXPECT(lrc_mending_open(&mending), LRC_STORE_DONE);
    return mending;
}

/* Each item was repaired once. */
static void ended(lrc_mending *mending) {
    for (uint64_t i = 0; i < items; i++) EXPECT(repaired[i], 1);
    lrc_mending_close(mending);
}

struct worker {
    pthread_t thread;
    lrc_mending *mending;
    int holds;
    uint64_t count;
    uint32_t status;
};

static uint32_t work_on(lrc_mending *mending, uint64_t *count, int64_t timeout_ms) {
    lrc_slot session = {&items};
    return lrc_mending_work(mending, &session, count, timeout_ms);
}

static void *work(void *argument) {
    struct worker *worker = argument;
    holds = worker->holds;
    worker->status = work_on(worker->mending, &worker->count, FOREVER);
    return NULL;
}

static void start(struct worker workers[], unsigned count, lrc_mending *mending, int are_holders) {
    for (unsigned i = 0; i < count; i++) {
        workers[i] = (struct worker){.mending = mending, .holds = are_holders, .count = UNWRITTEN};
        EXPECT(pthread_create(&workers[i].thread, NULL, work, &workers[i]), 0);
    }
}

/* Waits for threads, which end with this status, and gives what they have repaired. */
static uint64_t joined(struct worker workers[], unsigned count, uint32_t status) {
    uint64_t all = 0;
    for (unsigned i = 0; i < count; i++) {
        EXPECT(pthread_join(workers[i].thread, NULL), 0);
        EXPECT(workers[i].status, status);
        if (workers[i].count != UNWRITTEN) all += workers[i].count;
    }
    return all;
}

static void until(const atomic_int *inside, int count) {
    while (*inside < count) usleep(1000);
    EXPECT(*inside, count);
}

/* So many threads have a ticket each. They hand it back at once. */
static void hand_back(struct worker workers[], unsigned count) {
    until(&holders, (int)count);
    repair_says = LRC_STORE_BUSY;
    repair_gate = 1;
    EXPECT(joined(workers, count, LRC_STORE_BUSY), 0);
    holders = repair_gate = 0;
    repair_says = LRC_STORE_DONE;
}

/* What threads have handed back at once others draw again, each ticket once, also if the plan has
 * no further item. */
static void drawn_again(unsigned count, uint64_t of) {
    static struct worker workers[WORKERS];
    lrc_mending *mending = mending_of(of);
    uint64_t more = UNWRITTEN;
    plan_gate = 1;
    start(workers, count, mending, 1);
    hand_back(workers, count);
    start(workers, count, mending, 0);
    EXPECT(joined(workers, count, LRC_STORE_DONE), of);
    EXPECT(work_on(mending, &more, 0), LRC_STORE_DONE);
    EXPECT(more, 0);
    ended(mending);
}

static uint64_t repairs(void) {
    uint64_t all = 0;
    for (uint64_t i = 0; i < items; i++) all += repaired[i];
    return all;
}

/* Threads hand tickets back while another one makes the next part. Either a thread comes meanwhile
 * and draws them at once, or they are drawn once the part is there. */
static void handed_back_while_a_part_is_made(int is_drawn_meanwhile) {
    struct worker first[8], planner[1], drawer[1];
    lrc_mending *mending = mending_of(PART + 3);
    uint64_t count = UNWRITTEN;
    plan_gate = 1;
    start(first, 8, mending, 1);
    until(&holders, 8);
    plan_gate = 0;
    start(planner, 1, mending, 0); /* repairs all of the first part but eight */
    until(&planners, 2);
    EXPECT(repairs(), PART - 8);
    hand_back(first, 8);
    if (is_drawn_meanwhile) {
        start(drawer, 1, mending, 0);
        while (repairs() < PART) usleep(1000);
        EXPECT(work_on(mending, &count, 5), LRC_STORE_BUSY);
        EXPECT(count, UNWRITTEN);
    }
    plan_gate = 1;
    count = joined(planner, 1, LRC_STORE_DONE);
    if (is_drawn_meanwhile) count += joined(drawer, 1, LRC_STORE_DONE);
    EXPECT(count, PART + 3);
    ended(mending);
}

/* Once a part is there, all threads that wait for it have a ticket. If it is refused, one of them
 * makes it. */
static void all_are_woken(int is_refused) {
    struct worker planner[1], waiters[15];
    lrc_mending *mending = mending_of(PART - 1);
    refusals = is_refused;
    start(planner, 1, mending, !is_refused);
    until(&planners, 1);
    start(waiters, 15, mending, 1);
    until_others_sleep();
    EXPECT(planners, 1);
    plan_gate = 1;
    until(&holders, is_refused ? 15 : 16);
    repair_gate = 1;
    uint64_t count = joined(planner, 1, is_refused ? LRC_STORE_NO_MEMORY : LRC_STORE_DONE);
    count += joined(waiters, 15, LRC_STORE_DONE);
    EXPECT(count, PART - 1);
    EXPECT(planners, is_refused ? 2 : 1);
    ended(mending);
}

/* A thread that is cancelled while it repairs hands its ticket back. */
static void handed_back_when_cancelled(void) {
    struct worker cancelled[2];
    lrc_mending *mending = mending_of(5);
    uint64_t count = UNWRITTEN;
    plan_gate = 1;
    start(cancelled, 2, mending, 1);
    until(&holders, 2);
    for (int i = 0; i < 2; i++) {
        void *result = NULL;
        EXPECT(pthread_cancel(cancelled[i].thread), 0);
        EXPECT(pthread_join(cancelled[i].thread, &result), 0);
        EXPECT(result == PTHREAD_CANCELED, 1);
    }
    EXPECT(work_on(mending, &count, 0), LRC_STORE_DONE);
    EXPECT(count, 5);
    ended(mending);
}

int main(int words, char **word) {
    (void)word;
    alarm(60); /* a call that never returns ends the test */
    for (unsigned count = 1; count <= WORKERS; count *= 2) drawn_again(count, count);
    drawn_again(WORKERS, PART);
    drawn_again(3, MOST);
    handed_back_while_a_part_is_made(0);
    handed_back_while_a_part_is_made(1);
    all_are_woken(0);
    all_are_woken(1);
    if (words < 2) handed_back_when_cancelled();
    return report("handed");
}

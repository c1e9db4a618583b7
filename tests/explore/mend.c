/* A mending of library/store_mend.c: in each order of its threads each lost fragment is repaired
 * once, also if threads are cancelled or late, and if calls are refused. */
#include "explore.h"
#include "lrc_store.h"
#include "mend.h"

enum { MOST_LOST = 4, FOREVER = -1, LATE_MS = 5, UNWRITTEN = 77 };

enum fragment { IS_WHOLE, IS_LOST, IS_GIVEN_UP };

static enum fragment fragments[MOST_LOST];
static lrc_mending *mending;

/* The items of the part that was planned last: the next one, and where it ends. */
static int next, part_end;

static int workers, refusals_left, repaired, is_one_cancelled, has_ended[MOST];
static uint64_t counted[MOST];

/* What the threads do: how often each works, with which timeout, how many fragments are lost, how
 * many of them are a part, and how many calls are refused. */
static struct plan {
    int turns, lost, part, refusals;
    int64_t timeout_ms;
} plan;

/* What a call returns that is refused, or LRC_STORE_DONE. */
static uint32_t refusal(const uint32_t statuses[], int count) {
    if (!refusals_left || !choose(2)) return LRC_STORE_DONE;
    refusals_left--;
    return statuses[choose(count)];
}

/* Makes the next part. A full one has as many items as were asked for, whatever its size here. */
uint32_t lrc_store_plan_part_wait(lrc_slot *slot, lrc_slot *other, uint64_t most, uint64_t *items,
                                  int64_t timeout_ms) {
    const uint32_t refused[] = {LRC_STORE_BUSY, LRC_STORE_NO_MEMORY};
    check(ends_in_time(timeout_ms), "a part is planned by the deadline");
    reach(slot);
    reach(other);
    point("plans");
    model_testcancel();
    const uint32_t status = refusal(refused, 2);
    if (status != LRC_STORE_DONE) return status;
    check(next == part_end, "no item of the part before is left");
    while (part_end < plan.lost && part_end - next < plan.part) part_end++;
    *items = part_end - next == plan.part ? most : (uint64_t)(part_end - next);
    other->at = &next;
    reach(other);
    return LRC_STORE_DONE;
}

uint32_t lrc_slot_items(lrc_slot *slot, lrc_item *items, size_t capacity, uint64_t *count) {
    reach(slot);
    check(slot->at && capacity == 1, "a plan is in the slot");
    *count = next < part_end;
    if (*count) *items = (lrc_item){{(const uint8_t *)"a", 1}, 1, 0, (uint64_t)next};
    return LRC_STORE_DONE;
}

uint32_t lrc_slot_skip(lrc_slot *slot) {
    reach(slot);
    next++;
    return LRC_STORE_DONE;
}

void lrc_slot_release(lrc_slot *slot) { slot->at = NULL; }

uint32_t lrc_store_repair_wait(lrc_slot *slot, const uint8_t *name, size_t name_len,
                               uint64_t stripe, uint64_t fragment, uint64_t *version,
                               int64_t timeout_ms) {
    const uint32_t refused[] = {LRC_STORE_BUSY, LRC_STORE_NO_MEMORY, LRC_STORE_UNRECOVERABLE};
    check(name_len == 1 && *name == 'a' && !stripe && fragment < (uint64_t)plan.lost,
          "what is repaired is an item of the plan");
    check(timeout_ms == plan.timeout_ms, "a repair has the whole timeout");
    reach(slot);
    point("repairs");
    model_testcancel();
    begin_call(plan.timeout_ms, 0); /* so has what the thread draws next */
    const uint32_t status = refusal(refused, 3);
    check(fragments[fragment] == IS_LOST, "no ticket is repaired twice");
    if (status == LRC_STORE_UNRECOVERABLE) fragments[fragment] = IS_GIVEN_UP;
    if (status != LRC_STORE_DONE) return status;
    *version = 1;
    fragments[fragment] = IS_WHOLE;
    repaired++;
    return LRC_STORE_DONE;
}

static void begin(void) {
    for (int f = 0; f < MOST_LOST; f++) fragments[f] = f < plan.lost ? IS_LOST : IS_WHOLE;
    for (int t = 0; t < MOST; t++) has_ended[t] = 0, counted[t] = 0;
    next = part_end = repaired = is_one_cancelled = 0;
    refusals_left = plan.refusals;
    check(lrc_mending_open(&mending) == LRC_STORE_DONE, "a mending opens");
}

static void is_cancelled(void *unused) {
    (void)unused;
    is_one_cancelled = 1;
}

static uint32_t work_once(int me) {
    lrc_slot session = LRC_SLOT_EMPTY;
    uint64_t count = UNWRITTEN;
    begin_call(plan.timeout_ms, 0);
    const uint32_t status = lrc_mending_work(mending, &session, &count, plan.timeout_ms);
    check(status == LRC_STORE_DONE || count, "a thread that stopped counts what it repaired");
    if (count != UNWRITTEN) counted[me] += count;
    return status;
}

static void work(int me) {
    pthread_cleanup_push(is_cancelled, NULL);
    for (int turn = 0; turn < plan.turns && !has_ended[me]; turn++) {
        const uint32_t status = work_once(me);
        has_ended[me] = status == LRC_STORE_DONE;
        check(status == LRC_STORE_DONE || plan.refusals || (status == LRC_STORE_BUSY && is_late()),
              "a worker stops only if a call is refused, or it is late");
    }
    pthread_cleanup_pop(0);
}

static int lost(void) {
    int count = 0;
    for (int f = 0; f < plan.lost; f++) count += fragments[f] == IS_LOST;
    return count;
}

/* What is left, another worker repairs. */
static void end(void) {
    lrc_slot session = LRC_SLOT_EMPTY;
    uint64_t more = 0, all = 0;
    int have_ended = 1;
    for (int t = 0; t < MOST; t++) all += counted[t];
    check(is_one_cancelled || all == (uint64_t)repaired, "each repair is counted once");
    for (int t = 0; t < workers; t++) have_ended &= has_ended[t];
    if (have_ended) check(!lost(), "once all workers have ended, no fragment is lost");
    refusals_left = 0;
    const int before = lost();
    check(lrc_mending_work(mending, &session, &more, plan.timeout_ms) == LRC_STORE_DONE,
          "another worker ends");
    check(!lost() && more == (uint64_t)before, "and repairs what others handed back");
    lrc_mending_close(mending);
}

/* Explores so many workers. */
static void all(const char *name, int threads, struct plan of, struct bounds bounds, long least) {
    const struct scenario scenario = {threads, begin, {work, work, work, work}, end};
    plan = of;
    workers = threads;
    explore(name, &scenario, bounds, least);
}

int main(void) {
    const struct plan one = {1, 1, 2, 0, FOREVER}, two = {1, 2, 1, 0, FOREVER};
    const struct bounds none = {.preemptions = UNBOUNDED};
    all("two mend a part", 2, (struct plan){1, 2, 3, 0, FOREVER},
        (struct bounds){.wakes = 1, .preemptions = UNBOUNDED}, 1600);
    all("two mend two parts", 2, (struct plan){1, 3, 2, 0, FOREVER}, none, 32000);
    all("two mend, refused", 2, (struct plan){2, 1, 2, 2, FOREVER},
        (struct bounds){.preemptions = 4}, 14000);
    all("two mend, cancelled", 2, one,
        (struct bounds){.may_cancel = 3, .wakes = 1, .preemptions = UNBOUNDED}, 1500);
    all("two mend two parts, cancelled", 2, two, (struct bounds){.may_cancel = 3, .preemptions = 3},
        13000);
    all("two mend, late", 2, (struct plan){1, 2, 3, 1, LATE_MS},
        (struct bounds){.expiries = 2, .leaps = 1, .preemptions = 3}, 5100);
    all("three mend", 3, one, none, 45000);
    all("three mend two parts", 3, two, (struct bounds){.may_cancel = 4, .preemptions = 1}, 820);
    sum_up("mend");
    return 0;
}

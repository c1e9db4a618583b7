/* The waiting forms of library/store_wait.c: in each order of their threads they end. A thread
 * gives its turn back also if it is cancelled or late, no form without a deadline is BUSY, and no
 * thread meets another one in its turn. */
#include "explore.h"
#include "lrc_store.h"
#include "turns.h"

enum {
    STORES = 2,
    FOREVER = -1,
    LATE_MS = 60,
    LEN = 8,
    HAS_TURN = 2,
    MOST_TRIES = 100,
    OF_TRIM = 512,
    BETWEEN_NS = 20000
};

/* A call of a form, of the store with this index, with this timeout. */
struct call {
    void (*form)(const struct call *call);
    int store;
    int64_t timeout_ms;
};

/* What the threads do, how often a call finds another one in the critical section that has no
 * turn, and whether other stores have all turns. */
static struct plan {
    struct call calls[MOST];
    int busy, are_turns_taken;
} plan;

/* Two stores that first look for their turns at the same place. */
static uint64_t numbers[STORES];

static int inside[STORES], busy_left, copies, entries;
static uint64_t counted;

/* By thread, after how many points it found another one in the critical section, and how often. */
static long busy_at[MOST];
static int tries[MOST];

/* Whether a thread has passed no point since it found another one there. It finds it again. */
static int is_busy_still(void) { return busy_at[self()] == points(); }

static int is_busy(int store) {
    if (is_busy_still()) {
        check(++tries[self()] < MOST_TRIES, "no thread tries again for ever");
        return 1;
    }
    tries[self()] = 0;
    point("calls");
    if (!inside[store] && (!busy_left || !choose(2))) return 0;
    busy_left -= !inside[store];
    busy_at[self()] = points();
    return 1;
}

/* A call that makes one step in the critical section. One that is made with the turn finds nobody
 * there that has the turn too. */
static uint32_t call(lrc_slot *slot, int has_turn) {
    const int store = (int)((uint64_t *)slot->at - numbers);
    check(turns_of(numbers[store]) <= 1, "a store has no more than one turn");
    check(turns_of(numbers[store]) == 1 || !has_turn, "and one while a thread has it");
    if (is_busy(store)) {
        check(inside[store] != HAS_TURN || !has_turn, "no thread meets another one in its turn");
        return LRC_STORE_BUSY;
    }
    inside[store] = has_turn ? HAS_TURN : 1;
    point("is in the critical section");
    inside[store] = 0;
    return LRC_STORE_DONE;
}

uint32_t lrc_slot_number(lrc_slot *slot, uint64_t *number);
uint32_t lrc_slot_number(lrc_slot *slot, uint64_t *number) {
    *number = *(const uint64_t *)slot->at;
    return LRC_STORE_DONE;
}

uint32_t lrc_store_lose(lrc_slot *slot, const uint8_t *name, size_t name_len, uint64_t stripe,
                        uint64_t fragment, uint64_t *version) {
    (void)name, (void)name_len, (void)stripe, (void)fragment, (void)version;
    return call(slot, !plan.are_turns_taken);
}

uint32_t lrc_store_repair(lrc_slot *slot, const uint8_t *name, size_t name_len, uint64_t stripe,
                          uint64_t fragment, uint64_t *version) {
    (void)name, (void)name_len, (void)stripe, (void)fragment, (void)version;
    return call(slot, 0);
}

uint32_t lrc_store_put(lrc_slot *slot, const uint8_t *name, size_t name_len, const uint8_t *blob,
                       size_t blob_len, uint32_t data_fragments, uint64_t *version) {
    (void)name, (void)name_len, (void)blob, (void)blob_len, (void)data_fragments, (void)version;
    return call(slot, 0);
}

uint32_t lrc_store_put_from(lrc_slot *slot, const uint8_t *name, size_t name_len, lrc_slot *other,
                            uint32_t data_fragments, uint64_t *version) {
    (void)name, (void)name_len, (void)data_fragments, (void)version;
    check(other->at && *(uint8_t *)other->at == 'b', "the copy has the blob's bytes");
    const uint32_t status = call(slot, 0);
    if (status == LRC_STORE_DONE) copies--, other->at = NULL;
    return status;
}

static uint8_t bytes[MOST][LEN];

uint32_t lrc_slot_reserve(size_t len, lrc_slot *slot) {
    check(len == LEN, "a copy has the length of the blob");
    slot->at = bytes[self()];
    copies++;
    return LRC_STORE_DONE;
}

uint32_t lrc_slot_buffer(lrc_slot *slot, lrc_buffer *buffer) {
    *buffer = (lrc_buffer){slot->at, LEN};
    return LRC_STORE_DONE;
}

void lrc_slot_release(lrc_slot *slot) {
    if (slot->at) copies--;
    slot->at = NULL;
}

uint32_t lrc_store_trim_part(lrc_slot *slot, uint64_t keep, uint64_t most, uint64_t *discarded) {
    (void)keep;
    const uint32_t status = call(slot, 1);
    if (status != LRC_STORE_DONE) return status;
    *discarded = (uint64_t)entries < most ? (uint64_t)entries : most;
    entries -= (int)*discarded;
    return status;
}

static const uint8_t name[] = "a", blob[] = "bbbbbbbb";

static void ended(uint32_t status) {
    check(status == LRC_STORE_DONE || (status == LRC_STORE_BUSY && is_late()),
          "a form is busy only after its deadline");
}

static void lose(const struct call *it) {
    lrc_slot slot = {&numbers[it->store]};
    uint64_t version;
    begin_call(it->timeout_ms, 0);
    ended(lrc_store_lose_wait(&slot, name, 1, 0, 0, &version, it->timeout_ms));
}

static void repair(const struct call *it) {
    lrc_slot slot = {&numbers[it->store]};
    uint64_t version;
    begin_call(it->timeout_ms, 0);
    ended(lrc_store_repair_wait(&slot, name, 1, 0, 0, &version, it->timeout_ms));
}

static void put(const struct call *it) {
    lrc_slot slot = {&numbers[it->store]};
    uint64_t version;
    begin_call(it->timeout_ms, 0);
    ended(lrc_store_put_wait(&slot, name, 1, blob, LEN, 12, &version, it->timeout_ms));
}

/* A trim sleeps between its parts. It is late by no more. */
static void trim(const struct call *it) {
    lrc_slot slot = {&numbers[it->store]};
    uint64_t discarded = 0;
    begin_call(it->timeout_ms, BETWEEN_NS);
    ended(lrc_store_trim_wait(&slot, 0, &discarded, it->timeout_ms));
}

static void begin(void) {
    for (int i = 0; i < STORES; i++) {
        inside[i] = 0;
        set_turns_of(numbers[i], plan.are_turns_taken);
    }
    counted = counts_of_turns();
    for (int t = 0; t < MOST; t++) busy_at[t] = -1;
    for (int t = 0; t < MOST; t++)
        for (int i = 0; i < LEN; i++) bytes[t][i] = 0;
    busy_left = plan.busy;
    copies = 0;
    entries = OF_TRIM + 1;
}

static void work(int me) { plan.calls[me].form(&plan.calls[me]); }

static void end(void) {
    check(!copies, "no copy is left");
    check(counts_of_turns() == counted, "no thread is counted");
}

/* Explores so many threads. */
static void all(const char *text, int threads, struct plan of, struct bounds bounds, long least) {
    const struct scenario scenario = {threads, begin, {work, work, work, work}, end};
    plan = of;
    explore(text, &scenario, bounds, least);
}

/* Finds two stores whose first places are one. */
static void find_numbers(void) {
    numbers[0] = numbers[1] = 7;
    do numbers[1]++;
    while (!share_a_turn(numbers[0], numbers[1]));
}

#define ALL(form, timeout_ms)                                                                      \
    .calls = {{form, 0, timeout_ms}, {form, 0, timeout_ms}, {form, 0, timeout_ms}}

int main(void) {
    const struct bounds none = {.preemptions = UNBOUNDED};
    const struct bounds late = {.expiries = 2, .leaps = 1, .preemptions = 3};
    const struct bounds cancelled = {.may_cancel = 3, .expiries = 1, .preemptions = 3};
    const struct bounds each = {.may_cancel = 3, .expiries = 2, .leaps = 1, .preemptions = 2};
    const struct bounds of_three = {.may_cancel = 4, .expiries = 1, .preemptions = 2};
    find_numbers();
    all("two lose", 2, (struct plan){ALL(lose, FOREVER), .busy = 1}, none, 7000);
    all("one loses, busy", 1, (struct plan){ALL(lose, LATE_MS / 10), .busy = UNBOUNDED}, none, 8);
    all("two lose, late", 2, (struct plan){ALL(lose, LATE_MS), .busy = 1}, late, 11000);
    all("two lose, cancelled", 2, (struct plan){ALL(lose, FOREVER), .busy = 1}, cancelled, 3000);
    all("two lose without a turn", 2,
        (struct plan){ALL(lose, LATE_MS), .busy = 1, .are_turns_taken = 1},
        (struct bounds){.may_cancel = 1, .expiries = 1, .leaps = 1, .preemptions = 1}, 2000);
    all("two put", 2, (struct plan){ALL(put, LATE_MS), .busy = 3}, each, 8500);
    all("two put, without a deadline", 2, (struct plan){ALL(put, FOREVER), .busy = 3}, cancelled,
        6000);
    all("two repair", 2, (struct plan){ALL(repair, LATE_MS), .busy = 2}, each, 2600);
    all("two trim", 2, (struct plan){ALL(trim, LATE_MS)}, each, 1000);
    all("three lose", 3, (struct plan){ALL(lose, FOREVER)}, of_three, 4700);
    all("three lose, late", 3, (struct plan){ALL(lose, LATE_MS)},
        (struct bounds){.expiries = 2, .preemptions = 2}, 8600);
    all("three lose, of two stores", 3,
        (struct plan){.calls = {{lose, 0, FOREVER}, {lose, 1, FOREVER}, {lose, 1, FOREVER}}},
        (struct bounds){.preemptions = 2}, 1800);
    sum_up("wait");
    return 0;
}

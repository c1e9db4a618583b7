/* The pool of library/store_pool.c: in each order no two threads have one session, none is lost, no
 * thread waits for ever, and each use knows of those that ended before it began. */
#include "explore.h"
#include "lrc_store.h"
#include "pool.h"

enum { SESSIONS = 16, FOREVER = -1, LATE_MS = 5 };

/* A session: its places, the thread that has it and 1, and the last use that it knows of, by
 * thread. */
struct session {
    int places, user, known[MOST];
};

static struct session sessions[SESSIONS];
static int made, ended[MOST], refusals_left;
static lrc_pool *pool;

/* What the threads do: how often each takes a session, of how many places, with which timeout, how
 * often memory is refused, and whether it asks if the pool is busy. */
static struct plan {
    int turns, places, refusals, asks;
    int64_t timeout_ms;
} plan;

static struct session *in(lrc_slot *slot) {
    check(slot->at != NULL, "the slot holds a session");
    reach(slot->at);
    return slot->at;
}

static void add_known(struct session *to, const struct session *from) {
    for (int t = 0; t < MOST; t++)
        if (to->known[t] < from->known[t]) to->known[t] = from->known[t];
}

uint32_t lrc_store_split(lrc_slot *slot, uint32_t who, lrc_slot *other) {
    struct session *root = in(slot);
    check(!other->at, "a session is split off into an empty slot");
    check(who == (uint32_t)made, "each session has a label of its own");
    if (root->places == 1) return LRC_STORE_NO_PASS;
    if (refusals_left && choose(2)) {
        refusals_left--;
        return LRC_STORE_NO_MEMORY;
    }
    root->places--;
    sessions[made] = (struct session){.places = 1};
    add_known(&sessions[made], root);
    other->at = &sessions[made++];
    return LRC_STORE_DONE;
}

uint32_t lrc_slot_learn(lrc_slot *slot, lrc_slot *other) {
    add_known(in(slot), in(other));
    return LRC_STORE_DONE;
}

uint32_t lrc_store_join(lrc_slot *slot, lrc_slot *other) {
    in(slot)->places += in(other)->places;
    other->at = NULL;
    return LRC_STORE_DONE;
}

void lrc_slot_release(lrc_slot *slot) { slot->at = NULL; }

static void begin(void) {
    lrc_slot slot = {&sessions[0]};
    sessions[0] = (struct session){.places = plan.places};
    made = 1;
    refusals_left = 0;
    for (int t = 0; t < MOST; t++) ended[t] = 0;
    check(lrc_pool_open(&slot, &pool) == LRC_STORE_DONE && !slot.at, "a pool opens");
    refusals_left = plan.refusals;
}

static void give(void *session) {
    struct session *it = in(session);
    check(it->user == self() + 1, "no other thread had it meanwhile");
    it->user = 0;
    lrc_pool_give(pool, session);
}

/* Uses a session, of a thread that may be cancelled meanwhile. */
static void use(lrc_slot *session, int turn) {
    struct session *it = in(session);
    lrc_slot slot = LRC_SLOT_EMPTY;
    check(it->places == 1, "a session that is lent has one place");
    check(!it->user, "no two threads have one session");
    it->user = self() + 1;
    pthread_cleanup_push(give, session);
    point("uses its session");
    model_testcancel();
    if (plan.asks) {
        check(pool_is_busy(pool), "a pool of which a session is lent is busy");
        check(lrc_pool_close(pool, &slot) == LRC_STORE_NOT_ALONE, "and cannot be closed");
    }
    reach(it);
    it->known[self()] = turn;
    pthread_cleanup_pop(1);
}

static void check_refused(const lrc_slot *session, uint32_t status) {
    check(!session, "a take that is refused writes nothing");
    if (status == LRC_STORE_NO_MEMORY)
        check(plan.refusals, "memory was refused");
    else
        check(status == LRC_STORE_BUSY && is_late(), "a take is busy only after its deadline");
}

/* A use begins as the thread gets the mutex for the last time before it has the session. No other
 * thread has gone on since then. */
static void begin_use(lrc_slot *session) {
    for (int t = 0; t < MOST; t++) {
        check(in(session)->known[t] >= ended[t], "a use knows of those that ended before");
        check(!waits_longer(t), "the thread that waits longest gets the session");
    }
}

static void take_and_give(int me) {
    for (int turn = 1; turn <= plan.turns; turn++) {
        lrc_slot *session = NULL;
        begin_call(plan.timeout_ms, 0);
        const uint32_t status = lrc_pool_take(pool, &session, plan.timeout_ms);
        if (status != LRC_STORE_DONE) {
            check_refused(session, status);
            continue;
        }
        begin_use(session);
        use(session, turn);
        ended[me] = turn;
    }
}

static void end(void) {
    lrc_slot slot = {&sessions[0]}, all = LRC_SLOT_EMPTY;
    check(lrc_pool_close(pool, &slot) == LRC_STORE_OCCUPIED, "the slot has to be empty");
    check(lrc_pool_close(pool, &all) == LRC_STORE_DONE, "once all uses have ended it closes");
    check(all.at == &sessions[0], "with the session that it was made of");
    check(sessions[0].places == plan.places, "which has all places");
    for (int t = 0; t < MOST; t++) check(sessions[0].known[t] >= ended[t], "and knows of all uses");
}

/* Explores so many threads that do the same. */
static void all(const char *name, int threads, struct plan of, struct bounds bounds, long least) {
    const struct scenario scenario = {
        threads, begin, {take_and_give, take_and_give, take_and_give, take_and_give}, end};
    plan = of;
    explore(name, &scenario, bounds, least);
}

int main(void) {
    const struct plan one = {1, 2, 0, 0, FOREVER}, root = {1, 1, 0, 0, FOREVER};
    const struct plan late = {1, 2, 0, 0, LATE_MS};
    const struct bounds none = {.preemptions = UNBOUNDED};
    all("two share a session, and ask", 2, (struct plan){1, 2, 0, 1, FOREVER}, none, 47);
    all("two share the root, and ask", 2, (struct plan){1, 1, 0, 1, FOREVER}, none, 47);
    all("two share a session three times", 2, (struct plan){3, 2, 0, 0, FOREVER}, none, 7700);
    all("two, memory refused", 2, (struct plan){2, 4, 1, 0, FOREVER}, none, 4000);
    all("three share the root", 3, root, (struct bounds){.may_cancel = 1, .preemptions = UNBOUNDED},
        7300);
    all("three share a session, cancelled", 3, one,
        (struct bounds){.may_cancel = 6, .preemptions = UNBOUNDED}, 21000);
    all("three share a session, late", 3, late,
        (struct bounds){.expiries = 2, .preemptions = UNBOUNDED}, 17000);
    all("three share a session, cancelled or late", 3, late,
        (struct bounds){.may_cancel = 7, .expiries = 1, .preemptions = 2}, 18000);
    all("three share a session, at once", 3, (struct plan){1, 2, 0, 0, 0}, none, 1200);
    all("three share two sessions", 3, (struct plan){1, 3, 0, 0, FOREVER},
        (struct bounds){.wakes = 1, .preemptions = 4}, 8100);
    all("four share two sessions", 4, (struct plan){1, 3, 0, 0, FOREVER},
        (struct bounds){.preemptions = 2}, 7000);
    all("four share a session, late", 4, late, (struct bounds){.expiries = 1, .preemptions = 1},
        8700);
    sum_up("pool");
    return 0;
}

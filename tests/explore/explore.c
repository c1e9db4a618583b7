/* Coroutines in place of threads, and the choice of which one goes on. See explore.h. */
#include "explore.h"
#include "races.h"

#include <errno.h>
#include <stdio.h>
#include <stdlib.h>
#include <string.h>
#include <ucontext.h>

enum {
    MAIN = MOST, /* in place of a thread's number: outside of them */
    STACK = 1 << 16,
    DEEP = 1 << 12,      /* choices of a run */
    MOST_MOVES = 2000,   /* moves of a run */
    MOST_IN_VAIN = 100,  /* of these, moves that are made since no thread can go on otherwise */
    MOVES_OF_THREAD = 4, /* ways in which a thread can go on at once */
    SHOWN = 120,         /* steps that are printed of a run that fails */
    NS_IN_MS = 1000000,
    NS_IN_S = 1000000000,
    FIRST_NS = NS_IN_S /* where the clock begins */
};

/* No deadline is as late, and a call has none before it reads the clock. */
static const int64_t FAR = INT64_MAX / 2, UNKNOWN = -1;

enum state { READY, ON_MUTEX, ON_COND, ASLEEP, ENDED };

/* How a thread goes on: the way on which it was, or because its wait ends otherwise. */
enum how { GOES, EXPIRES, CANCELS, WAKES };

struct thread {
    ucontext_t at;
    enum state state;
    model_mutex *mutex;
    model_cond *cond;
    int64_t end; /* of its wait or sleep */
    long slept_at, waited_at, points;
    int is_woken, is_expired, is_cancelled, is_ending, locked;
    int64_t timeout_ms, deadline, slack_ns; /* of its call */
    struct model_cleanup *top;
    char stack[STACK];
};

struct move {
    int thread;
    enum how how;
};

static struct thread threads[MOST + 1];
static int running = MAIN;
static const struct scenario *scenario;
static struct bounds bounds, left;

/* The choices of this run, of how many each is one, and how many of them are those of the run
 * before. */
static int path[DEEP], width[DEEP], depth, known;

static long runs, all_runs, scenarios, moved, in_vain;
static int64_t clock_ns;

/* What the threads did in this run. */
static struct {
    int thread;
    const char *what;
} steps[SHOWN];
static long stepped;

static void note(const char *what) {
    steps[stepped % SHOWN].thread = running;
    steps[stepped++ % SHOWN].what = what;
}

void check(int holds, const char *what) {
    if (holds) return;
    printf("failed: %s\nin run %ld, after these steps:\n", what, runs + 1);
    for (long i = stepped > SHOWN ? stepped - SHOWN : 0; i < stepped; i++)
        printf("  thread %d %s\n", steps[i % SHOWN].thread, steps[i % SHOWN].what);
    for (int t = 0; scenario && t < scenario->threads; t++)
        if (threads[t].state == ON_MUTEX || threads[t].state == ON_COND)
            printf("  thread %d waits\n", t);
    fflush(stdout);
    _Exit(1);
}

int choose(int count) {
    if (count <= 1) return 0;
    check(depth < DEEP, "a run has no more choices than there is room for");
    if (depth == known)
        path[known++] = 0;
    else
        check(width[depth] == count, "with the same choices a run is the same");
    width[depth] = count;
    return path[depth++];
}

int self(void) { return running; }
long points(void) { return threads[running].points; }

int waits_longer(int thread) {
    const struct thread *it = &threads[thread];
    return it->state == ON_COND && !it->is_woken && it->waited_at < threads[running].waited_at;
}

/* ---- Moves */

/* Whether the wait of a thread has a deadline that has come, or may come in this run. */
static int may_expire(const struct thread *it) {
    return it->end <= clock_ns || (it->end < FAR && left.expiries);
}

static int may_be_cancelled(int t) {
    return bounds.may_cancel >> t & 1 && !threads[t].is_cancelled && !threads[t].is_ending;
}

/* Lists how a thread can go on. */
static int moves_of(int t, struct move *moves) {
    const struct thread *it = &threads[t];
    const int is_on_cond = it->state == ON_COND && !it->mutex->owner;
    int count = 0;
    if (it->state == READY || (it->state == ON_MUTEX && !it->mutex->owner) ||
        (is_on_cond && it->is_woken) || (it->state == ASLEEP && moved > it->slept_at))
        moves[count++] = (struct move){t, GOES};
    if ((is_on_cond || (it->state == ON_MUTEX && it->mutex->owner)) && may_expire(it))
        moves[count++] = (struct move){t, EXPIRES};
    if (is_on_cond && may_be_cancelled(t)) moves[count++] = (struct move){t, CANCELS};
    if (is_on_cond && !it->is_woken && left.wakes) moves[count++] = (struct move){t, WAKES};
    return count;
}

/* Lists how threads go on if none can otherwise: one that sleeps, or whose wait expires. */
static int moves_in_vain(struct move *moves) {
    int count = 0;
    for (int t = 0; t < scenario->threads; t++) {
        const struct thread *it = &threads[t];
        const int waits = it->state == ON_MUTEX || (it->state == ON_COND && !it->mutex->owner);
        if (it->state == ASLEEP) moves[count++] = (struct move){t, GOES};
        if (waits && it->end < FAR) moves[count++] = (struct move){t, EXPIRES};
    }
    if (count) check(++in_vain < MOST_IN_VAIN, "no thread waits again and again in vain");
    return count;
}

/* Lists all moves: if no preemption is left, and the thread that made the last one can go on, its
 * moves alone. */
static int all_moves(struct move *moves) {
    int count = 0, goes_on = 0;
    if (running != MAIN && !left.preemptions) {
        count = moves_of(running, moves);
        goes_on = count && moves[0].how == GOES;
    }
    if (goes_on) return count;
    count = 0;
    for (int t = 0; t < scenario->threads; t++) count += moves_of(t, moves + count);
    return count ? count : moves_in_vain(moves);
}

static void advance_clock(int64_t to) {
    if (clock_ns < to) clock_ns = to;
}

static int waits_for(const struct thread *it, const model_cond *cond) {
    return it->state == ON_COND && it->cond == cond;
}

static void wake_one(const model_cond *cond) {
    int waiting[MOST], count = 0;
    for (int t = 0; t < MOST; t++)
        if (waits_for(&threads[t], cond) && !threads[t].is_woken) waiting[count++] = t;
    if (count) threads[waiting[choose(count)]].is_woken = 1;
}

/* Of a thread that is cancelled another one gets the signal. */
static void pass_signal_on(struct thread *it) {
    if (!it->is_woken) return;
    it->is_woken = 0;
    wake_one(it->cond);
}

static void count_move(struct move move) {
    struct thread *it = &threads[move.thread], *before = &threads[running];
    const int could_go_on =
        running != MAIN &&
        (before->state == READY || (before->state == ON_MUTEX && !before->mutex->owner));
    if (running != move.thread && could_go_on && left.preemptions) left.preemptions--;
    if (move.how == EXPIRES && it->end > clock_ns && left.expiries) left.expiries--;
    if (move.how == WAKES) left.wakes--;
    check(++moved < MOST_MOVES, "each run has an end");
}

static void own(model_mutex *mutex, int thread) {
    mutex->owner = thread + 1;
    threads[thread].locked++;
    acquire(thread, &mutex->seen);
}

static void make(struct move move) {
    struct thread *it = &threads[move.thread];
    const int gets_mutex = it->state == ON_COND || (it->state == ON_MUTEX && move.how == GOES);
    count_move(move);
    it->is_expired = move.how == EXPIRES;
    if (move.how == EXPIRES || it->state == ASLEEP) advance_clock(it->end);
    if (move.how == CANCELS) {
        it->is_cancelled = 1;
        pass_signal_on(it);
    }
    if (gets_mutex) own(it->mutex, move.thread);
    it->state = READY;
    it->points++;
}

/* Lets the next move be made, and comes back with the next one of this thread. */
static void hand_over(void) {
    struct move moves[MOVES_OF_THREAD * MOST];
    const int from = running, count = all_moves(moves);
    int to = MAIN;
    if (count) {
        const struct move next = moves[choose(count)];
        make(next);
        to = next.thread;
    }
    running = to;
    if (from != to) swapcontext(&threads[from].at, &threads[to].at);
}

void point(const char *what) {
    if (running == MAIN) return;
    hand_over();
    note(what);
}

/* ---- The clock, and what a call may wait */

void begin_call(int64_t timeout_ms, int64_t slack_ns) {
    struct thread *me = &threads[running];
    me->timeout_ms = timeout_ms;
    me->slack_ns = slack_ns;
    me->deadline = timeout_ms < 0 ? FAR : UNKNOWN;
    me->waited_at = 0;
}

int is_late(void) {
    const struct thread *me = &threads[running];
    if (me->deadline == UNKNOWN) return me->timeout_ms == 0;
    return clock_ns >= me->deadline;
}

int ends_in_time(int64_t timeout_ms) {
    const int64_t deadline = threads[running].deadline;
    if (running == MAIN || deadline >= FAR) return 1;
    return timeout_ms >= 0 && clock_ns + timeout_ms * NS_IN_MS < deadline + NS_IN_MS;
}

/* The deadline of a call is counted from where it first reads the clock. */
int model_clock(struct timespec *now) {
    struct thread *me = &threads[running];
    if (running != MAIN && me->deadline == UNKNOWN)
        me->deadline = clock_ns + me->timeout_ms * NS_IN_MS;
    else if (running != MAIN && me->deadline < FAR && clock_ns < me->deadline && left.leaps &&
             choose(2)) {
        left.leaps--;
        clock_ns = me->deadline;
        note("reads the clock, and is late");
    }
    *now = (struct timespec){clock_ns / NS_IN_S, clock_ns % NS_IN_S};
    return 0;
}

static int64_t ns_of(const struct timespec *time) { return time->tv_sec * NS_IN_S + time->tv_nsec; }

static void will_wait_until(int64_t end) {
    struct thread *me = &threads[running];
    const int64_t most = me->deadline == UNKNOWN ? clock_ns : me->deadline + me->slack_ns;
    check(end <= most || most >= FAR, "no wait ends after the deadline of its call");
    me->end = end;
}

int model_sleep(const struct timespec *length) {
    struct thread *me = &threads[running];
    model_testcancel();
    will_wait_until(clock_ns + ns_of(length));
    note("sleeps");
    me->state = ASLEEP;
    me->slept_at = moved; /* until another thread has moved: it sleeps for long enough */
    hand_over();
    model_testcancel();
    return 0;
}

/* ---- Mutexes */

int model_mutex_init(model_mutex *mutex) {
    *mutex = (model_mutex){0};
    return 0;
}

int model_mutex_destroy(model_mutex *mutex) {
    check(!mutex->owner && !mutex->is_gone, "a mutex that is destroyed is free");
    mutex->is_gone = 1;
    return 0;
}

static void wait_for_mutex(model_mutex *mutex, int64_t end) {
    struct thread *me = &threads[running];
    check(!mutex->is_gone, "a mutex that is locked is not destroyed");
    check(mutex->owner != running + 1, "no thread locks a mutex that it has");
    me->state = ON_MUTEX;
    me->mutex = mutex;
    me->end = end;
    hand_over();
}

int model_lock(model_mutex *mutex) {
    if (running == MAIN) {
        check(!mutex->owner, "once all threads have ended, each mutex is free");
        own(mutex, MAIN);
        return 0;
    }
    wait_for_mutex(mutex, FAR);
    note("locks");
    return 0;
}

int model_trylock(model_mutex *mutex) {
    point("tries to lock");
    check(!mutex->is_gone, "a mutex that is locked is not destroyed");
    if (mutex->owner) return EBUSY;
    own(mutex, running);
    return 0;
}

int model_clocklock(model_mutex *mutex, const struct timespec *end) {
    will_wait_until(ns_of(end));
    wait_for_mutex(mutex, ns_of(end));
    note(threads[running].is_expired ? "is too late to lock" : "locks");
    return threads[running].is_expired ? ETIMEDOUT : 0;
}

int model_unlock(model_mutex *mutex) {
    check(mutex->owner == running + 1, "a thread unlocks only what it has locked");
    release(running, &mutex->seen);
    mutex->owner = 0;
    threads[running].locked--;
    note("unlocks");
    return 0;
}

/* ---- Conditions */

int model_cond_init(model_cond *cond) {
    *cond = (model_cond){0};
    return 0;
}

int model_cond_destroy(model_cond *cond) {
    for (int t = 0; t < MOST; t++)
        check(!waits_for(&threads[t], cond), "no thread waits for what is destroyed");
    cond->is_gone = 1;
    return 0;
}

/* Ends a thread that was cancelled: its cleanups, the last one first. */
static void end_cancelled(void) {
    struct thread *me = &threads[running];
    me->is_ending = 1;
    note("is cancelled");
    while (me->top) {
        const struct model_cleanup it = *me->top;
        me->top = it.below;
        it.run(it.argument);
    }
    me->state = ENDED;
    hand_over();
}

int model_clockwait(model_cond *cond, model_mutex *mutex, const struct timespec *end) {
    struct thread *me = &threads[running];
    check(running != MAIN, "once all threads have ended, no call waits");
    check(!cond->is_gone, "no thread waits for what is destroyed");
    will_wait_until(ns_of(end));
    note("waits");
    model_unlock(mutex);
    me->state = ON_COND;
    me->cond = cond;
    me->mutex = mutex;
    me->is_woken = 0;
    if (!me->waited_at) me->waited_at = moved + 1;
    hand_over(); /* comes back with the mutex */
    if (me->is_cancelled && !me->is_ending) end_cancelled();
    note(me->is_expired ? "is late" : "is woken");
    return me->is_expired ? ETIMEDOUT : 0;
}

/* A signal is a point, unless the thread has a mutex, which keeps the others away. */
static void before_signal(const model_cond *cond) {
    check(!cond->is_gone, "what is signalled is not destroyed");
    if (!threads[running].locked) point("signals");
}

int model_signal(model_cond *cond) {
    before_signal(cond);
    wake_one(cond);
    return 0;
}

int model_broadcast(model_cond *cond) {
    before_signal(cond);
    for (int t = 0; t < MOST; t++)
        if (waits_for(&threads[t], cond)) threads[t].is_woken = 1;
    return 0;
}

/* ---- Cancellation */

void model_testcancel(void) {
    if (running == MAIN || !may_be_cancelled(running) || !choose(2)) return;
    threads[running].is_cancelled = 1;
    end_cancelled();
}

void model_push(struct model_cleanup *it, void (*run)(void *), void *argument) {
    *it = (struct model_cleanup){run, argument, threads[running].top};
    threads[running].top = it;
}

void model_pop(int runs_it) {
    const struct model_cleanup *it = threads[running].top;
    threads[running].top = it->below;
    if (runs_it) it->run(it->argument);
}

/* ---- Runs */

static void run_thread(int me) {
    scenario->thread[me](me);
    check(!threads[me].top, "each cleanup is taken back");
    threads[me].state = ENDED;
    hand_over();
}

static void prepare(int t) {
    struct thread *it = &threads[t];
    memset(it, 0, offsetof(struct thread, stack));
    it->deadline = FAR;
    getcontext(&it->at);
    it->at.uc_stack.ss_sp = it->stack;
    it->at.uc_stack.ss_size = STACK;
    makecontext(&it->at, (void (*)(void))run_thread, 1, t);
}

static void run_once(void) {
    depth = 0;
    stepped = moved = in_vain = 0;
    clock_ns = FIRST_NS;
    left = bounds;
    forget_steps();
    for (int t = 0; t < MOST; t++) threads[t].state = ENDED;
    scenario->begin();
    for (int t = 0; t < scenario->threads; t++) prepare(t);
    hand_over();
    for (int t = 0; t < scenario->threads; t++)
        check(threads[t].state == ENDED, "no deadlock: a thread waits, and none can go on");
    scenario->end();
}

/* Makes the choices those of the next run. There is none if all were made. */
static int is_next(void) {
    known = depth;
    while (known && path[known - 1] + 1 == width[known - 1]) known--;
    if (!known) return 0;
    path[known - 1]++;
    return 1;
}

void explore(const char *name, const struct scenario *of, struct bounds within, long least) {
    scenario = of;
    bounds = within;
    runs = known = 0;
    do {
        run_once();
        runs++;
    } while (is_next());
    printf("%8ld runs: %s\n", runs, name);
    check(runs >= least, "a scenario has as many runs as are asked for");
    all_runs += runs;
    scenarios++;
}

void sum_up(const char *name) {
    printf("%s: %ld runs of %ld scenarios\n", name, all_runs, scenarios);
}

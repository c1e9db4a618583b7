/* Runs a scenario of one to four threads in all orders in which they can take turns, within bounds.
 *
 * A scenario calls a source of library/ as it is, over models of the proved functions below. It is
 * run again and again, once for each sequence of choices, depth first. These are chosen:
 *
 * - which thread goes on, at each point: before a lock, an attempt to lock and an atomic access,
 *   while a thread waits or sleeps, and where a model says `point`;
 * - which waiter a signal wakes, whether a wait with a deadline expires, whether one ends for no
 *   reason, and whether the time of a deadline has come when a thread reads the clock;
 * - whether a thread is cancelled, at each of its cancellation points;
 * - what a model lets a proved function return.
 *
 * A run fails by a `check`, by a deadlock, by having no end, or by a data race. The program then
 * prints what the threads did up to there, and ends.
 *
 * The bounds are those of `struct bounds`, how many threads a scenario has, how many calls each
 * makes, and how often a model refuses one. The last lines of pool.c, mend.c and wait.c state them
 * all. Once no expiry is left, a wait expires only if no thread can go on otherwise.
 *
 * Smaller steps give no other results. What a thread does between two points is one lock or one
 * atomic access, memory that no other thread reaches meanwhile, and unlocks, after which others see
 * what was done before. So it makes no difference if others go on in between (Lipton's reduction).
 * That no other thread reaches the memory is not assumed but seen: the sources are compiled with
 * -fsanitize=thread, and races.c, which stands in for that library, compares each access with those
 * of the other threads by vector clocks. AddressSanitizer excludes that flag.
 *
 * These things are not seen: orders beyond the bounds, atomic accesses that are not sequentially
 * consistent, what a call of memcpy reaches, and time that passes where no thread waits, sleeps or
 * reads the clock. A thread that tries again without a point in between finds the same. */
#ifndef EXPLORE_H
#define EXPLORE_H
#include "shim.h"

struct scenario {
    int threads;
    void (*begin)(void);          /* makes what the threads share */
    void (*thread[MOST])(int me); /* what each does */
    void (*end)(void);            /* once all have ended */
};

/* What a run may have at most, and which threads may be cancelled, a bit for each. */
struct bounds {
    unsigned may_cancel;
    int expiries;    /* waits that expire while a thread can go on */
    int wakes;       /* waits that end for no reason */
    int leaps;       /* readings of the clock at which the time of a deadline has come */
    int preemptions; /* points at which another thread goes on though this one could */
};

enum { UNBOUNDED = 1 << 20 };

/* Explores, prints how many runs there were, and fails if there were fewer than `least`. */
void explore(const char *name, const struct scenario *scenario, struct bounds bounds, long least);

/* Prints how many runs all scenarios had. */
void sum_up(const char *name);

/* All that follows is for a scenario and its models. */

/* A number below `count`. Each is tried, in a run of its own. */
int choose(int count);

/* Fails the run if `holds` is 0. */
void check(int holds, const char *what);

/* A point at which others may go on. */
void point(const char *what);

/* How many points the calling thread has passed. */
long points(void);

/* Its number, or MOST outside of the threads. */
int self(void);

/* The calling thread makes a call with this timeout. Its waits may end `slack_ns` nanoseconds after
 * the deadline, and no later. */
void begin_call(int64_t timeout_ms, int64_t slack_ns);

/* Whether the deadline of its call has come. */
int is_late(void);

/* Whether a wait with this timeout ends by then, to the millisecond. */
int ends_in_time(int64_t timeout_ms);

/* Whether a thread has waited in its call for longer than the calling one did, and waits still. */
int waits_longer(int thread);

/* It writes what this address stands for, as far as races go. */
void reach(const void *address);
#endif

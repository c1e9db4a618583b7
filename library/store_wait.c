/* The waiting forms of lrc_store.h.
 *
 * Each store has a turn, a mutex. A form takes it, makes its call, which does not wait, and gives
 * it back. So the threads that wait sleep in the kernel, which wakes one of them at a time, and no
 * form meets another one in the critical section. With the turn, a form tries again while another
 * call is there, which is one without `_wait` or did not take the turn.
 *
 * A call that may copy, rebuild or encode much is first tried without the turn, so that other
 * threads need not wait for that.
 *
 * The turns lie in a table, and each store has several places there. It has one turn while a thread
 * has or wants it, and no two stores have the same, so a call never waits for one of another store.
 * If other stores have all places of a store, its calls are made without a turn. */
#define _GNU_SOURCE
#include "deadline.h"
#include "lrc_store.h"
#include "mend.h"

#include <pthread.h>
#include <stdatomic.h>
#include <string.h>
#include <time.h>

/* The proved function that gives the number of a session's store. lrc_store.h has it not. */
uint32_t lrc_slot_number(lrc_slot *slot, uint64_t *number);

/* Attempts without the turn, if a call is long, and from how many bytes on it is. */
enum { TRIES = 8, LONG_BYTES = 65536 };

/* With the turn, attempts after spinning, and the others after sleeping. Each sleep is twice as
 * long as the one before, up to LONGEST_NS. */
enum { SPINS = 16, PAUSES = 32, SHORTEST_NS = 100000, LONGEST_NS = 1600000 };

/* How many entries are discarded at once, and how long a trim sleeps before its next part, so that
 * threads that sleep get the turn. */
enum { TRIMMED_AT_ONCE = 512, BETWEEN_NS = 20000 };

/* How many entries a journal may have. A trim discards no more, however many others add. */
enum { MOST_ENTRIES = 1 << 20 };

/* A thread that waits for its turn can be cancelled once in this time. */
enum { SLICE_NS = 50 * NS_OF_MS };

enum { TURN_BITS = 10, TURNS = 1 << TURN_BITS, PLACES = 8, CACHE_LINE = 64 };

/* Of the 64 sessions of a store each is used by one thread, and no system has 2^22 threads. */
enum { USER_BITS = 8, PASSER_BITS = 22, MARK_BITS = 64 - USER_BITS - PASSER_BITS };
static const uint64_t PASSER = UINT64_C(1) << USER_BITS;

/* A turn, and the store that has it. From the lowest bits on: how many threads have or want it; how
 * many threads have or want a later place of their store, for which they passed this one; and a
 * mark of the store. */
static struct turn {
    _Alignas(CACHE_LINE) pthread_mutex_t mutex;
    _Atomic uint64_t store;
} turns[TURNS];

/* Runs before all constructors of C++. */
__attribute__((constructor(101))) static void make_turns(void) {
    for (unsigned i = 0; i < TURNS; i++) pthread_mutex_init(&turns[i].mutex, NULL);
}

static int64_t least(int64_t a, int64_t b) { return a < b ? a : b; }

static uint64_t users_of(uint64_t store) { return store & (PASSER - 1); }

static uint64_t mark_of(uint64_t store) {
    return store >> (USER_BITS + PASSER_BITS) << (USER_BITS + PASSER_BITS);
}

/* Multiplied, so that numbers in a row have places apart. */
static uint64_t mark_of_number(uint64_t number) {
    return mark_of(number * UINT64_C(0x9E3779B97F4A7C15));
}

/* The places of a store, no two of them equal. */
static struct turn *place_of(uint64_t mark, unsigned i) {
    const uint64_t first = mark >> (64 - TURN_BITS), step = mark >> (64 - MARK_BITS) | 1;
    return &turns[(first + i * step) % TURNS];
}

/* Whether a store can have a turn that no thread has or wants. One that threads passed is kept free
 * until they have left, since they may be of the same store. Its last place none of them passed. */
static int is_free(uint64_t store, unsigned place) {
    return !users_of(store) && (store - mark_of(store) < PASSER || place == PLACES - 1);
}

/* Counts a thread more at a place of a store, or passes it. Returns whether the store has it. */
static int enter_place(uint64_t mark, unsigned place) {
    _Atomic uint64_t *const at = &place_of(mark, place)->store;
    uint64_t store = *at, next;
    int has;
    do {
        has = is_free(store, place) || (users_of(store) && mark_of(store) == mark);
        next = has ? mark + (store - mark_of(store)) + 1 : store + PASSER;
    } while (!atomic_compare_exchange_weak(at, &store, next));
    return has;
}

/* Takes back that a thread passed so many places of a store. */
static void unpass(uint64_t mark, unsigned places) {
    while (places--) atomic_fetch_sub(&place_of(mark, places)->store, PASSER);
}

/* The turn of a store, which counts a thread more, or NULL if other stores have all its places. */
static struct turn *enter(uint64_t number) {
    const uint64_t mark = mark_of_number(number);
    for (unsigned place = 0; place < PLACES; place++)
        if (enter_place(mark, place)) return place_of(mark, place);
    unpass(mark, PLACES);
    return NULL;
}

static void leave(void *argument) {
    struct turn *const turn = argument;
    const uint64_t mark = mark_of(atomic_fetch_sub(&turn->store, 1));
    unsigned passed = 0;
    while (place_of(mark, passed) != turn) passed++;
    unpass(mark, passed);
}

/* Locks a turn that another thread has. Returns 0 if the deadline passes before. */
static int locks(struct turn *turn, int64_t deadline) {
    for (;;) {
        const int64_t slice = least(deadline, now_ns() + SLICE_NS);
        const struct timespec end = {slice / NS_OF_S, slice % NS_OF_S};
        if (pthread_mutex_clocklock(&turn->mutex, CLOCK_MONOTONIC, &end) == 0) return 1;
        if (slice == deadline) return 0;
        pthread_testcancel();
    }
}

/* Takes the turn of a store, unless there is none. Returns 0 if the deadline passes before. */
static int takes(uint64_t number, int64_t deadline, struct turn **taken) {
    struct turn *turn = *taken = enter(number);
    int is_locked;
    if (!turn || pthread_mutex_trylock(&turn->mutex) == 0) return 1;
    pthread_cleanup_push(leave, turn);
    is_locked = locks(turn, deadline);
    pthread_cleanup_pop(!is_locked);
    return is_locked;
}

static void give_back(void *turn) {
    if (!turn) return;
    pthread_mutex_unlock(&((struct turn *)turn)->mutex);
    leave(turn);
}

static void spin(void) {
    for (unsigned i = 0; i < PAUSES; i++) {
#if defined(__x86_64__) || defined(__i386__)
        __builtin_ia32_pause();
#else
        __asm__ volatile("" ::: "memory");
#endif
    }
}

/* Sleeps. A thread that is cancelled meanwhile gives the turn back. */
static void nap(struct turn *turn, int64_t length_ns) {
    const struct timespec pause = {0, (long)length_ns};
    pthread_cleanup_push(give_back, turn);
    nanosleep(&pause, NULL);
    pthread_cleanup_pop(0);
}

/* Waits before the next attempt, with the turn. Returns 0 if the deadline has passed. */
static int waits(struct turn *turn, unsigned attempt, int64_t deadline) {
    const int64_t left_ns = deadline == NEVER ? NEVER : deadline - now_ns();
    int64_t length_ns = SHORTEST_NS;
    if (left_ns <= 0) return 0;
    if (attempt < SPINS) {
        spin();
        return 1;
    }
    for (unsigned i = SPINS; i < attempt && length_ns < LONGEST_NS; i++) length_ns *= 2;
    nap(turn, least(length_ns, left_ns));
    return 1;
}

/* Makes a call in its turn, up to a deadline. If it is to wait for none, or the slot holds no
 * session, it makes it once, without the turn. `tries` times it makes it before. */
#define REPEAT_UNTIL(deadline, tries, call)                                                        \
    uint32_t status = LRC_STORE_BUSY;                                                              \
    struct turn *turn;                                                                             \
    uint64_t number = 0;                                                                           \
    if ((deadline) == AT_ONCE || lrc_slot_number(slot, &number) != LRC_STORE_DONE) return (call);  \
    for (unsigned left = (tries); left > 0; left--) {                                              \
        if ((status = (call)) != LRC_STORE_BUSY || is_over(deadline)) return status;               \
        spin();                                                                                    \
    }                                                                                              \
    if (!takes(number, deadline, &turn)) return LRC_STORE_BUSY;                                    \
    for (unsigned attempt = 0; (status = (call)) == LRC_STORE_BUSY; attempt++)                     \
        if (!waits(turn, attempt, deadline)) break;                                                \
    give_back(turn);                                                                               \
    return status

/* The same with the timeout of a form, whose clock begins here. */
#define REPEAT(tries, call)                                                                        \
    const int64_t deadline = deadline_after(timeout_ms);                                           \
    REPEAT_UNTIL(deadline, tries, call)

/* How often a call that copies so many bytes is tried first. */
static unsigned tries_for(uint64_t len) { return len < LONG_BYTES ? 0 : TRIES; }

/* A buffer is encoded once: after a first attempt the slot keeps what that made. */
static uint32_t put_from(lrc_slot *slot, const uint8_t *name, size_t name_len, lrc_slot *other,
                         uint32_t data_fragments, uint64_t *version, int64_t deadline) {
    REPEAT_UNTIL(deadline, 1,
                 lrc_store_put_from(slot, name, name_len, other, data_fragments, version));
}

uint32_t lrc_store_put_from_wait(lrc_slot *slot, const uint8_t *name, size_t name_len,
                                 lrc_slot *other, uint32_t data_fragments, uint64_t *version,
                                 int64_t timeout_ms) {
    return put_from(slot, name, name_len, other, data_fragments, version,
                    deadline_after(timeout_ms));
}

static void release(void *slot) { lrc_slot_release(slot); }

/* Puts a copy that a slot keeps, so that what was encoded is not encoded again. */
static uint32_t put_again(lrc_slot *slot, const uint8_t *name, size_t name_len, const uint8_t *blob,
                          size_t blob_len, uint32_t data_fragments, uint64_t *version,
                          int64_t deadline) {
    lrc_slot copy = LRC_SLOT_EMPTY;
    lrc_buffer buffer = {(uint8_t *)"", 0};
    uint32_t status = lrc_slot_reserve(blob_len, &copy);
    if (status != LRC_STORE_DONE) return status;
    pthread_cleanup_push(release, &copy);
    status = lrc_slot_buffer(&copy, &buffer);
    if (status == LRC_STORE_DONE) {
        memcpy(buffer.at, blob, blob_len);
        status = is_over(deadline)
                     ? LRC_STORE_BUSY
                     : put_from(slot, name, name_len, &copy, data_fragments, version, deadline);
    }
    pthread_cleanup_pop(1); /* releases the copy */
    return status;
}

uint32_t lrc_store_put_wait(lrc_slot *slot, const uint8_t *name, size_t name_len,
                            const uint8_t *blob, size_t blob_len, uint32_t data_fragments,
                            uint64_t *version, int64_t timeout_ms) {
    const int64_t deadline = deadline_after(timeout_ms);
    const uint32_t status =
        lrc_store_put(slot, name, name_len, blob, blob_len, data_fragments, version);
    if (status != LRC_STORE_BUSY || deadline == AT_ONCE || is_over(deadline)) return status;
    return put_again(slot, name, name_len, blob, blob_len, data_fragments, version, deadline);
}

uint32_t lrc_store_read_wait(lrc_slot *slot, const uint8_t *name, size_t name_len, uint64_t start,
                             uint8_t *target, size_t len, uint64_t *version, uint64_t *lent,
                             uint64_t *built, int64_t timeout_ms) {
    REPEAT(tries_for(len),
           lrc_store_read(slot, name, name_len, start, target, len, version, lent, built));
}

uint32_t lrc_store_lend_wait(lrc_slot *slot, const uint8_t *name, size_t name_len, uint64_t start,
                             uint64_t len, lrc_slot *other, uint64_t *version, uint64_t *pieces,
                             int64_t timeout_ms) {
    REPEAT(tries_for(len),
           lrc_store_lend(slot, name, name_len, start, len, other, version, pieces));
}

uint32_t lrc_store_lose_wait(lrc_slot *slot, const uint8_t *name, size_t name_len, uint64_t stripe,
                             uint64_t fragment, uint64_t *version, int64_t timeout_ms) {
    REPEAT(0, lrc_store_lose(slot, name, name_len, stripe, fragment, version));
}

uint32_t lrc_store_repair_wait(lrc_slot *slot, const uint8_t *name, size_t name_len,
                               uint64_t stripe, uint64_t fragment, uint64_t *version,
                               int64_t timeout_ms) {
    REPEAT(TRIES, lrc_store_repair(slot, name, name_len, stripe, fragment, version));
}

uint32_t lrc_store_delete_wait(lrc_slot *slot, const uint8_t *name, size_t name_len,
                               uint64_t *version, int64_t timeout_ms) {
    REPEAT(0, lrc_store_delete(slot, name, name_len, version));
}

uint32_t lrc_store_stat_wait(lrc_slot *slot, const uint8_t *name, size_t name_len,
                             uint64_t *version, uint64_t *len, uint64_t *stripes, uint64_t *lost,
                             int64_t timeout_ms) {
    REPEAT(0, lrc_store_stat(slot, name, name_len, version, len, stripes, lost));
}

uint32_t lrc_store_numbers_wait(lrc_slot *slot, lrc_numbers *numbers, int64_t timeout_ms) {
    REPEAT(0, lrc_store_numbers(slot, numbers));
}

uint32_t lrc_store_hold_wait(lrc_slot *slot, const uint8_t *name, size_t name_len, lrc_slot *other,
                             uint64_t *version, uint64_t *len, int64_t timeout_ms) {
    REPEAT(0, lrc_store_hold(slot, name, name_len, other, version, len));
}

uint32_t lrc_store_get_wait(lrc_slot *slot, const uint8_t *name, size_t name_len, lrc_slot *other,
                            uint64_t *version, uint64_t *len, uint64_t *pieces,
                            int64_t timeout_ms) {
    REPEAT(TRIES, lrc_store_get(slot, name, name_len, other, version, len, pieces));
}

uint32_t lrc_store_restore_wait(lrc_slot *slot, lrc_slot *other, uint64_t stripe, uint64_t fragment,
                                const uint8_t *bytes, size_t len, uint64_t *version,
                                int64_t timeout_ms) {
    REPEAT(tries_for(len), lrc_store_restore(slot, other, stripe, fragment, bytes, len, version));
}

static uint32_t trim_part(lrc_slot *slot, uint64_t keep, uint64_t *discarded, int64_t deadline) {
    REPEAT_UNTIL(deadline, 0, lrc_store_trim_part(slot, keep, TRIMMED_AT_ONCE, discarded));
}

uint32_t lrc_store_trim_wait(lrc_slot *slot, uint64_t keep, uint64_t *discarded,
                             int64_t timeout_ms) {
    const struct timespec pause = {0, BETWEEN_NS};
    const int64_t deadline = deadline_after(timeout_ms);
    uint64_t part, all = 0;
    uint32_t status;
    for (;;) {
        part = 0;
        status = trim_part(slot, keep, &part, deadline);
        all += part;
        if (part < TRIMMED_AT_ONCE || all >= MOST_ENTRIES) break;
        status = LRC_STORE_BUSY;
        if (is_over(deadline)) break;
        nanosleep(&pause, NULL);
    }
    if (status == LRC_STORE_DONE || all) *discarded = all;
    return status;
}

uint32_t lrc_store_plan_wait(lrc_slot *slot, lrc_slot *other, uint64_t *items, int64_t timeout_ms) {
    REPEAT(0, lrc_store_plan(slot, other, items));
}

uint32_t lrc_store_plan_part_wait(lrc_slot *slot, lrc_slot *other, uint64_t most, uint64_t *items,
                                  int64_t timeout_ms) {
    REPEAT(0, lrc_store_plan_part(slot, other, most, items));
}

uint32_t lrc_store_mend_step_wait(lrc_slot *slot, lrc_slot *other, uint64_t *version,
                                  int64_t timeout_ms) {
    REPEAT(TRIES, lrc_store_mend_step(slot, other, version));
}

/* Makes the next part of a plan, and repairs its items. The status is LRC_STORE_NOTHING_LEFT once
 * no item is left. `is_last` gets whether no other part is behind. */
static uint32_t mend_part(lrc_slot *slot, lrc_slot *plan, int *is_last, uint64_t *repaired,
                          int64_t timeout_ms) {
    uint64_t items = 0, version = 0;
    uint32_t status = lrc_store_plan_part_wait(slot, plan, PLANNED_AT_ONCE, &items, timeout_ms);
    *is_last = items < PLANNED_AT_ONCE;
    while (is_past(status)) {
        status = lrc_store_mend_step_wait(slot, plan, &version, timeout_ms);
        *repaired += status == LRC_STORE_DONE;
    }
    return status;
}

/* Repairs all parts of a plan, which it makes in this slot. */
static uint32_t mend(lrc_slot *slot, lrc_slot *plan, uint64_t *repaired, int64_t timeout_ms) {
    uint64_t all = 0;
    uint32_t status;
    int is_last = 0;
    do {
        status = mend_part(slot, plan, &is_last, &all, timeout_ms);
    } while (status == LRC_STORE_NOTHING_LEFT && !is_last);
    if (status == LRC_STORE_NOTHING_LEFT) status = LRC_STORE_DONE;
    if (status == LRC_STORE_DONE || all) *repaired = all;
    return status;
}

uint32_t lrc_store_mend_wait(lrc_slot *slot, uint64_t *repaired, int64_t timeout_ms) {
    lrc_slot plan = LRC_SLOT_EMPTY;
    uint32_t status;
    pthread_cleanup_push(release, &plan);
    status = mend(slot, &plan, repaired, timeout_ms);
    pthread_cleanup_pop(1); /* releases the plan */
    return status;
}

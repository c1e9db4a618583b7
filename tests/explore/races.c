/* Data races, by vector clocks: two threads reach the same memory, one of them writes it, and the
 * second one has not seen the step in which the first one did. Here are also the functions that a
 * compiler calls at each access of a source that is built with -fsanitize=thread. */
#include "races.h"
#include "explore.h"

#include <stdatomic.h>
#include <string.h>

/* The cells of the table, the bytes of memory of each, and the atomic objects of a run at most. */
enum { CELLS = 1 << 13, CELL_BYTES = 8, ATOMICS = 16 };

/* The last thread that wrote these bytes, and the steps of the last write and reads: 0 if none. */
struct cell {
    uintptr_t place;
    uint32_t run, writer, written, read[MOST];
};

static struct cell cells[CELLS];
static struct {
    uintptr_t address;
    struct seen seen;
} atomics[ATOMICS];
static struct seen seen_by[MOST];
static uint32_t run;

void forget_steps(void) {
    run++;
    memset(atomics, 0, sizeof atomics);
    memset(seen_by, 0, sizeof seen_by);
    for (int t = 0; t < MOST; t++) seen_by[t].of[t] = 1;
}

static void add(struct seen *to, const struct seen *from) {
    for (int t = 0; t < MOST; t++)
        if (to->of[t] < from->of[t]) to->of[t] = from->of[t];
}

void acquire(int thread, const struct seen *seen) {
    if (thread < MOST) add(&seen_by[thread], seen);
}

void release(int thread, struct seen *seen) {
    if (thread >= MOST) return;
    add(seen, &seen_by[thread]);
    seen_by[thread].of[thread]++;
}

static struct cell *cell_of(uintptr_t place) {
    size_t at = (size_t)(place * UINT64_C(0x9E3779B97F4A7C15) >> 32);
    for (int tries = 0; tries < CELLS; tries++, at++) {
        struct cell *cell = &cells[at % CELLS];
        if (cell->run == run && cell->place == place) return cell;
        if (cell->run == run) continue;
        *cell = (struct cell){.place = place, .run = run};
        return cell;
    }
    check(0, "a run reaches more memory than there are cells for");
    return NULL;
}

static void reach_cell(int thread, struct cell *cell, int is_write) {
    const uint32_t *seen = seen_by[thread].of;
    check(cell->written <= seen[cell->writer], "no data race with a write");
    for (int t = 0; is_write && t < MOST; t++)
        check(cell->read[t] <= seen[t], "no data race with a read");
    if (is_write) {
        cell->writer = (uint32_t)thread;
        cell->written = seen[thread];
    } else
        cell->read[thread] = seen[thread];
}

void reach_memory(int thread, uintptr_t address, size_t size, int is_write) {
    if (thread >= MOST) return;
    for (uintptr_t at = address / CELL_BYTES; at <= (address + size - 1) / CELL_BYTES; at++)
        reach_cell(thread, cell_of(at), is_write);
}

void reach(const void *address) { reach_memory(self(), (uintptr_t)address, 1, 1); }

void reach_atomic(int thread, uintptr_t address) {
    int at = 0;
    if (thread >= MOST) return;
    while (atomics[at].address && atomics[at].address != address)
        check(++at < ATOMICS, "a run has more atomic objects than there is room for");
    atomics[at].address = address;
    acquire(thread, &atomics[at].seen);
    release(thread, &atomics[at].seen);
}

/* What compilers call, of the types that gcc knows. */
void __tsan_init(void);
void __tsan_init(void) {}
void __tsan_func_entry(void *caller);
void __tsan_func_entry(void *caller) { (void)caller; }
void __tsan_func_exit(void *unused);
void __tsan_func_exit(void *unused) { (void)unused; }

#define ACCESS(name, size, is_write)                                                               \
    void __tsan_##name(void *address);                                                             \
    void __tsan_##name(void *address) { reach_memory(self(), (uintptr_t)address, size, is_write); }
#define ACCESSES(size)                                                                             \
    ACCESS(read##size, size, 0)                                                                    \
    ACCESS(write##size, size, 1)                                                                   \
    ACCESS(unaligned_read##size, size, 0)                                                          \
    ACCESS(unaligned_write##size, size, 1)
ACCESSES(1)
ACCESSES(2)
ACCESSES(4)
ACCESSES(8)
ACCESSES(16)

#define RANGE(name, is_write)                                                                      \
    void __tsan_##name##_range(void *address, long size);                                          \
    void __tsan_##name##_range(void *address, long size) {                                         \
        if (size > 0) reach_memory(self(), (uintptr_t)address, (size_t)size, is_write);            \
    }
RANGE(read, 0)
RANGE(write, 1)

static uint64_t *atomic_at(const volatile void *address) {
    point("reaches an atomic object");
    reach_atomic(self(), (uintptr_t)address);
    return (uint64_t *)(uintptr_t)address;
}

uint64_t __tsan_atomic64_load(const volatile void *address, int order);
uint64_t __tsan_atomic64_load(const volatile void *address, int order) {
    (void)order;
    return *atomic_at(address);
}

void __tsan_atomic64_store(volatile void *address, uint64_t value, int order);
void __tsan_atomic64_store(volatile void *address, uint64_t value, int order) {
    (void)order;
    *atomic_at(address) = value;
}

uint64_t __tsan_atomic64_fetch_add(volatile void *address, uint64_t value, int order);
uint64_t __tsan_atomic64_fetch_add(volatile void *address, uint64_t value, int order) {
    uint64_t *const at = atomic_at(address);
    (void)order;
    *at += value;
    return *at - value;
}

uint64_t __tsan_atomic64_fetch_sub(volatile void *address, uint64_t value, int order);
uint64_t __tsan_atomic64_fetch_sub(volatile void *address, uint64_t value, int order) {
    return __tsan_atomic64_fetch_add(address, -value, order);
}

/* Of clang, which returns what was there. */
uint64_t __tsan_atomic64_compare_exchange_val(volatile void *address, uint64_t old, uint64_t value,
                                              int order, int other);
uint64_t __tsan_atomic64_compare_exchange_val(volatile void *address, uint64_t old, uint64_t value,
                                              int order, int other) {
    uint64_t *const at = atomic_at(address), there = *at;
    (void)order;
    (void)other;
    if (there == old) *at = value;
    return there;
}

/* Of gcc. */
_Bool __tsan_atomic64_compare_exchange_weak(volatile void *address, void *old, uint64_t value,
                                            int order, int other);
_Bool __tsan_atomic64_compare_exchange_weak(volatile void *address, void *old, uint64_t value,
                                            int order, int other) {
    const uint64_t expected = *(uint64_t *)old;
    *(uint64_t *)old = __tsan_atomic64_compare_exchange_val(address, expected, value, order, other);
    return *(uint64_t *)old == expected;
}

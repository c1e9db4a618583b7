/* Waiting forms of a store that is busy for ever, and the calls of a sharded one that wait. They
 * are loaded before liblrc_store.so, by LD_PRELOAD. Without a deadline a form returns
 * LRC_STORE_NO_PASS, which no real one does. A signal ends a wait. */
#define _GNU_SOURCE
#include "lrc_store.h"

#include <dlfcn.h>
#include <stdatomic.h>
#include <string.h>
#include <time.h>

/* How many threads wait now. If a test sets `busy_is_over`, they return LRC_STORE_NO_PASS. */
extern atomic_int busy_callers, busy_is_over;
atomic_int busy_callers, busy_is_over;

/* If a test sets `busy_holds`, a call stays in C until another thread sets `busy_is_let_go`. If
 * none does within MOST_PAUSES milliseconds, `busy_was_late` is set. */
extern atomic_int busy_holds, busy_is_let_go, busy_was_late;
atomic_int busy_holds, busy_is_let_go, busy_was_late;

enum { MOST_PAUSES = 60000 };

static const struct timespec pause_of_1_ms = {0, 1000000};

static void stay(void) {
    for (int i = 0; i < MOST_PAUSES; i++) {
        if (busy_is_let_go) return;
        nanosleep(&pause_of_1_ms, NULL);
    }
    busy_was_late = 1;
}

static int64_t now_us(void) {
    struct timespec now;
    clock_gettime(CLOCK_MONOTONIC, &now);
    return (int64_t)now.tv_sec * 1000000 + now.tv_nsec / 1000;
}

static uint32_t busy(int64_t timeout_ms) {
    const int64_t end = now_us() + timeout_ms * 1000;
    int is_interrupted = 0;
    if (busy_holds) {
        stay();
        return LRC_STORE_NO_NAME;
    }
    if (timeout_ms < 0) return LRC_STORE_NO_PASS;
    busy_callers++;
    while (now_us() < end && !busy_is_over && !is_interrupted)
        is_interrupted = nanosleep(&pause_of_1_ms, NULL) != 0;
    busy_callers--;
    return busy_is_over ? LRC_STORE_NO_PASS : LRC_STORE_BUSY;
}

#define WAITS(function, ...)                                                                       \
    uint32_t function(__VA_ARGS__, int64_t timeout_ms) { return busy(timeout_ms); }
#define FORM(name, ...) WAITS(lrc_store_##name##_wait, __VA_ARGS__)

#pragma GCC diagnostic ignored "-Wunused-parameter"
FORM(read, lrc_slot *slot, const uint8_t *name, size_t name_len, uint64_t start, uint8_t *target,
     size_t len, uint64_t *version, uint64_t *lent, uint64_t *built)
FORM(lend, lrc_slot *slot, const uint8_t *name, size_t name_len, uint64_t start, uint64_t len,
     lrc_slot *other, uint64_t *version, uint64_t *pieces)
FORM(lose, lrc_slot *slot, const uint8_t *name, size_t name_len, uint64_t stripe, uint64_t fragment,
     uint64_t *version)
FORM(repair, lrc_slot *slot, const uint8_t *name, size_t name_len, uint64_t stripe,
     uint64_t fragment, uint64_t *version)
FORM(delete, lrc_slot *slot, const uint8_t *name, size_t name_len, uint64_t *version)
FORM(stat, lrc_slot *slot, const uint8_t *name, size_t name_len, uint64_t *version, uint64_t *len,
     uint64_t *stripes, uint64_t *lost)
FORM(plan_part, lrc_slot *slot, lrc_slot *other, uint64_t most, uint64_t *items)
FORM(mend_step, lrc_slot *slot, lrc_slot *other, uint64_t *version)
FORM(restore, lrc_slot *slot, lrc_slot *other, uint64_t stripe, uint64_t fragment,
     const uint8_t *bytes, size_t len, uint64_t *version)
WAITS(lrc_shards_numbers, lrc_shards *shards, lrc_numbers *numbers)
WAITS(lrc_shards_trim, lrc_shards *shards, uint64_t keep, uint64_t *discarded)
WAITS(lrc_shards_mend, lrc_shards *shards, uint64_t *repaired)

#define SONAME "liblrc_store.so.0.1"
/* Declares the function of the library. */
#define REAL(name)                                                                                 \
    __typeof__(name) *real;                                                                        \
    *(void **)&real = dlsym(dlopen(SONAME, RTLD_LAZY | RTLD_NOLOAD), #name)

uint32_t lrc_shards_close(lrc_shards *shards, uint64_t *entries, uint32_t *lawful) {
    REAL(lrc_shards_close);
    if (busy_holds) stay();
    return real(shards, entries, lawful);
}

uint32_t lrc_slot_shape(lrc_slot *slot, lrc_shape *shape) {
    REAL(lrc_slot_shape);
    if (!busy_holds) return real(slot, shape);
    shape->len = 100;
    return LRC_STORE_DONE;
}

uint32_t lrc_slot_copy(lrc_slot *slot, uint64_t start, uint8_t *target, size_t len) {
    REAL(lrc_slot_copy);
    if (!busy_holds) return real(slot, start, target, len);
    stay();
    return LRC_STORE_EMPTY;
}

uint32_t lrc_slot_lend(lrc_slot *slot, uint64_t start, uint64_t len, lrc_slot *other,
                       uint64_t *pieces) {
    REAL(lrc_slot_lend);
    if (!busy_holds) return real(slot, start, len, other, pieces);
    stay();
    return LRC_STORE_EMPTY;
}

/* How many puts of bytes there were, which a call has to copy. If a test sets `busy_passes`, a put
 * of such a copy and a hold are those of the library. */
unsigned busy_puts;
extern atomic_int busy_passes;
atomic_int busy_passes;

uint32_t lrc_store_put_wait(lrc_slot *slot, const uint8_t *name, size_t name_len,
                            const uint8_t *blob, size_t blob_len, uint32_t data_fragments,
                            uint64_t *version, int64_t timeout_ms) {
    busy_puts++;
    return busy(timeout_ms);
}

uint32_t lrc_store_put_from_wait(lrc_slot *slot, const uint8_t *name, size_t name_len,
                                 lrc_slot *other, uint32_t data_fragments, uint64_t *version,
                                 int64_t timeout_ms) {
    REAL(lrc_store_put_from_wait);
    if (!busy_passes) return busy(timeout_ms);
    return real(slot, name, name_len, other, data_fragments, version, timeout_ms);
}

/* The version of one name is held at once. */
uint32_t lrc_store_hold_wait(lrc_slot *slot, const uint8_t *name, size_t name_len, lrc_slot *other,
                             uint64_t *version, uint64_t *len, int64_t timeout_ms) {
    REAL(lrc_store_hold_wait);
    if (busy_passes) return real(slot, name, name_len, other, version, len, timeout_ms);
    if (name_len != 4 || memcmp(name, "held", 4) != 0) return busy(timeout_ms);
    *version = 1;
    *len = 100000;
    return LRC_STORE_DONE;
}

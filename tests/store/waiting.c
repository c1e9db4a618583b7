/* The waiting forms of library/store_wait.c over functions that record their arguments. Link with
 * that file, and without the library. */
#include "asleep.h"
#include "store_test.h"
#include <pthread.h>
#include <stdatomic.h>
#include <time.h>
#include <unistd.h>

enum {
    MOST = 9,
    OTHER_STATUS = 7,
    ROOM = (4 << 20) + 3,
    SLACK_US = 60000000,
    LAST = 99,
    STORES = 5000,
    MOST_TURNS = 1024
};

#define ARGUMENTS(...) ((const uint64_t[MOST]){__VA_ARGS__})
#define AT(pointer) ((uint64_t)(uintptr_t)(pointer))

static uint64_t seen[MOST];
static atomic_uint calls, busy;

/* How many entries the journal has. */
static uint64_t entries;

/* How long a put and the reservation of its copy take, and each part of a trim. */
static unsigned put_us, reserve_us, part_us;

/* What the slot of a put that is made again holds. */
static uint8_t backing[ROOM];
static size_t reserved;
static unsigned releases;

/* What the calls of a mend return in turn. Before the status of a part of a plan stands the number
 * of its items. */
static const uint32_t *script;
static lrc_slot *mended, *planned;

/* The number of the slot's store, and whether it holds a session. */
static uint64_t number = 77;
static int has_session = 1;

/* A thread that stays in its call until it is let go, and so has the turn. */
static atomic_int is_inside, is_let_go, inside;
static __thread int stays;

/* The number of the store of a thread that has one of its own. */
static __thread uint64_t store_number;

/* Records a call. The first `busy` ones find another thread in the critical section. */
static uint32_t called(const uint64_t *arguments) {
    if (stays) {
        is_inside = 1;
        inside++;
        while (!is_let_go) usleep(store_number ? 20000 : 100);
        return OTHER_STATUS;
    }
    memcpy(seen, arguments, sizeof seen);
    return calls++ < busy ? LRC_STORE_BUSY : OTHER_STATUS;
}

uint32_t lrc_slot_number(lrc_slot *slot, uint64_t *got);
uint32_t lrc_slot_number(lrc_slot *slot, uint64_t *got) {
    (void)slot;
    if (has_session) *got = store_number ? store_number : number;
    return has_session ? LRC_STORE_DONE : LRC_STORE_EMPTY;
}

uint32_t lrc_slot_reserve(size_t len, lrc_slot *slot) {
    (void)slot;
    usleep(reserve_us);
    reserved = len;
    return len <= ROOM ? LRC_STORE_DONE : LRC_STORE_NO_MEMORY;
}

uint32_t lrc_slot_buffer(lrc_slot *slot, lrc_buffer *buffer) {
    (void)slot;
    *buffer = (lrc_buffer){backing, reserved};
    return LRC_STORE_DONE;
}

void lrc_slot_release(lrc_slot *slot) {
    (void)slot;
    releases++;
}

uint32_t lrc_store_put(lrc_slot *slot, const uint8_t *name, size_t name_len, const uint8_t *blob,
                       size_t blob_len, uint32_t data_fragments, uint64_t *version) {
    usleep(put_us);
    return called(
        ARGUMENTS(AT(slot), AT(name), name_len, AT(blob), blob_len, data_fragments, AT(version)));
}

uint32_t lrc_store_put_from(lrc_slot *slot, const uint8_t *name, size_t name_len, lrc_slot *other,
                            uint32_t data_fragments, uint64_t *version) {
    return called(ARGUMENTS(AT(slot), AT(name), name_len, AT(other), data_fragments, AT(version)));
}

uint32_t lrc_store_read(lrc_slot *slot, const uint8_t *name, size_t name_len, uint64_t start,
                        uint8_t *target, size_t len, uint64_t *version, uint64_t *lent,
                        uint64_t *built) {
    return called(ARGUMENTS(AT(slot), AT(name), name_len, start, AT(target), len, AT(version),
                            AT(lent), AT(built)));
}

uint32_t lrc_store_lend(lrc_slot *slot, const uint8_t *name, size_t name_len, uint64_t start,
                        uint64_t len, lrc_slot *other, uint64_t *version, uint64_t *pieces) {
    return called(
        ARGUMENTS(AT(slot), AT(name), name_len, start, len, AT(other), AT(version), AT(pieces)));
}

uint32_t lrc_store_lose(lrc_slot *slot, const uint8_t *name, size_t name_len, uint64_t stripe,
                        uint64_t fragment, uint64_t *version) {
    return called(ARGUMENTS(AT(slot), AT(name), name_len, stripe, fragment, AT(version)));
}

uint32_t lrc_store_repair(lrc_slot *slot, const uint8_t *name, size_t name_len, uint64_t stripe,
                          uint64_t fragment, uint64_t *version) {
    return called(ARGUMENTS(AT(slot), AT(name), name_len, stripe, fragment, AT(version), 1));
}

uint32_t lrc_store_delete(lrc_slot *slot, const uint8_t *name, size_t name_len, uint64_t *version) {
    return called(ARGUMENTS(AT(slot), AT(name), name_len, AT(version)));
}

uint32_t lrc_store_stat(lrc_slot *slot, const uint8_t *name, size_t name_len, uint64_t *version,
                        uint64_t *len, uint64_t *stripes, uint64_t *lost) {
    return called(
        ARGUMENTS(AT(slot), AT(name), name_len, AT(version), AT(len), AT(stripes), AT(lost)));
}

/* Discards some of the journal's entries, if there are any. */
uint32_t lrc_store_trim_part(lrc_slot *slot, uint64_t keep, uint64_t most, uint64_t *discarded) {
    const uint32_t status = called(ARGUMENTS(AT(slot), keep, most));
    const uint64_t part = entries < most ? entries : most;
    usleep(part_us);
    if (status != OTHER_STATUS || !entries) return status;
    entries -= part;
    *discarded = part;
    return LRC_STORE_DONE;
}

uint32_t lrc_store_plan(lrc_slot *slot, lrc_slot *other, uint64_t *items) {
    return called(ARGUMENTS(AT(slot), AT(other), AT(items)));
}

uint32_t lrc_store_plan_part(lrc_slot *slot, lrc_slot *other, uint64_t most, uint64_t *items) {
    if (!script) return called(ARGUMENTS(AT(slot), AT(other), most));
    EXPECT(slot == mended && most == 512, 1);
    planned = other;
    *items = *script++;
    return *script++;
}

uint32_t lrc_store_mend_step(lrc_slot *slot, lrc_slot *other, uint64_t *version) {
    if (!script) return called(ARGUMENTS(AT(slot), AT(other), AT(version), 1));
    EXPECT(slot == mended && other == planned, 1);
    return *script++;
}

uint32_t lrc_store_numbers(lrc_slot *slot, lrc_numbers *numbers) {
    return called(ARGUMENTS(AT(slot), AT(numbers)));
}

uint32_t lrc_store_hold(lrc_slot *slot, const uint8_t *name, size_t name_len, lrc_slot *other,
                        uint64_t *version, uint64_t *len) {
    return called(ARGUMENTS(AT(slot), AT(name), name_len, AT(other), AT(version), AT(len)));
}

uint32_t lrc_store_get(lrc_slot *slot, const uint8_t *name, size_t name_len, lrc_slot *other,
                       uint64_t *version, uint64_t *len, uint64_t *pieces) {
    return called(
        ARGUMENTS(AT(slot), AT(name), name_len, AT(other), AT(version), AT(len), AT(pieces)));
}

uint32_t lrc_store_restore(lrc_slot *slot, lrc_slot *other, uint64_t stripe, uint64_t fragment,
                           const uint8_t *bytes, size_t len, uint64_t *version) {
    return called(ARGUMENTS(AT(slot), AT(other), stripe, fragment, AT(bytes), len, AT(version), 1));
}

/* Whether a form repeats its function with the same arguments, and returns its last status. */
#define PASSES(call, ...)                                                                          \
    do {                                                                                           \
        calls = 0;                                                                                 \
        busy = 6;                                                                                  \
        EXPECT(call, OTHER_STATUS);                                                                \
        EXPECT(calls, busy + 1);                                                                   \
        EXPECT(memcmp(seen, ARGUMENTS(__VA_ARGS__), sizeof seen), 0);                              \
    } while (0)

static void arguments(int64_t timeout_ms) {
    lrc_slot s = LRC_SLOT_EMPTY, o = LRC_SLOT_EMPTY;
    uint8_t n[3] = "nam", b[4] = "blob";
    uint64_t v = 0, x = 0, y = 0, z = 0;
    lrc_numbers numbers = {0};
    PASSES(lrc_store_put_from_wait(&s, n, 2, &o, 6, &v, timeout_ms), AT(&s), AT(n), 2, AT(&o), 6,
           AT(&v));
    PASSES(lrc_store_read_wait(&s, n, 2, 5, b, 4, &v, &x, &y, timeout_ms), AT(&s), AT(n), 2, 5,
           AT(b), 4, AT(&v), AT(&x), AT(&y));
    PASSES(lrc_store_lend_wait(&s, n, 2, 5, 4, &o, &v, &x, timeout_ms), AT(&s), AT(n), 2, 5, 4,
           AT(&o), AT(&v), AT(&x));
    PASSES(lrc_store_lose_wait(&s, n, 2, 5, 4, &v, timeout_ms), AT(&s), AT(n), 2, 5, 4, AT(&v));
    PASSES(lrc_store_repair_wait(&s, n, 2, 5, 4, &v, timeout_ms), AT(&s), AT(n), 2, 5, 4, AT(&v),
           1);
    PASSES(lrc_store_delete_wait(&s, n, 2, &v, timeout_ms), AT(&s), AT(n), 2, AT(&v));
    PASSES(lrc_store_stat_wait(&s, n, 2, &v, &x, &y, &z, timeout_ms), AT(&s), AT(n), 2, AT(&v),
           AT(&x), AT(&y), AT(&z));
    PASSES(lrc_store_trim_wait(&s, 5, &v, timeout_ms), AT(&s), 5, 512);
    PASSES(lrc_store_plan_wait(&s, &o, &x, timeout_ms), AT(&s), AT(&o), AT(&x));
    PASSES(lrc_store_plan_part_wait(&s, &o, 5, &x, timeout_ms), AT(&s), AT(&o), 5);
    PASSES(lrc_store_mend_step_wait(&s, &o, &v, timeout_ms), AT(&s), AT(&o), AT(&v), 1);
    PASSES(lrc_store_numbers_wait(&s, &numbers, timeout_ms), AT(&s), AT(&numbers));
    PASSES(lrc_store_hold_wait(&s, n, 2, &o, &v, &x, timeout_ms), AT(&s), AT(n), 2, AT(&o), AT(&v),
           AT(&x));
    PASSES(lrc_store_get_wait(&s, n, 2, &o, &v, &x, &y, timeout_ms), AT(&s), AT(n), 2, AT(&o),
           AT(&v), AT(&x), AT(&y));
    PASSES(lrc_store_restore_wait(&s, &o, 5, 4, b, 3, &v, timeout_ms), AT(&s), AT(&o), 5, 4, AT(b),
           3, AT(&v), 1);
}

/* A put is made of the given bytes, and then again of a copy that a slot keeps. */
static void puts_again(int64_t timeout_ms) {
    lrc_slot s = LRC_SLOT_EMPTY;
    static uint8_t b[ROOM + 1] = "blob";
    uint8_t n[3] = "nam";
    uint64_t v = 0;
    calls = busy = releases = 0;
    EXPECT(lrc_store_put_wait(&s, n, 2, b, 4, 6, &v, timeout_ms), OTHER_STATUS);
    EXPECT(calls + 10 * releases, 1);
    EXPECT(memcmp(seen, ARGUMENTS(AT(&s), AT(n), 2, AT(b), 4, 6, AT(&v)), sizeof seen), 0);
    calls = 0;
    busy = 6;
    EXPECT(lrc_store_put_wait(&s, n, 2, b, 4, 6, &v, timeout_ms), OTHER_STATUS);
    EXPECT(calls, busy + 1);
    EXPECT(reserved + 10 * releases, 14);
    EXPECT(memcmp(backing, b, 4), 0);
    seen[3] = 0; /* the slot of the copy */
    EXPECT(memcmp(seen, ARGUMENTS(AT(&s), AT(n), 2, 0, 6, AT(&v)), sizeof seen), 0);
    calls = 0;
    EXPECT(lrc_store_put_wait(&s, n, 2, b, ROOM + 1, 6, &v, timeout_ms), LRC_STORE_NO_MEMORY);
    EXPECT(calls + 10 * releases, 11);
}

/* A put that has to wait stores all bytes that it was given, however many. */
static void puts_long_blobs(void) {
    static const size_t lengths[] = {1,       4095,    65535,         65536,       65537,
                                     100000,  131072,  (1 << 20) - 1, 1 << 20,     (1 << 20) + 1,
                                     2000003, 4 << 20, ROOM - 1,      (size_t)ROOM};
    static uint8_t blob[ROOM], other[ROOM];
    lrc_slot s = LRC_SLOT_EMPTY;
    uint64_t v = 0;
    for (size_t i = 0; i < sizeof lengths / sizeof *lengths; i++) {
        const size_t len = lengths[i];
        fill(blob, len, (unsigned)i);
        memset(backing, 0xee, ROOM);
        memset(other, 0xee, ROOM);
        memcpy(other, blob, len);
        calls = releases = 0;
        busy = 4;
        EXPECT(lrc_store_put_wait(&s, NAME("long"), blob, len, 6, &v, 60000), OTHER_STATUS);
        EXPECT(calls, busy + 1);
        EXPECT(reserved, len);
        EXPECT(releases, 1);
        EXPECT(memcmp(backing, other, ROOM), 0);
    }
    busy = 0;
}

static int64_t now_us(void) {
    struct timespec now;
    clock_gettime(CLOCK_MONOTONIC, &now);
    return (int64_t)now.tv_sec * 1000000 + now.tv_nsec / 1000;
}

/* How long a call waits that is always BUSY, in microseconds. */
static int64_t waited_us(int64_t timeout_ms) {
    lrc_slot slot = LRC_SLOT_EMPTY;
    uint64_t discarded = 0;
    const int64_t start = now_us();
    calls = 0;
    busy = ~0u;
    EXPECT(lrc_store_trim_wait(&slot, 0, &discarded, timeout_ms), LRC_STORE_BUSY);
    return now_us() - start;
}

static uint32_t trim(int64_t timeout_ms) {
    lrc_slot slot = LRC_SLOT_EMPTY;
    uint64_t discarded = 0;
    return lrc_store_trim_wait(&slot, 0, &discarded, timeout_ms);
}

/* A trim of so many entries makes so many calls. */
static void trims(uint64_t count, unsigned parts, uint32_t last) {
    lrc_slot slot = LRC_SLOT_EMPTY;
    const uint64_t untouched = 77;
    uint64_t discarded = untouched;
    entries = count;
    calls = busy = 0;
    EXPECT(lrc_store_trim_wait(&slot, 5, &discarded, -1), last);
    EXPECT(discarded, count > 1 << 20 ? 1 << 20 : count ? count : untouched);
    EXPECT(calls, parts);
    entries = 0;
}

/* A trim goes on in parts until one is short, or has another status. */
static void trims_in_parts(void) {
    trims(0, 1, OTHER_STATUS);
    trims(511, 1, LRC_STORE_DONE);
    trims(512, 2, OTHER_STATUS);
    trims(1200, 3, LRC_STORE_DONE);
    trims(1 << 21, 1 << 11, LRC_STORE_DONE); /* others add entries meanwhile */
}

/* The clock of a put begins with the call: one that was encoded in vain is not made again, nor one
 * that was copied too late. */
static void puts_in_time(void) {
    lrc_slot s = LRC_SLOT_EMPTY;
    uint64_t v = 0;
    busy = ~0u;
    for (int is_copy_late = 0; is_copy_late < 2; is_copy_late++) {
        calls = releases = 0;
        reserved = 77;
        *(is_copy_late ? &reserve_us : &put_us) = 300000;
        EXPECT(lrc_store_put_wait(&s, NAME("a"), backing, 4, 12, &v, 250), LRC_STORE_BUSY);
        EXPECT(calls, 1);
        EXPECT(reserved, is_copy_late ? 4 : 77);
        EXPECT(releases, is_copy_late);
        put_us = reserve_us = 0;
    }
    busy = 0;
}

/* A trim ends at its deadline, also if each of its parts is made at once. */
static void trims_in_time(void) {
    lrc_slot slot = LRC_SLOT_EMPTY;
    uint64_t discarded = 77;
    entries = 1 << 19;
    part_us = 4000;
    const int64_t start = now_us();
    EXPECT(lrc_store_trim_wait(&slot, 5, &discarded, 30), LRC_STORE_BUSY);
    EXPECT(now_us() - start >= 30000 && now_us() - start < SLACK_US, 1);
    EXPECT(discarded >= 512 && discarded < 1 << 14 && discarded % 512 == 0, 1);
    part_us = 0;
    entries = 1200;
    EXPECT(lrc_store_trim_wait(&slot, 5, &discarded, 0), LRC_STORE_DONE); /* it need not wait */
    EXPECT(discarded, 1200);
    entries = 0;
}

/* A mend whose calls return this, up to LAST, without waiting. */
static void mends(const uint32_t *statuses, uint32_t status, uint64_t repaired) {
    lrc_slot slot = LRC_SLOT_EMPTY;
    uint64_t got = 77;
    releases = 0;
    script = statuses;
    mended = &slot;
    EXPECT(lrc_store_mend_wait(&slot, &got, 0), status);
    EXPECT(got, repaired);
    EXPECT(*script, LAST);
    EXPECT(releases, 1);
    script = NULL;
}

#define STATUSES(...) ((const uint32_t[]){__VA_ARGS__, LAST})

/* A mend plans and repairs in parts until one is short or a call is refused. */
static void mends_in_parts(void) {
    const uint32_t left = LRC_STORE_NOTHING_LEFT;
    mends(STATUSES(0, 0, left), LRC_STORE_DONE, 0);
    mends(STATUSES(6, 0, 0, LRC_STORE_NO_NAME, 0, LRC_STORE_UNRECOVERABLE, LRC_STORE_NO_FRAGMENT,
                   LRC_STORE_NOT_LOST, left),
          LRC_STORE_DONE, 2);
    mends(STATUSES(511, 0, 0, left), LRC_STORE_DONE, 1);
    mends(STATUSES(512, 0, 0, left, 512, 0, left, 1, 0, 0, left), LRC_STORE_DONE, 2);
    const uint32_t stops[] = {LRC_STORE_BUSY, LRC_STORE_NO_MEMORY, LRC_STORE_JOURNAL_FULL,
                              LRC_STORE_EMPTY};
    for (size_t i = 0; i < sizeof stops / sizeof *stops; i++) {
        mends(STATUSES(0, stops[i]), stops[i], 77);
        mends(STATUSES(1, 0, stops[i]), stops[i], 77);
        mends(STATUSES(2, 0, 0, stops[i]), stops[i], 1);
        mends(STATUSES(512, 0, 0, left, 0, stops[i]), stops[i], 1);
        mends(STATUSES(512, 0, stops[i]), stops[i], 77);
    }
}

static void *stay_in_call(void *timeout_ms) {
    stays = 1;
    EXPECT(trim(*(int64_t *)timeout_ms), OTHER_STATUS);
    return NULL;
}

static void *wait_for_turn(void *slots) {
    uint64_t built;
    lrc_slot *slot = slots;
    return (void *)(uintptr_t)lrc_store_plan_wait(slot, slot + 1, &built, -1);
}

/* Starts a thread that stays in its call, with the turn. */
static pthread_t take_turn(int64_t *timeout_ms) {
    pthread_t thread;
    is_inside = is_let_go = 0;
    EXPECT(pthread_create(&thread, NULL, stay_in_call, timeout_ms), 0);
    while (!is_inside) usleep(1000);
    calls = busy = 0;
    return thread;
}

static void let_go(pthread_t thread) {
    is_let_go = 1;
    EXPECT(pthread_join(thread, NULL), 0);
}

/* A thread has the turn: others make no call, until the deadline or until it gives it back. */
static void turns(void) {
    int64_t forever = -1, start = now_us();
    lrc_slot slots[2] = {LRC_SLOT_EMPTY, LRC_SLOT_EMPTY};
    pthread_t holder = take_turn(&forever), waiter;
    void *status = NULL;
    EXPECT(trim(70), LRC_STORE_BUSY);
    EXPECT(now_us() - start >= 70000 && now_us() - start < SLACK_US, 1);
    EXPECT(calls, 0);
    EXPECT(trim(0), OTHER_STATUS); /* one attempt, without the turn */
    for (int i = 0; i < STORES; i++, number++)
        EXPECT(trim(i ? 10 : 0), OTHER_STATUS); /* of other stores */
    number -= STORES;
    calls = 2;
    has_session = 0;
    EXPECT(trim(-1), OTHER_STATUS);
    has_session = 1;
    EXPECT(calls, 3);
    EXPECT(pthread_create(&waiter, NULL, wait_for_turn, slots), 0);
    until_others_sleep();
    EXPECT(calls, 3);
    let_go(holder);
    EXPECT(pthread_join(waiter, &status), 0);
    EXPECT((uintptr_t)status, OTHER_STATUS);
    EXPECT(calls, 4);
}

static void *stay_in_store(void *argument) {
    stays = 1;
    store_number = (uint64_t)(uintptr_t)argument;
    EXPECT(trim(-1), OTHER_STATUS);
    return NULL;
}

/* A store that had none before has a turn: while a thread has it, another makes no call. */
static void is_turn_of_a_new_store(void) {
    int64_t forever = -1;
    number += 2 * STORES;
    pthread_t holder = take_turn(&forever);
    EXPECT(trim(20), LRC_STORE_BUSY);
    EXPECT(calls, 0);
    let_go(holder);
    number -= 2 * STORES;
}

/* Threads in more stores than there are turns: a call of another store is made without one, and
 * a turn that is given back serves another store. */
static void has_more_stores_than_turns(void) {
    static pthread_t threads[MOST_TURNS];
    pthread_attr_t small;
    EXPECT(pthread_attr_init(&small), 0);
    EXPECT(pthread_attr_setstacksize(&small, 1 << 18), 0);
    is_let_go = 0;
    inside = 0;
    for (uintptr_t i = 0; i < MOST_TURNS; i++)
        EXPECT(pthread_create(&threads[i], &small, stay_in_store, (void *)(i + 1000)), 0);
    while (inside < MOST_TURNS) usleep(1000);
    calls = busy = 0;
    EXPECT(trim(10), OTHER_STATUS);
    busy = 20;
    EXPECT(trim(1000), OTHER_STATUS);
    busy = ~0u;
    EXPECT(trim(5), LRC_STORE_BUSY);
    is_let_go = 1;
    for (int i = 0; i < MOST_TURNS; i++) EXPECT(pthread_join(threads[i], NULL), 0);
    busy = calls = 0;
    EXPECT(trim(-1), OTHER_STATUS);
    is_turn_of_a_new_store();
}

/* A thread is cancelled while it waits for the turn, and another one while it sleeps with it. */
static void cancels(void) {
    int64_t forever = -1;
    lrc_slot slots[2] = {LRC_SLOT_EMPTY, LRC_SLOT_EMPTY};
    pthread_t holder = take_turn(&forever), waiter;
    void *status = NULL;
    EXPECT(pthread_create(&waiter, NULL, wait_for_turn, slots), 0);
    until_others_sleep();
    EXPECT(pthread_cancel(waiter), 0);
    EXPECT(pthread_join(waiter, &status), 0);
    EXPECT(status == PTHREAD_CANCELED, 1);
    let_go(holder);
    calls = 0;
    busy = ~0u;
    EXPECT(pthread_create(&waiter, NULL, wait_for_turn, slots), 0);
    while (calls < 20) usleep(1000); /* with the turn, and past the attempts without a sleep */
    EXPECT(pthread_cancel(waiter), 0);
    EXPECT(pthread_join(waiter, &status), 0);
    EXPECT(status == PTHREAD_CANCELED, 1);
    busy = 0;
    EXPECT(trim(60000), OTHER_STATUS);
}

/* A long call is tried before its turn, a short one is not. */
static void tries(void) {
    int64_t forever = -1;
    lrc_slot s = LRC_SLOT_EMPTY, o = LRC_SLOT_EMPTY;
    uint64_t v, x, y;
    pthread_t holder = take_turn(&forever);
    EXPECT(lrc_store_lend_wait(&s, NAME("a"), 0, 65535, &o, &v, &x, 5), LRC_STORE_BUSY);
    EXPECT(lrc_store_read_wait(&s, NAME("a"), 0, backing, 5, &v, &x, &y, 5), LRC_STORE_BUSY);
    EXPECT(lrc_store_lose_wait(&s, NAME("a"), 0, 5, &v, 5), LRC_STORE_BUSY);
    EXPECT(lrc_store_restore_wait(&s, &o, 0, 5, backing, 65535, &v, 5), LRC_STORE_BUSY);
    EXPECT(calls, 0);
    EXPECT(lrc_store_lend_wait(&s, NAME("a"), 0, 65536, &o, &v, &x, 5), OTHER_STATUS);
    EXPECT(lrc_store_read_wait(&s, NAME("a"), 0, backing, 65536, &v, &x, &y, 5), OTHER_STATUS);
    EXPECT(lrc_store_repair_wait(&s, NAME("a"), 0, 5, &v, 5), OTHER_STATUS);
    EXPECT(lrc_store_mend_step_wait(&s, &o, &v, 5), OTHER_STATUS);
    EXPECT(lrc_store_put_from_wait(&s, NAME("a"), &o, 12, &v, 5), OTHER_STATUS);
    EXPECT(lrc_store_restore_wait(&s, &o, 0, 5, backing, 65536, &v, 5), OTHER_STATUS);
    EXPECT(calls, 6);
    busy = ~0u;
    EXPECT(lrc_store_repair_wait(&s, NAME("a"), 0, 5, &v, 5), LRC_STORE_BUSY);
    EXPECT(calls, 6 + 8);
    EXPECT(lrc_store_put_wait(&s, NAME("a"), backing, 4, 12, &v, 5), LRC_STORE_BUSY);
    EXPECT(calls, 6 + 8 + 2);
    let_go(holder);
}

int main(void) {
    alarm(60); /* a call that never returns ends the test */
    turns();
    cancels();
    tries();
    has_more_stores_than_turns();
    puts_in_time();
    trims_in_time();
    trims_in_parts();
    mends_in_parts();
    arguments(-1);
    puts_long_blobs();
    puts_again(-1);
    puts_again(60000);
    arguments(INT64_MIN);
    arguments(60000);
    arguments(INT64_MAX);
    arguments(INT64_MAX / 1000000);
    waited_us(0);
    EXPECT(calls, 1);
    for (int64_t timeout_ms = 1; timeout_ms <= 64; timeout_ms *= 4) {
        EXPECT(waited_us(timeout_ms) >= timeout_ms * 1000, 1);
        EXPECT(calls < 40 + timeout_ms, 1);
    }
    return report("waiting");
}

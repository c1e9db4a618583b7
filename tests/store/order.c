/* The order of a pool's uses: each use that begins has to know of all that ended before it began.
 * No result of a call shows that, so the test keeps beside each session which uses it knows of, and
 * is linked with --wrap for the two functions by which a session comes to know of others. */
#include "asleep.h"
#include "store_test.h"

#include <pthread.h>
#include <unistd.h>

enum { SLOTS = 65, SESSIONS = 63, THREADS = 80, TURNS = 400 };

/* What a session knows: by thread, the number of the last use. */
struct known {
    const lrc_slot *slot;
    uint32_t last[THREADS];
};

static struct known sessions[SLOTS];
static lrc_pool *pool;
/* by thread, the last use that has ended */
static uint32_t ended[THREADS];
static pthread_mutex_t guard = PTHREAD_MUTEX_INITIALIZER;

static struct known *of(const lrc_slot *slot) {
    for (struct known *it = sessions; it < sessions + SLOTS; it++) {
        if (!it->slot) it->slot = slot;
        if (it->slot == slot) return it;
    }
    abort();
}

/* One session knows of all that another one knows of. */
static void share_knowledge(const lrc_slot *to, const lrc_slot *from) {
    pthread_mutex_lock(&guard);
    struct known *into = of(to), *known = of(from);
    for (int i = 0; i < THREADS; i++)
        if (into->last[i] < known->last[i]) into->last[i] = known->last[i];
    pthread_mutex_unlock(&guard);
}

uint32_t __real_lrc_slot_learn(lrc_slot *slot, lrc_slot *other);
uint32_t __wrap_lrc_slot_learn(lrc_slot *slot, lrc_slot *other);
uint32_t __wrap_lrc_slot_learn(lrc_slot *slot, lrc_slot *other) {
    const uint32_t status = __real_lrc_slot_learn(slot, other);
    if (status == LRC_STORE_DONE) share_knowledge(slot, other);
    return status;
}

uint32_t __real_lrc_store_split(lrc_slot *slot, uint32_t who, lrc_slot *other);
uint32_t __wrap_lrc_store_split(lrc_slot *slot, uint32_t who, lrc_slot *other);
uint32_t __wrap_lrc_store_split(lrc_slot *slot, uint32_t who, lrc_slot *other) {
    const uint32_t status = __real_lrc_store_split(slot, who, other);
    if (status == LRC_STORE_DONE) share_knowledge(other, slot);
    return status;
}

/* A use by a thread: it knows of all that have ended before it begins. */
static void use(unsigned thread, uint32_t number) {
    uint32_t before[THREADS];
    lrc_slot *session = NULL;
    uint64_t version = 0;
    pthread_mutex_lock(&guard);
    memcpy(before, ended, sizeof before);
    pthread_mutex_unlock(&guard);
    EXPECT(lrc_pool_take(pool, &session, -1), LRC_STORE_DONE);
    pthread_mutex_lock(&guard);
    for (int i = 0; i < THREADS; i++) EXPECT(of(session)->last[i] >= before[i], 1);
    of(session)->last[thread] = number;
    pthread_mutex_unlock(&guard);
    if (number % 8 == thread % 8) usleep(50); /* so that some have to wait */
    lrc_store_delete_wait(session, NAME("a"), &version, -1);
    lrc_pool_give(pool, session);
    pthread_mutex_lock(&guard);
    ended[thread] = number;
    pthread_mutex_unlock(&guard);
}

static void *uses(void *argument) {
    for (uint32_t number = 1; number <= TURNS; number++) use((unsigned)(uintptr_t)argument, number);
    return NULL;
}

/* The only session of a pool learns of no other. */
static void a_single_session(void) {
    lrc_slot slot = LRC_SLOT_EMPTY, other = LRC_SLOT_EMPTY, *session = NULL;
    lrc_pool *of_one = NULL;
    uint64_t version = 0, entries = 0;
    uint32_t lawful = 0;
    EXPECT(lrc_store_open(4, 64, &slot), LRC_STORE_DONE);
    EXPECT(lrc_store_split(&slot, 1, &other), LRC_STORE_DONE);
    EXPECT(lrc_pool_open(&other, &of_one), LRC_STORE_DONE);
    EXPECT(lrc_pool_take(of_one, &session, 0), LRC_STORE_DONE);
    EXPECT(lrc_store_delete_wait(session, NAME("a"), &version, -1), LRC_STORE_NO_NAME);
    EXPECT(lrc_pool_close(of_one, &other), LRC_STORE_NOT_ALONE);
    lrc_pool_give(of_one, session);
    EXPECT(lrc_pool_close(of_one, &other), LRC_STORE_DONE);
    EXPECT(lrc_store_join(&slot, &other), LRC_STORE_DONE);
    EXPECT(lrc_store_close(&slot, &entries, &lawful), LRC_STORE_DONE);
    memset(sessions, 0, sizeof sessions);
}

static void *takes(void *argument) {
    EXPECT(lrc_pool_take(pool, argument, -1), LRC_STORE_DONE);
    return NULL;
}

/* Two threads wait while all sessions are lent. Each gets one that is given back, and the second
 * one knows of the use that ended as the first one got its session. */
static void who_waits_learns(void) {
    lrc_slot slot = LRC_SLOT_EMPTY, *lent[SESSIONS], *got[2] = {NULL, NULL};
    pthread_t threads[2];
    uint64_t entries = 0;
    uint32_t lawful = 0;
    EXPECT(lrc_store_open(4, 64, &slot), LRC_STORE_DONE);
    EXPECT(lrc_pool_open(&slot, &pool), LRC_STORE_DONE);
    for (int i = 0; i < SESSIONS; i++) EXPECT(lrc_pool_take(pool, &lent[i], 0), LRC_STORE_DONE);
    for (int i = 0; i < 2; i++) {
        EXPECT(pthread_create(&threads[i], NULL, takes, &got[i]), 0);
        until_others_sleep();
    }
    for (int i = 0; i < 2; i++) {
        of(lent[i])->last[i] = 1;
        lrc_pool_give(pool, lent[i]);
    }
    for (int i = 0; i < 2; i++) pthread_join(threads[i], NULL);
    EXPECT(got[0] == lent[0] && got[1] == lent[1], 1);
    EXPECT(of(got[1])->last[0], 1);
    for (int i = 0; i < SESSIONS; i++) lrc_pool_give(pool, lent[i]);
    EXPECT(lrc_pool_close(pool, &slot), LRC_STORE_DONE);
    EXPECT(lrc_store_close(&slot, &entries, &lawful), LRC_STORE_DONE);
    memset(sessions, 0, sizeof sessions);
}

int main(void) {
    lrc_slot slot = LRC_SLOT_EMPTY;
    pthread_t threads[THREADS];
    uint64_t entries = 0;
    uint32_t lawful = 0;
    a_single_session();
    who_waits_learns();
    EXPECT(lrc_store_open(4, THREADS * TURNS, &slot), LRC_STORE_DONE);
    EXPECT(lrc_pool_open(&slot, &pool), LRC_STORE_DONE);
    for (uintptr_t i = 0; i < THREADS; i++)
        EXPECT(pthread_create(&threads[i], NULL, uses, (void *)i), 0);
    for (int i = 0; i < THREADS; i++) pthread_join(threads[i], NULL);
    EXPECT(lrc_pool_close(pool, &slot), LRC_STORE_DONE);
    EXPECT(lrc_store_close(&slot, &entries, &lawful), LRC_STORE_DONE);
    EXPECT(entries, THREADS * TURNS);
    EXPECT(lawful, 1);
    printf("%d uses of a pool, %ld wrong\n", THREADS * TURNS, wrong);
    return wrong != 0;
}

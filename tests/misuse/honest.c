/* What looks like a mistake and is none: no report is right. */
#include "misuse.h"
#include <pthread.h>
#include <sys/wait.h>
#include <unistd.h>

/* The program ends with it. It was moved there. */
static lrc_slot for_ever;

static void opens_for_ever(void) {
    lrc_slot slot = LRC_SLOT_EMPTY;
    open_store(&slot);
    for_ever = slot;
    put(&for_ever, "a");
}

/* As a constructor of C++ moves it: the first slot is used anew before the second one. */
static void moves(void) {
    lrc_slot first = LRC_SLOT_EMPTY, second = LRC_SLOT_EMPTY;
    open_store(&first);
    second = first;
    first = (lrc_slot)LRC_SLOT_EMPTY;
    open_store(&first);
    put(&second, "a");
    put(&first, "a");
    lrc_slot_release(&first);
    lrc_slot_release(&second);
}

static void *end_at_once(void *argument) { return argument; }

/* A process with one thread has a child that goes on. */
static void forks(void) {
    pthread_t thread;
    int status = 1;
    EXPECT(pthread_create(&thread, NULL, end_at_once, NULL), 0);
    EXPECT(pthread_join(thread, NULL), 0);
    pid_t child = fork();
    if (child == 0) {
        put(&for_ever, "a");
        exit(report("child"));
    }
    EXPECT(waitpid(child, &status, 0), child);
    EXPECT(status, 0);
}

/* Once a pool is closed, its memory can have a slot where a session was. */
static void takes_the_memory_of_a_pool(void) {
    lrc_slot slot = LRC_SLOT_EMPTY, *session = NULL;
    lrc_pool *pool = NULL;
    open_store(&slot);
    EXPECT(lrc_pool_open(&slot, &pool), LRC_STORE_DONE);
    EXPECT(lrc_pool_take(pool, &session, 0), LRC_STORE_DONE);
    uintptr_t there = (uintptr_t)session;
    lrc_pool_give(pool, session);
    EXPECT(lrc_pool_close(pool, &slot), LRC_STORE_DONE);
    lrc_slot_release(&slot);
    for (size_t size = 64; size < 16384; size += 16) {
        char *block = malloc(size);
        size_t from = there - (uintptr_t)block;
        if (from < size && size - from >= sizeof slot) {
            lrc_slot *inside = (lrc_slot *)(void *)(block + from);
            *inside = (lrc_slot)LRC_SLOT_EMPTY;
            open_store(inside);
            put(inside, "a");
            lrc_slot_release(inside);
        }
        free(block);
    }
}

/* Outputs that end where another begins, and no bytes anywhere. */
static void takes_what_is_beside(void) {
    lrc_slot slot = LRC_SLOT_EMPTY;
    uint64_t number[3] = {0, 0, 0};
    open_store(&slot);
    put(&slot, "a");
    EXPECT(lrc_store_read(&slot, NAME("a"), 0, (uint8_t *)number + 4, 0, &number[0], &number[1],
                          &number[2]),
           LRC_STORE_DONE);
    lrc_slot_release(&slot);
}

int main(void) {
    opens_for_ever();
    moves();
    forks();
    takes_the_memory_of_a_pool();
    takes_what_is_beside();
    return report("honest");
}

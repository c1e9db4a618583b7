/* A thread is cancelled while it waits inside a call, over tests/store/busy.c, and another thread
 * takes its session: no report is right. */
#include "misuse.h"
#include <pthread.h>
#include <sched.h>
#include <stdatomic.h>

extern atomic_int busy_callers;
static lrc_slot slot;

static void *wait_for_ever(void *argument) {
    uint64_t version = 0;
    lrc_store_delete_wait(&slot, NAME("a"), &version, 3600000);
    return argument;
}

int main(void) {
    pthread_t thread;
    void *result = NULL;
    open_store(&slot);
    EXPECT(pthread_create(&thread, NULL, wait_for_ever, NULL), 0);
    while (!busy_callers) sched_yield();
    EXPECT(pthread_cancel(thread), 0);
    EXPECT(pthread_join(thread, &result), 0);
    EXPECT(result == PTHREAD_CANCELED, 1);
    put(&slot, "a");
    lrc_slot_release(&slot);
    return report("cancelled");
}

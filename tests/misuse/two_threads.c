/* A thread uses a slot while another thread is inside a call with it. */
#include "inside.h"

static lrc_slot slot;

static void *use(void *argument) {
    put(&slot, "b");
    return argument;
}

static void use_in_another_thread(void) {
    pthread_t thread;
    EXPECT(pthread_create(&thread, NULL, use, NULL), 0);
    EXPECT(pthread_join(thread, NULL), 0);
}

int main(void) {
    open_store(&slot);
    put(&slot, "a");
    at_malloc = use_in_another_thread;
    put(&slot, "a");
    lrc_slot_release(&slot);
    return report("misuse");
}

/* A signal handler calls the store, inside of another call. */
#include "inside.h"
#include <signal.h>

static lrc_slot slot;

static void on_signal(int number) {
    uint64_t version = 0;
    (void)number;
    lrc_store_delete(&slot, NAME("a"), &version);
}

static void raise_signal(void) { raise(SIGUSR1); }

int main(void) {
    open_store(&slot);
    put(&slot, "a");
    signal(SIGUSR1, on_signal);
    at_malloc = raise_signal;
    put(&slot, "a");
    lrc_slot_release(&slot);
    return report("misuse");
}

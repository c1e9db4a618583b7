/* A process with two threads forks, and the child calls the store. */
#include "misuse.h"
#include <pthread.h>
#include <sys/wait.h>
#include <unistd.h>

static int gate[2];

static void *wait_at_gate(void *argument) {
    char byte;
    EXPECT(read(gate[0], &byte, 1), 1);
    return argument;
}

int main(void) {
    lrc_slot slot = LRC_SLOT_EMPTY;
    pthread_t thread;
    int status = 0;
    open_store(&slot);
    EXPECT(pipe(gate), 0);
    EXPECT(pthread_create(&thread, NULL, wait_at_gate, NULL), 0);
    pid_t child = fork();
    if (child == 0) {
        put(&slot, "a");
        _exit(0);
    }
    EXPECT(waitpid(child, &status, 0), child);
    EXPECT(write(gate[1], "", 1), 1);
    EXPECT(pthread_join(thread, NULL), 0);
    lrc_slot_release(&slot);
    return WEXITSTATUS(status) + report("misuse");
}

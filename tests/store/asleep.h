/* Waits until all other threads of this process sleep in the kernel, as a thread does that waits
 * for a lock or a session. What a test then does happens beside a thread that waits, however busy
 * the machine is. After a pause instead, that thread may not have begun to wait. */
#ifndef ASLEEP_H
#define ASLEEP_H
#include <dirent.h>
#include <stdio.h>
#include <stdlib.h>
#include <string.h>
#include <sys/syscall.h>
#include <unistd.h>

/* The state of a thread as /proc has it: R if it runs or could run, S if it sleeps. */
static inline char state_of_thread(const char *number) {
    char path[300], text[300];
    size_t len = 0;
    FILE *file;
    snprintf(path, sizeof path, "/proc/self/task/%s/stat", number);
    file = fopen(path, "r");
    if (!file) return 'S'; /* it has ended */
    len = fread(text, 1, sizeof text - 1, file);
    fclose(file);
    text[len] = 0;
    return strrchr(text, ')') ? strrchr(text, ')')[2] : 'R';
}

static inline int others_sleep(void) {
    const long self = syscall(SYS_gettid);
    int sleep = 1;
    DIR *threads = opendir("/proc/self/task");
    for (struct dirent *each = NULL; threads && (each = readdir(threads));) {
        const long number = atol(each->d_name);
        if (number && number != self && state_of_thread(each->d_name) != 'S') sleep = 0;
    }
    if (threads) closedir(threads);
    return threads && sleep;
}

/* A lock inside of malloc may hold a thread up for a moment, so several looks in a row have to find
 * all of them asleep, each at least a millisecond after the one before. */
enum { LOOKS = 10 };

static inline void until_others_sleep(void) {
    for (int seen = 0; seen < LOOKS; seen = others_sleep() ? seen + 1 : 0) usleep(1000);
}
#endif

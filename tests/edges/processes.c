/* What the headers say of forks, signal handlers, cancelled threads and abandoned sessions. Link
 * both libraries, with -Wl,--wrap=malloc -Wl,--wrap=realloc. */
#include "asleep.h"
#include "hold.h"

#include "lrc_coder.h"

#include <signal.h>
#include <stdatomic.h>
#include <sys/wait.h>
#include <unistd.h>

#define FOX (const uint8_t *)"the quick brown fox"
enum { FOX_LEN = 19, UNTOUCHED = 77 };

/* A store with a blob, a session to call with, and one for the thread that stays in a call. */
struct shared {
    lrc_slot slot;
    struct hold hold;
};

static void prepare(struct shared *shared) {
    uint64_t version = 0;
    memset(shared, 0, sizeof *shared);
    EXPECT(lrc_store_open(4, 1000, &shared->slot), LRC_STORE_DONE);
    EXPECT(lrc_store_put(&shared->slot, NAME("fox"), FOX, FOX_LEN, 12, &version), LRC_STORE_DONE);
    EXPECT(lrc_store_split(&shared->slot, 1, &shared->hold.slot), LRC_STORE_DONE);
}

static void finish(struct shared *shared, uint64_t wanted_entries) {
    uint64_t entries = 0;
    uint32_t lawful = 0;
    EXPECT(lrc_store_join(&shared->slot, &shared->hold.slot), LRC_STORE_DONE);
    EXPECT(lrc_store_close(&shared->slot, &entries, &lawful), LRC_STORE_DONE);
    EXPECT(entries, wanted_entries);
    EXPECT(lawful, 1);
}

static uint32_t stat_fox(lrc_slot *slot, uint64_t *version, int64_t timeout) {
    uint64_t len, stripes, lost;
    return lrc_store_stat_wait(slot, NAME("fox"), version, &len, &stripes, &lost, timeout);
}

static uint32_t read_fox(lrc_slot *slot) {
    uint64_t version, lent, built;
    uint8_t got[FOX_LEN];
    uint32_t status =
        lrc_store_read_wait(slot, NAME("fox"), 0, got, FOX_LEN, &version, &lent, &built, -1);
    if (status == LRC_STORE_DONE) EXPECT(memcmp(got, FOX, FOX_LEN), 0);
    return status;
}

/* ---- A forked child */

/* The status with which a child ends, or 1000 and more if a signal ended it, as an alarm does that
 * hangs. */
static int status_of_child(pid_t child) {
    int status = 0;
    EXPECT(waitpid(child, &status, 0), child);
    return WIFEXITED(status) ? WEXITSTATUS(status) : 1000 + WTERMSIG(status);
}

/* Encodes and rebuilds, and says whether the result is right. */
static int coder_is_right(void) {
    uint8_t bytes[16] = {3, 1, 4, 1, 5, 9, 2, 6, 5, 3, 5, 8}, got = 0;
    const uint8_t *fragments[16];
    uint8_t *parities[4];
    for (unsigned i = 0; i < 16; i++) fragments[i] = &bytes[i];
    for (unsigned i = 0; i < 4; i++) parities[i] = &bytes[12 + i];
    if (lrc_encode_arrays(12, 1, fragments, parities) != LRC_DONE) return 0;
    fragments[5] = fragments[4] = NULL;
    return lrc_rebuild_arrays(12, 1, fragments, 5, &got) == LRC_DONE && got == 9;
}

static int is_text(const char *text, const char *wanted) { return strcmp(text, wanted) == 0; }

/* What may be called in a handler, and in the child of a process with more threads. */
static int allowed_is_right(void) {
    return is_text(lrc_store_text(99), "unknown status") &&
           is_text(lrc_coder_text(99), "unknown status") && strlen(lrc_store_cpu()) == 9 &&
           strlen(lrc_coder_cpu()) == 9 && coder_is_right();
}

/* A thread is in a call. In the child it is there for ever: a deadline ends each wait. */
static void fork_beside_a_call(long passes) {
    struct shared shared;
    pid_t child;
    uint64_t version = UNTOUCHED;
    prepare(&shared);
    hold_start(&shared.hold, passes, -1);
    child = fork();
    if (child == 0) {
        int64_t took = milliseconds();
        alarm(100);
        for (int64_t timeout = 0; timeout < 50; timeout += 24)
            if (stat_fox(&shared.slot, &version, timeout) != LRC_STORE_BUSY) _exit(2);
        took = milliseconds() - took;
        _exit(version != UNTOUCHED ? 3 : took < 72 || took > 60000 ? 4 : !allowed_is_right());
    }
    EXPECT(status_of_child(child), 0);
    hold_end(&shared.hold);
    EXPECT(stat_fox(&shared.slot, &version, 0), LRC_STORE_DONE);
    EXPECT(version, 1);
    finish(&shared, 3);
    puts("fork: beside a call the child gets LRC_STORE_BUSY by its deadlines, the parent goes on");
}

/* In the child of a process with one thread, each store is a copy of its own. */
static void fork_alone(void) {
    struct shared shared;
    pid_t child;
    uint64_t version = 0;
    prepare(&shared);
    child = fork();
    if (child == 0) {
        alarm(100);
        EXPECT(read_fox(&shared.slot), LRC_STORE_DONE);
        EXPECT(lrc_store_delete(&shared.slot, NAME("fox"), &version), LRC_STORE_DONE);
        finish(&shared, 3);
        _exit(wrong != 0);
    }
    EXPECT(status_of_child(child), 0);
    EXPECT(read_fox(&shared.slot), LRC_STORE_DONE);
    finish(&shared, 2);
    puts("fork: the child of one thread has a store of its own");
}

/* ---- Signals */

static atomic_long handled, wrong_in_handler;

static void handle(int signal) {
    (void)signal;
    handled++;
    if (!allowed_is_right()) wrong_in_handler++;
}

static void handle_signals(int flags) {
    struct sigaction action;
    memset(&action, 0, sizeof action);
    action.sa_handler = handle;
    action.sa_flags = flags;
    EXPECT(sigaction(SIGUSR1, &action, NULL), 0);
}

struct caller {
    lrc_slot slot;
    atomic_int *stop;
    atomic_long calls;
    long bad;
};

static void *make_calls(void *argument) {
    struct caller *caller = argument;
    uint64_t discarded = 0;
    while (!*caller->stop) {
        const uint32_t status = read_fox(&caller->slot);
        if (status == LRC_STORE_JOURNAL_FULL)
            lrc_store_trim_wait(&caller->slot, 0, &discarded, -1);
        else
            caller->bad += status != LRC_STORE_DONE;
        caller->bad += !coder_is_right();
        caller->calls++;
        pthread_testcancel();
    }
    return NULL;
}

/* Handlers that call what they may interrupt calls, which go on. */
static void handlers_beside_calls(void) {
    struct shared shared;
    atomic_int stop = 0;
    struct caller caller = {LRC_SLOT_EMPTY, &stop, 0, 0};
    pthread_t thread;
    prepare(&shared);
    handle_signals(0);
    EXPECT(lrc_store_split(&shared.slot, 2, &caller.slot), LRC_STORE_DONE);
    EXPECT(pthread_create(&thread, NULL, make_calls, &caller), 0);
    for (const int64_t end = milliseconds() + 20000;
         (milliseconds() < end && handled < 20000) || handled <= 100 || caller.calls <= 100;) {
        pthread_kill(thread, SIGUSR1);
        for (volatile int turn = 0; turn < 2000; turn++) continue;
    }
    stop = 1;
    EXPECT(pthread_join(thread, NULL), 0);
    EXPECT(caller.bad + wrong_in_handler, 0);
    EXPECT(lrc_store_join(&shared.slot, &caller.slot), LRC_STORE_DONE);
    EXPECT(lrc_store_join(&shared.slot, &shared.hold.slot), LRC_STORE_DONE);
    lrc_slot_release(&shared.slot);
    puts("signals: calls go on after handlers, which call the coder and ask for texts");
}

/* Signals that end a sleep early do not end a wait early. */
static void signals_beside_a_wait(long passes) {
    struct shared shared;
    const struct itimerspec often = {{0, 300000}, {0, 300000}};
    struct sigevent event;
    timer_t timer;
    uint64_t version = UNTOUCHED;
    int64_t took;
    memset(&event, 0, sizeof event);
    event.sigev_notify = SIGEV_SIGNAL;
    event.sigev_signo = SIGUSR1;
    prepare(&shared);
    handle_signals(0);
    EXPECT(timer_create(CLOCK_MONOTONIC, &event, &timer), 0);
    hold_start(&shared.hold, passes, -1);
    EXPECT(timer_settime(timer, 0, &often, NULL), 0);
    took = milliseconds();
    EXPECT(stat_fox(&shared.slot, &version, 60), LRC_STORE_BUSY);
    took = milliseconds() - took;
    EXPECT(timer_delete(timer), 0);
    EXPECT(took >= 60 && took < 60000, 1);
    EXPECT(version, UNTOUCHED);
    hold_end(&shared.hold);
    EXPECT(stat_fox(&shared.slot, &version, 0), LRC_STORE_DONE);
    finish(&shared, 3);
    puts("signals: a wait that is interrupted lasts until its deadline");
}

/* ---- Cancelled threads and abandoned sessions */

static void *wait_for_ever(void *argument) {
    uint64_t version = 0;
    stat_fox(argument, &version, -1);
    return NULL;
}

/* A thread is cancelled while it waits. Its session can be used and joined. */
static void cancel_a_wait(long passes) {
    struct shared shared;
    lrc_slot other = LRC_SLOT_EMPTY;
    pthread_t thread;
    void *result = NULL;
    uint64_t version = 0;
    prepare(&shared);
    EXPECT(lrc_store_split(&shared.slot, 2, &other), LRC_STORE_DONE);
    hold_start(&shared.hold, passes, -1);
    EXPECT(pthread_create(&thread, NULL, wait_for_ever, &other), 0);
    until_others_sleep();
    EXPECT(pthread_cancel(thread), 0);
    EXPECT(pthread_join(thread, &result), 0);
    EXPECT(result == PTHREAD_CANCELED, 1);
    hold_end(&shared.hold);
    EXPECT(stat_fox(&other, &version, 0), LRC_STORE_DONE);
    EXPECT(lrc_store_join(&shared.slot, &other), LRC_STORE_DONE);
    finish(&shared, 3);
    puts("cancel: the session of a thread that waited can be used and joined");
}

/* Threads are cancelled amid calls, wherever that is. Their sessions are whole. */
static void cancel_amid_calls(void) {
    struct shared shared;
    prepare(&shared);
    for (int64_t turn = 0; turn < 20; turn++) {
        atomic_int stop = 0;
        struct caller callers[2] = {{LRC_SLOT_EMPTY, &stop, 0, 0}, {LRC_SLOT_EMPTY, &stop, 0, 0}};
        pthread_t threads[2];
        for (unsigned i = 0; i < 2; i++) {
            EXPECT(lrc_store_split(&shared.slot, 2 + i, &callers[i].slot), LRC_STORE_DONE);
            EXPECT(pthread_create(&threads[i], NULL, make_calls, &callers[i]), 0);
        }
        sleep_ms(turn % 7);
        EXPECT(pthread_cancel(threads[0]), 0);
        EXPECT(pthread_join(threads[0], NULL), 0);
        sleep_ms(1);
        stop = 1;
        EXPECT(pthread_join(threads[1], NULL), 0);
        EXPECT(callers[0].bad + callers[1].bad, 0);
        for (unsigned i = 0; i < 2; i++)
            EXPECT(lrc_store_join(&shared.slot, &callers[i].slot), LRC_STORE_DONE);
    }
    EXPECT(lrc_store_join(&shared.slot, &shared.hold.slot), LRC_STORE_DONE);
    lrc_slot_release(&shared.slot);
    puts("cancel: 20 threads were cancelled amid calls, and their sessions joined");
}

/* A thread ends, and its session is released and not joined. Others go on, and the store cannot be
 * closed. Its place is gone. */
static void abandon_a_session(void) {
    struct shared shared;
    lrc_slot more[64];
    uint64_t entries = UNTOUCHED, version = 0;
    uint32_t lawful = UNTOUCHED, count = 0;
    prepare(&shared);
    memset(more, 0, sizeof more);
    EXPECT(read_fox(&shared.hold.slot), LRC_STORE_DONE);
    lrc_slot_release(&shared.hold.slot);
    EXPECT(stat_fox(&shared.slot, &version, 0), LRC_STORE_DONE);
    EXPECT(lrc_store_close(&shared.slot, &entries, &lawful), LRC_STORE_NOT_ALONE);
    EXPECT(entries + lawful, 2 * UNTOUCHED);
    while (count < 64 && !lrc_store_split(&shared.slot, 2, &more[count])) count++;
    EXPECT(count, 62);
    EXPECT(lrc_store_split(&shared.slot, 2, &more[62]), LRC_STORE_NO_PASS);
    EXPECT(read_fox(&more[61]), LRC_STORE_DONE);
    for (uint32_t i = 0; i < count; i++) lrc_slot_release(&more[i]);
    EXPECT(read_fox(&shared.slot), LRC_STORE_DONE);
    lrc_slot_release(&shared.slot);
    puts("abandoned: others go on, and the store cannot be closed");
}

int main(void) {
    const long passes = hold_passes();
    setvbuf(stdout, NULL, _IONBF, 0);
    fork_beside_a_call(passes);
    fork_alone();
    handlers_beside_calls();
    signals_beside_a_wait(passes);
    cancel_a_wait(passes);
    cancel_amid_calls();
    abandon_a_session();
    return report("processes");
}

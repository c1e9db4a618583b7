/* The checks of liblrc_store_checked.so. A report names the call, the argument and the rule of
 * lrc_store.h, prints the stack, and ends the program with the status 99. LRC_STORE_CHECK has
 * words: with `warn` the program goes on, and with `count` it prints at its end how many calls it
 * made. */
#define _GNU_SOURCE
#include "checks.h"
#include <dlfcn.h>
#include <errno.h>
#include <execinfo.h>
#include <pthread.h>
#include <search.h>
#include <stdarg.h>
#include <stdio.h>
#include <stdlib.h>
#include <string.h>
#include <sys/stat.h>
#include <sys/uio.h>
#include <unistd.h>

enum { ENDED = 99, DEPTH = 16, STACK_BYTES = 8 << 20 };

/* The rules, as lrc_store.h has them. */
#define ADDRESS "An address is not NULL, also at length 0, and is valid for its length."
#define OVERLAP "An output overlaps no other argument."
#define TWO_SLOTS "The two slots of a call are different ones."
#define CONTENT                                                                                    \
    "Initialise it with LRC_SLOT_EMPTY. Pass only its address, and never read, write or copy its " \
    "content."
#define ONE_THREAD "Only one thread at a time may use a slot."
#define HANDLER                                                                                    \
    "A signal handler may call lrc_store_text and lrc_store_cpu, and nothing else of this file"
#define CHILD                                                                                      \
    "If the process had more threads, the child may call lrc_store_text and lrc_store_cpu only"
#define LOAN "Lends a session to the calling thread until lrc_pool_give."
#define TURN "Each takes a session, makes its calls on it, and gives it back."
#define RELEASE "Empties the slot, whatever it holds."

/* What a slot holds: where it is, and the call that put it there. */
struct thing {
    const void *at;
    const lrc_slot *slot; /* in which it was seen last */
    const char *filled_by;
    void *stack[DEPTH];
    int depth;
};

/* A session that a pool has lent, or that was given back to it. */
struct session {
    const lrc_slot *slot;
    const lrc_pool *pool;
    int is_lent;
    struct session *next;
};

static pthread_mutex_t mutex = PTHREAD_MUTEX_INITIALIZER;
static void *things; /* a tree of those that no call has in hand */
static struct session *sessions;
static struct call *running;
static _Thread_local struct call *inside; /* the call that this thread makes */
static unsigned long calls, reports;
static int goes_on, counts, is_cut_off;
static nlink_t threads; /* when the process forked */

/* Prints a stack without the first frames, which are of this library. */
static void print_stack(void *const *stack, int depth) {
    Dl_info own, frame;
    dladdr((const void *)&mutex, &own);
    while (depth && dladdr(*stack, &frame) && frame.dli_fbase == own.dli_fbase) stack++, depth--;
    backtrace_symbols_fd(stack, depth, STDERR_FILENO);
}

/* Neither allocates nor locks, as a signal handler may be the caller. */
static __attribute__((format(printf, 4, 5))) void
report(const char *function, const char *argument, const char *rule, const char *format, ...) {
    char what[200];
    void *stack[DEPTH];
    va_list values;
    va_start(values, format);
    vsnprintf(what, sizeof what, format, values);
    va_end(values);
    dprintf(STDERR_FILENO, "lrc_store_checked: %s%s%s %s\n    lrc_store.h: \"%s\"\n", function,
            argument ? ": " : "", argument ? argument : "", what, rule);
    print_stack(stack, backtrace(stack, DEPTH));
    __atomic_add_fetch(&reports, 1, __ATOMIC_RELAXED);
    if (!goes_on) _exit(ENDED);
}

void *lrc_checked_real(void **cache, const char *function) {
    void *real = __atomic_load_n(cache, __ATOMIC_RELAXED);
    if (real) return real;
    real = dlsym(RTLD_NEXT, function);
    if (!real) {
        dprintf(STDERR_FILENO, "lrc_store_checked: no liblrc_store has %s\n", function);
        _exit(ENDED);
    }
    __atomic_store_n(cache, real, __ATOMIC_RELAXED);
    return real;
}

/* ---- Addresses. */

void lrc_checked_address(struct call *call, const void *at, size_t len, int is_output,
                         const char *argument) {
    if (call->is_left_out) return;
    if (!at) {
        report(call->function, argument, ADDRESS, "is NULL");
        call->is_left_out = 1;
        return;
    }
    call->address[call->addresses++] = (struct address){at, len, is_output, argument};
}

void lrc_checked_slot(struct call *call, lrc_slot *slot, const char *argument) {
    lrc_checked_address(call, slot, sizeof *slot, OUTPUT, argument);
    call->slot[call->slots] = slot;
    call->argument[call->slots++] = argument;
}

/* The argument whose first or last byte can't be read, or NULL. The kernel reads these bytes, so
 * that nothing faults. If it may not, the bytes count as readable. */
static const struct address *unreadable(const struct call *call) {
    char bytes[2 * MOST_ADDRESSES];
    struct iovec here = {bytes, sizeof bytes}, there[2 * MOST_ADDRESSES];
    const struct address *of[2 * MOST_ADDRESSES];
    unsigned long count = 0;
    for (int i = 0; i < call->addresses; i++) {
        const struct address *it = &call->address[i];
        for (size_t end = 0; end < 2 && it->len; end++, count++) {
            there[count] = (struct iovec){(char *)it->at + (end ? it->len - 1 : 0), 1};
            of[count] = it;
        }
    }
    const int saved_errno = errno;
    ssize_t got = process_vm_readv(getpid(), &here, 1, there, count, 0);
    if (got < 0) got = errno == EFAULT ? 0 : (ssize_t)count;
    errno = saved_errno;
    return got < (ssize_t)count ? of[got] : NULL;
}

static void check_overlap(const struct call *call) {
    for (int i = 0; i < call->addresses; i++)
        for (int j = 0; j < call->addresses; j++) {
            const struct address *it = &call->address[i], *other = &call->address[j];
            if (i == j || !it->is_output || !it->len || !other->len) continue;
            if (it->at >= other->at + other->len || other->at >= it->at + it->len) continue;
            report(call->function, it->argument, OVERLAP, "overlaps %s", other->argument);
            return;
        }
}

static void check_addresses(struct call *call) {
    const struct address *wrong = unreadable(call);
    if (wrong) {
        report(call->function, wrong->argument, ADDRESS,
               "has %zu bytes at %p, not all of them mapped", wrong->len, (const void *)wrong->at);
        call->is_left_out = 1;
    } else if (call->slots == 2 && call->slot[0] == call->slot[1]) {
        report(call->function, call->argument[1], TWO_SLOTS, "is the same slot as %s",
               call->argument[0]);
        call->slots = 1;
    } else {
        check_overlap(call);
    }
}

/* ---- Slots. The mutex is locked. */

static int by_place(const void *one, const void *other) {
    const char *first = ((const struct thing *)one)->at,
               *second = ((const struct thing *)other)->at;
    return (first > second) - (first < second);
}

static void keep(struct thing *thing) {
    struct thing **node = tsearch(thing, &things, by_place);
    if (!node || *node == thing) return;
    free(*node); /* its memory was freed and allocated anew */
    *node = thing;
}

/* The thing at a place, which nobody keeps afterwards, or NULL. */
static struct thing *take_out(const void *at) {
    const struct thing wanted = {.at = at};
    struct thing **node = tfind(&wanted, &things, by_place);
    struct thing *found = node ? *node : NULL;
    if (found) tdelete(found, &things, by_place);
    return found;
}

static struct thing *made(const struct call *call) {
    struct thing *thing = calloc(1, sizeof *thing);
    if (!thing) abort();
    thing->filled_by = call->function;
    thing->depth = backtrace(thing->stack, DEPTH);
    return thing;
}

static struct session *session_in(const lrc_slot *slot) {
    for (struct session *it = sessions; it; it = it->next)
        if (it->slot == slot) return it;
    return NULL;
}

/* The call of another thread that has the slot, or what a copy of it holds, or NULL. */
static const struct call *user_of(const lrc_slot *slot) {
    for (const struct call *it = running; it; it = it->next)
        for (int i = 0; i < it->slots; i++) {
            if (it->slot[i] == slot) return it;
            if (it->held[i] && it->held[i]->at == slot->at) return it;
        }
    return NULL;
}

/* Takes what a slot holds in hand for a call. */
static void hold(struct call *call, int i) {
    lrc_slot *slot = call->slot[i];
    const struct call *user = user_of(slot);
    const struct session *session = session_in(slot);
    if (user) {
        report(call->function, call->argument[i], ONE_THREAD, "is in use by %s of thread %d",
               user->function, user->thread);
        call->slot[i] = NULL; /* it is left to that one */
    } else if (session && !session->is_lent) {
        report(call->function, call->argument[i], LOAN, "was given back to its pool");
    } else if (slot->at) {
        call->held[i] = take_out(slot->at);
        if (!call->held[i])
            report(call->function, call->argument[i], CONTENT,
                   "was not initialised, was overwritten, or is a copy of a slot used since");
    }
}

/* Keeps what a slot holds after a call. */
static void put_down(struct call *call, int i) {
    lrc_slot *slot = call->slot[i];
    struct thing *thing = call->held[i];
    const struct session *session = slot ? session_in(slot) : NULL;
    if (slot && slot->at) {
        thing = thing ? thing : made(call);
        thing->at = slot->at;
        thing->slot = slot;
        keep(thing);
        return;
    }
    free(thing);
    if (thing && session && session->is_lent)
        report(call->function, call->argument[i], LOAN, "was emptied while its pool lends it");
}

/* ---- Calls. */

void lrc_checked_enter(struct call *call) {
    call->is_left_out = inside || is_cut_off;
    if (inside)
        report(call->function, NULL, HANDLER, "is called by a signal handler inside %s",
               inside->function);
    else if (is_cut_off)
        report(call->function, NULL, CHILD, "is called in the child of a process with threads");
    if (call->is_left_out) return;
    inside = call;
    call->thread = gettid();
    __atomic_add_fetch(&calls, 1, __ATOMIC_RELAXED);
}

void lrc_checked_begin(struct call *call) {
    if (!call->is_left_out) check_addresses(call);
    if (call->is_left_out) return;
    pthread_mutex_lock(&mutex);
    for (int i = 0; i < call->slots; i++) hold(call, i);
    call->next = running;
    running = call;
    pthread_mutex_unlock(&mutex);
}

void lrc_checked_end(struct call *call) {
    if (!call->is_left_out) {
        pthread_mutex_lock(&mutex);
        for (struct call **it = &running; *it; it = &(*it)->next)
            if (*it == call) {
                *it = call->next;
                break;
            }
        for (int i = 0; i < call->slots; i++) put_down(call, i);
        pthread_mutex_unlock(&mutex);
    }
    if (inside == call) inside = NULL;
}

/* ---- Sessions of pools. */

void lrc_checked_lent(struct call *call, const lrc_pool *pool, lrc_slot *slot) {
    if (call->is_left_out) return;
    pthread_mutex_lock(&mutex);
    struct session *session = session_in(slot);
    if (!session) {
        session = calloc(1, sizeof *session);
        if (!session) abort();
        session->next = sessions;
        sessions = session;
    }
    *session = (struct session){slot, pool, 1, session->next};
    struct thing *thing = made(call);
    thing->at = slot->at;
    thing->slot = slot;
    keep(thing);
    pthread_mutex_unlock(&mutex);
}

void lrc_checked_given(struct call *call, const lrc_pool *pool, lrc_slot *slot) {
    if (call->is_left_out) return;
    pthread_mutex_lock(&mutex);
    struct session *session = session_in(slot);
    const struct call *user = user_of(slot);
    if (user)
        report(call->function, "session", ONE_THREAD, "is in use by %s of thread %d",
               user->function, user->thread);
    else if (!session)
        report(call->function, "session", TURN, "is of no pool");
    else if (!session->is_lent)
        report(call->function, "session", TURN, "was given back before");
    else if (session->pool != pool)
        report(call->function, "session", TURN, "is of another pool");
    else
        free(take_out(slot->at));
    if (session) session->is_lent = 0;
    pthread_mutex_unlock(&mutex);
}

void lrc_checked_forget(struct call *call, const lrc_pool *pool) {
    if (call->is_left_out) return;
    pthread_mutex_lock(&mutex);
    for (struct session **at = &sessions; *at;) {
        struct session *it = *at;
        if (it->is_lent || (pool && it->pool != pool)) {
            at = &it->next;
        } else {
            *at = it->next;
            free(it);
        }
    }
    pthread_mutex_unlock(&mutex);
}

/* ---- The beginning and the end of the program, and forks. */

/* How many threads the process has, and two. A thread that was joined may count a moment longer. */
static nlink_t threads_and_two(void) {
    struct stat task = {.st_nlink = 3};
    for (int i = 0; i < 20; i++) {
        if (stat("/proc/self/task", &task) || task.st_nlink <= 3) break;
        usleep(1000);
    }
    return task.st_nlink;
}

static void before_fork(void) { threads = threads_and_two(); }

static void in_child(void) {
    is_cut_off = is_cut_off || threads > 3;
    mutex = (pthread_mutex_t)PTHREAD_MUTEX_INITIALIZER;
}

__attribute__((constructor)) static void at_start(void) {
    const char *words = getenv("LRC_STORE_CHECK");
    void *stack[1];
    goes_on = words && strstr(words, "warn");
    counts = words && strstr(words, "count");
    backtrace(stack, 1); /* the first time it allocates */
    pthread_atfork(before_fork, NULL, in_child);
}

/* Whether its slot still holds a thing. A slot below the stack of the main thread is gone. */
static int is_held(const struct thing *thing) {
    const char *slot = (const char *)thing->slot, *here = (const char *)&thing;
    const void *now = NULL;
    struct iovec to = {&now, sizeof now}, from = {(void *)thing->slot, sizeof now};
    if (getpid() == gettid() && slot < here && here - slot < STACK_BYTES) return 0;
    return process_vm_readv(getpid(), &to, 1, &from, 1, 0) < 0 ? errno != EFAULT : now == thing->at;
}

static void check_leak(const void *node, VISIT visit, int level) {
    const struct thing *thing = *(struct thing *const *)node;
    (void)level;
    if ((visit != postorder && visit != leaf) || is_held(thing)) return;
    dprintf(STDERR_FILENO,
            "lrc_store_checked: lrc_slot_release was not called for what %s left in a slot\n"
            "    lrc_store.h: \"%s\"\n",
            thing->filled_by, RELEASE);
    print_stack(thing->stack, thing->depth);
    reports++;
}

__attribute__((destructor)) static void at_end(void) {
    pthread_mutex_lock(&mutex);
    const unsigned long before = reports;
    twalk(things, check_leak);
    if (counts)
        dprintf(STDERR_FILENO, "lrc_store_checked: %lu calls, %lu reports\n", calls, reports);
    pthread_mutex_unlock(&mutex);
    if (reports == before || goes_on) return;
    fflush(NULL);
    _exit(ENDED);
}

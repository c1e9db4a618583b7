// For tests, loaded before the C library: the request for memory of number REFUSE is refused,
// counted from 1 over malloc, calloc and realloc, and the thread of number REFUSE_THREAD is not
// started. The file REFUSED is made when either happens: it has "start" if that was in a call that
// starts a thread, and else "main" or "worker" for the thread that asked. Each thread that is
// started adds a byte to the file STARTED.
#define _GNU_SOURCE
#include <dlfcn.h>
#include <errno.h>
#include <fcntl.h>
#include <pthread.h>
#include <stdatomic.h>
#include <stdlib.h>
#include <string.h>
#include <unistd.h>

// A thing that is counted, and which of them is refused: 0 for none, and -1 as long as nobody has
// asked.
struct counted {
    const char *variable;
    atomic_long count, wanted;
};

static struct counted memory = {"REFUSE", 0, -1}, threads = {"REFUSE_THREAD", 0, -1};

// Whether this thread is starting another.
static _Thread_local int is_starting;

// The file that a variable names, made if it is not there.
static int open_named(const char *variable) {
    const char *path = getenv(variable);
    return path ? open(path, O_CREAT | O_APPEND | O_WRONLY, 0600) : -1;
}

static int refused(struct counted *it) {
    if (it->wanted < 0) {
        const char *number = getenv(it->variable);
        it->wanted = number ? atol(number) : 0;
    }
    if (atomic_fetch_add(&it->count, 1) + 1 != it->wanted) {
        return 0;
    }
    const char *where = is_starting ? "start" : gettid() == getpid() ? "main" : "worker";
    int file = open_named("REFUSED");
    if (file >= 0) {
        if (write(file, where, strlen(where)) < 0) {
            abort();
        }
        close(file);
    }
    return 1;
}

extern void *__libc_malloc(size_t);
extern void *__libc_calloc(size_t, size_t);
extern void *__libc_realloc(void *, size_t);

static void *no_memory(void) {
    errno = ENOMEM;
    return NULL;
}

void *malloc(size_t size) { return refused(&memory) ? no_memory() : __libc_malloc(size); }
void *calloc(size_t n, size_t size) {
    return refused(&memory) ? no_memory() : __libc_calloc(n, size);
}
void *realloc(void *old, size_t size) {
    return refused(&memory) ? no_memory() : __libc_realloc(old, size);
}

int pthread_create(pthread_t *thread, const pthread_attr_t *attributes, void *(*start)(void *),
                   void *argument) {
    static int (*_Atomic create)(pthread_t *, const pthread_attr_t *, void *(*)(void *), void *);
    if (!create) {
        create = dlsym(RTLD_NEXT, "pthread_create");
    }
    is_starting = 1;
    int is_refused = refused(&threads) || !create;
    int status = is_refused ? EAGAIN : create(thread, attributes, start, argument);
    is_starting = 0;
    int file = status == 0 ? open_named("STARTED") : -1;
    if (file >= 0) {
        if (write(file, "t", 1) != 1) {
            abort();
        }
        close(file);
    }
    return status;
}

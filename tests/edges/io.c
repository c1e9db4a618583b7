/* For tests, loaded before the C library: a read, or a write to standard output, fails or is short.
 * FAULT_CALL is `read` or `write`. FAULT is an error's number, or 0 for a call that takes one byte,
 * or -1 for a write that takes none. FAULT_AT is the number of the call, from 1, or 0 for every
 * second call from the first on, or -1 for each. The file FAULT_SEEN is made when it happens. */
#define _GNU_SOURCE
#include <dlfcn.h>
#include <errno.h>
#include <fcntl.h>
#include <stdatomic.h>
#include <stdlib.h>
#include <string.h>
#include <unistd.h>

static long number(const char *variable) {
    const char *text = getenv(variable);
    return text ? atol(text) : 0;
}

/* Whether the fault is at this call. */
static int is_hit(const char *call) {
    static atomic_long calls;
    const char *wanted = getenv("FAULT_CALL"), *seen = getenv("FAULT_SEEN");
    const long at = number("FAULT_AT");
    int file;
    if (!wanted || strcmp(wanted, call) != 0) return 0;
    calls++;
    if (at > 0 && calls != at) return 0;
    if (at == 0 && calls % 2 == 0) return 0;
    file = seen ? open(seen, O_CREAT | O_WRONLY, 0600) : -1;
    if (file >= 0) close(file);
    return 1;
}

ssize_t read(int file, void *target, size_t len) {
    ssize_t (*real)(int, void *, size_t) =
        (ssize_t(*)(int, void *, size_t))dlsym(RTLD_NEXT, "read");
    if (!is_hit("read")) return real(file, target, len);
    if (number("FAULT") == 0) return real(file, target, len ? 1 : 0);
    errno = (int)number("FAULT");
    return -1;
}

ssize_t write(int file, const void *source, size_t len) {
    ssize_t (*real)(int, const void *, size_t) =
        (ssize_t(*)(int, const void *, size_t))dlsym(RTLD_NEXT, "write");
    if (file != 1 || !is_hit("write")) return real(file, source, len);
    if (number("FAULT") == 0) return real(file, source, len ? 1 : 0);
    if (number("FAULT") < 0) return 0;
    errno = (int)number("FAULT");
    return -1;
}

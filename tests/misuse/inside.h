/* Does something once while the thread is inside a call: at its first allocation. */
#ifndef INSIDE_H
#define INSIDE_H
#include "misuse.h"
#include <pthread.h>

void *__libc_malloc(size_t size);

static _Thread_local void (*at_malloc)(void);

/* The program's malloc stands before that of the C library. */
void *malloc(size_t size) {
    void (*todo)(void) = at_malloc;
    at_malloc = NULL;
    if (todo) todo();
    return __libc_malloc(size);
}
#endif

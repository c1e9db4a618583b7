/* What the wrappers of liblrc_store_checked.so call: tools/checked_library.py writes one for each
 * function of lrc_store.h that takes an address. A wrapper names the arguments, begins the call,
 * makes it, and ends it when it leaves its block, also if the thread is cancelled there. */
#ifndef LRC_CHECKS_H
#define LRC_CHECKS_H

#include "lrc_store.h"

enum { MOST_ADDRESSES = 8, MOST_SLOTS = 2 };

/* Whether a call reads what is at an address, or writes it. */
enum { INPUT = 0, OUTPUT = 1 };

struct address {
    const char *at;
    size_t len;
    int is_output;
    const char *argument;
};

struct thing; /* what a slot holds */

/* A call that a thread makes. */
struct call {
    const char *function;
    struct call *next;
    int thread, is_left_out;
    int addresses, slots;
    struct address address[MOST_ADDRESSES];
    lrc_slot *slot[MOST_SLOTS];
    const char *argument[MOST_SLOTS];
    struct thing *held[MOST_SLOTS];
};

/* The store's function of this name, which is looked for once and then kept. */
void *lrc_checked_real(void **cache, const char *function);

void lrc_checked_enter(struct call *call);
void lrc_checked_address(struct call *call, const void *at, size_t len, int is_output,
                         const char *argument);
void lrc_checked_slot(struct call *call, lrc_slot *slot, const char *argument);
void lrc_checked_begin(struct call *call);
void lrc_checked_end(struct call *call);

/* A pool has lent a session; it is given back; and those given back to a pool, or to any, are
 * forgotten. */
void lrc_checked_lent(struct call *call, const lrc_pool *pool, lrc_slot *session);
void lrc_checked_given(struct call *call, const lrc_pool *pool, lrc_slot *session);
void lrc_checked_forget(struct call *call, const lrc_pool *pool);

#define CALL(of)                                                                                   \
    static void *cache;                                                                            \
    struct call call __attribute__((cleanup(lrc_checked_end))) = {.function = #of};                \
    __typeof__(&of) real = (__typeof__(&of))(uintptr_t)lrc_checked_real(&cache, #of);              \
    lrc_checked_enter(&call)

#endif

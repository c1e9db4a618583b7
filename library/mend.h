/* What the two ways to mend have in common. */
#ifndef MEND_H
#define MEND_H
#include "lrc_store.h"

/* How many items are planned at once, between which other threads call. */
enum { PLANNED_AT_ONCE = 512 };

/* Whether a mend goes on to its next fragment: this one is repaired, or cannot be. */
static inline int is_past(uint32_t status) {
    return status == LRC_STORE_DONE || status == LRC_STORE_NO_NAME ||
           status == LRC_STORE_NO_FRAGMENT || status == LRC_STORE_NOT_LOST ||
           status == LRC_STORE_UNRECOVERABLE;
}

#endif

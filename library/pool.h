/* What a store of several shards asks of a pool, beside include/lrc_store.h. */
#ifndef POOL_H
#define POOL_H
#include "lrc_store.h"

/* Whether a session of the pool is lent. */
int pool_is_busy(lrc_pool *pool);

#endif

/* What the statuses of lrc_store.h mean. */
#include "lrc_store.h"

static const char *const texts[] = {
    [LRC_STORE_DONE] = "done",
    [LRC_STORE_BUSY] = "another thread is in the critical section: call again",
    [LRC_STORE_NO_NAME] = "the name has no blob",
    [LRC_STORE_OUT_OF_RANGE] = "the range does not lie inside the blob",
    [LRC_STORE_UNRECOVERABLE] = "the remaining fragments do not determine it",
    [LRC_STORE_NO_FRAGMENT] = "the blob has no such stripe or fragment",
    [LRC_STORE_ALREADY_LOST] = "the fragment was lost before",
    [LRC_STORE_NOT_LOST] = "the fragment is not lost",
    [LRC_STORE_NO_MEMORY] = "out of memory",
    [LRC_STORE_JOURNAL_FULL] = "the journal is full: trim it",
    [LRC_STORE_TOO_LONG] = "the blob needs more than 4,096 stripes",
    [LRC_STORE_BAD_NAME] = "a name has 1 to 32 bytes of a-z, 0-9, '.', '_' and '-'",
    [LRC_STORE_BAD_WIDTH] = "the width is not in 1 to 65,536",
    [LRC_STORE_NO_PASS] = "no further session can be split off this one",
    [LRC_STORE_EMPTY] = "the slot lacks what the call needs: it was closed, joined or released, "
                        "or is in use",
    [LRC_STORE_OCCUPIED] = "the slot to be filled is not empty",
    [LRC_STORE_BAD_ARGUMENT] = "the limit is not in 1 to 1,048,576, the shards are not 1 to 64, "
                               "the data fragments are not 12 or 6, the slots are of two stores, "
                               "the bytes are not as many as a fragment has, or the name is of "
                               "another shard",
    [LRC_STORE_NOT_ALONE] = "the store has other sessions: join them first",
    [LRC_STORE_NOT_REBUILT] = "out of memory for rebuilding lost fragments",
    [LRC_STORE_NOTHING_LEFT] = "the plan has no further item, the journal no such entry, or the "
                               "store no such shard",
    [LRC_STORE_REPLACED] = "the name has another version than the one to restore",
};

const char *lrc_store_text(uint32_t status) {
    return status < sizeof texts / sizeof *texts ? texts[status] : "unknown status";
}

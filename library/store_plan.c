/* What lrc_store_plan_part refuses before the proved function plans: a part of no item. A caller
 * could take it for one that others follow, and so ask again for ever. */
#include "lrc_store.h"

/* The proved function, of which tools/libraries.py changes the name. */
uint32_t lrc_store_plan_part_of_any(lrc_slot *slot, lrc_slot *other, uint64_t most,
                                    uint64_t *items);

uint32_t lrc_store_plan_part(lrc_slot *slot, lrc_slot *other, uint64_t most, uint64_t *items) {
    if (most == 0) return LRC_STORE_BAD_ARGUMENT;
    return lrc_store_plan_part_of_any(slot, other, most, items);
}

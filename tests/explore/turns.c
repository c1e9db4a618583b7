/* library/store_wait.c as it is, and what a scenario asks of its table of turns. */
#include "store_wait.c"

#include "turns.h"

/* These read the table while no thread goes on, and so pass by races.c. */
#define ASIDE __attribute__((no_sanitize("thread")))

ASIDE static uint64_t store_of(const struct turn *turn) {
    uint64_t store;
    memcpy(&store, (const void *)&turn->store, sizeof store);
    return store;
}

ASIDE void set_turns_of(uint64_t number, int are_taken) {
    const uint64_t store = are_taken ? 1 : 0;
    for (unsigned place = 0; place < PLACES; place++) {
        struct turn *turn = place_of(mark_of_number(number), place);
        pthread_mutex_init(&turn->mutex, NULL);
        memcpy((void *)&turn->store, &store, sizeof store);
    }
}

ASIDE int share_a_turn(uint64_t one, uint64_t other) {
    return place_of(mark_of_number(one), 0) == place_of(mark_of_number(other), 0);
}

ASIDE int turns_of(uint64_t number) {
    const uint64_t mark = mark_of_number(number);
    int count = 0;
    for (unsigned place = 0; place < PLACES; place++) {
        const uint64_t store = store_of(place_of(mark, place));
        count += users_of(store) && mark_of(store) == mark;
    }
    return count;
}

ASIDE uint64_t counts_of_turns(void) {
    uint64_t counts = 0;
    for (unsigned i = 0; i < TURNS; i++)
        counts += store_of(&turns[i]) - mark_of(store_of(&turns[i]));
    return counts;
}

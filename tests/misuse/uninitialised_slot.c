/* A slot is filled that was not initialised. */
#include "misuse.h"

static __attribute__((noinline)) void leave_bytes(void) {
    volatile char bytes[4096];
    for (int i = 0; i < 4096; i++) bytes[i] = 0x55;
}

static __attribute__((noinline)) uint32_t open_one(void) {
    lrc_slot slot;
    return lrc_store_open_unjournaled(4, &slot);
}

int main(void) {
    leave_bytes();
    EXPECT(open_one(), LRC_STORE_OCCUPIED);
    return report("misuse");
}

#include "lrc_coder.h"
#include <stdio.h>

int main(void) {
    uint8_t text[] = "HELLO, FRAGMENTS OF DATA", parity[8], rebuilt[4];
    uint8_t *parities[4] = {parity, parity + 2, parity + 4, parity + 6};
    const uint8_t *left[16];
    for (int i = 0; i < 16; i++) left[i] = i < 12 ? text + 2 * i : parities[i - 12];
    if (lrc_encode_arrays(12, 2, left, parities) != LRC_DONE) return 1;
    left[0] = left[1] = NULL; /* two fragments are lost */
    if (lrc_rebuild_arrays(12, 2, left, 0, rebuilt) != LRC_DONE ||
        lrc_rebuild_arrays(12, 2, left, 1, rebuilt + 2) != LRC_DONE)
        return 1;
    return printf("%.4s\n", (const char *)rebuilt) < 0;
}

/* Each status of either library has a text of its own, and no other number has one. */
#include "lrc_coder.h"
#include "lrc_store.h"

#include <stdio.h>
#include <string.h>

#define UNKNOWN "unknown status"

/* The texts of the statuses below `count` that are unknown, too short, or those of another. */
static int wrong_texts(const char *(*text)(uint32_t), uint32_t count) {
    int wrong = strcmp(text(count), UNKNOWN) != 0 || strcmp(text(UINT32_MAX), UNKNOWN) != 0;
    uint32_t i, j;
    for (i = 0; i < count; i++) {
        wrong += strcmp(text(i), UNKNOWN) == 0 || strlen(text(i)) < 4;
        wrong += text(i)[strlen(text(i)) - 1] == '.';
        for (j = 0; j < i; j++) wrong += strcmp(text(i), text(j)) == 0;
    }
    return wrong;
}

int main(void) {
    const int wrong = wrong_texts(lrc_coder_text, LRC_BAD_ARGUMENT + 1) +
                      wrong_texts(lrc_store_text, LRC_STORE_REPLACED + 1);
    const int other = strcmp(lrc_coder_text(LRC_DONE), "done") != 0 ||
                      strcmp(lrc_store_text(LRC_STORE_DONE), "done") != 0 ||
                      strcmp(lrc_store_text(LRC_STORE_NO_NAME), "the name has no blob") != 0 ||
                      LRC_UNRECOVERABLE != LRC_OPEN ||
                      lrc_is_unrecoverable(12, 0x3f, 0) != lrc_is_open(12, 0x3f, 0) ||
                      lrc_is_unrecoverable(12, 1, 0) != LRC_DONE;
    printf("texts: %d wrong\n", wrong + other);
    return wrong + other != 0;
}

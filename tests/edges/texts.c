/* The text of each status of both headers says the same as its name. Link both libraries.
 * tests/library/texts.c tests that they differ, and that no other number has one. */
#include "lrc_coder.h"
#include "store_test.h"

/* What the text of each status of lrc_store.h has, in the order of the numbers. */
static const char *const STORE[] = {"done",
                                    "critical section",
                                    "no blob",
                                    "range",
                                    "do not determine",
                                    "no such",
                                    "lost before",
                                    "not lost",
                                    "memory",
                                    "journal is full",
                                    "4,096",
                                    "1 to 32 bytes",
                                    "65,536",
                                    "split",
                                    "slot lacks",
                                    "not empty",
                                    "1,048,576, the shards are not 1 to 64",
                                    "other sess",
                                    "rebuilding",
                                    "no such shard",
                                    "another version"};
static const char *const CODER[] = {"done", "unrecoverable", "argument"};

static void texts(const char *(*text_of)(uint32_t), const char *const *parts, uint32_t count) {
    for (uint32_t status = 0; status < count; status++) {
        const char *text = text_of(status);
        if (text && strstr(text, parts[status])) continue;
        fprintf(stderr, "%u is \"%s\", without \"%s\"\n", status, text ? text : "NULL",
                parts[status]);
        wrong++;
    }
}

int main(void) {
    EXPECT(sizeof STORE / sizeof *STORE, LRC_STORE_REPLACED + 1);
    texts(lrc_store_text, STORE, LRC_STORE_REPLACED + 1);
    texts(lrc_coder_text, CODER, LRC_BAD_ARGUMENT + 1);
    return report("texts");
}

/* The backend under the installed liberasurecode: every set of at most four lost fragments of
 * LRC(12,2,2). */
#include "lrc_backend.h"

#include <stdio.h>
#include <stdlib.h>
#include <string.h>

enum { FRAGMENTS = 16 };

static int failures;

#define CHECK(fact)                                                                                \
    do {                                                                                           \
        if (!(fact)) {                                                                             \
            printf("line %d: not so: %s\n", __LINE__, #fact);                                      \
            failures++;                                                                            \
        }                                                                                          \
    } while (0)

static char object[100000];

static void test_decode(int desc, char **fragments, uint64_t len) {
    long sets = 0, right = 0, wrong = 0, refused = 0;
    for (unsigned lost = 0; lost < 1u << FRAGMENTS; lost++) {
        char *left[FRAGMENTS], *decoded;
        uint64_t decoded_len;
        int count = 0, result;
        if (__builtin_popcount(lost) > 4) continue;
        for (int i = 0; i < FRAGMENTS; i++)
            if (!(lost >> i & 1)) left[count++] = fragments[i];
        result = liberasurecode_decode(desc, left, count, len, 0, &decoded, &decoded_len);
        sets++;
        if (result == 0) {
            int is_right =
                decoded_len == sizeof object && memcmp(decoded, object, sizeof object) == 0;
            right += is_right;
            wrong += !is_right;
            CHECK(liberasurecode_decode_cleanup(desc, decoded) == 0);
        } else {
            CHECK(result == -EINSUFFFRAGS);
            refused++;
        }
    }
    CHECK(sets == 2517 && right == 2265 && wrong == 0 && refused == 252);
    printf("liberasurecode: %ld sets of at most four lost, %ld decoded right, %ld wrong, %ld "
           "refused\n",
           sets, right, wrong, refused);
}

static void test_reconstruct(int desc, char **fragments, uint64_t len) {
    char *rebuilt = malloc(len);
    for (int lost = 0; rebuilt && lost < FRAGMENTS; lost++) {
        char *left[FRAGMENTS];
        int missing[] = {lost, -1}, none[] = {-1}, needed[FRAGMENTS + 1], count = 0;
        for (int i = 0; i < FRAGMENTS; i++)
            if (i != lost) left[count++] = fragments[i];
        CHECK(liberasurecode_reconstruct_fragment(desc, left, count, len, lost, rebuilt) == 0);
        CHECK(memcmp(rebuilt, fragments[lost], len) == 0);
        CHECK(liberasurecode_fragments_needed(desc, missing, none, needed) == 0);
        for (count = 0; needed[count] >= 0; count++) left[count] = fragments[needed[count]];
        CHECK(count == (lost < 14 ? 6 : 12));
        /* liberasurecode itself refuses to rebuild while more than four are missing */
        if (lost < 14)
            CHECK(liberasurecode_reconstruct_fragment(desc, left, count, len, lost, rebuilt) ==
                  -EINSUFFFRAGS);
    }
    free(rebuilt);
    puts("liberasurecode: each fragment reconstructed from the others, header and all; six or "
         "twelve are needed");
}

/* Whether a fragment is reconstructed if these are lost. */
static int is_reconstructed(int desc, char **fragments, int total, uint64_t len, unsigned lost,
                            int wanted) {
    char *left[FRAGMENTS], *rebuilt = calloc(1, len);
    int count = 0, is_right;
    for (int i = 0; i < total; i++)
        if (!(lost >> i & 1)) left[count++] = fragments[i];
    is_right = rebuilt &&
               liberasurecode_reconstruct_fragment(desc, left, count, len, wanted, rebuilt) == 0 &&
               memcmp(rebuilt, fragments[wanted], len) == 0;
    free(rebuilt);
    return is_right;
}

/* The plan that a thread keeps serves its own code, lost set and fragments alone. */
static void test_kept_plan(int desc, char **fragments, uint64_t len) {
    int small = lrc_backend_create(6, CHKSUM_CRC32);
    char **data, **parity, *others[10];
    uint64_t other_len;
    CHECK(small > 0);
    if (small <= 0 ||
        liberasurecode_encode(small, object, sizeof object, &data, &parity, &other_len) != 0)
        return;
    for (int i = 0; i < 10; i++) others[i] = i < 6 ? data[i] : parity[i - 6];
    CHECK(is_reconstructed(desc, fragments, FRAGMENTS, len, 1, 0));
    CHECK(is_reconstructed(desc, fragments, FRAGMENTS, len, 3, 0));
    CHECK(is_reconstructed(desc, fragments, FRAGMENTS, len, 3, 1));
    CHECK(is_reconstructed(small, others, 10, other_len, 3, 1));
    CHECK(is_reconstructed(desc, fragments, FRAGMENTS, len, 3, 1));
    CHECK(!is_reconstructed(desc, fragments, FRAGMENTS, len, 15, 1));
    CHECK(is_reconstructed(desc, fragments, FRAGMENTS, len, 3, 1));
    CHECK(liberasurecode_encode_cleanup(small, data, parity) == 0);
    CHECK(liberasurecode_instance_destroy(small) == 0);
    puts("liberasurecode: a kept plan serves its own fragments alone");
}

/* Fragments of another code are refused, although liberasurecode is not asked to compare headers.
 */
static void test_other_code(int desc) {
    struct ec_args args = {.k = 12, .m = 4, .w = 8, .hd = 5, .ct = CHKSUM_CRC32};
    int other = liberasurecode_instance_create(EC_BACKEND_LIBERASURECODE_RS_VAND, &args);
    char **data, **parity, *decoded, *rebuilt, *fragments[FRAGMENTS];
    uint64_t len, decoded_len;
    CHECK(other > 0);
    if (other <= 0 ||
        liberasurecode_encode(other, object, sizeof object, &data, &parity, &len) != 0)
        return;
    for (int i = 0; i < FRAGMENTS; i++) fragments[i] = i < 12 ? data[i] : parity[i - 12];
    rebuilt = malloc(len);
    CHECK(is_invalid_fragment(desc, fragments[0]) != 0);
    CHECK(liberasurecode_decode(desc, fragments, 15, len, 0, &decoded, &decoded_len) ==
          -EBADHEADER);
    CHECK(rebuilt && liberasurecode_reconstruct_fragment(desc, fragments, 15, len, 15, rebuilt) ==
                         -EBADHEADER);
    free(rebuilt);
    CHECK(liberasurecode_encode_cleanup(other, data, parity) == 0);
    CHECK(liberasurecode_instance_destroy(other) == 0);
    puts("liberasurecode: fragments of its Reed-Solomon code are refused");
}

int main(void) {
    char **data, **parity, *fragments[FRAGMENTS];
    uint64_t len;
    int desc = lrc_backend_create(12, CHKSUM_CRC32);
    CHECK(lrc_backend_create(11, CHKSUM_CRC32) == -EINVALIDPARAMS);
    CHECK(desc > 0);
    for (size_t i = 0; i < sizeof object; i++) object[i] = (char)(i * 31 >> 2);
    if (desc <= 0 || liberasurecode_encode(desc, object, sizeof object, &data, &parity, &len) != 0)
        return 1;
    for (int i = 0; i < FRAGMENTS; i++) fragments[i] = i < 12 ? data[i] : parity[i - 12];
    test_decode(desc, fragments, len);
    test_reconstruct(desc, fragments, len);
    test_kept_plan(desc, fragments, len);
    test_other_code(desc);
    CHECK(liberasurecode_encode_cleanup(desc, data, parity) == 0);
    CHECK(liberasurecode_instance_destroy(desc) == 0);
    return failures != 0;
}

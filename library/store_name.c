/* Names of keys, in the lower case of base32 (RFC 4648). A short key is written itself, and filled
 * with dots: backwards, since keys often have one beginning, and names that differ early are
 * compared sooner. Of another one it is the hash of 20 bytes by BLAKE2s (RFC 7693), which leaves no
 * place for a dot. */
#include "lrc_store.h"

#include <string.h>

enum { BLOCK = 64, HASH_BYTES = 20, ROUNDS = 10 };
enum { GROUP_BYTES = 5, GROUP_SYMBOLS = 8, SYMBOL_BITS = 5, SHORT_KEY = HASH_BYTES - 1 };

/* The first 32 bits of the fractional parts of the square roots of the first eight primes. */
static const uint32_t START[8] = {0x6a09e667, 0xbb67ae85, 0x3c6ef372, 0xa54ff53a,
                                  0x510e527f, 0x9b05688c, 0x1f83d9ab, 0x5be0cd19};

/* The words of a block, in the order in which each round takes them. */
static const uint8_t ORDER[ROUNDS][16] = {{0, 1, 2, 3, 4, 5, 6, 7, 8, 9, 10, 11, 12, 13, 14, 15},
                                          {14, 10, 4, 8, 9, 15, 13, 6, 1, 12, 0, 2, 11, 7, 5, 3},
                                          {11, 8, 12, 0, 5, 2, 15, 13, 10, 14, 3, 6, 7, 1, 9, 4},
                                          {7, 9, 3, 1, 13, 12, 11, 14, 2, 6, 5, 10, 4, 0, 15, 8},
                                          {9, 0, 5, 7, 2, 4, 10, 15, 14, 1, 11, 12, 6, 8, 3, 13},
                                          {2, 12, 6, 10, 0, 11, 8, 3, 4, 13, 7, 5, 15, 14, 1, 9},
                                          {12, 5, 1, 15, 14, 13, 4, 10, 0, 7, 6, 3, 9, 2, 8, 11},
                                          {13, 11, 7, 14, 12, 1, 3, 9, 5, 0, 15, 4, 8, 6, 2, 10},
                                          {6, 15, 14, 9, 11, 3, 0, 8, 12, 2, 13, 7, 1, 4, 10, 5},
                                          {10, 2, 8, 4, 7, 6, 1, 5, 15, 11, 9, 14, 3, 12, 13, 0}};

static inline uint32_t turned(uint32_t word, int by) { return word >> by | word << (32 - by); }

/* Mixes two words of the block into four of the state. */
static inline void mix(uint32_t *a, uint32_t *b, uint32_t *c, uint32_t *d, uint32_t first,
                       uint32_t second) {
    *a += *b + first;
    *d = turned(*d ^ *a, 16);
    *c += *d;
    *b = turned(*b ^ *c, 12);
    *a += *b + second;
    *d = turned(*d ^ *a, 8);
    *c += *d;
    *b = turned(*b ^ *c, 7);
}

/* Takes a block into the eight words. `taken` is the number of the key's bytes up to its end. */
static void take_block(uint32_t state[8], const uint8_t *block, uint64_t taken, int is_last) {
    uint32_t v[16], words[16];
    memcpy(words, block, sizeof words);
    memcpy(v, state, sizeof START);
    memcpy(v + 8, START, sizeof START);
    v[12] ^= (uint32_t)taken;
    v[13] ^= (uint32_t)(taken >> 32);
    if (is_last) v[14] = ~v[14];
#pragma GCC unroll 10
    for (int i = 0; i < ROUNDS; i++) {
        const uint8_t *of = ORDER[i];
        mix(v, v + 4, v + 8, v + 12, words[of[0]], words[of[1]]);
        mix(v + 1, v + 5, v + 9, v + 13, words[of[2]], words[of[3]]);
        mix(v + 2, v + 6, v + 10, v + 14, words[of[4]], words[of[5]]);
        mix(v + 3, v + 7, v + 11, v + 15, words[of[6]], words[of[7]]);
        mix(v, v + 5, v + 10, v + 15, words[of[8]], words[of[9]]);
        mix(v + 1, v + 6, v + 11, v + 12, words[of[10]], words[of[11]]);
        mix(v + 2, v + 7, v + 8, v + 13, words[of[12]], words[of[13]]);
        mix(v + 3, v + 4, v + 9, v + 14, words[of[14]], words[of[15]]);
    }
    for (int i = 0; i < 8; i++) state[i] ^= v[i] ^ v[8 + i];
}

static void hash_of(const uint8_t *key, size_t key_len, uint8_t hash[HASH_BYTES]) {
    uint32_t state[8];
    uint8_t last[BLOCK] = {0};
    size_t at = 0;
    memcpy(state, START, sizeof START);
    state[0] ^= 0x01010000 ^ HASH_BYTES; /* no secret, and one sequence of blocks */
    for (; key_len - at > BLOCK; at += BLOCK) take_block(state, key + at, at + BLOCK, 0);
    memcpy(last, key + at, key_len - at);
    take_block(state, last, key_len, 1);
    memcpy(hash, state, HASH_BYTES);
}

void lrc_store_name(const uint8_t *key, size_t key_len, uint8_t *name) {
    uint8_t bytes[HASH_BYTES] = {0}, *to = name;
    if (key_len > SHORT_KEY)
        hash_of(key, key_len, bytes);
    else
        for (size_t i = 0; i < key_len; i++) bytes[i] = key[key_len - 1 - i];
    for (int at = 0; at < HASH_BYTES; at += GROUP_BYTES, to += GROUP_SYMBOLS) {
        uint64_t bits = 0;
        for (int i = 0; i < GROUP_BYTES; i++) bits = bits << 8 | bytes[at + i];
        for (int i = GROUP_SYMBOLS - 1; i >= 0; i--, bits >>= SYMBOL_BITS)
            to[i] = (uint8_t) "abcdefghijklmnopqrstuvwxyz234567"[bits & 31];
    }
    if (key_len > SHORT_KEY) return;
    const size_t symbols = (8 * key_len + SYMBOL_BITS - 1) / SYMBOL_BITS;
    memset(name + symbols, '.', LRC_STORE_NAME_LEN - symbols);
}

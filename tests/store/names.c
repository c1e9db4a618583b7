/* Names of keys, beside those that Python's hashlib and base64 make. */
#include "store_test.h"

/* The source once more, of which the test calls the inner function. */
#define lrc_store_name name_of_source
#include "store_name.c"
#undef lrc_store_name

enum { LONGEST = (1 << 24) + 1 };

static const struct {
    size_t len;
    const char *name;
} KEYS[] = {
    {0, "................................"},        {1, "ae.............................."},
    {2, "baaq............................"},        {3, "b4eac..........................."},
    {4, "cyhqqai........................."},        {5, "dula6cab........................"},
    {18, "pbywuy24kvheoqbzgivsihiwb4eac..."},       {19, "p54hc2tdlrku4r2ahezcwja5cyhqqai."},
    {20, "l5ogqtidevkkdeizc6gjhstygmmrkvj3"},       {21, "kaj6w2qdf733y4yo3ctf5nu3btv4ukqo"},
    {55, "nqxbny2d2l54nlensz5sk2rdovmcrlww"},       {63, "dnm2jnkzjsjmvjkiol3kb7r5iziruql6"},
    {64, "rjrw2pb3ncb54hm246phjulgff4gfebp"},       {65, "7lmgdjidmlq6xqsyfz5gl574s3ktbdhc"},
    {119, "ihojqymsoa5rlr2a3tzxfjexb2u5stnq"},      {127, "nifrt6phj4bdcgiyzppixfsvbvzpmcjr"},
    {128, "q7ukizg556bqjxyra3xqqjhq7ydhlqli"},      {129, "nwq4up62yx5ipm2w7cjsy36syybjweg6"},
    {192, "adeqwuljgdys26ikbmaytskjo5h673ol"},      {1000, "ngdxhrrxrki2avkrhivodk2nu353gbkp"},
    {65536, "eici7brhtsmlsm5kpf3uu3mgtq6xgx4v"},    {65537, "egsrw2c5sfxkjuvnygb4o4ssb5lpjxev"},
    {65599, "ngyltd3fitckjxq3e6tmyis5dgmfxg6g"},    {65600, "wowjivwc5ga7cooio7zdajguqem5lrkm"},
    {131071, "yysiayzpfobc6r545obrpdbnp5xzhglx"},   {131072, "zxxujkfxy7cjxmwm7o33sn74qxz347w4"},
    {131073, "z7yfowqvdfd6pbkgxrmpjq7d5v2ke7bo"},   {1000003, "3pojzz3dz6uvuvb4jx74jg72ubwijrf7"},
    {16777216, "7ut552udfhoeel7fotrutx3qmsgczche"}, {16777217, "ieebneql5ba2hud7jypcdjtngcrcyr6f"},
};

/* What a block makes of the state, if it is the last of a key of so many bytes: two words, by a
 * program in Python that follows RFC 7693. */
static const struct {
    uint64_t len;
    uint32_t first, second;
} BLOCKS[] = {
    {0xffffffc0, 0x52cacf9e, 0x655af3fc},
    {UINT64_C(0x100000000), 0xf1c00a5e, 0x7b164ffa},
    {UINT64_C(0x100000040), 0x566d6c24, 0xd0823911},
    {UINT64_C(0x500000007), 0x11aa0c07, 0x3c0f8c66},
    {UINT64_C(0x8000000000000001), 0x40a8e0ae, 0x83c754bf},
};

/* Keys of 4 GiB and more differ from shorter ones in the number of their bytes. */
static void counts_beyond_32_bits(void) {
    uint8_t block[BLOCK];
    fill(block, sizeof block, 0);
    for (size_t i = 0; i < sizeof BLOCKS / sizeof *BLOCKS; i++) {
        uint32_t state[8];
        memcpy(state, START, sizeof START);
        take_block(state, block, BLOCKS[i].len, 1);
        EXPECT(state[0], BLOCKS[i].first);
        EXPECT(state[1], BLOCKS[i].second);
    }
}

int main(void) {
    static uint8_t key[LONGEST];
    uint8_t name[LRC_STORE_NAME_LEN + 1];
    for (size_t i = 0; i < sizeof KEYS / sizeof *KEYS; i++) {
        fill(key, KEYS[i].len, 0);
        name[LRC_STORE_NAME_LEN] = 0x5a;
        lrc_store_name(key, KEYS[i].len, name);
        EXPECT(memcmp(name, KEYS[i].name, LRC_STORE_NAME_LEN), 0);
        EXPECT(name[LRC_STORE_NAME_LEN], 0x5a);
    }
    counts_beyond_32_bits();
    return report("names");
}

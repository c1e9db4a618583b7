// Times the coder beside ISA-L and memcpy: one process, one thread, the calls in turn, the best of
// many slots. Each row is in GB of data per second: for encoding the twelve data fragments, for
// rebuilding the one fragment that is made. In brackets is the ratio to ISA-L's row of the same
// kind: into lists that are given, or into memory that is asked for.
#define _GNU_SOURCE
#include <isa-l.h>
#include <malloc.h>
#include <stdbool.h>
#include <stdint.h>
#include <stdio.h>
#include <stdlib.h>
#include <string.h>
#include <time.h>

// ---- what the coder asks of its caller: memory
typedef struct {
    bool done;
    void *address;
} Allocated;

Allocated rattle_alloc(size_t size, size_t align) {
    (void)align;
    void *address = malloc(size ? size : 1);
    return (Allocated){address != NULL, address};
}

Allocated rattle_realloc(void *old, size_t old_size, size_t size, size_t align) {
    (void)old_size, (void)align;
    void *address = realloc(old, size ? size : 1);
    return (Allocated){address != NULL, address};
}

void rattle_dealloc(void *address) { free(address); }

// ---- the coder, as run.sh builds it for each processor
typedef struct {
    const uint8_t *bytes;
    size_t length;
} Slice;

#define PARITIES uint8_t *, size_t, uint8_t *, size_t, uint8_t *, size_t, uint8_t *, size_t
// What only the benchmark calls. They are NULL where they are not linked: then lost fragments alone
// are timed.
#define WEAK __attribute__((weak))
#define DECLARE(v)                                                                                 \
    WEAK void v##_timed_encode_to(const Slice *, size_t, PARITIES, uint32_t);                      \
    WEAK bool v##_timed_encode(const Slice *, size_t, PARITIES, uint32_t);                         \
    WEAK bool v##_timed_encode_joined(const Slice *, size_t, PARITIES, uint32_t);                  \
    WEAK void v##_timed_combine(uint8_t *, size_t, const uint8_t *, size_t, const Slice *, size_t, \
                                uint32_t);                                                         \
    WEAK bool v##_timed_rebuild_to(uint8_t *, size_t, const Slice *, size_t, uint16_t, size_t,     \
                                   uint32_t);                                                      \
    WEAK bool v##_timed_rebuild(uint8_t *, size_t, const Slice *, size_t, uint16_t, size_t, bool,  \
                                uint32_t);                                                         \
    WEAK bool v##_timed_seal(const uint8_t *, size_t, uint8_t *, size_t, uint64_t, uint8_t,        \
                             uint32_t);
#define DECLARE_CALLS(v)                                                                           \
    uint32_t v##_lrc_encode(const Slice *, size_t, PARITIES);                                      \
    uint32_t v##_lrc_rebuild(size_t, const Slice *, uint16_t, uint8_t, size_t, uint8_t *, size_t); \
    uint32_t v##_lrc_decode(size_t, const Slice *, uint16_t, const uint8_t *, size_t, size_t,      \
                            PARITIES);                                                             \
    uint32_t v##_lrc_plan(size_t, uint16_t, const uint8_t *, uint8_t *, uint16_t *);               \
    uint32_t v##_lrc_plan_decode(const uint8_t *, const Slice *, size_t, size_t, PARITIES);
DECLARE(v2)
DECLARE(v3)
DECLARE_CALLS(v2)
DECLARE_CALLS(v3)
DECLARE_CALLS(v4)

// ---- one stripe, and what is made of it
enum { DATA = 12, FRAGMENTS = 16, WIDEST = 65536, WIDTHS = 4 };
static const size_t widths[WIDTHS] = {1, 64, 4096, WIDEST};
static size_t width;
static Slice stripe[FRAGMENTS]; // all of it
static uint8_t *data[FRAGMENTS], *made[4], *copy;
static Slice group[6],
    others[DATA]; // what fragment 0 is rebuilt from where it alone is lost, and where 0 and 1 are
static uint8_t *group_bytes[6], *other_bytes[DATA];
static uint8_t ones[6] = {1, 1, 1, 1, 1, 1}, recipe[DATA];
static uint8_t encode_tables[32 * 4 * DATA], recipe_tables[32 * DATA];
static const uint8_t coefficients[4][DATA] = {
    {1, 1, 1, 1, 1, 1},
    {0, 0, 0, 0, 0, 0, 1, 1, 1, 1, 1, 1},
    {1, 2, 3, 4, 5, 6, 0x10, 0x20, 0x30, 0x40, 0x50, 0x60},
    {1, 4, 5, 0x10, 0x11, 0x14, 0x1D, 0x74, 0x69, 0xCD, 0xD0, 0xB9},
};

static uint8_t product(uint8_t a, uint8_t b) {
    unsigned sum = 0, shifted = a;
    for (int i = 0; i < 8; i++) {
        if (b >> i & 1) sum ^= shifted;
        shifted <<= 1;
        if (shifted & 256) shifted ^= 0x11D;
    }
    return sum;
}

// Where fragments 0 and 1 are lost, 3 times fragment 0 is the sum of twice the first equation and
// the third.
static void make_recipe(void) {
    uint8_t third = 0;
    while (product(3, third) != 1) third++;
    for (int i = 2; i < DATA; i++)
        recipe[i - 2] = product(third, product(2, coefficients[0][i]) ^ coefficients[2][i]);
    recipe[10] = product(third, 2);
    recipe[11] = third;
    for (int i = 0; i < 10; i++) other_bytes[i] = data[i + 2];
    other_bytes[10] = data[12], other_bytes[11] = data[14];
    for (int i = 0; i < 5; i++) group_bytes[i] = data[i + 1];
    group_bytes[5] = data[12];
}

static void set_width(size_t w) {
    width = w;
    for (int i = 0; i < FRAGMENTS; i++) stripe[i] = (Slice){data[i], w};
    for (int i = 0; i < 6; i++) group[i] = (Slice){group_bytes[i], w};
    for (int i = 0; i < DATA; i++) others[i] = (Slice){other_bytes[i], w};
}

// ---- the calls, each made n times
static volatile uint8_t seen;
static void use(const void *bytes) { __asm__ volatile("" ::"r"(bytes) : "memory"); }

static void copy_data(long n) {
    for (long j = 0; j < n; j++)
        for (int i = 0; i < DATA; i++) memcpy(copy + i * WIDEST, data[i], width), use(copy);
}

static void copy_one(long n) {
    for (long j = 0; j < n; j++) memcpy(copy, data[0], width), use(copy);
}

static void isal_encode_to(long n) {
    for (long j = 0; j < n; j++)
        ec_encode_data(width, DATA, 4, encode_tables, data, made), use(made[0]);
}

static void isal_encode(long n) {
    for (long j = 0; j < n; j++) {
        uint8_t *parities[4];
        for (int i = 0; i < 4; i++) parities[i] = malloc(width);
        ec_encode_data(width, DATA, 4, encode_tables, data, parities);
        use(parities);
        for (int i = 0; i < 4; i++) free(parities[i]);
    }
}

static void isal_sum_to(uint8_t *target) {
    void *lists[7];
    memcpy(lists, group_bytes, sizeof group_bytes);
    lists[6] = target;
    xor_gen(7, width, lists);
    use(target);
}

static void isal_local_to(long n) {
    for (long j = 0; j < n; j++) isal_sum_to(made[0]);
}

static void isal_local(long n) {
    for (long j = 0; j < n; j++) {
        uint8_t *target = malloc(width);
        isal_sum_to(target);
        free(target);
    }
}

static void isal_global_to(long n) {
    for (long j = 0; j < n; j++)
        ec_encode_data(width, DATA, 1, recipe_tables, other_bytes, made), use(made[0]);
}

static void isal_global(long n) {
    for (long j = 0; j < n; j++) {
        uint8_t *target = malloc(width);
        ec_encode_data(width, DATA, 1, recipe_tables, other_bytes, &target);
        use(target);
        free(target);
    }
}

// Plans are plain bytes: both processors' code uses the same.
enum { NONE = 255, PLAN = 24 };
static uint8_t local_plan[PLAN], global_plan[PLAN], loss_plan[PLAN];

static void make_plan(uint8_t *plan, uint16_t gone, const uint8_t numbers[4]) {
    uint16_t reads;
    if (v2_lrc_plan(DATA, gone, numbers, plan, &reads) != 0) abort();
}

// Fragment 0, where it alone is lost, and where fragment 1 is lost too.
#define LOCAL 1
#define GLOBAL 3
#define MADE made[0], width, made[1], width, made[2], width, made[3], width
#define CALLS(v)                                                                                   \
    static void v##_encode_to(long n) { v##_timed_encode_to(stripe, DATA, MADE, n); }              \
    static void v##_encode_malloc(long n) {                                                        \
        for (long j = 0; j < n; j++) {                                                             \
            uint8_t *p[4];                                                                         \
            for (int i = 0; i < 4; i++) p[i] = malloc(width);                                      \
            v##_timed_encode_to(stripe, DATA, p[0], width, p[1], width, p[2], width, p[3], width,  \
                                1);                                                                \
            use(p);                                                                                \
            for (int i = 0; i < 4; i++) free(p[i]);                                                \
        }                                                                                          \
    }                                                                                              \
    static void v##_encode(long n) { seen = v##_timed_encode(stripe, DATA, MADE, n); }             \
    static void v##_encode_joined(long n) {                                                        \
        seen = v##_timed_encode_joined(stripe, DATA, MADE, n);                                     \
    }                                                                                              \
    static void v##_local_kernel(long n) {                                                         \
        v##_timed_combine(made[0], width, ones, 6, group, 6, n);                                   \
    }                                                                                              \
    static void v##_local_to(long n) {                                                             \
        seen = v##_timed_rebuild_to(made[0], width, stripe, FRAGMENTS, LOCAL, 0, n);               \
    }                                                                                              \
    static void v##_local(long n) {                                                                \
        seen = v##_timed_rebuild(made[0], width, stripe, FRAGMENTS, LOCAL, 0, false, n);           \
    }                                                                                              \
    static void v##_local_plans(long n) {                                                          \
        seen = v##_timed_rebuild(made[0], width, stripe, FRAGMENTS, LOCAL, 0, true, n);            \
    }                                                                                              \
    static void v##_global_kernel(long n) {                                                        \
        v##_timed_combine(made[0], width, recipe, DATA, others, DATA, n);                          \
    }                                                                                              \
    static void v##_global_to(long n) {                                                            \
        seen = v##_timed_rebuild_to(made[0], width, stripe, FRAGMENTS, GLOBAL, 0, n);              \
    }                                                                                              \
    static void v##_global(long n) {                                                               \
        seen = v##_timed_rebuild(made[0], width, stripe, FRAGMENTS, GLOBAL, 0, false, n);          \
    }                                                                                              \
    static void v##_global_plans(long n) {                                                         \
        seen = v##_timed_rebuild(made[0], width, stripe, FRAGMENTS, GLOBAL, 0, true, n);           \
    }
#define C_CALLS(v)                                                                                 \
    static void v##_encode_call(long n) {                                                          \
        for (long j = 0; j < n; j++) seen = v##_lrc_encode(stripe, DATA, MADE);                    \
    }                                                                                              \
    static void v##_rebuild_one(uint16_t gone, long n) {                                           \
        for (long j = 0; j < n; j++)                                                               \
            seen = v##_lrc_rebuild(DATA, stripe, gone, 0, 0, made[0], width);                      \
    }                                                                                              \
    static void v##_local_call(long n) { v##_rebuild_one(LOCAL, n); }                              \
    static void v##_global_call(long n) { v##_rebuild_one(GLOBAL, n); }                            \
    static void v##_by_plan(const uint8_t *plan, long n) {                                         \
        for (long j = 0; j < n; j++) seen = v##_lrc_plan_decode(plan, stripe, 0, width, MADE);     \
    }                                                                                              \
    static void v##_local_plan(long n) { v##_by_plan(local_plan, n); }                             \
    static void v##_global_plan(long n) { v##_by_plan(global_plan, n); }
CALLS(v2)
CALLS(v3)
C_CALLS(v2)
C_CALLS(v3)
C_CALLS(v4)

// ---- several lost fragments at once
typedef struct {
    const char *name;
    int count;
    uint8_t numbers[4];
} Loss;
static const Loss losses[] = {
    {"0, 1 lost", 2, {0, 1, NONE, NONE}},     {"0, 14 lost", 2, {0, 14, NONE, NONE}},
    {"14, 15 lost", 2, {14, 15, NONE, NONE}}, {"0, 1, 2 lost", 3, {0, 1, 2, NONE}},
    {"0, 1, 6 lost", 3, {0, 1, 6, NONE}},     {"0, 6, 14 lost", 3, {0, 6, 14, NONE}},
    {"0, 1, 14 lost", 3, {0, 1, 14, NONE}},   {"0, 1, 6, 7 lost", 4, {0, 1, 6, 7}},
    {"0, 6, 7, 12 lost", 4, {0, 6, 7, 12}},   {"0, 1, 2, 6 lost", 4, {0, 1, 2, 6}},
    {"0, 1, 6, 14 lost", 4, {0, 1, 6, 14}},   {"0, 6, 14, 15 lost", 4, {0, 6, 14, 15}},
};
enum { LOSSES = sizeof losses / sizeof *losses };
static const Loss *loss;
static uint16_t lost;
static uint8_t *left_bytes[DATA], decode_tables[32 * 4 * DATA];

// The twelve of the fragments left whose numbers are `used`: whether they determine the others;
// then ISA-L's tables are made.
static bool make_decode_tables(const int *used) {
    uint8_t square[DATA * DATA] = {0}, inverse[DATA * DATA], rows[4 * DATA] = {0};
    for (int i = 0; i < DATA; i++)
        for (int k = 0; k < DATA; k++)
            square[i * DATA + k] = used[i] < DATA ? used[i] == k : coefficients[used[i] - DATA][k];
    if (gf_invert_matrix(square, inverse, DATA) != 0) return false;
    for (int r = 0; r < loss->count; r++)
        for (int i = 0; i < DATA; i++)
            for (int k = 0; k < DATA; k++) {
                int f = loss->numbers[r];
                rows[r * DATA + i] ^=
                    product(f < DATA ? f == k : coefficients[f - DATA][k], inverse[k * DATA + i]);
            }
    for (int i = 0; i < DATA; i++) left_bytes[i] = data[used[i]];
    ec_init_tables(DATA, loss->count, rows, decode_tables);
    return true;
}

// The first twelve of the fragments left that determine the others, by the sets that leave out the
// rest.
static void set_loss(const Loss *next) {
    loss = next;
    lost = 0;
    for (int r = 0; r < loss->count; r++) lost |= 1u << loss->numbers[r];
    for (unsigned out = 0; out < 1u << FRAGMENTS; out++) {
        int used[FRAGMENTS], count = 0;
        if (out & lost) continue;
        for (int i = 0; i < FRAGMENTS; i++)
            if (!((out | lost) >> i & 1)) used[count++] = i;
        if (count == DATA && make_decode_tables(used)) return;
    }
}

static void isal_decode(long n) {
    for (long j = 0; j < n; j++)
        ec_encode_data(width, DATA, loss->count, decode_tables, left_bytes, made), use(made[0]);
}

#define DECODES(v)                                                                                 \
    static void v##_decode(long n) {                                                               \
        for (long j = 0; j < n; j++)                                                               \
            seen = v##_lrc_decode(DATA, stripe, lost, loss->numbers, 0, width, MADE);              \
    }                                                                                              \
    static void v##_rebuild_each(long n) {                                                         \
        for (long j = 0; j < n; j++)                                                               \
            for (int r = 0; r < loss->count; r++)                                                  \
                seen = v##_lrc_rebuild(DATA, stripe, lost, loss->numbers[r], 0, made[r], width);   \
    }                                                                                              \
    static void v##_decode_by_plan(long n) { v##_by_plan(loss_plan, n); }
DECODES(v2)
DECODES(v3)
DECODES(v4)

typedef struct {
    const char *name;
    void (*call)(long);
    int base; // the row that this one is compared with
    long reps;
    double best[WIDTHS]; // seconds
} Row;

#define ROW(name, call, base)                                                                      \
    {                                                                                              \
        name, call, base, 0, { 0 }                                                                 \
    }
#define ENCODE(v)                                                                                  \
    ROW(#v " encode_to", v##_encode_to, 1), ROW(#v " encode_to, malloc", v##_encode_malloc, 2),    \
        ROW(#v " encode", v##_encode, 2), ROW(#v " encode_joined", v##_encode_joined, 2),          \
        ROW(#v " lrc_encode", v##_encode_call, 1)
#define REBUILD_CALLS(v, work)                                                                     \
    ROW(#v " lrc_rebuild", v##_##work##_call, 1), ROW(#v " lrc_plan_decode", v##_##work##_plan, 1)
#define REBUILD(v, work)                                                                           \
    ROW(#v " combine_lists", v##_##work##_kernel, 1), ROW(#v " rebuild_to", v##_##work##_to, 1),   \
        REBUILD_CALLS(v, work), ROW(#v " rebuild", v##_##work, 2),                                 \
        ROW(#v " Plans::rebuild", v##_##work##_plans, 2)

#define DECODE(v)                                                                                  \
    ROW(#v " lrc_decode", v##_decode, 0), ROW(#v " lrc_plan_decode", v##_decode_by_plan, 0),       \
        ROW(#v " lrc_rebuild, each", v##_rebuild_each, 0)

// The rows of v4 come last: they are left out on a processor without AVX-512.
static Row encode_rows[] = {ROW("memcpy", copy_data, 1),
                            ROW("ISA-L", isal_encode_to, 1),
                            ROW("ISA-L, malloc", isal_encode, 2),
                            ENCODE(v2),
                            ENCODE(v3),
                            ROW("v4 lrc_encode", v4_encode_call, 1)};
static Row local_rows[] = {ROW("memcpy", copy_one, 1),
                           ROW("ISA-L", isal_local_to, 1),
                           ROW("ISA-L, malloc", isal_local, 2),
                           REBUILD(v2, local),
                           REBUILD(v3, local),
                           REBUILD_CALLS(v4, local)};
static Row global_rows[] = {ROW("memcpy", copy_one, 1),
                            ROW("ISA-L", isal_global_to, 1),
                            ROW("ISA-L, malloc", isal_global, 2),
                            REBUILD(v2, global),
                            REBUILD(v3, global),
                            REBUILD_CALLS(v4, global)};
enum { ALL_DECODE_ROWS = 10 };
static Row decode_rows[LOSSES][ALL_DECODE_ROWS];
static int encode_count = sizeof encode_rows / sizeof(Row);
static int rebuild_count = sizeof local_rows / sizeof(Row);
static int decode_count = ALL_DECODE_ROWS;

static void leave_out_v4(void) {
    encode_count -= 1;
    rebuild_count -= 2;
    decode_count -= 3;
}

static double now(void) {
    struct timespec t;
    clock_gettime(CLOCK_MONOTONIC, &t);
    return t.tv_sec + 1e-9 * t.tv_nsec;
}

// The time of `reps` calls. ISA-L's AVX-512 code leaves the upper halves of registers in use, which
// slows down what follows.
static double time_of(Row *row, long reps) {
    double start = now();
    row->call(reps);
    double taken = now() - start;
    __asm__ volatile("vzeroupper");
    return taken;
}

// A slot's seconds, and the turns that it has at least: what a call into memory of its own has made
// in its last turn, it copies.
static const double SLOT = 0.0004;
static const long TURNS = 32;

static void run(Row *rows, int count, int w, int rounds) {
    for (int i = 0; i < count; i++) {
        double once = time_of(&rows[i], 1);
        for (long reps = 1; once * reps < SLOT / 4; reps *= 2)
            once = time_of(&rows[i], reps) / reps;
        rows[i].reps = SLOT / once > TURNS ? (long)(SLOT / once) : TURNS;
        rows[i].best[w] = once;
    }
    for (int round = 0; round < rounds; round++)
        for (int i = 0; i < count; i++) {
            double taken = time_of(&rows[i], rows[i].reps) / rows[i].reps;
            if (taken < rows[i].best[w]) rows[i].best[w] = taken;
        }
}

static void print_title(const char *title) {
    printf("\n| %s |", title);
    for (int w = 0; w < WIDTHS; w++) printf(" %zu |", widths[w]);
    printf("\n|---|---|---|---|---|\n");
}

static void print_rows(const char *before, const Row *rows, int count, int lists) {
    for (int i = 0; i < count; i++) {
        printf("| %s%s |", before, rows[i].name);
        for (int w = 0; w < WIDTHS; w++)
            printf(" %.3g (%.2f) |", lists * widths[w] / rows[i].best[w] / 1e9,
                   rows[rows[i].base].best[w] / rows[i].best[w]);
        printf("\n");
    }
}

static void print(const char *title, const Row *rows, int count, int lists) {
    print_title(title);
    print_rows("", rows, count, lists);
}

// ---- every call must make what ISA-L makes
static void require_same(const char *name, const uint8_t *bytes, const uint8_t *wanted) {
    if (memcmp(bytes, wanted, width) != 0) {
        fprintf(stderr, "bench: %s is wrong at width %zu\n", name, width);
        exit(1);
    }
}

static void check(const Row *rows, int count, int lists, const int *wanted) {
    for (int i = 1; i < count; i++) {
        if (strstr(rows[i].name, "malloc")) continue;
        for (int k = 0; k < lists; k++) memset(made[k], 0x55, width);
        rows[i].call(1);
        for (int k = 0; k < lists; k++) require_same(rows[i].name, made[k], data[wanted[k]]);
    }
}

// ---- blobs of at most 4,096 stripes and 48 MB: their parities go into memory that the system has
// just given
enum { MOST_STRIPES = 4096, BLOB = 61 * DATA * WIDEST };
static uint8_t *blob;
static size_t stripes;

static void set_blob(size_t w) {
    set_width(w);
    stripes = BLOB / (DATA * w) < MOST_STRIPES ? BLOB / (DATA * w) : MOST_STRIPES;
}

static void isal_seal(void) {
    static uint8_t *parities[MOST_STRIPES][4];
    for (size_t s = 0; s < stripes; s++) {
        uint8_t *sources[DATA];
        for (int i = 0; i < DATA; i++) sources[i] = blob + (s * DATA + i) * width;
        for (int k = 0; k < 4; k++) parities[s][k] = malloc(width);
        ec_encode_data(width, DATA, 4, encode_tables, sources, parities[s]);
    }
    for (size_t s = 0; s < stripes; s++)
        for (int k = 0; k < 4; k++) free(parities[s][k]);
}
static void isal_blob(long n) {
    for (long j = 0; j < n; j++) isal_seal();
}
static void v2_blob(long n) {
    seen = v2_timed_seal(blob, stripes * DATA * width, copy, width, stripes - 1, 14, n);
}
static void v3_blob(long n) {
    seen = v3_timed_seal(blob, stripes * DATA * width, copy, width, stripes - 1, 14, n);
}

static Row blob_rows[] = {ROW("ISA-L, malloc", isal_blob, 0), ROW("v2 seal", v2_blob, 0),
                          ROW("v3 seal", v3_blob, 0)};
enum { BLOB_ROWS = sizeof blob_rows / sizeof(Row) };

// The last stripe's fragment 14, as the calls show it, must be ISA-L's.
static void check_blob(void) {
    uint8_t *sources[DATA];
    for (int i = 0; i < DATA; i++) sources[i] = blob + ((stripes - 1) * DATA + i) * width;
    ec_encode_data(width, DATA, 4, encode_tables, sources, made);
    for (int i = 1; i < BLOB_ROWS; i++) {
        memset(copy, 0x55, width);
        blob_rows[i].call(1);
        require_same(blob_rows[i].name, copy, made[2]);
    }
}

// The time of two calls in one, less that of one, so that what is made but once is left out: the
// coder copies the blob first. Each is timed after the same call, since what was given back before
// changes how fast memory comes.
static void run_blob(int w, int rounds) {
    double best[BLOB_ROWS][2];
    for (int round = 0; round < rounds; round++)
        for (int i = 0; i < BLOB_ROWS; i++)
            for (long n = 0; n < 3; n++) {
                malloc_trim(0);
                double taken = time_of(&blob_rows[i], n < 2 ? 1 : 2);
                if (n > 0 && (round == 0 || taken < best[i][n - 1])) best[i][n - 1] = taken;
            }
    for (int i = 0; i < BLOB_ROWS; i++) blob_rows[i].best[w] = best[i][1] - best[i][0];
}

static void print_blob(void) {
    print_title("a blob, ms (of ISA-L's time), by width");
    for (int i = 0; i < BLOB_ROWS; i++) {
        printf("| %s |", blob_rows[i].name);
        for (int w = 0; w < WIDTHS; w++)
            printf(" %.3g (%.2f) |", blob_rows[i].best[w] * 1e3,
                   blob_rows[i].best[w] / blob_rows[0].best[w]);
        printf("\n");
    }
}

// Each set of lost fragments: ISA-L, all at once, and one after the other.
static void run_losses(int w, int rounds) {
    static const Row rows[ALL_DECODE_ROWS] = {ROW("ISA-L", isal_decode, 0), DECODE(v2), DECODE(v3),
                                              DECODE(v4)};
    for (int i = 0; i < LOSSES; i++) {
        int wanted[4];
        set_loss(&losses[i]);
        make_plan(loss_plan, lost, loss->numbers);
        for (int r = 0; r < loss->count; r++) wanted[r] = loss->numbers[r];
        for (int k = 0; w == 0 && k < decode_count; k++) decode_rows[i][k] = rows[k];
        isal_decode(1);
        for (int r = 0; r < loss->count; r++)
            require_same("ISA-L's decode", made[r], data[wanted[r]]);
        check(decode_rows[i], decode_count, loss->count, wanted);
        run(decode_rows[i], decode_count, w, rounds);
    }
}

static void print_losses(void) {
    print_title("lost fragments, GB/s of them (of ISA-L)");
    for (int i = 0; i < LOSSES; i++) {
        char before[32];
        snprintf(before, sizeof before, "%s: ", losses[i].name);
        print_rows(before, decode_rows[i], decode_count, losses[i].count);
    }
}

// Encoding, one fragment, and blobs.
static void run_calls(int w, int rounds) {
    check(encode_rows, encode_count, 4, (int[]){12, 13, 14, 15});
    check(local_rows, rebuild_count, 1, (int[]){0});
    check(global_rows, rebuild_count, 1, (int[]){0});
    run(encode_rows, encode_count, w, rounds);
    run(local_rows, rebuild_count, w, rounds);
    run(global_rows, rebuild_count, w, rounds);
}

static void print_calls(void) {
    print("encode, GB/s (of ISA-L), by width", encode_rows, encode_count, DATA);
    print("six to one", local_rows, rebuild_count, 1);
    print("twelve to one", global_rows, rebuild_count, 1);
}

static int run_blobs(int rounds) {
    blob = malloc(BLOB);
    if (!blob) return fputs("bench: no memory\n", stderr), 1;
    for (size_t i = 0; i < BLOB; i++) blob[i] = i * 2654435761u >> 24;
    for (int w = 0; w < WIDTHS; w++)
        set_blob(widths[w]), check_blob(), run_blob(w, rounds < 50 ? rounds : 50);
    print_blob();
    return 0;
}

int main(int argc, char **argv) {
    int rounds = argc > 1 ? atoi(argv[1]) : 1000;
    if (!__builtin_cpu_supports("avx512bw")) leave_out_v4();
    const size_t apart =
        WIDEST + 320; // so that the fragments do not all fall into one set of the cache
    uint8_t *bytes = aligned_alloc(4096, 4096 * ((FRAGMENTS + 4) * apart / 4096 + 1));
    copy = aligned_alloc(4096, DATA * WIDEST);
    if (!bytes || !copy) return fputs("bench: no memory\n", stderr), 1;
    for (size_t i = 0; i < (FRAGMENTS + 4) * apart; i++) bytes[i] = rand() >> 8;
    memset(copy, 0, DATA * WIDEST);
    for (int i = 0; i < FRAGMENTS; i++) data[i] = bytes + i * apart;
    for (int i = 0; i < 4; i++) made[i] = bytes + (FRAGMENTS + i) * apart;
    free(malloc(1 << 20)); // from now on malloc keeps what is given back, and asks the system for
                           // none of it again
    make_recipe();
    make_plan(local_plan, LOCAL, (uint8_t[]){0, NONE, NONE, NONE});
    make_plan(global_plan, GLOBAL, (uint8_t[]){0, NONE, NONE, NONE});
    ec_init_tables(DATA, 4, (uint8_t *)coefficients, encode_tables);
    ec_init_tables(DATA, 1, recipe, recipe_tables);
    ec_encode_data(WIDEST, DATA, 4, encode_tables, data, data + DATA);
    const bool has_calls = v3_timed_encode_to != NULL;
    for (int w = 0; w < WIDTHS; w++) {
        set_width(widths[w]);
        if (has_calls) run_calls(w, rounds);
        run_losses(w, rounds < 200 ? rounds : 200);
    }
    if (has_calls) print_calls();
    print_losses();
    return has_calls ? run_blobs(rounds) : 0;
}

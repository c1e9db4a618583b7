/* The entry points of a library that has its proved code for x86-64-v2, for x86-64-v3 and, with
 * HAS_V4, for x86-64-v4. Each is a jump through a pointer, so no signature is repeated here. The
 * processor decides when the library is loaded; CHOICE_ENV=v2 or CHOICE_ENV=v3 in the environment
 * forbids what is above.
 *
 * tools/libraries.py defines EACH, the functions; CHOICE_CPU, the function that names the choice;
 * and CHOICE_ENV. */
#include <cpuid.h>
#include <stdlib.h>
#include <string.h>

#ifndef __x86_64__
#error "the proved code is for x86-64"
#endif

/* Where indirect jumps may land, if the compiler is asked to mark such places. */
#if defined(__CET__) && (__CET__ & 1)
#define LANDING "endbr64\n"
#else
#define LANDING
#endif

#define ENTRY(name)                                                                                \
    extern const char v2_##name[], v3_##name[];                                                    \
    extern const char *choice_##name;                                                              \
    const char *choice_##name = v2_##name;                                                         \
    __asm__(".pushsection .text\n.p2align 4\n.globl " #name "\n.type " #name ", @function\n" #name \
            ":\n.cfi_startproc\n" LANDING "jmp *choice_" #name "(%rip)\n.cfi_endproc\n"            \
            ".size " #name ", . - " #name "\n.popsection\n");
EACH(ENTRY)

#ifdef HAS_V4
#define DECLARE_V4(name) extern const char v4_##name[];
EACH(DECLARE_V4)
#endif

static const char *cpu = "x86-64-v2";

/* Whether all of `bits` are set in `word`. */
static int has(unsigned word, unsigned bits) { return (word & bits) == bits; }

/* Whether the system saves these registers: bits of the first extended control register. */
__attribute__((target("xsave"))) static int saves(unsigned bits) {
    return has((unsigned)__builtin_ia32_xgetbv(0), bits);
}

enum { SSE_AND_AVX = 0x06, AND_AVX_512 = 0xE6 };

/* Whether processor and system have what x86-64-v3 adds to x86-64-v2. */
static int is_v3(void) {
    const unsigned basic = bit_FMA | bit_MOVBE | bit_OSXSAVE | bit_AVX | bit_F16C;
    unsigned a, b, c, d;
    if (!__get_cpuid(1, &a, &b, &c, &d) || !has(c, basic) || !saves(SSE_AND_AVX)) return 0;
    if (!__get_cpuid_count(7, 0, &a, &b, &c, &d) || !has(b, bit_BMI | bit_AVX2 | bit_BMI2))
        return 0;
    return __get_cpuid(0x80000001, &a, &b, &c, &d) && has(c, bit_LZCNT);
}

#ifdef HAS_V4
/* Whether processor and system have what x86-64-v4 adds to x86-64-v3. */
static int is_v4(void) {
    const unsigned all = bit_AVX512F | bit_AVX512BW | bit_AVX512CD | bit_AVX512DQ | bit_AVX512VL;
    unsigned a, b, c, d;
    return __get_cpuid_count(7, 0, &a, &b, &c, &d) && has(b, all) && saves(AND_AVX_512);
}
#endif

/* Whether the environment forbids what is above this level. */
static int is_highest(const char *level) {
    const char *forced = getenv(CHOICE_ENV);
    return forced && strcmp(forced, level) == 0;
}

/* Runs before all constructors of C++. */
__attribute__((constructor(101))) static void choose(void) {
    if (is_highest("v2") || !is_v3()) return;
#ifdef HAS_V4
    if (!is_highest("v3") && is_v4()) {
#define TAKE_V4(name) choice_##name = v4_##name;
        EACH(TAKE_V4)
        cpu = "x86-64-v4";
        return;
    }
#endif
#define TAKE_V3(name) choice_##name = v3_##name;
    EACH(TAKE_V3)
    cpu = "x86-64-v3";
}

const char *CHOICE_CPU(void);
const char *CHOICE_CPU(void) { return cpu; }

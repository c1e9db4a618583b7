/* The choice of library/choice.c on processors and systems that a test makes up, this one aside.
 * With -DHAS_V4 there is code for x86-64-v4. */
#include <cpuid.h>
#include <stdio.h>
#include <stdlib.h>
#include <string.h>

/* What a processor answers: the highest leaf, the words of three leaves, and the registers that the
 * system saves. */
static struct processor {
    unsigned leaves, extended_leaves, basic_c, seven_b, extended_c;
    unsigned long long saved;
} processor;
static int reads_saved;

static int fake_cpuid(unsigned leaf, unsigned *a, unsigned *b, unsigned *c, unsigned *d) {
    const unsigned highest = leaf & 0x80000000 ? processor.extended_leaves : processor.leaves;
    if (leaf > highest) return 0;
    *a = *b = *d = 0;
    *c = leaf == 1 ? processor.basic_c : leaf == 0x80000001 ? processor.extended_c : 0;
    return 1;
}

static int fake_count(unsigned leaf, unsigned part, unsigned *a, unsigned *b, unsigned *c,
                      unsigned *d) {
    if (leaf > processor.leaves) return 0;
    *a = *c = *d = 0;
    *b = leaf == 7 && part == 0 ? processor.seven_b : 0;
    return 1;
}

/* Without OSXSAVE the instruction is none. */
static unsigned long long fake_saved(unsigned number) {
    if (!(processor.basic_c & bit_OSXSAVE) || number != 0) abort();
    reads_saved = 1;
    return processor.saved;
}

#define __get_cpuid fake_cpuid
#define __get_cpuid_count fake_count
#define __builtin_ia32_xgetbv fake_saved
#define EACH(of) of(choice_first)
#define CHOICE_CPU choice_cpu
#define CHOICE_ENV "CHOICE"
#include "../../library/choice.c"

int choice_first(void);

/* The code of each level. The source declares these symbols as bytes. */
#define CODE(level)                                                                                \
    int code_of_v##level(void) __asm__("v" #level "_choice_first");                                \
    int code_of_v##level(void) { return level; }
CODE(2)
CODE(3)
CODE(4)

#ifdef HAS_V4
enum { HIGHEST = 4 };
#else
enum { HIGHEST = 3 };
#endif

/* The bits of the manuals: of leaf 1, FMA, MOVBE, OSXSAVE, AVX, F16C; of leaf 7, BMI1, AVX2, BMI2,
 * and AVX512F, DQ, CD, BW, VL; of leaf 0x80000001, LZCNT. */
static const int BASIC[] = {12, 22, 27, 28, 29}, SEVEN[] = {3, 5, 8};
static const int SEVEN_OF_V4[] = {16, 17, 28, 30, 31}, LZCNT = 5;
/* Of the registers: SSE, AVX; and the three parts of AVX-512. */
static const int SAVED[] = {1, 2}, SAVED_OF_V4[] = {5, 6, 7};
#define COUNT(list) (sizeof(list) / sizeof *(list))

static const struct processor WHOLE = {0x16, 0x80000008, ~0u, ~0u, ~0u, 0xE7};
static int wrong;

/* The processor has code of this level chosen for it. */
static void chosen(const char *what, int bit, int level) {
    const char name[] = {'x', '8', '6', '-', '6', '4', '-', 'v', (char)('0' + level), '\0'};
    choice_choice_first = v2_choice_first;
    cpu = "x86-64-v2";
    reads_saved = 0;
    choose();
    if (choice_first() == level && strcmp(choice_cpu(), name) == 0) return;
    fprintf(stderr, "processors: without %s, bit %d: v%d %s, expected v%d\n", what, bit,
            choice_first(), choice_cpu(), level);
    wrong++;
}

/* A processor that has all but one bit of a word. */
static void lacks(const char *what, unsigned *word, const int *bits, size_t count, int level) {
    for (size_t i = 0; i < count; i++) {
        *word &= ~(1u << bits[i]);
        chosen(what, bits[i], level);
        *word |= 1u << bits[i];
    }
}

static void lacks_saved(const int *bits, size_t count, int level) {
    for (size_t i = 0; i < count; i++) {
        processor.saved &= ~(1ull << bits[i]);
        chosen("a saved register", bits[i], level);
        processor.saved |= 1ull << bits[i];
    }
}

/* A processor that has these bits and no others, as far as the levels go. */
static unsigned all_of(const int *bits, size_t count) {
    unsigned word = 0;
    for (size_t i = 0; i < count; i++) word |= 1u << bits[i];
    return word;
}

static void in_environment(const char *value, int level) {
    setenv("CHOICE", value, 1);
    chosen("a word of the environment", 0, level);
    unsetenv("CHOICE");
}

int main(void) {
    processor = WHOLE;
    chosen("nothing", 0, HIGHEST);
    lacks("leaf 1", &processor.basic_c, BASIC, COUNT(BASIC), 2);
    lacks("leaf 7", &processor.seven_b, SEVEN, COUNT(SEVEN), 2);
    lacks("leaf 0x80000001", &processor.extended_c, &LZCNT, 1, 2);
    lacks("leaf 7", &processor.seven_b, SEVEN_OF_V4, COUNT(SEVEN_OF_V4), 3);
    lacks_saved(SAVED, COUNT(SAVED), 2);
    lacks_saved(SAVED_OF_V4, COUNT(SAVED_OF_V4), 3);
    /* old processors have no such leaf */
    processor.leaves = 6;
    chosen("leaf 7", 0, 2);
    processor = WHOLE;
    processor.extended_leaves = 0x80000000;
    chosen("leaf 0x80000001", 0, 2);
    processor = (struct processor){1, 0x80000000, 0, 0, 0, 0};
    chosen("anything", 0, 2);
    if (reads_saved) wrong++;
    /* the bits that are needed, and no others */
    processor = WHOLE;
    processor.basic_c = all_of(BASIC, COUNT(BASIC));
    processor.seven_b = all_of(SEVEN, COUNT(SEVEN));
    processor.extended_c = 1u << LZCNT;
    processor.saved = 0x07;
    chosen("more than v3 needs", 0, 3);
    processor.seven_b |= all_of(SEVEN_OF_V4, COUNT(SEVEN_OF_V4));
    chosen("registers of AVX-512", 0, 3);
    processor.saved = 0xE7;
    chosen("more than v4 needs", 0, HIGHEST);
    in_environment("v3", 3);
    in_environment("v2", 2);
    in_environment("v4", HIGHEST);
    in_environment("v1", HIGHEST);
    printf("processors: %d wrong\n", wrong);
    return wrong != 0;
}

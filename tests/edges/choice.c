/* The entry points of library/choice.c over functions that say for which processor they are. Link
 * with that file, compiled with the names below: choice WANTED, which is v2, v3 or v4. */
#include <stdio.h>
#include <string.h>

/* Each function with six arguments in registers and two on the stack. */
#define DECLARED(name) int name(int a, int b, int c, int d, int e, int f, int g, int h);
#define FOR_LEVEL(name, level)                                                                     \
    DECLARED(name)                                                                                 \
    int name(int a, int b, int c, int d, int e, int f, int g, int h) {                             \
        return (level) + a + 2 * b + 3 * c + 4 * d + 5 * e + 6 * f + 7 * g + 8 * h;                \
    }
#define DEFINED(name, offset)                                                                      \
    DECLARED(name)                                                                                 \
    FOR_LEVEL(v2_##name, 20000 + (offset))                                                         \
    FOR_LEVEL(v3_##name, 30000 + (offset))                                                         \
    FOR_LEVEL(v4_##name, 40000 + (offset))

DEFINED(choice_first, 0)
DEFINED(choice_second, 1000)
const char *choice_cpu(void);

int main(int count, char **words) {
    const char level = count > 1 ? words[1][1] : '2';
    const int base = (level - '0') * 10000 + 204; /* 1*1 + 2*2 + .. + 8*8 */
    const int first = choice_first(1, 2, 3, 4, 5, 6, 7, 8);
    const int second = choice_second(1, 2, 3, 4, 5, 6, 7, 8);
    const char cpu[] = {'x', '8', '6', '-', '6', '4', '-', 'v', level, '\0'};
    if (first != base || second != base + 1000 || strcmp(choice_cpu(), cpu) != 0) {
        fprintf(stderr, "choice: %d %d %s, expected %d %d %s\n", first, second, choice_cpu(), base,
                base + 1000, cpu);
        return 1;
    }
    return 0;
}

/* Runs every part, then looks at the stacks. The last line says whether all passed. */
#include "cases.h"
#include "check.h"
#include "lent.h"
#include <stdio.h>

/* No call may use more; ours are held to less. */
enum { MOST_STACK = 4096 };

static const size_t most_of_ours[KINDS] = {
    [READ] = 2000, [SIZE] = 2000, [WRITE] = 2000, [LIST] = 1200, [READ_LISTING] = 1600, [WHICH_GRANT] = 1200
};

static void stacks(void)
{
    for (size_t p = 0; p < PARTIES; p++)
        for (int kind = 0; kind < KINDS; kind++) {
            size_t used = stack_used(&parties[p], (enum kind)kind), most = p == ARCHIVE ? most_of_ours[kind] : MOST_STACK;
            printf("stack: %s %s uses at most %zu bytes\n", parties[p].name, kind_names[kind], used);
            expect(used <= most, "%s %s: more than %zu bytes of stack", parties[p].name, kind_names[kind], most);
        }
}

static void part(const char *name, void (*run)(void))
{
    unsigned long before = checks;
    run();
    printf("%s: %lu checks\n", name, checks - before);
}

int main(void)
{
    setvbuf(stdout, NULL, _IOLBF, 0); /* so that a crash does not swallow what was said before it */
    prepare_lending();
    part("readings", readings);
    part("registers", registers);
    part("pairs", pairs);
    part("writings", writings);
    part("sizes", sizes);
    part("relistings", relistings);
    part("borders", borders);
    part("limits", limits);
    part("lendings", lendings);
    part("made-up calls", made_up);
    part("queries", queries);
    part("stacks", stacks);
    if (failures != 0) {
        printf("C tests: %lu of %lu checks failed\n", failures, checks);
        return 1;
    }
    printf("C tests: all %lu checks passed\n", checks);
    return 0;
}

/*
 * What is counted: each case repeats one thing at the C boundary. The counting is done from outside, as the difference between
 * two numbers of repeats, so that the preparation does not count. It knows the header alone.
 *
 *     count cases           each case's name, the calls in one repeat, and what it is
 *     count run CASE N      repeats it N times
 *     count stack CASE      prints how deep one repeat goes into the stack, in bytes
 */
#define _XOPEN_SOURCE 700
#include "count.h"

#include <stdio.h>
#include <stdlib.h>
#include <ucontext.h>

static const struct bench_case {
    const char *name;
    unsigned calls;
    const char *what;
    void (*prepare)(void), (*repeat)(void);
} cases[] = {
#define CASE(name, calls, what, prepare, repeat) {name, calls, what, prepare, repeat},
#include "cases.h"
};

enum { CASES = sizeof cases / sizeof cases[0] };

void nothing(void) {}

static const struct bench_case *find(const char *name)
{
    for (size_t i = 0; i < CASES; i++)
        if (strcmp(cases[i].name, name) == 0)
            return &cases[i];
    fprintf(stderr, "count: there is no case '%s'\n", name);
    exit(2);
}

static void print_cases(void)
{
    for (size_t i = 0; i < CASES; i++)
        printf("%s %u %s\n", cases[i].name, cases[i].calls, cases[i].what);
}

static void run(const struct bench_case *c, unsigned long repeats)
{
    for (unsigned long i = 0; i < repeats; i++)
        c->repeat();
}

/* ---- the stack: one of our own, filled with a pattern, on which the repeat runs once */

enum { STACK = 65536, PATTERN = 0xA5 };

static size_t depth_of(void (*repeat)(void))
{
    static uint8_t stack[STACK];
    ucontext_t here, there;
    size_t untouched = 0;
    memset(stack, PATTERN, sizeof stack);
    getcontext(&there);
    there.uc_stack.ss_sp = stack;
    there.uc_stack.ss_size = sizeof stack;
    there.uc_link = &here;
    makecontext(&there, repeat, 0);
    swapcontext(&here, &there);
    while (untouched < STACK && stack[untouched] == PATTERN)
        untouched++;
    return STACK - untouched;
}

int main(int argc, char **argv)
{
    log_gate_reset(state, sizeof state);
    if (argc == 2 && strcmp(argv[1], "cases") == 0) {
        print_cases();
    } else if (argc == 4 && strcmp(argv[1], "run") == 0) {
        find(argv[2])->prepare();
        run(find(argv[2]), strtoul(argv[3], NULL, 10));
    } else if (argc == 3 && strcmp(argv[1], "stack") == 0) {
        find(argv[2])->prepare();
        printf("%zu\n", depth_of(find(argv[2])->repeat) - depth_of(nothing));
    } else {
        fprintf(stderr, "count: cases, run CASE N, or stack CASE\n");
        return 2;
    }
    return 0;
}

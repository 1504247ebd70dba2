/* For tests that end at the first thing that is not so. */
#ifndef EXPECT_H
#define EXPECT_H

#include <stdio.h>
#include <stdlib.h>

#define expect(holds, what) expect_in(__FILE__, (holds), (what))

static inline void expect_in(const char *file, int holds, const char *what)
{
    if (holds)
        return;
    printf("%s: not so: %s\n", file, what);
    exit(1);
}

#endif

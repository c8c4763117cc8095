/* What the programs that check the second program say when something isn't so. */
#ifndef CHECK_H
#define CHECK_H

#include <stdbool.h>
#include <stdio.h>

static unsigned failed;

#define CHECK(what) check((what), #what, __LINE__)

static void check(bool holds, const char *what, int line)
{
    if (holds)
        return;
    printf("check: line %d: not so: %s\n", line, what);
    failed++;
}

#endif

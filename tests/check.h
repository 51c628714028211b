/* The checks of a test from C, which from_c.py runs: each is counted, one that fails is named, and
 * the last line tells how many held. */
#ifndef CHECK_H
#define CHECK_H

#include <stdio.h>

static int passed, failed;

static void check(int held, const char *name)
{
    passed += held;
    failed += !held;
    if (!held)
        printf("FAILED: %s\n", name);
}

/* What main returns: a test in which nothing was checked fails too. */
static int checked(const char *test)
{
    printf("%s: %d passed, %d failed\n", test, passed, failed);
    return failed || !passed;
}

#endif

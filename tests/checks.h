/* Checks that are counted. */
#ifndef CHECKS_H
#define CHECKS_H

#include <stdio.h>

static int passed, failed;

/* One check. */
static void check(int right, const char *name, const char *why)
{
    passed += right;
    failed += !right;
    if (!right)
        printf("%s, %s\n", name, why);
}

/* Writes the closing line 'N passed, M failed'; 1 where a check failed. */
static int ended(void)
{
    printf("%d passed, %d failed\n", passed, failed);
    return failed != 0;
}

#endif

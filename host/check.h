/* Checks that are counted; one that fails is said. */
#ifndef CHECK_H
#define CHECK_H

#include <stdio.h>

static unsigned passed, failed;

static void check(int holds, const char *what)
{
    if (holds) {
        passed++;
    } else {
        failed++;
        printf("  SURPRISE: %s\n", what);
    }
}

/* Prints the counts; returns the exit status, 1 if a check failed. */
static int end_checks(void)
{
    printf("%u passed, %u failed\n", passed, failed);
    return failed != 0;
}

#endif

/* Compares the results of functions of ploverchaise.h with expected results, for the test programs of this folder. */
#ifndef CHECKS_H
#define CHECKS_H

#include "ploverchaise.h"

#include <stdio.h>

static unsigned passed, failed;

static void check(int line, const char *text, bool holds)
{
    passed += holds;
    failed += !holds;
    if (!holds)
        printf("line %d: %s\n", line, text);
}
#define CHECK(condition) check(__LINE__, #condition, condition)

static inline bool is(moc_result result, uint32_t code, uint64_t first, uint64_t second)
{
    return result.code == code && result.first == first && result.second == second;
}

/* Prints the numbers of checks that passed and failed, and returns the exit status of the program. */
static int report(void)
{
    printf("%u passed, %u failed\n", passed, failed);
    return failed != 0;
}

#endif

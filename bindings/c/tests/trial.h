/* What the tests of the header share: counting what holds, and records of blocks. Each test is a program of one file. */
#ifndef TRIAL_H
#define TRIAL_H

#include <stdio.h>
#include <string.h>

#include "lindenscoop.h"

#define CHECK(test) check((test), __FILE__, __LINE__, #test)

static unsigned passed, failed;

static inline void check(bool holds, const char *file, int line, const char *test)
{
    if (holds) {
        passed++;
        return;
    }
    failed++;
    fprintf(stderr, "%s: line %d: not %s\n", file, line, test);
}

/* The record of a block, form 9, which spells every field. */
static inline lindenscoop_record record_of(const char *block)
{
    lindenscoop_record r;
    memset(&r, 0xa5, sizeof r);
    CHECK(lindenscoop_read(LINDENSCOOP_BLOCK, block, strlen(block), &r) == LINDENSCOOP_OK);
    return r;
}

/* The counts, as the last thing that a test does. */
static inline int told(const char *name)
{
    printf("%s: %u passed, %u failed\n", name, passed, failed);
    return failed || !passed ? 1 : 0;
}

#endif

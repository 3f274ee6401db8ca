/* Counts what the programs of tests expect, and tells what is not so. */
#ifndef CHECK_H
#define CHECK_H

#include "nova.h"

#include <inttypes.h>
#include <stdio.h>

static unsigned long tried, wrong;

/* Expects that something holds. */
static inline void expect(bool holds, int line, const char *what)
{
    tried++;
    if (holds)
        return;
    wrong++;
    fprintf(stderr, "line %d: %s\n", line, what);
}

/* Expects that a call ended with a status. */
static inline void expect_status(uint32_t wanted, uint32_t status, int line, const char *call)
{
    tried++;
    if (status == wanted)
        return;
    wrong++;
    fprintf(stderr, "line %d: %s: %s, and not %s\n", line, call, nova_status_name(status), nova_status_name(wanted));
}

#define HOLDS(what) expect(what, __LINE__, #what)
#define TELLS(wanted, call) expect_status(NOVA_##wanted, call, __LINE__, #call)

/* Tells how many expectations were met. Gives the exit status. */
static inline int end_of_checks(const char *program)
{
    printf("%s: %lu expected, %lu wrong\n", program, tried, wrong);
    return wrong == 0 ? 0 : 1;
}

#endif

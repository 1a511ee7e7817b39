/* What is expected of the library, how often it was not so, and memory to try it with. */
#ifndef EXPECT_H
#define EXPECT_H
#include <stdio.h>
#include <stdlib.h>

static unsigned long tried, wrong;
static void expect(const char *what, unsigned long got, unsigned long wanted) {
    tried++;
    if (got == wanted) return;
    if (++wrong <= 20) printf("not so: %s: %lu, not %lu\n", what, got, wanted);
}

enum { JUNK = 0xA5 };                   /* what memory holds before a call */
static void *some(size_t bytes) {       /* never NULL, so that only what is meant to be is */
    void *p = malloc(bytes ? bytes : 1);
    if (!p) { printf("no memory\n"); exit(2); }
    return p;
}
#endif

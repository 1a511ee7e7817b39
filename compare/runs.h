/* What `search` compares, each in a file of its own. Status 0 where all agree. */
#ifndef COMPARE_RUNS_H
#define COMPARE_RUNS_H

enum { SHORT_BYTES = 1024 };            /* in a small network a journey has at most as many legs as there are stops */

int small(unsigned long count, unsigned long seed);
int cities(const char *size, unsigned count, unsigned seed);
int kept(const char *cases, const char *answers);

#endif

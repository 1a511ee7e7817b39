/* What the programs under libFuzzer share: blocks of exactly their bytes, the edges that are reached, what is done before and after. */
#ifndef COMPARE_FUZZING_H
#define COMPARE_FUZZING_H

#include <stddef.h>
#include <stdint.h>
#include <stdio.h>

/* What each program gives: its first inputs, one for each seed, for SEEDS=FOLDER; for LIE=what a call with a length that is too long, where
   the sanitizer must stop the proved code, or else it does not watch it; and how often each number was given, for the last line. */
size_t first_input(unsigned seed, uint8_t *data, size_t most);
void lie(const char *what);
void print_given(FILE *out);

static inline size_t least(size_t a, size_t b) { return a < b ? a : b; }

void *block(size_t bytes, int junk);            /* of exactly so many bytes, past which nothing may be touched; free takes it back */
void fail(const char *what, uint32_t ours, uint32_t plain);     /* stops the run */

/* A run is over: it is counted, and so are the edges of the proved code that it reached. */
extern unsigned long runs;
void end_run(void);
void print_runs(FILE *out);

size_t LLVMFuzzerMutate(uint8_t *data, size_t size, size_t most);       /* libFuzzer's own changes */

#endif

/* What the programs under libFuzzer share. */
#include <sanitizer/asan_interface.h>
#include <stdlib.h>
#include <string.h>
#include "fuzzing.h"

enum { SEEDS = 64, MOST_INPUT = 1 << 17, MOST_EDGES = 1 << 16 };

/* Of an empty one malloc would let the first byte be touched. */
void *block(size_t bytes, int junk) {
    void *p = malloc(bytes);
    memset(p, junk, bytes);
    if (bytes == 0) ASAN_POISON_MEMORY_REGION(p, 1);
    return p;
}

void fail(const char *what, uint32_t ours, uint32_t plain) {
    fprintf(stderr, "wrong: %s (ours %u, plain C %u)\n", what, ours, plain);
    abort();
}

/* The counters of the proved code's edges: no file of ours has any. libFuzzer clears them before each run. */
extern uint8_t __start___sancov_cntrs[], __stop___sancov_cntrs[];
static uint8_t seen[MOST_EDGES];
static size_t edges(void) { return least((size_t)(__stop___sancov_cntrs - __start___sancov_cntrs), MOST_EDGES); }

unsigned long runs;
void end_run(void) {
    for (size_t i = 0; i < edges(); i++) seen[i] |= __start___sancov_cntrs[i] != 0;
    runs++;
}
void print_runs(FILE *out) {
    size_t reached = 0;
    for (size_t i = 0; i < edges(); i++) reached += seen[i];
    fprintf(out, "%lu runs, %zu of %zu edges of the proved code; ", runs, reached, edges());
    print_given(out);
    fprintf(out, "; 0 wrong\n");         /* at a wrong one the run stops */
}

/* ---- before and after */

static void write_seeds(const char *folder) {
    static uint8_t data[MOST_INPUT];
    char path[4096];
    for (unsigned i = 0; i < SEEDS; i++) {
        snprintf(path, sizeof path, "%s/seed-%02u", folder, i);
        FILE *f = fopen(path, "wb");
        size_t n = first_input(i, data, sizeof data);
        if (!f || fwrite(data, 1, n, f) != n || fclose(f) != 0) { perror(path); exit(2); }
    }
}
static void last_line(void) { print_runs(stdout); }

int LLVMFuzzerInitialize(int *count, char ***words) {
    (void)count, (void)words;
    const char *folder = getenv("SEEDS"), *what = getenv("LIE");
    if (folder && folder[0]) write_seeds(folder);
    if (what && what[0]) lie(what);
    atexit(last_line);
    return 0;
}

/* generate SEED COUNT: writes COUNT small nasty networks, each with queries, in the form of oracle/cases.txt; the same seed gives the same
   lines. */
#include <stdio.h>
#include <stdlib.h>
#include "lines.h"
#include "nasty.h"

enum { QUERIES = 12, LONGEST = 4000 };  /* no network's line is longer */

int main(int argc, char **argv) {
    if (argc != 3) { fprintf(stderr, "generate SEED COUNT\n"); return 2; }
    uint64_t seed = strtoull(argv[1], NULL, 10), count = strtoull(argv[2], NULL, 10);
    network n = { 0 };
    flat t = { 0 };
    for (uint64_t i = 0; i < count; i++) {
        make_nasty(&n, seed, i, 0);
        flatten(&n, &t);
        if (print_network(&t) > LONGEST) { fprintf(stderr, "a network's line is too long\n"); return 1; }
        for (int k = 0; k < QUERIES; k++) {
            query q = fair_query(&n, &t);
            print_query(&q);
        }
    }
    return 0;
}

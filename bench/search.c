/* What one search takes in several writings, the Rust, plain C and the proved library, in time and memory: the tables of docs/BENCHMARKS.md.

   search times [CITY] | threads | growth | memory      a table; all agree on every query that is drawn for it
   search judge                                         a table; journeys are judged, and all get a yes */
#include <stdio.h>
#include <string.h>
#include "measure.h"
#include "../compare/rust.h"

int main(int argc, char **argv) {
    const char *what = argc > 1 ? argv[1] : "";
    rust_prepare();
    if (argc <= 3 && strcmp(what, "times") == 0) return times(argv[2]);
    if (argc == 2 && strcmp(what, "threads") == 0) return threads_table();
    if (argc == 2 && strcmp(what, "growth") == 0) return growth();
    if (argc == 2 && strcmp(what, "memory") == 0) return memory();
    if (argc == 2 && strcmp(what, "judge") == 0) return judging();
    fprintf(stderr, "search times [CITY] | threads | growth | memory | judge\n");
    return 2;
}

/* One search in several writings, the Rust, plain C and the proved library: whether they agree.

   search fuzz COUNT SEED                   COUNT small nasty networks: all agree on every query
   search cities middle|limit COUNT SEED    COUNT cities of 60 to 200 stops, or at the limits: all agree on 256 queries and more in each
   search kept CASES ANSWERS                the Rust's kept answers (oracle/): all agree with them

   With PUBLISHED=1 the Rust as published is asked in rescan mode too, and must differ. */
#include <stdio.h>
#include <stdlib.h>
#include <string.h>
#include "runs.h"
#include "rust.h"
#include "writings.h"

int main(int argc, char **argv) {
    const char *what = argc > 1 ? argv[1] : "";
    all.published = getenv("PUBLISHED") && strcmp(getenv("PUBLISHED"), "1") == 0;
    if (!rust_prepare()) { fprintf(stderr, "the Rust is built without overflow checks\n"); return 2; }
    if (argc == 4 && strcmp(what, "fuzz") == 0) return small(strtoul(argv[2], NULL, 10), strtoul(argv[3], NULL, 10));
    if (argc == 5 && strcmp(what, "cities") == 0) return cities(argv[2], strtoul(argv[3], NULL, 10), strtoul(argv[4], NULL, 10));
    if (argc == 4 && strcmp(what, "kept") == 0) return kept(argv[2], argv[3]);
    fprintf(stderr, "search fuzz COUNT SEED | cities middle|limit COUNT SEED | kept CASES ANSWERS\n");
    return 2;
}

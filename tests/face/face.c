/* The C face as a stranger meets it: each name of kiosk.h, each function and each duty, run against the library. tests/face.sh compiles it as
   C99 and as C++11. */
#include "tables.h"
#include "numbers.h"
#include "wrappers.h"
#include "judged.h"
#include "nothing.h"
#include "threads.h"
#include "overlap.h"
#include "most.h"
#include "stacks.h"

int main(int argc, char **argv) {
    if (argc != 5) { printf("face N.net M.net town.net long.net\n"); return 2; }
    const tables n = read_tables(argv[1]), m = read_tables(argv[2]), town = read_tables(argv[3]), far_away = read_tables(argv[4]);
    numbers(&n);
    words(&n, &m, &town);
    wrappers(&town, 8);
    judged(&n);
    judged_walks(&town);
    judged_most(&far_away);
    nothing(&town);
    two_threads(&town, 8);
    overlap(&town);
    most(&far_away);
    stacks(&far_away, kiosk_departure(0, 4095, 1));
    all_numbers();
    printf("kiosk.h version %d: %lu tried, %lu not so\n", KIOSK_VERSION, tried, wrong);
    free(n.words), free(m.words), free(town.words), free(far_away.words);
    return wrong > 0;
}

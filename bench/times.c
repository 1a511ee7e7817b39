/* The table of times: three cities, both directions and modes, and the check. */
#include <stdio.h>
#include <string.h>
#include "measure.h"
#include "table.h"

static void print_times(int i, const char *query, int first, const double *us) {
    print_city(i, first);
    put_cell(query);
    for (int c = 0; c < COLUMNS; c++) if (c != RUST_THREADS) put_cell(microseconds(us[c]));
    put_cell(quotient(us[CHECKED], us[PLAIN])), put_cell(quotient(us[RUST_NEW], us[CHECKED]));
    printf("\n");
    fflush(stdout);
}

/* Of all the cities, or of the one that is named. */
int times(const char *only) {
    static const char *const name[2][2] = { { "departure", "arrival" }, { "departure, rescan", "arrival, rescan" } };
    query q[QUERIES];
    double us[COLUMNS];
    printf("| network | query | the Rust | reused | plain C | ours | ours, checking | ours / plain C | the Rust / ours |\n");
    printf("|---|---|---|---|---|---|---|---|---|\n");
    for (int i = 0; i < CITIES; i++) {
        if (only && strcmp(only, city_of[i].name) != 0) continue;
        make_city_ready(city_of[i].size);
        for (uint32_t mode = 0; mode < 2; mode++) for (uint32_t when = 0; when < 2; when++) {
            draw_queries(&city_lists, &city, when, mode, q);
            measure(q, QUERIES, ~COLUMN(RUST_THREADS), 0, us);
            print_times(i, name[mode][when], mode == 0 && when == 0, us);
        }
        measure(q, 1, COLUMN(PLAIN) | COLUMN(CHECKED), 1, us);
        print_times(i, "the check alone", 0, us);
    }
    if (drawn[0] == 0) { fprintf(stderr, "no such city\n"); return 2; }
    return print_compared();
}

/* The table of threads: the Rust in order, with the stand-in for rayon, and over the real rayon with one thread and with its default. */
#include <stdio.h>
#include <stdlib.h>
#include <sys/mman.h>
#include <sys/wait.h>
#include <unistd.h>
#include "measure.h"
#include "table.h"
#include "../compare/writings.h"

/* What a process tells the one that prints. */
typedef struct { double us[CITIES][2][COLUMNS]; unsigned long asked, other_legs; unsigned differing; } told;

static void time_threads(told *out) {
    query q[QUERIES];
    for (int i = 0; i < CITIES; i++) {
        make_city_ready(city_of[i].size);
        for (uint32_t when = 0; when < 2; when++) {
            draw_queries(&city_lists, &city, when, 0, q);
            measure(q, QUERIES, COLUMN(RUST_NEW) | COLUMN(RUST_THREADS) | COLUMN(CHECKED), 0, out->us[i][when]);
        }
    }
    out->asked = all.with_threads, out->other_legs = all.other_legs, out->differing = all.differing;
}

int threads_table(void) {
    long many = sysconf(_SC_NPROCESSORS_ONLN);
    told *by = mmap(NULL, 2 * sizeof *by, PROT_READ | PROT_WRITE, MAP_SHARED | MAP_ANONYMOUS, -1, 0);
    if (by == MAP_FAILED) { perror("mmap"); return 2; }
    for (int i = 0; i < 2; i++) {       /* a process for each number of threads, since rayon makes its threads once */
        pid_t child = fork();
        int status;
        if (child == 0) {
            if (i == 0) setenv("RAYON_NUM_THREADS", "1", 1); else unsetenv("RAYON_NUM_THREADS");
            time_threads(&by[i]);
            fflush(stdout);
            _exit(0);
        }
        if (child < 0 || waitpid(child, &status, 0) != child || status != 0) { fprintf(stderr, "a process ended badly\n"); return 2; }
    }
    printf("| network | query | in order | one thread | %ld threads |", many);
    printf(" one thread / in order | %ld threads / in order | %ld threads / ours |\n", many, many);
    printf("|---|---|---|---|---|---|---|---|\n");
    for (int i = 0; i < CITIES; i++) for (int when = 0; when < 2; when++) {
        const double *one = by[0].us[i][when], *more = by[1].us[i][when];
        double order = one[RUST_NEW] < more[RUST_NEW] ? one[RUST_NEW] : more[RUST_NEW];       /* both processes measured it */
        printf("|");
        put_cell(when ? "" : city_of[i].name), put_cell(when ? "arrival" : "departure");
        put_cell(microseconds(order)), put_cell(microseconds(one[RUST_THREADS])), put_cell(microseconds(more[RUST_THREADS]));
        put_cell(quotient(one[RUST_THREADS], order)), put_cell(quotient(more[RUST_THREADS], order));
        put_cell(quotient(more[RUST_THREADS], more[CHECKED]));
        printf("\n");
    }
    printf("\nOther legs than in order: with one thread in %s of %s queries, with %ld threads in %s of %s. Another number, time, stop or "
           "round: in %u and %u.\n", whole(by[0].other_legs), whole(by[0].asked), many, whole(by[1].other_legs), whole(by[1].asked),
           by[0].differing, by[1].differing);
    return by[0].differing + by[1].differing > 0;
}

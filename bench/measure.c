/* The time of a query in each writing, in three cities. */
#include <stdio.h>
#include <time.h>
#include "measure.h"
#include "table.h"
#include "../compare/rust.h"
#include "../compare/writings.h"
#include "../plain/check.h"

double now(void) {
    struct timespec s;
    clock_gettime(CLOCK_MONOTONIC, &s);
    return (double)s.tv_sec * 1e6 + (double)s.tv_nsec / 1e3;
}

/* ---- the three cities */

const struct city city_of[CITIES] = {
    { "small", { 4, 3, 6, 4, 4, 2, 2 } }, { "middle", { 20, 10, 60, 8, 12, 20, 8 } }, { "limit", { 64, 64, 1024, 16, 16, 1024, 16 } } };
network city_lists;
flat city;

void make_lists_ready(void) {
    flatten(&city_lists, &city);
    make_ready(&city, KIOSK_MOST_JOURNEY);
}
void make_city_ready(grid size) {
    make_city(&city_lists, size, 1);
    make_lists_ready();
}
void print_city(int i, int first) {
    const network *n = &city_lists;
    if (!first) { printf("| |"); return; }
    printf("| %s: %s stops, %s routes, %s trips, %s times |", city_of[i].name, whole(n->stops), whole(n->routes), whole(n->trips),
           whole(n->times.rows));
}
int print_compared(void) {
    printf("\n%s queries were drawn for it, %s of them in rescan mode, and all agree on each", whole(drawn[0] + drawn[1]), whole(drawn[1]));
    printf(all.differing ? ", BUT FOR %u.\n" : ".\n", all.differing);
    return all.differing > 0;
}

/* ---- the columns: how a query is answered, and how the tables are checked */

static void by_rust(void *loaded, uint32_t reuse, const query *q) {
    static uint8_t journey[KIOSK_MOST_JOURNEY];
    uint32_t answer[5];
    rust_solve(loaded, &q->from_kind, reuse, journey, sizeof journey, answer);
}
void by_rust_new(const query *q) { by_rust(all.rust[q->mode], 0, q); }
static void by_rust_reused(const query *q) { by_rust(all.rust[q->mode], 1, q); }        /* one allocator, reset before each query */
static void by_threads(const query *q) { by_rust(all.threads, 0, q); }                  /* over the real rayon, a new allocator */
void by_plain(const query *q) { ask(plain_solve, city.word, city.len, &all.plain, q); }
void by_ours_checked(const query *q) { ask(ours_checked, city.word, city.len, &all.ours, q); }
static void by_ours(const query *q) { ask(ours_checking, city.word, city.len, &all.ours, q); }  /* the tables checked in each query */
void plain_checking(const query *q) { (void)q; volatile uint32_t number = plain_check(city.word, city.len); (void)number; }
void our_checking(const query *q) { (void)q; volatile uint32_t number = kiosk_check(city.word, city.len); (void)number; }

static const int always = 1;
static const struct { const int *there; runner solve, check; } columns[COLUMNS] = {
    [RUST_NEW] = { &has_rust, by_rust_new, NULL }, [RUST_REUSED] = { &has_rust, by_rust_reused, NULL },
    [RUST_THREADS] = { &has_threads, by_threads, NULL }, [PLAIN] = { &always, by_plain, plain_checking },
    [CHECKED] = { &has_ours, by_ours_checked, our_checking }, [CHECKING] = { &has_ours, by_ours, NULL },
};

/* ---- measuring */

enum { REPEATS = 15 };

/* In each repeat every column runs all the queries in turn, so that all share the machine's state. Of each query the least time over the
   repeats counts, since a machine that does other work only ever adds to it, often by more than a whole query; of these the mean over the
   queries is given. */
void measure(const query *q, int count, unsigned which, int check, double *out) {
    static double least[COLUMNS][QUERIES];
    runner run[COLUMNS];
    for (int c = 0; c < COLUMNS; c++) run[c] = *columns[c].there && which & COLUMN(c) ? check ? columns[c].check : columns[c].solve : NULL;
    for (int r = 0; r <= REPEATS; r++) for (int c = 0; c < COLUMNS; c++) if (run[c]) for (int k = 0; k < count; k++) {
        int loops = r == 0 ? 1 : 1 + (int)(50 / least[c][k]);          /* a short query several times, for the clock's sake */
        double start = now();
        for (int l = 0; l < loops; l++) run[c](&q[k]);
        double us = (now() - start) / loops;
        if (r <= 1 || us < least[c][k]) least[c][k] = us;               /* the first repeat is for warming up */
    }
    for (int c = 0; c < COLUMNS; c++) {
        out[c] = 0;
        if (run[c]) for (int k = 0; k < count; k++) out[c] += least[c][k] / count;
    }
}

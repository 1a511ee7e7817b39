/* The time of a query in each writing, in three cities. */
#ifndef BENCH_MEASURE_H
#define BENCH_MEASURE_H

#include "../compare/drawn.h"

double now(void);                       /* in microseconds */

/* How a query is answered, or the tables are checked: in the city that is ready. */
typedef void (*runner)(const query *);
void by_rust_new(const query *q);       /* a new allocator for each query, as in document 01 */
void by_plain(const query *q);
void by_ours_checked(const query *q);   /* tables checked before */
void plain_checking(const query *q);
void our_checking(const query *q);

/* The microseconds of one query, or of one check, in each column of `which`; 0 where there is none. */
enum { RUST_NEW, RUST_REUSED, RUST_THREADS, PLAIN, CHECKED, CHECKING, COLUMNS };
#define COLUMN(c) (1u << (c))
void measure(const query *q, int count, unsigned which, int check, double *out);

/* The three cities, the network that is asked, and making one ready. */
enum { CITIES = 3 };
extern const struct city { const char *name; grid size; } city_of[CITIES];
extern network city_lists;
extern flat city;
void make_city_ready(grid size);
void make_lists_ready(void);            /* what was put into city_lists */

void print_city(int i, int first);      /* the first cell of a city's rows: what it is, in the first of them */
int print_compared(void);               /* the end of a table: what was compared beside it */

/* The tables of docs/BENCHMARKS.md; all agree on every query that is drawn for them. */
int times(const char *only);            /* of all the cities, or of the one that is named */
int growth(void);
int memory(void);
int threads_table(void);
int judging(void);                      /* a yes or no on journey bytes beside a search */

#endif

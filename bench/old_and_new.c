/* Two states of the proved library in one program, at the limits: the same answers, and the time of each.

   old_and_new [ROUNDS]     default 31

   A round asks both all the queries of a kind, or checks the tables with both: of each query the old one, then the new one, or the other way
   round, in the same workspace, so that other work on the machine meets both alike; what is counted is the processor's time. Printed are the
   medians over the rounds in microseconds, and that of the rounds' quotients, with those that a quarter of the rounds are below and above; and
   the quotient of the least times: of each query the least over the rounds, summed. Where it says so the old one is asked alone, as if it were
   both: these quotients are the noise. The longest journey has 4,095 legs, so that what writes them counts for something. An old library that has the layout before is given the city in that one. */
#include <stdio.h>
#include <stdlib.h>
#include <string.h>
#include <time.h>
#include "../compare/city.h"
#include "../compare/dice.h"
#include "../plain/tables.h"

/* The old library's functions, renamed by old_and_new.sh. */
solver old_kiosk_solve_checked;
uint32_t old_kiosk_check(const uint32_t *tables, size_t tables_len);

enum { OLD, NEW, BOTH, QUERIES = 64, CHECKS = 8, MOST_ROUNDS = 1001 };
static flat city[BOTH];                 /* the same one in the layout of each */
static lent given[BOTH];

static double now(void) {
    struct timespec s;
    clock_gettime(CLOCK_THREAD_CPUTIME_ID, &s);
    return (double)s.tv_sec * 1e6 + (double)s.tv_nsec / 1e3;
}

static void end(const char *why) { fprintf(stderr, "%s\n", why), exit(1); }

/* ---- what is timed: a query, or where it is NULL a check */

typedef void runner(const lent *l, const query *q);
static void keep(uint32_t number) { volatile uint32_t kept = number; (void)kept; }
static void by_old(const lent *l, const query *q) {
    keep(q ? ask(old_kiosk_solve_checked, city[OLD].word, city[OLD].len, l, q) : old_kiosk_check(city[OLD].word, city[OLD].len));
}
static void by_new(const lent *l, const query *q) {
    keep(q ? ask(kiosk_solve_checked, city[NEW].word, city[NEW].len, l, q) : kiosk_check(city[NEW].word, city[NEW].len));
}

/* ---- the city, and queries in it on which both give the same answer, journey and workspace */

/* The tables in the layout before, of 20 words of header: without the last section. */
static flat before_standing(const flat *f) {
    flat older = { .len = f->word[STANDING] - 1 };
    older.word = malloc(4 * older.len);
    for (int k = 0; k < HEADER - 1; k++) older.word[k] = f->word[k] - 1;
    memcpy(older.word + HEADER - 1, f->word + HEADER, 4 * (older.len - (HEADER - 1)));
    return older;
}

static network lists;

/* The network's tables for both, and what is lent to both. */
static void make_ready(void) {
    flatten(&lists, &city[NEW]);
    city[OLD] = city[NEW];
    if (old_kiosk_check(city[OLD].word, city[OLD].len) != 0) city[OLD] = before_standing(&city[NEW]);
    if (old_kiosk_check(city[OLD].word, city[OLD].len) != 0 || kiosk_check(city[NEW].word, city[NEW].len) != 0) end("the network is refused");
    for (int i = 0; i < BOTH; i++) {
        right_lengths(city[NEW].word, given[i].len);
        given[i].len[JOURNEY] = KIOSK_MOST_JOURNEY, given[i].len[ANSWER] = 5;
        for (int k = 0; k < SLICES; k++) free(given[i].at[k]), given[i].at[k] = malloc(bytes_of(&given[i], k));
    }
}

/* Whether a journey is found. Both must give the same. */
static int found(const query *q) {
    for (int i = 0; i < BOTH; i++) for (int s = 0; s < SLICES; s++) memset(given[i].at[s], JUNK, bytes_of(&given[i], s));
    by_old(&given[OLD], q), by_new(&given[NEW], q);
    for (int s = 0; s < SLICES; s++) if (memcmp(given[OLD].at[s], given[NEW].at[s], bytes_of(&given[OLD], s)) != 0) end(slice_name[s]);
    return answer_of(&given[OLD])[0] == 0;
}

static void draw(uint32_t when, uint32_t mode, query *q) {
    for (int k = 0; k < QUERIES;) {
        q[k] = city_query(&lists, when, mode);
        k += refusal(city[NEW].word, &q[k]) == 0 && found(&q[k]);
    }
}

/* ---- timing */

static int by_size(const void *a, const void *b) { double x = *(const double *)a, y = *(const double *)b; return (x > y) - (x < y); }
static double quantile(double *x, int count, double part) {
    qsort(x, (size_t)count, sizeof *x, by_size);
    return x[(int)(part * (count - 1) + 0.5)];
}

static void compare(const char *name, runner *const run[BOTH], const query *q, int count, int rounds) {
    static double us[BOTH][MOST_ROUNDS], ratio[MOST_ROUNDS], least[BOTH][QUERIES];
    double best[BOTH] = { 0 };
    for (int r = -1; r < rounds; r++) {                 /* the first round is for warming up */
        double sum[BOTH] = { 0 };
        for (int k = 0; k < count; k++) for (int i = 0; i < BOTH; i++) {
            int which = (r + k + i) & 1;
            double start = now();
            run[which](&given[OLD], q ? &q[k] : NULL);
            double took = now() - start;
            sum[which] += took;
            if (r <= 0 || took < least[which][k]) least[which][k] = took;
        }
        if (r < 0) continue;
        for (int i = 0; i < BOTH; i++) us[i][r] = sum[i] / count;
        ratio[r] = sum[NEW] / sum[OLD];
    }
    for (int i = 0; i < BOTH; i++) for (int k = 0; k < count; k++) best[i] += least[i][k];
    printf("| %s | %.1f | %.1f |", name, quantile(us[OLD], rounds, 0.5), quantile(us[NEW], rounds, 0.5));
    printf(" %.3f | %.3f to %.3f |", quantile(ratio, rounds, 0.5), quantile(ratio, rounds, 0.25), quantile(ratio, rounds, 0.75));
    printf(" %.3f |\n", best[NEW] / best[OLD]);
    fflush(stdout);
}

int main(int argc, char **argv) {
    static const char *const name[2][2] = { { "departure", "arrival" }, { "departure, rescan", "arrival, rescan" } };
    static runner *const both[BOTH] = { by_old, by_new }, *const alone[BOTH] = { by_old, by_old };
    query q[QUERIES];
    int rounds = argc > 1 ? atoi(argv[1]) : 31;
    if (rounds < 1 || rounds > MOST_ROUNDS) end("old_and_new [ROUNDS]");
    make_city(&lists, limit_city, 1);
    make_ready();
    seed_dice(1, 0);
    printf("| at the limits | old | new | new / old | a quarter below and above | of the least |\n|---|---|---|---|---|---|\n");
    for (uint32_t mode = 0; mode < 2; mode++) for (uint32_t when = 0; when < 2; when++) {
        draw(when, mode, q);
        compare(name[mode][when], both, q, QUERIES, rounds);
    }
    compare("the check", both, NULL, CHECKS, rounds);
    seed_dice(1, 0);
    draw(0, 0, q);
    compare("departure, old and old", alone, q, QUERIES, rounds);
    compare("the check, old and old", alone, NULL, CHECKS, rounds);
    make_longest(&lists);
    make_ready();
    for (int k = 0; k < QUERIES; k++) q[k] = longest_query;
    if (!found(q)) end("the longest journey is not found");
    compare("the longest journey", both, q, QUERIES, rounds);
    compare("the longest journey, old and old", alone, q, QUERIES, rounds);
    return 0;
}

/* The table of judging: what a yes or no on journey bytes takes, beside a search for the same query, at the limits. */
#include <stdio.h>
#include <stdlib.h>
#include <string.h>
#include "measure.h"
#include "table.h"
#include "../compare/dice.h"
#include "../compare/journeys.h"
#include "../compare/writings.h"
#include "../plain/judge.h"

/* Journey bytes with their query. */
typedef struct { query q; uint32_t rides, legs; size_t len; uint8_t *bytes; } sent;
enum { SENT = 16, REPEATS = 15 };

static void keep(sent *s, const query *q, const uint8_t *bytes, size_t len) {
    uint32_t row[PARENT_WORDS], size;
    *s = (sent){ .q = *q, .len = len, .bytes = malloc(len + 1) };
    memcpy(s->bytes, bytes, len);
    for (size_t at = 0; (size = get_leg(bytes, len, at, row)) > 13; at += size) s->legs++, s->rides += row[0] == RIDE;
}

/* ---- judging, each way */

enum { SEARCH, BY_PLAIN, BY_OURS, BY_OURS_CHECKING, WAYS };
static uint64_t told;
static uint32_t by(judge *f, const sent *s) {
    const query *q = &s->q;
    return f(city.word, city.len, s->bytes, s->len, q->from_kind, q->from, q->to_kind, q->to, q->when, q->moment, q->walks, &told, 1);
}
static void run(int way, const sent *s) {
    if (way == SEARCH) { if (has_ours) by_ours_checked(&s->q); else by_plain(&s->q); }
    else by(way == BY_PLAIN ? plain_judge_checked : way == BY_OURS ? our_judge_checked : our_judge, s);
}
static int is_yes(judge *f, const sent *s) { return by(f, s) == 0 && told == 1; }

/* In each repeat every way runs all the journeys in turn; of each the least time counts, and of these the mean. */
static void measure_all(const sent *s, int count, double *out) {
    static double least[WAYS][QUERIES];
    for (int r = 0; r <= REPEATS; r++) for (int w = 0; w < WAYS; w++) for (int k = 0; k < count; k++) {
        if (w >= BY_OURS && !has_ours) continue;
        int loops = r == 0 ? 1 : 1 + (int)(50 / least[w][k]);
        double start = now();
        for (int l = 0; l < loops; l++) run(w, &s[k]);
        double us = (now() - start) / loops;
        if (r <= 1 || us < least[w][k]) least[w][k] = us;
    }
    for (int w = 0; w < WAYS; w++) {
        out[w] = 0;
        for (int k = 0; k < count; k++) out[w] += least[w][k] / count;
    }
}

/* ---- the journeys */

/* So many along the tables, each with 15 rides and right. */
static void draw_long(sent *s, int count) {
    static uint8_t bytes[MOST_LEGS * MOST_LEG];
    journey j;
    seed_dice(1, 7);
    for (int k = 0; k < count;) {
        if (!wander(city.word, 15, &j)) continue;
        keep(&s[k], &j.q, bytes, put_legs(&j, bytes));
        if (s[k].rides == 15 && is_yes(plain_judge_checked, &s[k])) k++; else free(s[k].bytes);
    }
}
/* What a search answers to departure queries. */
static void draw_answers(sent *s, int count) {
    query q[QUERIES];
    draw_queries(&city_lists, &city, 0, 0, q);
    for (int k = 0, i = 0; k < count; i = (i + 1) % QUERIES) {
        ask(plain_solve, city.word, city.len, &all.plain, &q[i]);
        if (answer_of(&all.plain)[0] == 0) keep(&s[k++], &q[i], journey_of(&all.plain), answer_of(&all.plain)[4]);
    }
}
/* ---- the table */

static double print_judged(const char *what, sent *s, int count) {
    double us[WAYS], rides = 0, legs = 0;
    for (int k = 0; k < count; k++) {
        rides += (double)s[k].rides / count, legs += (double)s[k].legs / count;
        const char *why = !is_yes(plain_judge_checked, &s[k]) ? "plain C says no" : !has_ours ? NULL
                        : !is_yes(our_judge_checked, &s[k]) || !is_yes(our_judge, &s[k]) ? "ours says no" : NULL;
        if (why) report(why, &city, &s[k].q);
    }
    measure_all(s, count, us);
    printf("| %s | %.3g | %s |", what, rides, whole((unsigned long)(legs + 0.5)));
    for (int w = 0; w < WAYS; w++) put_cell(microseconds(us[w]));
    put_cell(us[BY_OURS] > 0 ? figure(us[SEARCH] / us[BY_OURS]) : "");
    printf("\n");
    fflush(stdout);
    for (int k = 0; k < count; k++) free(s[k].bytes);
    return us[BY_OURS] / us[SEARCH];
}

int judging(void) {
    static sent s[QUERIES];
    printf("| journey | rides | legs | a search | judged by plain C | by ours | by ours, checking | a search / ours |\n");
    printf("|---|---|---|---|---|---|---|---|\n");
    make_city_ready(city_of[CITIES - 1].size);
    draw_long(s, SENT);
    double part = print_judged("limit: along the tables", s, SENT);
    draw_answers(s, SENT);
    print_judged("limit: as the search answers", s, SENT);
    make_longest(&city_lists);
    make_lists_ready();
    ask(plain_solve, city.word, city.len, &all.plain, &longest_query);
    keep(&s[0], &longest_query, journey_of(&all.plain), answer_of(&all.plain)[4]);
    print_judged("the longest", s, 1);
    printf("\nEach of them gets a yes");
    if (has_ours) printf("; at the limits a journey of 15 rides is judged in %.2g of the time of a search, and a fifth of it may be taken", part);
    printf(all.differing ? ", BUT FOR %u.\n" : ".\n", all.differing);
    return all.differing > 0 || part > 0.2;
}

/* "Write each leg once" (document 02): how often each byte of the journey buffer is stored to while a search answers.

   stores SOLVER CASES COUNT SEED    the queries of CASES, those of COUNT small nasty networks, some in a city at the limits, in both
                                     modes, and the longest journey

   SOLVER is `checked` or `checking`, the two faces of the proved search, or one of stores_wrong.c. Each is compiled so that every store that it makes is told
   here before it is made (stores.sh). A query is asked with room to spare, with exactly the room that its journey takes, and with one byte less; with a
   workspace that is too long, and in tables that are refused. On 0 each byte of the journey must be stored once and no other byte of the buffer, the legs
   one after the other as they are found; on any other number nothing. */
#include <stdio.h>
#include <stdlib.h>
#include <string.h>
#include "city.h"
#include "lines.h"
#include "nasty.h"
#include "stores_wrong.h"
#include "../plain/tables.h"

enum { BESIDE = 64 };                   /* bytes that are watched on either side of the buffer */

static uint8_t *watched;                /* the buffer, with the bytes beside it */
static size_t watched_len;
static unsigned long *times, *last, clock_;     /* of each byte: how often it was stored, and when last */

/* ---- what the solver tells */

static void saw(const void *p, size_t n) {
    size_t from = (size_t)((const uint8_t *)p - watched);
    clock_++;
    for (size_t i = 0; i < n; i++) if (from + i < watched_len) times[from + i]++, last[from + i] = clock_;    /* what lies before it wraps */
}
void __sanitizer_cov_store1(void *p) { saw(p, 1); }
void __sanitizer_cov_store2(void *p) { saw(p, 2); }
void __sanitizer_cov_store4(void *p) { saw(p, 4); }
void __sanitizer_cov_store8(void *p) { saw(p, 8); }
void __sanitizer_cov_store16(void *p) { saw(p, 16); }
void __sanitizer_cov_trace_pc_guard(uint32_t *g) { (void)g; }
void __sanitizer_cov_trace_pc_guard_init(uint32_t *a, uint32_t *e) { (void)a, (void)e; }
/* blocks of bytes, which a compiler makes of loops */
void told_memset(void *p, uint8_t x, uint64_t n, _Bool v) { (void)v, saw(p, n), memset(p, x, n); }
void told_memcpy(void *p, const void *from, uint64_t n, _Bool v) { (void)v, saw(p, n), memcpy(p, from, n); }
void told_memmove(void *p, const void *from, uint64_t n, _Bool v) { (void)v, saw(p, n), memmove(p, from, n); }

/* ---- one call */

static lent with, beside;               /* the solver's slices, and those of the proved search, which nobody watches */

static void lend(lent *l, const flat *t, uint8_t *journey) {
    static const size_t most[JOURNEY] = { 94 * MOST_STOPS + MOST_ROUTES, 144, 2 * MOST_STOPS + 1 };
    for (int i = 0; i < JOURNEY; i++) if (!l->at[i]) l->at[i] = malloc(slice_width[i] * most[i]);
    if (!l->at[ANSWER]) l->at[ANSWER] = malloc(slice_width[ANSWER] * 5);
    right_lengths(t->word, l->len);
    l->at[JOURNEY] = journey, l->len[ANSWER] = 5;
}

/* Whether the legs of the journey were stored one after the other as they are found: last first where the query departs. */
static int in_turn(const uint8_t *journey, size_t len, const unsigned long *stored, int departs) {
    unsigned long first_before = 0, last_before = 0;
    kiosk_one_leg leg;
    for (size_t at = 0, end = 0; kiosk_next_leg(journey, len, &end, &leg); at = end) {
        unsigned long first = stored[at], final = stored[at];
        for (size_t i = at; i < end; i++) {
            if (stored[i] < first) first = stored[i];
            if (stored[i] > final) final = stored[i];
        }
        if (at > 0 && (departs ? final >= first_before : first <= last_before)) return 0;
        first_before = first, last_before = final;
    }
    return 1;
}

static struct { unsigned long asked, found, departures, bytes, long_, none, seen, differ; } sum;

/* Asks with a buffer of so many bytes. Counts it where a store was wrong, and where a caller could tell the solver from the proved search. */
static void call(solver *f, const flat *t, const query *q, size_t room, uint32_t *answer) {
    size_t length = BESIDE + room + BESIDE;
    memset(watched, JUNK, length);
    memset(journey_of(&beside), JUNK, room);
    memset(times, 0, length * sizeof *times);
    with.len[JOURNEY] = beside.len[JOURNEY] = room;
    watched_len = length;
    ask(f, t->word, t->len, &with, q);
    watched_len = 0;                    /* from here on nobody watches */
    ask(kiosk_solve, t->word, t->len, &beside, q);
    memcpy(answer, answer_of(&with), 5 * sizeof *answer);
    size_t z = answer[0] == 0 ? answer[4] : 0;
    int wrong = 0;
    for (size_t i = 0; i < length; i++) wrong |= times[i] != (i >= BESIDE && i < BESIDE + z);
    sum.seen += wrong || !in_turn(journey_of(&with), z, last + BESIDE, q->when == 0);
    sum.differ += memcmp(answer, answer_of(&beside), 5 * sizeof *answer) != 0 || memcmp(journey_of(&with), journey_of(&beside), room) != 0;
    sum.asked++, sum.found += answer[0] == 0, sum.departures += answer[0] == 0 && q->when == 0, sum.bytes += z;
    sum.long_ += answer[0] == 12, sum.none += answer[0] != 0 && answer[0] != 12;
}

static void must_be(uint32_t number, const uint32_t *answer) {
    if (answer[0] != number) printf("the answer is %u, and must be %u\n", answer[0], number), exit(1);
}

static void ask_all(solver *f, const flat *t, const query *q, size_t room) {
    uint32_t answer[5], again[5];
    lend(&with, t, watched + BESIDE), lend(&beside, t, journey_of(&beside));
    call(f, t, q, room, answer);
    if (answer[0] == 0) {
        call(f, t, q, answer[4], again), must_be(0, again);
        call(f, t, q, answer[4] - 1, again), must_be(12, again);
    }
    with.len[PLACES]++, beside.len[PLACES]++;
    call(f, t, q, room, again), must_be(6, again);
    with.len[PLACES]--, beside.len[PLACES]--;
    if (f == kiosk_solve_checked) return;       /* it is to be asked in checked tables only */
    t->word[0]++;                       /* another layout */
    call(f, t, q, room, again), must_be(1, again);
    t->word[0]--;
}

int main(int argc, char **argv) {
    static char text[MOST_LINE];
    solver *f = argc == 5 ? solver_named(argv[1]) : NULL;
    FILE *cases = f ? fopen(argv[2], "r") : NULL;
    if (!cases) { fprintf(stderr, "stores SOLVER CASES COUNT SEED\n"); return 2; }
    unsigned long count = strtoul(argv[3], NULL, 10), seed = strtoul(argv[4], NULL, 10);
    size_t most = BESIDE + KIOSK_MOST_JOURNEY + BESIDE;
    watched = malloc(most), times = calloc(most, sizeof *times), last = calloc(most, sizeof *last), beside.at[JOURNEY] = malloc(most);
    flat t = { 0 };
    network n = { 0 };
    query q;
    while (fgets(text, sizeof text, cases)) {
        if (strncmp(text, "net", 3) == 0) read_network(text, &t);
        if (read_query(text, &q)) for (q.mode = 0; q.mode < 2; q.mode++) ask_all(f, &t, &q, 4096);
    }
    for (unsigned long i = 0; i < count; i++) {
        make_nasty(&n, seed, i, 1), flatten(&n, &t);
        for (int k = 0; k < 12; k++) q = nasty_query(&n, &t), ask_all(f, &t, &q, 4096);
    }
    make_city(&n, limit_city, seed), flatten(&n, &t);
    for (int k = 0; k < 40; k++) q = city_query(&n, k % 2, k / 2 % 2), ask_all(f, &t, &q, KIOSK_MOST_JOURNEY);
    make_longest(&n), flatten(&n, &t);
    ask_all(f, &t, &longest_query, KIOSK_MOST_JOURNEY);
    printf("%s: %lu calls, %lu journeys (%lu of departure queries) of %lu bytes, %lu times 12, %lu other refusals; a store is wrong in %lu; "
           "a caller sees a difference in %lu\n", argv[1], sum.asked, sum.found, sum.departures, sum.bytes, sum.long_, sum.none, sum.seen, sum.differ);
    return sum.found == 0 || sum.long_ == 0 || sum.none == 0;
}

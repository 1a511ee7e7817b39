/* Journeys judged by the proved library and by plain C: whether they agree, and whether all that the search writes gets a yes.

   judge fuzz COUNT SEED                    COUNT journeys in small nasty networks, and some in small cities
   judge cities middle|limit COUNT SEED     journeys in COUNT cities of 60 to 200 stops, or at the limits
   judge kept CASES ANSWERS                 the Rust's kept legs (oracle/), and what our search answers to the same queries, in both modes
   judge lines COUNT SEED                   the same as fuzz, each journey as a line for judge.py

   A journey is what the search answered, or one that is made up along the tables. It is judged as it is, and then with one thing changed, again and
   again. What is lent ends or begins at a page that may not be touched, and the tables stand in pages that may only be read. Compared: the number, what
   is told, and that nothing else is written. */
#include <stdio.h>
#include <stdlib.h>
#include <string.h>
#include "city.h"
#include "dice.h"
#include "fence.h"
#include "journeys.h"
#include "lines.h"
#include "nasty.h"
#include "../plain/check.h"
#include "../plain/judge.h"
#include "../plain/tables.h"

enum { MOST_BYTES = MOST_LEGS * MOST_LEG + 64, MOST_TOLD = 4, PROGRESS = 100000 };

static struct { pages tables, damaged, journey, told; } fenced;
static const uint32_t *tables;          /* the network that journeys are judged in, in pages that may only be read */
static size_t tables_len;
static int both[2];                     /* whether its footpaths are listed both ways: without walks, and with them */
static int as_lines;

static unsigned long networks, judged, yes, no, given[14], fed, arrivals, differing;

/* ---- agreement */

static uint32_t call(judge *f, const uint32_t *t, size_t t_len, const uint8_t *bytes, size_t len, const query *q, uint64_t *told, size_t told_len) {
    return f(t, t_len, bytes, len, q->from_kind, q->from, q->to_kind, q->to, q->when, q->moment, q->walks, told, told_len);
}

static void print_call(const uint8_t *bytes, size_t len, const query *q, uint32_t number, uint64_t told) {
    printf("j %u %u %u %u %u %u %u ", q->from_kind, q->from, q->to_kind, q->to, q->when, q->moment, q->walks);
    for (size_t i = 0; i < len; i++) printf("%02x", bytes[i]);
    printf(len ? " %u" : "- %u", number);
    if (number == 0 || number == 13) printf(" %llu", (unsigned long long)told);
    printf("\n");
}

/* Three are shown. */
static void report(const char *what, const uint8_t *bytes, size_t len, const query *q, uint32_t number, uint64_t told) {
    static const flat too_long = { 0 };
    const flat t = { (uint32_t *)(uintptr_t)tables, tables_len, tables_len };
    if (++differing > 3) return;
    printf("differs: %s\n", what);
    print_network(tables_len < 4000 ? &t : &too_long);  /* a city's tables are not shown */
    print_call(bytes, len, q, number, told);
}

/* One judge beside plain C, which gave this number and told this: the number, all that is lent to be told in, and the bytes. */
static const char *judge_differs(judge *f, const uint32_t *t, size_t t_len, const uint8_t *bytes, size_t len, const query *q, uint32_t number,
                                 const uint64_t *wanted, size_t told_len) {
    int end = percent(70);
    uint8_t *there = slice(&fenced.journey, len, end);
    uint64_t *told = slice(&fenced.told, 8 * told_len, end);
    if (len) memcpy(there, bytes, len);
    memset(told, JUNK, 8 * told_len);
    uint32_t ours = call(f, t, t_len, there, len, q, told, told_len);
    if (ours != number) return "the number";
    if (memcmp(told, wanted, 8 * told_len) != 0) return number == 0 ? "yes or no" : number == 13 ? "the offset" : "what a refusal left";
    return memcmp(there, bytes, len) == 0 ? NULL : "the journey bytes are written";
}

static void count(uint32_t number, uint64_t told) {
    judged++, given[number]++;
    if (number == 0) yes += told == 1, no += told != 1;
    if (judged % PROGRESS == 0) fprintf(stderr, "%lu judged: %lu yes, %lu no; %lu differ\n", judged, yes, no, differing);
}

/* Both functions beside plain C; `checking` where the one that checks the tables is asked too. Gives whether it is a yes. */
static int judge_all(const uint8_t *bytes, size_t len, const query *q, int checking) {
    uint64_t wanted[MOST_TOLD];
    size_t told_len = percent(90) ? 1 : below_n(MOST_TOLD + 1);
    memset(wanted, JUNK, sizeof wanted);
    uint32_t number = call(plain_judge_checked, tables, tables_len, bytes, len, q, wanted, told_len);
    const char *what = judge_differs(kiosk_judge_checked, tables, tables_len, bytes, len, q, number, wanted, told_len);
    if (!what && checking) what = judge_differs(kiosk_judge, tables, tables_len, bytes, len, q, number, wanted, told_len);
    if (what) report(what, bytes, len, q, number, wanted[0]);
    count(number, wanted[0]);
    if (as_lines && told_len > 0) print_call(bytes, len, q, number, wanted[0]);
    return number == 0 && told_len > 0 && wanted[0] == 1;
}

/* Tables with a word changed: the number of plain C's check comes before all else, or they are judged as plain C does. */
static void judge_damaged(const flat *t, const uint8_t *bytes, size_t len, const query *q) {
    uint32_t at = below_n(percent(30) ? HEADER : (uint32_t)t->len), old = t->word[at], some = below_n(64);
    uint32_t word = percent(50) ? old + PICK(1, ABSENT) : PICK(0, 1, some, ABSENT, LAST_MOMENT + 1);
    size_t told_len = (size_t)percent(70), cut = percent(90) ? t->len : below_n((uint32_t)t->len);
    uint64_t wanted[MOST_TOLD];
    widen(&fenced.damaged, 4 * t->len);
    uint32_t *copy = slice(&fenced.damaged, 4 * cut, 1);
    t->word[at] = word;
    memcpy(copy, t->word, 4 * cut);
    t->word[at] = old;
    memset(wanted, JUNK, sizeof wanted);
    uint32_t number = call(plain_judge, copy, cut, bytes, len, q, wanted, told_len);
    const char *what = judge_differs(kiosk_judge, copy, cut, bytes, len, q, number, wanted, told_len);
    if (what) report("damaged tables", bytes, len, q, number, wanted[0]), printf("word %u is %u, %zu words: %s\n", at, word, cut, what);
    count(number, wanted[0]);
    if (!as_lines || told_len == 0) return;
    print_network(&(flat){ copy, cut, cut }), print_call(bytes, len, q, number, wanted[0]);
    print_network(t);
}

/* ---- a network: its tables for the judges, and a search in it */

static lent lent_to;

static void make_ready(const flat *t) {
    static const size_t most[SLICES] = { 94 * MOST_STOPS + MOST_ROUTES, 144, 2 * MOST_STOPS, KIOSK_MOST_JOURNEY, 5 };
    uint32_t number = plain_check(t->word, t->len);
    if (number != 0) { printf("the network is refused with %u\n", number); exit(1); }
    if (fenced.tables.low) mprotect(fenced.tables.low, fenced.tables.room, PROT_READ | PROT_WRITE);
    widen(&fenced.tables, 4 * t->len);
    uint32_t *copy = slice(&fenced.tables, 4 * t->len, networks % 4 != 0);
    memcpy(copy, t->word, 4 * t->len);
    mprotect(fenced.tables.low, fenced.tables.room, PROT_READ);
    tables = copy, tables_len = t->len, networks++;
    for (int walking = 0; walking < 2; walking++) both[walking] = both_ways(tables, walking);
    for (int i = 0; i < SLICES; i++) if (!lent_to.at[i]) lent_to.at[i] = malloc(slice_width[i] * most[i]);
    right_lengths(tables, lent_to.len);
    lent_to.len[JOURNEY] = KIOSK_MOST_JOURNEY, lent_to.len[ANSWER] = 5;
    if (as_lines) print_network(t);
}

/* What the search writes gets a yes for its own query: of an arrival, where the footpaths are listed both ways. */
static void judge_written(const uint8_t *bytes, size_t len, const query *q, int checking, const char *whose) {
    uint64_t told = 0;
    int promised = q->when == 0 || both[q->walks != KIOSK_WALKS_BARRED];
    uint32_t number = call(kiosk_judge_checked, tables, tables_len, bytes, len, q, &told, 1);
    if (promised && (number != 0 || told != 1)) report(whose, bytes, len, q, number, told);
    judge_all(bytes, len, q, checking);
    fed += promised != 0, arrivals += !promised;
}

/* The search's answer to a query, judged, and its legs: 0 where there is none, or where they are too many to be changed. */
static int search_and_judge(const query *q, int checking, journey *j) {
    if (refusal(tables, q) != 0 || ask(kiosk_solve_checked, tables, tables_len, &lent_to, q) != 0) return 0;
    uint32_t len = answer_of(&lent_to)[4];
    widen(&fenced.journey, len);
    judge_written(journey_of(&lent_to), len, q, checking, "what the search wrote is no yes");
    j->q = *q;
    return take_legs(j, journey_of(&lent_to), len);
}

/* A journey changed in one thing, so many times, each time from the beginning or, one time in four, on top of the last change. */
static void judge_changed(const journey *right, int times, int checking) {
    uint8_t bytes[MOST_BYTES];
    journey j = *right;
    for (int i = 0; i < times; i++) {
        if (percent(75)) j = *right;
        change_journey(tables, &j);
        size_t len = put_legs(&j, bytes);
        if (percent(8)) len = change_bytes(bytes, len);
        judge_all(bytes, len, &j.q, checking);
    }
}

/* ---- the runs */

static int last_line(void) {
    unsigned long refused = 0;
    for (int i = 1; i < 10; i++) refused += given[i];
    FILE *out = as_lines ? stderr : stdout;
    fprintf(out, "%lu networks; %lu answers of a search must get a yes, of %lu arrivals, with footpaths not listed both ways, plain C is asked; given",
            networks, fed, arrivals);
    for (int i = 0; i < 14; i++) if (given[i]) fprintf(out, " %d: %lu", i, given[i]);
    fprintf(out, "\n%lu journeys judged: %lu yes, %lu no, %lu bad (13), %lu refused (1 to 9); %lu differ\n", judged, yes, no, given[13], refused,
            differing);
    return differing > 0 || judged == 0;
}

/* Two stops and buses to and fro, each as soon as the one before has come: from 1 up to 17 rides. More than 15 are a no. */
static void make_shuttle(network *n, uint32_t rides) {
    empty_network(n);
    n->stops = 2, n->routes = 2, n->trips = 2 * rides;
    for (uint32_t r = 0; r < 2; r++) {
        ADD(&n->route_stops, r, r), ADD(&n->route_stops, r, 1 - r);
        for (uint32_t k = 0; k < rides; k++) {
            uint32_t trip = 2 * k + r, leaves = 10 * trip + 10;
            ADD(&n->route_trips, r, trip);
            ADD(&n->times, trip, leaves, leaves), ADD(&n->times, trip, leaves + 10, leaves + 10);
        }
    }
}
static void judge_shuttle(flat *t, uint32_t rides) {
    static network n;
    uint8_t bytes[MOST_BYTES];
    journey j = { .q = { .to = rides % 2, .when = below_n(2) } };
    make_shuttle(&n, rides);
    flatten(&n, t);
    make_ready(t);
    for (uint32_t i = 0; i < rides; i++, j.legs++) {
        uint32_t row[PARENT_WORDS] = { RIDE, i % 2, 1 - i % 2, i, 10 * i + 10, 10 * i + 20 };
        memcpy(j.row[i], row, sizeof row);
    }
    j.q.moment = j.q.when ? 10 * rides + 10 : 10;
    size_t len = put_legs(&j, bytes);
    uint64_t told = 9;
    uint32_t number = call(kiosk_judge, tables, tables_len, bytes, len, &j.q, &told, 1);
    if (number != 0 || told != (rides <= 15)) report("15 rides, and no more", bytes, len, &j.q, number, told);
    judge_all(bytes, len, &j.q, 1);
    judge_changed(&j, 16, 1);
}

enum { QUERIES_EACH = 6, WANDERS_EACH = 4, CHANGES_EACH = 6 };
static int fuzz(unsigned long count, unsigned long seed) {
    network n = { 0 };
    flat t = { 0 };
    journey j = { .legs = 0 };
    uint8_t bytes[MOST_BYTES];
    grid town = { 6, 5, 18, 6, 5, 6, 3 };
    for (unsigned long i = 0; judged < count; i++) {
        int city = i % 61 == 60;
        if (city) make_city(&n, town, seed + i); else make_nasty(&n, seed, i, 1);
        if (i % 16 == 15) judge_shuttle(&t, range(12, 17));
        flatten(&n, &t);
        make_ready(&t);
        for (int k = 0; k < QUERIES_EACH; k++) {
            query q = city ? city_query(&n, (uint32_t)k % 2, 0) : nasty_query(&n, &t);
            for (uint32_t mode = 0; mode < 2; mode++) {
                if (mode || q.mode < 2) q.mode = mode;
                if (search_and_judge(&q, 1, &j)) judge_changed(&j, CHANGES_EACH, 1);
            }
            if (refusal(tables, &q) == 0) continue;
            j.q = q;                    /* with the legs of another query, if of any */
            judge_all(bytes, put_legs(&j, bytes), &q, 1);
            judge_changed(&j, CHANGES_EACH, 1);
        }
        for (int k = 0; k < WANDERS_EACH; k++) {
            uint32_t rides = PICK(1, 2, 3, 5, 8, 14, 15, 16, 17);
            if (!wander(tables, rides, &j)) continue;
            judge_all(bytes, put_legs(&j, bytes), &j.q, 1);
            judge_changed(&j, CHANGES_EACH, 1);
            judge_damaged(&t, bytes, put_legs(&j, bytes), &j.q);
        }
    }
    return last_line();
}

static int cities(const char *size, unsigned count, unsigned seed) {
    network n = { 0 };
    flat t = { 0 };
    journey j = { .legs = 0 };
    uint8_t bytes[MOST_BYTES];
    int limit = strcmp(size, "limit") == 0;
    for (unsigned i = 0; i < count; i++) {
        uint32_t wide = 6 + (seed + i) % 15;
        grid middle = { wide, 10, 3 * wide, 8, 12, 6, 3 };
        make_city(&n, limit ? limit_city : middle, seed + i);
        flatten(&n, &t);
        make_ready(&t);
        for (unsigned k = 0; k < 256; k++) {
            query q = city_query(&n, k % 2, k / 2 % 2);
            int checking = !limit || k % 64 == 0;       /* at the limits a check takes longer than all else */
            if (search_and_judge(&q, checking, &j)) judge_changed(&j, limit ? 4 : 16, checking);
            if (!wander(tables, range(1, 17), &j)) continue;
            judge_all(bytes, put_legs(&j, bytes), &j.q, checking);
            judge_changed(&j, limit ? 4 : 16, checking);
        }
    }
    return last_line();
}

/* `0 time stop round L | ride from to trip departure arrival | transfer from to departure arrival ..` as bytes; 0 for a number alone. */
static size_t kept_bytes(const char *line, uint8_t *bytes) {
    size_t len = 0;
    while ((line = strchr(line, '|')) != NULL) {
        char kind[16];
        uint32_t row[PARENT_WORDS] = { 0 };
        line++;
        if (sscanf(line, " %15s", kind) != 1) exit(2);
        row[0] = strcmp(kind, "ride") == 0 ? RIDE : strcmp(kind, "transfer") == 0 ? TRANSFER : WALK;
        int fields = row[0] == RIDE ? sscanf(line, " %*s %u %u %u %u %u", row + 1, row + 2, row + 3, row + 4, row + 5) - 1
                                    : sscanf(line, " %*s %u %u %u %u", row + 1, row + 2, row + 4, row + 5);
        if (fields != 4) { printf("no leg: %s\n", line); exit(2); }
        put_leg(bytes + len, row), len += leg_size(row);
    }
    return len;
}

static int kept(const char *cases, const char *answers) {
    static char text[MOST_LINE], answer[1 << 16];
    static uint8_t bytes[1 << 16];
    flat t = { 0 };
    query q;
    journey j = { .legs = 0 };
    unsigned long with_legs = 0;
    FILE *c = fopen(cases, "r"), *a = fopen(answers, "r");
    if (!c || !a) { fprintf(stderr, "no such file\n"); return 2; }
    seed_dice(1, 0);
    while (fgets(text, sizeof text, c)) {
        if (strncmp(text, "net", 3) == 0) read_network(text, &t), make_ready(&t);
        if (!read_query(text, &q)) continue;
        if (!fgets(answer, sizeof answer, a)) return 2;
        size_t len = kept_bytes(answer, bytes);
        if (len > 0) judge_written(bytes, len, &q, 1, "the Rust's kept legs are no yes"), with_legs++;
        for (q.mode = 0; q.mode < 2; q.mode++) if (search_and_judge(&q, 1, &j)) judge_changed(&j, 8, 1);
    }
    printf("%lu kept answers with legs of the Rust's; ", with_legs);
    return last_line() || with_legs == 0;
}

int main(int argc, char **argv) {
    const char *what = argc > 1 ? argv[1] : "";
    fenced.journey = fence(1 << 17), fenced.told = fence(8 * MOST_TOLD);
    as_lines = strcmp(what, "lines") == 0;
    if (argc == 4 && (as_lines || strcmp(what, "fuzz") == 0)) return fuzz(strtoul(argv[2], NULL, 10), strtoul(argv[3], NULL, 10));
    if (argc == 5 && strcmp(what, "cities") == 0) return cities(argv[2], (unsigned)atoi(argv[3]), (unsigned)atoi(argv[4]));
    if (argc == 4 && strcmp(what, "kept") == 0) return kept(argv[2], argv[3]);
    fprintf(stderr, "judge fuzz COUNT SEED | cities middle|limit COUNT SEED | kept CASES ANSWERS | lines COUNT SEED\n");
    return 2;
}

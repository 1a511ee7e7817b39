/* Tables from a file, and what is lent to a search on them. */
#ifndef TABLES_H
#define TABLES_H
#include <string.h>
#include "expect.h"
#include "kiosk.h"

typedef struct { uint32_t *words; size_t len; } tables;

/* `net w0 w1 ..`, as tools/timetable.py writes it. */
static tables read_tables(const char *path) {
    FILE *f = fopen(path, "r");
    tables t = { NULL, 0 };
    size_t room = 1 << 20;
    unsigned long word;
    if (!f || fscanf(f, "net") != 0) { printf("%s: no tables\n", path); exit(2); }
    t.words = (uint32_t *)some(room * sizeof *t.words);
    while (t.len < room && fscanf(f, "%lu", &word) == 1) t.words[t.len++] = (uint32_t)word;
    fclose(f);
    return t;
}

/* A workspace and a journey buffer for the tables. */
typedef struct { kiosk_workspace work; uint8_t *journey; size_t journey_len; } lent;

static void spoil(const lent *l) {
    memset(l->work.words, JUNK, l->work.lengths.words * sizeof *l->work.words);
    memset(l->work.marks, JUNK, l->work.lengths.marks * sizeof *l->work.marks);
    memset(l->work.places, JUNK, l->work.lengths.places * sizeof *l->work.places);
    memset(l->journey, JUNK, l->journey_len);
}
static lent lend(const tables *t, size_t journey_len) {
    lent l;
    if (kiosk_lengths_for(t->words, t->len, &l.work.lengths) != KIOSK_FOUND) { printf("the tables are refused\n"); exit(2); }
    l.work.words = (uint32_t *)some(l.work.lengths.words * sizeof *l.work.words);
    l.work.marks = (uint64_t *)some(l.work.lengths.marks * sizeof *l.work.marks);
    l.work.places = (uint32_t *)some(l.work.lengths.places * sizeof *l.work.places);
    l.journey = (uint8_t *)some(journey_len);
    l.journey_len = journey_len;
    spoil(&l);
    return l;
}
static void give_back(const lent *l) { free(l->work.words); free(l->work.marks); free(l->work.places); free(l->journey); }

/* Whether two calls left the same behind, to the last word and byte. */
static int same_left(const lent *a, const lent *b) {
    return memcmp(a->work.words, b->work.words, a->work.lengths.words * sizeof *a->work.words) == 0
        && memcmp(a->work.marks, b->work.marks, a->work.lengths.marks * sizeof *a->work.marks) == 0
        && memcmp(a->work.places, b->work.places, a->work.lengths.places * sizeof *a->work.places) == 0
        && memcmp(a->journey, b->journey, a->journey_len) == 0;
}

/* Asks by the wrapper, and counts the numbers that were given. */
static unsigned long given[14];
static kiosk_answer ask(const tables *t, const lent *l, kiosk_query q) {
    kiosk_answer a;
    uint32_t number = kiosk_ask(t->words, t->len, &l->work, l->journey, l->journey_len, &q, &a);
    expect("the number is the answer's first word", a.number, number);
    if (number < 14) given[number]++;
    return a;
}
#endif

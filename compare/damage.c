/* Bad input through the C face: damaged tables, queries, workspaces, buffers and answers, each slice against a page that may not be touched.

   damage COUNT SEED    COUNT small nasty networks, 64 calls on each

   A slice ends, or begins, exactly at such a page, so that a read or write past it stops the run. Compared: the number of the tables with a
   plain C check, the room with the design's lengths, what is untouched, and that the lowest number is given. */
#include <stdio.h>
#include <stdlib.h>
#include <string.h>
#include "dice.h"
#include "face.h"
#include "fence.h"
#include "nasty.h"
#include "../plain/check.h"
#include "../plain/tables.h"

enum { CALLS_EACH = 64, MOST_WORDS = 1 << 16 };

static struct { pages tables, lent[SLICES]; } fenced;
static unsigned long calls, given[14], wrong;
static uint64_t seed;
static void expect(int so, const char *what) {
    if (!so && wrong++ < 20) printf("seed %llu: %s\n", (unsigned long long)seed, what);
}

/* The tables with some words changed, or cut, or longer. Its length is given back. */
static size_t damage(uint32_t *w, size_t len) {
    if (percent(45)) return len;
    if (percent(15)) { size_t cut = range(0, (uint32_t)len); return percent(30) ? range(0, 25) % (cut + 1) : cut; }
    if (percent(10) && len + 3 < MOST_WORDS) { for (int i = 0; i < 3; i++) w[len + i] = odd_word((uint32_t)len); return len + range(1, 3); }
    for (uint32_t i = range(1, 3); i > 0; i--) {
        size_t at = percent(25) ? range(0, HEADER - 1) : range(0, (uint32_t)len - 1);
        if (at < len) w[at] = percent(50) ? w[at] + range(0, 2) - 1 : odd_word((uint32_t)len);
    }
    return len;
}
static size_t odd_length(size_t right) {
    if (percent(80)) return right;
    return percent(50) ? right + range(0, 2) - (right > 0) : range(0, 3);
}
static query odd_query(uint32_t stops) {
    query q;
    q.when = percent(95) ? range(0, 1) : odd_word(4), q.walks = percent(95) ? range(0, 2) : odd_word(4);
    q.mode = percent(95) ? range(0, 1) : odd_word(4), q.moment = percent(85) ? range(1, 60) : odd_word(100);
    q.from_kind = percent(95) ? (uint32_t)percent(15) : odd_word(4), q.from = percent(92) ? range(0, stops ? stops - 1 : 3) : odd_word(stops);
    q.to_kind = percent(95) ? (uint32_t)percent(15) : odd_word(4), q.to = percent(92) ? range(0, stops ? stops - 1 : 3) : odd_word(stops);
    return q;
}

/* The room that is told: the right lengths, or of refused tables any, and then nothing may be written. */
static void check_room(const uint32_t *tables, size_t len, uint32_t number, int end, size_t *right) {
    uint32_t *room = slice(&fenced.lent[ANSWER], 12, end);
    memset(room, JUNK, 12);
    expect(kiosk_room(tables, len, room, 3) == number, "the number of the room");
    if (number == 0) {
        right_lengths(tables, right);
        expect(room[0] == right[WORDS] && room[1] == right[MARKS] && room[2] == right[PLACES], "the room");
    } else {
        expect(all_junk(room, 12), "a refused room is written");
        right[WORDS] = range(0, 40), right[MARKS] = range(0, 4), right[PLACES] = range(0, 8);
    }
}

/* What a call with this number may have written, and what it must say. */
static void check_answer(uint32_t r, uint32_t number, const lent *l, const size_t *right) {
    const uint32_t *answer = answer_of(l);
    size_t j = l->len[JOURNEY], a = l->len[ANSWER];
    int ran = r == 0 || r >= 10, sized = a >= 5;
    for (int i = 0; i < JOURNEY; i++) {
        sized &= l->len[i] == right[i];
        if (!ran) expect(all_junk(l->at[i], bytes_of(l, i)), "a refusal touched the workspace");
    }
    if (r != 0) expect(all_junk(l->at[JOURNEY], j), "a refusal touched the journey");
    if (number != 0) expect(r == number, "the tables' number is the lowest");
    if (number == 0) expect((r == 6) == !sized, "number 6");
    if (a < 5) { expect(all_junk(answer, 4 * a), "a short answer is written"); return; }
    expect(answer[0] == r && all_junk(answer + 5, 4 * (a - 5)), "the answer's words");
    if (r != 0) expect(!(answer[1] | answer[2] | answer[3] | (r == 12 ? 0 : answer[4])), "a field that is to be 0");
    if (r == 12) expect(answer[4] > j, "12 and the length");
    if (r == 0) expect(answer[4] <= j && answer[4] >= 21 && all_junk(journey_of(l) + answer[4], j - answer[4]), "0 and the journey");
}

/* One call on a damaged copy of the tables. */
static void call(const flat *f) {
    static uint32_t copy[MOST_WORDS];
    int end = percent(70);
    memcpy(copy, f->word, 4 * f->len);
    size_t len = damage(copy, f->len), right[3];
    uint32_t *tables = slice(&fenced.tables, 4 * len, end), number = plain_check(copy, len);
    memcpy(tables, copy, 4 * len);
    if (kiosk_check(tables, len) != number) { expect(0, "the number of the tables"); return; }
    check_room(tables, len, number, end, right);
    lent l;
    for (int i = 0; i < JOURNEY; i++) l.len[i] = odd_length(right[i]);
    l.len[JOURNEY] = percent(50) ? range(0, 70) : range(0, 4096), l.len[ANSWER] = percent(80) ? 5 : range(0, 9);
    for (int i = 0; i < SLICES; i++) l.at[i] = slice(&fenced.lent[i], bytes_of(&l, i), end), memset(l.at[i], JUNK, bytes_of(&l, i));
    query q = odd_query(number == 0 ? stops_in(tables) : 0);
    uint32_t r = ask(number == 0 && percent(50) ? kiosk_solve_checked : kiosk_solve, tables, len, &l, &q);
    calls++;
    if (r > 12 || r == 11) { expect(0, "a number that is none"); return; }
    given[r]++;
    expect(memcmp(tables, copy, 4 * len) == 0, "the tables are written");
    check_answer(r, number, &l, right);
}

int main(int argc, char **argv) {
    if (argc != 3) { fprintf(stderr, "damage COUNT SEED\n"); return 2; }
    const size_t most[SLICES] = { 1 << 18, 1 << 12, 1 << 13, 1 << 16, 64 };
    fenced.tables = fence(4 * MOST_WORDS);
    for (int i = 0; i < SLICES; i++) fenced.lent[i] = fence(most[i]);
    network n = { 0 };
    flat f = { 0 };
    seed = strtoull(argv[2], NULL, 10);
    for (unsigned long c = strtoul(argv[1], NULL, 10); c > 0; c--, seed++) {
        make_nasty(&n, seed, 0, 1);
        flatten(&n, &f);
        if (f.len + 8 <= MOST_WORDS) for (int k = 0; k < CALLS_EACH; k++) call(&f);
    }
    printf("%lu calls:", calls);
    for (int i = 0; i < 13; i++) if (given[i]) printf(" %d: %lu", i, given[i]);
    printf("; %lu wrong\n", wrong);
    return wrong > 0;
}

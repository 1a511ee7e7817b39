/* Small nasty networks, in both modes: everyone agrees on every query. */
#include <stdio.h>
#include "dice.h"
#include "nasty.h"
#include "runs.h"
#include "rust.h"
#include "writings.h"
#include "../plain/check.h"
#include "../plain/tables.h"

enum { QUERIES_EACH = 12 };

/* One word changed: ours refuses the tables with the number of the plain check and touches nothing, or answers as plain C does. */
static const char *damaged_differs(flat *t, const query *q) {
    uint32_t at = below_n(percent(30) ? HEADER : (uint32_t)t->len), old = t->word[at], some = below_n(64);
    t->word[at] = percent(50) ? old + PICK(1, ABSENT) : PICK(0, 1, some, ABSENT, LAST_MOMENT + 1);
    uint32_t number = plain_check(t->word, t->len);
    const char *what = number ? ours_differ(ours_checking, t, q, number) : differs(t, q, 0);
    t->word[at] = old;
    return what;
}

/* A workspace slice that is one entry too long or too short: 6, whatever the query. */
static const char *misfit_differs(const flat *t, const query *q) {
    size_t *length = &all.ours.len[below_n(3)], right = *length;
    *length = percent(50) ? right + 1 : right - 1;
    const char *what = both_ours_differ(t, q, 6);
    *length = right;
    return what;
}

/* In which of the queries, all of this mode, a span reaches its label: there the Rust's subtraction overflows or comes to 0, and it is
   not asked. To be called before the network is made ready. */
static void find_reaching(const flat *t, const query *q, uint32_t mode, uint8_t *out) {
    query good[QUERIES_EACH];
    for (int k = 0; k < QUERIES_EACH; k++) good[k] = refusal(t->word, &q[k]) == 0 ? q[k] : (query){ .moment = 1 };
    rust_reaching(t->word, t->len, all.published ? 0 : mode, &good[0].from_kind, QUERIES_EACH, out);
}

int small(unsigned long count, unsigned long seed) {
    network n = { 0 };
    flat t = { 0 };
    unsigned long asked = 0, found = 0, nothing = 0, refused = 0, with_rust[2] = { 0, 0 }, without[2] = { 0, 0 };
    for (unsigned long i = 0; i < count; i++) {
        query q[2][QUERIES_EACH];       /* in the source's mode, but for a mode that means nothing, and in rescan mode */
        uint8_t reaches[2][QUERIES_EACH] = { { 0 } };
        make_nasty(&n, seed, i, 1);
        flatten(&n, &t);
        for (int k = 0; k < QUERIES_EACH; k++) {
            do q[0][k] = nasty_query(&n, &t); while (refusal(t.word, &q[0][k]) == 9 && percent(80));
            q[1][k] = q[0][k], q[1][k].mode = 1;
        }
        for (uint32_t mode = 0; mode < 2; mode++) find_reaching(&t, q[mode], mode, reaches[mode]);
        make_ready(&t, SHORT_BYTES);
        for (int k = 0; k < QUERIES_EACH; k++) for (int mode = 0; mode < 2; mode++) {
            const query *p = &q[mode][k];
            uint32_t number = refusal(t.word, p);
            const char *what = differs(&t, p, !reaches[mode][k]);
            if (what) report(what, &t, p);
            asked++, refused += number > 0, found += number == 0 && answer_of(&all.plain)[0] == 0, nothing += number == 0 && answer_of(&all.plain)[0] == 10;
            if (has_rust && number == 0) with_rust[mode] += !reaches[mode][k], without[mode] += reaches[mode][k];
            if (has_ours && k == 0 && (what = mode ? damaged_differs(&t, p) : misfit_differs(&t, p)) != NULL) report(what, &t, p);
        }
    }
    printf("%lu networks, %lu queries: %lu found, %lu not found, %lu refused; asked of the Rust, left out: %lu, %lu in the source's mode, "
           "%lu, %lu in rescan mode", count, asked, found, nothing, refused, with_rust[0], without[0], with_rust[1], without[1]);
    return print_differing();
}

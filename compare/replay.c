/* replay FILE: plain C answers the list that the program `replay` is run on, in the words of that program: crates/replay/stdout.

   `q` lines as in oracle/cases.txt, with `r` behind those in rescan mode. A line `p fromkind from tokind to d|a moment walks mode buffer fault` asks
   for all that is answered and left: walks 0 not, 1 allowed, 2 unsaid; mode s or r; fault 1, 2 or 3 for words, marks or places one short.
   Before each query every slice is filled with sevens. */
#include <stdio.h>
#include <stdlib.h>
#include <string.h>
#include "lines.h"
#include "../plain/check.h"

enum { MOST_BYTES = 4096 };

/* Slices of these lengths, full of sevens. */
static void fill(lent *l) {
    for (int i = 0; i < SLICES; i++) {
        free(l->at[i]);
        l->at[i] = calloc(1, bytes_of(l, i) + 1);
        for (size_t k = 0; k < l->len[i]; k++) ((uint8_t *)l->at[i])[k * slice_width[i]] = 7;          /* the least byte stands first */
    }
}

static uint64_t digest(const lent *l, int slice) {
    uint64_t sum = 0;
    for (size_t k = 0; k < l->len[slice]; k++) {
        uint64_t word = 0;
        memcpy(&word, (uint8_t *)l->at[slice] + k * slice_width[slice], slice_width[slice]);
        sum = (sum * 31 + word % 1000003) % 1000003;
    }
    return sum;
}

/* The answer in `l`, whose workspace is of these lengths but for the fault. */
static void answer(const flat *t, const query *q, size_t buffer, uint32_t fault, lent *l) {
    uint32_t number = plain_check(t->word, t->len);
    for (int i = 0; i < JOURNEY; i++) l->len[i] = 1;    /* of refused tables any */
    if (number == 0) right_lengths(t->word, l->len);
    if (fault > 0 && l->len[fault - 1] > 0) l->len[fault - 1]--, number = number ? number : 6;
    l->len[JOURNEY] = buffer, l->len[ANSWER] = 5;
    fill(l);
    if (number == 0) number = refusal(t->word, q);
    if (number == 0) ask(plain_solve, t->word, t->len, l, q);
    else memset(answer_of(l), 0, bytes_of(l, ANSWER)), answer_of(l)[0] = number;
}

static void print_all(const lent *l) {
    lent before = *l;
    const uint32_t *a = answer_of(l);
    memset(before.at, 0, sizeof before.at);
    fill(&before);
    printf("%u %u %u %u %u", a[0], a[1], a[2], a[3], a[4]);
    for (int i = 0; i < ANSWER; i++) {
        printf(", %s ", slice_name[i]);
        if (digest(l, i) == digest(&before, i)) printf("untouched"); else printf("%llu", (unsigned long long)digest(l, i));
    }
    putchar('\n');
    for (int i = 0; i < SLICES; i++) free(before.at[i]);
}

int main(int argc, char **argv) {
    static char text[MOST_LINE], given[1 << 16];
    static const uint32_t said[3] = { KIOSK_WALKS_BARRED, KIOSK_WALKS_ALLOWED, KIOSK_WALKS_UNSAID };
    FILE *in = argc == 2 ? fopen(argv[1], "r") : NULL;
    flat t = { 0 };
    lent l = { 0 };
    query q;
    if (!in) { fprintf(stderr, "replay FILE\n"); return 2; }
    while (fgets(text, sizeof text, in)) {
        uint32_t walks, buffer, fault;
        char mode;
        if (strncmp(text, "net", 3) == 0) read_network(text, &t);
        else if (read_query(text, &q)) {
            answer(&t, &q, MOST_BYTES, 0, &l);
            put_answer(&l, given), puts(given);
        } else if (text[0] == 'p') {
            text[0] = 'q';
            if (!read_query(text, &q) || sscanf(text, "q %*c %*u %*c %*u %*c %*u %u %c %u %u", &walks, &mode, &buffer, &fault) != 4) return 2;
            if (walks > 2 || fault > 3) return 2;
            q.walks = said[walks];
            answer(&t, &q, buffer, fault, &l);
            print_all(&l);
        }
    }
    return 0;
}

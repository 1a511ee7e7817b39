/* Networks, queries and answers as lines. */
#include <stdio.h>
#include <stdlib.h>
#include "lines.h"

int print_network(const flat *t) {
    int length = printf("net");
    for (size_t i = 0; i < t->len; i++) length += printf(" %u", t->word[i]);
    putchar('\n');
    return length;
}

void print_query(const query *q) {
    printf("q %c %u %c %u %c %u %d\n", q->from_kind ? 'a' : 's', q->from, q->to_kind ? 'a' : 's', q->to, q->when ? 'a' : 'd', q->moment,
           q->walks != KIOSK_WALKS_BARRED);
}

void put_answer(const lent *l, char *out) {
    static const char *const name[] = { "", "ride", "transfer", "walk" };
    const uint32_t *answer = answer_of(l);
    if (answer[0] != 0) { sprintf(out, "%u", answer[0]); return; }
    const uint8_t *leg = journey_of(l), *end = leg + answer[4];
    uint32_t legs = 0, kind;
    for (; leg < end; legs++) kind = *leg, leg += leg_size(&kind);
    out += sprintf(out, "0 %u %u %u %u", answer[1], answer[2], answer[3], legs);
    for (leg = journey_of(l); leg < end;) {
        kind = *leg++;
        out += sprintf(out, " | %s", name[kind]);
        for (int fields = kind == RIDE ? 5 : 4; fields > 0; fields--, leg += 4)
            out += sprintf(out, " %u", leg[0] | leg[1] << 8 | leg[2] << 16 | (uint32_t)leg[3] << 24);
    }
}

void read_network(const char *line, flat *t) {
    char *end;
    if (!t->word) t->word = malloc((t->room = MOST_LINE) * 4);          /* a word takes two characters at least */
    t->len = 0;
    for (line += 3;; line = end) {
        unsigned long word = strtoul(line, &end, 10);
        if (end == line) return;
        t->word[t->len++] = (uint32_t)word;
    }
}

int read_query(const char *line, query *q) {
    char from, to, when, mode = 's';
    uint32_t walks;
    *q = (query){ 0 };
    if (sscanf(line, "q %c %u %c %u %c %u %u %c", &from, &q->from, &to, &q->to, &when, &q->moment, &walks, &mode) < 7) return 0;
    q->from_kind = from == 'a', q->to_kind = to == 'a', q->when = when == 'a', q->mode = mode == 'r';
    q->walks = walks ? KIOSK_WALKS_ALLOWED : KIOSK_WALKS_BARRED;
    return 1;
}

/* Two threads at once on the same tables, each with a workspace of its own: they answer and leave what one alone does. */
#include <pthread.h>
#include "tables.h"

enum { ASKED = 4000, STRIDE = 48 };     /* how often each asks, and the bytes kept of a journey */
typedef struct {
    const tables *t;
    uint32_t stops, first;
    lent l;
    kiosk_answer answer[ASKED];
    uint8_t journey[ASKED][STRIDE];
    int right[ASKED];                   /* what was found, judged */
} asker;

/* Queries of all kinds, in an order that depends on `first`; each answer is judged for its query, but for every fifth, which is for another. */
static void *ask_all(void *p) {
    asker *k = (asker *)p;
    for (uint32_t i = 0; i < ASKED; i++) {
        uint32_t x = i + k->first;
        kiosk_query q = kiosk_departure(x % k->stops, x / k->stops % k->stops, 24000 + x % 53 * 60);
        q.when = x % 3 == 0, q.mode = x % 2;
        kiosk_ask_checked(k->t->words, k->t->len, &k->l.work, k->l.journey, k->l.journey_len, &q, &k->answer[i]);
        memset(k->journey[i], 0, STRIDE);
        if (k->answer[i].number == KIOSK_FOUND && k->answer[i].length <= STRIDE) memcpy(k->journey[i], k->l.journey, k->answer[i].length);
        if (x % 5 == 0) q.from = (q.from + 3) % k->stops;
        k->right[i] = 2;
        kiosk_is_journey_checked(k->t->words, k->t->len, k->l.journey, k->answer[i].length, &q, &k->right[i]);
    }
    return NULL;
}

static void two_threads(const tables *t, uint32_t stops) {
    asker *alone = (asker *)some(2 * sizeof *alone), *at_once = (asker *)some(2 * sizeof *at_once);
    pthread_t thread[2];
    unsigned long found = 0, right = 0;
    for (uint32_t k = 0; k < 2; k++) {
        alone[k].t = at_once[k].t = t, alone[k].stops = at_once[k].stops = stops, alone[k].first = at_once[k].first = 7 * k;
        alone[k].l = lend(t, 256), at_once[k].l = lend(t, 256);
        ask_all(&alone[k]);
    }
    for (int k = 0; k < 2; k++) if (pthread_create(&thread[k], NULL, ask_all, &at_once[k]) != 0) { printf("no thread\n"); exit(2); }
    for (int k = 0; k < 2; k++) pthread_join(thread[k], NULL);
    for (int k = 0; k < 2; k++) {
        for (int i = 0; i < ASKED; i++) found += alone[k].answer[i].number == KIOSK_FOUND, right += alone[k].right[i] == 1;
        expect("two threads: the answers", (unsigned long)memcmp(alone[k].answer, at_once[k].answer, sizeof alone[k].answer), 0);
        expect("two threads: the journeys", (unsigned long)memcmp(alone[k].journey, at_once[k].journey, sizeof alone[k].journey), 0);
        expect("two threads: the verdicts", (unsigned long)memcmp(alone[k].right, at_once[k].right, sizeof alone[k].right), 0);
        expect("two threads: what is left", (unsigned long)same_left(&alone[k].l, &at_once[k].l), 1);
        give_back(&alone[k].l), give_back(&at_once[k].l);
    }
    expect("some of them are found", found > ASKED / 10, 1), expect("most of them are right", right > found / 2 && right < found, 1);
    free(alone), free(at_once);
}

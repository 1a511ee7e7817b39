/* Queries drawn in a city, each of them compared. */
#include "drawn.h"
#include "writings.h"

unsigned drawn[2];

/* In a city every moment is above 86,400, so no span reaches its label. */
void draw_queries(const network *n, const flat *t, uint32_t when, uint32_t mode, query *q) {
    for (int k = 0, dull = 0; k < QUERIES;) {
        q[k] = city_query(n, when, mode);
        if (refusal(t->word, &q[k])) continue;          /* an area without a served stop */
        drawn[mode]++;
        const char *what = differs(t, &q[k], 1);
        if (what) report(what, t, &q[k]);
        k += answer_of(&all.plain)[0] == 0 || ++dull <= QUERIES / 8;
    }
}

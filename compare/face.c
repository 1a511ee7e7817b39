/* Calls of a search in the shape of the C face. */
#include <string.h>
#include "face.h"
#include "../plain/tables.h"

const char *const slice_name[SLICES] = { "words", "marks", "places", "journey", "answer" };
const size_t slice_width[SLICES] = { 4, 8, 4, 1, 4 };

int all_junk(const void *p, size_t bytes) {
    const uint8_t *b = p;
    return bytes == 0 || (b[0] == JUNK && memcmp(b, b + 1, bytes - 1) == 0);
}

void right_lengths(const uint32_t *tables, size_t *len) {
    uint32_t stops = stops_in(tables), routes = routes_in(tables);
    len[WORDS] = (4 + PARENT_WORDS * SEARCH_ROUNDS) * (size_t)stops + routes;
    len[MARKS] = 2 * ((stops + 63) / 64) + (routes + 63) / 64;
    len[PLACES] = 2 * (size_t)stops;
}

uint32_t ask(solver *f, const uint32_t *tables, size_t len, const lent *l, const query *q) {
    return f(tables, len, l->at[WORDS], l->len[WORDS], l->at[MARKS], l->len[MARKS], l->at[PLACES], l->len[PLACES],
             l->at[JOURNEY], l->len[JOURNEY], q->from_kind, q->from, q->to_kind, q->to, q->when, q->moment, q->walks, q->mode,
             l->at[ANSWER], l->len[ANSWER]);
}

int barren(const uint32_t *t, uint32_t area) {
    const uint32_t *area_start = section_of(t, AREA_STARTS), *child_start = section_of(t, CHILD_STARTS);
    for (uint32_t i = area_start[area]; i < area_start[area + 1]; i++) {
        uint32_t named = section_of(t, AREA_STOPS)[i];
        for (uint32_t j = child_start[named]; j < child_start[named + 1]; j++)
            if (section_of(t, SERVED)[section_of(t, CHILDREN)[j]]) return 0;
    }
    return 1;
}

uint32_t refusal(const uint32_t *tables, const query *q) {
    uint32_t kind[2] = { q->from_kind, q->to_kind }, place[2] = { q->from, q->to };
    for (int i = 0; i < 2; i++) if (kind[i] > 1 || place[i] >= (kind[i] ? areas_in(tables) : stops_in(tables))) return 7;
    if (q->moment < 1 || q->moment > LAST_MOMENT || q->when > 1 || q->walks > 2 || q->mode > 1) return 8;
    for (int i = 0; i < 2; i++) if (kind[i] == 1 && barren(tables, place[i])) return 9;
    return 0;
}

/* Small nasty networks made up by seed, and queries in them.

   Moments are few and small, so that labels collide; routes come back to a stop; footpaths lead to themselves, stand twice or beside a
   walk; stations stand in any order. Every network is one that the table check accepts. */
#include <stdlib.h>
#include <string.h>
#include "dice.h"
#include "nasty.h"
#include "../plain/tables.h"

enum { STOPS = 40, ROUTES = 24, POSITIONS = 6, TRIPS = 3, FOOTPATHS = 160 };            /* at most, each */
typedef struct { uint32_t positions, trips, stop[POSITIONS], time[TRIPS][2 * POSITIONS]; } line;
typedef struct { uint32_t from, to, span; float metres; } footpath;
typedef struct { uint32_t count; footpath path[FOOTPATHS]; } footpaths;

/* A network in the making. */
static struct {
    uint32_t stops, routes, ends, end[2];               /* ends: 2 where the shape has two ends to ask for */
    int both;                                           /* each footpath is listed both ways */
    line route[ROUTES];
    footpaths transfers, walks;
    float metres[STOPS][STOPS];                         /* of each pair whose distance is read, else -1 */
} draft;

static int ascending(const void *a, const void *b) {
    uint32_t x = *(const uint32_t *)a, y = *(const uint32_t *)b;
    return (x > y) - (x < y);
}

static void begin_draft(uint32_t stops) {
    draft.stops = stops;
    draft.routes = draft.ends = draft.transfers.count = draft.walks.count = 0;
    for (uint32_t i = 0; i < stops; i++) for (uint32_t j = 0; j < stops; j++) draft.metres[i][j] = -1;
}

static line *add_route(uint32_t positions, const uint32_t *stop) {
    line *l = &draft.route[draft.routes++];
    l->positions = positions, l->trips = 0;
    memcpy(l->stop, stop, 4 * positions);
    return l;
}
/* A trip whose arrival and departure are the same at each position. */
static void add_trip(line *l, const uint32_t *moment) {
    for (uint32_t i = 0; i < l->positions; i++) l->time[l->trips][2 * i] = l->time[l->trips][2 * i + 1] = moment[i];
    l->trips++;
}
/* Trips at random. Each one's moments are sorted, and then each column over the trips, which keeps both orders; so trips may touch,
   overlap and be equal. */
static void add_trips(line *l, uint32_t count, uint32_t low, uint32_t high, int tight) {
    uint32_t words = 2 * l->positions, column[TRIPS];
    for (l->trips = 0; l->trips < count; l->trips++) {
        uint32_t *row = l->time[l->trips];
        int still = tight && percent(30);               /* all at one moment */
        for (uint32_t i = 0; i < words; i++) row[i] = still && i > 0 ? row[0] : range(low, high);
        qsort(row, words, 4, ascending);
    }
    for (uint32_t i = 0; i < words; i++) {
        for (uint32_t k = 0; k < count; k++) column[k] = l->time[k][i];
        qsort(column, count, 4, ascending);
        for (uint32_t k = 0; k < count; k++) l->time[k][i] = column[k];
    }
}

static void one_footpath(int walk, uint32_t from, uint32_t to, uint32_t span, float metres) {
    footpaths *f = walk ? &draft.walks : &draft.transfers;
    if (walk || span == ABSENT) {       /* the Rust has one distance for an ordered pair of stops; beside a stated span it is not read */
        if (draft.metres[from][to] == -1) draft.metres[from][to] = metres;
        metres = draft.metres[from][to];
    }
    f->path[f->count++] = (footpath){ from, to, span, metres };
}
static void add_footpath(int walk, uint32_t from, uint32_t to, uint32_t span, float metres) {
    one_footpath(walk, from, to, span, metres);
    if (draft.both) one_footpath(walk, to, from, span, metres);
}
/* Footpaths at random; distances: whole and broken seconds, both zeros, the least float, floats beside a whole second, the limit. */
static void scatter(uint32_t count, uint32_t longest) {
    static const float metres[] = { 0, -0.0f, 0, 1.5f, 1.6f, 3, 4.5f, 6, 7.4f, 9, 0.1f, 14.9f,
                                    1e-45f, 1.4999999f, 1.5000001f, 4.5000005f, 2.9999998f, 100, 150, 99999.01f, 100000 };
    for (uint32_t i = 0; i < count; i++) {
        uint32_t from = below_n(draft.stops), to = below_n(draft.stops);
        if (from == to && percent(85)) to = (from + 1) % draft.stops;
        int walk = percent(35);
        uint32_t some = range(0, longest), span = walk || percent(25) ? ABSENT : PICK(0, 0, 1, 2, some, some);
        float far = metres[below_n(percent(85) ? 12 : 21)];
        if (percent(2)) { add_footpath(walk, from, to, span == ABSENT ? ABSENT : LONGEST_SPAN, LONGEST_METRES); continue; }
        add_footpath(walk, from, to, span, far);
        if (percent(12)) add_footpath(walk, from, to, span, far);                   /* the same once more */
        if (percent(12)) add_footpath(!walk, from, to, ABSENT, far);                /* a walk beside a transfer, or the other way round */
    }
}

/* ---- the draft as lists */

/* Shuffles the routes, and numbers their trips in any order. */
static void put_routes(network *n) {
    uint32_t order[ROUTES], drawn[ROUTES * TRIPS], number[ROUTES * TRIPS], trips = 0, next = 0;
    for (uint32_t r = 0; r < draft.routes; r++) order[r] = r, trips += draft.route[r].trips;
    shuffle(order, draft.routes);
    for (uint32_t v = 0; v < trips; v++) drawn[v] = v;
    shuffle(drawn, trips);
    for (uint32_t v = 0; v < trips; v++) number[drawn[v]] = v;
    n->routes = draft.routes, n->trips = trips;
    for (uint32_t r = 0; r < draft.routes; r++) {
        const line *l = &draft.route[order[r]];
        for (uint32_t i = 0; i < l->positions; i++) ADD(&n->route_stops, r, l->stop[i]);
        for (uint32_t k = 0; k < l->trips; k++, next++) {
            ADD(&n->route_trips, r, number[next]);
            for (uint32_t i = 0; i < l->positions; i++) ADD(&n->times, number[next], l->time[k][2 * i], l->time[k][2 * i + 1]);
        }
    }
}

/* Few stations, so that they have several children; a stop may be its own, or a station the child of another. Children in any order. */
static void put_stations(network *n, int grouped) {
    uint32_t station[STOPS], child[STOPS], few = grouped ? range(1, 3) : 0;
    for (uint32_t s = 0; s < n->stops; s++) {
        station[s] = ABSENT;
        if (grouped && percent(55)) station[s] = percent(70) ? below_n(few < n->stops ? few : n->stops) : below_n(n->stops);
    }
    for (uint32_t p = 0; p < n->stops; p++) {
        uint32_t count = 0;
        for (uint32_t s = 0; s < n->stops; s++) if (station[s] == p) child[count++] = s;
        shuffle(child, count);
        for (uint32_t i = 0; i < count; i++) ADD(&n->stations, child[i], p);
    }
}

static void put_areas(network *n, int grouped) {
    uint32_t stop[3];
    n->areas = grouped ? range(0, 3) : PICK(0, 0, 0, 1);
    for (uint32_t a = 0; a < n->areas; a++) {
        uint32_t k = range(0, n->stops < 3 ? n->stops : 3);
        sample(n->stops, k, stop);
        for (uint32_t i = 0; i < k; i++) ADD(&n->area_stops, a, stop[i]);
    }
}

static void shuffle_paths(footpaths *f) {
    for (uint32_t i = f->count; i > 1; i--) {
        uint32_t j = below_n(i);
        footpath t = f->path[i - 1];
        f->path[i - 1] = f->path[j], f->path[j] = t;
    }
}
static void put_footpaths(network *n) {
    shuffle_paths(&draft.transfers), shuffle_paths(&draft.walks);
    for (const footpath *f = draft.transfers.path, *e = f + draft.transfers.count; f < e; f++)
        ADD(&n->transfers, f->from, f->to, f->span, bits_of(f->metres));
    for (const footpath *f = draft.walks.path, *e = f + draft.walks.count; f < e; f++) ADD(&n->walks, f->from, f->to, bits_of(f->metres));
}

/* Stations in so many of a hundred networks. */
static void finish(network *n, uint32_t stations) {
    empty_network(n);
    n->stops = draft.stops, n->ends = draft.ends, memcpy(n->end, draft.end, sizeof n->end);
    put_routes(n);
    int grouped = percent(stations);
    put_stations(n, grouped);
    put_areas(n, grouped);
    put_footpaths(n);
}

/* ---- the shapes */

/* Few stops and routes, all at random. */
static void anything(network *n) {
    static const uint32_t span[7][2] = {
        { 1, 4 }, { 1, 12 }, { 5, 40 }, { 1, 100 }, { 60, 90 }, { 86401, 86460 }, { LAST_MOMENT - 20, LAST_MOMENT } };
    begin_draft(PICK(1, 2, 2, 3, 3, 4, 4, 5, 5, 6, 6, 7, 8));
    const uint32_t *w = span[below_n(7)], third = (w[1] - w[0]) / 3;
    int tight = percent(50);
    for (uint32_t k = range(0, 6); k > 0; k--) {
        uint32_t stop[5], positions = range(1, 5);
        if (percent(50)) for (uint32_t i = 0; i < positions; i++) stop[i] = below_n(draft.stops);
        else sample(draft.stops, positions = positions < draft.stops ? positions : draft.stops, stop);
        add_trips(add_route(positions, stop), PICK(0, 1, 1, 2, 2, 3), w[0], w[1], tight);
    }
    draft.both = percent(50);
    scatter(range(0, 6), third > 3 ? third : 3);
    finish(n, 45);
}

/* Many rounds: a row of rides of one hop, half the time with a footpath at each change, and slow rides past it. */
static void many_rounds(network *n) {
    uint32_t hops = percent(30) ? range(13, 17) : range(2, 8), step = PICK(0, 0, 1, 2, 5), base = PICK(0, 0, 100, 86400, LAST_MOMENT - 200);
    uint32_t first = base + range(1, 5), feet = percent(60);
    begin_draft(feet ? 2 * hops + 1 : hops + 1);
    draft.both = percent(60);
    for (uint32_t i = 0; i < hops; i++) {
        uint32_t from = feet ? 2 * i : i, t = first + i * step;
        line *l = add_route(2, (uint32_t[]){ from, from + 1 });
        add_trip(l, (uint32_t[]){ t, t });
        l->time[0][3] += range(0, 1);
        if (percent(30)) { add_trip(l, (uint32_t[]){ t + 1, t + 1 }); l->time[1][3]++; }
        if (!feet) continue;
        int walk = percent(35);
        uint32_t span = walk || percent(40) ? ABSENT : range(0, 1);
        if (span == 1 && step == 0) span = 0;
        add_footpath(walk, from + 1, from + 2, span, PICK(0, 0, 1) ? -0.0f : 0);
    }
    for (uint32_t k = range(0, 3); k > 0; k--) {
        uint32_t ends[2], late;
        sample(draft.stops, 2, ends);
        qsort(ends, 2, 4, ascending);
        late = base + range(1, 10 + (hops + 2) * (step ? step : 1));
        line *l = add_route(2, ends);
        add_trip(l, (uint32_t[]){ late, late + range(0, 9) });
        l->time[0][3] = late + 9;
    }
    scatter(range(0, 2), 3);
    finish(n, 15);
}

/* Chains of footpaths in one half-round: a slow ride along some stops, quick footpaths between them, and further routes. */
static void chains(network *n) {
    uint32_t m = range(2, 5), stops = m + range(2, 3), gap = PICK(2, 5, 10), along[POSITIONS] = { m }, t[POSITIONS];
    begin_draft(stops);
    sample(m, m, along + 1);
    int back = percent(50);             /* for arrival queries */
    uint32_t base = PICK(0, 0, 30, 86400, LAST_MOMENT - 300), at = base + range(1, 5);
    line *l = add_route(m + 1, along);
    for (uint32_t i = 0; i <= m; i++) t[i] = at + gap * i;
    add_trip(l, t);
    if (percent(50)) {
        uint32_t later = range(1, 2 * gap);
        for (uint32_t i = 0; i <= m; i++) t[i] += later;
        add_trip(l, t);
    }
    draft.both = percent(50);
    for (uint32_t i = 1; i < m; i++) add_footpath(0, along[back ? i + 1 : i], along[back ? i : i + 1], range(0, gap - 1), 0);
    for (uint32_t k = range(1, 4); k > 0; k--) {
        uint32_t stop[4], positions = range(2, 4);
        sample(stops, positions, stop);
        l = add_route(positions, stop);
        add_trips(l, range(1, 3), at > 100 ? at - 10 : 1, at + gap * (m + 2), 0);
    }
    scatter(range(0, 3), gap);
    finish(n, 35);
}

/* Many short routes between few stops, most with one trip: later rounds improve earlier ones, and marks are spent. */
static void tangle(network *n) {
    uint32_t stops = range(5, 8), base = PICK(0, 0, 86400), wide = PICK(20, 60, 200);
    begin_draft(stops);
    for (uint32_t k = range(6, 10); k > 0; k--) {
        uint32_t stop[4], positions = PICK(2, 2, 2, 3, 3, 4), count, low, high;
        sample(stops, positions, stop);
        count = PICK(1, 1, 1, 2), low = base + range(1, wide);
        high = low + (percent(50) ? range(0, 3) : wide);                            /* half are short, so that many can follow */
        add_trips(add_route(positions, stop), count, low, high, 0);
    }
    draft.both = percent(60);
    scatter(PICK(0, 0, 1, 2, 3), 5);
    finish(n, 20);
}

/* Time run backwards: what a departure search meets in the one network, an arrival search meets in the other. */
static void mirror(uint32_t last) {
    for (uint32_t r = 0; r < draft.routes; r++) {
        line l = draft.route[r], *m = &draft.route[r];
        uint32_t words = 2 * l.positions;
        for (uint32_t i = 0; i < l.positions; i++) m->stop[i] = l.stop[l.positions - 1 - i];
        for (uint32_t k = 0; k < l.trips; k++) for (uint32_t i = 0; i < words; i++) m->time[k][i] = last - l.time[l.trips - 1 - k][words - 1 - i];
    }
    uint32_t end = draft.end[0]; draft.end[0] = draft.end[1]; draft.end[1] = end;
}

/* A quick ride of one leg against slower ways of several, and a side way whose label may spend a route's mark too early: where a test
   against the target is made, or not made, matters. Where `wider`, the side way may be one by foot. */
static void race(network *n, int wider) {
    uint32_t s[6], stop[3];
    begin_draft(6);
    sample(6, 6, s);
    draft.ends = 2, draft.end[0] = s[0], draft.end[1] = s[5];
    uint32_t direct = range(60, 110), side = direct + range(0, 60) - 10, one = range(8, 12), two = range(13, 25), three = range(26, 40);
    uint32_t change = range(41, 55), end = range(56, 75), foot = wider && percent(40);
#define HOP(a, b, departure, arrival) add_trip(add_route(2, (uint32_t[]){ s[a], s[b] }), (uint32_t[]){ departure, arrival })
    HOP(0, 5, range(1, direct), direct);
    HOP(0, 1, range(5, one), one);
    if (!foot) HOP(1, 3, one + range(0, 1), side);
    HOP(1, 2, one + range(0, 1), two);
    HOP(2, 4, two + range(0, 1), three);
#undef HOP
    add_trip(add_route(3, (uint32_t[]){ s[3], s[4], s[5] }), (uint32_t[]){ range(2, 40), change, end });
    if (percent(30)) {
        uint32_t positions = range(2, 3);
        sample(6, positions, stop);
        add_trips(add_route(positions, stop), 1, 1, 120, 0);
    }
    draft.both = percent(50);
    if (foot) add_footpath(0, s[1], s[3], side - one, 0);
    if (percent(30)) scatter(1, 5);
    if (percent(50)) mirror(200);
    finish(n, 5);
}

/* Trips that stand long at their stops, and a feeder along the same stops: boarding again may take another trip. */
static void standing(network *n) {
    uint32_t s[4];
    begin_draft(4);
    sample(4, 4, s);
    draft.ends = 2, draft.end[0] = s[0], draft.end[1] = s[3];
    add_trips(add_route(3, (uint32_t[]){ s[1], s[2], s[3] }), range(2, 3), 5, 30, 0);
    add_trips(add_route(3, (uint32_t[]){ s[0], s[1], s[2] }), 1, 1, 20, 0);
    draft.both = percent(50);
    if (percent(30)) scatter(2, 4);
    if (percent(40)) mirror(40);
    finish(n, 5);
}

void make_nasty(network *n, uint64_t seed, uint64_t stream, int wider) {
    seed_dice(seed, stream);
    uint32_t shape = below_n(100);
    if (shape < 35) anything(n);
    else if (shape < 52) many_rounds(n);
    else if (shape < 66) chains(n);
    else if (shape < 84) tangle(n);
    else if (shape < 93) race(n, wider);
    else standing(n);
}

/* ---- queries */

/* One whose moment stands on a moment of the timetable, or one beside it. */
static uint32_t nasty_moment(const network *n, const flat *t, uint32_t when) {
    uint32_t least, most, moment;
    moments_of(n, &least, &most);
    if (n->times.rows == 0 || percent(6)) moment = range(1, 50);
    else if (percent(45)) moment = when ? most + PICK(0, 0, 5, 86400) : least;
    else {
        moment = section_of(t->word, TIMES)[below_n(size_of(t->word, TIMES))];
        moment = moment + PICK(0, 1, 1, 2) - 1;
    }
    return moment < 1 ? 1 : moment > LAST_MOMENT ? LAST_MOMENT : moment;
}

/* A stop, or an area (where not `any`, one with a served stop); now and then one that does not exist. */
static void nasty_place(const network *n, const flat *t, int any, uint32_t *kind, uint32_t *place) {
    uint32_t area[3], areas = 0;
    if (percent(1)) {
        const uint32_t none[5][2] = { { 0, n->stops }, { 0, n->stops + 64 }, { 0, ABSENT }, { 1, n->areas }, { 1, n->areas + 7 } };
        uint32_t which = below_n(5);
        *kind = none[which][0], *place = none[which][1];
        return;
    }
    for (uint32_t a = 0; a < n->areas; a++) if (any || !barren(t->word, a)) area[areas++] = a;
    *kind = areas > 0 && percent(30);
    *place = *kind ? area[below_n(areas)] : below_n(n->stops);
}

static query nasty(const network *n, const flat *t, int any) {
    query q = { .when = (uint32_t)percent(50) };
    q.moment = nasty_moment(n, t, q.when);
    nasty_place(n, t, any, &q.from_kind, &q.from);
    nasty_place(n, t, any, &q.to_kind, &q.to);
    if (percent(4)) q.to_kind = q.from_kind, q.to = q.from;
    if (n->stops > 8 && percent(75)) q.from_kind = q.to_kind = 0, q.from = below_n(3), q.to = n->stops - 1 - below_n(4);    /* far apart */
    if (n->ends == 2 && percent(60)) q.from_kind = q.to_kind = 0, q.from = n->end[0], q.to = n->end[1];
    q.walks = percent(65) ? KIOSK_WALKS_ALLOWED : KIOSK_WALKS_BARRED;
    return q;
}

query fair_query(const network *n, const flat *t) { return nasty(n, t, 0); }

query nasty_query(const network *n, const flat *t) {
    query q = nasty(n, t, 1);
    if (q.walks == KIOSK_WALKS_ALLOWED && percent(50)) q.walks = KIOSK_WALKS_UNSAID;
    if (percent(1)) q.moment = PICK(0, LAST_MOMENT + 1, ABSENT);
    if (percent(1)) {                   /* a word that means nothing */
        uint32_t *word[] = { &q.from_kind, &q.to_kind, &q.when, &q.walks, &q.mode }, which = below_n(5);
        *word[which] = PICK(3, ABSENT);
    }
    return q;
}

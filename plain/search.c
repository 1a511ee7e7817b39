/* The search in plain C. ABSENT is also an absent parent, and the latest moment of all. */
#include <string.h>
#include "search.h"
#include "tables.h"

enum { DEPARTURE, ARRIVAL };

/* The sections of the tables. */
typedef struct {
    uint32_t stops, routes;
    const uint32_t *stop_list, *station, *child_start, *child, *call_start, *call, *served;
    const uint32_t *transfer_start, *transfer, *walk_start, *walk;
    const uint32_t *route_stop_start, *route_stop, *route_trip_start, *route_trip, *time_start, *time, *area_start, *area_stop;
} sections;

/* The parts of the workspace. A label of 0 is no moment. `row` is the parents of the round that runs. */
typedef struct {
    uint32_t *prev, *curr, *best, *held, *active, *parent, *row;
    uint64_t *mark, *held_mark, *mask;
    uint32_t stop_pages, route_pages;
} workspace;

/* The best goal so far; `stop` is ABSENT where there is none yet. */
typedef struct { uint32_t time, stop, round; } aim;

static sections sections_of(const uint32_t *t) {
    return (sections){
        .stops = stops_in(t), .routes = routes_in(t), .stop_list = section_of(t, STOP_LIST), .station = section_of(t, STATIONS),
        .child_start = section_of(t, CHILD_STARTS), .child = section_of(t, CHILDREN),
        .call_start = section_of(t, CALL_STARTS), .call = section_of(t, CALLS), .served = section_of(t, SERVED),
        .transfer_start = section_of(t, TRANSFER_STARTS), .transfer = section_of(t, TRANSFERS),
        .walk_start = section_of(t, WALK_STARTS), .walk = section_of(t, WALKS),
        .route_stop_start = section_of(t, ROUTE_STOP_STARTS), .route_stop = section_of(t, ROUTE_STOPS),
        .route_trip_start = section_of(t, ROUTE_TRIP_STARTS), .route_trip = section_of(t, ROUTE_TRIPS),
        .time_start = section_of(t, TIME_STARTS), .time = section_of(t, TIMES),
        .area_start = section_of(t, AREA_STARTS), .area_stop = section_of(t, AREA_STOPS),
    };
}

static workspace workspace_of(const sections *t, uint32_t *words, uint64_t *marks) {
    uint32_t n = t->stops, pages = (n + 63) / 64;
    return (workspace){
        .prev = words, .curr = words + n, .best = words + 2 * n, .held = words + 3 * n, .active = words + 4 * n,
        .parent = words + 4 * n + t->routes, .mark = marks, .held_mark = marks + pages, .mask = marks + 2 * pages,
        .stop_pages = pages, .route_pages = (t->routes + 63) / 64,
    };
}

/* Whether a moment is strictly below the best one of a stop. Taking 1 from both turns an absent best, 0, into the latest moment. */
static inline int below(uint32_t moment, uint32_t best) { return moment - 1 < best - 1; }

/* The walking span of a distance: one division, rounded once, then the next whole second. */
static inline uint32_t walking_span(uint32_t bits) {
    float metres, seconds;
    memcpy(&metres, &bits, 4);
    seconds = metres / 1.5f;
    uint32_t whole = (uint32_t)seconds;
    return whole + ((float)whole < seconds);
}

/* The place of the next mark at or after `from` in the words, or `end`: whole words of 0 are passed over at once. */
static inline uint32_t next_mark(const uint64_t *word, uint32_t from, uint32_t end) {
    for (uint64_t rest; from < end; from = (from | 63) + 1)
        if ((rest = word[from / 64] >> (from % 64)) != 0) return from + (uint32_t)__builtin_ctzll(rest);
    return end;
}

/* A stop reached at a moment by a leg. Whether that is better was asked before. */
static inline void apply(const workspace *w, uint32_t stop, uint32_t moment,
                         uint32_t kind, uint32_t from, uint32_t to, uint32_t trip, uint32_t departure, uint32_t arrival) {
    uint32_t *row = w->row + (size_t)PARENT_WORDS * stop;
    w->curr[stop] = moment;
    w->best[stop] = moment;
    w->mark[stop / 64] |= 1ull << (stop % 64);
    row[0] = kind; row[1] = from; row[2] = to; row[3] = trip; row[4] = departure; row[5] = arrival;
}

/* How many trips of a route arrive at a position before the moment. Arrivals never fall from one trip to the next, so halving finds it. */
static inline uint32_t trips_before(const sections *t, const uint32_t *trip, uint32_t count, uint32_t position, uint32_t moment) {
    uint32_t low = 0, high = count;
    while (low < high) {
        uint32_t middle = (low + high) / 2;
        if (t->time[TIME_WORDS * (t->time_start[trip[middle]] + position)] < moment) low = middle + 1; else high = middle;
    }
    return low;
}

/* ---- choosing: the routes of marked stops, each from the first marked position; the calls section holds it, so no route is walked along */

static void choose_routes(const sections *t, const workspace *w, int when) {
    memset(w->mask, 0, 8 * w->route_pages);
    for (uint32_t s = next_mark(w->mark, 0, t->stops); s < t->stops; s = next_mark(w->mark, s + 1, t->stops)) {
        const uint32_t *call = t->call + CALL_WORDS * t->call_start[s], *end = t->call + CALL_WORDS * t->call_start[s + 1];
        for (; call < end; call += CALL_WORDS) {
            uint32_t route = call[0], first = call[1], position = w->active[route];
            if (when == DEPARTURE ? first < position : first > position) {
                w->active[route] = first;
                w->mask[route / 64] |= 1ull << (route % 64);
            }
        }
    }
}

/* ---- rides: a proposal is applied as it is made, since a scan reads previous labels and best moments only, and a best moment only improves */

static void rides_departing(const sections *t, const workspace *w, uint32_t target) {
    for (uint32_t r = next_mark(w->mask, 0, t->routes); r < t->routes; r = next_mark(w->mask, r + 1, t->routes)) {
        const uint32_t *stop = t->route_stop + t->route_stop_start[r], *trip = t->route_trip + t->route_trip_start[r];
        uint32_t positions = t->route_stop_start[r + 1] - t->route_stop_start[r];
        uint32_t trips = t->route_trip_start[r + 1] - t->route_trip_start[r];
        const uint32_t *time = NULL;    /* arrivals and departures of the trip aboard, found once per boarding */
        uint32_t aboard = 0, from = 0, departure = 0;
        for (uint32_t i = w->active[r]; i < positions; i++) {
            uint32_t s = stop[i], label = w->prev[s];
            if (time && time[2 * i] < target && below(time[2 * i], w->best[s]))
                apply(w, s, time[2 * i], RIDE, from, s, aboard, departure, time[2 * i]);
            if (label != 0 && (!time || label <= time[2 * i + 1])) {
                uint32_t k = trips_before(t, trip, trips, i, label);
                if (k < trips) {
                    aboard = trip[k];
                    time = t->time + TIME_WORDS * t->time_start[aboard];
                    from = s;
                    departure = time[2 * i + 1];
                }
            }
        }
    }
}

static void rides_arriving(const sections *t, const workspace *w) {
    for (uint32_t r = next_mark(w->mask, 0, t->routes); r < t->routes; r = next_mark(w->mask, r + 1, t->routes)) {
        const uint32_t *stop = t->route_stop + t->route_stop_start[r], *trip = t->route_trip + t->route_trip_start[r];
        uint32_t trips = t->route_trip_start[r + 1] - t->route_trip_start[r];
        const uint32_t *time = NULL;
        uint32_t aboard = 0, to = 0, arrival = 0;
        for (uint32_t i = w->active[r] + 1; i-- > 0;) {
            uint32_t s = stop[i], label = w->prev[s];
            if (time && time[2 * i + 1] > w->best[s])
                apply(w, s, time[2 * i + 1], RIDE, s, to, aboard, time[2 * i + 1], arrival);
            if (label != 0 && (!time || label >= time[2 * i])) {
                uint32_t k = trips_before(t, trip, trips, i, label + 1);        /* the last one not after the label stands before it */
                if (k > 0) {
                    aboard = trip[k - 1];
                    time = t->time + TIME_WORDS * t->time_start[aboard];
                    to = s;
                    arrival = time[2 * i];
                }
            }
        }
    }
}

/* ---- footpaths: they read the labels and marks that the rides left, held beside the ones that change */

static inline void foot_departing(const workspace *w, uint32_t target, uint32_t kind, uint32_t from, uint32_t to, uint32_t span) {
    uint32_t label = w->held[from], moment = label + span;
    if (moment < target && below(moment, w->best[to])) apply(w, to, moment, kind, from, to, 0, label, moment);
}

/* The listing is used backwards: the label is that of the stop under which the footpath is listed. */
static inline void foot_arriving(const workspace *w, uint32_t kind, uint32_t listed, uint32_t other, uint32_t span) {
    uint32_t label = w->held[listed];
    if (span < label && label - span > w->best[other]) apply(w, other, label - span, kind, other, listed, 0, label - span, label);
}

static void footpaths(const sections *t, const workspace *w, int when, int walks, uint32_t target) {
    memcpy(w->held, w->curr, 4 * (size_t)t->stops);
    memcpy(w->held_mark, w->mark, 8 * w->stop_pages);
    for (uint32_t s = next_mark(w->held_mark, 0, t->stops); s < t->stops; s = next_mark(w->held_mark, s + 1, t->stops)) {
        const uint32_t *row = t->transfer + TRANSFER_WORDS * t->transfer_start[s];
        const uint32_t *end = t->transfer + TRANSFER_WORDS * t->transfer_start[s + 1];
        for (; row < end; row += TRANSFER_WORDS) {
            uint32_t span = row[2] != ABSENT ? row[2] : walking_span(row[3]);
            if (when == DEPARTURE) foot_departing(w, target, TRANSFER, s, row[1], span); else foot_arriving(w, TRANSFER, s, row[1], span);
        }
        if (!walks) continue;
        row = t->walk + WALK_WORDS * t->walk_start[s], end = t->walk + WALK_WORDS * t->walk_start[s + 1];
        for (; row < end; row += WALK_WORDS) {
            uint32_t span = walking_span(row[1]);
            if (when == DEPARTURE) foot_departing(w, target, WALK, s, row[0], span); else foot_arriving(w, WALK, s, row[0], span);
        }
    }
}

/* ---- places */

/* The stops of a place: of a stop its station's children, else its own, else itself; of an area the served children of the stops that it
   names, which are written to `room` (as long as there are stops, 0 behind them). */
static const uint32_t *stops_of(const sections *t, uint32_t kind, uint32_t place, uint32_t *room, uint32_t *count) {
    memset(room, 0, 4 * (size_t)t->stops);
    if (kind == 0) {
        uint32_t station = t->station[place] != ABSENT ? t->station[place] : place;
        *count = t->child_start[station + 1] - t->child_start[station];
        if (*count > 0) return t->child + t->child_start[station];
        *count = 1;
        return t->stop_list + place;
    }
    *count = 0;
    for (uint32_t i = t->area_start[place]; i < t->area_start[place + 1]; i++) {
        uint32_t named = t->area_stop[i];
        for (uint32_t j = t->child_start[named]; j < t->child_start[named + 1]; j++)
            if (t->served[t->child[j]]) room[(*count)++] = t->child[j];
    }
    return room;
}

/* ---- the round loop */

static aim run_rounds(const sections *t, workspace *w, const uint32_t *start, uint32_t starts, const uint32_t *goal, uint32_t goals,
                      int when, uint32_t moment, int walks, int rescan) {
    aim best = { when == DEPARTURE ? ABSENT : 0, ABSENT, 0 };
    int blank = when == DEPARTURE ? 0xFF : 0;           /* what each byte of a route's mark is filled with */
    size_t labels = 4 * (size_t)t->stops, parents = labels * PARENT_WORDS;
    memset(w->prev, 0, 4 * labels);                     /* previous, current, best and held stand together */
    memset(w->active, blank, 4 * (size_t)t->routes);
    memset(w->parent, 0xFF, SEARCH_ROUNDS * parents);
    memset(w->mark, 0, 8 * (2 * w->stop_pages + w->route_pages));
    for (uint32_t i = 0; i < starts; i++) {             /* their best moment stays absent */
        w->curr[start[i]] = moment;
        w->mark[start[i] / 64] |= 1ull << (start[i] % 64);
    }
    for (uint32_t round = 0; round < SEARCH_ROUNDS; round++) {
        memcpy(w->prev, w->curr, labels);
        memset(w->curr, 0, labels);
        if (next_mark(w->mark, 0, t->stops) == t->stops) break;
        w->row = w->parent + (size_t)PARENT_WORDS * t->stops * round;
        if (rescan) memset(w->active, blank, 4 * (size_t)t->routes);
        choose_routes(t, w, when);
        memset(w->mark, 0, 8 * w->stop_pages);
        if (when == DEPARTURE) rides_departing(t, w, best.time); else rides_arriving(t, w);
        footpaths(t, w, when, walks, best.time);
        for (uint32_t i = 0; i < goals; i++) {
            uint32_t seen = w->best[goal[i]];
            if (seen != 0 && (when == DEPARTURE ? seen < best.time : seen > best.time)) best = (aim){ seen, goal[i], round };
        }
    }
    return best;
}

/* ---- the way back */

size_t leg_size(const uint32_t *row) { return row[0] == RIDE ? MOST_LEG : MOST_LEG - 4; }

void put_leg(uint8_t *at, const uint32_t *row) {
    *at++ = (uint8_t)row[0];
    for (int i = 1; i < PARENT_WORDS; i++) {
        if (i == 3 && row[0] != RIDE) continue;         /* a footpath has no trip */
        for (int k = 0; k < 32; k += 8) *at++ = (uint8_t)(row[i] >> k);
    }
}

/* Walks the parents from the chosen stop and gives the bytes of their legs; writes them too where `journey` is not NULL (`size` bytes). */
static size_t way_back(const sections *t, const workspace *w, int when, aim best, uint8_t *journey, size_t size) {
    uint32_t stop = best.stop, round = best.round;
    for (size_t done = 0;;) {
        const uint32_t *row = w->parent + PARENT_WORDS * ((size_t)round * t->stops + stop);
        if (row[0] == ABSENT) return done;
        done += leg_size(row);
        /* a departure search finds the last leg first, so it is written from the end */
        if (journey) put_leg(when == DEPARTURE ? journey + size - done : journey + done - leg_size(row), row);
        stop = when == DEPARTURE ? row[1] : row[2];
        if (row[0] == RIDE && round-- == 0) return done;
    }
}

/* ---- the search */

uint32_t plain_solve(const uint32_t *tables, size_t tables_len, uint32_t *words, size_t words_len, uint64_t *marks, size_t marks_len,
                     uint32_t *places, size_t places_len, uint8_t *journey, size_t journey_len,
                     uint32_t from_kind, uint32_t from, uint32_t to_kind, uint32_t to, uint32_t when, uint32_t moment,
                     uint32_t walks, uint32_t mode, uint32_t *answer, size_t answer_len) {
    (void)tables_len, (void)words_len, (void)marks_len, (void)places_len, (void)answer_len;
    sections t = sections_of(tables);
    workspace w = workspace_of(&t, words, marks);
    uint32_t origins, goals;
    const uint32_t *origin = stops_of(&t, from_kind, from, places, &origins), *goal = stops_of(&t, to_kind, to, places + t.stops, &goals);
    aim best = when == DEPARTURE ? run_rounds(&t, &w, origin, origins, goal, goals, DEPARTURE, moment, walks != 2, mode == 1)
                                 : run_rounds(&t, &w, goal, goals, origin, origins, ARRIVAL, moment, walks != 2, mode == 1);
    memset(answer, 0, 5 * sizeof *answer);
    if (best.stop == ABSENT) return answer[0] = 10;
    size_t size = way_back(&t, &w, (int)when, best, NULL, 0);
    answer[4] = (uint32_t)size;
    if (size > journey_len) return answer[0] = 12;
    way_back(&t, &w, (int)when, best, journey, size);
    answer[1] = best.time; answer[2] = best.stop; answer[3] = best.round;
    return 0;
}

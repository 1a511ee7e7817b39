/* Journeys by the dice. The tables are good ones. */
#include <string.h>
#include "dice.h"
#include "journeys.h"
#include "../plain/judge.h"
#include "../plain/tables.h"

enum { KIND, FROM, TO, TRIP, LEAVES, COMES };           /* the words of a leg */

int take_legs(journey *j, const uint8_t *bytes, size_t len) {
    uint32_t size;
    j->legs = 0;
    for (size_t at = 0; at < len; at += size)
        if (j->legs == MOST_LEGS || (size = get_leg(bytes, len, at, j->row[j->legs++])) <= 13) return 0;
    return 1;
}
size_t put_legs(const journey *j, uint8_t *bytes) {
    size_t len = 0;
    for (uint32_t i = 0; i < j->legs; i++) put_leg(bytes + len, j->row[i]), len += leg_size(j->row[i]);
    return len;
}

static void add_leg(journey *j, uint32_t kind, uint32_t from, uint32_t to, uint32_t trip, uint32_t leaves, uint32_t comes) {
    uint32_t row[PARENT_WORDS] = { kind, from, to, trip, leaves, comes };
    memcpy(j->row[j->legs++], row, sizeof row);
}

/* ---- footpaths: a row of either list under a stop */

typedef struct { uint32_t kind, to, span; } footpath;
static uint32_t rows_under(const uint32_t *t, uint32_t kind, uint32_t stop) {
    const uint32_t *start = section_of(t, kind == TRANSFER ? TRANSFER_STARTS : WALK_STARTS) + stop;
    return start[1] - start[0];
}
static footpath row_under(const uint32_t *t, uint32_t kind, uint32_t stop, uint32_t i) {
    const uint32_t *start = section_of(t, kind == TRANSFER ? TRANSFER_STARTS : WALK_STARTS) + stop;
    const uint32_t *row = kind == TRANSFER ? section_of(t, TRANSFERS) + TRANSFER_WORDS * (start[0] + i)
                                           : section_of(t, WALKS) + WALK_WORDS * (start[0] + i);
    uint32_t bits = kind == TRANSFER ? row[3] : row[1], whole;
    float metres, seconds;
    memcpy(&metres, &bits, 4);
    seconds = metres / 1.5f, whole = (uint32_t)seconds, whole += (float)whole < seconds;
    return (footpath){ kind, kind == TRANSFER ? row[1] : row[0], kind == TRANSFER && row[2] != ABSENT ? row[2] : whole };
}

int both_ways(const uint32_t *t, int walking) {
    for (uint32_t kind = TRANSFER; kind <= (walking ? WALK : TRANSFER); kind++) for (uint32_t s = 0; s < stops_in(t); s++)
        for (uint32_t i = 0; i < rows_under(t, kind, s); i++) {
            footpath there = row_under(t, kind, s, i);
            int back = 0;
            for (uint32_t k = 0; !back && k < rows_under(t, kind, there.to); k++) {
                footpath f = row_under(t, kind, there.to, k);
                back = f.to == s && f.span == there.span;
            }
            if (!back) return 0;
        }
    return 1;
}

/* One that is listed under the stop, leaving at the moment or a little later. */
static int add_footpath(const uint32_t *t, journey *j, uint32_t stop, uint32_t moment) {
    uint32_t transfers = rows_under(t, TRANSFER, stop), walks = rows_under(t, WALK, stop);
    if (transfers + walks == 0 || j->legs == MOST_LEGS) return 0;
    uint32_t i = below_n(transfers + walks), wait = PICK(0, 0, 0, 1, 2);
    footpath f = i < transfers ? row_under(t, TRANSFER, stop, i) : row_under(t, WALK, stop, i - transfers);
    add_leg(j, f.kind, stop, f.to, ABSENT, moment + wait, moment + wait + f.span);
    return 1;
}

/* ---- rides */

static uint32_t trips_in(const uint32_t *t) { return size_of(t, ROUTE_TRIPS); }

/* One from the stop, leaving at the moment or later; most often the next one, by one hop. */
static int add_ride(const uint32_t *t, journey *j, uint32_t stop, uint32_t moment) {
    const uint32_t *calls = section_of(t, CALL_STARTS) + stop;
    if (calls[0] == calls[1] || j->legs == MOST_LEGS) return 0;
    for (int tries = 0; tries < 4; tries++) {
        const uint32_t *call = section_of(t, CALLS) + CALL_WORDS * range(calls[0], calls[1] - 1);
        const uint32_t *stops = section_of(t, ROUTE_STOP_STARTS) + call[0], *trips = section_of(t, ROUTE_TRIP_STARTS) + call[0];
        const uint32_t *along = section_of(t, ROUTE_STOPS) + stops[0];
        uint32_t on = percent(60) ? call[1] : range(call[1], call[2]), end = stops[1] - stops[0];
        if (along[on] != stop || on + 1 >= end) continue;
        uint32_t off = percent(60) ? on + 1 : range(on + 1, end - 1), later = PICK(0, 0, 0, 0, 1);
        for (uint32_t i = trips[0]; i < trips[1]; i++) {
            uint32_t trip = section_of(t, ROUTE_TRIPS)[i];
            const uint32_t *time = section_of(t, TIMES) + TIME_WORDS * section_of(t, TIME_STARTS)[trip];
            if (time[2 * on + 1] < moment || later-- > 0) continue;
            add_leg(j, RIDE, stop, along[off], trip, time[2 * on + 1], time[2 * off]);
            return 1;
        }
    }
    return 0;
}

/* ---- a journey along the tables */

/* A place for a stop: itself, its station, or an area that names its station; which is not always a place that stands for the stop. */
static void name_place(const uint32_t *t, uint32_t stop, uint32_t *kind, uint32_t *number) {
    uint32_t parent = section_of(t, STATIONS)[stop], entries = size_of(t, AREA_STOPS), first = entries ? below_n(entries) : 0;
    *kind = 0, *number = stop;
    if (parent == ABSENT || percent(50)) return;
    *number = parent;
    if (percent(40)) return;
    for (uint32_t i = 0, at, area; i < entries; i++) {
        at = (first + i) % entries;
        if (section_of(t, AREA_STOPS)[at] != parent) continue;
        for (area = 0; section_of(t, AREA_STARTS)[area + 1] <= at;) area++;
        *kind = 1, *number = area;
        return;
    }
}

int wander(const uint32_t *t, uint32_t rides, journey *j) {
    uint32_t stops = stops_in(t), at, moment = 1, ridden = 0;
    if (stops == 0 || trips_in(t) == 0) return 0;
    j->legs = 0;
    j->q = (query){ .when = below_n(2), .walks = PICK(0, 1, 1, 2) };
    at = percent(40) ? below_n(stops < 2 ? stops : 2) : below_n(stops);
    uint32_t feet = PICK(0, 10, 30, 60);                /* how many of a hundred are footpaths */
    while (ridden < rides) {
        int foot = percent(feet) && (j->legs > 0 || j->q.when == 1 || percent(25)), more;       /* now and then one that may not be first */
        if (j->legs == 0 && percent(70)) moment = percent(50) ? 1 : section_of(t, TIMES)[below_n(size_of(t, TIMES))];
        more = foot ? add_footpath(t, j, at, moment) : add_ride(t, j, at, moment);
        if (!more && !foot) break;
        ridden += more && !foot;
        if (more) at = j->row[j->legs - 1][TO], moment = j->row[j->legs - 1][COMES];
        if (!more && feet > 0) feet = 0;
    }
    if (j->q.when == 0 || percent(15)) for (uint32_t k = PICK(0, 0, 1, 2); k > 0 && j->legs > 0; k--) {
        if (!add_footpath(t, j, at, moment)) break;
        at = j->row[j->legs - 1][TO], moment = j->row[j->legs - 1][COMES];
    }
    if (j->legs == 0) return 0;
    const uint32_t *first = j->row[0], *last = j->row[j->legs - 1];
    uint32_t spare = PICK(0, 0, 1, 5);
    name_place(t, first[FROM], &j->q.from_kind, &j->q.from);
    name_place(t, last[TO], &j->q.to_kind, &j->q.to);
    j->q.moment = j->q.when ? last[COMES] + spare : first[LEAVES] - (spare < first[LEAVES] ? spare : 0);
    if (j->q.moment > LAST_MOMENT) j->q.moment = LAST_MOMENT;
    return 1;
}

/* ---- changes */

static uint32_t some_moment(const uint32_t *t) {
    return size_of(t, TIMES) ? section_of(t, TIMES)[below_n(size_of(t, TIMES))] : range(1, 50);
}
/* What may stand in a leg's field in place of this word. */
static uint32_t other_word(const uint32_t *t, int field, uint32_t old) {
    uint32_t how = below_n(10), stops = stops_in(t), trips = trips_in(t), one = PICK(1, ABSENT);
    if (field == KIND) return PICK(0, 1, 2, 3, 1, 2, 3, 4, 5, 255);
    if (how < 4) return old + one;
    if (how == 4) return PICK(0, ABSENT, 0x80000000u, 0x7FFFFFFFu);
    if (field == TRIP) return trips && percent(85) ? below_n(trips) : trips + below_n(2);
    if (field == FROM || field == TO) return percent(85) ? below_n(stops) : stops + below_n(2);
    return some_moment(t);
}
static void change_field(const uint32_t *t, uint32_t *leg) {
    int field = (int)below_n(PARENT_WORDS);
    leg[field] = other_word(t, field, leg[field]);
}

/* The same ride by another trip of its route, or by a later or an earlier position of its trip. */
static void change_trip(const uint32_t *t, uint32_t *leg) {
    uint32_t listed = 0, route = 0, trips = trips_in(t);
    const uint32_t *trip = section_of(t, ROUTE_TRIPS), *start = section_of(t, ROUTE_TRIP_STARTS), *stops = section_of(t, ROUTE_STOP_STARTS);
    while (listed < trips && trip[listed] != leg[TRIP]) listed++;
    if (leg[KIND] != RIDE || listed == trips) return;
    while (start[route + 1] <= listed) route++;
    const uint32_t *along = section_of(t, ROUTE_STOPS) + stops[route];
    uint32_t end = stops[route + 1] - stops[route], on = below_n(end), off = below_n(end), other = trip[range(start[route], start[route + 1] - 1)];
    if (percent(50)) {                  /* the leg's own stops, where they are found */
        for (on = 0; on + 1 < end && along[on] != leg[FROM];) on++;
        for (off = percent(80) ? on + 1 : 0; off + 1 < end && along[off] != leg[TO];) off++;
        if (off >= end) off = end - 1;
    }
    if (percent(60)) other = leg[TRIP];
    const uint32_t *time = section_of(t, TIMES) + TIME_WORDS * section_of(t, TIME_STARTS)[other];
    uint32_t beside = (uint32_t)percent(15);            /* the wrong one of the two moments */
    leg[FROM] = along[on], leg[TO] = along[off], leg[TRIP] = other, leg[LEAVES] = time[2 * on + !beside], leg[COMES] = time[2 * off + beside];
}

/* A footpath earlier or later, longer or shorter, of the other kind, another one under its stop, or so late that its arrival is no u32. */
static void change_footpath(const uint32_t *t, uint32_t *leg) {
    uint32_t how = below_n(6), by = PICK(1, 1, 2, ABSENT), lasts = leg[COMES] - leg[LEAVES], small = below_n(3);
    if (leg[KIND] == RIDE) return;
    if (how == 0) leg[LEAVES] += by, leg[COMES] += by;
    if (how == 1) leg[COMES] += by;
    if (how == 2) leg[KIND] = leg[KIND] == TRANSFER ? WALK : TRANSFER;
    if (how == 3) leg[LEAVES] = 0u - (lasts ? 1 + below_n(lasts) : 1), leg[COMES] = leg[LEAVES] + lasts;
    if (how == 4) leg[LEAVES] = 0u - small, leg[COMES] = leg[LEAVES] + lasts;
    if (how != 5 || leg[FROM] >= stops_in(t)) return;
    uint32_t kind = percent(70) ? leg[KIND] : range(TRANSFER, WALK), rows = rows_under(t, kind, leg[FROM]);
    if (rows == 0) return;
    footpath f = row_under(t, kind, leg[FROM], below_n(rows));
    leg[COMES] = leg[LEAVES] + f.span;
    if (percent(50)) leg[KIND] = f.kind;
    if (percent(50)) leg[TO] = f.to;
}

/* Legs: one dropped, doubled or swapped, the first or the last cut off, one more at the end or at the beginning, all of them twice; or none is left. */
static void change_legs(const uint32_t *t, journey *j) {
    uint32_t how = below_n(10), i = below_n(j->legs), k = below_n(j->legs), swap[PARENT_WORDS];
    if (how == 0) i = 0;
    if (how == 1) i = j->legs - 1;
    if (how < 3) {                      /* leg i goes */
        memmove(j->row[i], j->row[i + 1], sizeof j->row[0] * (--j->legs - i));
    } else if (how < 5 && j->legs < MOST_LEGS) {        /* leg i once more */
        memmove(j->row[i + 1], j->row[i], sizeof j->row[0] * (j->legs++ - i));
    } else if (how == 5) {
        memcpy(swap, j->row[i], sizeof swap), memcpy(j->row[i], j->row[k], sizeof swap), memcpy(j->row[k], swap, sizeof swap);
    } else if (how == 6) {
        uint32_t legs = j->legs;
        for (uint32_t n = 0; n < legs && j->legs < MOST_LEGS; n++) memcpy(j->row[j->legs++], j->row[n], sizeof swap);
    } else if (how == 7) {
        j->legs = percent(10) ? 0 : i + 1;
    } else {
        const uint32_t *last = j->row[j->legs - 1];
        if (last[TO] >= stops_in(t)) return;
        if (percent(50)) add_footpath(t, j, last[TO], last[COMES]); else add_ride(t, j, last[TO], last[COMES]);
    }
}

/* Two legs meet elsewhere, or at another moment. */
static void change_joint(const uint32_t *t, journey *j) {
    uint32_t i = below_n(j->legs);
    int field = percent(50) ? TO : COMES;
    uint32_t word = j->row[i][field] = other_word(t, field, j->row[i][field]);
    if (i + 1 < j->legs) j->row[i + 1][field == TO ? FROM : LEAVES] = word;
}

/* The query: its moment, at the edge of what is right or elsewhere; its places; its other words. */
static void change_query(const uint32_t *t, journey *j) {
    query *q = &j->q;
    uint32_t how = below_n(12), areas = areas_in(t), one = PICK(0, 1, ABSENT);
    const uint32_t *first = j->row[0], *last = j->row[j->legs ? j->legs - 1 : 0];
    if (how < 4 && j->legs) q->moment = (q->when ? last[COMES] : first[LEAVES]) + one;
    else if (how == 4) q->moment = percent(70) ? some_moment(t) : PICK(0, 1, LAST_MOMENT, LAST_MOMENT + 1, ABSENT);
    else if (how == 5) q->when ^= 1;
    else if (how == 6) q->walks = below_n(3);
    else if (how == 7) {                /* words that mean nothing, one of them or several */
        uint32_t *word[] = { &q->from_kind, &q->from, &q->to_kind, &q->to, &q->when, &q->walks, &q->moment };
        for (uint32_t k = PICK(1, 1, 2, 3); k > 0; k--) {
            uint32_t which = below_n(7);
            *word[which] = PICK(0, 2, 3, ABSENT, 0x80000000u);
        }
    } else {
        int to = how % 2;
        uint32_t *kind = to ? &q->to_kind : &q->from_kind, *number = to ? &q->to : &q->from;
        *kind = areas > 0 && percent(25);
        *number = below_n((*kind ? areas : stops_in(t)) + (uint32_t)percent(8));
    }
}

void change_journey(const uint32_t *t, journey *j) {
    uint32_t how = below_n(100), *leg = j->row[j->legs ? below_n(j->legs) : 0];
    if (j->legs == 0 || how < 22) change_query(t, j);
    else if (how < 48) change_field(t, leg);
    else if (how < 58) change_joint(t, j);
    else if (how < 70) change_trip(t, leg);
    else if (how < 82) {
        for (uint32_t i = 0; i < j->legs; i++) if (j->row[i][KIND] != RIDE && percent(60)) leg = j->row[i];
        change_footpath(t, leg);
    } else change_legs(t, j);
}

size_t change_bytes(uint8_t *bytes, size_t len) {
    uint32_t how = below_n(4), at = len ? below_n((uint32_t)len) : 0;
    if (how == 0 && len) return at;
    if (how == 1) { for (uint32_t more = range(1, 20); more > 0; more--) bytes[len++] = (uint8_t)PICK(0, 1, 2, 3, 4, 255); return len; }
    if (len) bytes[at] = how == 2 ? (uint8_t)roll() : (uint8_t)(bytes[at] ^ 1u << below_n(8));
    return len;
}

/* The judge in plain C. A leg is a row of six words; the tables' lists are read as they stand, so that nothing here rests on the search. */
#include <string.h>
#include "check.h"
#include "judge.h"
#include "tables.h"

enum { KIND, FROM, TO, TRIP, LEAVES, COMES, ROW };     /* the words of a leg */
enum { RIDE = 1, TRANSFER = 2, WALK = 3 };
enum { STOP, AREA };
enum { BARRED = 2, MOST_RIDES = 15 };

typedef struct { uint32_t kind, number; } place;

/* ---- journey bytes */

static uint32_t word_at(const uint8_t *p) { return p[0] | (uint32_t)p[1] << 8 | (uint32_t)p[2] << 16 | (uint32_t)p[3] << 24; }

uint32_t get_leg(const uint8_t *bytes, size_t len, size_t at, uint32_t *row) {
    if (at >= len) return 0;
    uint32_t kind = bytes[at], size = kind == RIDE ? 21 : 17;
    if (kind < RIDE || kind > WALK || len - at < size) return 13;
    const uint8_t *p = bytes + at + 1;
    row[KIND] = kind, row[FROM] = word_at(p), row[TO] = word_at(p + 4);
    row[TRIP] = kind == RIDE ? word_at(p + 8) : ABSENT;
    row[LEAVES] = word_at(p + size - 9), row[COMES] = word_at(p + size - 5);
    return size;
}

/* ---- places */

/* Whether a place stands for a stop: a stop with a parent for its parent's children, one with children for them, another for itself; an area for
   the served children of the stops that it names. */
static int stands_for(const uint32_t *t, place p, uint32_t stop) {
    const uint32_t *parent = section_of(t, STATIONS);
    if (stop >= stops_in(t)) return 0;
    if (p.kind == AREA) {
        const uint32_t *start = section_of(t, AREA_STARTS), *named = section_of(t, AREA_STOPS);
        if (parent[stop] == ABSENT || !section_of(t, SERVED)[stop]) return 0;
        for (uint32_t i = start[p.number]; i < start[p.number + 1]; i++) if (named[i] == parent[stop]) return 1;
        return 0;
    }
    const uint32_t *children = section_of(t, CHILD_STARTS);
    if (parent[p.number] != ABSENT) return parent[stop] == parent[p.number];
    if (children[p.number] < children[p.number + 1]) return parent[stop] == p.number;
    return stop == p.number;
}
static int exists(const uint32_t *t, place p) {
    return (p.kind == STOP && p.number < stops_in(t)) || (p.kind == AREA && p.number < areas_in(t));
}
static int served(const uint32_t *t, place p) {
    if (p.kind == STOP) return 1;
    for (uint32_t s = 0; s < stops_in(t); s++) if (stands_for(t, p, s)) return 1;
    return 0;
}

/* ---- one leg by itself */

/* Some earlier and some later position of the trip fit the two stops and the two moments. */
static int is_ride(const uint32_t *t, const uint32_t *leg) {
    const uint32_t *trip = section_of(t, ROUTE_TRIPS), *trip_start = section_of(t, ROUTE_TRIP_STARTS), *start = section_of(t, ROUTE_STOP_STARTS);
    uint32_t listed = 0, route = 0, trips = size_of(t, ROUTE_TRIPS);
    while (listed < trips && trip[listed] != leg[TRIP]) listed++;
    if (listed == trips) return 0;      /* in no route */
    while (trip_start[route + 1] <= listed) route++;
    const uint32_t *stop = section_of(t, ROUTE_STOPS) + start[route];
    const uint32_t *time = section_of(t, TIMES) + TIME_WORDS * section_of(t, TIME_STARTS)[leg[TRIP]];
    for (uint32_t on = 0, end = start[route + 1] - start[route]; on < end; on++) {
        if (stop[on] != leg[FROM] || time[TIME_WORDS * on + 1] != leg[LEAVES]) continue;
        for (uint32_t off = on + 1; off < end; off++) if (stop[off] == leg[TO] && time[TIME_WORDS * off] == leg[COMES]) return 1;
    }
    return 0;
}

/* Metres at 1.5 a second, rounded once, then raised to a whole second. */
static uint32_t on_foot(uint32_t bits) {
    float metres;
    memcpy(&metres, &bits, sizeof metres);
    float seconds = metres / 1.5f;
    uint32_t below = (uint32_t)seconds;
    return seconds > (float)below ? below + 1 : below;
}

/* A footpath of the leg's kind is listed under its first stop, leads to its second and takes exactly the leg's seconds. */
static int is_footpath(const uint32_t *t, const uint32_t *leg) {
    if (leg[FROM] >= stops_in(t) || leg[COMES] < leg[LEAVES]) return 0;
    int transfer = leg[KIND] == TRANSFER;
    uint32_t lasts = leg[COMES] - leg[LEAVES], width = transfer ? TRANSFER_WORDS : WALK_WORDS;
    const uint32_t *start = section_of(t, transfer ? TRANSFER_STARTS : WALK_STARTS) + leg[FROM];
    const uint32_t *row = section_of(t, transfer ? TRANSFERS : WALKS) + width * start[0];
    for (uint32_t i = start[0]; i < start[1]; i++, row += width) {
        uint32_t to = row[transfer ? 1 : 0], span = transfer && row[2] != ABSENT ? row[2] : on_foot(row[width - 1]);
        if (to == leg[TO] && span == lasts) return 1;
    }
    return 0;
}

/* ---- the legs together */

static int is_journey(const uint32_t *t, const uint8_t *bytes, size_t len, place from, place to, int arriving, uint32_t moment, int walking) {
    uint32_t leg[ROW], before[ROW], rides = 0, size;
    for (size_t at = 0; (size = get_leg(bytes, len, at, leg)) > 0; at += size) {
        if (at == 0) {
            if (!stands_for(t, from, leg[FROM])) return 0;
            if (!arriving && (leg[KIND] != RIDE || leg[LEAVES] < moment)) return 0;
        } else {
            if (leg[FROM] != before[TO]) return 0;
            if (leg[LEAVES] < before[COMES]) return 0;
        }
        if (leg[KIND] == RIDE && ++rides > MOST_RIDES) return 0;
        if (leg[KIND] == WALK && !walking) return 0;
        if (!(leg[KIND] == RIDE ? is_ride(t, leg) : is_footpath(t, leg))) return 0;
        memcpy(before, leg, sizeof leg);
    }
    if (rides == 0) return 0;           /* nor is there a journey without legs */
    if (!stands_for(t, to, before[TO])) return 0;
    if (arriving && (before[KIND] != RIDE || before[COMES] > moment)) return 0;
    return 1;
}

uint32_t plain_judge_checked(const uint32_t *tables, size_t tables_len, const uint8_t *journey, size_t journey_len,
                             uint32_t from_kind, uint32_t from, uint32_t to_kind, uint32_t to, uint32_t when, uint32_t moment, uint32_t walks,
                             uint64_t *told, size_t told_len) {
    (void)tables_len;
    place here = { from_kind, from }, there = { to_kind, to };
    if (told_len == 0) return 6;
    if (!exists(tables, here) || !exists(tables, there)) return 7;
    if (moment < 1 || moment > LAST_MOMENT || when > 1 || walks > BARRED) return 8;
    if (!served(tables, here) || !served(tables, there)) return 9;
    uint32_t leg[ROW], size;
    size_t at = 0;
    while ((size = get_leg(journey, journey_len, at, leg)) > 13) at += size;
    if (size == 13) { told[0] = at; return 13; }
    told[0] = (uint64_t)is_journey(tables, journey, journey_len, here, there, when == 1, moment, walks != BARRED);
    return 0;
}

uint32_t plain_judge(const uint32_t *tables, size_t tables_len, const uint8_t *journey, size_t journey_len,
                     uint32_t from_kind, uint32_t from, uint32_t to_kind, uint32_t to, uint32_t when, uint32_t moment, uint32_t walks,
                     uint64_t *told, size_t told_len) {
    uint32_t number = plain_check(tables, tables_len);
    if (number != 0) return number;
    return plain_judge_checked(tables, tables_len, journey, journey_len, from_kind, from, to_kind, to, when, moment, walks, told, told_len);
}

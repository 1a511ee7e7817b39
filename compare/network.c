/* Networks as lists, and their flat tables. */
#include <stdlib.h>
#include <string.h>
#include "network.h"
#include "../plain/tables.h"

void add(list *l, uint32_t width, const uint32_t *row) {
    if (l->rows == l->room) {
        l->room = l->room ? 2 * l->room : 64;
        l->word = realloc(l->word, l->room * width * 4);
    }
    l->width = width;
    memcpy(l->word + l->rows++ * width, row, 4 * width);
}

void empty_network(network *n) {
    list *all[] = { &n->stations, &n->transfers, &n->walks, &n->route_stops, &n->route_trips, &n->times, &n->area_stops };
    for (int i = 0; i < 7; i++) all[i]->rows = 0;
    n->stops = n->routes = n->trips = n->areas = n->ends = 0;
}

uint32_t bits_of(float metres) {
    uint32_t bits;
    memcpy(&bits, &metres, 4);
    return bits;
}

void moments_of(const network *n, uint32_t *least, uint32_t *most) {
    *least = LAST_MOMENT, *most = 0;
    for (size_t i = 0; i < n->times.rows; i++) {
        const uint32_t *row = n->times.word + 3 * i;
        if (row[1] < *least) *least = row[1];
        if (row[2] > *most) *most = row[2];
    }
}

/* The next section, of so many words: the header says where it begins, and for the time being that all ends behind it. */
static uint32_t *begin(flat *f, int section, size_t words) {
    if (f->len + words > f->room) {
        f->room = 2 * (f->len + words);
        f->word = realloc(f->word, f->room * 4);
    }
    uint32_t *p = f->word + f->len;
    f->word[section] = (uint32_t)f->len;
    f->word[section + 1] = (uint32_t)(f->len += words);
    return p;
}

/* A list section, and before it its starts, of so many entries: the rows by entry, in the order in which they were added. The first `skip`
   words of a row are left out. */
static void put_list(flat *f, int section, const list *l, uint32_t entries, uint32_t skip) {
    uint32_t *start = begin(f, section - 1, entries + 1), width = l->rows ? l->width - skip : 0;
    memset(start, 0, 4 * (size_t)(entries + 1));
    for (size_t i = 0; i < l->rows; i++) start[l->word[i * l->width] + 1]++;
    for (uint32_t e = 0; e < entries; e++) start[e + 1] += start[e];
    uint32_t *next = malloc(4 * (size_t)(entries + 1));
    memcpy(next, start, 4 * (size_t)(entries + 1));
    uint32_t *row = begin(f, section, l->rows * width);         /* may move the words, so `start` is not used from here on */
    for (size_t i = 0; i < l->rows; i++) memcpy(row + (size_t)width * next[l->word[i * l->width]]++, l->word + i * l->width + skip, 4 * width);
    free(next);
}

/* Of each stop the routes that contain it, with its first and last position: rows of stop, route, first, last. Marks the served stops. */
static list calls_of(const network *n, uint32_t *served) {
    list calls = { 0 };
    uint32_t *trips = calloc(n->routes + 1, 4), *latest = calloc(n->stops + 1, 4);      /* latest: of each stop one more than its latest row */
    for (size_t i = 0; i < n->route_trips.rows; i++) trips[n->route_trips.word[2 * i]]++;
    for (size_t i = 0, position = 0; i < n->route_stops.rows; i++, position++) {
        const uint32_t *row = n->route_stops.word + 2 * i;
        uint32_t route = row[0], stop = row[1];
        if (i == 0 || row[-2] != route) position = 0;
        served[stop] |= trips[route] > 0;
        if (latest[stop] && calls.word[4 * (latest[stop] - 1) + 1] == route) {
            calls.word[4 * (latest[stop] - 1) + 3] = (uint32_t)position;
        } else {
            ADD(&calls, stop, route, (uint32_t)position, (uint32_t)position);
            latest[stop] = (uint32_t)calls.rows;
        }
    }
    free(trips), free(latest);
    return calls;
}

/* Of each trip its route and its place among the route trips, once those are written. */
static void put_standing(flat *f, uint32_t trips) {
    uint32_t *row = begin(f, STANDING, STANDING_WORDS * (size_t)trips);
    const uint32_t *start = section_of(f->word, ROUTE_TRIP_STARTS), *trip = section_of(f->word, ROUTE_TRIPS);
    for (uint32_t r = 0; r < routes_in(f->word); r++) for (uint32_t i = start[r]; i < start[r + 1]; i++)
        row[STANDING_WORDS * trip[i]] = r, row[STANDING_WORDS * trip[i] + STANDING_PLACE] = i;
}

void flatten(const network *n, flat *f) {
    uint32_t S = n->stops, *served = calloc(S + 1, 4), *p;
    list calls = calls_of(n, served), children = { 0 };         /* station, stop */
    if (f->room < HEADER) f->word = realloc(f->word, (f->room = 1024) * 4);
    f->len = HEADER;
    p = begin(f, STOP_LIST, S);
    for (uint32_t s = 0; s < S; s++) p[s] = s;
    p = begin(f, STATIONS, S);
    for (uint32_t s = 0; s < S; s++) p[s] = ABSENT;
    for (size_t i = 0; i < n->stations.rows; i++) {
        uint32_t stop = n->stations.word[2 * i], station = n->stations.word[2 * i + 1];
        p[stop] = station;
        ADD(&children, station, stop);
    }
    put_list(f, CHILDREN, &children, S, 1);
    put_list(f, CALLS, &calls, S, 1);
    memcpy(begin(f, SERVED, S), served, 4 * (size_t)S);
    put_list(f, TRANSFERS, &n->transfers, S, 0);        /* a transfer names the stop under which it stands */
    put_list(f, WALKS, &n->walks, S, 1);
    put_list(f, ROUTE_STOPS, &n->route_stops, n->routes, 1);
    put_list(f, ROUTE_TRIPS, &n->route_trips, n->routes, 1);
    put_list(f, TIMES, &n->times, n->trips, 1);
    put_list(f, AREA_STOPS, &n->area_stops, n->areas, 1);
    put_standing(f, n->trips);
    free(served), free(calls.word), free(children.word);
}

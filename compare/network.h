/* A network as lists, and the one C writer of its flat tables. */
#ifndef COMPARE_NETWORK_H
#define COMPARE_NETWORK_H

#include <stddef.h>
#include <stdint.h>

/* Rows of some words each; the first says under which entry (a stop, a route, a trip, an area) the row stands. */
typedef struct { uint32_t width; size_t rows, room; uint32_t *word; } list;

void add(list *l, uint32_t width, const uint32_t *row);
#define ADD(list, ...) add(list, sizeof((uint32_t[]){ __VA_ARGS__ }) / 4, (uint32_t[]){ __VA_ARGS__ })

typedef struct {
    uint32_t stops, routes, trips, areas;
    list stations;                      /* stop, station; in the order in which a station lists its children */
    list transfers;                     /* from, to, span or ABSENT, metres */
    list walks;                         /* from, to, metres */
    list route_stops;                   /* route, stop; routes ascending */
    list route_trips;                   /* route, trip */
    list times;                         /* trip, arrival, departure */
    list area_stops;                    /* area, stop */
    uint32_t ends, end[2];              /* ends: 2 where the network is made for journeys from the one stop to the other */
} network;

void empty_network(network *n);
uint32_t bits_of(float metres);
void moments_of(const network *n, uint32_t *least, uint32_t *most);     /* the first and the last of the timetable */

/* Flat tables, and for how many words there is room. */
typedef struct { uint32_t *word; size_t len, room; } flat;

void flatten(const network *n, flat *f);                /* writes the tables over those in `f` */

#endif

/* The layout of the flat tables in names: a header that says where each section begins and how long all is, then the sections. */
#ifndef PLAIN_TABLES_H
#define PLAIN_TABLES_H

#include <stdint.h>

/* The sections in their order. A list stands right behind its starts: its rows under entry i are those from start[i] up to below
   start[i + 1]. STANDING has no starts: a row for each trip. */
enum {
    STOP_LIST, STATIONS, CHILD_STARTS, CHILDREN, CALL_STARTS, CALLS, SERVED, TRANSFER_STARTS, TRANSFERS, WALK_STARTS, WALKS,
    ROUTE_STOP_STARTS, ROUTE_STOPS, ROUTE_TRIP_STARTS, ROUTE_TRIPS, TIME_STARTS, TIMES, AREA_STARTS, AREA_STOPS, STANDING,
    SECTIONS, HEADER                    /* how many there are, and the words of the header */
};

/* The words of a row, where they are more than one: route, first position, last position; from, to, span, metres; to, metres; arrival,
   departure; route, place among the route trips. */
enum { CALL_WORDS = 3, TRANSFER_WORDS = 4, WALK_WORDS = 2, TIME_WORDS = 2, STANDING_WORDS = 2, STANDING_PLACE = 1 };

/* Document 01's "Most:". */
enum {
    MOST_STOPS = 4096, MOST_ROUTES = 1024, MOST_POSITIONS = 128, MOST_TRIPS = 16384, MOST_STOP_TIMES = 262144, MOST_TRANSFERS = 16384,
    MOST_WALKS = 32768, MOST_AREAS = 1024, MOST_AREA_ENTRIES = 16384, LAST_MOMENT = 1000000, LONGEST_SPAN = 86400, LONGEST_METRES = 100000
};

#define ABSENT 0xFFFFFFFFu              /* no parent station, an unstated span */

static inline const uint32_t *section_of(const uint32_t *tables, int section) { return tables + tables[section]; }
static inline uint32_t size_of(const uint32_t *tables, int section) { return tables[section + 1] - tables[section]; }
static inline uint32_t stops_in(const uint32_t *tables) { return size_of(tables, STOP_LIST); }
static inline uint32_t routes_in(const uint32_t *tables) { return size_of(tables, ROUTE_STOP_STARTS) - 1; }
static inline uint32_t areas_in(const uint32_t *tables) { return size_of(tables, AREA_STARTS) - 1; }

#endif

/* Cities made up by seed, of any size up to document 01's limits, and queries in them; and the network of the longest journey. */
#ifndef COMPARE_CITY_H
#define COMPARE_CITY_H

#include "face.h"
#include "network.h"

/* Stops on a grid that closes on itself both ways, straight lines across it both ways, footpaths to near stops both ways. */
typedef struct { uint32_t wide, high, routes, positions, trips_each, areas, area_each; } grid;

extern const grid limit_city;           /* at every limit */

void make_city(network *n, grid z, uint64_t seed);
query city_query(const network *n, uint32_t when, uint32_t mode);       /* by day */

/* A network with the longest journey there can be, but for one leg, and the query that it answers; as in tests/face/long.py. */
void make_longest(network *n);
extern const query longest_query;

#endif

/* Cities made up by seed, and queries in them; and the network of the longest journey. */
#include "city.h"
#include "dice.h"
#include "../plain/tables.h"

const grid limit_city = { 64, 64, MOST_ROUTES, 16, 16, MOST_AREAS, 16 };

/* A number for an unordered pair of stops: its footpaths have one span and one distance, whichever way and under whichever kind. */
static uint32_t of_pair(uint32_t a, uint32_t b, uint32_t below) {
    uint64_t z = (uint64_t)(a < b ? a : b) * 4099 + (a < b ? b : a);
    z = (z + 1) * 0x9e3779b97f4a7c15u;
    return (uint32_t)((z ^ z >> 31) >> 16) % below;
}

void make_city(network *n, grid z, uint64_t seed) {
    static const int near[12][2] = {    /* the first 4 are transfers, the other 8 walks */
        { 1, 0 }, { -1, 0 }, { 0, 1 }, { 0, -1 }, { 1, 1 }, { 1, -1 }, { -1, 1 }, { -1, -1 }, { 2, 0 }, { -2, 0 }, { 0, 2 }, { 0, -2 } };
    seed_dice(seed, 0);
    empty_network(n);
    n->stops = z.wide * z.high, n->routes = z.routes, n->trips = z.routes * z.trips_each, n->areas = z.areas;
#define AT(x, y) (((uint32_t)(y) + 4 * z.high) % z.high * z.wide + ((uint32_t)(x) + 4 * z.wide) % z.wide)
    for (uint32_t y = 0; y < z.high; y++) for (uint32_t x = 0; x < z.wide; x++) for (int k = 0; k < 12; k++) {
        uint32_t s = AT(x, y), to = AT(x + near[k][0], y + near[k][1]), metres = bits_of(120 + (float)of_pair(s, to, 4000) / 8);
        if (k >= 4) ADD(&n->walks, s, to, metres);
        else ADD(&n->transfers, s, to, of_pair(to, s, 3) ? 60 + of_pair(s, to, 240) : ABSENT, metres);
    }
    uint32_t side = z.wide < z.high ? z.wide : z.high, longest = side / z.positions > 1 ? side / z.positions : 1;   /* of a hop, in stops */
    for (uint32_t r = 0, v = 0, x = 0, y = 0, dx = 0, dy = 0; r < z.routes; r++) {
        if (r % 2 == 0) {               /* a line; the next route is the same one the other way */
            uint32_t stride = range(1, longest);
            x = below_n(z.wide), y = below_n(z.high);
            do { dx = below_n(3), dy = below_n(3); } while (dx == 1 && dy == 1);
            dx = (dx + z.wide - 1) * stride % z.wide, dy = (dy + z.high - 1) * stride % z.high;
        }
        for (uint32_t p = 0, q; p < z.positions; p++) {
            q = r % 2 == 0 ? p : z.positions - 1 - p;
            ADD(&n->route_stops, r, (y + q * dy) % z.high * z.wide + (x + q * dx) % z.wide);
        }
        uint32_t first = range(100000, 101800), headway = range(600, 1800), hop = range(60, 240), stand = below_n(30);
        for (uint32_t i = 0; i < z.trips_each; i++, v++) {
            ADD(&n->route_trips, r, v);
            for (uint32_t p = 0, t = first + i * headway; p < z.positions; p++, t += hop + stand) ADD(&n->times, v, t, t + stand);
        }
    }
    /* a quarter of the blocks of 2 by 2 stops are stations; an area names the first stops of some blocks in a row */
    for (uint32_t y = 0; y + 1 < z.high; y += 2) for (uint32_t x = 0; x + 1 < z.wide; x += 2)
        if (percent(25) || (x == 0 && y == 0))
            for (uint32_t k = 0; k < 4; k++) ADD(&n->stations, AT(x + k % 2, y + k / 2), AT(x, y));
    for (uint32_t a = 0; a < z.areas; a++) for (uint32_t k = 0; k < z.area_each; k++)
        ADD(&n->area_stops, a, AT(2 * (a + k % 4) % z.wide, (2 * (a / (z.wide / 2)) + 2 * (k / 4)) % z.high));
#undef AT
}

/* One place in eight is an area, one query in eight is without walks. */
query city_query(const network *n, uint32_t when, uint32_t mode) {
    query q = { .when = when, .mode = mode, .walks = below_n(8) ? below_n(2) : 2 };
    uint32_t least, most;
    moments_of(n, &least, &most);
    q.moment = (when ? least + (most - least) / 3 : least - 600) + below_n((most - least) / 3);
    q.from_kind = below_n(8) == 0, q.from = below_n(q.from_kind ? n->areas : n->stops);
    q.to_kind = below_n(8) == 0, q.to = below_n(q.to_kind ? n->areas : n->stops);
    return q;
}

/* 14 rides from stop to stop, then one of many slow buses, and on foot past all. */
void make_longest(network *n) {
    enum { HUBS = 14, ALONG = 127 };
    empty_network(n);
    n->stops = MOST_STOPS;
    for (uint32_t h = 0; h < HUBS; h++, n->routes++, n->trips++) {
        ADD(&n->route_stops, n->routes, h), ADD(&n->route_stops, n->routes, h + 1), ADD(&n->route_trips, n->routes, n->trips);
        ADD(&n->times, n->trips, 10 * h + 10, 10 * h + 10), ADD(&n->times, n->trips, 10 * h + 15, 10 * h + 15);
    }
    for (uint32_t first = HUBS + 1; first < MOST_STOPS; first += ALONG, n->routes++, n->trips++) {
        ADD(&n->route_stops, n->routes, HUBS), ADD(&n->route_trips, n->routes, n->trips), ADD(&n->times, n->trips, 1000, 1000);
        for (uint32_t s = first; s < MOST_STOPS && s < first + ALONG; s++)
            ADD(&n->route_stops, n->routes, s), ADD(&n->times, n->trips, 1000 + 2 * s, 1000 + 2 * s);
    }
    for (uint32_t s = HUBS + 1; s + 1 < MOST_STOPS; s++) ADD(&n->transfers, s, s + 1, 1, 0);
}
const query longest_query = { .to = MOST_STOPS - 1, .moment = 1 };

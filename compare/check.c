/* The proved check beside a plain C one: the same numbers on cities, at the limits and one past each of them, and on a word changed at a time. */
#include <stdio.h>
#include "city.h"
#include "dice.h"
#include "../plain/check.h"
#include "../plain/tables.h"

enum { DAMAGED = 3000 };
static int failed;

static void expect(const char *what, const network *n, uint32_t number) {
    static flat f;
    flatten(n, &f);
    uint32_t ours = kiosk_check(f.word, f.len), plain = plain_check(f.word, f.len);
    printf("%-24s %zu words: ours %u, plain C %u\n", what, f.len, ours, plain);
    failed |= ours != number || plain != number;
}

/* A city with room below all limits but one, and at that one. */
static const grid limit_trips = { 64, 64, MOST_ROUTES, 15, 16, 0, 0 }, limit_times = { 64, 64, 16, MOST_POSITIONS, 128, 0, 0 };

/* One past each limit: a stop, a route, a trip, a stop time, a position, a transfer, a walk, an area, a stop of an area. */
static void past_the_limits(void) {
    network n = { 0 };
    make_city(&n, limit_city, 1), expect("at the limits", &n, 0);
    n.stops++, expect("4,097 stops", &n, 1), n.stops--;
    ADD(&n.transfers, 0, 1, 60, 0), expect("16,385 transfers", &n, 1), n.transfers.rows--;
    ADD(&n.walks, 0, 1, 0), expect("32,769 walks", &n, 1), n.walks.rows--;
    n.areas++, expect("1,025 areas", &n, 1), n.areas--;
    ADD(&n.area_stops, MOST_AREAS - 1, 1), expect("16,385 stops of areas", &n, 1), n.area_stops.rows--;
    ADD(&n.route_stops, n.routes++, 0), expect("1,025 routes", &n, 1);
    make_city(&n, limit_trips, 1), expect("at the limit of trips", &n, 0);
    ADD(&n.route_trips, n.routes - 1, n.trips);
    for (uint32_t p = 0; p < limit_trips.positions; p++) ADD(&n.times, n.trips, LAST_MOMENT, LAST_MOMENT);
    n.trips++, expect("16,385 trips", &n, 1);
    make_city(&n, limit_times, 1), expect("at the limit of times", &n, 0);
    ADD(&n.route_stops, n.routes, 0), ADD(&n.route_trips, n.routes, n.trips), ADD(&n.times, n.trips, 1, 1);
    n.routes++, n.trips++, expect("262,145 stop times", &n, 1);
    make_city(&n, limit_times, 1), n.trips = 0, n.route_trips.rows = n.times.rows = 0, expect("128 positions", &n, 0);
    ADD(&n.route_stops, n.routes - 1, 0), expect("129 positions", &n, 1);
}

/* A word changed at a time, and put back. */
static void damage(void) {
    network n = { 0 };
    flat f = { 0 };
    unsigned differ = 0, by[6] = { 0 };
    make_city(&n, limit_city, 1);
    flatten(&n, &f);
    for (unsigned i = 0; i < DAMAGED; i++) {
        uint32_t at = below_n(i % 3 ? (uint32_t)f.len : HEADER), old = f.word[at];
        f.word[at] = i % 2 ? old + 1 : percent(50) ? below_n(5000) : (uint32_t)roll();
        uint32_t ours = kiosk_check(f.word, f.len), plain = plain_check(f.word, f.len);
        differ += ours != plain, by[plain]++, f.word[at] = old;
    }
    printf("%u damaged cities: %u differ; by number 0 to 5: %u %u %u %u %u %u\n", DAMAGED, differ, by[0], by[1], by[2], by[3], by[4], by[5]);
    failed |= differ > 0;
}

int main(void) {
    past_the_limits();
    damage();
    return failed;
}

/* The table of growth: how the time of a query grows with stops, routes, trips and rides, one of them varied and the others held. */
#include <math.h>
#include <stdio.h>
#include "measure.h"
#include "table.h"
#include "../compare/dice.h"
#include "../compare/writings.h"

/* Hubs in a row, and between each two neighbours 16 lines side by side, each over stops of its own: from the first hub to hub k it takes k
   rides. A line leaves its hub every 900 seconds and comes to the next one in time for the following departure. */
enum { HUBS = 16, LINES = 16, INNER = 14, TRIPS = 16, FIRST = 100000 };
static void make_row(network *n) {
    empty_network(n);
    n->stops = HUBS, n->routes = (HUBS - 1) * LINES, n->trips = n->routes * TRIPS;
    for (uint32_t r = 0; r < n->routes; r++) {
        uint32_t hub = r / LINES, hop = 59 - r % LINES;
        ADD(&n->route_stops, r, hub);
        for (int p = 0; p < INNER; p++) ADD(&n->route_stops, r, n->stops++);
        ADD(&n->route_stops, r, hub + 1);
        for (uint32_t i = 0; i < TRIPS; i++) {
            uint32_t trip = r * TRIPS + i;
            ADD(&n->route_trips, r, trip);
            for (uint32_t p = 0; p < INNER + 2; p++) ADD(&n->times, trip, FIRST + 900 * i + hop * p, FIRST + 900 * i + hop * p);
        }
    }
}
static void draw_rides(uint32_t rides, query *q) {
    for (int k = 0; k < QUERIES; k++) {
        q[k] = (query){ .to = rides, .moment = FIRST - 600 + below_n(1500) };
        drawn[0]++;
        const char *what = differs(&city, &q[k], 1);
        if (!what && (answer_of(&all.plain)[0] != 0 || answer_of(&all.plain)[3] + 1 != rides)) what = "the number of rides";
        if (what) report(what, &city, &q[k]);
    }
}

/* ---- printing */

enum { POINTS = 5, SHOWN = 3 };
static const int shown[SHOWN] = { RUST_NEW, PLAIN, CHECKED };

static void print_growth(const char *name, const char *value, const double *us) {
    printf("|");
    put_cell(name), put_cell(value);
    for (int c = 0; c < SHOWN; c++) put_cell(microseconds(us[shown[c]]));
    printf("\n");
    fflush(stdout);
}
/* From the first point to the last: each doubling as one factor, or what one more adds where `more` says how many there are. */
static void print_change(double us[POINTS][COLUMNS], uint32_t more) {
    const double *first = us[0], *last = us[POINTS - 1];
    printf(more ? "| | one more adds |" : "| | a doubling, times |");
    for (int i = 0, c; i < SHOWN; i++) {
        c = shown[i];
        put_cell(more ? microseconds((last[c] - first[c]) / more) : quotient(pow(last[c] / first[c], 1.0 / (POINTS - 1)), 1));
    }
    printf("\n");
}

/* ---- the table */

enum { STOPS, ROUTES, TRIPS_EACH, VARIED };
static const char *const varied[VARIED] = { "stops (256 routes of 16 positions, 16 trips each)",
    "routes (1,024 stops, 16 positions, 16 trips each)", "trips of each route (1,024 stops, 128 routes of 8 positions)" };

/* A city in which this was doubled so many times, and how many there are of it then. */
static uint32_t make_doubled(int what, int times) {
    grid z = what == STOPS ? (grid){ 16u << (times + 1) / 2, 16u << times / 2, 256, 16, 16, 16, 8 }
           : what == ROUTES ? (grid){ 32, 32, 64u << times, 16, 16, 16, 8 } : (grid){ 32, 32, 128, 8, 8u << times, 16, 8 };
    make_city_ready(z);
    return what == STOPS ? z.wide * z.high : what == ROUTES ? z.routes : z.trips_each;
}

int growth(void) {
    static const uint32_t rides[POINTS] = { 1, 2, 4, 8, 15 };
    const unsigned which = COLUMN(RUST_NEW) | COLUMN(PLAIN) | COLUMN(CHECKED);
    query q[QUERIES];
    double us[POINTS][COLUMNS];
    char name[128];
    printf("| what grows (what is held) | | the Rust | plain C | ours |\n|---|---|---|---|---|\n");
    for (int what = 0; what < VARIED; what++) {
        for (int i = 0; i < POINTS; i++) {
            uint32_t value = make_doubled(what, i);
            draw_queries(&city_lists, &city, 0, 0, q);
            measure(q, QUERIES, which, 0, us[i]);
            print_growth(i ? "" : varied[what], whole(value), us[i]);
        }
        print_change(us, 0);
    }
    make_row(&city_lists);
    make_lists_ready();
    sprintf(name, "rides of the journey (%s stops, %s routes of 16 positions, 16 trips each)", whole(city_lists.stops),
            whole(city_lists.routes));
    for (int i = 0; i < POINTS; i++) {
        draw_rides(rides[i], q);
        measure(q, QUERIES, which, 0, us[i]);
        print_growth(i ? "" : name, whole(rides[i]), us[i]);
    }
    print_change(us, rides[POINTS - 1] - rides[0]);
    return print_compared();
}

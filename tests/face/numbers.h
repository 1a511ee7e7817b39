/* Every number of enum kiosk_number as the library gives it: on network N with an area whose only stop has no children. */
#include "tables.h"

/* The check's number with one word of the tables changed. */
static uint32_t changed(const tables *t, uint32_t at, uint32_t word) {
    uint32_t old = t->words[at], number;
    t->words[at] = word;
    number = kiosk_check(t->words, t->len);
    t->words[at] = old;
    if (number < 14) given[number]++;
    return number;
}

static void numbers(const tables *n) {
    lent l = lend(n, KIOSK_MOST_JOURNEY);
    const uint32_t transfer = n->words[8], trips = n->words[14], times = n->words[16], standing = n->words[19];    /* where these sections begin */
    kiosk_query q = kiosk_departure(0, 4, 50);
    kiosk_answer a = ask(n, &l, q);
    uint64_t told = 0;
    uint8_t bytes[1] = { 0 };
    uint32_t leg[6];

    expect("found", a.number, KIOSK_FOUND);
    expect("N1's time", a.time, 450), expect("N1's stop", a.stop, 4), expect("N1's round", a.round, 1), expect("N1's length", a.length, 59);

    expect("a slice of wrong length", kiosk_check(n->words, n->len - 1), KIOSK_BAD_COUNT);
    expect("a header that is not so", changed(n, 20, 0), KIOSK_BAD_COUNT);
    expect("the layout before", changed(n, 0, 20), KIOSK_BAD_COUNT);
    expect("an index out of range", changed(n, transfer + 1, 5), KIOSK_BAD_LISTING);
    expect("no moment", changed(n, times, 0), KIOSK_BAD_TIMETABLE);
    expect("another place of a trip", changed(n, standing + 1, 1), KIOSK_BAD_LISTING);
    n->words[trips] = 1, n->words[trips + 1] = 0, n->words[standing + 1] = 1;
    expect("trips exchanged", changed(n, standing + 3, 0), KIOSK_BAD_ORDER);
    n->words[trips] = 0, n->words[trips + 1] = 1, n->words[standing + 1] = 0;
    expect("NaN metres", changed(n, transfer + 3, 0x7FC00000u), KIOSK_BAD_FOOTPATH);
    expect("as it was", kiosk_check(n->words, n->len), KIOSK_FOUND);

    l.work.lengths.marks--;
    expect("a mark too few", ask(n, &l, q).number, KIOSK_BAD_WORKSPACE);
    l.work.lengths.marks++;
    q.to = 5;
    expect("no such stop", ask(n, &l, q).number, KIOSK_BAD_PLACE);
    q.to = 4, q.moment = 0;
    expect("no such moment", ask(n, &l, q).number, KIOSK_BAD_MOMENT);
    q.moment = 50, q.to_kind = KIOSK_AREA, q.to = 0;
    expect("nothing serves the area", ask(n, &l, q).number, KIOSK_BAD_AREA);
    expect("the last bus has left", ask(n, &l, kiosk_departure(0, 4, 401)).number, KIOSK_NO_ROUTE_FOUND);
    l.journey_len = 58;
    a = ask(n, &l, kiosk_departure(0, 4, 50));
    expect("a byte too few", a.number, KIOSK_TOO_LONG), expect("and what is needed", a.length, 59), expect("and no time", a.time, 0);
    expect("an unknown kind", kiosk_read(bytes, 1, &told, 1), KIOSK_BAD_LEG);
    expect("an unknown kind of leg", kiosk_leg(bytes, 1, 0, leg, 6), KIOSK_BAD_LEG);
    given[KIOSK_BAD_LEG]++;
    l.journey_len = KIOSK_MOST_JOURNEY;
    give_back(&l);
}

/* The words of a query and of a leg mean what their names say. */
static void words(const tables *n, const tables *m, const tables *town) {
    lent in_n = lend(n, 1024), in_m = lend(m, 1024), in_town = lend(town, 1024);
    kiosk_query q = kiosk_departure(0, 2, 120);
    kiosk_one_leg leg;
    size_t at = 0;

    q.mode = KIOSK_SOURCE;
    expect("M1, source", ask(m, &in_m, q).number, KIOSK_NO_ROUTE_FOUND);
    q.mode = KIOSK_RESCAN;
    expect("M2, rescan", ask(m, &in_m, q).time, 400);

    expect("arrival: the first departure", ask(n, &in_n, kiosk_arrival(3, 4, 750)).time, 650);
    expect("departure: the arrival", ask(n, &in_n, kiosk_departure(3, 4, 350)).time, 450);

    /* platform 2 stands for the whole station: the bus leaves platform 1. And so does the station itself, and the area that names it */
    q = kiosk_departure(2, 7, 24900);
    expect("to the market, by a walk", ask(town, &in_town, q).time, 26461);
    expect("a ride", (unsigned long)kiosk_next_leg(in_town.journey, 38, &at, &leg), 1);
    expect("is a ride", leg.kind, KIOSK_RIDE), expect("from the other platform", leg.from, 1), expect("by trip 0", leg.trip, 0);
    expect("a walk", (unsigned long)kiosk_next_leg(in_town.journey, 38, &at, &leg), 1);
    expect("is a walk", leg.kind, KIOSK_WALK), expect("to the market", leg.to, 7), expect("by no trip", leg.trip, KIOSK_NO_TRIP);
    q.from = 0;
    expect("from the station", ask(town, &in_town, q).time, 26461);
    q.from_kind = KIOSK_AREA;
    expect("from the area", ask(town, &in_town, q).time, 26461);
    q.walks = KIOSK_WALKS_ALLOWED;
    expect("walks allowed", ask(town, &in_town, q).time, 26461);
    q.walks = KIOSK_WALKS_BARRED;
    expect("walks barred, so by tram", ask(town, &in_town, q).time, 26520);

    ask(n, &in_n, kiosk_departure(0, 4, 50));
    at = 21;
    expect("a transfer", (unsigned long)kiosk_next_leg(in_n.journey, 59, &at, &leg), 1);
    expect("is a transfer", leg.kind, KIOSK_TRANSFER), expect("takes 17 bytes", at, 38);
    give_back(&in_n), give_back(&in_m), give_back(&in_town);
}

/* After all the rest: every number was given, but for 11. */
static void all_numbers(void) {
    for (int k = 0; k < 14; k++) {
        char what[40];
        sprintf(what, "number %d is given", k);
        expect(what, given[k] > 0, k != KIOSK_FAILED_TO_BUILD_ROUTE);
    }
}

/* Journeys judged: each number and what it tells, that nothing else is written, and the functions with structs beside the raw ones. */
#include "tables.h"

typedef uint32_t judging(const uint32_t *, size_t, const uint8_t *, size_t, uint32_t, uint32_t, uint32_t, uint32_t, uint32_t, uint32_t, uint32_t,
                         uint64_t *, size_t);
typedef uint32_t verdict(const uint32_t *, size_t, const uint8_t *, size_t, const kiosk_query *, int *);

/* One function with no word to tell it in, with one, and with three: the number, or 6 in the place of a higher one; told where it is 0 or 13, and only
   in the first word. Gives what was told. */
static uint64_t judge_by(judging *f, const tables *t, const uint8_t *journey, size_t len, const kiosk_query *q, uint32_t wanted) {
    uint64_t told[3], junk;
    memset(&junk, JUNK, sizeof junk);
    for (size_t room = 0; room <= 3; room += room < 1 ? 1 : 2) {
        memset(told, JUNK, sizeof told);
        uint32_t number = f(t->words, t->len, journey, len, q->from_kind, q->from, q->to_kind, q->to, q->when, q->moment, q->walks, told, room);
        expect("the number", number, room == 0 && (wanted == 0 || wanted > KIOSK_BAD_FOOTPATH) ? (uint32_t)KIOSK_BAD_WORKSPACE : wanted);
        if (number < 14) given[number]++;
        if (number != KIOSK_FOUND && number != KIOSK_BAD_LEG) expect("a refusal tells nothing", told[0] == junk, 1);
        expect("no more than one word is told", told[1] == junk && told[2] == junk, 1);
    }
    return told[0];
}

/* By all that judge, in tables that are good or are refused with 1 to 5. */
static uint64_t judge_all(const tables *t, const uint8_t *journey, size_t len, kiosk_query q, uint32_t wanted) {
    static verdict *const by[] = { kiosk_is_journey, kiosk_is_journey_checked };
    int good = wanted == 0 || wanted > KIOSK_BAD_FOOTPATH, right = 7;
    uint64_t told = judge_by(kiosk_judge, t, journey, len, &q, wanted);
    if (good) expect("the same without the check", judge_by(kiosk_judge_checked, t, journey, len, &q, wanted) == told, 1);
    for (int i = 0; i <= good; i++, right = 7) {
        expect("the number, with structs", by[i](t->words, t->len, journey, len, &q, &right), wanted);
        expect("yes or no, with structs", (unsigned long)right, wanted == 0 ? (unsigned long)told : 7);
    }
    return told;
}

/* The tables' number with one word changed, whatever the query and the bytes. */
static void judge_changed(const tables *t, uint32_t at, uint32_t word, uint32_t wanted) {
    static const uint8_t no_leg[1] = { 9 };
    uint32_t old = t->words[at];
    t->words[at] = word;
    judge_all(t, no_leg, 1, kiosk_departure(99, 99, 0), wanted);
    t->words[at] = old;
}

static void judged(const tables *n) {
    lent l = lend(n, 64);
    const uint32_t transfer = n->words[8], times = n->words[16];     /* where these sections begin */
    kiosk_query q = kiosk_departure(0, 4, 50), no_place = kiosk_departure(0, 5, 0), no_moment = q, no_area = q;
    size_t len = ask(n, &l, q).length;
    uint8_t bytes[64];
    expect("N1's bytes", len, 59);
    expect("are a journey", (unsigned long)judge_all(n, l.journey, len, q, KIOSK_FOUND), 1);
    q.moment = 101;
    expect("but not at 101", (unsigned long)judge_all(n, l.journey, len, q, KIOSK_FOUND), 0);
    expect("nor to stop 3", (unsigned long)judge_all(n, l.journey, len, kiosk_departure(0, 3, 50), KIOSK_FOUND), 0);
    expect("by 450", (unsigned long)judge_all(n, l.journey, len, kiosk_arrival(0, 4, 450), KIOSK_FOUND), 1);
    expect("not by 449", (unsigned long)judge_all(n, l.journey, len, kiosk_arrival(0, 4, 449), KIOSK_FOUND), 0);
    q.moment = 50, q.mode = 9;
    expect("the mode is not looked at", (unsigned long)judge_all(n, l.journey, len, q, KIOSK_FOUND), 1);
    q.mode = KIOSK_SOURCE;
    expect("no legs", (unsigned long)judge_all(n, l.journey, 0, q, KIOSK_FOUND), 0);
    expect("no bytes at all", (unsigned long)judge_all(n, NULL, 0, q, KIOSK_FOUND), 0);
    expect("a cut leg", (unsigned long)judge_all(n, l.journey, len - 1, q, KIOSK_BAD_LEG), 38);
    memcpy(bytes, l.journey, len), bytes[len] = 9;
    expect("a kind 9 behind it", (unsigned long)judge_all(n, bytes, len + 1, q, KIOSK_BAD_LEG), 59);
    bytes[5] = 1;
    expect("and behind a wrong leg", (unsigned long)judge_all(n, bytes, len + 1, q, KIOSK_BAD_LEG), 59);
    expect("which is a no", (unsigned long)judge_all(n, bytes, len, q, KIOSK_FOUND), 0);

    no_moment.moment = 0, no_moment.to_kind = KIOSK_AREA, no_moment.to = 0, no_area.to_kind = KIOSK_AREA, no_area.to = 0;
    judge_all(n, bytes, len + 1, no_place, KIOSK_BAD_PLACE);
    judge_all(n, bytes, len + 1, no_moment, KIOSK_BAD_MOMENT);
    judge_all(n, bytes, len + 1, no_area, KIOSK_BAD_AREA);
    q.from_kind = 2, judge_all(n, bytes, len, q, KIOSK_BAD_PLACE), q.from_kind = KIOSK_STOP;
    q.when = 2, judge_all(n, bytes, len, q, KIOSK_BAD_MOMENT), q.when = KIOSK_DEPARTURE;
    q.walks = 3, judge_all(n, bytes, len, q, KIOSK_BAD_MOMENT), q.walks = KIOSK_WALKS_UNSAID;

    const tables cut = { n->words, n->len - 1 }, none = { NULL, 0 };
    judge_all(&cut, bytes, len, q, KIOSK_BAD_COUNT), judge_all(&none, NULL, 0, q, KIOSK_BAD_COUNT);
    judge_changed(n, transfer + 1, 5, KIOSK_BAD_LISTING);
    judge_changed(n, times, 0, KIOSK_BAD_TIMETABLE);
    judge_changed(n, times + 5, 601, KIOSK_BAD_ORDER);          /* trip 0 stands at its last stop until trip 1 has left */
    judge_changed(n, transfer + 3, 0x7FC00000u, KIOSK_BAD_FOOTPATH);
    expect("as it was", (unsigned long)judge_all(n, l.journey, len, q, KIOSK_FOUND), 1);
    give_back(&l);
}

/* In the town: by foot where the query allows it, and the whole station. */
static void judged_walks(const tables *town) {
    lent l = lend(town, 256);
    kiosk_query q = kiosk_departure(2, 7, 24900);
    size_t len = ask(town, &l, q).length;
    for (q.from_kind = 0; q.from_kind < 2; q.from_kind++) for (q.from = 0; q.from < 3 && (q.from_kind == 0 || q.from == 0); q.from++) {
        q.walks = KIOSK_WALKS_UNSAID;
        expect("from the station", (unsigned long)judge_all(town, l.journey, len, q, KIOSK_FOUND), 1);
        q.walks = KIOSK_WALKS_ALLOWED;
        expect("walks allowed", (unsigned long)judge_all(town, l.journey, len, q, KIOSK_FOUND), 1);
        q.walks = KIOSK_WALKS_BARRED;
        expect("walks barred", (unsigned long)judge_all(town, l.journey, len, q, KIOSK_FOUND), 0);
    }
    give_back(&l);
}

/* 15 rides and 4,080 footpaths: a yes; and with one moment of one leg changed a no. */
static void judged_most(const tables *t) {
    lent l = lend(t, KIOSK_MOST_JOURNEY);
    const kiosk_query q = kiosk_departure(0, 4095, 1);
    size_t len = ask(t, &l, q).length;
    expect("the longest journey", (unsigned long)judge_all(t, l.journey, len, q, KIOSK_FOUND), 1);
    l.journey[len - 4]++;
    expect("a second longer", (unsigned long)judge_all(t, l.journey, len, q, KIOSK_FOUND), 0);
    give_back(&l);
}

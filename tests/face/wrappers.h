/* The functions with structs beside the raw ones: the same answers, and the same left behind. */
#include "tables.h"

typedef uint32_t raw(const uint32_t *, size_t, uint32_t *, size_t, uint64_t *, size_t, uint32_t *, size_t, uint8_t *, size_t,
                     uint32_t, uint32_t, uint32_t, uint32_t, uint32_t, uint32_t, uint32_t, uint32_t, uint32_t *, size_t);
typedef uint32_t wrapper(const uint32_t *, size_t, const kiosk_workspace *, uint8_t *, size_t, const kiosk_query *, kiosk_answer *);

static void both(const tables *t, const lent *l, const lent *m, const kiosk_query *q, raw *f, wrapper *g) {
    uint32_t told[5] = { 99, 99, 99, 99, 99 };
    kiosk_answer a = { 99, 99, 99, 99, 99 };
    uint32_t number = f(t->words, t->len, l->work.words, l->work.lengths.words, l->work.marks, l->work.lengths.marks, l->work.places,
                        l->work.lengths.places, l->journey, l->journey_len, q->from_kind, q->from, q->to_kind, q->to, q->when, q->moment,
                        q->walks, q->mode, told, 5);
    expect("the wrapper's number", g(t->words, t->len, &m->work, m->journey, m->journey_len, q, &a), number);
    expect("its answer", a.number == told[0] && a.time == told[1] && a.stop == told[2] && a.round == told[3] && a.length == told[4], 1);
    expect("what it leaves", (unsigned long)same_left(l, m), 1);
    if (number < 14) given[number]++;
}

/* The legs by the wrapper, beside the raw functions, in bytes of any length. */
static void walk(const uint8_t *bytes, size_t len) {
    uint64_t told = 0, legs = 0;
    uint32_t number = kiosk_read(bytes, len, &told, 1), six[6], size;
    size_t at = 0, before = 0;
    kiosk_one_leg leg;
    while (kiosk_next_leg(bytes, len, &at, &leg)) {
        size = kiosk_leg(bytes, len, before, six, 6);
        expect("the wrapper moves by the size", at - before, size);
        expect("its leg", leg.kind == six[0] && leg.from == six[1] && leg.to == six[2] && leg.trip == six[3] && leg.departure == six[4]
               && leg.arrival == six[5], 1);
        before = at, legs++;
    }
    if (number == KIOSK_FOUND) expect("all legs are walked", legs, told), expect("to the end", at, len);
    else expect("up to the bad leg", at, told);
}

/* Every word of a query from one too low to one too high, and some moments. */
static void wrappers(const tables *t, uint32_t stops) {
    static const uint32_t moments[] = { 0, 1, 25200, 26000, 1000000, 1000001 };
    lent l = lend(t, 256), m = lend(t, 256);
    kiosk_lengths lengths = { 9, 9, 9 };
    uint32_t room[3] = { 0, 0, 0 };
    kiosk_query q;

    expect("room", kiosk_room(t->words, t->len, room, 3), kiosk_lengths_for(t->words, t->len, &lengths));
    expect("the lengths", lengths.words == room[0] && lengths.marks == room[1] && lengths.places == room[2], 1);
    expect("tables that are refused", kiosk_lengths_for(t->words, t->len - 1, &lengths), KIOSK_BAD_COUNT);
    expect("leave the lengths", lengths.words == room[0] && lengths.marks == room[1] && lengths.places == room[2], 1);

    memset(&q, 0, sizeof q);
    for (q.from_kind = 0; q.from_kind < 3; q.from_kind++) for (q.from = 0; q.from <= stops; q.from++)
    for (q.to_kind = 0; q.to_kind < 3; q.to_kind++) for (q.to = 0; q.to <= stops; q.to++)
    for (q.when = 0; q.when < 3; q.when++) for (q.walks = 0; q.walks < 4; q.walks++) for (q.mode = 0; q.mode < 3; q.mode++)
    for (size_t i = 0; i < sizeof moments / sizeof *moments; i++) {
        q.moment = moments[i];
        both(t, &l, &m, &q, kiosk_solve, kiosk_ask);
        both(t, &l, &m, &q, kiosk_solve_checked, kiosk_ask_checked);
    }
    q = kiosk_departure(2, 7, 24900);
    kiosk_answer a = ask(t, &l, q);
    expect("two legs", a.length, 38);
    for (size_t len = 0; len <= a.length; len++) walk(l.journey, len);
    l.journey[21] = 4;
    walk(l.journey, a.length);
    give_back(&l), give_back(&m);
}

/* A journey as long as there can be, but for one leg (long.py): it fits KIOSK_MOST_JOURNEY, and nothing shorter than itself. */
#include "tables.h"

static void most(const tables *t) {
    lent l = lend(t, KIOSK_MOST_JOURNEY);
    const kiosk_query q = kiosk_departure(0, 4095, 1);
    kiosk_answer a = ask(t, &l, q);
    uint64_t legs = 0;
    size_t at = 0, rides = 0;
    kiosk_one_leg leg;
    expect("the longest journey is found", a.number, KIOSK_FOUND);
    expect("its bytes", a.length, 15 * 21 + 4080 * 17), expect("its last round", a.round, 14);
    expect("its legs", kiosk_read(l.journey, a.length, &legs, 1), KIOSK_FOUND), expect("as many as stops, but one", legs, 4095);
    while (kiosk_next_leg(l.journey, a.length, &at, &leg)) rides += leg.kind == KIOSK_RIDE;
    expect("walked to its end", at, a.length), expect("its rides", rides, 15);
    l.journey_len = a.length;
    expect("it fits its length", ask(t, &l, q).number, KIOSK_FOUND);
    l.journey_len = a.length - 1;
    expect("and not a byte less", ask(t, &l, q).number, KIOSK_TOO_LONG);
    l.journey_len = KIOSK_MOST_JOURNEY;
    for (uint32_t to = 0; to < 4096; to += 5) expect("never too long", ask(t, &l, kiosk_departure(0, to, 1)).number == KIOSK_TOO_LONG, 0);
    printf("the longest journey: %u bytes of %u\n", a.length, (unsigned)KIOSK_MOST_JOURNEY);
    give_back(&l);
}

/* A warning: slices that overlap are answered otherwise. Of such a call nothing is promised. */
#include "tables.h"

static void overlap(const tables *town) {
    lent l = lend(town, 1024);
    kiosk_query q = kiosk_departure(0, 7, 24900);
    q.from_kind = KIOSK_AREA;
    kiosk_answer apart = ask(town, &l, q), over;
    uint32_t *places = l.work.places;
    l.work.places = l.work.words;
    kiosk_ask(town->words, town->len, &l.work, l.journey, l.journey_len, &q, &over);
    l.work.places = places;
    printf("slices that overlap: with `places` where `words` is, number %u for number %u\n", over.number, apart.number);
    expect("overlapping slices are answered otherwise", over.number == apart.number, 0);
    give_back(&l);
}

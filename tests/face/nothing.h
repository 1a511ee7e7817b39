/* NULL with length 0, wherever a slice may be lent. */
#include "tables.h"

static void nothing(const tables *t) {
    lent l = lend(t, 1024);
    uint32_t room[3] = { 0, 0, 0 }, leg[6], answer[5];
    uint64_t told = 9;
    kiosk_query q = kiosk_departure(2, 7, 24900);
    kiosk_workspace part;
    kiosk_answer a;

    expect("no tables, checked", kiosk_check(NULL, 0), KIOSK_BAD_COUNT);
    expect("no tables, room", kiosk_room(NULL, 0, room, 3), KIOSK_BAD_COUNT);
    expect("no tables, asked", kiosk_ask(NULL, 0, &l.work, l.journey, l.journey_len, &q, &a), KIOSK_BAD_COUNT);
    expect("no room", kiosk_room(t->words, t->len, NULL, 0), KIOSK_BAD_WORKSPACE);
    part = l.work, part.words = NULL, part.lengths.words = 0;
    expect("no words", kiosk_ask(t->words, t->len, &part, l.journey, l.journey_len, &q, &a), KIOSK_BAD_WORKSPACE);
    part = l.work, part.marks = NULL, part.lengths.marks = 0;
    expect("no marks", kiosk_ask_checked(t->words, t->len, &part, l.journey, l.journey_len, &q, &a), KIOSK_BAD_WORKSPACE);
    part = l.work, part.places = NULL, part.lengths.places = 0;
    expect("no places", kiosk_ask(t->words, t->len, &part, l.journey, l.journey_len, &q, &a), KIOSK_BAD_WORKSPACE);
    expect("no journey", kiosk_ask(t->words, t->len, &l.work, NULL, 0, &q, &a), KIOSK_TOO_LONG);
    expect("and what is needed", a.length, 38);
    expect("no journey, checked", kiosk_ask_checked(t->words, t->len, &l.work, NULL, 0, &q, &a), KIOSK_TOO_LONG);
    expect("no answer", kiosk_solve(t->words, t->len, l.work.words, l.work.lengths.words, l.work.marks, l.work.lengths.marks, l.work.places,
                                    l.work.lengths.places, l.journey, l.journey_len, 0, 2, 0, 7, 0, 24900, 0, 0, NULL, 0), KIOSK_BAD_WORKSPACE);
    expect("no answer, checked", kiosk_solve_checked(t->words, t->len, l.work.words, l.work.lengths.words, l.work.marks, l.work.lengths.marks,
                                                     l.work.places, l.work.lengths.places, l.journey, l.journey_len, 0, 2, 0, 7, 0, 24900, 0, 0,
                                                     NULL, 0), KIOSK_BAD_WORKSPACE);
    expect("nothing at all", kiosk_solve(NULL, 0, NULL, 0, NULL, 0, NULL, 0, NULL, 0, 0, 0, 0, 0, 0, 0, 0, 0, NULL, 0), KIOSK_BAD_COUNT);
    expect("no bytes are zero legs", kiosk_read(NULL, 0, &told, 1), KIOSK_FOUND), expect("zero", told, 0);
    expect("no word to tell it in", kiosk_read(l.journey, 0, NULL, 0), KIOSK_BAD_WORKSPACE);
    expect("no bytes have no leg", kiosk_leg(NULL, 0, 0, leg, 6), 0);
    expect("at any offset", kiosk_leg(NULL, 0, SIZE_MAX, leg, 6), 0);
    expect("no words for a leg", kiosk_leg(l.journey, 38, 0, NULL, 0), KIOSK_BAD_WORKSPACE);

    /* tables with no stop ask for no workspace: the header, and a 0 in each of the eight sections of starts */
    static const unsigned char starts[20] = { 0, 0, 1, 0, 1, 0, 0, 1, 0, 1, 0, 1, 0, 1, 0, 1, 0, 1, 0, 0 };
    uint32_t none[29] = { 21 };
    for (int k = 0; k < 20; k++) none[k + 1] = none[k] + starts[k];
    expect("no stop", kiosk_check(none, 29), KIOSK_FOUND);
    expect("its room", kiosk_room(none, 29, room, 3), KIOSK_FOUND), expect("is none", room[0] + room[1] + room[2], 0);
    expect("no such stop", kiosk_solve(none, 29, NULL, 0, NULL, 0, NULL, 0, NULL, 0, 0, 0, 0, 0, 0, 1, 0, 0, answer, 5), KIOSK_BAD_PLACE);
    expect("no such stop, checked", kiosk_solve_checked(none, 29, NULL, 0, NULL, 0, NULL, 0, NULL, 0, 0, 0, 0, 0, 0, 1, 0, 0, answer, 5),
           KIOSK_BAD_PLACE);
    give_back(&l);
}

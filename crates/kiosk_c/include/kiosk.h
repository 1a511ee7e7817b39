/* The C face of the kiosk search: it asks for journeys in tables that a loader wrote, reads the legs of a journey, and judges journeys that come from
   elsewhere. For C99 and C++11 and later.

   The eight functions under "The functions" are what is proved. Those under "The same with structs" are plain C over them: tested
   (tests/face.sh), not proved.

   What a caller owes. The proof is of calls that keep this; of others it says nothing.
   - A slice is a pointer and a length in elements. The pointer is valid for all of the length, to read and, where it is not const, to write,
     and aligned for its elements. It may be NULL where the length is 0, and only there.
   - The slices of a call do not overlap. With `places` lent where `words` is, a journey that is there is answered with 10.
   - While a call runs, nobody writes to what is lent to it, and nobody reads what it may write to.
   - `_checked` trusts the tables: kiosk_check answered them with 0, and nobody changed a word since. Of any other tables it promises nothing,
     not even that it stays within the slices.
   Nothing else is asked: the other functions take any words in the tables, and all of them any query, any workspace and any bytes.

   What is kept. Nothing: there is no global state, no heap, no file, no lock. So the functions may be called from several threads at once, each
   with a workspace, a journey and an answer of its own; the tables may be lent to all of them.
   The stack that a call takes is small, but nothing is proved of it: tests/face.sh measures it on a thread's painted stack and fails at 16 KiB
   (on x86-64 the most was 2,775 bytes, by kiosk_solve). Nor is anything proved of the time that a call takes.

   Places. A stop stands for its whole station: for its parent's children where it has a parent, else for its own children where it has any, else
   for itself. So a journey that is asked from one platform may leave from another; its legs say from which. An area stands for the served stops
   among the children of the stops that it names.

   Moments are seconds, 1 to 1,000,000; 0 is no moment. A loader adds KIOSK_DAY to every moment of the timetable. Where it does, the caller adds
   it to the moment that he asks for and takes it off each moment that he shows: an answer's time, a leg's departure and arrival. The library adds
   nothing and takes nothing off. */
#ifndef KIOSK_H
#define KIOSK_H

#include <stddef.h>
#include <stdint.h>

#ifdef __cplusplus
extern "C" {
#endif

/* Raised by one whenever the tables' layout changes, or a function, a number, a word or a leg's bytes come to mean something else; a function
   more leaves it. Tables say their own layout, by their first word (docs/TABLES.md): those of another are answered with KIOSK_BAD_COUNT. */
#define KIOSK_VERSION 2

/* No journey takes more bytes (theorem `length_most` of crates/raptor/proofs/Promises.antt), so a buffer of so many is never answered with
   KIOSK_TOO_LONG (theorem `never_too_long` of crates/kiosk_c/proofs/Enough.antt). */
#define KIOSK_MOST_JOURNEY 69692

#define KIOSK_DAY 86400                 /* what a loader adds to every moment of the timetable */
#define KIOSK_NO_TRIP 4294967295u       /* the trip of a footpath */

/* The numbers given back. The lowest that applies is given. */
enum kiosk_number {
    KIOSK_FOUND = 0,                    /* a journey was found; the tables are good; the bytes are legs, or were judged */
    KIOSK_BAD_COUNT = 1,                /* a count over its limit, a route without a stop, a section of wrong length */
    KIOSK_BAD_LISTING = 2,              /* an index out of range, or a list that breaks a listing rule */
    KIOSK_BAD_TIMETABLE = 3,            /* a timetable moment outside 1 to 1,000,000, or moments of a trip that fall */
    KIOSK_BAD_ORDER = 4,                /* trips of a route out of order */
    KIOSK_BAD_FOOTPATH = 5,             /* a distance that is NaN, below 0 or above 100,000; a stated transfer span above 86,400 */
    KIOSK_BAD_WORKSPACE = 6,            /* a workspace slice of wrong length, or too few words for what is told */
    KIOSK_BAD_PLACE = 7,                /* a stop or area that does not exist */
    KIOSK_BAD_MOMENT = 8,               /* a query moment outside 1 to 1,000,000, or another word of the query that means nothing */
    KIOSK_BAD_AREA = 9,                 /* an area without a served stop */
    KIOSK_NO_ROUTE_FOUND = 10,          /* there is no journey */
    KIOSK_FAILED_TO_BUILD_ROUTE = 11,   /* a chosen stop but no leg; proved never to be given */
    KIOSK_TOO_LONG = 12,                /* the journey is longer than its buffer */
    KIOSK_BAD_LEG = 13                  /* journey bytes: an unknown kind or a cut body */
};                                      /* 14 and 15 are the feed reader's: kiosk_gtfs.h */

/* The words of a query. */
enum kiosk_place { KIOSK_STOP = 0, KIOSK_AREA = 1 };
enum kiosk_when { KIOSK_DEPARTURE = 0, KIOSK_ARRIVAL = 1 };     /* leave at the moment or later; arrive at it or sooner */
enum kiosk_walks { KIOSK_WALKS_UNSAID = 0, KIOSK_WALKS_ALLOWED = 1, KIOSK_WALKS_BARRED = 2 };   /* unsaid: allowed. Transfers always are */
enum kiosk_mode { KIOSK_SOURCE = 0, KIOSK_RESCAN = 1 };         /* the routes' marks filled once per query, or before every round */

/* The kind of a leg. */
enum kiosk_kind { KIOSK_RIDE = 1, KIOSK_TRANSFER = 2, KIOSK_WALK = 3 };

/* ==== The functions */

/* Checks the tables: 0, or 1 to 5. The tables are one slice: a header of 21 words, then 20 sections. */
uint32_t kiosk_check(const uint32_t *tables, size_t tables_len);

/* The three lengths that a search on these tables asks for: `room` takes words, marks, places, in this order. 0, or the number of the fault;
   6 where room_len is below 3; then nothing is written. */
uint32_t kiosk_room(const uint32_t *tables, size_t tables_len, uint32_t *room, size_t room_len);

/* Checks everything, then searches. Gives the number, which is also the first word of the answer.

   The answer, 5 words: number, time, stop, round, length. 0 gives all: the moment of arrival at the stop (where an arrival was asked for, that of
   departure from it), the stop, one less than the rides, and how many bytes of `journey` the legs take. 12 gives only the length needed; every
   other number leaves the four 0. Where answer_len is below 5 nothing is written, and the number is the tables' own, or 6.
   words, marks and places are the workspace, of exactly the lengths that kiosk_room gives. It need not be cleared. It is untouched on 1 to 9.
   journey takes the legs on 0; its other bytes, and on any other number all of them, stay as they were. */
uint32_t kiosk_solve(const uint32_t *tables, size_t tables_len, uint32_t *words, size_t words_len, uint64_t *marks, size_t marks_len,
                     uint32_t *places, size_t places_len, uint8_t *journey, size_t journey_len,
                     uint32_t from_kind, uint32_t from, uint32_t to_kind, uint32_t to, uint32_t when, uint32_t moment,
                     uint32_t walks, uint32_t mode, uint32_t *answer, size_t answer_len);

/* The same without the check: only for tables that kiosk_check answered with 0 and that were not changed since. */
uint32_t kiosk_solve_checked(const uint32_t *tables, size_t tables_len, uint32_t *words, size_t words_len, uint64_t *marks, size_t marks_len,
                             uint32_t *places, size_t places_len, uint8_t *journey, size_t journey_len,
                             uint32_t from_kind, uint32_t from, uint32_t to_kind, uint32_t to, uint32_t when, uint32_t moment,
                             uint32_t walks, uint32_t mode, uint32_t *answer, size_t answer_len);

/* Reads journey bytes. 0: they are legs, and told[0] is how many; 13: they are not, and told[0] is the offset of the bad leg's first byte;
   6: told_len is 0, and nothing is told. */
uint32_t kiosk_read(const uint8_t *journey, size_t journey_len, uint64_t *told, size_t told_len);

/* The leg that starts at the byte `at`. Gives how many bytes it takes, 21 for a ride and 17 for a footpath, and writes six words: kind, from, to,
   trip (KIOSK_NO_TRIP for a footpath), departure, arrival. Or 0 where no byte is left there, 13 for an unknown kind or a cut body, 6 where leg_len
   is below 6; then nothing is written. */
uint32_t kiosk_leg(const uint8_t *journey, size_t journey_len, size_t at, uint32_t *leg, size_t leg_len);

/* Judges journey bytes, wherever they come from: whether they are a journey of the query in these tables. It checks everything first; it searches
   nothing, and asks for no workspace. The query has no mode, since the mode says how to search.

   0: told[0] is 1 for yes, 0 for no. 13: the bytes are not legs, and told[0] is the offset of the bad leg's first byte, as kiosk_read tells it.
   1 to 5, 7, 8 and 9 as kiosk_solve gives them, and then nothing is written. Where told_len is 0 nothing is written, and the number is the tables'
   own, or 6. Bad bytes behind a wrong leg are a 13, not a no.

   Yes where all of this holds, and no otherwise:
   - there is a leg, and 1 to 15 of the legs are rides;
   - each leg but the first leaves the stop that the leg before comes to, and no sooner than that one comes;
   - a ride names a trip of the tables, and some position of the trip and a later one fit: the stop and the departure at the one, the stop and the
     arrival at the other;
   - a transfer is one that is listed from its first stop to its second, and lasts exactly the span; so does a walk, and the query does not bar walks;
   - the first leg leaves a stop that the query's `from` stands for, the last comes to one that its `to` stands for;
   - for a departure, the first leg is a ride, and leaves at the moment or later; for an arrival, the last leg is a ride, and comes at the moment or
     sooner.
   An answer's time, stop and round are not asked for. What kiosk_solve writes on 0 gets a yes for its own query; that of an arrival does where each
   footpath that the query allows is listed the other way too, as the same kind and with the same span. */
uint32_t kiosk_judge(const uint32_t *tables, size_t tables_len, const uint8_t *journey, size_t journey_len,
                     uint32_t from_kind, uint32_t from, uint32_t to_kind, uint32_t to, uint32_t when, uint32_t moment,
                     uint32_t walks, uint64_t *told, size_t told_len);

/* The same without the check: only for tables that kiosk_check answered with 0 and that were not changed since. */
uint32_t kiosk_judge_checked(const uint32_t *tables, size_t tables_len, const uint8_t *journey, size_t journey_len,
                             uint32_t from_kind, uint32_t from, uint32_t to_kind, uint32_t to, uint32_t when, uint32_t moment,
                             uint32_t walks, uint64_t *told, size_t told_len);

/* ==== The same with structs */

/* A query. One that is all 0 but for from, to and moment goes from stop to stop, departs at the moment or later, says nothing of walks and is in
   the source's mode. */
typedef struct kiosk_query {
    uint32_t from_kind, from;           /* enum kiosk_place, and the number of the stop or area */
    uint32_t to_kind, to;
    uint32_t when, moment;              /* enum kiosk_when */
    uint32_t walks;                     /* enum kiosk_walks */
    uint32_t mode;                      /* enum kiosk_mode */
} kiosk_query;

typedef struct kiosk_answer {
    uint32_t number;                    /* enum kiosk_number */
    uint32_t time, stop, round, length;
} kiosk_answer;

typedef struct kiosk_one_leg {
    uint32_t kind;                      /* enum kiosk_kind */
    uint32_t from, to, trip, departure, arrival;
} kiosk_one_leg;

/* The lengths of a workspace, in elements, and a workspace: memory of the caller's. */
typedef struct kiosk_lengths { uint32_t words, marks, places; } kiosk_lengths;
typedef struct kiosk_workspace {
    uint32_t *words;
    uint64_t *marks;
    uint32_t *places;
    kiosk_lengths lengths;
} kiosk_workspace;

/* From stop to stop, departing at the moment or later, and arriving at it or sooner. */
static inline kiosk_query kiosk_departure(uint32_t from, uint32_t to, uint32_t moment) {
    kiosk_query q = { KIOSK_STOP, 0, KIOSK_STOP, 0, KIOSK_DEPARTURE, 0, KIOSK_WALKS_UNSAID, KIOSK_SOURCE };
    q.from = from;
    q.to = to;
    q.moment = moment;
    return q;
}
static inline kiosk_query kiosk_arrival(uint32_t from, uint32_t to, uint32_t moment) {
    kiosk_query q = kiosk_departure(from, to, moment);
    q.when = KIOSK_ARRIVAL;
    return q;
}

/* kiosk_room: where the number is not 0 the lengths stay as they were. */
static inline uint32_t kiosk_lengths_for(const uint32_t *tables, size_t tables_len, kiosk_lengths *lengths) {
    uint32_t room[3], number = kiosk_room(tables, tables_len, room, 3);
    if (number == 0) {
        lengths->words = room[0];
        lengths->marks = room[1];
        lengths->places = room[2];
    }
    return number;
}

/* An answer from its five words. */
static inline kiosk_answer kiosk_told(const uint32_t *words) {
    kiosk_answer a;
    a.number = words[0];
    a.time = words[1];
    a.stop = words[2];
    a.round = words[3];
    a.length = words[4];
    return a;
}

/* kiosk_solve: the number, and all five words in the answer. */
static inline uint32_t kiosk_ask(const uint32_t *tables, size_t tables_len, const kiosk_workspace *w, uint8_t *journey, size_t journey_len,
                                 const kiosk_query *q, kiosk_answer *answer) {
    uint32_t told[5], number = kiosk_solve(tables, tables_len, w->words, w->lengths.words, w->marks, w->lengths.marks, w->places, w->lengths.places,
                                           journey, journey_len, q->from_kind, q->from, q->to_kind, q->to, q->when, q->moment, q->walks, q->mode,
                                           told, 5);
    *answer = kiosk_told(told);
    return number;
}

/* kiosk_solve_checked, alike. */
static inline uint32_t kiosk_ask_checked(const uint32_t *tables, size_t tables_len, const kiosk_workspace *w, uint8_t *journey, size_t journey_len,
                                         const kiosk_query *q, kiosk_answer *answer) {
    uint32_t told[5], number = kiosk_solve_checked(tables, tables_len, w->words, w->lengths.words, w->marks, w->lengths.marks, w->places,
                                                   w->lengths.places, journey, journey_len, q->from_kind, q->from, q->to_kind, q->to, q->when,
                                                   q->moment, q->walks, q->mode, told, 5);
    *answer = kiosk_told(told);
    return number;
}

/* The leg at the byte *at, and *at moves behind it: 1. Or 0, and *at stays: at the end of the bytes, or at the first byte of what is no leg.
   In the bytes of an answer 0, as many as its length says, there is nothing but legs (theorem `faced_legs` of crates/kiosk_c/proofs/ReadBack.antt).

       for (size_t at = 0; kiosk_next_leg(journey, answer.length, &at, &leg);) .. */
static inline int kiosk_next_leg(const uint8_t *journey, size_t journey_len, size_t *at, kiosk_one_leg *leg) {
    uint32_t told[6], size = kiosk_leg(journey, journey_len, *at, told, 6);
    if (size <= KIOSK_BAD_LEG) return 0;
    leg->kind = told[0];
    leg->from = told[1];
    leg->to = told[2];
    leg->trip = told[3];
    leg->departure = told[4];
    leg->arrival = told[5];
    *at += size;
    return 1;
}

/* kiosk_judge: where the number is 0, *right is 1 where the bytes are a journey of the query, else 0; otherwise it stays as it was. The query's
   mode is not looked at. Of bytes that are no legs, 13, kiosk_read tells where. */
static inline uint32_t kiosk_is_journey(const uint32_t *tables, size_t tables_len, const uint8_t *journey, size_t journey_len, const kiosk_query *q,
                                        int *right) {
    uint64_t told[1];
    uint32_t number = kiosk_judge(tables, tables_len, journey, journey_len, q->from_kind, q->from, q->to_kind, q->to, q->when, q->moment, q->walks,
                                  told, 1);
    if (number == KIOSK_FOUND) *right = told[0] == 1;
    return number;
}

/* kiosk_judge_checked, alike. */
static inline uint32_t kiosk_is_journey_checked(const uint32_t *tables, size_t tables_len, const uint8_t *journey, size_t journey_len,
                                                const kiosk_query *q, int *right) {
    uint64_t told[1];
    uint32_t number = kiosk_judge_checked(tables, tables_len, journey, journey_len, q->from_kind, q->from, q->to_kind, q->to, q->when, q->moment,
                                          q->walks, told, 1);
    if (number == KIOSK_FOUND) *right = told[0] == 1;
    return number;
}

#ifdef __cplusplus
}
#endif

#endif

/* Writers of a journey in C, for stores.c: one that is right, and wrong ones for it to notice. Each answers as the proved search does, number 12
   included, and leaves the same bytes: only who counts the stores sees which are wrong. The journey is the proved search's, taken from a buffer of
   its own. */
#include "stores_wrong.h"

enum { MOST_LEGS = 4096 };

static uint8_t found[KIOSK_MOST_JOURNEY];
static size_t offset[MOST_LEGS + 1];
static size_t legs;

static int same(const char *a, const char *b) { while (*a && *a == *b) a++, b++; return *a == *b; }

/* Where the legs begin, and where the last ends. */
static void measure(size_t len) {
    kiosk_one_leg leg;
    size_t end = 0;
    legs = 0, offset[0] = 0;
    while (kiosk_next_leg(found, len, &end, &leg)) offset[++legs] = end;
}

static void put(uint8_t *at, size_t leg) { for (size_t i = offset[leg]; i < offset[leg + 1]; i++) *at++ = found[i]; }
static void flip(uint8_t *a, size_t n) {
    for (size_t i = 0; i < n / 2; i++) {
        uint8_t x = a[i];
        a[i] = a[n - 1 - i], a[n - 1 - i] = x;
    }
}

/* What each does with the buffer once the journey is known, its length, whether the query departs, and whether the answer is 0. */
typedef void writer(uint8_t *journey, size_t room, size_t len, int departs, int fits);

/* Right: each leg to its place, as it is found. */
static void right(uint8_t *journey, size_t room, size_t len, int departs, int fits) {
    (void)room, (void)len;
    for (size_t k = 0; fits && k < legs; k++) {
        size_t i = departs ? legs - 1 - k : k;
        put(journey + offset[i], i);
    }
}

/* The legs of a departure query in the order in which they are found, and then turned round: all bytes, and each leg once more. */
static void turned(uint8_t *journey, size_t room, size_t len, int departs, int fits) {
    size_t at = 0;
    if (!fits || !departs) { right(journey, room, len, departs, fits); return; }
    for (size_t i = legs; i-- > 0; at += offset[i + 1] - offset[i]) put(journey + at, i);
    flip(journey, len);
    for (size_t i = 0; i < legs; i++) flip(journey + offset[i], offset[i + 1] - offset[i]);
}

/* No count first: the legs from the end of the buffer on, and then moved to its front, with what stood behind them put back. */
static void moved(uint8_t *journey, size_t room, size_t len, int departs, int fits) {
    static uint8_t stood[1 << 17];
    if (!fits) return;
    __builtin_memcpy(stood, journey, room);
    right(journey + room - len, room, len, departs, fits);
    __builtin_memmove(journey, journey + room - len, len);
    __builtin_memcpy(journey + len, stood + len, room - len);
}

/* All legs to their places, and then once more as one block. */
static void again(uint8_t *journey, size_t room, size_t len, int departs, int fits) {
    right(journey, room, len, departs, fits);
    if (fits) __builtin_memcpy(journey, found, len);
}

/* 12 is decided after the first leg that is found; what stood in its place is put back. */
static void early(uint8_t *journey, size_t room, size_t len, int departs, int fits) {
    size_t leg = departs ? legs - 1 : 0, size = offset[leg + 1] - offset[leg];
    volatile uint8_t *at = journey;     /* or the compiler sees that nothing comes of it */
    uint8_t stood[32];                  /* no leg is longer */
    right(journey, room, len, departs, fits);
    if (fits || size > room) return;
    for (size_t i = 0; i < size; i++) stood[i] = at[i];
    for (size_t i = 0; i < size; i++) at[i] = found[offset[leg] + i];
    for (size_t i = 0; i < size; i++) at[i] = stood[i];
}

/* Every byte once, but the legs of a departure query in the order in which they are ridden. */
static void ridden(uint8_t *journey, size_t room, size_t len, int departs, int fits) { (void)departs, right(journey, room, len, 0, fits); }

static writer *chosen;

static uint32_t wrong_solve(const uint32_t *tables, size_t tables_len, uint32_t *words, size_t words_len, uint64_t *marks, size_t marks_len,
                            uint32_t *places, size_t places_len, uint8_t *journey, size_t journey_len, uint32_t from_kind, uint32_t from,
                            uint32_t to_kind, uint32_t to, uint32_t when, uint32_t moment, uint32_t walks, uint32_t mode, uint32_t *answer,
                            size_t answer_len) {
    uint32_t number = kiosk_solve(tables, tables_len, words, words_len, marks, marks_len, places, places_len, found, sizeof found, from_kind, from,
                                  to_kind, to, when, moment, walks, mode, answer, answer_len);
    if (number != 0) return number;
    size_t len = answer[4];
    measure(len);
    chosen(journey, journey_len, len, when == 0, len <= journey_len);
    if (len <= journey_len) return 0;
    answer[0] = 12, answer[1] = answer[2] = answer[3] = 0;
    return 12;
}

static const struct { const char *name; writer *writes; } writers[] = {
    { "right", right }, { "turned", turned }, { "moved", moved }, { "again", again }, { "early", early }, { "ridden", ridden },
};

solver *solver_named(const char *name) {
    if (same(name, "checked")) return kiosk_solve_checked;
    if (same(name, "checking")) return kiosk_solve;
    for (size_t i = 0; i < sizeof writers / sizeof *writers; i++) if (same(name, writers[i].name)) { chosen = writers[i].writes; return wrong_solve; }
    return NULL;
}

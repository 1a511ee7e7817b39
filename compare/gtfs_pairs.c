/* Pairs of files through the C face of the feed reader: what it says of each pair, for gtfs.py to hold against Python's csv.

   gtfs_pairs < REQUESTS > REPLIES      both in words of this machine

   A request: the bytes of stop_times, those of transfers, the words lent for times, paths, stops and trips, then both files. A reply: the
   eight words that are told; whether all else that was lent is untouched; the rows of times and of paths; where each stop's id begins and
   ends, and each trip's. Where all was read: the number and the length of each writer, the bytes of both, and whether they read back to
   the same. */
#include <stdio.h>
#include <stdlib.h>
#include <string.h>
#include "../crates/gtfs_c/include/kiosk_gtfs.h"

enum { TIMES, PATHS, STOPS, TRIPS, TABLES, REQUEST = 6 };
static const uint32_t junk = 0xA5A5A5A5u;

static void end(const char *why) { fprintf(stderr, "gtfs_pairs: %s\n", why), exit(2); }
static void put(const void *p, size_t bytes) { if (fwrite(p, 1, bytes, stdout) != bytes) end("no room for the replies"); }
static void put_word(uint32_t word) { put(&word, 4); }
static void *memory(size_t bytes) {
    void *p = malloc(bytes + 1);
    if (!p) end("no memory");
    return p;
}

/* A reading: what was lent, and what was told. */
typedef struct { uint32_t *at[TABLES], told[KIOSK_GTFS_TOLD]; } reading;

static reading read_pair(const uint8_t *one, size_t one_len, const uint8_t *two, size_t two_len, const uint32_t *len) {
    reading r;
    for (int i = 0; i < TABLES; i++) {
        r.at[i] = memory(4 * (size_t)len[i]);
        for (uint32_t k = 0; k < len[i]; k++) r.at[i][k] = junk;
    }
    uint32_t number = kiosk_gtfs_read(one, one_len, two, two_len, r.at[TIMES], len[TIMES], r.at[PATHS], len[PATHS], r.at[STOPS], len[STOPS],
                                      r.at[TRIPS], len[TRIPS], r.told, KIOSK_GTFS_TOLD);
    if (number != r.told[KIOSK_GTFS_NUMBER]) end("the number is not the first word that is told");
    return r;
}
static void let_go(reading *r) { for (int i = 0; i < TABLES; i++) free(r->at[i]); }

static int untouched(const uint32_t *w, size_t from, size_t len) {
    for (; from < len; from++) if (w[from] != junk) return 0;
    return 1;
}
/* A book's names and all behind them. */
static size_t names_end(size_t len, size_t most, size_t names) { return kiosk_gtfs_cap(len, most) + 3 * names; }
static int rest_untouched(const reading *r, const uint32_t *len) {
    const uint32_t *t = r->told;
    return untouched(r->at[TIMES], 4 * (size_t)t[KIOSK_GTFS_TIMES], len[TIMES])
        && untouched(r->at[PATHS], 4 * (size_t)t[KIOSK_GTFS_TRANSFERS], len[PATHS])
        && untouched(r->at[STOPS], names_end(len[STOPS], KIOSK_GTFS_MOST_STOPS, t[KIOSK_GTFS_STOPS]), len[STOPS])
        && untouched(r->at[TRIPS], names_end(len[TRIPS], KIOSK_GTFS_MOST_TRIPS, t[KIOSK_GTFS_TRIPS]), len[TRIPS]);
}
static void put_names(const uint32_t *book, size_t cap, uint32_t names) {
    for (uint32_t i = 0; i < names; i++) put(book + cap + 3 * (size_t)i, 8);
}

/* Both writers, and what they wrote read again with the same room. */
static void write_and_read(const reading *r, const uint32_t *len) {
    const uint32_t *t = r->told;
    size_t rows = t[KIOSK_GTFS_TIMES], paths = t[KIOSK_GTFS_TRANSFERS], one_len = kiosk_gtfs_times_room(rows),
        two_len = kiosk_gtfs_transfers_room(paths);
    uint8_t *one = memory(one_len), *two = memory(two_len);
    uint32_t a[KIOSK_GTFS_WRITTEN], b[KIOSK_GTFS_WRITTEN];
    uint32_t first = kiosk_gtfs_write_times(r->at[TIMES], 4 * rows, one, one_len, a, KIOSK_GTFS_WRITTEN),
        second = kiosk_gtfs_write_transfers(r->at[PATHS], 4 * paths, t[KIOSK_GTFS_SPLIT], two, two_len, b, KIOSK_GTFS_WRITTEN);
    if (first != a[0] || second != b[0]) end("a writer's number is not the first word that is told");
    put(a, sizeof a), put(b, sizeof b), put(one, a[1]), put(two, b[1]);
    reading again = read_pair(one, a[1], two, b[1], len);
    int same = memcmp(t, again.told, sizeof again.told) == 0 && memcmp(r->at[TIMES], again.at[TIMES], 16 * rows) == 0
        && memcmp(r->at[PATHS], again.at[PATHS], 16 * paths) == 0;
    put_word((uint32_t)same);
    let_go(&again), free(one), free(two);
}

int main(void) {
    uint32_t q[REQUEST];
    while (fread(q, 4, REQUEST, stdin) == REQUEST) {
        const uint32_t *len = q + 2;
        uint8_t *one = memory(q[0]), *two = memory(q[1]);
        if (fread(one, 1, q[0], stdin) != q[0] || fread(two, 1, q[1], stdin) != q[1]) end("a cut request");
        reading r = read_pair(one, q[0], two, q[1], len);
        const uint32_t *t = r.told;
        put(t, sizeof r.told), put_word((uint32_t)rest_untouched(&r, len));
        put(r.at[TIMES], 16 * (size_t)t[KIOSK_GTFS_TIMES]), put(r.at[PATHS], 16 * (size_t)t[KIOSK_GTFS_TRANSFERS]);
        put_names(r.at[STOPS], kiosk_gtfs_cap(len[STOPS], KIOSK_GTFS_MOST_STOPS), t[KIOSK_GTFS_STOPS]);
        put_names(r.at[TRIPS], kiosk_gtfs_cap(len[TRIPS], KIOSK_GTFS_MOST_TRIPS), t[KIOSK_GTFS_TRIPS]);
        if (t[KIOSK_GTFS_NUMBER] == KIOSK_GTFS_DONE) write_and_read(&r, len);
        let_go(&r), free(one), free(two);
    }
    return 0;
}

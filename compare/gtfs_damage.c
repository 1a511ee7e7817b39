/* Bad input through the C face of the feed reader: damaged files, rows and rooms, each slice against a page that may not be touched.

   gtfs_damage COUNT SEED       COUNT small nasty feeds, 16 readings and as many writings of each; then the limits, and files too long

   A slice ends, or begins, exactly at such a page, so that a read or write past it stops the run. Compared with plain C, to the last word
   and byte: the number and all that is lent; and what is written is read back. */
#include <stdio.h>
#include <stdlib.h>
#include <string.h>
#include <sys/mman.h>
#include "dice.h"
#include "feeds.h"
#include "fence.h"
#include "gtfs_try.h"
#include "../crates/gtfs_c/include/kiosk_gtfs.h"

enum { TRIES_EACH = 16, MOST_LOOSE = 64 };
static uint64_t seed;
static unsigned long wrong;
static int at_end;

void *lend(int which, size_t bytes) {
    static pages lent[SLICES];
    widen(&lent[which], bytes);
    return slice(&lent[which], bytes, at_end);
}
void take_back(void *p) { (void)p; }
void differ(const char *what, uint32_t ours, uint32_t plain) {
    if (wrong++ < 20) printf("seed %llu: %s (ours %u, plain C %u)\n", (unsigned long long)seed, what, ours, plain);
}

/* ---- small feeds */

static size_t odd_room(size_t right) { return percent(70) ? right : percent(60) ? range(0, 24) : right + range(0, 7) - 3; }

static void read_once(const text *one, const text *two) {
    static text a, b;
    a = *one, b = *two;
    if (percent(55)) for (uint32_t k = range(1, 2); k > 0; k--) damage_text(percent(60) ? &a : &b);
    gtfs_input in = { .file = { a.byte, b.byte }, .junk = (uint8_t)PICK(0, 0xA5, 0xFF) };
    in.len[FILE_ONE] = a.len, in.len[FILE_TWO] = b.len;
    for (int i = TIMES; i <= TRIPS; i++) in.len[i] = odd_room(96);
    in.len[TOLD] = percent(95) ? TOLD_READ : range(0, 10);
    try_reading(&in, percent(60) ? 0 : percent(50) ? -1 : (int)range(1, 9));
}

/* Rows as a reading gives them, some words of them changed, the last cut; seldom any words. */
static void write_once(void) {
    uint32_t w[4 * MOST_LOOSE] = { 0 }, rows = percent(90) ? range(0, 9) : range(0, MOST_LOOSE - 1), len = 4 * rows;
    int transfers = percent(50);
    uint32_t stops = transfers ? range(0, 3) : 0;
    make_rows(w, rows, transfers, stops);
    if (len > 0 && percent(40)) for (uint32_t k = range(1, 2); k > 0; k--) {
        uint32_t at = below_n(len);
        if (percent(40)) w[at] += PICK(1, 0xFFFFFFFF);
        else w[at] = percent(50) ? PICK(86399, 86400, 446399, 446400, 4095, 4096, 16384) : odd_word(len);
    }
    if (percent(10)) len += range(1, 3);
    size_t out = percent(60) ? 58 + 36 * (size_t)rows : range(0, 200), told = percent(90) ? TOLD_WRITTEN : range(0, 4);
    try_writing(w, len, percent(90) ? stops : odd_word(4096), out, told, (uint8_t)PICK(0, 0xA5, 0xFF));
}

/* ---- the limits: as many as there may be, and one more; room for more is lent */

static void expect(uint32_t number, uint32_t wanted, const char *what) { if (number != wanted) differ(what, number, wanted); }
static void limit(const char *what, uint32_t rows, int trips, uint32_t stops, uint32_t transfers, uint32_t places, uint32_t wanted) {
    gtfs_input in = { .junk = 0xA5 };
    in.len[FILE_ONE] = many_times(NULL, rows, trips, stops), in.len[FILE_TWO] = many_transfers(NULL, transfers, places);
    uint8_t *one = malloc(in.len[FILE_ONE]), *two = malloc(in.len[FILE_TWO]);
    many_times(one, rows, trips, stops), many_transfers(two, transfers, places);
    in.file[0] = one, in.file[1] = two;
    in.len[TIMES] = 4 * (KIOSK_GTFS_MOST_TIMES + 2), in.len[PATHS] = 4 * (KIOSK_GTFS_MOST_TRANSFERS + 2), in.len[TOLD] = TOLD_READ;
    in.len[STOPS] = 4 * (KIOSK_GTFS_MOST_STOPS + 2), in.len[TRIPS] = 4 * (KIOSK_GTFS_MOST_TRIPS + 2);
    expect(try_reading(&in, 0), wanted, what);
    free(one), free(two);
}
static void limits(void) {
    for (uint32_t more = 0; more < 2; more++) {
        uint32_t wanted = more ? KIOSK_GTFS_FULL : 0;
        limit("stops", KIOSK_GTFS_MOST_STOPS + more, 0, KIOSK_GTFS_MOST_STOPS + 1, 0, 1, wanted);
        limit("stops in transfers", 1, 0, 1, 9000, KIOSK_GTFS_MOST_STOPS + more, wanted);
        limit("trips", KIOSK_GTFS_MOST_TRIPS + more, 1, 5, 0, 1, wanted);
        limit("times", KIOSK_GTFS_MOST_TIMES + more, 0, 4000, 0, 1, wanted);
        limit("transfers", 3, 1, 3, KIOSK_GTFS_MOST_TRANSFERS + more, 999, wanted);
    }
    /* rows that are one too many for the writers */
    uint32_t *w = malloc(16 * (KIOSK_GTFS_MOST_TIMES + 1));
    for (uint32_t i = 0; i <= KIOSK_GTFS_MOST_TIMES; i++) memcpy(w + 4 * (size_t)i, (uint32_t[]){ 0, 0, 86400, 446399 }, 16);
    for (uint32_t more = 0; more < 2; more++) try_writing(w, 4 * (size_t)(KIOSK_GTFS_MOST_TIMES + more), 1, 1 << 24, 2, 0);
    for (uint32_t i = 0; i <= KIOSK_GTFS_MOST_TRANSFERS; i++) memcpy(w + 4 * (size_t)i, (uint32_t[]){ 0, 0, 2, 4294967294 }, 16);
    for (uint32_t more = 0; more < 2; more++) try_writing(w, 4 * (size_t)(KIOSK_GTFS_MOST_TRANSFERS + more), 1, 1 << 20, 2, 0);
    free(w);
}

/* Files above 4,294,967,295 bytes, of which no byte may be read. */
static void too_long(void) {
    size_t len = (size_t)1 << 32;
    uint8_t *far = mmap(NULL, len, PROT_NONE, MAP_PRIVATE | MAP_ANONYMOUS | MAP_NORESERVE, -1, 0), *near = lend(OUT, 0);
    if (far == MAP_FAILED) { printf("no room for a file of 4 GiB: it is not tried\n"); return; }
    for (int which = 0; which < 3; which++) for (size_t told_len = 7; told_len <= TOLD_READ; told_len++) {
        uint32_t t[32], told[TOLD_READ], first[TOLD_READ];
        memset(t, 0xA5, sizeof t), memset(told, 0xA5, sizeof told), memset(first, 0xA5, sizeof first);
        const uint8_t *one = which == 1 ? near : far, *two = which == 0 ? near : far;
        size_t one_len = which == 1 ? 0 : len, two_len = which == 0 ? 0 : len;
        uint32_t plain = plain_gtfs_read(one, one_len, two, two_len, t, 8, t + 8, 8, t + 16, 8, t + 24, 8, first, told_len);
        uint32_t ours = kiosk_gtfs_read(one, one_len, two, two_len, t, 8, t + 8, 8, t + 16, 8, t + 24, 8, told, told_len);
        if (plain != KIOSK_GTFS_TOO_LONG || ours != plain) differ("a file that is too long", ours, plain);
        if (memcmp(told, first, sizeof told) != 0) differ("a file that is too long: what is told", ours, plain);
        for (int i = 0; i < 32; i++) if (t[i] != 0xA5A5A5A5) differ("a file that is too long: a table is touched", ours, plain);
        read_given[ours < NUMBERS ? ours : 0]++;
    }
    munmap(far, len);
}

int main(int argc, char **argv) {
    if (argc != 3) { fprintf(stderr, "gtfs_damage COUNT SEED\n"); return 2; }
    static text one, two;
    seed = strtoull(argv[2], NULL, 10);
    unsigned long count = strtoul(argv[1], NULL, 10);
    for (unsigned long c = 0; c < count; c++, seed++) {
        seed_dice(seed, 2);
        make_feed(&one, &two);
        for (int k = 0; k < TRIES_EACH; k++) at_end = percent(70), read_once(&one, &two), write_once();
    }
    at_end = 1;
    limits();
    too_long();
    printf("%lu feeds: ", count);
    print_given(stdout);
    printf("; %lu wrong\n", wrong);
    return wrong > 0;
}

/* The C face of the feed reader as a stranger meets it: each name of kiosk_gtfs.h, each function and each duty, run against the library.
   tests/face.sh compiles it as C99 and as C++11 and gives it the sample feed. */
#include <pthread.h>
#include <string.h>
#include "expect.h"
#include "kiosk_gtfs.h"
#include "stack.h"

static unsigned long given[16];
static void expect_number(const char *what, uint32_t got, uint32_t wanted) {
    if (got < 16) given[got]++;
    expect(what, got, wanted);
}

typedef struct { uint8_t *bytes; size_t len; } text;
static text read_text(const char *folder, const char *name) {
    char path[4096];
    text t = { (uint8_t *)some(1 << 16), 0 };
    snprintf(path, sizeof path, "%s/%s", folder, name);
    FILE *f = fopen(path, "rb");
    if (!f || (t.len = fread(t.bytes, 1, 1 << 16, f)) == 0) { printf("%s: it cannot be read\n", path); exit(2); }
    fclose(f);
    return t;
}
static text said(const char *s) { text t = { (uint8_t *)(uintptr_t)s, strlen(s) }; return t; }

/* Tables with room for as many as there may be. */
static uint32_t *words(size_t n) { return (uint32_t *)some(n * sizeof(uint32_t)); }
static kiosk_gtfs_tables tables(void) {
    kiosk_gtfs_tables t;
    t.times_len = 4 * KIOSK_GTFS_MOST_TIMES, t.paths_len = 4 * KIOSK_GTFS_MOST_TRANSFERS;
    t.stops_len = 4 * KIOSK_GTFS_MOST_STOPS, t.trips_len = 4 * KIOSK_GTFS_MOST_TRIPS;
    t.times = words(t.times_len), t.paths = words(t.paths_len), t.stops = words(t.stops_len), t.trips = words(t.trips_len);
    return t;
}
static void give_back(const kiosk_gtfs_tables *t) { free(t->times); free(t->paths); free(t->stops); free(t->trips); }

static uint32_t take(text one, text two, const kiosk_gtfs_tables *t, kiosk_gtfs_counts *c) {
    return kiosk_gtfs_take(one.bytes, one.len, two.bytes, two.len, t, c);
}
static int is(kiosk_gtfs_id id, const char *wanted) {
    uint8_t out[64];
    size_t n = kiosk_gtfs_undoubled(id, out);
    return n == strlen(wanted) && memcmp(out, wanted, n) == 0;
}

/* ---- the sample, with structs and raw */

static void sample(text one, text two) {
    static const char *const stop[] = { "Harbour, east", "Market", "School", "Platform \"A\"", "Hill", "Pier" };
    static const char *const trip[] = { "bus 1", "bus, 2", "the \"express\"", "tram-1", "tram-2", "night" };
    kiosk_gtfs_tables t = tables(), raw = tables();
    kiosk_gtfs_counts c;
    uint32_t told[KIOSK_GTFS_TOLD];
    expect_number("the sample", take(one, two, &t, &c), KIOSK_GTFS_DONE);
    expect("its stops", c.stops, 6), expect("in stop_times.txt", c.split, 5), expect("its trips", c.trips, 6);
    expect("its times", c.times, 15), expect("its transfers", c.transfers, 7), expect("no line", c.line + c.file, 0);
    for (size_t i = 0; i < 6; i++) {
        expect(stop[i], (unsigned long)is(kiosk_gtfs_stop_id(one.bytes, two.bytes, &t, &c, i), stop[i]), 1);
        expect(trip[i], (unsigned long)is(kiosk_gtfs_trip_id(one.bytes, &t, i), trip[i]), 1);
    }
    const uint32_t *row = kiosk_gtfs_row(t.times, 1), *last = kiosk_gtfs_row(t.times, 14), *path = kiosk_gtfs_row(t.paths, 0);
    expect("a trip", row[KIOSK_GTFS_TRIP], 0), expect("a stop", row[KIOSK_GTFS_STOP], 1);
    expect("8:05:00", row[KIOSK_GTFS_ARRIVAL] - KIOSK_GTFS_DAY, 29100);
    expect("8:06:00", row[KIOSK_GTFS_DEPARTURE] - KIOSK_GTFS_DAY, 29160);
    expect("25:10:00", last[KIOSK_GTFS_ARRIVAL] - KIOSK_GTFS_DAY, 90600);
    expect("from", path[KIOSK_GTFS_FROM], 3), expect("to", path[KIOSK_GTFS_TO], 1);
    expect("type", path[KIOSK_GTFS_TYPE], 2), expect("span", path[KIOSK_GTFS_SPAN], 120);
    expect("no span", kiosk_gtfs_row(t.paths, 2)[KIOSK_GTFS_SPAN], KIOSK_GTFS_UNSTATED);

    uint32_t number = kiosk_gtfs_read(one.bytes, one.len, two.bytes, two.len, raw.times, raw.times_len, raw.paths, raw.paths_len, raw.stops,
                                      raw.stops_len, raw.trips, raw.trips_len, told, KIOSK_GTFS_TOLD);
    expect("raw", number, c.number), expect("told", told[KIOSK_GTFS_NUMBER], c.number);
    expect("told: the line", told[KIOSK_GTFS_LINE], c.line), expect("told: the file", told[KIOSK_GTFS_FILE], c.file);
    expect("told: stops", told[KIOSK_GTFS_STOPS], c.stops), expect("told: the split", told[KIOSK_GTFS_SPLIT], c.split);
    expect("told: trips", told[KIOSK_GTFS_TRIPS], c.trips), expect("told: times", told[KIOSK_GTFS_TIMES], c.times);
    expect("told: transfers", told[KIOSK_GTFS_TRANSFERS], c.transfers);
    expect("the same times", (unsigned long)memcmp(t.times, raw.times, 16 * c.times), 0);

    /* written, with the room that is enough, and read back */
    size_t first = kiosk_gtfs_times_room(c.times), second = kiosk_gtfs_transfers_room(c.transfers);
    text a = { (uint8_t *)some(first), 0 }, b = { (uint8_t *)some(second), 0 };
    uint32_t w[KIOSK_GTFS_WRITTEN];
    number = kiosk_gtfs_write_times(t.times, 4 * c.times, a.bytes, first, w, KIOSK_GTFS_WRITTEN);
    expect_number("times are written", number, KIOSK_GTFS_DONE);
    a.len = w[KIOSK_GTFS_LENGTH];
    number = kiosk_gtfs_write_times(t.times, 4 * c.times, a.bytes, a.len - 1, w, KIOSK_GTFS_WRITTEN);
    expect_number("a short buffer", number, KIOSK_GTFS_FULL);
    number = kiosk_gtfs_write_transfers(t.paths, 4 * c.transfers, c.split, b.bytes, second, w, KIOSK_GTFS_WRITTEN);
    expect_number("transfers are written", number, KIOSK_GTFS_DONE);
    b.len = w[KIOSK_GTFS_LENGTH];
    kiosk_gtfs_counts again;
    expect_number("read back", take(a, b, &raw, &again), KIOSK_GTFS_DONE);
    expect("the same counts", (unsigned long)memcmp(&c, &again, sizeof c), 0);
    expect("the same times", (unsigned long)memcmp(t.times, raw.times, 16 * c.times), 0);
    expect("the same transfers", (unsigned long)memcmp(t.paths, raw.paths, 16 * c.transfers), 0);
    free(a.bytes), free(b.bytes), give_back(&t), give_back(&raw);
}

/* ---- each number, and NULL with length 0 wherever a slice may be lent */

#define HEADER "trip_id,arrival_time,departure_time,stop_id,stop_sequence\n"
static void numbers(void) {
    const text one = said(HEADER "t,8:00:00,8:00:00,A,1\nt,9:00:00,9:00:00,B,2\n"), two = said("from_stop_id,to_stop_id,transfer_type\n");
    kiosk_gtfs_tables t = tables(), part;
    kiosk_gtfs_counts c;
    uint32_t told[KIOSK_GTFS_TOLD];
    expect_number("two rows", take(one, two, &t, &c), KIOSK_GTFS_DONE);
    expect_number("a time that is none", take(said(HEADER "t,8:00:00,,A,1\n"), two, &t, &c), KIOSK_GTFS_BAD_LINE);
    expect("its line", c.line, 2), expect("its file", c.file, 1);
    expect_number("no transfers.txt", kiosk_gtfs_take(one.bytes, one.len, NULL, 0, &t, &c), KIOSK_GTFS_BAD_LINE);
    expect("line 1", c.line, 1), expect("of the second", c.file, 2), expect("the times stand", c.times, 2);
    expect_number("no stop_times.txt", kiosk_gtfs_take(NULL, 0, two.bytes, two.len, &t, &c), KIOSK_GTFS_BAD_LINE);
    part = t, part.times_len = 4;
    expect_number("room for one row", take(one, two, &part, &c), KIOSK_GTFS_FULL);
    expect("which is there", c.times, 1), expect("and its stop", c.stops, 1), expect("with no line", c.line, 0);
    part = t, part.times = NULL, part.times_len = 0;
    expect_number("no times", take(one, two, &part, &c), KIOSK_GTFS_FULL);
    part = t, part.stops = NULL, part.stops_len = 0;
    expect_number("no stops", take(one, two, &part, &c), KIOSK_GTFS_FULL);
    part = t, part.trips = NULL, part.trips_len = 0;
    expect_number("no trips", take(one, two, &part, &c), KIOSK_GTFS_FULL);
    part = t, part.paths = NULL, part.paths_len = 0;
    expect_number("no transfers, and none needed", take(one, two, &part, &c), KIOSK_GTFS_DONE);
    uint32_t number = kiosk_gtfs_read(one.bytes, one.len, two.bytes, two.len, t.times, t.times_len, t.paths, t.paths_len, t.stops,
                                      t.stops_len, t.trips, t.trips_len, NULL, 0);
    expect_number("nothing to tell it in", number, KIOSK_GTFS_TOO_FEW);
    expect("a cap", kiosk_gtfs_cap(19, KIOSK_GTFS_MOST_STOPS), 4);
    expect("the largest cap", kiosk_gtfs_cap(1 << 20, KIOSK_GTFS_MOST_STOPS), KIOSK_GTFS_MOST_STOPS);

    uint8_t out[200];
    uint32_t row[4] = { 0, 0, KIOSK_GTFS_DAY, KIOSK_GTFS_DAY }, path[4] = { 0, 0, 2, 60 };
    expect_number("no rows", kiosk_gtfs_write_times(NULL, 0, out, 200, told, KIOSK_GTFS_WRITTEN), KIOSK_GTFS_DONE);
    expect("a header", (unsigned long)memcmp(out, HEADER, told[KIOSK_GTFS_LENGTH]), 0), expect("of 58 bytes", told[KIOSK_GTFS_LENGTH], 58);
    expect_number("nowhere to write", kiosk_gtfs_write_times(row, 4, NULL, 0, told, KIOSK_GTFS_WRITTEN), KIOSK_GTFS_FULL);
    expect_number("a cut row", kiosk_gtfs_write_times(row, 3, out, 200, told, KIOSK_GTFS_WRITTEN), KIOSK_GTFS_TOO_LONG);
    expect_number("nothing to tell it in", kiosk_gtfs_write_times(row, 4, out, 200, NULL, 0), KIOSK_GTFS_TOO_FEW);
    row[KIOSK_GTFS_STOP] = 1;
    expect_number("a stop that is not the next", kiosk_gtfs_write_times(row, 4, out, 200, told, KIOSK_GTFS_WRITTEN), KIOSK_GTFS_BAD_ORDER);
    row[KIOSK_GTFS_STOP] = 0, row[KIOSK_GTFS_ARRIVAL] = 0;
    expect_number("no moment", kiosk_gtfs_write_times(row, 4, out, 200, told, KIOSK_GTFS_WRITTEN), KIOSK_GTFS_BAD_MOMENT);
    expect_number("a transfer", kiosk_gtfs_write_transfers(path, 4, 1, out, 200, told, KIOSK_GTFS_WRITTEN), KIOSK_GTFS_DONE);
    path[KIOSK_GTFS_SPAN] = KIOSK_GTFS_UNSTATED;
    number = kiosk_gtfs_write_transfers(path, 4, 1, out, 200, told, KIOSK_GTFS_WRITTEN);
    expect_number("type 2 without a span", number, KIOSK_GTFS_BAD_TRANSFER);
    static const int all[] = { 0, 1, 2, 3, 5, 6, 14, 15 };
    for (size_t i = 0; i < sizeof all / sizeof *all; i++) expect("every number is given", given[all[i]] > 0, 1);
    give_back(&t);
}

/* ---- two threads at once on the same files */

typedef struct { text one, two; kiosk_gtfs_tables t; kiosk_gtfs_counts c; } reader;
static void *read_often(void *p) {
    reader *r = (reader *)p;
    for (int i = 0; i < 500; i++) take(r->one, r->two, &r->t, &r->c);
    return NULL;
}
static void two_threads(text one, text two) {
    reader r[2];
    pthread_t thread[2];
    for (int i = 0; i < 2; i++) r[i].one = one, r[i].two = two, r[i].t = tables();
    for (int i = 0; i < 2; i++) if (pthread_create(&thread[i], NULL, read_often, &r[i]) != 0) { printf("no thread\n"); exit(2); }
    for (int i = 0; i < 2; i++) pthread_join(thread[i], NULL);
    expect("two threads: the counts", (unsigned long)memcmp(&r[0].c, &r[1].c, sizeof r[0].c), 0);
    expect("two threads: the times", (unsigned long)memcmp(r[0].t.times, r[1].t.times, 16 * r[0].c.times), 0);
    for (int i = 0; i < 2; i++) give_back(&r[i].t);
}

/* ---- the stack that each function takes */

static struct {
    text one, two;
    kiosk_gtfs_tables t;
    kiosk_gtfs_counts c;
    uint8_t out[2000];
    uint32_t told[2];
} call;
static void call_read(void) { take(call.one, call.two, &call.t, &call.c); }
static void call_times(void) { kiosk_gtfs_write_times(call.t.times, 4 * call.c.times, call.out, sizeof call.out, call.told, 2); }
static void call_transfers(void) {
    kiosk_gtfs_write_transfers(call.t.paths, 4 * call.c.transfers, call.c.split, call.out, sizeof call.out, call.told, 2);
}
static void stacks(text one, text two) {
    static const measured calls[] = {
        { "kiosk_gtfs_take", call_read }, { "kiosk_gtfs_write_times", call_times }, { "kiosk_gtfs_write_transfers", call_transfers } };
    call.one = one, call.two = two, call.t = tables();
    stacks_of(calls, sizeof calls / sizeof *calls);
    give_back(&call.t);
}

int main(int argc, char **argv) {
    if (argc != 2) { printf("gtfs FOLDER\n"); return 2; }
    text one = read_text(argv[1], "stop_times.txt"), two = read_text(argv[1], "transfers.txt");
    sample(one, two);
    numbers();
    two_threads(one, two);
    stacks(one, two);
    printf("kiosk_gtfs.h: %lu tried, %lu not so\n", tried, wrong);
    free(one.bytes), free(two.bytes);
    return wrong > 0;
}

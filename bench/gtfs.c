/* The time that a feed takes to be read and written, by the proved library and by plain C: a round asks each, one after the other.

   gtfs FOLDER ROUNDS       prints the medians in microseconds of the processor's time: read by ours and by plain C, written by ours and by
                            plain C; or ends with status 1 where they differ */
#include <stdio.h>
#include <stdlib.h>
#include <string.h>
#include <time.h>
#include "../crates/gtfs_c/include/kiosk_gtfs.h"
#include "../plain/gtfs.h"

enum { OURS, PLAIN, BOTH, READ = 0, WRITE = 2, COLUMNS = 4, MOST_ROUNDS = 1001 };

static double now(void) {
    struct timespec s;
    clock_gettime(CLOCK_THREAD_CPUTIME_ID, &s);
    return (double)s.tv_sec * 1e6 + (double)s.tv_nsec / 1e3;
}
static void end(const char *why) { fprintf(stderr, "%s\n", why), exit(1); }
static void *memory(size_t bytes) {
    void *p = malloc(bytes);
    if (!p) end("no memory");
    return memset(p, 0, bytes);         /* so that no page is touched for the first time while the clock runs */
}

typedef struct { uint8_t *bytes; size_t len; } file;
static file load(const char *folder, const char *name) {
    char path[4096];
    snprintf(path, sizeof path, "%s/%s", folder, name);
    FILE *f = fopen(path, "rb");
    if (!f) end(path);
    fseek(f, 0, SEEK_END);
    file t = { NULL, (size_t)ftell(f) };
    rewind(f);
    t.bytes = memory(t.len + 1);
    if (fread(t.bytes, 1, t.len, f) != t.len) end(path);
    fclose(f);
    return t;
}

static kiosk_gtfs_tables tables[BOTH];
static uint32_t told[BOTH][TOLD_READ], written[BOTH][TOLD_WRITTEN];
static uint8_t *out[BOTH];
static size_t room;

static void read_by(int which, const file *one, const file *two) {
    const kiosk_gtfs_tables *t = &tables[which];
    gtfs_reader *f = which == OURS ? kiosk_gtfs_read : plain_gtfs_read;
    f(one->bytes, one->len, two->bytes, two->len, t->times, t->times_len, t->paths, t->paths_len, t->stops, t->stops_len, t->trips,
      t->trips_len, told[which], TOLD_READ);
}
static void write_by(int which) {
    gtfs_times_writer *f = which == OURS ? kiosk_gtfs_write_times : plain_gtfs_write_times;
    f(tables[which].times, 4 * (size_t)told[which][TOLD_TIMES], out[which], room, written[which], TOLD_WRITTEN);
}

static int by_size(const void *a, const void *b) {
    double x = *(const double *)a, y = *(const double *)b;
    return (x > y) - (x < y);
}

int main(int argc, char **argv) {
    static double us[COLUMNS][MOST_ROUNDS];
    if (argc != 3) end("gtfs FOLDER ROUNDS");
    int rounds = atoi(argv[2]);
    if (rounds < 1 || rounds > MOST_ROUNDS) end("so many rounds are not kept");
    file one = load(argv[1], "stop_times.txt"), two = load(argv[1], "transfers.txt");
    room = kiosk_gtfs_times_room(KIOSK_GTFS_MOST_TIMES);
    for (int i = 0; i < BOTH; i++) {
        kiosk_gtfs_tables t = { .times_len = 4 * KIOSK_GTFS_MOST_TIMES, .paths_len = 4 * KIOSK_GTFS_MOST_TRANSFERS,
                                .stops_len = 4 * KIOSK_GTFS_MOST_STOPS, .trips_len = 4 * KIOSK_GTFS_MOST_TRIPS };
        t.times = memory(4 * t.times_len), t.paths = memory(4 * t.paths_len), t.stops = memory(4 * t.stops_len);
        t.trips = memory(4 * t.trips_len), out[i] = memory(room), tables[i] = t;
    }
    for (int r = -1; r < rounds; r++) for (int k = 0; k < BOTH; k++) {     /* the first round is not counted */
        int which = r % 2 == 0 ? k : 1 - k;
        double t0 = now();
        read_by(which, &one, &two);
        double t1 = now();
        write_by(which);
        double t2 = now();
        if (r >= 0) us[READ + which][r] = t1 - t0, us[WRITE + which][r] = t2 - t1;
    }
    if (told[OURS][TOLD_NUMBER] != 0) end("the feed is refused");
    if (memcmp(told[OURS], told[PLAIN], sizeof told[OURS]) != 0 || memcmp(written[OURS], written[PLAIN], sizeof written[OURS]) != 0
        || memcmp(tables[OURS].times, tables[PLAIN].times, 16 * (size_t)told[OURS][TOLD_TIMES]) != 0
        || memcmp(tables[OURS].paths, tables[PLAIN].paths, 16 * (size_t)told[OURS][TOLD_TRANSFERS]) != 0
        || memcmp(out[OURS], out[PLAIN], written[OURS][TOLD_LENGTH]) != 0) end("ours and plain C differ");
    for (int c = 0; c < COLUMNS; c++) {
        qsort(us[c], (size_t)rounds, sizeof **us, by_size);
        printf("%.0f%c", us[c][rounds / 2], c < COLUMNS - 1 ? ' ' : '\n');
    }
    return 0;
}

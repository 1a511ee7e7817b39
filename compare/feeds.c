/* Small nasty feeds. */
#include <stdio.h>
#include <string.h>
#include "dice.h"
#include "feeds.h"

static const char *const stop_ids[] = { "A", "B", "C, 1", "D\"d", "e", "7", "07", "\xC3\xBC", "a", "\"", "Z1", "Z2", "Z3", "" };
static const char *const trip_ids[] = { "t1", "t2", "t3", "t\"4", "t,5", "7", "x\ry" };
static const char *const odd_times[] = { "", "8:5:00", "100:00:00", " 8:00:00", "08:60:00", "08:00:60", "-1:00:00", "08:00", "008:00:00",
                                         "08.00.00", "99:59:59", "/8:00:00", "8:00:0:" };
static const char *const odd_numbers[] = { "", "-1", "4294967295", "4294967296", "4294967294", "1.0", "+2", "00000000000000000002", "6",
                                           ":", "/" };
#define ONE_OF(list) list[below_n(sizeof list / sizeof *list)]

static void put(text *t, const void *p, size_t n) {
    if (t->len + n > MOST_TEXT) return;
    memcpy(t->byte + t->len, p, n), t->len += n;
}
static void put_string(text *t, const char *s) { put(t, s, strlen(s)); }
static void put_field(text *t, const char *s) {
    if (!strpbrk(s, ",\"") && !percent(15)) { put_string(t, s); return; }
    put(t, "\"", 1);
    for (; *s; s++) put(t, "\"\"", *s == '"' ? 2 : 0), put(t, s, *s != '"');
    put(t, "\"", 1);
}

/* A table: its columns in some order, some more among them; ends of lines of one kind. */
enum { MOST_COLUMNS = 8 };
typedef struct { uint32_t columns, order[MOST_COLUMNS]; const char *name[MOST_COLUMNS], *end; } table;
static table begin(text *t, const char *const *name, uint32_t columns) {
    table b = { .columns = columns, .end = percent(50) ? "\n" : "\r\n" };
    for (uint32_t i = 0; i < columns; i++) b.name[i] = name[i];
    while (b.columns < MOST_COLUMNS - 1 && percent(30)) b.name[b.columns++] = percent(80) ? "x" : "shape_dist_traveled";
    if (percent(4)) b.name[b.columns] = b.name[below_n(b.columns)], b.columns++;
    for (uint32_t i = 0; i < b.columns; i++) b.order[i] = i;
    if (percent(60)) shuffle(b.order, b.columns);
    if (percent(4)) b.columns--;
    t->len = 0;
    if (percent(10)) put_string(t, "\xEF\xBB\xBF");
    for (uint32_t i = 0; i < b.columns; i++) put(t, ",", i > 0), put_field(t, b.name[b.order[i]]);
    return b;
}
/* One more line; the value of a column that is not known is junk. */
static void put_line(text *t, const table *b, const char *const *value, uint32_t values) {
    put_string(t, b->end);
    for (uint32_t i = 0; i < b->columns; i++) {
        static const char *const junk[] = { "", "junk", "a,b", "0" };
        put(t, ",", i > 0), put_field(t, b->order[i] < values ? value[b->order[i]] : ONE_OF(junk));
    }
}
static void finish(text *t, const table *b) { if (percent(70)) put_string(t, b->end); }

static void show(char *to, uint32_t seconds) {
    if (percent(1)) { strcpy(to, ONE_OF(odd_times)); return; }
    sprintf(to, percent(60) ? "%02u:%02u:%02u" : "%u:%02u:%02u", seconds / 3600, seconds / 60 % 60, seconds % 60);
}

static void make_times(text *t) {
    static const char *const name[] = { "trip_id", "arrival_time", "departure_time", "stop_id", "stop_sequence" };
    table b = begin(t, name, 5);
    uint32_t trip[7];
    sample(7, 7, trip);
    for (uint32_t i = 0, trips = below_n(5); i < trips; i++) {
        uint32_t at = range(0, 350000), sequence = range(0, 3), rows = range(1, 4);
        for (uint32_t k = 0; k < rows; k++) {
            char arrival[16], departure[16], place[24];
            uint32_t leaves = at + range(0, 900) * (at < 358000);
            show(arrival, at), show(departure, leaves);
            sprintf(place, percent(80) ? "%u" : "%04u", sequence);
            if (percent(1)) strcpy(place, ONE_OF(odd_numbers));
            const char *id = trip_ids[trip[percent(99) ? i : 0]], *stop = stop_ids[below_n(percent(98) ? 10 : 14)];
            put_line(t, &b, (const char *[]){ id, arrival, departure, stop, place }, 5);
            at = leaves + range(0, 900) * (leaves < 358000), sequence += percent(97) ? range(1, 9) : 0;
        }
    }
    finish(t, &b);
}

static void make_transfers(text *t) {
    static const char *const name[] = { "from_stop_id", "to_stop_id", "transfer_type", "min_transfer_time" };
    static const char *const kinds[] = { "", "0", "1", "2", "2", "2", "3", "4", "5", "02" };
    static const char *const spans[] = { "60", "0", "120", "86400", "4294967294", "007" };
    table b = begin(t, name, percent(90) ? 4 : 3);
    for (uint32_t rows = below_n(5); rows > 0; rows--) {
        const char *kind = percent(97) ? ONE_OF(kinds) : ONE_OF(odd_numbers), *span = percent(97) ? ONE_OF(spans) : ONE_OF(odd_numbers);
        const char *from = stop_ids[below_n(percent(98) ? 13 : 14)], *to = stop_ids[below_n(percent(98) ? 13 : 14)];
        put_line(t, &b, (const char *[]){ from, to, kind, span }, 4);
    }
    finish(t, &b);
}

void make_feed(text *stop_times, text *transfers) { make_times(stop_times), make_transfers(transfers); }

/* The line about a byte, with its end. */
static size_t line_from(const text *t, size_t at) { while (at > 0 && t->byte[at - 1] != '\n') at--; return at; }
static size_t line_end(const text *t, size_t at) { while (at < t->len && t->byte[at] != '\n') at++; return at + (at < t->len); }

static void put_in(text *t, size_t at, const uint8_t *p, size_t n) {
    if (t->len + n > MOST_TEXT) return;
    memmove(t->byte + at + n, t->byte + at, t->len - at);
    memcpy(t->byte + at, p, n), t->len += n;
}
static void leave_out(text *t, size_t from, size_t to) { memmove(t->byte + from, t->byte + to, t->len - to), t->len -= to - from; }

void damage_text(text *t) {
    static const uint8_t odd[] = ",,\"\"\n\r0123459:;/ ax\xEF\0";
    size_t at = below_n((uint32_t)t->len + 1), from = line_from(t, at), to = line_end(t, at);
    uint8_t byte = odd[below_n(sizeof odd - 1)], line[256];
    uint32_t how = below_n(100);
    if (how < 35) { if (at < t->len) t->byte[at] = byte; }
    else if (how < 60) put_in(t, at, &byte, 1);
    else if (how < 82) { if (at < t->len) leave_out(t, at, at + 1); }
    else if (how < 86) t->len = at;
    else if (how < 87) t->len = 0;
    else if (how < 92) leave_out(t, from, to);
    else if (to - from <= sizeof line) {        /* a line once more, there or at another place */
        memcpy(line, t->byte + from, to - from);
        put_in(t, percent(50) ? from : line_from(t, below_n((uint32_t)t->len + 1)), line, to - from);
    }
}

/* ==== rows for the writers */

void make_rows(uint32_t *words, uint32_t rows, int transfers, uint32_t stops) {
    uint32_t seen = transfers ? stops : 0, trips = 0;
    for (uint32_t i = 0; i < rows; i++) {
        uint32_t *r = words + 4 * i;
        if (transfers) {
            r[0] = range(0, seen), seen += r[0] == seen;
            r[1] = range(0, seen), seen += r[1] == seen;
            r[2] = range(0, 5), r[3] = r[2] == 2 ? PICK(0, 1, 10, 99999, 0xFFFFFFFE) : 0xFFFFFFFF;
        } else {
            r[0] = trips > 0 && percent(60) ? trips - 1 : trips, trips = r[0] + 1;
            r[1] = range(0, seen), seen += r[1] == seen;
            r[2] = range(86400, 446399), r[3] = PICK(86400, 446399, 90000, 446398);
        }
    }
}

/* ==== files at a limit */

size_t many_times(uint8_t *to, uint32_t rows, int trips, uint32_t stops) {
    size_t n = 0;
    char line[80];
    for (uint32_t i = 0; i <= rows; i++) {
        int k = i == 0 ? sprintf(line, "trip_id,arrival_time,departure_time,stop_id,stop_sequence\n")
            : sprintf(line, "t%u,8:00:00,08:00:00,s%u,%u\n", trips ? i : 0, (i - 1) % stops, i);
        if (to) memcpy(to + n, line, (size_t)k);
        n += (size_t)k;
    }
    return n;
}
size_t many_transfers(uint8_t *to, uint32_t rows, uint32_t stops) {
    size_t n = 0;
    char line[80];
    for (uint32_t i = 0; i <= rows; i++) {
        int k = i == 0 ? sprintf(line, "from_stop_id,to_stop_id,transfer_type,min_transfer_time\n")
            : sprintf(line, "s%u,s%u,2,%u\n", (i - 1) % stops, (7 * i) % stops, i);
        if (to) memcpy(to + n, line, (size_t)k);
        n += (size_t)k;
    }
    return n;
}

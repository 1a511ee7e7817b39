/* The reader and the writer of GTFS's stop_times.txt and transfers.txt in plain C. */
#include <string.h>
#include "gtfs.h"
#include "tables.h"

enum { TOO_LONG = 1, OUT_OF_ORDER = 2, NO_MOMENT = 3, NO_TRANSFER = 5, TOO_FEW = 6, BAD_LINE = 14, FULL = 15 };
enum { FIRST_MOMENT = 86400, LAST_SHOWN = 446399 };     /* 0:00:00 and 99:59:59, a day later */

static uint32_t least(size_t a, uint32_t b) { return a < b ? (uint32_t)a : b; }

/* ==== Lines and fields */

typedef struct { const uint8_t *byte; size_t len, at; uint32_t line; } file;
typedef struct { size_t from, end; } span;              /* bytes of a file */

static file opened(const uint8_t *byte, size_t len) {
    return (file){ byte, len, len >= 3 && memcmp(byte, "\xEF\xBB\xBF", 3) == 0 ? 3 : 0, 0 };
}

/* The next line without its end, LF or CR LF; 0 where no byte is left. */
static int next_line(file *f, span *line) {
    if (f->at >= f->len) return 0;
    const uint8_t *feed = memchr(f->byte + f->at, '\n', f->len - f->at);
    *line = (span){ f->at, feed ? (size_t)(feed - f->byte) : f->len };
    f->at = line->end + 1, f->line++;
    if (line->end > line->from && f->byte[line->end - 1] == '\r') line->end--;
    return 1;
}

/* The text of the field at line->from, which moves behind the comma that follows. */
enum { WRONG, MORE, LAST };
static inline int next_field(const uint8_t *b, span *line, span *text) {
    size_t i = line->from, end = line->end;
    if (i < end && b[i] == '"') {
        text->from = ++i;
        for (;; i++) {
            if (i >= end) return WRONG;
            if (b[i] != '"') continue;
            if (i + 1 >= end || b[i + 1] != '"') break;
            i++;                        /* doubled: one quote of the text, kept as it stands */
        }
        text->end = i++;
        if (i < end && b[i] != ',') return WRONG;
    } else {
        text->from = i;
        for (; i < end && b[i] != ','; i++) if (b[i] == '"') return WRONG;
        text->end = i;
    }
    line->from = i + 1;
    return i < end ? MORE : LAST;
}

/* ==== Columns */

/* The columns that are read, each with its place in the header, and the order in which they stand there. */
enum { MOST_WANTED = 5 };
#define NOWHERE SIZE_MAX
typedef struct { size_t count, place[MOST_WANTED]; int wanted, order[MOST_WANTED]; } columns;

/* Line 1. Each name stands there once; but the last of them may be missing where `optional` is set. */
static int read_header(file *f, const char *const *name, int wanted, int optional, columns *c) {
    span line, text;
    int more = MORE;
    *c = (columns){ .wanted = wanted };
    for (int w = 0; w < wanted; w++) c->place[w] = NOWHERE;
    if (!next_line(f, &line)) { f->line = 1; return 0; }
    for (; more == MORE; c->count++) {
        if ((more = next_field(f->byte, &line, &text)) == WRONG) return 0;
        for (int w = 0; w < wanted; w++) {
            size_t n = strlen(name[w]);
            if (text.end - text.from != n || memcmp(f->byte + text.from, name[w], n) != 0) continue;
            if (c->place[w] != NOWHERE) return 0;
            c->place[w] = c->count;
        }
    }
    for (int w = 0; w < wanted - optional; w++) if (c->place[w] == NOWHERE) return 0;
    for (int w = 0; w < wanted; w++) {
        int at = w;
        for (; at > 0 && c->place[c->order[at - 1]] > c->place[w]; at--) c->order[at] = c->order[at - 1];
        c->order[at] = w;
    }
    return 1;
}

/* The texts that are wanted of a line; empty where the column is missing. 0: a wrong field, or another number of them than the header's. */
static int read_fields(const uint8_t *b, span line, const columns *c, span *text) {
    size_t count = 0;
    int more = MORE, w = 0;
    if (c->place[c->wanted - 1] == NOWHERE) text[c->wanted - 1] = (span){ 0, 0 };
    for (; more == MORE; count++) {
        span one;
        if ((more = next_field(b, &line, &one)) == WRONG) return 0;
        if (w < c->wanted && c->place[c->order[w]] == count) text[c->order[w++]] = one;
    }
    return count == c->count;
}

/* ==== Values */

static int decimal(const uint8_t *b, span t, uint32_t *value) {
    uint64_t v = 0;
    if (t.from == t.end) return 0;
    for (size_t i = t.from; i < t.end; i++) {
        if (b[i] < '0' || b[i] > '9' || (v = v * 10 + (b[i] - '0')) > UINT32_MAX) return 0;
    }
    *value = (uint32_t)v;
    return 1;
}

/* H:MM:SS or HH:MM:SS, and a day more. */
static int clock(const uint8_t *b, span t, uint32_t *moment) {
    size_t n = t.end - t.from;
    if (n != 7 && n != 8) return 0;
    uint32_t d[8] = { 0 };
    for (size_t i = 8 - n; i < 8; i++) {
        uint8_t x = b[t.end - 8 + i];
        if (i == 2 || i == 5 ? x != ':' : x < '0' || x > '9') return 0;
        d[i] = (uint32_t)x - '0';
    }
    if (d[3] > 5 || d[6] > 5) return 0;
    *moment = (d[0] * 10 + d[1]) * 3600 + (d[3] * 10 + d[4]) * 60 + d[6] * 10 + d[7] + FIRST_MOMENT;
    return 1;
}

/* ==== Names */

/* A table of names, hashed into chains: heads, each one more than the number of the slot's last name; then of each name where its text
   begins and ends, and one more than the number of the name before it in its slot. Names below `split` stand in the first file. */
typedef struct { uint32_t *word, cap, count, split; const uint8_t *file[2]; } book;

static book empty_book(uint32_t *word, size_t len, uint32_t limit, const uint8_t *one, const uint8_t *two) {
    book k = { word, least(len / BOOK_WORDS, limit), 0, UINT32_MAX, { one, two } };
    if (k.cap > 0) memset(word, 0, 4 * (size_t)k.cap);
    return k;
}
static uint32_t *name_of(const book *k, uint32_t i) { return k->word + k->cap + NAME_WORDS * (size_t)i; }
static int same(const uint8_t *a, span s, const uint8_t *b, span t) {
    return s.end - s.from == t.end - t.from && memcmp(a + s.from, b + t.from, s.end - s.from) == 0;
}
static int is_name(const book *k, uint32_t i, const uint8_t *b, span t) {
    const uint32_t *n = name_of(k, i);
    return same(b, t, k->file[i >= k->split], (span){ n[0], n[1] });
}
static uint32_t slot(const book *k, const uint8_t *b, span t) {
    uint32_t h = 0;
    for (size_t i = t.from; i < t.end; i++) h = h * 31 + b[i];
    return h % k->cap;
}
/* Its number, or how many names there are. */
static uint32_t find(const book *k, const uint8_t *b, span t) {
    if (k->cap == 0) return 0;
    for (uint32_t p = k->word[slot(k, b, t)]; p > 0; p = name_of(k, p - 1)[2]) if (is_name(k, p - 1, b, t)) return p - 1;
    return k->count;
}
/* Puts it behind the others, where there is room. */
static void add(book *k, const uint8_t *b, span t) {
    uint32_t *head = k->word + slot(k, b, t), *n = name_of(k, k->count);
    n[0] = (uint32_t)t.from, n[1] = (uint32_t)t.end, n[2] = *head;
    *head = ++k->count;
}

/* ==== The reader */

typedef struct { uint32_t *word, room, count; } rows;
typedef struct { book stops, trips; rows times, paths; } feed;

static rows empty_rows(uint32_t *word, size_t len, uint32_t limit) { return (rows){ word, least(len / ROW_WORDS, limit), 0 }; }
static void put_row(rows *r, uint32_t a, uint32_t b, uint32_t c, uint32_t d) {
    uint32_t *w = r->word + ROW_WORDS * (size_t)r->count++;
    w[0] = a, w[1] = b, w[2] = c, w[3] = d;
}

static uint32_t read_times(file *f, feed *to) {
    static const char *const name[] = { "trip_id", "arrival_time", "departure_time", "stop_id", "stop_sequence" };
    enum { TRIP, ARRIVAL, DEPARTURE, STOP, SEQUENCE, WANTED };
    const uint8_t *b = f->byte;
    columns c;
    span line, t[WANTED];
    uint32_t arrival, departure, sequence, before = 0;
    if (!read_header(f, name, WANTED, 0, &c)) return BAD_LINE;
    while (next_line(f, &line)) {
        if (!read_fields(b, line, &c, t) || t[TRIP].from == t[TRIP].end || t[STOP].from == t[STOP].end) return BAD_LINE;
        if (!clock(b, t[ARRIVAL], &arrival) || !clock(b, t[DEPARTURE], &departure) || !decimal(b, t[SEQUENCE], &sequence)) return BAD_LINE;
        uint32_t trips = to->trips.count;
        int again = trips > 0 && is_name(&to->trips, trips - 1, b, t[TRIP]);
        if (again ? sequence <= before : find(&to->trips, b, t[TRIP]) < trips) return BAD_LINE;
        uint32_t stop = find(&to->stops, b, t[STOP]);
        if ((!again && trips == to->trips.cap) || stop == to->stops.cap || to->times.count == to->times.room) return FULL;
        if (!again) add(&to->trips, b, t[TRIP]);
        if (stop == to->stops.count) add(&to->stops, b, t[STOP]);
        put_row(&to->times, to->trips.count - 1, stop, arrival, departure);
        before = sequence;
    }
    return 0;
}

static uint32_t read_transfers(file *f, feed *to) {
    static const char *const name[] = { "from_stop_id", "to_stop_id", "transfer_type", "min_transfer_time" };
    enum { FROM, TO, KIND, SPAN, WANTED };
    const uint8_t *b = f->byte;
    book *stops = &to->stops;
    columns c;
    span line, t[WANTED];
    if (!read_header(f, name, WANTED, 1, &c)) return BAD_LINE;
    while (next_line(f, &line)) {
        uint32_t kind = 0, seconds = ABSENT;
        if (!read_fields(b, line, &c, t) || t[FROM].from == t[FROM].end || t[TO].from == t[TO].end) return BAD_LINE;
        if (t[KIND].from < t[KIND].end && (!decimal(b, t[KIND], &kind) || kind > 5)) return BAD_LINE;
        if (kind == 2 && (!decimal(b, t[SPAN], &seconds) || seconds == ABSENT)) return BAD_LINE;
        uint32_t from = find(stops, b, t[FROM]), to_stop = find(stops, b, t[TO]), new = from == stops->count;
        if (new && to_stop == stops->count && !same(b, t[FROM], b, t[TO])) to_stop++;     /* both new: the first comes first */
        uint32_t most = from > to_stop ? from : to_stop;
        if (most >= stops->cap || to->paths.count == to->paths.room) return FULL;
        if (new) add(stops, b, t[FROM]);
        if (to_stop == stops->count) add(stops, b, t[TO]);
        put_row(&to->paths, from, to_stop, kind, seconds);
    }
    return 0;
}

uint32_t plain_gtfs_read(const uint8_t *stop_times, size_t stop_times_len, const uint8_t *transfers, size_t transfers_len,
                         uint32_t *times, size_t times_len, uint32_t *paths, size_t paths_len, uint32_t *stops, size_t stops_len,
                         uint32_t *trips, size_t trips_len, uint32_t *told, size_t told_len) {
    if (stop_times_len > UINT32_MAX || transfers_len > UINT32_MAX) {
        if (told_len >= TOLD_READ) memset(told, 0, 4 * TOLD_READ), told[TOLD_NUMBER] = TOO_LONG;
        return TOO_LONG;
    }
    if (told_len < TOLD_READ) return TOO_FEW;
    file one = opened(stop_times, stop_times_len), two = opened(transfers, transfers_len);
    feed to = { empty_book(stops, stops_len, MOST_STOPS, stop_times, transfers), empty_book(trips, trips_len, MOST_TRIPS, stop_times, NULL),
                empty_rows(times, times_len, MOST_STOP_TIMES), empty_rows(paths, paths_len, MOST_TRANSFERS) };
    uint32_t number = read_times(&one, &to), which = 1, line = one.line;
    to.stops.split = to.stops.count;
    if (number == 0) number = read_transfers(&two, &to), which = 2, line = two.line;
    told[TOLD_NUMBER] = number;
    told[TOLD_LINE] = number == BAD_LINE ? line : 0, told[TOLD_FILE] = number == BAD_LINE ? which : 0;
    told[TOLD_STOPS] = to.stops.count, told[TOLD_SPLIT] = to.stops.split, told[TOLD_TRIPS] = to.trips.count;
    told[TOLD_TIMES] = to.times.count, told[TOLD_TRANSFERS] = to.paths.count;
    return number;
}

/* ==== The writer */

static size_t digits(uint32_t n) {
    size_t k = 1;
    for (; n > 9; n /= 10) k++;
    return k;
}
static uint8_t *put_text(uint8_t *to, const char *text) { return memcpy(to, text, strlen(text)), to + strlen(text); }
static uint8_t *put_number(uint8_t *to, uint32_t n, char behind) {
    size_t k = digits(n);
    to[k] = (uint8_t)behind;
    for (size_t i = k; i > 0; n /= 10) to[--i] = (uint8_t)('0' + n % 10);
    return to + k + 1;
}
static uint8_t *put_clock(uint8_t *to, uint32_t moment) {
    uint32_t x = moment - FIRST_MOMENT, part[3] = { x / 3600, x / 60 % 60, x % 60 };
    for (int i = 0; i < 3; i++) {
        *to++ = (uint8_t)('0' + part[i] / 10), *to++ = (uint8_t)('0' + part[i] % 10);
        *to++ = i < 2 ? ':' : ',';
    }
    return to;
}

/* A number that has appeared, or is the next; then it has. */
static int appears(uint32_t n, uint32_t *seen, uint32_t limit) {
    if (n > *seen || n >= limit) return 0;
    *seen += n == *seen;
    return 1;
}
static uint32_t tell(uint32_t *told, uint32_t number, size_t length) {
    told[TOLD_NUMBER] = number, told[TOLD_LENGTH] = (uint32_t)length;
    return number;
}

uint32_t plain_gtfs_write_times(const uint32_t *times, size_t len, uint8_t *out, size_t out_len, uint32_t *told, size_t told_len) {
    static const char header[] = "trip_id,arrival_time,departure_time,stop_id,stop_sequence\n";
    size_t size = sizeof header - 1;
    uint32_t stops = 0, trips = 0, position = 0;
    if (told_len < TOLD_WRITTEN) return TOO_FEW;
    if (len % ROW_WORDS != 0 || len / ROW_WORDS > MOST_STOP_TIMES) return tell(told, 1, 0);
    for (size_t i = 0; i < len; i += ROW_WORDS) {
        const uint32_t *w = times + i;
        position = w[0] + 1 == trips ? position + 1 : 0;
        if (w[0] + 1 != trips && w[0] != trips) return tell(told, OUT_OF_ORDER, 0);
        if (!appears(w[0], &trips, MOST_TRIPS) || !appears(w[1], &stops, MOST_STOPS)) return tell(told, OUT_OF_ORDER, 0);
        for (int k = 2; k < 4; k++) if (w[k] < FIRST_MOMENT || w[k] > LAST_SHOWN) return tell(told, NO_MOMENT, 0);
        size += digits(w[0]) + digits(w[1]) + digits(position) + 21;    /* two clocks, four commas and a line feed */
    }
    if (size > out_len) return tell(told, FULL, 0);
    uint8_t *to = put_text(out, header);
    for (size_t i = 0; i < len; i += ROW_WORDS) {
        const uint32_t *w = times + i;
        position = i > 0 && w[0] == w[-ROW_WORDS] ? position + 1 : 0;
        to = put_clock(put_clock(put_number(to, w[0], ','), w[2]), w[3]);
        to = put_number(put_number(to, w[1], ','), position, '\n');
    }
    return tell(told, 0, size);
}

uint32_t plain_gtfs_write_transfers(const uint32_t *paths, size_t len, uint32_t stops, uint8_t *out, size_t out_len,
                                    uint32_t *told, size_t told_len) {
    static const char header[] = "from_stop_id,to_stop_id,transfer_type,min_transfer_time\n";
    size_t size = sizeof header - 1;
    if (told_len < TOLD_WRITTEN) return TOO_FEW;
    if (len % ROW_WORDS != 0 || len / ROW_WORDS > MOST_TRANSFERS) return tell(told, 1, 0);
    for (size_t i = 0; i < len; i += ROW_WORDS) {
        const uint32_t *w = paths + i;
        if (!appears(w[0], &stops, MOST_STOPS) || !appears(w[1], &stops, MOST_STOPS)) return tell(told, OUT_OF_ORDER, 0);
        if (w[2] == 2 ? w[3] == ABSENT : w[2] > 5 || w[3] != ABSENT) return tell(told, NO_TRANSFER, 0);
        size += digits(w[0]) + digits(w[1]) + 5 + (w[2] == 2 ? digits(w[3]) : 0);     /* the type, three commas and a line feed */
    }
    if (size > out_len) return tell(told, FULL, 0);
    uint8_t *to = put_text(out, header);
    for (size_t i = 0; i < len; i += ROW_WORDS) {
        const uint32_t *w = paths + i;
        to = put_number(put_number(put_number(to, w[0], ','), w[1], ','), w[2], ',');
        if (w[2] == 2) to = put_number(to, w[3], '\n');
        else *to++ = '\n';
    }
    return tell(told, 0, size);
}

/* The table check in plain C. */
#include <string.h>
#include "check.h"
#include "tables.h"

static int starts_ok(const uint32_t *start, uint32_t entries, uint32_t rows) {
    if (start[0] != 0 || start[entries] != rows) return 0;
    for (uint32_t i = 0; i < entries; i++) if (start[i] > start[i + 1]) return 0;
    return 1;
}
static int metres_ok(uint32_t bits) {
    float metres;
    memcpy(&metres, &bits, 4);
    return metres >= 0 && metres <= (float)LONGEST_METRES;
}

/* A bit set of stops or of trips. */
typedef struct { uint64_t word[MOST_TRIPS / 64]; } set;
static int has(const set *s, uint32_t i) { return s->word[i / 64] >> (i % 64) & 1; }
static void put(set *s, uint32_t i) { s->word[i / 64] |= 1ull << (i % 64); }

uint32_t plain_check(const uint32_t *w, size_t len) {
    /* 1: the header, the lengths, the limits, the starts */
    if (len < HEADER || w[0] != HEADER || w[SECTIONS] != len) return 1;
    for (int k = 0; k < SECTIONS; k++) if (w[k] > w[k + 1]) return 1;
#define SIZE(k) size_of(w, k)
    uint32_t S = SIZE(STOP_LIST);
    if (SIZE(STATIONS) != S || SIZE(CHILD_STARTS) != S + 1 || SIZE(CALL_STARTS) != S + 1 || SIZE(SERVED) != S || SIZE(TRANSFER_STARTS) != S + 1
        || SIZE(WALK_STARTS) != S + 1) return 1;
    if (SIZE(ROUTE_STOP_STARTS) < 1 || SIZE(ROUTE_TRIP_STARTS) != SIZE(ROUTE_STOP_STARTS) || SIZE(TIME_STARTS) < 1
        || SIZE(ROUTE_TRIPS) != SIZE(TIME_STARTS) - 1 || SIZE(AREA_STARTS) < 1) return 1;
    if (SIZE(STANDING) % STANDING_WORDS || SIZE(STANDING) / STANDING_WORDS != SIZE(TIME_STARTS) - 1) return 1;
    if (SIZE(CALLS) % CALL_WORDS || SIZE(TRANSFERS) % TRANSFER_WORDS || SIZE(WALKS) % WALK_WORDS || SIZE(TIMES) % TIME_WORDS) return 1;
    uint32_t R = SIZE(ROUTE_STOP_STARTS) - 1, T = SIZE(TIME_STARTS) - 1, A = SIZE(AREA_STARTS) - 1, Q = SIZE(CALLS) / CALL_WORDS,
        F = SIZE(TRANSFERS) / TRANSFER_WORDS, W = SIZE(WALKS) / WALK_WORDS, X = SIZE(TIMES) / TIME_WORDS;
    if (S > MOST_STOPS || R > MOST_ROUTES || T > MOST_TRIPS || X > MOST_STOP_TIMES || F > MOST_TRANSFERS || W > MOST_WALKS || A > MOST_AREAS
        || SIZE(AREA_STOPS) > MOST_AREA_ENTRIES) return 1;
    const uint32_t *st = section_of(w, STATIONS), *cs = section_of(w, CHILD_STARTS), *ch = section_of(w, CHILDREN),
        *qs = section_of(w, CALL_STARTS), *q = section_of(w, CALLS), *sv = section_of(w, SERVED), *fs = section_of(w, TRANSFER_STARTS),
        *f = section_of(w, TRANSFERS), *ws = section_of(w, WALK_STARTS), *wk = section_of(w, WALKS), *ps = section_of(w, ROUTE_STOP_STARTS),
        *p = section_of(w, ROUTE_STOPS), *ts = section_of(w, ROUTE_TRIP_STARTS), *t = section_of(w, ROUTE_TRIPS),
        *xs = section_of(w, TIME_STARTS), *x = section_of(w, TIMES), *as = section_of(w, AREA_STARTS), *ar = section_of(w, AREA_STOPS),
        *sd = section_of(w, STANDING);
    if (!starts_ok(cs, S, SIZE(CHILDREN)) || !starts_ok(qs, S, Q) || !starts_ok(fs, S, F) || !starts_ok(ws, S, W)
        || !starts_ok(ps, R, SIZE(ROUTE_STOPS)) || !starts_ok(ts, R, T) || !starts_ok(xs, T, X) || !starts_ok(as, A, SIZE(AREA_STOPS))) return 1;
    for (uint32_t r = 0; r < R; r++) if (ps[r + 1] - ps[r] < 1 || ps[r + 1] - ps[r] > MOST_POSITIONS) return 1;

    /* 2: stations and children, routes and trips, standings, calls and served marks, footpaths, areas */
    set seen;
    for (uint32_t s = 0; s < S; s++) if (section_of(w, STOP_LIST)[s] != s || (st[s] != ABSENT && st[s] >= S)) return 2;
    memset(&seen, 0, sizeof seen);
    for (uint32_t s = 0; s < S; s++) for (uint32_t j = cs[s]; j < cs[s + 1]; j++) {
        if (ch[j] >= S || st[ch[j]] != s || has(&seen, ch[j])) return 2;
        put(&seen, ch[j]);
    }
    for (uint32_t s = 0; s < S; s++) if (st[s] != ABSENT && !has(&seen, s)) return 2;
    for (uint32_t i = 0; i < SIZE(ROUTE_STOPS); i++) if (p[i] >= S) return 2;
    memset(&seen, 0, sizeof seen);
    for (uint32_t i = 0; i < T; i++) {
        if (t[i] >= T || has(&seen, t[i])) return 2;
        put(&seen, t[i]);
    }
    for (uint32_t r = 0; r < R; r++) for (uint32_t i = ts[r]; i < ts[r + 1]; i++) if (xs[t[i] + 1] - xs[t[i]] != ps[r + 1] - ps[r]) return 2;
    for (uint32_t v = 0; v < T; v++) {
        uint32_t r = sd[STANDING_WORDS * v], i = sd[STANDING_WORDS * v + STANDING_PLACE];
        if (r >= R || i < ts[r] || i >= ts[r + 1] || t[i] != v) return 2;
    }
    for (uint32_t s = 0; s < S; s++) {
        uint32_t passed = 0;
        for (uint32_t j = qs[s]; j < qs[s + 1]; j++) {
            uint32_t r = q[CALL_WORDS * j], a = q[CALL_WORDS * j + 1], b = q[CALL_WORDS * j + 2];
            if (r >= R || a >= ps[r + 1] - ps[r] || b >= ps[r + 1] - ps[r] || p[ps[r] + a] != s || p[ps[r] + b] != s) return 2;
            if (j > qs[s] && q[CALL_WORDS * (j - 1)] >= r) return 2;
            passed |= ts[r + 1] > ts[r];
        }
        if (sv[s] != passed) return 2;
    }
    for (uint32_t r = 0; r < R; r++) for (uint32_t i = 0; i < ps[r + 1] - ps[r]; i++) {
        uint32_t s = p[ps[r] + i], low = qs[s], high = qs[s + 1];
        while (low < high) {
            uint32_t middle = low + (high - low) / 2;
            if (q[CALL_WORDS * middle] < r) low = middle + 1; else high = middle;
        }
        const uint32_t *call = q + CALL_WORDS * low;
        if (low == qs[s + 1] || call[0] != r || call[1] > i || call[2] < i) return 2;
    }
    for (uint32_t s = 0; s < S; s++) for (uint32_t j = fs[s]; j < fs[s + 1]; j++)
        if (f[TRANSFER_WORDS * j] != s || f[TRANSFER_WORDS * j + 1] >= S) return 2;
    for (uint32_t j = 0; j < W; j++) if (wk[WALK_WORDS * j] >= S) return 2;
    for (uint32_t i = 0; i < SIZE(AREA_STOPS); i++) if (ar[i] >= S) return 2;
    for (uint32_t a = 0; a < A; a++) {
        memset(&seen, 0, MOST_STOPS / 8);
        for (uint32_t i = as[a]; i < as[a + 1]; i++) {
            if (has(&seen, ar[i])) return 2;
            put(&seen, ar[i]);
        }
    }

    /* 3: moments, along a trip */
    for (uint32_t r = 0; r < R; r++) for (uint32_t i = 0, n = ps[r + 1] - ps[r]; i < n; i++) for (uint32_t v = ts[r]; v < ts[r + 1]; v++) {
        const uint32_t *y = x + TIME_WORDS * (xs[t[v]] + i);
        if (y[0] < 1 || y[0] > y[1] || y[1] > LAST_MOMENT || (i + 1 < n && y[1] > y[2])) return 3;
    }
    /* 4: trips of a route in order */
    for (uint32_t r = 0; r < R; r++) for (uint32_t i = 0, n = ps[r + 1] - ps[r]; i < n; i++) for (uint32_t v = ts[r] + 1; v < ts[r + 1]; v++) {
        const uint32_t *y = x + TIME_WORDS * (xs[t[v - 1]] + i), *z = x + TIME_WORDS * (xs[t[v]] + i);
        if (y[0] > z[0] || y[1] > z[1]) return 4;
    }
    /* 5: spans and distances */
    for (uint32_t j = 0; j < F; j++) {
        const uint32_t *row = f + TRANSFER_WORDS * j;
        if ((row[2] != ABSENT && row[2] > LONGEST_SPAN) || !metres_ok(row[3])) return 5;
    }
    for (uint32_t j = 0; j < W; j++) if (!metres_ok(wk[WALK_WORDS * j + 1])) return 5;
    return 0;
#undef SIZE
}

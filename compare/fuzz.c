/* The C face under libFuzzer and the address sanitizer: inputs are led by which edges of the proved code they reach.

   Each slice is a block of exactly its bytes, so that a read or write past it stops the run. Compared with plain C, to the last word and
   byte: the number of the tables, the room, the answer and everything lent, with a new workspace and with a used one; how journey bytes
   are read, and how they are judged. fuzz.sh builds and runs it. SEEDS=FOLDER writes the first inputs there; LIE=tables, room and journey must stop the run. */
#include <stdlib.h>
#include <string.h>
#include "city.h"
#include "dice.h"
#include "fuzzing.h"
#include "journeys.h"
#include "nasty.h"
#include "../plain/check.h"
#include "../plain/judge.h"
#include "../plain/tables.h"

/* ---- an input: a head, then journey bytes of any kind, then the words of the tables, the last of which may be cut */

enum { MOST_LOOSE = 1 << 12, MOST_WORDS = 1 << 14, MOST_GROWN = 1 << 20, EMPTY = -128 };
typedef struct {
    query q;
    uint32_t grown, more;               /* the sections that grow, a bit each, and by how many words */
    uint32_t at;                        /* the byte at which a leg is asked for; those from 2^31 on are far past every end */
    uint16_t loose, journey;            /* how many bytes are loose, and how many the journey may have */
    int8_t off[3];                      /* added to the right lengths of words, marks and places; EMPTY is an empty slice */
    uint8_t answer, room, told, leg;    /* lengths in words */
    uint8_t junk;                       /* what every slice is filled with before */
} head;
typedef struct { head h; size_t bytes; uint8_t loose[MOST_LOOSE]; uint32_t word[MOST_WORDS]; } input;

/* What is missing in a short input is 0. */
static void split(const uint8_t *data, size_t size, input *in) {
    size_t n = least(size, sizeof in->h);
    memset(&in->h, 0, sizeof in->h);
    memcpy(&in->h, data, n), data += n, size -= n;
    n = in->h.loose = (uint16_t)least(least(in->h.loose, MOST_LOOSE), size);
    memcpy(in->loose, data, n), data += n, size -= n;
    in->bytes = least(size, sizeof in->word);
    memcpy(in->word, data, in->bytes);
}
static size_t join(const input *in, uint8_t *data, size_t most) {
    size_t n = sizeof in->h + in->h.loose, size = n + in->bytes;
    if (most < n) return 0;
    memcpy(data, &in->h, sizeof in->h);
    memcpy(data + sizeof in->h, in->loose, in->h.loose);
    memcpy(data + n, in->word, least(in->bytes, most - n));
    return least(size, most);
}

/* Whether the sections stand one after the other: only then can they be told apart. */
static int framed(const uint32_t *w, size_t len) {
    if (len < HEADER || w[0] != HEADER || w[SECTIONS] != len) return 0;
    for (int k = 0; k < SECTIONS; k++) if (w[k] > w[k + 1]) return 0;
    return 1;
}

/* The words of a row in each section; 0 where it is no list. The starts of a list stand right before it. */
static const uint8_t wide[SECTIONS] = { [CHILDREN] = 1, [CALLS] = CALL_WORDS, [TRANSFERS] = TRANSFER_WORDS, [WALKS] = WALK_WORDS,
    [ROUTE_STOPS] = 1, [ROUTE_TRIPS] = 1, [TIMES] = TIME_WORDS, [AREA_STOPS] = 1 };

/* The tables in a block of their own. A section that grows goes on with its last word, and the rows of a list go to its last entry; but the
   stop list and the trips count on, new stops have no station and are not served, and a new trip's standing is a row, whose place counts on.
   So a small input can stand for large tables. */
static uint32_t *tables_of(const input *in, size_t *len) {
    const uint32_t *w = in->word;
    uint32_t parts = (uint32_t)__builtin_popcount(in->h.grown & ((1u << SECTIONS) - 1)) + (in->h.grown >> STANDING & 1) * (STANDING_WORDS - 1);
    size_t n = in->bytes / 4, growing = (size_t)parts * in->h.more;
    if (!framed(w, n) || growing > MOST_GROWN) growing = 0;
    uint32_t *out = block(4 * (*len = n + growing), 0), at = HEADER;
    if (growing == 0) { memcpy(out, w, 4 * n); return out; }
    for (uint32_t k = 0; k < SECTIONS; k++) {
        uint32_t size = size_of(w, (int)k), last = k == STATIONS ? ABSENT : k == SERVED || size == 0 ? 0 : w[w[k + 1] - 1];
        out[k] = at;
        memcpy(out + at, w + w[k], 4 * (size_t)size), at += size;
        if (!(in->h.grown >> k & 1)) continue;
        for (uint32_t i = 0; k == STANDING && i < in->h.more; i++, at += STANDING_WORDS)
            out[at] = size_of(w, ROUTE_TRIP_STARTS) - 2, out[at + STANDING_PLACE] = size / STANDING_WORDS + i;      /* in the last route */
        for (uint32_t i = 0; k != STANDING && i < in->h.more; i++, at++)
            out[at] = k == STOP_LIST || k == ROUTE_TRIPS ? size + i : wide[k] && size ? out[at - wide[k]] : last;
        if (wide[k]) out[out[k] - 1] += in->h.more / wide[k];
    }
    out[SECTIONS] = at;
    return out;
}

/* ---- what is compared */

static unsigned long given[14], yes, no;
void print_given(FILE *out) {
    fprintf(out, "given");
    for (int i = 0; i < 14; i++) fprintf(out, " %d: %lu", i, given[i]);
    fprintf(out, "; judged yes: %lu, no: %lu", yes, no);
}

static uint32_t check_leg(const head *h, const uint8_t *bytes, size_t n, size_t at) {
    uint32_t row[PARENT_WORDS], *leg = block(4 * (size_t)h->leg, h->junk), *wanted = block(4 * (size_t)h->leg, h->junk);
    uint32_t size = get_leg(bytes, n, at, row), number = h->leg < PARENT_WORDS ? 6 : size, ours = kiosk_leg(bytes, n, at, leg, h->leg);
    uint8_t again[MOST_LEG];
    if (number > 13) memcpy(wanted, row, sizeof row);
    if (ours != number) fail("a leg's size", ours, number);
    if (memcmp(leg, wanted, 4 * (size_t)h->leg) != 0) fail("a leg", ours, number);
    if (ours > 13) put_leg(again, leg);
    if (ours > 13 && memcmp(again, bytes + at, ours) != 0) fail("a leg written again", ours, number);
    free(leg), free(wanted);
    return size;
}
/* Reads the bytes as a whole, leg by leg, and at the place that the head names. Gives the number. */
static uint32_t check_reading(const head *h, const void *bytes, size_t n) {
    uint8_t *copy = block(n, 0);
    uint64_t *told = block(8 * (size_t)h->told, h->junk), *wanted = block(8 * (size_t)h->told, h->junk);
    size_t at = 0, legs = 0;
    memcpy(copy, bytes, n);
    for (uint32_t size; (size = check_leg(h, copy, n, at)) > 13; at += size) legs++;
    uint32_t number = h->told < 1 ? 6 : at < n ? 13 : 0, ours = kiosk_read(copy, n, told, h->told);
    if (h->told > 0) wanted[0] = at < n ? at : legs;
    if (ours != number) fail("the number of journey bytes", ours, number);
    if (memcmp(told, wanted, 8 * (size_t)h->told) != 0) fail("the legs of journey bytes", ours, number);
    check_leg(h, copy, n, (size_t)(int32_t)h->at);
    if (memcmp(copy, bytes, n) != 0) fail("journey bytes are written", ours, number);
    free(copy), free(told), free(wanted);
    return number;
}

/* Fills the stack that the next call will use, so that what it might read there before writing is not of the last call. The sanitizer would
   leave a gap above the array. */
static __attribute__((noinline, no_sanitize("address"))) void spoil_stack(int junk) {
    uint8_t stack[1 << 14];
    memset(stack, junk, sizeof stack);
    __asm__ volatile("" :: "r"(stack) : "memory");      /* or else it would be left out */
}

/* Judges the bytes with the query, by one of the two functions: the number and all that is told are plain C's, and nothing else is written. Gives
   whether it is a yes. */
static int check_judge(judge *f, judge *plain, const uint32_t *tables, const uint32_t *copy, size_t len, const head *h, const void *bytes, size_t n) {
    const query *q = &h->q;
    uint8_t *there = block(n, 0);
    uint64_t *told = block(8 * (size_t)h->told, h->junk), *wanted = block(8 * (size_t)h->told, h->junk);
    memcpy(there, bytes, n);
    uint32_t number = plain(copy, len, bytes, n, q->from_kind, q->from, q->to_kind, q->to, q->when, q->moment, q->walks, wanted, h->told);
    spoil_stack(h->junk);
    uint32_t ours = f(tables, len, there, n, q->from_kind, q->from, q->to_kind, q->to, q->when, q->moment, q->walks, told, h->told);
    int right = number == 0 && wanted[0] == 1;
    if (ours != number) fail("the number of a judged journey", ours, number);
    if (memcmp(told, wanted, 8 * (size_t)h->told) != 0) fail("what is told of a judged journey", ours, number);
    if (memcmp(there, bytes, n) != 0) fail("judged bytes are written", ours, number);
    yes += right, no += number == 0 && !right;
    free(there), free(told), free(wanted);
    return right;
}

/* Asks twice, the second time with a workspace as the first has left it: each time all that is lent must be as wanted. */
static void check_search(solver *f, const uint32_t *tables, size_t len, const head *h, const lent *wanted, uint32_t number) {
    lent ours = *wanted;
    for (int i = 0; i < SLICES; i++) ours.at[i] = block(bytes_of(&ours, i), h->junk);
    for (int again = 0; again < 2; again++) {
        if (again) for (int i = JOURNEY; i < SLICES; i++) memset(ours.at[i], h->junk, bytes_of(&ours, i));
        spoil_stack(h->junk);
        uint32_t r = ask(f, tables, len, &ours, &h->q);
        if (r != number) fail(again ? "the number, asked again" : "the number", r, number);
        for (int i = 0; i < SLICES; i++) if (memcmp(ours.at[i], wanted->at[i], bytes_of(&ours, i)) != 0) fail(slice_name[i], r, number);
    }
    for (int i = 0; i < SLICES; i++) free(ours.at[i]);
}

int LLVMFuzzerTestOneInput(const uint8_t *data, size_t size) {
    static input in;
    split(data, size, &in);
    const head *h = &in.h;
    size_t len, again;
    uint32_t *tables = tables_of(&in, &len), *copy = tables_of(&in, &again), number = plain_check(copy, len);
    size_t right[3] = { 40, 2, 8 };     /* of refused tables any */
    spoil_stack(h->junk);
    uint32_t ours = kiosk_check(tables, len);
    if (ours != number) fail("the number of the tables", ours, number);

    uint32_t *room = block(4 * (size_t)h->room, h->junk), *space = block(4 * (size_t)h->room, h->junk);
    uint32_t roomy = number ? number : h->room < 3 ? 6 : 0;
    if (number == 0) right_lengths(copy, right);
    if (roomy == 0) for (int i = 0; i < JOURNEY; i++) space[i] = (uint32_t)right[i];
    if ((ours = kiosk_room(tables, len, room, h->room)) != roomy) fail("the number of the room", ours, roomy);
    if (memcmp(room, space, 4 * (size_t)h->room) != 0) fail("the room", ours, roomy);

    lent wanted = { .len = { [JOURNEY] = h->journey, [ANSWER] = h->answer } };
    int accepted = number == 0, fits = h->answer >= 5;
    for (int i = 0; i < JOURNEY; i++) {
        int64_t off = h->off[i] == EMPTY ? 0 : (int64_t)right[i] + h->off[i];
        wanted.len[i] = off < 0 ? 0 : (size_t)off;
        fits &= wanted.len[i] == right[i];
    }
    for (int i = 0; i < SLICES; i++) wanted.at[i] = block(bytes_of(&wanted, i), h->junk);
    uint32_t *answer = answer_of(&wanted);
    if (accepted) number = fits ? refusal(copy, &h->q) : 6;
    if (number == 0) number = ask(plain_solve, copy, len, &wanted, &h->q);
    else if (h->answer >= 5) memset(answer, 0, 20), answer[0] = number;
    check_search(kiosk_solve, tables, len, h, &wanted, number);
    if (accepted) check_search(kiosk_solve_checked, tables, len, h, &wanted, number);
    if (number == 0) {
        if (check_reading(h, wanted.at[JOURNEY], answer[4]) == 13) fail("a journey is not read back", 13, 0);
        int ok = check_judge(kiosk_judge_checked, plain_judge_checked, tables, copy, len, h, wanted.at[JOURNEY], answer[4]);
        if (!ok && h->told > 0 && (h->q.when == 0 || both_ways(copy, h->q.walks != 2))) fail("a journey is no yes", 0, 0);
    }
    check_judge(kiosk_judge, plain_judge, tables, copy, len, h, in.loose, h->loose);
    if (accepted) check_judge(kiosk_judge_checked, plain_judge_checked, tables, copy, len, h, in.loose, h->loose);
    if (memcmp(tables, copy, 4 * len) != 0) fail("the tables are written", number, number);
    given[number]++, given[13] += check_reading(h, in.loose, h->loose) == 13;

    for (int i = 0; i < SLICES; i++) free(wanted.at[i]);
    free(tables), free(copy), free(room), free(space);
    end_run();
    if (runs % (1 << 20) == 0) print_runs(stderr);
    return 0;
}

/* ---- how an input is changed */

/* The loose bytes are a journey of the query or along the tables, or the journey that they are is changed, with the query. */
static void change_loose(input *in) {
    static journey j;
    static uint32_t words[94 * 512], places[2 * 512], answer[5];
    static uint64_t marks[64];
    static uint8_t bytes[MOST_LOOSE];
    const uint32_t *w = in->word;
    size_t len = in->bytes / 4, n = 0;
    lent l = { .at = { words, marks, places, bytes, answer }, .len = { [JOURNEY] = sizeof bytes, [ANSWER] = 5 } };
    uint32_t how = below_n(10);
    if (plain_check(w, len) != 0 || stops_in(w) == 0) return;
    right_lengths(w, l.len);
    j.q = in->h.q;
    if (how < 3) {
        if (refusal(w, &in->h.q) || l.len[WORDS] > sizeof words / 4 || l.len[MARKS] > 64 || l.len[PLACES] > sizeof places / 4) return;
        if (ask(plain_solve, w, len, &l, &in->h.q) == 0) n = answer[4];
    } else {
        uint32_t rides = range(1, 17), mode = in->h.q.mode;
        if (how < 5) { if (!wander(w, rides, &j)) return; }
        else if (!take_legs(&j, in->loose, in->h.loose)) return;
        else change_journey(w, &j);
        n = put_legs(&j, bytes), in->h.q = j.q, in->h.q.mode = mode;
    }
    memcpy(in->loose, bytes, in->h.loose = (uint16_t)n);
}

/* A new network and a query in it, and some legs. One in 16 is a city with marks of more than one word, or with routes about the limit; one
   in 64 has no stop. */
static void draw_input(input *in, uint64_t seed) {
    static network n;
    static flat f;
    grid middle = { 9, 8, 66, 3, 2, 3, 2 }, limit = { 4, 4, 1023 + (uint32_t)(seed >> 7) % 3, 1, 1, 3, 2 };
    if (seed % 16 == 0) make_city(&n, seed % 128 == 32 ? limit : middle, seed); else make_nasty(&n, seed, 0, 1);
    if (seed % 64 == 1) empty_network(&n), n.areas = 1;
    flatten(&n, &f);
    uint32_t when = below_n(2), mode = below_n(2), junk = PICK(0, 0xA5, 0xFF);
    in->h = (head){ .journey = 1024, .answer = 5, .room = 3, .told = 1, .leg = 6, .junk = (uint8_t)junk };
    if (n.stops == 0) in->h.q = (query){ .from_kind = 1, .to_kind = 1, .when = when, .moment = 1 };
    else in->h.q = seed % 16 == 0 ? city_query(&n, when, mode) : nasty_query(&n, &f);
    if (in->h.q.mode == 0) in->h.q.mode = mode;
    in->bytes = 4 * least(f.len, MOST_WORDS);
    memcpy(in->word, f.word, in->bytes);
    for (uint32_t legs = below_n(4); legs > 0; legs--) {
        uint32_t row[PARENT_WORDS] = { range(RIDE, WALK) };
        for (int i = 1; i < PARENT_WORDS; i++) row[i] = odd_word(100);
        put_leg(in->loose + in->h.loose, row), in->h.loose += (uint16_t)leg_size(row);
    }
    if (seed % 2 == 0) for (int k = 0; k < 3; k++) change_loose(in);
}

/* A word of the query, most often one that means something in these tables. */
static void change_query(input *in) {
    static const uint32_t most[8] = { 1, 0, 1, 0, 1, 0, 2, 1 };
    const uint32_t *w = in->word;
    uint32_t *word = &in->h.q.from_kind, i = below_n(8), stops = 4, areas = 1, times = 0;
    if (framed(w, in->bytes / 4)) stops = stops_in(w), areas = size_of(w, AREA_STARTS), times = size_of(w, TIMES);
    if (percent(8)) word[i] = odd_word(stops);
    else if (i == 1 || i == 3) word[i] = below_n((word[i - 1] ? areas : stops) + 1);
    else if (i == 5) word[i] = times ? section_of(w, TIMES)[below_n(times)] + PICK(0, 1, ABSENT) : range(1, 60);
    else word[i] = range(0, most[i]);
}

/* A length, or the place at which a leg is asked for; or all lengths of a search are right again. */
static void change_lengths(input *in) {
    head *h = &in->h;
    if (percent(30)) memset(h->off, 0, 3), h->answer = 5;
    else if (percent(40)) h->off[below_n(3)] = (int8_t)PICK(0, 1, 255, 2, 64, 128);
    else if (percent(40)) h->journey = (uint16_t)range(0, 200);
    else if (percent(40)) h->at = percent(70) ? range(0, h->loose) : odd_word(h->loose);
    else {
        uint8_t *length[] = { &h->answer, &h->room, &h->told, &h->leg }, *one = length[below_n(4)];
        *one = (uint8_t)range(0, 7);
    }
}

/* Words of the tables: one more or less, one of the same section, or an odd one. Starts are seldom changed: a fault there hides others. */
static void change_words(input *in) {
    uint32_t *w = in->word, len = (uint32_t)(in->bytes / 4);
    for (uint32_t i = range(1, 3); i > 0 && len > 0; i--) {
        uint32_t low = 0, high = len, k = percent(25) ? below_n(SECTIONS) : PICK(
            STOP_LIST, STATIONS, CHILDREN, CALLS, SERVED, TRANSFERS, TRANSFERS, WALKS, WALKS, ROUTE_STOPS, ROUTE_TRIPS, TIMES, TIMES, TIMES, AREA_STOPS,
            STANDING);
        if (framed(w, len) && w[k] < w[k + 1] && percent(95)) low = w[k], high = w[k + 1];
        uint32_t at = range(low, high - 1), about = low > 0 && percent(60) ? stops_in(w) : high - low;      /* the stops, or this section */
        w[at] = percent(40) ? w[at] + PICK(1, ABSENT) : percent(50) ? w[range(low, high - 1)] : odd_word(about);
    }
}

/* A row more or less in a list, its starts and the header set right: most such tables are accepted, or refused late. */
static void change_row(input *in) {
    uint32_t *w = in->word, len = (uint32_t)(in->bytes / 4), new[TRANSFER_WORDS] = { 0 };
    uint32_t k = PICK(CHILDREN, CALLS, TRANSFERS, WALKS, ROUTE_STOPS, ROUTE_TRIPS, TIMES, AREA_STOPS), n = wide[k];
    if (!framed(w, len) || w[k] - w[k - 1] < 2 || len + n > MOST_WORDS) return;
    uint32_t *start = w + w[k - 1], entries = w[k] - w[k - 1] - 1, rows = (w[k + 1] - w[k]) / n;
    uint32_t entry = below_n(entries), row = start[entry];
    if (row > rows) return;
    uint32_t at = w[k] + n * row, fewer = row < rows && percent(40), by = fewer ? 0 - n : n;
    if (fewer) memmove(w + at, w + at + n, 4 * (size_t)(len - at - n));
    else {
        if (rows > 0) memcpy(new, w + w[k] + n * below_n(rows), 4 * n);
        if (k == TRANSFERS) new[0] = entry;     /* a transfer names the stop under which it stands */
        memmove(w + at + n, w + at, 4 * (size_t)(len - at));
        memcpy(w + at, new, 4 * n);
    }
    for (uint32_t e = entry + 1; e <= entries; e++) start[e] += fewer ? ABSENT : 1;
    for (uint32_t s = k + 1; s <= SECTIONS; s++) w[s] += by;
    in->bytes = 4 * (size_t)(len + by);
}

/* Sections that grow together: by a few rows, or up to the limit of words, or one row past it. */
static void change_growth(input *in) {
#define BIT(section) (1u << (section))
    static const struct { uint32_t grown, section, most; } some[] = {
        { BIT(STOP_LIST) | BIT(STATIONS) | BIT(CHILD_STARTS) | BIT(CALL_STARTS) | BIT(SERVED) | BIT(TRANSFER_STARTS) | BIT(WALK_STARTS),
          STOP_LIST, MOST_STOPS },
        { BIT(ROUTE_TRIPS) | BIT(TIME_STARTS) | BIT(STANDING), ROUTE_TRIPS, MOST_TRIPS }, { BIT(TIMES), TIMES, TIME_WORDS * MOST_STOP_TIMES },
        { BIT(TRANSFERS), TRANSFERS, TRANSFER_WORDS * MOST_TRANSFERS }, { BIT(WALKS), WALKS, WALK_WORDS * MOST_WALKS },
        { BIT(ROUTE_STOPS), ROUTE_STOPS, MOST_POSITIONS }, { BIT(AREA_STARTS), AREA_STARTS, MOST_AREAS + 1 },
        { BIT(AREA_STOPS), AREA_STOPS, MOST_AREA_ENTRIES } };
#undef BIT
    uint32_t i = below_n(sizeof some / sizeof some[0]), k = some[i].section, n = wide[k] ? wide[k] : 1, over = n * below_n(2);
    if (!framed(in->word, in->bytes / 4)) return;
    in->h.grown = some[i].grown;
    in->h.more = percent(85) ? n * range(1, 130) : some[i].most - (in->word[k + 1] - in->word[k]) + over;
}

size_t LLVMFuzzerCustomMutator(uint8_t *data, size_t size, size_t most, unsigned seed) {
    static input in;
    split(data, size, &in);
    seed_dice(seed, 1);
    uint32_t what = below_n(100);
    uint16_t loose = in.h.loose;
    if (percent(50)) in.h.grown = in.h.more = 0;        /* large tables take long: not all that comes of such an input shall have them */
    if (what < 8) draw_input(&in, roll());
    else if (what < 30) change_query(&in);
    else if (what < 42) change_lengths(&in);
    else if (what < 62) change_words(&in);
    else if (what < 77) change_row(&in);
    else if (what < 80) change_growth(&in);
    else if (what < 85) LLVMFuzzerMutate((uint8_t *)&in.h, sizeof in.h, sizeof in.h), in.h.loose = loose;
    else if (what < 89) in.h.loose = (uint16_t)LLVMFuzzerMutate(in.loose, loose, MOST_LOOSE);
    else if (what < 95) change_loose(&in);
    else if (what < 96) in.bytes = range(0, (uint32_t)in.bytes);
    else in.bytes = LLVMFuzzerMutate((uint8_t *)in.word, in.bytes, sizeof in.word);
    return join(&in, data, most);
}

/* ---- before the first run */

size_t first_input(unsigned seed, uint8_t *data, size_t most) {
    static input in;
    draw_input(&in, seed);
    return join(&in, data, most);
}

/* A length that is one word too long, or one byte. */
void lie(const char *what) {
    static input in;
    draw_input(&in, 0);                 /* a city, whose last word is a trip's place */
    uint32_t *tables = block(in.bytes, 0), *cut = block(in.bytes - 4, 0), *room = block(8, 0);
    uint8_t *leg = block(16, TRANSFER);
    uint64_t told;
    memcpy(tables, in.word, in.bytes), memcpy(cut, in.word, in.bytes - 4);
    if (strcmp(what, "tables") == 0) kiosk_check(cut, in.bytes / 4);
    if (strcmp(what, "room") == 0) kiosk_room(tables, in.bytes / 4, room, 3);
    if (strcmp(what, "journey") == 0) kiosk_judge_checked(tables, in.bytes / 4, leg, 17, 0, 0, 0, 0, 0, 1, 0, &told, 1);
    free(tables), free(cut), free(room), free(leg);
}

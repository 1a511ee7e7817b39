/* One input through the proved reader and writers and through plain C's. */
#include <stdlib.h>
#include <string.h>
#include "gtfs_try.h"
#include "../crates/gtfs_c/include/kiosk_gtfs.h"

unsigned long read_given[NUMBERS], write_given[NUMBERS], read_back;

void print_given(FILE *out) {
    fprintf(out, "read");
    for (int i = 0; i < NUMBERS; i++) if (read_given[i]) fprintf(out, " %d: %lu", i, read_given[i]);
    fprintf(out, "; written");
    for (int i = 0; i < NUMBERS; i++) if (write_given[i]) fprintf(out, " %d: %lu", i, write_given[i]);
    fprintf(out, "; read back: %lu", read_back);
}

static void *filled(size_t bytes, int junk) { return memset(malloc(bytes + 1), junk, bytes); }
static size_t width(int slice) { return slice == FILE_ONE || slice == FILE_TWO || slice == OUT ? 1 : 4; }
static const char *const slice_name[SLICES] = { "the first file is written", "the second file is written", "the rows are written", "times",
                                                "paths", "the stops' book", "the trips' book", "what is told", "the bytes written" };

/* What is lent to a call, and to plain C's. */
typedef struct { size_t len[SLICES]; void *ours[SLICES], *plain[SLICES]; } both;
static void lend_both(both *b, int slice, size_t len, int junk) {
    size_t bytes = width(slice) * len;
    b->len[slice] = len;
    b->ours[slice] = memset(lend(slice, bytes), junk, bytes), b->plain[slice] = filled(bytes, junk);
}
static void lend_copy(both *b, int slice, size_t len, const void *from) {
    lend_both(b, slice, len, 0);
    if (len > 0) memcpy(b->ours[slice], from, width(slice) * len), memcpy(b->plain[slice], from, width(slice) * len);
}
static void back(both *b, int first, int last) { for (int i = first; i <= last; i++) take_back(b->ours[i]), free(b->plain[i]); }

static int same(const both *b, int slice) { return memcmp(b->ours[slice], b->plain[slice], width(slice) * b->len[slice]) == 0; }

/* A book: its heads are the lookup's own, and as long as there is no name they may be cleared or not. */
static int same_book(const both *b, int slice) {
    const uint32_t *ours = b->ours[slice], *plain = b->plain[slice], *told = b->plain[TOLD];
    size_t cap = kiosk_gtfs_cap(b->len[slice], slice == STOPS ? KIOSK_GTFS_MOST_STOPS : KIOSK_GTFS_MOST_TRIPS);
    uint32_t names = b->len[TOLD] < TOLD_READ ? 0 : told[slice == STOPS ? TOLD_STOPS : TOLD_TRIPS];
    if (same(b, slice)) return 1;
    if (names > 0 || memcmp(ours + cap, plain + cap, 4 * (b->len[slice] - cap)) != 0) return 0;
    for (size_t i = 0; i < cap; i++) if (ours[i] != plain[b->len[slice] - 1]) return 0;     /* as it was lent */
    return 1;
}

static uint32_t call_reader(gtfs_reader *f, void *const *at, const size_t *len) {
    return f(at[FILE_ONE], len[FILE_ONE], at[FILE_TWO], len[FILE_TWO], at[TIMES], len[TIMES], at[PATHS], len[PATHS], at[STOPS], len[STOPS],
             at[TRIPS], len[TRIPS], at[TOLD], len[TOLD]);
}

/* Both read what is lent. */
static uint32_t read_both(both *b) {
    uint32_t number = call_reader(plain_gtfs_read, b->plain, b->len), ours = call_reader(kiosk_gtfs_read, b->ours, b->len);
    if (ours != number) differ("the reader's number", ours, number);
    for (int i = FILE_ONE; i <= TOLD; i++)
        if (i != ROWS && !(i == STOPS || i == TRIPS ? same_book(b, i) : same(b, i))) differ(slice_name[i], ours, number);
    return number;
}

/* Rows that are written: as times or, behind so many stops, as transfers. */
typedef struct { const uint32_t *words; size_t len; int transfers; uint32_t stops; } rows;

static uint32_t call_writer(int ours, const rows *r, const uint32_t *words, uint8_t *out, size_t out_len, uint32_t *told, size_t told_len) {
    gtfs_times_writer *times = ours ? kiosk_gtfs_write_times : plain_gtfs_write_times;
    gtfs_transfers_writer *transfers = ours ? kiosk_gtfs_write_transfers : plain_gtfs_write_transfers;
    if (r->transfers) return transfers(words, r->len, r->stops, out, out_len, told, told_len);
    return times(words, r->len, out, out_len, told, told_len);
}

/* Both write them. Gives the number; where it is 0 and `text` is wanted, also what ours wrote, in memory of its own. */
static uint32_t write_both(const rows *r, size_t out_len, size_t told_len, int junk, uint8_t **text) {
    both b;
    lend_copy(&b, ROWS, r->len, r->words), lend_both(&b, TOLD, told_len, junk), lend_both(&b, OUT, out_len, junk);
    uint32_t number = call_writer(0, r, b.plain[ROWS], b.plain[OUT], out_len, b.plain[TOLD], told_len);
    uint32_t ours = call_writer(1, r, b.ours[ROWS], b.ours[OUT], out_len, b.ours[TOLD], told_len);
    if (ours != number) differ(r->transfers ? "the number of the transfers' writer" : "the number of the times' writer", ours, number);
    if (!same(&b, ROWS)) differ(slice_name[ROWS], ours, number);
    if (!same(&b, TOLD)) differ(slice_name[TOLD], ours, number);
    if (!same(&b, OUT)) differ(slice_name[OUT], ours, number);
    write_given[number]++;
    if (number == 0 && text) *text = memcpy(filled(out_len, 0), b.ours[OUT], out_len);
    back(&b, ROWS, ROWS), back(&b, TOLD, OUT);
    return number;
}

/* The text that rows are written as, `size` bytes in memory of its own; NULL where they are refused. The buffer is `off` longer than it
   need be; where that is below 0 one that is too short is tried, and then the right one. */
static uint8_t *text_of(const rows *r, int off, int junk, size_t *size) {
    uint32_t told[TOLD_WRITTEN];
    size_t most = r->transfers ? kiosk_gtfs_transfers_room(r->len / 4) : kiosk_gtfs_times_room(r->len / 4);
    uint8_t *text = malloc(most);
    uint32_t number = call_writer(0, r, r->words, text, most, told, TOLD_WRITTEN);
    free(text), text = NULL;
    if (number == KIOSK_GTFS_FULL) differ("a line is longer than the longest", 0, number);
    if (number != 0) return NULL;
    *size = told[TOLD_LENGTH];
    if (off < 0 && write_both(r, *size - 1, TOLD_WRITTEN, junk, NULL) != KIOSK_GTFS_FULL) differ("a short buffer", 0, number);
    write_both(r, *size + (size_t)(off > 0 ? off : 0), TOLD_WRITTEN, junk, &text);
    return text;
}

/* Rows of times and of transfers are written, and read with room for so many words: the same rows again. */
static void round_trip(const rows *times, const rows *paths, const uint32_t *told, const size_t *len, int off, int junk) {
    both b;
    size_t one_len = 0, two_len = 0;
    uint8_t *one = text_of(times, off, junk, &one_len), *two = text_of(paths, off, junk, &two_len);
    if (!one || !two) { differ("rows that are orderly are not written", 0, 0); free(one), free(two); return; }
    lend_copy(&b, FILE_ONE, one_len, one), lend_copy(&b, FILE_TWO, two_len, two);
    for (int i = TIMES; i <= TRIPS; i++) lend_both(&b, i, len[i], junk);
    lend_both(&b, TOLD, TOLD_READ, junk);
    uint32_t number = read_both(&b);
    const uint32_t *again = b.ours[TOLD];
    if (number != 0) differ("read back: the number", number, 0);
    if (memcmp(again + TOLD_STOPS, told + TOLD_STOPS, 4 * (TOLD_READ - TOLD_STOPS)) != 0) differ("read back: the counts", number, 0);
    if (times->len > 0 && memcmp(b.ours[TIMES], times->words, 4 * times->len) != 0) differ("read back: times", 0, 0);
    if (paths->len > 0 && memcmp(b.ours[PATHS], paths->words, 4 * paths->len) != 0) differ("read back: transfers", 0, 0);
    read_back++;
    back(&b, FILE_ONE, FILE_TWO), back(&b, TIMES, TOLD);
    free(one), free(two);
}

uint32_t try_reading(const gtfs_input *in, int off) {
    both b;
    lend_copy(&b, FILE_ONE, in->len[FILE_ONE], in->file[0]), lend_copy(&b, FILE_TWO, in->len[FILE_TWO], in->file[1]);
    for (int i = TIMES; i <= TOLD; i++) lend_both(&b, i, in->len[i], in->junk);
    uint32_t number = read_both(&b);
    read_given[number]++;
    for (int i = FILE_ONE; i <= TOLD; i++) if (i != ROWS) take_back(b.ours[i]);
    if (in->len[TOLD] >= TOLD_READ) {           /* the rows of the lines before a refusal are orderly too */
        const uint32_t *told = b.plain[TOLD];
        rows times = { b.plain[TIMES], 4 * (size_t)told[TOLD_TIMES], 0, 0 };
        rows paths = { b.plain[PATHS], 4 * (size_t)told[TOLD_TRANSFERS], 1, told[TOLD_SPLIT] };
        round_trip(&times, &paths, told, in->len, off, in->junk);
    }
    for (int i = FILE_ONE; i <= TOLD; i++) if (i != ROWS) free(b.plain[i]);
    return number;
}

void try_writing(const uint32_t *words, size_t len, uint32_t stops, size_t out_len, size_t told_len, uint8_t junk) {
    rows times = { words, len, 0, 0 }, paths = { words, len, 1, stops }, none = { NULL, 0, 1, 0 };
    write_both(&times, out_len, told_len, junk, NULL), write_both(&paths, out_len, told_len, junk, NULL);
    size_t size;
    uint8_t *text = len % 4 == 0 && len / 4 <= KIOSK_GTFS_MOST_TIMES ? text_of(&times, 0, junk, &size) : NULL;
    if (!text) return;
    free(text);
    uint32_t told[TOLD_READ] = { [TOLD_TIMES] = (uint32_t)(len / 4) };
    for (size_t i = 0; i < len; i += 4) {
        if (words[i] >= told[TOLD_TRIPS]) told[TOLD_TRIPS] = words[i] + 1;
        if (words[i + 1] >= told[TOLD_STOPS]) told[TOLD_STOPS] = words[i + 1] + 1;
    }
    none.stops = told[TOLD_SPLIT] = told[TOLD_STOPS];
    size_t room[SLICES] = { [TIMES] = len, [STOPS] = 4 * (size_t)told[TOLD_STOPS], [TRIPS] = 4 * (size_t)told[TOLD_TRIPS] };
    round_trip(&times, &none, told, room, 0, junk);
}

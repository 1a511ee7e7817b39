/* The C face of the feed reader under libFuzzer and the address sanitizer: inputs are led by which edges of the proved code they reach.

   Each slice is a block of exactly its bytes, so that a read or write past it stops the run. Compared with plain C, to the last word and
   byte: the numbers and all that is lent; what is written is read back. gtfs.sh builds and runs it. SEEDS=FOLDER writes the first inputs
   there; LIE=file and LIE=rows must stop the run. */
#include <stdlib.h>
#include <string.h>
#include "dice.h"
#include "feeds.h"
#include "fuzzing.h"
#include "gtfs_try.h"
#include "../crates/gtfs_c/include/kiosk_gtfs.h"

/* ---- an input: a head, then the words for the writers, then both files */

enum { MOST_WORDS = 256 };
typedef struct {
    uint16_t one, two, words;           /* bytes of the files, words for the writers */
    uint16_t room[4], out;              /* words of times, paths, stops and trips, and bytes, that are lent */
    uint32_t stops;                     /* of which the transfers' writer is told */
    int8_t off;                         /* how much longer the buffer is than it need be */
    uint8_t told, written, junk;        /* words that are told of a reading and of a writing; what every slice is filled with before */
} head;
typedef struct { head h; uint32_t word[MOST_WORDS]; text one, two; } input;

/* What is missing in a short input is 0. */
static void split(const uint8_t *data, size_t size, input *in) {
    size_t n = least(size, sizeof in->h);
    memset(&in->h, 0, sizeof in->h);
    memcpy(&in->h, data, n), data += n, size -= n;
    in->h.words = (uint16_t)least(least(in->h.words, MOST_WORDS), size / 4);
    memcpy(in->word, data, n = 4 * (size_t)in->h.words), data += n, size -= n;
    in->one.len = least(least(in->h.one, MOST_TEXT), size);
    memcpy(in->one.byte, data, in->one.len), data += in->one.len, size -= in->one.len;
    in->two.len = least(size, MOST_TEXT);
    memcpy(in->two.byte, data, in->two.len);
}
static size_t join(input *in, uint8_t *data, size_t most) {
    size_t size = sizeof in->h + 4 * (size_t)in->h.words + in->one.len + in->two.len;
    if (most < size) return 0;
    in->h.one = (uint16_t)in->one.len, in->h.two = (uint16_t)in->two.len;
    memcpy(data, &in->h, sizeof in->h), data += sizeof in->h;
    memcpy(data, in->word, 4 * (size_t)in->h.words), data += 4 * (size_t)in->h.words;
    memcpy(data, in->one.byte, in->one.len);
    memcpy(data + in->one.len, in->two.byte, in->two.len);
    return size;
}

/* ---- what is compared */

void *lend(int slice, size_t bytes) { (void)slice; return block(bytes, 0); }
void take_back(void *p) { free(p); }
void differ(const char *what, uint32_t ours, uint32_t plain) { fail(what, ours, plain); }

int LLVMFuzzerTestOneInput(const uint8_t *data, size_t size) {
    static input in;
    split(data, size, &in);
    gtfs_input g = { .file = { in.one.byte, in.two.byte }, .junk = in.h.junk };
    g.len[FILE_ONE] = in.one.len, g.len[FILE_TWO] = in.two.len, g.len[TOLD] = in.h.told;
    for (int i = TIMES; i <= TRIPS; i++) g.len[i] = in.h.room[i - TIMES] % (1 << 14);
    try_reading(&g, in.h.off);
    try_writing(in.word, in.h.words, in.h.stops, in.h.out, in.h.written, in.h.junk);
    end_run();
    return 0;
}

/* ---- how an input is changed */

/* A new feed with room for it, and rows that are good. */
static void draw_input(input *in) {
    make_feed(&in->one, &in->two);
    uint32_t rows = range(0, 6), stops = below_n(3), transfers = below_n(2);
    in->h = (head){ .words = (uint16_t)(4 * rows), .room = { 96, 96, 96, 96 }, .out = 512, .stops = stops, .told = 8, .written = 2 };
    in->h.junk = (uint8_t)PICK(0, 0xA5, 0xFF);
    make_rows(in->word, rows, (int)transfers, stops);
}

/* A room, a length, or all of them as they were. */
static void change_lengths(head *h) {
    if (percent(30)) { for (int i = 0; i < 4; i++) h->room[i] = 96; h->told = 8, h->written = 2, h->out = 512; }
    else if (percent(50)) h->room[below_n(4)] = (uint16_t)range(0, 40);
    else if (percent(30)) h->off = (int8_t)((int)range(0, 9) - 3);
    else if (percent(40)) h->out = (uint16_t)range(0, 300);
    else if (percent(40)) h->stops = odd_word(4096);
    else if (percent(50)) h->told = (uint8_t)range(0, 10);
    else h->written = (uint8_t)range(0, 4);
}
static void change_words(input *in) {
    uint32_t n = in->h.words;
    if (n > 0 && percent(80)) {
        uint32_t *w = in->word + below_n(n);
        *w = percent(40) ? *w + PICK(1, 4294967295u) : percent(60) ? PICK(86399, 86400, 446399, 446400, 4095, 4096, 16384) : odd_word(n);
    } else in->h.words = (uint16_t)range(0, n + 4 < MOST_WORDS ? n + 4 : MOST_WORDS);
}

size_t LLVMFuzzerCustomMutator(uint8_t *data, size_t size, size_t most, unsigned seed) {
    static input in;
    split(data, size, &in);
    seed_dice(seed, 3);
    text *t = percent(60) ? &in.one : &in.two;
    uint32_t what = below_n(100);
    if (what < 20) draw_input(&in);
    else if (what < 56) damage_text(t);
    else if (what < 66) t->len = LLVMFuzzerMutate(t->byte, t->len, MOST_TEXT);
    else if (what < 85) change_lengths(&in.h);
    else change_words(&in);
    return join(&in, data, most);
}

/* ---- before the first run */

size_t first_input(unsigned seed, uint8_t *data, size_t most) {
    static input in;
    seed_dice(seed, 3);
    draw_input(&in);
    return join(&in, data, most);
}

/* A length that is one byte, or one word, too long. */
void lie(const char *what) {
    static const char header[] = "trip_id,arrival_time,departure_time,stop_id,stop_sequence\n";
    static const uint32_t row[4] = { 0, 0, 86400, 86400 };
    uint8_t *file = block(sizeof header - 1, 0), *out = block(200, 0);
    uint32_t *rows = block(12, 0), table[4][8], told[TOLD_READ];
    memcpy(file, header, sizeof header - 1), memcpy(rows, row, 12);
    if (strcmp(what, "file") == 0)
        kiosk_gtfs_read(file, sizeof header, out, 0, table[0], 8, table[1], 8, table[2], 8, table[3], 8, told, TOLD_READ);
    if (strcmp(what, "rows") == 0) kiosk_gtfs_write_times(rows, 4, out, 200, told, TOLD_WRITTEN);
    free(file), free(rows), free(out);
}

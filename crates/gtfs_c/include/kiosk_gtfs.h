/* The C face of the feed reader: it reads GTFS's stop_times.txt and transfers.txt into rows of numbers, and writes such rows back. For C99
   and C++11 and later.

   The three functions under "The functions" are what is proved. Those under "The same with structs" are plain C over them: tested, not
   proved.

   What a caller owes. The proof is of calls that keep this; of others it says nothing.
   - A slice is a pointer and a length in elements. The pointer is valid for all of the length, to read and, where it is not const, to
     write, and aligned for its elements. It may be NULL where the length is 0, and only there.
   - The slices of a call do not overlap; but the two files may.
   - While a call runs, nobody writes to what is lent to it, and nobody reads what it may write to.
   Nothing else is asked: any bytes may be read, any words written, with any room.

   What is kept. Nothing: there is no global state, no heap, no file, no lock. An id is not copied: a book says where it stands in its
   file, so the files stay for as long as ids are asked for. The functions may be called from several threads at once, each with tables of
   its own. The stack that a call takes is small, but nothing is proved of it: tests/face.sh measures it on a thread's painted stack and
   fails at 16 KiB. Nor is anything proved of the time that a call takes: a lookup takes longer the more ids fall into one slot, and a feed
   can be made in which all do (bench/gtfs.sh).

   What is read. A line ends with LF or CR LF; the last may do without. Line 1 has the columns' names, in any order, others among them;
   each of trip_id, arrival_time, departure_time, stop_id and stop_sequence stands there once, and so does each of from_stop_id, to_stop_id
   and transfer_type; min_transfer_time may be missing. Three bytes that mark UTF-8 may stand before it. Every other line has as many
   fields as line 1. A field may stand in quotes, and then may have commas, and quotes that are doubled. An id is any text but the empty
   one. A time is H:MM:SS or HH:MM:SS. The rows of a trip stand together, and their stop_sequence rises. A transfer_type is 0 to 5, or
   empty, which is 0; with 2 there is a min_transfer_time below KIOSK_GTFS_UNSTATED, with the others it is not looked at. A line that is
   not so is a bad line, an empty one among them.

   What is not asked: that times rise along a trip, that spans are short. kiosk_check asks it of the tables that a loader makes of the
   rows. */
#ifndef KIOSK_GTFS_H
#define KIOSK_GTFS_H

#include <stddef.h>
#include <stdint.h>

#ifdef __cplusplus
extern "C" {
#endif

#define KIOSK_GTFS_DAY 86400            /* what the reader adds to every moment, and the writer takes off */
#define KIOSK_GTFS_UNSTATED 4294967295u /* the span of a transfer whose type is not 2 */

/* The most that is taken of each, whatever room is lent. */
#define KIOSK_GTFS_MOST_STOPS 4096
#define KIOSK_GTFS_MOST_TRIPS 16384
#define KIOSK_GTFS_MOST_TIMES 262144
#define KIOSK_GTFS_MOST_TRANSFERS 16384

/* The numbers given back. */
enum kiosk_gtfs_number {
    KIOSK_GTFS_DONE = 0,                /* all was read, or written */
    KIOSK_GTFS_TOO_LONG = 1,            /* a file above 4,294,967,295 bytes; rows that are not whole, or too many to be written */
    KIOSK_GTFS_BAD_ORDER = 2,           /* written: a stop or a trip that is neither one before nor the next */
    KIOSK_GTFS_BAD_MOMENT = 3,          /* written: a moment that no clock shows, outside 86,400 to 446,399 */
    KIOSK_GTFS_BAD_TRANSFER = 5,        /* written: a type above 5, a type 2 without a span, or a span of another type */
    KIOSK_GTFS_TOO_FEW = 6,             /* too few words for what is told */
    KIOSK_GTFS_BAD_LINE = 14,           /* read: a line that is not as it should be */
    KIOSK_GTFS_FULL = 15                /* a table that is full, or a buffer that is too short */
};

/* The words that are told of a reading, and of a writing. */
enum kiosk_gtfs_told {
    KIOSK_GTFS_NUMBER = 0,
    KIOSK_GTFS_LINE = 1,                /* the bad line, from 1; with other numbers than 14 it is 0 */
    KIOSK_GTFS_FILE = 2,                /* where it stands: 1 stop_times.txt, 2 transfers.txt; else 0 */
    KIOSK_GTFS_STOPS = 3,
    KIOSK_GTFS_SPLIT = 4,               /* the ids of the stops below this number stand in stop_times.txt, the others in transfers.txt */
    KIOSK_GTFS_TRIPS = 5,
    KIOSK_GTFS_TIMES = 6,
    KIOSK_GTFS_TRANSFERS = 7,
    KIOSK_GTFS_TOLD = 8,                /* how many words are told of a reading */
    KIOSK_GTFS_LENGTH = 1,              /* of a writing: the number, and how many bytes were written */
    KIOSK_GTFS_WRITTEN = 2              /* how many words are told of a writing */
};

/* The words of a row. Stops and trips are numbered from 0 in the order in which they appear, stop_times.txt first. */
enum kiosk_gtfs_time { KIOSK_GTFS_TRIP = 0, KIOSK_GTFS_STOP = 1, KIOSK_GTFS_ARRIVAL = 2, KIOSK_GTFS_DEPARTURE = 3 };
enum kiosk_gtfs_transfer { KIOSK_GTFS_FROM = 0, KIOSK_GTFS_TO = 1, KIOSK_GTFS_TYPE = 2, KIOSK_GTFS_SPAN = 3 };

/* ==== The functions */

/* Reads both files. Gives the number, which is also the first word that is told.

   Lines are taken in their order, those of stop_times first; the first that is refused ends the reading: 14 for a bad line, 15 where a
   table has no room for what is new in it, 14 where it is both. Then the tables hold what the lines before it have, and the counts that
   are told are theirs. The eight words that are told: number, line, file, stops, split, trips, times, transfers.
   - `times` takes a row of four words for each line of stop_times below the header: trip, stop, arrival, departure. The moments have 86,400
     added.
   - `paths` takes a row of four words for each line of transfers below the header: from, to, type, span.
   - `stops` and `trips` take the ids. Each is a book: lent 4 * cap words, it has room for cap ids. Its first cap words are for looking up.
     Behind them stand three words for each id: where its text begins in its file, where it ends, and one more for looking up. The text is
     what stands in the file, without the quotes around it; a doubled quote in it is left doubled.
   A length that is no multiple of four is taken as the next lower one, and no more is used than the limits above: shorter slices are a
   smaller room, and no fault. What stands behind the last row and behind the last id stays as it was, and with 1 and 6 all of it does.
   What stands in `told` behind its eight words stays as well; where it has fewer none is written, and the number is 1 or 6. */
uint32_t kiosk_gtfs_read(const uint8_t *stop_times, size_t stop_times_len, const uint8_t *transfers, size_t transfers_len,
                         uint32_t *times, size_t times_len, uint32_t *paths, size_t paths_len, uint32_t *stops, size_t stops_len,
                         uint32_t *trips, size_t trips_len, uint32_t *told, size_t told_len);

/* Writes rows of times as stop_times.txt: the columns in GTFS's order, LF behind every line, ids as their numbers, sequences as positions
   from 0, times as HH:MM:SS. Read again, with room for them, they give the same rows.

   Gives the number, which is also the first word that is told: 1 where the words are no whole rows or more than 262,144 of them; then, of
   the first row at fault, 2 or 3; 15 where `out` is too short; else 0. The second word is how many bytes were written: 0 but for number 0,
   and then nothing was written to `out`. What stands behind the bytes stays as it was. 6 where `told` has fewer than two words, and then it
   stays as it was too. */
uint32_t kiosk_gtfs_write_times(const uint32_t *times, size_t times_len, uint8_t *out, size_t out_len, uint32_t *told, size_t told_len);

/* Writes rows of transfers as transfers.txt, alike; `stops` is how many stops the times have. 1 where there is a cut row or more than
   16,384; then, of the first row at fault, 2 or 5; 15; 0. */
uint32_t kiosk_gtfs_write_transfers(const uint32_t *paths, size_t paths_len, uint32_t stops, uint8_t *out, size_t out_len,
                                    uint32_t *told, size_t told_len);

/* ==== The same with structs */

/* What is told of a reading. */
typedef struct kiosk_gtfs_counts {
    uint32_t number;                    /* enum kiosk_gtfs_number */
    uint32_t line, file, stops, split, trips, times, transfers;
} kiosk_gtfs_counts;

/* What a reading is lent: memory of the caller's, each length in words. */
typedef struct kiosk_gtfs_tables {
    uint32_t *times, *paths, *stops, *trips;
    size_t times_len, paths_len, stops_len, trips_len;
} kiosk_gtfs_tables;

/* Where an id stands: `length` bytes from `text` on, in the file that was read. */
typedef struct kiosk_gtfs_id { const uint8_t *text; size_t length; } kiosk_gtfs_id;

/* kiosk_gtfs_read: the number, and all eight words in the counts. */
static inline uint32_t kiosk_gtfs_take(const uint8_t *stop_times, size_t stop_times_len, const uint8_t *transfers, size_t transfers_len,
                                       const kiosk_gtfs_tables *t, kiosk_gtfs_counts *counts) {
    uint32_t told[KIOSK_GTFS_TOLD] = { 0 };
    uint32_t number = kiosk_gtfs_read(stop_times, stop_times_len, transfers, transfers_len, t->times, t->times_len, t->paths, t->paths_len,
                                      t->stops, t->stops_len, t->trips, t->trips_len, told, KIOSK_GTFS_TOLD);
    counts->number = number;
    counts->line = told[KIOSK_GTFS_LINE];
    counts->file = told[KIOSK_GTFS_FILE];
    counts->stops = told[KIOSK_GTFS_STOPS];
    counts->split = told[KIOSK_GTFS_SPLIT];
    counts->trips = told[KIOSK_GTFS_TRIPS];
    counts->times = told[KIOSK_GTFS_TIMES];
    counts->transfers = told[KIOSK_GTFS_TRANSFERS];
    return number;
}

/* How many ids a book of so many words has room for, where no more than `most` are taken. */
static inline size_t kiosk_gtfs_cap(size_t book_len, size_t most) { return book_len / 4 < most ? book_len / 4 : most; }

/* Row i of a table. */
static inline const uint32_t *kiosk_gtfs_row(const uint32_t *rows, size_t i) { return rows + 4 * i; }

/* Where the id of stop i stands, one of those that were told. */
static inline kiosk_gtfs_id kiosk_gtfs_stop_id(const uint8_t *stop_times, const uint8_t *transfers, const kiosk_gtfs_tables *t,
                                               const kiosk_gtfs_counts *counts, size_t i) {
    const uint32_t *name = t->stops + kiosk_gtfs_cap(t->stops_len, KIOSK_GTFS_MOST_STOPS) + 3 * i;
    kiosk_gtfs_id id;
    id.text = (i < counts->split ? stop_times : transfers) + name[0];
    id.length = name[1] - name[0];
    return id;
}

/* Where the id of trip i stands. */
static inline kiosk_gtfs_id kiosk_gtfs_trip_id(const uint8_t *stop_times, const kiosk_gtfs_tables *t, size_t i) {
    const uint32_t *name = t->trips + kiosk_gtfs_cap(t->trips_len, KIOSK_GTFS_MOST_TRIPS) + 3 * i;
    kiosk_gtfs_id id;
    id.text = stop_times + name[0];
    id.length = name[1] - name[0];
    return id;
}

/* The id as it is meant, each doubled quote made one: gives its length. `out` has room for id.length bytes. */
static inline size_t kiosk_gtfs_undoubled(kiosk_gtfs_id id, uint8_t *out) {
    size_t n = 0;
    for (size_t i = 0; i < id.length; i++) {
        out[n++] = id.text[i];
        if (id.text[i] == '"') i++;     /* the second of two */
    }
    return n;
}

/* A buffer of so many bytes is long enough for so many rows: the longest line of times is 16383,99:59:59,99:59:59,4095,262143 and its LF,
   that of transfers 4095,4095,2,4294967294. */
static inline size_t kiosk_gtfs_times_room(size_t rows) { return 58 + 36 * rows; }
static inline size_t kiosk_gtfs_transfers_room(size_t rows) { return 56 + 23 * rows; }

#ifdef __cplusplus
}
#endif

#endif

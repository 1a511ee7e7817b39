/* GTFS's stop_times.txt and transfers.txt in plain C, read and written: the mark that the proved reader is measured against. */
#ifndef PLAIN_GTFS_H
#define PLAIN_GTFS_H

#include <stddef.h>
#include <stdint.h>

/* The words that are told of a reading, and of a writing. */
enum { TOLD_NUMBER, TOLD_LINE, TOLD_FILE, TOLD_STOPS, TOLD_SPLIT, TOLD_TRIPS, TOLD_TIMES, TOLD_TRANSFERS, TOLD_READ };
enum { TOLD_LENGTH = 1, TOLD_WRITTEN };

/* The words of a row: trip, stop, arrival, departure; from, to, type, span. Of a name: where its text begins and ends, and the next. */
enum { ROW_WORDS = 4, NAME_WORDS = 3, BOOK_WORDS = 4 };

/* A reader and the two writers, in the shape of the C face (crates/gtfs_c/include/kiosk_gtfs.h says what each word is): stop_times,
   transfers, times, paths, stops, trips, told; rows, out, told; rows, how many stops the times have, out, told. */
typedef uint32_t gtfs_reader(const uint8_t *, size_t, const uint8_t *, size_t, uint32_t *, size_t, uint32_t *, size_t, uint32_t *, size_t,
                             uint32_t *, size_t, uint32_t *, size_t);
typedef uint32_t gtfs_times_writer(const uint32_t *, size_t, uint8_t *, size_t, uint32_t *, size_t);
typedef uint32_t gtfs_transfers_writer(const uint32_t *, size_t, uint32_t, uint8_t *, size_t, uint32_t *, size_t);

gtfs_reader plain_gtfs_read;
gtfs_times_writer plain_gtfs_write_times;
gtfs_transfers_writer plain_gtfs_write_transfers;

#endif

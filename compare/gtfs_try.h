/* One input through the proved reader and writers and through plain C's: the same numbers, and the same in all that is lent. */
#ifndef COMPARE_GTFS_TRY_H
#define COMPARE_GTFS_TRY_H

#include <stddef.h>
#include <stdint.h>
#include <stdio.h>
#include "../plain/gtfs.h"

/* What the program that tries gives: a slice of exactly so many bytes, past which nothing may be touched, and its return; and what is done
   where ours and plain C differ. */
enum { FILE_ONE, FILE_TWO, ROWS, TIMES, PATHS, STOPS, TRIPS, TOLD, OUT, SLICES };
void *lend(int slice, size_t bytes);
void take_back(void *p);
void differ(const char *what, uint32_t ours, uint32_t plain);

/* How often each number was given, by the reader and by both writers. */
enum { NUMBERS = 16 };
extern unsigned long read_given[NUMBERS], write_given[NUMBERS], read_back;
void print_given(FILE *out);

/* The lengths in words of TIMES to TOLD; those of FILE_ONE and FILE_TWO in bytes. Before the call all is filled with the byte junk. */
typedef struct { const uint8_t *file[2]; size_t len[SLICES]; uint8_t junk; } gtfs_input;

/* Reads; then writes the rows, with a buffer that is `off` longer than it need be, and reads that. Gives the number. */
uint32_t try_reading(const gtfs_input *in, int off);

/* Any words written as times, and as transfers behind so many stops; where they are good, they are read back. */
void try_writing(const uint32_t *words, size_t len, uint32_t stops, size_t out_len, size_t told_len, uint8_t junk);

#endif

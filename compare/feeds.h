/* Small nasty feeds: pairs of files with every oddity that a feed may have, most of them good, what damages a file, and rows for the
   writers. The dice are seeded before. */
#ifndef COMPARE_FEEDS_H
#define COMPARE_FEEDS_H

#include <stddef.h>
#include <stdint.h>

enum { MOST_TEXT = 1 << 13 };
typedef struct { size_t len; uint8_t byte[MOST_TEXT]; } text;

void make_feed(text *stop_times, text *transfers);
void damage_text(text *t);                      /* a byte, a line or an end is changed, put in or left out */

/* Rows as a reading gives them, four words each, so that the writers take them: of times or, behind so many stops, of transfers. */
void make_rows(uint32_t *words, uint32_t rows, int transfers, uint32_t stops);

/* A file at a limit: so many rows of times, each with a new trip where `trips` is set and a new stop where `stops` is, else of one; or so
   many transfers between so many stops. Gives its length; where `to` is NULL nothing is written. */
size_t many_times(uint8_t *to, uint32_t rows, int trips, uint32_t stops);
size_t many_transfers(uint8_t *to, uint32_t rows, uint32_t stops);

#endif

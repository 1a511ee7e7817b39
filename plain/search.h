/* Document 01's search in plain C over the flat tables, checking nothing: the mark that the proved search is measured against. */
#ifndef PLAIN_SEARCH_H
#define PLAIN_SEARCH_H

#include <stddef.h>
#include <stdint.h>

enum { SEARCH_ROUNDS = 15, PARENT_WORDS = 6, RIDE = 1, TRANSFER = 2, WALK = 3, MOST_LEG = 21 };

/* A search in the shape of the C face: tables, words, marks, places, journey, the eight words of the query, answer. The query: kinds 0 stop,
   1 area; when 0 departure, 1 arrival; walks 0 unsaid, 1 allowed, 2 not; mode 0 source, 1 rescan. */
typedef uint32_t solver(const uint32_t *, size_t, uint32_t *, size_t, uint64_t *, size_t, uint32_t *, size_t, uint8_t *, size_t,
                        uint32_t, uint32_t, uint32_t, uint32_t, uint32_t, uint32_t, uint32_t, uint32_t, uint32_t *, size_t);

/* The answer: number (0, 10 or 12), time, stop, round, length. It is to be asked good queries in good tables only. */
solver plain_solve;

/* A leg's row has PARENT_WORDS words: kind, from, to, trip, departure, arrival. How many journey bytes it takes, and those bytes. */
size_t leg_size(const uint32_t *row);
void put_leg(uint8_t *at, const uint32_t *row);

#endif

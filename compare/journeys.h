/* Journeys as rows of legs, each with the query that it is judged for: what makes them up and what changes them, by the dice. */
#ifndef COMPARE_JOURNEYS_H
#define COMPARE_JOURNEYS_H

#include "face.h"
#include "network.h"

enum { MOST_LEGS = 48 };
typedef struct { query q; uint32_t legs, row[MOST_LEGS][PARENT_WORDS]; } journey;

/* The legs of journey bytes; 0 where they are too many, or not legs. And the bytes of the legs: their length. */
int take_legs(journey *j, const uint8_t *bytes, size_t len);
size_t put_legs(const journey *j, uint8_t *bytes);

/* Legs along the tables from any stop, and a query for them: most are right. Up to `rides` rides, where the timetable has them. 0 where there is none. */
int wander(const uint32_t *tables, uint32_t rides, journey *j);

/* One thing is changed: a field of a leg, two fields that belong together, a leg, or a word of the query. */
void change_journey(const uint32_t *tables, journey *j);

/* The bytes cut, one of them changed, or some behind them: the new length. There is room for a leg more. */
size_t change_bytes(uint8_t *bytes, size_t len);

/* Whether each footpath that a query allows is listed the other way too, as the same kind and with the same span. */
int both_ways(const uint32_t *tables, int walking);

#endif

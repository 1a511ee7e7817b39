/* A call of a search in the shape of the C face: its query, what is lent to it, and what it must refuse. */
#ifndef COMPARE_FACE_H
#define COMPARE_FACE_H

#include <stddef.h>
#include <stdint.h>
#include "../crates/kiosk_c/include/kiosk.h"
#include "../plain/search.h"

typedef kiosk_query query;              /* its eight words, in the order of the C face */

/* What is lent to a search: of each slice where it stands and how many elements it has. */
enum { WORDS, MARKS, PLACES, JOURNEY, ANSWER, SLICES };
typedef struct { size_t len[SLICES]; void *at[SLICES]; } lent;
extern const char *const slice_name[SLICES];
extern const size_t slice_width[SLICES];
static inline size_t bytes_of(const lent *l, int slice) { return slice_width[slice] * l->len[slice]; }
static inline uint32_t *answer_of(const lent *l) { return l->at[ANSWER]; }
static inline uint8_t *journey_of(const lent *l) { return l->at[JOURNEY]; }

/* The lengths of words, marks and places that tables which the check accepts ask for. */
void right_lengths(const uint32_t *tables, size_t *len);

uint32_t ask(solver *f, const uint32_t *tables, size_t len, const lent *l, const query *q);

/* Whether no served stop is a child of a stop that the area names. */
int barren(const uint32_t *tables, uint32_t area);

/* 7, 8 or 9 where a query on good tables is refused, else 0: plain C is asked good queries only. */
uint32_t refusal(const uint32_t *tables, const query *q);

/* What lent memory holds before a call. */
enum { JUNK = 0xA5 };
int all_junk(const void *p, size_t bytes);

#endif

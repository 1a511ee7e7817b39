/* Queries drawn in a city, each of them compared. */
#ifndef COMPARE_DRAWN_H
#define COMPARE_DRAWN_H

#include "city.h"

enum { QUERIES = 64 };

/* How many were drawn so far, by mode. */
extern unsigned drawn[2];

/* QUERIES queries in a city that was made ready; most are found. */
void draw_queries(const network *n, const flat *t, uint32_t when, uint32_t mode, query *q);

#endif

/* The search in several writings, the Rust, plain C and the proved library: one network for all of them, and whether they agree on a query.
   The Rust and the proved library may be left out (absent.c). */
#ifndef COMPARE_WRITINGS_H
#define COMPARE_WRITINGS_H

#include "face.h"
#include "network.h"
#include "../plain/judge.h"

extern const int has_ours;
extern solver *const ours_checking, *const ours_checked;        /* kiosk_solve and kiosk_solve_checked, where they are there */
extern judge *const our_judge, *const our_judge_checked;        /* kiosk_judge and kiosk_judge_checked, alike */

/* What is asked, and what came of it. */
typedef struct {
    lent plain, ours;                   /* what is lent to either; `plain` has the answer of the query asked last */
    void *rust[2], *threads;            /* as the Rust holds the network: as published, with the marks refilled, and over the real rayon */
    int published;                      /* the Rust as published is asked in rescan mode too: the comparison must then fail */
    unsigned differing;
    unsigned long judged;               /* found journeys that got a yes */
    unsigned long with_threads, other_legs;     /* queries over the real rayon, and those whose legs are others */
} writings;
extern writings all;

/* The network for all that are asked about it, with so long a journey buffer. The tables must be ones that the check accepts. */
void make_ready(const flat *t, size_t journey_len);

/* Asks everyone, the Rust where `rust_too`, has what is found judged, and gives NULL or what differs; plain C then has the answer, but for refused
   queries, which are asked of ours alone. */
const char *differs(const flat *t, const query *q, int rust_too);

/* Ours beside plain C: the answer and everything lent, to the last word and byte. Where the query is refused with `number`, ours alone.
   One of the two functions, or both where ours is there. */
const char *ours_differ(solver *f, const flat *t, const query *q, uint32_t number);
const char *both_ours_differ(const flat *t, const query *q, uint32_t number);

/* A difference, as lines that the oracle reads; and how many there were, for the end of a run's line. */
void report(const char *what, const flat *t, const query *q);
int print_differing(void);

#endif

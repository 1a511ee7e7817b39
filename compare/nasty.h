/* Small nasty networks made up by seed, and queries in them: what a porter's slip would show on. The kept list (oracle/) was drawn from them too. */
#ifndef COMPARE_NASTY_H
#define COMPARE_NASTY_H

#include "face.h"
#include "network.h"

/* `wider` has more than the networks of the kept list, which may not change. */
void make_nasty(network *n, uint64_t seed, uint64_t stream, int wider);

/* A query in the network that was made last: one that the kept list may take, where areas have a served stop and nothing is refused but places
   that do not exist; or any, now and then one that is to be refused. */
query fair_query(const network *n, const flat *t);
query nasty_query(const network *n, const flat *t);

#endif

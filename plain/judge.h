/* Request 2's judge in plain C over the flat tables: whether journey bytes are a journey of a query. It believes neither the query nor the bytes. */
#ifndef PLAIN_JUDGE_H
#define PLAIN_JUDGE_H

#include <stddef.h>
#include <stdint.h>

/* A judge in the shape of the C face: tables, journey bytes, the query's seven words (there is no mode), told. It gives 0 and tells 1 for yes or
   0 for no; or 13 and tells the offset of the bad leg; or 1 to 9 and tells nothing. */
typedef uint32_t judge(const uint32_t *, size_t, const uint8_t *, size_t, uint32_t, uint32_t, uint32_t, uint32_t, uint32_t, uint32_t, uint32_t,
                       uint64_t *, size_t);

judge plain_judge;
judge plain_judge_checked;              /* in good tables only */

/* The leg of journey bytes that starts at `at`: how many bytes it takes, which is above 13, and its row of six words, ABSENT for the trip of a
   footpath. Or 0 where no byte is left there, 13 for an unknown kind or a cut body. */
uint32_t get_leg(const uint8_t *bytes, size_t len, size_t at, uint32_t *row);

#endif

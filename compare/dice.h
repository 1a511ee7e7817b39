/* Dice by seed: Steele, Lea and Flood's splitmix64. There is one stream at a time in a program. */
#ifndef COMPARE_DICE_H
#define COMPARE_DICE_H

#include <stdint.h>

void seed_dice(uint64_t seed, uint64_t stream);         /* each network has a stream of its own, so that one does not hang on the others */
uint64_t roll(void);
uint32_t below_n(uint32_t n);
uint32_t range(uint32_t low, uint32_t high);            /* both included */
int percent(uint32_t n);
void shuffle(uint32_t *x, uint32_t n);
void sample(uint32_t n, uint32_t k, uint32_t *out);     /* k different numbers below n, which is at most 64, in any order */

/* One of these numbers. Where several dice are thrown for one thing, they stand in statements of their own: C leaves the order of
   arguments open, and a seed shall mean the same network everywhere. */
#define PICK(...) ((uint32_t[]){ __VA_ARGS__ })[below_n(sizeof((uint32_t[]){ __VA_ARGS__ }) / 4)]

/* A word that a reader of tables of so many words might stumble over. */
uint32_t odd_word(uint32_t len);

#endif

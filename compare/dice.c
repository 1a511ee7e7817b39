/* Dice by seed. */
#include <string.h>
#include "dice.h"

static uint64_t dice;

uint64_t roll(void) {
    uint64_t z = dice += 0x9e3779b97f4a7c15u;
    z = (z ^ z >> 30) * 0xbf58476d1ce4e5b9u;
    z = (z ^ z >> 27) * 0x94d049bb133111ebu;
    return z ^ z >> 31;
}
void seed_dice(uint64_t seed, uint64_t stream) {
    dice = seed << 32 | stream;
    dice = roll();
}
uint32_t below_n(uint32_t n) { return (uint32_t)(roll() >> 32) % n; }
uint32_t range(uint32_t low, uint32_t high) { return low + below_n(high - low + 1); }
int percent(uint32_t n) { return below_n(100) < n; }

void shuffle(uint32_t *x, uint32_t n) {
    for (uint32_t i = n; i > 1; i--) {
        uint32_t j = below_n(i), t = x[i - 1];
        x[i - 1] = x[j];
        x[j] = t;
    }
}
void sample(uint32_t n, uint32_t k, uint32_t *out) {
    uint32_t all[64];
    for (uint32_t i = 0; i < n; i++) all[i] = i;
    shuffle(all, n);
    memcpy(out, all, 4 * k);
}

uint32_t odd_word(uint32_t len) {
    const uint32_t some[] = { 0, 1, 2, 21, len - 1, len, len + 1, 4096, 4097, 1000000, 1000001, 86400, 86401, 0x7FFFFFFF, 0x80000000,
                              0xFFFFFFFE, 0xFFFFFFFF, 0x7FC00000, 0x47C35000, 0x47C35001 };
    return percent(70) ? some[below_n(sizeof some / 4)] : percent(70) ? range(0, 2 * len) : (uint32_t)roll();
}

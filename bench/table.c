/* Cells of a Markdown table. */
#include <stdio.h>
#include "table.h"

static char *cell(void) {
    static char text[16][32];
    static unsigned at;
    return text[at++ % 16];
}
const char *whole(unsigned long n) {
    char *out = cell(), digits[24];
    int count = sprintf(digits, "%lu", n), at = 0;
    for (int i = 0; i < count; i++) {
        if (i > 0 && (count - i) % 3 == 0) out[at++] = ',';
        out[at++] = digits[i];
    }
    out[at] = 0;
    return out;
}
const char *figure(double x) {
    if (x >= 99.95) return whole((unsigned long)(x + 0.5));
    char *out = cell();
    sprintf(out, x > 0 ? "%.1f" : "", x);
    return out;
}
const char *microseconds(double us) { return figure(us); }
const char *quotient(double a, double b) {
    char *out = cell();
    sprintf(out, a > 0 && b > 0 ? "%.2f" : "", a / b);
    return out;
}
void put_cell(const char *text) { printf(*text ? " %s |" : " |", text); }

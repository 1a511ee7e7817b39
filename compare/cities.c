/* Many cities, all sizes up to the limits, compared and not timed. */
#include <stdio.h>
#include <string.h>
#include "drawn.h"
#include "runs.h"
#include "writings.h"

/* COUNT cities of a size, 256 queries and more in each: `middle` ones have 60 to 200 stops. */
int cities(const char *size, unsigned count, unsigned seed) {
    network n = { 0 };
    flat city = { 0 };
    query q[QUERIES];
    for (unsigned i = 0; i < count; i++) {
        uint32_t wide = 6 + (seed + i) % 15;
        grid middle = { wide, 10, 3 * wide, 8, 12, 6, 3 };
        make_city(&n, strcmp(size, "limit") == 0 ? limit_city : middle, seed + i);
        flatten(&n, &city);
        make_ready(&city, KIOSK_MOST_JOURNEY);
        for (uint32_t mode = 0; mode < 2; mode++) for (uint32_t when = 0; when < 2; when++) draw_queries(&n, &city, when, mode, q);
    }
    printf("%u %s cities, %u queries in the source's mode, %u in rescan mode", count, size, drawn[0], drawn[1]);
    return print_differing();
}

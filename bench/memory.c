/* The table of memory: what each writing holds of a city, needs for a query, and takes of the stack. */
#include <stdio.h>
#include <string.h>
#include <ucontext.h>
#include "measure.h"
#include "table.h"
#include "../compare/rust.h"
#include "../compare/writings.h"

/* ---- the stack: a call runs on one of its own, which is filled before and looked at after */

enum { STACK_BYTES = 1 << 20 };
static struct { ucontext_t here, there; runner run; const query *q; } on_stack;
static void step_over(void) { on_stack.run(on_stack.q); }
static void nothing(const query *q) { (void)q; }

static size_t touched(runner run, const query *q) {
    static uint8_t stack[STACK_BYTES];
    size_t free = 0;
    memset(stack, JUNK, sizeof stack);
    on_stack.run = run, on_stack.q = q;
    getcontext(&on_stack.there);
    on_stack.there.uc_stack.ss_sp = stack, on_stack.there.uc_stack.ss_size = sizeof stack, on_stack.there.uc_link = &on_stack.here;
    makecontext(&on_stack.there, step_over, 0);
    swapcontext(&on_stack.here, &on_stack.there);
    while (stack[free] == JUNK) free++;
    return STACK_BYTES - free;
}
/* The deepest byte that a query writes, over all the queries. */
static size_t deepest(runner run, const query *q, int count) {
    size_t most = 0;
    for (int k = 0; k < count; k++) {
        run(&q[k]);                     /* first where it does not count: the linker may have work at a first call */
        size_t bytes = touched(run, &q[k]) - touched(nothing, &q[k]);
        if (bytes > most) most = bytes;
    }
    return most;
}

/* The most heap bytes that the Rust has in use in a query beyond its network. Plain C and ours name no function that takes any. */
static size_t most_heap(runner run, const query *q, int count) {
    size_t most = 0, held, peak;
    for (int k = 0; k < count; k++) {
        rust_memory(&held, &peak);      /* the peak is counted from here on */
        run(&q[k]);
        rust_memory(&held, &peak);
        if (peak - held > most) most = peak - held;
    }
    return most;
}

/* ---- the table: a row for each thing that takes memory */

enum { ALL = 4 * QUERIES };
#define NO_BYTES ((size_t)-1)           /* nothing of the kind */
static void print_bytes(int i, const char *what, int first, size_t of_rust, size_t of_plain, size_t of_ours) {
    print_city(i, first);
    put_cell(what), put_cell(has_rust && of_rust != NO_BYTES ? whole(of_rust) : ""), put_cell(whole(of_plain));
    put_cell(has_ours ? whole(of_ours) : "");
    printf("\n");
}

int memory(void) {
    const lent *plain = &all.plain;
    query q[ALL];
    printf("| network | bytes of | the Rust | plain C | ours |\n|---|---|---|---|---|\n");
    for (int i = 0; i < CITIES; i++) {
        size_t held[2] = { 0 };         /* of the Rust's Repository and of a new Allocator */
        uint32_t room[3] = { 0 };
        make_city_ready(city_of[i].size);
        for (uint32_t k = 0; k < 4; k++) draw_queries(&city_lists, &city, k % 2, k / 2, q + k * QUERIES);
        rust_sizes(city.word, city.len, held);
        kiosk_room(city.word, city.len, room, 3);
        size_t tables = 4ul * city.len, journey = 17ul * city_lists.stops + 4 * SEARCH_ROUNDS;
        print_bytes(i, "the network", 1, held[0], tables, tables);
        print_bytes(i, "the workspace", 0, held[1], bytes_of(plain, WORDS) + bytes_of(plain, MARKS) + bytes_of(plain, PLACES),
                    4ul * room[0] + 8ul * room[1] + 4ul * room[2]);
        print_bytes(i, "the journey, at most", 0, NO_BYTES, journey, journey);
        print_bytes(i, "the heap in a query, at most", 0, most_heap(by_rust_new, q, ALL), 0, 0);
        print_bytes(i, "the stack in a query, at most", 0, has_rust ? deepest(by_rust_new, q, ALL) : 0, deepest(by_plain, q, ALL),
                    has_ours ? deepest(by_ours_checked, q, ALL) : 0);
        print_bytes(i, "the stack in the check", 0, NO_BYTES, deepest(plain_checking, q, 1), has_ours ? deepest(our_checking, q, 1) : 0);
    }
    return print_compared();
}

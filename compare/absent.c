/* Which writings are linked, and stand-ins for those that are left out: they are there to be linked, and none is ever asked.

   Compiled with -DRUST the Rust is there, with -DTHREADS the Rust over the real rayon too, with -DCOUNTING it counts its heap bytes; with
   -DOURS the proved library is there. */
#include "rust.h"
#include "writings.h"

#ifdef RUST
const int has_rust = 1;
#else
const int has_rust = 0;
uint32_t rust_prepare(void) { return 1; }
void *rust_load(const uint32_t *words, size_t len, uint32_t mode) { (void)words, (void)len, (void)mode; return NULL; }
void rust_drop(void *loaded) { (void)loaded; }
uint32_t rust_solve(void *loaded, const uint32_t *query, uint32_t reuse, uint8_t *journey, size_t journey_len, uint32_t *answer) {
    (void)loaded, (void)query, (void)reuse, (void)journey, (void)journey_len, (void)answer;
    return 0;
}
void rust_reaching(const uint32_t *words, size_t len, uint32_t mode, const uint32_t *queries, size_t count, uint8_t *out) {
    (void)words, (void)len, (void)mode, (void)queries, (void)count, (void)out;
}
#endif

#ifdef THREADS
const int has_threads = 1;
#else
const int has_threads = 0;
void *rust_load_threads(const uint32_t *words, size_t len) { (void)words, (void)len; return NULL; }
#endif

#ifndef COUNTING
void rust_memory(size_t *now, size_t *peak) { *now = *peak = 0; }
void rust_sizes(const uint32_t *words, size_t len, size_t *out) { (void)words, (void)len, (void)out; }
#endif

#ifdef OURS
const int has_ours = 1;
solver *const ours_checking = kiosk_solve, *const ours_checked = kiosk_solve_checked;
judge *const our_judge = kiosk_judge, *const our_judge_checked = kiosk_judge_checked;
#else
const int has_ours = 0;
solver *const ours_checking = NULL, *const ours_checked = NULL;
judge *const our_judge = NULL, *const our_judge_checked = NULL;
uint32_t kiosk_check(const uint32_t *words, size_t len) { (void)words, (void)len; return 0; }
uint32_t kiosk_room(const uint32_t *words, size_t len, uint32_t *room, size_t room_len) {
    (void)words, (void)len, (void)room, (void)room_len;
    return 0;
}
#endif

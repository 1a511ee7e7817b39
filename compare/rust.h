/* The Rust's own search behind C functions (rust/). Where it is left out, absent.c has stand-ins that are never asked. */
#ifndef COMPARE_RUST_H
#define COMPARE_RUST_H

#include <stddef.h>
#include <stdint.h>

extern const int has_rust, has_threads;

/* Called once. 1 where a subtraction below 0 panics: the compared build. */
uint32_t rust_prepare(void);
/* A network, to be asked in this mode; NULL where the Rust cannot hold it. */
void *rust_load(const uint32_t *words, size_t len, uint32_t mode);
void *rust_load_threads(const uint32_t *words, size_t len);     /* over the real rayon */
void rust_drop(void *loaded);
/* A query of eight words; with `reuse` the allocator of the query before is reset and used. */
uint32_t rust_solve(void *loaded, const uint32_t *query, uint32_t reuse, uint8_t *journey, size_t journey_len, uint32_t *answer);
/* In which of the queries, in an arrival search, a span reaches its label. */
void rust_reaching(const uint32_t *words, size_t len, uint32_t mode, const uint32_t *queries, size_t count, uint8_t *out);

/* In a build that counts: the heap bytes in use and the most since the call before; the bytes of a network and of a new allocator. */
void rust_memory(size_t *now, size_t *peak);
void rust_sizes(const uint32_t *words, size_t len, size_t *out);

#endif

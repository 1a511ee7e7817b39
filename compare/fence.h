/* Slices in pages of their own, between two that may not be touched: a slice ends, or begins, exactly at such a page. */
#ifndef COMPARE_FENCE_H
#define COMPARE_FENCE_H

#include <stddef.h>
#include <stdint.h>
#include <stdio.h>
#include <stdlib.h>
#include <sys/mman.h>
#include <unistd.h>

typedef struct { uint8_t *low; size_t room; } pages;

/* Pages with room for so many bytes. */
static inline pages fence(size_t bytes) {
    size_t page = (size_t)sysconf(_SC_PAGESIZE), room = (bytes + page - 1) / page * page;
    uint8_t *p = mmap(NULL, room + 2 * page, PROT_NONE, MAP_PRIVATE | MAP_ANONYMOUS, -1, 0);
    if (p == MAP_FAILED || mprotect(p + page, room, PROT_READ | PROT_WRITE) != 0) { perror("mmap"); exit(2); }
    return (pages){ p + page, room };
}
/* The same pages, or larger ones in their place where there is no room for so many bytes. What has no pages yet is all zero. */
static inline void widen(pages *p, size_t bytes) {
    size_t page = (size_t)sysconf(_SC_PAGESIZE);
    if (p->low && p->room >= bytes) return;
    if (p->low) munmap(p->low - page, p->room + 2 * page);
    *p = fence(bytes);
}
static inline void *slice(const pages *p, size_t bytes, int at_end) {
    if (bytes > p->room) { fprintf(stderr, "a slice is larger than its pages\n"); exit(2); }
    return at_end ? p->low + p->room - bytes : p->low;
}

#endif

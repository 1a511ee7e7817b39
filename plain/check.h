/* Document 01's table check in plain C, trusting nothing: the mark that the proved check is measured against. */
#ifndef PLAIN_CHECK_H
#define PLAIN_CHECK_H

#include <stddef.h>
#include <stdint.h>

/* 0, or the lowest number 1 to 5 that applies. */
uint32_t plain_check(const uint32_t *tables, size_t len);

#endif

/* Searches whose stores are counted: the proved one by its two faces, and writers in C that a caller cannot tell from it. */
#ifndef COMPARE_STORES_WRONG_H
#define COMPARE_STORES_WRONG_H

#include "face.h"

solver *solver_named(const char *name);                 /* NULL where there is none of this name */

#endif

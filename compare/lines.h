/* Networks, queries and answers as the lines of oracle/cases.txt and oracle/answers.txt. */
#ifndef COMPARE_LINES_H
#define COMPARE_LINES_H

#include "face.h"
#include "network.h"

enum { MOST_LINE = 1 << 20 };

int print_network(const flat *t);       /* gives how many characters the line has */
void print_query(const query *q);

void read_network(const char *line, flat *t);
int read_query(const char *line, query *q);     /* 0 where the line is none; a mode `r` may stand behind it */
void put_answer(const lent *l, char *out);      /* without the line's end */

#endif

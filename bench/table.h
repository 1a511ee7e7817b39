/* Cells of a Markdown table: numbers with a comma between thousands. A cell's text stands until sixteen more are made. */
#ifndef BENCH_TABLE_H
#define BENCH_TABLE_H

const char *whole(unsigned long n);
const char *figure(double x);                   /* from 100 on whole, else with one place; nothing where there is none */
const char *microseconds(double us);            /* nothing where there is no figure */
const char *quotient(double a, double b);       /* nothing where there is none of either */
void put_cell(const char *text);                /* and the line behind it */

#endif

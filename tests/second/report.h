/* The report of a difference: the call, both answers, and the byte. */
#ifndef REPORT_H
#define REPORT_H

#include "compare.h"
#include "run.h"

/* Prints a call, and the state that it was made on. */
void print_call(const struct call *c, const uint8_t *state);

/* Prints where in the run the call was, and the call. */
void print_place(const struct run *r);

/* Prints the fields of two answers side by side, under the names of those who gave them. */
void print_answers(const char *a_name, uint64_t a, const char *b_name, uint64_t b);

/* Prints which byte is not what it must be. */
void print_difference(const struct difference *d);

#endif

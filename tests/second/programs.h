/* The two programs that are compared: one call, made on either. */
#ifndef PROGRAMS_H
#define PROGRAMS_H

#include "calls.h"
#include "lent.h"

/* Lays out the record of the next call, and old bytes for its reply, output and feet. */
void lay_out(const struct set *s, const struct call *c, unsigned old);

/* From now on a fault in the library comes back to the driver. */
void catch_faults(void);

/* The library's answer; false if it touched memory that it was not lent. */
bool call_library(const struct set *s, const struct call *c, uint64_t *answer);

/* The second program's answer. */
uint64_t call_second(const struct set *s, const struct call *c);

#endif

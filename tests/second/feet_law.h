/* T-04's law: how far the feet of an answer may be from the exact fraction, over whole numbers. */
#ifndef FEET_LAW_H
#define FEET_LAW_H

#include "calls.h"

enum rounding { ROUNDED_DOWN, EXACT, ROUNDED_UP, ROUNDINGS };

/* What is wrong in what a call for feet of paper answered and left in the double; null if nothing is, or the call is another. */
const char *feet_fault(const struct call *c, uint64_t answer, const uint8_t *feet);

/* On which side of the exact fraction the feet of an accepted call are. */
enum rounding rounding_of(const struct call *c, const uint8_t *feet);

/* Whether Feet takes a form length and a number of copies. */
bool form_is_taken(uint32_t form);
bool copies_are_taken(uint32_t copies);

/* The paper in 24ths of an inch that an accepted call is about. */
uint64_t paper_length(const struct call *c);

#endif

/* T-05: which skips stand, by the bytes that the library was handed and left, and not by the second program. */
#ifndef SKIP_LAW_H
#define SKIP_LAW_H

#include "run.h"

/* What is wrong in that the library's skip stood or moved, or in what one that stood did; null if nothing is. */
const char *skip_fault(const struct run *r);

#endif

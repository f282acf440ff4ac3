/* Comparing: what a call left in the library's buffers, with what it must have left. */
#ifndef COMPARE_H
#define COMPARE_H

#include "run.h"

/* Where two buffers differ, or a byte is not what it must be. */
struct difference {
    const char *what;
    const char *part;
    size_t at;
    unsigned library, expected;
};

/* The names of the lent buffers. */
extern const char *const part_name[PARTS];

/* The first byte in which two stretches differ; they do. */
size_t first_difference(const uint8_t *a, const uint8_t *b);

/* Whether a store or a buffer that the call was lent differs from the second program's, or a canary was written; tells where. */
bool buffers_differ(const struct run *r, struct difference *d);

/* Whether a refused call changed what it must not, whatever the second program did; tells where. */
bool refusal_changes(const struct run *r, struct difference *d);

/* Whether a call for feet of paper changed a store, whatever the second program did; tells where. */
bool feet_change_store(const struct run *r, struct difference *d);

/* What is wrong in what the library's answer tells of unprintable positions, whatever the second program did; null if nothing is. */
const char *telling_fault(const struct run *r);

/* What is wrong in what a call did to the library's page, its marks or those of a copy, whatever the second program did; null if nothing is. */
const char *page_fault(const struct run *r);

#endif

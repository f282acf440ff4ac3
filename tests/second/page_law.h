/* T-02's law, counted over one program's calls: channel minus stacker is pages released less pages cancelled less pages stacked. */
#ifndef PAGE_LAW_H
#define PAGE_LAW_H

#include "calls.h"

/* Pages since Start, the latest restart, or counters that the driver set. */
struct page_law {
    unsigned released, cancelled, stacked;
};

/* Counts one call, by its answer and the state before it. */
void law_count(struct page_law *l, const struct call *c, uint64_t answer, const uint8_t *before);

/* What is wrong in what a call did about the counters, by the law and by the states before and after it; null if nothing is. */
const char *counting_fault(const struct page_law *l, const struct call *c, uint64_t answer, const uint8_t *before, const uint8_t *after);

#endif

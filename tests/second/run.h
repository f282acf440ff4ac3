/* One run: lists of calls on both programs, until a call on which they differ. */
#ifndef RUN_H
#define RUN_H

#include "calls.h"
#include "counts.h"
#include "lent.h"
#include "page_law.h"

struct options {
    unsigned long long calls, lists, pairs, seed;
    bool guard_all, meet_all;
};

/* The sets of both programs, the stores as they were before the call, and the pages that the library's calls counted. */
struct run {
    struct options options;
    struct set plain, guarded, second;
    const struct set *library;
    uint8_t *before[STORES];
    unsigned long long list, call_in_list, calls_made;
    struct generator generator;
    struct call call;
    uint64_t library_answer, second_answer;
    struct page_law law;
    struct counts counts;
};

/* How many lists so many calls make, so that calm ones have 1,000 calls or more if there are so many. */
unsigned long long usual_lists(unsigned long long calls);

/* Makes the sets, and room for the stores before the call. */
void make_buffers(struct run *r);

/* Lays out the stores and buffers of the run's list, and begins its generator. */
void begin_list(struct run *r);

/* Makes the run's call on both programs, and counts it; false once a difference has been printed. */
bool run_call(struct run *r);

/* Runs all lists; false once a difference has been printed. */
bool run_lists(struct run *r);

#endif

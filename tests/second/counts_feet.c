/* The counts of calls for feet of paper (T-04). */
#include "counts.h"

/* A call that is refused with 16, by why. */
static void add_refused(struct feet_counts *n, const struct call *c)
{
    bool bad_form = !form_is_taken(c->form), bad_copies = !copies_are_taken(c->copies);
    n->bad_form += bad_form && !bad_copies;
    n->no_copies += !bad_form && c->copies == 0;
    n->many_copies += !bad_form && bad_copies && c->copies != 0;
    n->bad_both += bad_form && bad_copies;
}

static void add_told(struct feet_counts *n, const struct call *c, const uint8_t *feet)
{
    const uint64_t longest = (uint64_t)PAGES_MOST * COPIES_MOST * forms[FORMS - 1];
    n->told++;
    n->no_pages += pages_of_feet(c) == 0;
    n->over_wrap += c->final < c->initial;
    n->most_pages += pages_of_feet(c) == PAGES_MOST;
    n->above_32_bits += paper_length(c) > UINT32_MAX;
    n->longest += paper_length(c) == longest;
    n->rounded[rounding_of(c, feet)] += pages_of_feet(c) != 0;
}

void feet_counts_add(struct feet_counts *n, const struct call *c, unsigned number, const uint8_t *feet)
{
    if (number == TRESTLEPIP_ACCEPTED)
        add_told(n, c, feet);
    else
        add_refused(n, c);
}

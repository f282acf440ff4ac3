/* Records for the FCB load: good, and near misses of each of its four checks. */
#include "making.h"

#include <string.h>

static const uint8_t upper[] = { 0x00, 0x10, 0x30 };

/* The lines of an FCB, in half inches of 6, 8 or 12 lines per inch, from this spacing on; gives the count of bytes. */
static size_t fcb_lines(struct generator *g, unsigned form, uint8_t spacing, unsigned percent_change, uint8_t *fcb)
{
    size_t count = 0;
    for (unsigned half = 0; half < form / 12 && half < 24; half++) {
        spacing = percent(g, percent_change) ? upper[below(g, 3)] : spacing;
        memset(fcb + count, spacing, 12 / units(spacing));
        count += 12 / units(spacing);
    }
    return count;
}

/* Channels on the lines between the margins; `only` is the one to set, or 0 for any. */
static void fcb_channels(struct generator *g, unsigned percent_set, unsigned only, uint8_t *fcb, size_t count)
{
    size_t first = 12 / units(fcb[0]), last = count - 12 / units(fcb[count - 1]);
    for (size_t i = first; i < last; i++)
        if (percent(g, percent_set))
            fcb[i] = (uint8_t)((fcb[i] & 0xF0) + (only != 0 ? only : between(g, 1, 12)));
}

/* The lines of an FCB; on a calm printer often as many as there can be. */
static size_t fcb_some_lines(struct generator *g, unsigned form, uint8_t *fcb)
{
    static const unsigned change[] = { 0, 10, 50 };
    unsigned percent_change = change[below(g, COUNT(change))];
    if (g->calm && percent(g, 50))
        return fcb_lines(g, form, 0x30, 0, fcb);
    return fcb_lines(g, form, upper[below(g, COUNT(upper))], percent_change, fcb);
}

/* A channel on the last printable line, so that skips stop there. */
static void fcb_last_line(struct generator *g, uint8_t *fcb, size_t count)
{
    uint8_t *last = fcb + count - 12 / units(fcb[count - 1]) - 1;
    *last = (uint8_t)((*last & 0xF0) + between(g, 2, 12));
}

/* An FCB that the load takes, for a form of at least half an inch. */
static size_t fcb_taken(struct generator *g, unsigned form, uint8_t *fcb)
{
    static const unsigned set[] = { 0, 5, 20, 60, 100 }, only[] = { 0, 0, 0, 0, 9, 12 };
    size_t count = fcb_some_lines(g, form, fcb);
    unsigned percent_set = set[below(g, COUNT(set))];
    fcb_channels(g, percent_set, only[below(g, COUNT(only))], fcb, count);
    if (percent(g, 60) && count > 12)
        fcb[12 / units(fcb[0])] = (uint8_t)((fcb[12 / units(fcb[0])] & 0xF0) + 1);
    if (g->calm && percent(g, 60))
        fcb_last_line(g, fcb, count);
    return count;
}

/* A line put as two of 12 lines per inch: at 6 lines per inch the sum stays right, but the run does not. */
static size_t fcb_split_line(struct generator *g, uint8_t *fcb, size_t count)
{
    size_t at = below(g, count);
    memmove(fcb + at + 1, fcb + at, count - at);
    fcb[at] = fcb[at + 1] = 0x30;
    return count + 1;
}

/* A channel in a margin, most often on the line next to the printable ones. */
static void fcb_edge(struct generator *g, uint8_t *fcb, size_t count)
{
    size_t first = 12 / units(fcb[0]), last = 12 / units(fcb[count - 1]);
    size_t from_edge = percent(g, 60) ? 1 : between(g, 1, (unsigned)(first < last ? first : last));
    size_t at = percent(g, 50) ? first - from_edge : count - last + from_edge - 1;
    fcb[at] = (uint8_t)((fcb[at] & 0xF0) + between(g, 1, 12));
}

/* One fault of an FCB, near to what the load takes; gives the new count. */
static size_t fcb_fault(struct generator *g, uint8_t *fcb, size_t count)
{
    size_t at = below(g, count);
    switch (WEIGHTED(g, 2, 1, 1, 1, 1, 1, 1, 3)) {
    case 0: fcb[at] = (uint8_t)((fcb[at] & 0xF0) + between(g, 13, 15)); return count;
    case 1: fcb[at] = (uint8_t)((fcb[at] & 0x0F) + (percent(g, 50) ? 0x20 : between(g, 4, 15) * 16)); return count;
    case 2: return fcb_split_line(g, fcb, count);
    case 3: return count - 1;
    case 4: fcb[count] = fcb[count - 1]; return count + 1;
    case 5: return count - 12 / units(fcb[count - 1]);
    case 6: memset(fcb + count, 0, 3); return count + 3;
    default: fcb_edge(g, fcb, count); return count;
    }
}

/* The form for which an FCB is made: the one in use, or another; a damaged form may be too short for any. */
static unsigned fcb_form(struct generator *g, bool another)
{
    unsigned form = form_now(g);
    return another || form < 72 ? forms[below(g, COUNT(forms))] : form;
}

/* The record of an FCB load. */
void fcb_record(struct generator *g, struct call *c)
{
    c->record_len = fcb_taken(g, fcb_form(g, false), c->record);
    switch (WEIGHTED(g, 60, 27, 5, 3, 2, 2, 1)) {
    case 0: break;
    case 1: c->record_len = fcb_fault(g, c->record, c->record_len); break;
    case 2: c->record_len = fcb_fault(g, c->record, c->record_len - 4); break;
    case 3: c->record_len = fcb_taken(g, fcb_form(g, true), c->record); break;
    case 4: c->record_len = 6 * (size_t)between(g, 25, LOAD_MOST / 6); memset(c->record, percent(g, 50) ? 0x30 : 0x00, c->record_len); break;
    case 5: c->record_len = 0; break;
    default: c->record_len = LOAD_MOST + 1; break;
    }
}

/* T-02: the page counters, and the calls that change them alone. */
#include "parts.h"
#include "second.h"

/* The counters wrap, so the pages from one to the next are taken modulo 65,536. */
static unsigned pages_between(uint16_t counter, uint16_t later)
{
    return (uint16_t)(counter - later);
}

/* A page that is out is between two neighbours; all that are out together are never more than a Release lets out. */
bool counters_reachable(const struct counters *n)
{
    unsigned out = pages_between(n->channel, n->transfer) + pages_between(n->transfer, n->fuser) + pages_between(n->fuser, n->stacker);
    return out <= PAGES_OUT_MOST;
}

/* Number 13. */
bool most_pages_out(const struct counters *n)
{
    return pages_between(n->channel, n->stacker) == PAGES_OUT_MOST;
}

/* A page passes a station; 12 if all that passed the one before it have passed this one too. */
static unsigned pass(uint16_t one_before, uint16_t *station)
{
    if (*station == one_before)
        return 12;
    (*station)++;
    return 0;
}

static unsigned transferred(struct counters *n)
{
    return pass(n->channel, &n->transfer);
}

static unsigned fused(struct counters *n)
{
    return pass(n->transfer, &n->fuser);
}

static unsigned stacked(struct counters *n)
{
    return pass(n->fuser, &n->stacker);
}

static unsigned cancel(struct counters *n)
{
    n->channel = n->transfer;
    return 0;
}

static unsigned restart(struct counters *n)
{
    n->channel = n->transfer = n->fuser = n->stacker;
    return 0;
}

/* The answer of each of the five is its number alone, since status is 00; a refused one leaves the counters, so that all may be written back. */
#define TALLY_CALL(name) \
    uint64_t second_##name( \
            uint8_t *state, size_t state_len, const uint8_t *page, size_t page_len, \
            const uint8_t *legends, size_t legends_len, const uint8_t *tables, size_t tables_len) \
    { \
        struct printer p; \
        (void)tables; \
        if (!read_printer(state, state_len, page, page_len, legends, legends_len, tables_len, &p)) \
            return 9; \
        unsigned number = name(&p.pages); \
        encode(&p, state); \
        return number; \
    }

TALLY_CALL(transferred)
TALLY_CALL(fused)
TALLY_CALL(stacked)
TALLY_CALL(cancel)
TALLY_CALL(restart)

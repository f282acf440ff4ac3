/* Station, cancel and restart calls, and page counters for them to be made on. */
#include "making.h"

#include <string.h>

/* Chances in a thousand that a call is a station, cancel or restart call, by the pages that are out; what each of them is to get 9 for has one of
 * its own. */
enum { PERMILLE_NONE_OUT = 20, PERMILLE_SOME_OUT = 90, PERMILLE_MOST_OUT = 250, PERMILLE_DAMAGED = 400 };

enum { STATIONS = COUNTERS - 1, NEAR_WRAP = 6, FEW_OUT = 5 };

bool is_tally(const struct call *c)
{
    return c->kind >= CALL_TRANSFERRED;
}

unsigned counter_of(const uint8_t *state, unsigned counter)
{
    return trestlepip_page_counter(state, TRESTLEPIP_AT_CHANNEL_PAGE + 2 * counter);
}

/* ---- calls ---- */

/* Whether the counters, a mark or the way of skipping are bad: each of these calls is to get 9 for any of them. */
static bool is_damaged(const struct generator *g)
{
    return !trestlepip_counters_are_reachable(state_of(g)) || bad_mark_now(g) || state_of(g)[TRESTLEPIP_AT_SKIP] > TRESTLEPIP_OLD_WAY;
}

/* With the most pages out only these calls let a page be released, so they come often then. */
static unsigned permille_tally(const struct generator *g)
{
    unsigned out = trestlepip_pages_between(counter_of(state_of(g), CHANNEL), counter_of(state_of(g), STACKER));
    if (is_damaged(g))
        return PERMILLE_DAMAGED;
    return out == 0 ? PERMILLE_NONE_OUT : out == TRESTLEPIP_MOST_PAGES ? PERMILLE_MOST_OUT : PERMILLE_SOME_OUT;
}

bool tally_due(struct generator *g)
{
    return permille(g, permille_tally(g));
}

/* Whether a page can pass the station of this counter. */
static bool can_pass(const struct generator *g, unsigned counter)
{
    return counter_of(state_of(g), counter) != counter_of(state_of(g), counter - 1);
}

/* A page passes a station: mostly one that a page can pass, if there is one; any, if all are to get 9. */
static enum call_kind report(struct generator *g)
{
    bool any = is_damaged(g) || percent(g, 12);
    unsigned first = below(g, STATIONS), passed = 0;
    while (!any && passed < STATIONS && !can_pass(g, TRANSFER + (first + passed) % STATIONS))
        passed++;
    return (enum call_kind)(CALL_TRANSFERRED + (first + passed) % STATIONS);
}

/* Cancels and restarts come seldom, so that pages get far. */
void tally_call(struct generator *g, struct call *c)
{
    switch (is_damaged(g) ? WEIGHTED(g, 60, 20, 20) : WEIGHTED(g, 92, 5, 3)) {
    case 0: c->kind = report(g); break;
    case 1: c->kind = CALL_CANCEL; break;
    default: c->kind = CALL_RESTART; break;
    }
}

/* ---- counters ---- */

/* How far a counter is ahead of the stacker, if the one before it is so far ahead. */
static unsigned ahead_of_stacker(struct generator *g, unsigned most)
{
    switch (WEIGHTED(g, 20, 15, 25, 15, 25)) {
    case 0: return 0;
    case 1: return most == 0 ? 0 : 1;
    case 2: return most;
    case 3: return most == 0 ? 0 : most - 1;
    default: return below(g, (size_t)most + 1);
    }
}

/* How many pages are out: a few, nearly the most, or any number. */
static unsigned pages_out(struct generator *g, unsigned most)
{
    switch (WEIGHTED(g, 30, 40, 30)) {
    case 0: return below(g, FEW_OUT + 1);
    case 1: return most - below(g, 3);
    default: return below(g, (size_t)most + 1);
    }
}

/* How far each counter is ahead of the stacker. */
static void choose_ahead(struct generator *g, unsigned out, unsigned ahead[COUNTERS])
{
    ahead[CHANNEL] = out;
    ahead[TRANSFER] = ahead_of_stacker(g, ahead[CHANNEL]);
    ahead[FUSER] = ahead_of_stacker(g, ahead[TRANSFER]);
    ahead[STACKER] = 0;
}

/* The counters' bytes; one of the four is often just before FFFF. */
static void put_counters(struct generator *g, const unsigned ahead[COUNTERS], uint8_t bytes[COUNTER_BYTES])
{
    unsigned near = below(g, COUNTERS), stacker = below(g, 0x10000);
    if (percent(g, 65))
        stacker = 0xFFFF - below(g, NEAR_WRAP) - ahead[near];
    for (unsigned i = 0; i < COUNTERS; i++) {
        bytes[2 * i] = (uint8_t)((stacker + ahead[i]) >> 8);
        bytes[2 * i + 1] = (uint8_t)(stacker + ahead[i]);
    }
}

void reachable_counters(struct generator *g, unsigned most_out, uint8_t bytes[COUNTER_BYTES])
{
    unsigned ahead[COUNTERS], out = pages_out(g, most_out);
    choose_ahead(g, out, ahead);
    put_counters(g, ahead, bytes);
}

/* The stacker a page past the fuser, and perhaps past those before it, up to the channel. */
static void move_stacker_on(struct generator *g, unsigned ahead[COUNTERS])
{
    const unsigned one_behind = 0xFFFF;
    ahead[FUSER] = one_behind;
    if (percent(g, 50))
        ahead[TRANSFER] = one_behind;
    if (ahead[TRANSFER] == one_behind && percent(g, 50))
        ahead[CHANNEL] = one_behind;
}

void unreachable_counters(struct generator *g, uint8_t bytes[COUNTER_BYTES])
{
    unsigned ahead[COUNTERS], out = pages_out(g, TRESTLEPIP_MOST_PAGES);
    choose_ahead(g, out, ahead);
    switch (below(g, 4)) {
    case 0: choose_ahead(g, TRESTLEPIP_MOST_PAGES + 1, ahead); break;
    case 1: ahead[TRANSFER] = ahead[CHANNEL] + 1; break;
    case 2: ahead[FUSER] = ahead[TRANSFER] + 1; break;
    default: move_stacker_on(g, ahead); break;
    }
    put_counters(g, ahead, bytes);
}

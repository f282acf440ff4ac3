/* Calls for feet of paper: numbers of Feet at the edges of what it takes, and past them. */
#include "making.h"

/* Chances in a thousand that a call is one of these. */
enum { PERMILLE_FEET = 25 };

enum { NEAR = 300, HALF_INCH = 12 };

uint16_t pages_of_feet(const struct call *c)
{
    return (uint16_t)(c->final - c->initial);
}

bool feet_due(struct generator *g)
{
    return permille(g, PERMILLE_FEET);
}

/* The pages from one identifier to the other: none, one, nearly the most or any number. */
static unsigned pages_between_identifiers(struct generator *g)
{
    switch (WEIGHTED(g, 12, 12, 18, 10, 48)) {
    case 0: return 0;
    case 1: return 1;
    case 2: return PAGES_MOST;
    case 3: return PAGES_MOST - below(g, NEAR);
    default: return below(g, 0x10000);
    }
}

/* The identifier at first: 0000, FFFF, just before FFFF or any. */
static unsigned initial_identifier(struct generator *g)
{
    switch (WEIGHTED(g, 15, 15, 20, 50)) {
    case 0: return 0;
    case 1: return 0xFFFF;
    case 2: return 0xFFFF - below(g, NEAR);
    default: return below(g, 0x10000);
    }
}

static uint32_t good_copies(struct generator *g)
{
    static const uint8_t edges[] = { 1, 2, COPIES_MOST - 1, COPIES_MOST };
    return percent(g, 40) ? edges[below(g, COUNT(edges))] : between(g, 1, COPIES_MOST);
}

/* Copies 0 or above 255, also such that their low bits are good. */
static uint32_t bad_copies(struct generator *g)
{
    static const uint32_t edges[] = { COPIES_MOST + 1, COPIES_MOST + 2, 65535, 65536, 65537, UINT32_MAX };
    switch (WEIGHTED(g, 40, 40, 20)) {
    case 0: return 0;
    case 1: return edges[below(g, COUNT(edges))];
    default: return (uint32_t)next(g) | (COPIES_MOST + 1);
    }
}

/* A form length that is mostly not listed: next to one that is, its half, in half inches as the manual has it, or with listed low bits. */
static uint32_t other_form(struct generator *g)
{
    uint32_t listed = forms[below(g, COUNT(forms))];
    switch (WEIGHTED(g, 20, 20, 10, 10, 20, 10, 10)) {
    case 0: return listed - 1;
    case 1: return listed + 1;
    case 2: return 0;
    case 3: return listed / 2;
    case 4: return listed / HALF_INCH;
    case 5: return listed + (percent(g, 50) ? 256 : 65536);
    default: return (uint32_t)next(g);
    }
}

/* Numbers whose product takes more than 32 bits, up to the largest. */
static void large_numbers(struct generator *g, struct call *c)
{
    c->final = (uint16_t)(c->initial - 1 - (percent(g, 50) ? 0 : below(g, NEAR)));
    c->copies = COPIES_MOST - below(g, 3);
    c->form = forms[FORMS - 1];
}

void feet_call(struct generator *g, struct call *c)
{
    c->kind = CALL_FEET;
    c->initial = (uint16_t)initial_identifier(g);
    c->final = (uint16_t)(c->initial + pages_between_identifiers(g));
    c->copies = percent(g, 75) ? good_copies(g) : bad_copies(g);
    c->form = percent(g, 75) ? forms[below(g, COUNT(forms))] : other_form(g);
    if (percent(g, 4))
        large_numbers(g, c);
}

/* T-02's law, and what a call may do about the counters, checked without the second program. */
#include "page_law.h"

#include <string.h>

static unsigned between_counters(const uint8_t *state, unsigned counter, unsigned later)
{
    return trestlepip_pages_between(counter_of(state, counter), counter_of(state, later));
}

/* Whether the driver set counters before the call, or may have by damage or its end. */
static bool were_set(const struct call *c)
{
    bool set = c->sets_counters;
    for (size_t i = 0; i < c->change_count; i++)
        set = set || (c->changes[i].store == STATE && c->changes[i].offset + c->changes[i].count > TRESTLEPIP_AT_CHANNEL_PAGE);
    return set;
}

/* Whether a Start wrote the state: a new printer's, or zeros. */
static bool starts_anew(const struct call *c)
{
    return c->kind == CALL_START && c->store_len[STATE] == store_size[STATE];
}

/* What the driver set counts as released, so that the count goes on from there. */
void law_count(struct page_law *l, const struct call *c, uint64_t answer, const uint8_t *before)
{
    bool taken = trestlepip_number(answer) == 0;
    if (were_set(c))
        *l = (struct page_law){ .released = between_counters(before, CHANNEL, STACKER) };
    if (starts_anew(c) || (c->kind == CALL_RESTART && taken))
        *l = (struct page_law){ 0 };
    l->released += c->kind == CALL_RELEASE && taken;
    l->stacked += c->kind == CALL_STACKED && taken;
    if (c->kind == CALL_CANCEL && taken)
        l->cancelled += between_counters(before, CHANNEL, TRANSFER);
}

/* A station, cancel or restart call may change the counters and nothing else, and answer with its number and nothing else. */
static bool does_more(const struct call *c, uint64_t answer, const uint8_t *before, const uint8_t *after)
{
    return is_tally(c) && (answer != trestlepip_number(answer) || memcmp(before, after, TRESTLEPIP_AT_CHANNEL_PAGE) != 0);
}

/* Whether another call than Start, Release and those five changed a counter. */
static bool counts_unasked(const struct call *c, const uint8_t *before, const uint8_t *after)
{
    bool may_count = c->kind == CALL_START || c->kind == CALL_RELEASE || is_tally(c);
    return !may_count && memcmp(before + TRESTLEPIP_AT_CHANNEL_PAGE, after + TRESTLEPIP_AT_CHANNEL_PAGE, COUNTER_BYTES) != 0;
}

const char *counting_fault(const struct page_law *l, const struct call *c, uint64_t answer, const uint8_t *before, const uint8_t *after)
{
    if (does_more(c, answer, before, after))
        return "a station, cancel or restart call did more than count";
    if (counts_unasked(c, before, after))
        return "a page counter changed, and the call counts none";
    if (between_counters(after, CHANNEL, STACKER) != trestlepip_pages_between(l->released, l->cancelled + l->stacked))
        return "channel minus stacker is not pages released less cancelled less stacked";
    return NULL;
}

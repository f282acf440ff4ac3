/* The counts of Start's choice, and of skips by where they begin (T-05). */
#include "counts.h"

#include "parts.h"

#include <string.h>

/* The way of skipping of a state that a call took. */
static unsigned way_of(const uint8_t *state)
{
    return state[TRESTLEPIP_AT_SKIP] == TRESTLEPIP_OLD_WAY ? TRESTLEPIP_OLD_WAY : TRESTLEPIP_NEW_WAY;
}

static bool is_written(const uint8_t *state)
{
    return state[TRESTLEPIP_AT_WRITTEN] == 1;
}

/* A Start of any answer. */
static void add_choice(struct skip_counts *n, const struct call *c, unsigned number)
{
    bool neither = !way_listed(c->skip), alone = form_listed(c->form) && pitches_listed(c->pitch);
    bool ten = number == TRESTLEPIP_BAD_FORM && neither;
    n->started[c->skip == TRESTLEPIP_OLD_WAY] += number == TRESTLEPIP_ACCEPTED;
    n->neither += ten && alone;
    n->neither_by_high_bits += ten && alone && way_listed(c->skip % 256);
    n->neither_and_form += ten && !alone;
    n->sizes_first += number == TRESTLEPIP_BAD_STORE && neither;
}

/* Whether another line of the page than the current one has anything on it. */
static bool has_other_lines(uint8_t *const before[STORES])
{
    static const uint8_t zeros[PAGE_BYTES];
    size_t end = (size_t)before[STATE][TRESTLEPIP_AT_LINE] * LINE_BYTES, begin = end - LINE_BYTES;
    return memcmp(before[PAGE], zeros, begin) != 0 || memcmp(before[PAGE] + end, zeros, PAGE_BYTES - end) != 0;
}

/* An immediate skip that stood. */
static void add_stood(struct skip_counts *n, unsigned channel, uint8_t *const before[STORES])
{
    const uint8_t *state = before[STATE];
    unsigned line = state[TRESTLEPIP_AT_LINE];
    n->stood_at_first += line == 1;
    n->stood_at_last += line == trestlepip_printable_lines(state);
    n->stood_later += line != 1;
    n->stood_among_lines += has_other_lines(before);
    n->stood_after_landing += n->landed;
    n->stood_at_9_or_12 += channel == 9 || channel == 12;
    n->stood_over_sense += !all_zero(state + TRESTLEPIP_AT_SENSE_0, TRESTLEPIP_SENSE_KEPT);
}

/* An accepted immediate skip that moved, by what the line had that it began on. */
static void add_moved(struct skip_counts *n, const struct call *c, const uint8_t *before)
{
    unsigned here = channel_of_line(before), channel = immediate_channel(c);
    bool new_way = way_of(before) == TRESTLEPIP_NEW_WAY, written = is_written(before);
    n->moved_written += new_way && written && here == channel;
    n->moved_old += !new_way && skips_where_it_stands(c, before);
    n->moved_other_channel += new_way && !written && here != channel && here != 0;
    n->moved_no_channel += new_way && !written && here == 0;
}

/* An immediate skip of any answer except 9. */
static void add_immediate(struct skip_counts *n, const struct call *c, uint64_t answer, uint8_t *const before[STORES])
{
    const uint8_t *state = before[STATE];
    unsigned number = trestlepip_number(answer);
    n->waits += number == TRESTLEPIP_PAGE_WAITING && way_of(state) == TRESTLEPIP_NEW_WAY && skips_where_it_stands(c, state);
    if (number != TRESTLEPIP_ACCEPTED)
        return;
    if (trestlepip_lines(answer) == 0)
        add_stood(n, immediate_channel(c), before);
    else
        add_moved(n, c, state);
}

/* An accepted write and skip. */
static void add_write_and_skip(struct skip_counts *n, const struct call *c, const uint8_t *before)
{
    n->write_and_skip[way_of(before)][is_written(before)] += channel_of_line(before) == write_channel(c);
}

/* Whether a skip has moved the form to a line of its channel. */
static bool has_landed(const struct call *c, uint64_t answer, const uint8_t *after)
{
    unsigned channel = immediate_channel(c) + write_channel(c);
    return channel != 0 && trestlepip_number(answer) == TRESTLEPIP_ACCEPTED && trestlepip_lines(answer) != 0 && channel_of_line(after) == channel;
}

/* Whether an accepted call does a reset. */
static bool resets(const struct call *c, uint64_t answer, const uint8_t *before)
{
    bool initializes = c->kind == CALL_COMMAND && c->command == TRESTLEPIP_INITIALIZE && !trestlepip_ready(answer);
    bool releases = c->kind == CALL_RELEASE && before[TRESTLEPIP_AT_RESET_DUE] == 1;
    return initializes || releases;
}

/* Number 9 on stores of right sizes: the calls that get it for the way of skipping alone. */
static void add_bad_way(struct skip_counts *n, const struct call *c, uint8_t *const before[STORES])
{
    struct printer p;
    decode(before[STATE], &p);
    bool bad = !way_listed(p.way);
    p.way = NEW_WAY;
    n->bad_way[c->kind] += bad && contents_of_a_printer(&p, before[PAGE], before[LEGENDS]);
}

/* A way of skipping that the driver set before this call, which took it. */
static void add_lent_way(struct skip_counts *n, const struct call *c, unsigned way)
{
    for (size_t i = 0; i < c->change_count; i++)
        n->lent[way] += c->changes[i].store == STATE && c->changes[i].offset == TRESTLEPIP_AT_SKIP;
}

/* A call of any answer except 9 that is lent the stores. */
static void add_judged(struct skip_counts *n, const struct call *c, uint64_t answer, uint8_t *const before[STORES])
{
    unsigned way = way_of(before[STATE]);
    bool taken = trestlepip_number(answer) == TRESTLEPIP_ACCEPTED;
    n->commands[way] += taken && c->kind == CALL_COMMAND;
    n->resets[way] += taken && resets(c, answer, before[STATE]);
    if (immediate_channel(c) != 0)
        add_immediate(n, c, answer, before);
    if (taken && write_channel(c) != 0)
        add_write_and_skip(n, c, before[STATE]);
    if (c->damaged[STATE])
        add_lent_way(n, c, way);
}

void skip_counts_add(struct skip_counts *n, const struct call *c, uint64_t answer, uint8_t *const before[STORES], const uint8_t *after)
{
    unsigned number = trestlepip_number(answer);
    if (c->kind == CALL_START)
        add_choice(n, c, number);
    if (judges_stores(c) && number != TRESTLEPIP_BAD_STORE)
        add_judged(n, c, answer, before);
    if (number == TRESTLEPIP_BAD_STORE && is_sized(c))
        add_bad_way(n, c, before);
    n->landed = has_landed(c, answer, after);
}

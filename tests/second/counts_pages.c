/* The counts of what was done with page counters (T-02), and with the marks of the page (T-03). */
#include "counts.h"

#include "parts.h"

#include <string.h>

/* ---- page counters ---- */

/* Whether no page is between a counter and a later one. */
static bool is_level(const uint8_t *state, unsigned counter, unsigned later)
{
    return counter_of(state, counter) == counter_of(state, later);
}

/* Counters that a call took from FFFF to 0000; one that steps back does not go so far. */
static void add_wraps(struct page_counts *n, const uint8_t *before, const uint8_t *after)
{
    for (unsigned i = 0; i < COUNTERS; i++)
        n->wrap[i] += counter_of(before, i) == 0xFFFF && counter_of(after, i) == 0;
}

/* A station, cancel or restart call of any answer. */
static void add_tally(struct page_counts *n, const struct call *c, unsigned number, const uint8_t *before)
{
    unsigned which = c->kind - CALL_TRANSFERRED;
    bool taken = number == TRESTLEPIP_ACCEPTED, cancels = taken && c->kind == CALL_CANCEL, restarts = taken && c->kind == CALL_RESTART;
    n->taken[which] += taken;
    n->none_between[which] += number == TRESTLEPIP_NONE_BETWEEN;
    n->cancel_of_pages += cancels && !is_level(before, CHANNEL, TRANSFER);
    n->cancel_of_none += cancels && is_level(before, CHANNEL, TRANSFER);
    n->restart_of_pages += restarts && !is_level(before, CHANNEL, STACKER);
    n->restart_of_none += restarts && is_level(before, CHANNEL, STACKER);
    n->while_waiting += (cancels || restarts) && before[TRESTLEPIP_AT_WAITING] == 1;
    n->over_wrap += (cancels || restarts) && counter_of(before, CHANNEL) < counter_of(before, TRANSFER);
}

/* A Release of any answer. */
static void add_release(struct page_counts *n, unsigned number, const uint8_t *before, const uint8_t *after)
{
    bool due = before[TRESTLEPIP_AT_RESET_DUE] == 1, counted = counter_of(before, CHANNEL) != counter_of(after, CHANNEL);
    unsigned out = trestlepip_pages_between(counter_of(after, CHANNEL), counter_of(after, STACKER));
    n->reset_counts += counted && due;
    n->most_out += counted && out == TRESTLEPIP_MOST_PAGES;
    n->reset_waits += number == TRESTLEPIP_MOST_BETWEEN && due;
}

/* Whether a state would be a printer's if its counters were others. */
static bool is_bad_by_counters(const struct printer *p, uint8_t *const before[STORES])
{
    struct printer other = *p;
    other.pages = (struct counters){ 0 };
    return contents_of_a_printer(&other, before[PAGE], before[LEGENDS]);
}

/* Number 9 on stores of right sizes: the calls that get it for the counters alone, and the ways in which these are off by one page. */
static void add_unreachable(struct page_counts *n, const struct call *c, uint8_t *const before[STORES])
{
    struct printer p;
    decode(before[STATE], &p);
    if (!is_bad_by_counters(&p, before))
        return;
    n->unreachable[c->kind]++;
    n->stacker_ahead += p.pages.stacker == (uint16_t)(p.pages.fuser + 1);
    n->fuser_ahead += p.pages.fuser == (uint16_t)(p.pages.transfer + 1);
    n->transfer_ahead += p.pages.transfer == (uint16_t)(p.pages.channel + 1);
    n->too_many_out += p.pages.channel == (uint16_t)(p.pages.stacker + PAGES_OUT_MOST + 1);
}

void page_counts_add(struct page_counts *n, const struct call *c, unsigned number, uint8_t *const before[STORES], const uint8_t *after)
{
    if (number == TRESTLEPIP_BAD_STORE && is_sized(c))
        add_unreachable(n, c, before);
    if (number == 0 && (c->kind == CALL_RELEASE || is_tally(c)))
        add_wraps(n, before[STATE], after);
    if (is_tally(c))
        add_tally(n, c, number, before[STATE]);
    if (c->kind == CALL_RELEASE)
        add_release(n, number, before[STATE], after);
}

/* ---- marks: writes ---- */

bool has_mark(const uint8_t *cells, size_t count)
{
    for (size_t i = 0; i < count; i++)
        if (trestlepip_mark_at(cells, i) != 0)
            return true;
    return false;
}

static enum code_class class_of(uint8_t code)
{
    unsigned location = trestlepip_location(code);
    return location == TRESTLEPIP_BLANK ? IS_BLANK : location == TRESTLEPIP_UNDERSCORE ? IS_UNDERSCORE : IS_CHARACTER;
}

/* The same for a new code, by the old one that it merges with. */
static enum code_class class_upon(uint8_t old, uint8_t code)
{
    return class_of(code) == IS_CHARACTER && code == old ? IS_SAME : class_of(code);
}

/* The code that a write brings to a cell of its line, counted from 0. */
static uint8_t code_brought(const struct call *c, uint8_t *const before[STORES], size_t i)
{
    uint8_t fill = code_of(before, 0x40), code = i < c->record_len ? code_of(before, c->record[i]) : fill;
    if (!is_unprintable(before, code))
        return code;
    return is_unprintable(before, fill) ? 0x00 : fill;
}

/* A later write on a line: each way in which a cell of it merges counts once. */
static void add_merge(struct mark_counts *n, const struct call *c, uint8_t *const before[STORES], const uint8_t *line)
{
    bool seen[2][OLD_CLASSES][NEW_CLASSES] = { 0 };
    for (size_t i = 0; i < LINE_CELLS; i++) {
        uint8_t old = trestlepip_code_at(line, i);
        seen[trestlepip_mark_at(line, i) != 0][class_of(old)][class_upon(old, code_brought(c, before, i))] = true;
    }
    for (unsigned mark = 0; mark < 2; mark++)
        for (unsigned old = 0; old < OLD_CLASSES; old++)
            for (unsigned new = 0; new < NEW_CLASSES; new++)
                n->merged[mark][old][new] += seen[mark][old][new];
}

/* An accepted write. */
static void add_marking(struct mark_counts *n, const struct call *c, uint8_t *const before[STORES])
{
    const uint8_t *line = before[PAGE] + (before[STATE][TRESTLEPIP_AT_LINE] - 1) * LINE_BYTES;
    if (before[STATE][TRESTLEPIP_AT_WRITTEN])
        add_merge(n, c, before, line);
    else
        n->first_over_marks += has_mark(line, LINE_CELLS);
}

/* ---- marks: copies ---- */

/* What a copy has met; each of the three counts once. */
struct copy_marks {
    bool shows, covers, covers_same;
};

/* A line of a copy that is not all the page's: a mark of the page that is not there has been covered. */
static void look_at_covered(struct copy_marks *m, const uint8_t *page, const uint8_t *copy)
{
    for (size_t i = 0; i < LINE_CELLS; i++) {
        bool covered = trestlepip_mark_at(page, i) != 0 && trestlepip_mark_at(copy, i) == 0;
        m->covers = m->covers || covered;
        m->covers_same = m->covers_same || (covered && trestlepip_code_at(page, i) == trestlepip_code_at(copy, i));
    }
}

/* An accepted Compose. */
static void add_marked_copy(struct mark_counts *n, uint8_t *const before[STORES], const uint8_t *out)
{
    struct copy_marks m = { 0 };
    size_t length = (size_t)trestlepip_printable_lines(before[STATE]) * LINE_BYTES;
    for (size_t at = 0; at < length; at += LINE_BYTES) {
        m.shows = m.shows || has_mark(out + at, LINE_CELLS);
        if (memcmp(before[PAGE] + at, out + at, LINE_BYTES) != 0)
            look_at_covered(&m, before[PAGE] + at, out + at);
    }
    n->copy_shows += m.shows;
    n->copy_covers += m.covers;
    n->copy_covers_same += m.covers_same;
}

/* ---- marks: damage ---- */

/* The cells of a page whose marks are above 1: how many, and which are the first and the last. */
struct bad_marks {
    size_t count, first, last;
};

static struct bad_marks find_bad_marks(const uint8_t *page)
{
    struct bad_marks b = { 0 };
    for (size_t i = 0; i < PAGE_LINES * LINE_CELLS; i++)
        if (trestlepip_mark_at(page, i) > 1) {
            b.first = b.count == 0 ? i : b.first;
            b.last = i;
            b.count++;
        }
    return b;
}

/* A page with one bad mark: where it is, and what. */
static void add_bad_mark(struct mark_counts *n, size_t cell, uint8_t mark)
{
    n->bad_first_cell += cell == 0;
    n->bad_last_cell += cell == PAGE_LINES * LINE_CELLS - 1;
    n->bad_02 += mark == 0x02;
    n->bad_80 += mark == 0x80;
    n->bad_ff += mark == 0xFF;
    n->bad_other += mark != 0x02 && mark != 0x80 && mark != 0xFF;
}

/* Number 9 on stores of right sizes: the calls that get it for marks alone, so that with another page the stores would be a printer's. */
static void add_bad_page(struct mark_counts *n, const struct call *c, uint8_t *const before[STORES])
{
    static const uint8_t blank_page[PAGE_BYTES];
    struct printer p;
    decode(before[STATE], &p);
    if (!contents_of_a_printer(&p, blank_page, before[LEGENDS]))
        return;
    struct bad_marks b = find_bad_marks(before[PAGE]);
    size_t end = (size_t)printable_lines(&p) * LINE_CELLS;
    n->bad_up_to_p[c->kind] += b.last < end;
    n->bad_past_p[c->kind] += b.first >= end;
    if (b.count == 1)
        add_bad_mark(n, b.first, trestlepip_mark_at(before[PAGE], b.first));
}

/* Marks of 0 and 1 that the driver set before this call, which took them. */
static void add_lent(struct mark_counts *n, const struct call *c, const uint8_t *page)
{
    bool seen[2][OLD_CLASSES] = { 0 };
    for (size_t i = 0; i < c->change_count; i++) {
        const struct change *x = &c->changes[i];
        for (size_t cell = x->offset / CELL_BYTES; x->store == PAGE && CELL_BYTES * cell + 1 < x->offset + x->count; cell++)
            seen[trestlepip_mark_at(page, cell) != 0][class_of(trestlepip_code_at(page, cell))] = true;
    }
    for (unsigned mark = 0; mark < 2; mark++)
        for (unsigned code = 0; code < OLD_CLASSES; code++)
            n->lent[mark][code] += seen[mark][code];
}

void mark_counts_add(struct mark_counts *n, const struct call *c, unsigned number, uint8_t *const before[STORES], const uint8_t *out)
{
    bool taken = number == TRESTLEPIP_ACCEPTED;
    if (taken && writes(c))
        add_marking(n, c, before);
    if (taken && c->kind == CALL_COMPOSE)
        add_marked_copy(n, before, out);
    if (number == TRESTLEPIP_BAD_STORE && is_sized(c))
        add_bad_page(n, c, before);
    if (number != TRESTLEPIP_BAD_STORE && judges_stores(c) && c->damaged[PAGE])
        add_lent(n, c, before[PAGE]);
}

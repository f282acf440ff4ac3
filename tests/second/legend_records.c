/* Records for the copy modification load: segments that it takes, and near misses. */
#include "making.h"

#include <string.h>

/* The copies and lines of a segment: mostly some that the page has. */
static void segment_place(struct generator *g, uint8_t *s)
{
    unsigned first = state_of(g)[TRESTLEPIP_AT_COPY_NUMBER] + below(g, copies_now(g));
    s[0] = (uint8_t)(percent(g, 85) && first <= 255 && first != 0 ? first : between(g, 1, 255));
    s[1] = (uint8_t)(percent(g, 70) ? between(g, 1, copies_now(g) < 255 ? copies_now(g) : 255) : between(g, 1, 255));
    s[2] = (uint8_t)(percent(g, 85) ? between(g, 1, lines_now(g)) : between(g, 1, 255));
    s[3] = (uint8_t)(percent(g, 85) ? between(g, 1, 4) : between(g, 1, 255));
}

/* A segment of so many positions, with text. */
static void segment(struct generator *g, uint8_t *s, unsigned positions)
{
    unsigned most = 205 - positions;
    segment_place(g, s);
    s[4] = (uint8_t)(percent(g, 20) ? most : percent(g, 40) ? between(g, 1, most < 12 ? most : 12) : between(g, 1, most));
    s[5] = (uint8_t)positions;
    text(g, s + HEAD, positions);
}

/* The positions of the next segment, so that no rest too short for one is left. */
static unsigned segment_positions(struct generator *g, unsigned wanted, size_t left)
{
    unsigned positions = between(g, 1, wanted);
    if (HEAD + positions + SEGMENT_LEAST <= left)
        return positions;
    return left <= HEAD + LINE_CELLS ? (unsigned)left - HEAD : positions - SEGMENT_LEAST;
}

/* Segments that fill exactly so many bytes, at least 7. */
static void segments(struct generator *g, struct call *c, size_t total, unsigned wanted)
{
    size_t at = 0;
    while (at < total) {
        unsigned positions = segment_positions(g, wanted, total - at);
        segment(g, c->record + at, positions);
        at += HEAD + positions;
    }
    c->record_len = total;
}

/* As much text as a load takes: all of it unprintable, or the last position of one segment alone. */
static void segments_of_most_text(struct generator *g, struct call *c)
{
    const size_t size = HEAD + LINE_CELLS, count = TEXT_MOST / LINE_CELLS;
    uint8_t same = byte_by_table(g, percent(g, 50));
    for (size_t at = 0; at < count * size; at += size) {
        segment(g, c->record + at, LINE_CELLS);
        memset(c->record + at + HEAD, same, LINE_CELLS);
    }
    size_t last = size * below(g, count) + size - 1;
    c->record[last] = byte_by_table(g, false);
    c->record_len = count * size;
}

/* The place of one of the segments of a record that the load takes. */
static size_t some_segment(struct generator *g, const struct call *c)
{
    size_t at = 0;
    unsigned on = below(g, 4);
    while (on-- > 0 && at + HEAD + c->record[at + 5] < c->record_len)
        at += HEAD + (size_t)c->record[at + 5];
    return at;
}

/* One fault of a copy modification. */
static void legends_fault(struct generator *g, struct call *c)
{
    size_t at = some_segment(g, c);
    switch (below(g, 6)) {
    case 0: c->record[at + below(g, HEAD)] = 0; break;
    case 1: c->record[at + 4] = (uint8_t)(206 - c->record[at + 5]); break;
    case 2: c->record[at + 4] = c->record[at + 5] = 255; break;
    case 3: c->record_len = at + below(g, HEAD); break;
    case 4: c->record_len = at + HEAD + below(g, c->record[at + 5]); break;
    default: c->record[at + 5] = (uint8_t)(c->record[at + 5] + 1); break;
    }
}

/* The bytes of a copy modification, from one segment to a full store. */
static size_t legends_total(struct generator *g)
{
    switch (WEIGHTED(g, 20, 60, 14, 3, 2, 1)) {
    case 0: return between(g, 7, 30);
    case 1: return between(g, 30, 250);
    case 2: return between(g, 250, 1200);
    case 3: return LOAD_MOST;
    case 4: return between(g, LOAD_MOST - 8, LOAD_MOST - 1);
    default: return between(g, 1200, LOAD_MOST);
    }
}

/* The record of a copy modification load. */
void legends_record(struct generator *g, struct call *c)
{
    static const unsigned wanted[] = { 1, 4, 12, 40, 204 };
    size_t total = legends_total(g);
    segments(g, c, total, wanted[below(g, COUNT(wanted))]);
    if (permille(g, 20))
        segments_of_most_text(g, c);
    if (percent(g, 22))
        legends_fault(g, c);
    if (permille(g, 10))
        any_record(g, c, LOAD_MOST + 1);
}

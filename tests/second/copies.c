/* Copies and legends; T-01; T-03. */
#include "parts.h"

#include <string.h>

/* The six bytes that begin a segment. */
enum { FIRST_COPY, COPIES, FIRST_LINE, LINES, FIRST_POSITION, POSITIONS };

/* Copies and legends: the copies of all pairs together. */
static unsigned sum_of_counts(const uint8_t *pairs, size_t count)
{
    unsigned sum = 0;
    for (size_t i = 0; i < count; i += 2)
        sum += pairs[i];
    return sum;
}

/* Copies and legends: a zero count or a mark other than 0 and 1. */
static bool bad_pair(const uint8_t *pairs, size_t count)
{
    for (size_t i = 0; i < count; i += 2)
        if (pairs[i] == 0 || pairs[i + 1] > 1)
            return true;
    return false;
}

/* Copies and legends: 1 to 8 whole pairs is judged first, as cause 6, then the pairs, as cause 7. */
unsigned sequence_cause(const uint8_t *pairs, size_t count)
{
    if (count == 0 || count > TRESTLEPIP_SEQUENCE_MOST || count % 2 != 0)
        return 6;
    if (bad_pair(pairs, count) || sum_of_counts(pairs, count) > 255)
        return 7;
    return 0;
}

/* Copies and legends: how many copies a page has. */
unsigned copies_in_all(const struct printer *p)
{
    return sum_of_counts(p->sequence, p->sequence_count);
}

/* Copies and legends: the mark of the pair to which a copy index belongs; the index is not above the copies. */
unsigned mark_of_copy(const struct printer *p, unsigned copy)
{
    unsigned pair = 0, copies = p->sequence[0];
    while (copies < copy) {
        pair += 2;
        copies += p->sequence[pair];
    }
    return p->sequence[pair + 1];
}

/* Copies and legends: a zero among the six bytes. */
static bool zero_among_six(const uint8_t *segment)
{
    for (unsigned i = 0; i < SEGMENT_HEAD; i++)
        if (segment[i] == 0)
            return true;
    return false;
}

/* Copies and legends: first position plus positions outside 2 to 205. */
static bool positions_outside(const uint8_t *segment)
{
    unsigned sum = (unsigned)segment[FIRST_POSITION] + segment[POSITIONS];
    return sum < 2 || sum > 205;
}

/* Copies and legends: the six bytes are judged before their text; as causes 9 and 10. */
static unsigned segment_cause(const uint8_t *segment, size_t left)
{
    if (left < SEGMENT_HEAD)
        return 9;
    if (zero_among_six(segment) || positions_outside(segment))
        return 10;
    if (left - SEGMENT_HEAD < segment[POSITIONS])
        return 9;
    return 0;
}

/* Copies and legends: a segment's bytes with its text. */
static size_t segment_size(const uint8_t *segment)
{
    return (size_t)SEGMENT_HEAD + segment[POSITIONS];
}

/* Copies and legends: segments in record order, the first fault reported; an empty record is cause 9. */
unsigned legends_cause(const uint8_t *record, size_t count)
{
    if (count == 0)
        return 9;
    for (size_t at = 0; at < count; at += segment_size(record + at)) {
        unsigned cause = segment_cause(record + at, count - at);
        if (cause != 0)
            return cause;
    }
    return 0;
}

/* Numbers: legends that are empty or that their load takes, and 00 after them. */
bool legends_as_stored(const uint8_t *legends)
{
    size_t at = 0;
    while (at < LEGEND_BYTES && legends[at] != 0) {
        if (segment_cause(legends + at, LEGEND_BYTES - at) != 0)
            return false;
        at += segment_size(legends + at);
    }
    return all_zero(legends + at, LEGEND_BYTES - at);
}

/* T-01: the place is that in the first text which has one, and the number is over all text. */
static struct findings joined(struct findings before, struct findings next)
{
    return (struct findings){
        .first_unprintable = before.first_unprintable != 0 ? before.first_unprintable : next.first_unprintable,
        .unprintables = before.unprintables + next.unprintables,
        .no_table = before.no_table || next.no_table,
    };
}

/* Copies and legends: the record is stored as it is, with its text translated. */
struct findings load_legends(const struct printer *p, const uint8_t *tables, const uint8_t *record, size_t count, uint8_t *legends)
{
    struct findings found = { 0 };
    memset(legends, 0, LEGEND_BYTES);
    memcpy(legends, record, count);
    for (size_t at = 0; at < count; at += segment_size(record + at)) {
        size_t text = at + SEGMENT_HEAD;
        found = joined(found, translate(p, tables, record + text, record[at + POSITIONS], legends + text));
    }
    return found;
}

/* Copies and legends: the segment after this one, the first for a null pointer, and null after the last. */
const uint8_t *next_segment(const uint8_t *legends, const uint8_t *segment)
{
    const uint8_t *next = segment == NULL ? legends : segment + segment_size(segment);
    return next == legends + LEGEND_BYTES || *next == 0 ? NULL : next;
}

/* Copies and legends: by copy number, which is not reduced. */
bool segment_covers_copy(const uint8_t *segment, unsigned number)
{
    return number >= segment[FIRST_COPY] && number < (unsigned)segment[FIRST_COPY] + segment[COPIES];
}

/* T-03: a legend cell replaces the code and has mark 0. */
static void lay_text(const uint8_t *segment, uint8_t *line)
{
    for (unsigned i = 0; i < segment[POSITIONS]; i++)
        put_cell(line, segment[FIRST_POSITION] - 1u + i, (struct cell){ segment[SEGMENT_HEAD + i], 0 });
}

/* Copies and legends: the text on each line of the segment that the form has. */
static void lay_segment(const uint8_t *segment, unsigned last_line, uint8_t *out)
{
    for (unsigned i = 0; i < segment[LINES]; i++) {
        unsigned line = segment[FIRST_LINE] + i;
        if (line <= last_line)
            lay_text(segment, out + (line - 1) * LINE_BYTES);
    }
}

/* Copies and legends: the page's cells, then the segments in order, so that the last one to cover a cell stands. */
void compose_copy(const struct printer *p, unsigned number, const uint8_t *page, const uint8_t *legends, uint8_t *out)
{
    unsigned last_line = printable_lines(p);
    memcpy(out, page, (size_t)last_line * LINE_BYTES);
    for (const uint8_t *s = next_segment(legends, NULL); s != NULL; s = next_segment(legends, s))
        if (segment_covers_copy(s, number))
            lay_segment(s, last_line, out);
}

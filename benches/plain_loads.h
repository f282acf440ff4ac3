/* The five loads: the cause of a load check, and what an accepted record does. */
#ifndef PLAIN_LOADS_H
#define PLAIN_LOADS_H

#include "plain_line.h"

/* Form and forms control: a line's units by its upper half, 0 where that is no spacing. */
static const uint8_t units[16] = { 4, 3, 0, 2 };

/* The sum of units, or FCB_ODD where an upper half is no spacing or a run is not whole half inches. */
enum { FCB_ODD = -1 };

static inline int sum_of_units(const uint8_t *fcb, size_t n)
{
    int sum = 0;
    for (size_t i = 0; i < n; i++) {
        bool change = i != 0 && fcb[i] >> 4 != fcb[i - 1] >> 4;
        if (units[fcb[i] >> 4] == 0 || (change && sum % HALF_INCH != 0))
            return FCB_ODD;
        sum += units[fcb[i] >> 4];
    }
    return sum % HALF_INCH == 0 ? sum : FCB_ODD;
}

static inline bool any_channel_above_12(const uint8_t *fcb, size_t n)
{
    uint8_t bad = 0;
    for (size_t i = 0; i < n; i++)
        bad |= (fcb[i] & 0x0F) > 12;
    return bad != 0;
}

static inline bool any_channel(const uint8_t *fcb, size_t n)
{
    uint8_t all = 0;
    for (size_t i = 0; i < n; i++)
        all |= fcb[i] & 0x0F;
    return all != 0;
}

static inline size_t lines_in_half(uint8_t fcb_byte)
{
    return HALF_INCH / (size_t)units[fcb_byte >> 4];
}

static inline enum trestlepip_causes fcb_cause(unsigned halves, const uint8_t *fcb, size_t n)
{
    if (any_channel_above_12(fcb, n))
        return TRESTLEPIP_FCB_CHANNEL;
    int sum = sum_of_units(fcb, n);
    if (sum == FCB_ODD)
        return TRESTLEPIP_FCB_SPACING;
    if (sum != (int)halves * HALF_INCH)
        return TRESTLEPIP_FCB_SUM;
    size_t last = lines_in_half(fcb[n - 1]);
    return any_channel(fcb, lines_in_half(fcb[0])) || any_channel(fcb + n - last, last) ? TRESTLEPIP_FCB_EDGE : TRESTLEPIP_NO_CAUSE;
}

/* The record has been judged: every half inch has one spacing. The form goes to line 1. */
static inline void load_fcb(struct printer *p, const uint8_t *fcb, size_t n)
{
    memset(p->spacing, 0, HALVES);
    memset(p->channel, 0, CHANNELS);
    size_t at = 0;
    for (unsigned half = 0; half < p->halves; half++) {
        p->spacing[half] = (uint8_t)lines_in_half(fcb[at]);
        at += p->spacing[half];
    }
    size_t first = p->spacing[0], last = p->spacing[p->halves - 1];
    for (size_t i = first; i < n - last; i++)
        p->channel[i - first] = fcb[i] & 0x0F;
    p->line = 1;
}

static inline enum trestlepip_causes sequence_cause(const uint8_t *pairs, size_t n)
{
    if (n == 0 || n > 2 * PAIRS || n % 2 != 0)
        return TRESTLEPIP_SEQUENCE_PAIRS;
    unsigned total = 0;
    bool bad = false;
    for (size_t i = 0; i < n; i += 2) {
        bad |= pairs[i] == 0 || pairs[i + 1] > 1;
        total += pairs[i];
    }
    return bad || total > 255 ? TRESTLEPIP_SEQUENCE_COUNTS : TRESTLEPIP_NO_CAUSE;
}

static inline void load_sequence(struct printer *p, const uint8_t *pairs, size_t n)
{
    unsigned total = 0, overlay_marks = 0;
    memset(p->ends, 0, PAIRS);
    for (size_t i = 0; i < n / 2; i++) {
        total += pairs[2 * i];
        overlay_marks |= (unsigned)pairs[2 * i + 1] << i;
        p->ends[i] = (uint8_t)total;
    }
    p->pairs = (uint8_t)(n / 2);
    p->overlay_marks = (uint8_t)overlay_marks;
}

static inline enum trestlepip_causes legends_cause(const uint8_t *record, size_t n)
{
    if (n == 0)
        return TRESTLEPIP_SEGMENT_ENDS;
    size_t end = sound_end(record, n);
    if (end == n)
        return TRESTLEPIP_NO_CAUSE;
    return n - end < SEGMENT_HEAD || !head_bad(record + end) ? TRESTLEPIP_SEGMENT_ENDS : TRESTLEPIP_SEGMENT_FIELDS;
}

/* T-01: those of a text, and then of the next. */
static inline struct unprintables both(struct unprintables a, struct unprintables b)
{
    return (struct unprintables){ a.count == 0 ? b.first : a.first, a.count + b.count };
}

/* The segments with their text through the table, then 00. */
static inline struct findings load_legends(const struct printer *p, const uint8_t *record, size_t n, uint8_t *legends, const uint8_t *tables)
{
    const uint8_t *table = serving(p, tables);
    struct findings found = { .causes = loaded(p) ? 0 : UNLOADED };
    for (size_t at = 0; at < n; at += segment_size(record + at)) {
        memcpy(legends + at, record + at, SEGMENT_HEAD);
        look_up(legends + at + SEGMENT_HEAD, record + at + SEGMENT_HEAD, record[at + POSITIONS], table);
    }
    for (size_t at = 0; at < n; at += segment_size(record + at))
        found.unprintables = both(found.unprintables, replace_unprintable(legends + at + SEGMENT_HEAD, record[at + POSITIONS], p->pitches, table));
    memset(legends + n, 0, LEGEND_BYTES - n);
    return found;
}

static inline void load_table(struct printer *p, const uint8_t *record, uint8_t *tables)
{
    memcpy(tables + p->selected * SLOT_BYTES, record, SLOT_BYTES);
    p->flags |= (uint8_t)(LOADED_0 << p->selected);
}

#endif

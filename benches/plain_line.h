/* Writing a line. */
#ifndef PLAIN_LINE_H
#define PLAIN_LINE_H

#include "plain_state.h"

/* Causes of a data check, in sense byte 1. */
enum { UNPRINTABLE = 0x80, UNLOADED = 0x20, UNMATCHED = 0x10, COLLISION = 0x08 };

/* T-01: the first unprintable position of a text, from 1, or 0 for none; and how many there are. */
struct unprintables {
    unsigned first, count;
};

/* What a write or a legend load finds. */
struct findings {
    unsigned causes;
    struct unprintables unprintables;
};

static inline bool loaded(const struct printer *p)
{
    return (p->flags & LOADED_0 << p->selected) != 0;
}

/* The selected table, or table 0 where that is not loaded. */
static inline const uint8_t *serving(const struct printer *p, const uint8_t *tables)
{
    return loaded(p) ? tables + p->selected * SLOT_BYTES : tables;
}

static inline bool absent(unsigned pitches, unsigned module)
{
    return (pitches >> 2 * module & 3) == 0;
}

static inline bool unprintable(unsigned pitches, uint8_t code)
{
    return code == 0xFF || absent(pitches, code >> 6);
}

static inline uint8_t stand_in(unsigned pitches, const uint8_t *table)
{
    return unprintable(pitches, table[0x40]) ? 0 : table[0x40];
}

/* Module 0 is always fitted. */
static inline bool any_of_absent(const uint8_t *codes, size_t n, unsigned pitches)
{
    const uint8_t no_1 = absent(pitches, 1), no_2 = absent(pitches, 2), no_3 = absent(pitches, 3);
    uint8_t found = 0;
    for (size_t i = 0; i < n; i++) {
        uint8_t module = codes[i] >> 6;
        found |= ((module == 1) & no_1) | ((module == 2) & no_2) | ((module == 3) & no_3);
    }
    return found != 0;
}

static inline bool all_fitted(unsigned pitches)
{
    return !absent(pitches, 1) && !absent(pitches, 2) && !absent(pitches, 3);
}

static inline bool any_unprintable(const uint8_t *codes, size_t n, unsigned pitches)
{
    return memchr(codes, 0xFF, n) != NULL || (!all_fitted(pitches) && any_of_absent(codes, n, pitches));
}

/* Twelve at a time, of which 132 and 204 are multiples. Not `restrict`, by which the compiler would gather vectors, and take longer. */
static inline void look_up(uint8_t *codes, const uint8_t *bytes, size_t n, const uint8_t *table)
{
    for (; n >= 12; n -= 12, codes += 12, bytes += 12)
        for (unsigned i = 0; i < 12; i++)
            codes[i] = table[bytes[i]];
    for (size_t i = 0; i < n; i++)
        codes[i] = table[bytes[i]];
}

/* Stand-ins, in a pass that is made only where something is unprintable. */
static inline struct unprintables replace_unprintable(uint8_t *codes, size_t n, unsigned pitches, const uint8_t *table)
{
    struct unprintables found = { 0, 0 };
    if (!any_unprintable(codes, n, pitches))
        return found;
    const uint8_t other = stand_in(pitches, table);
    for (size_t i = 0; i < n; i++)
        if (unprintable(pitches, codes[i])) {
            codes[i] = other;
            if (found.count++ == 0)
                found.first = (unsigned)i + 1;
        }
    return found;
}

/* How readily a code gives way: a blank to all, an underscore to a character, a character to none. The module's bits are set, and so do not count. */
static inline uint8_t weakness(uint8_t code)
{
    uint8_t location = code | 0xC0;
    return (uint8_t)(2 * (location == (0xC0 | 0x00)) + (location == (0xC0 | 0x2D)));
}

/* T-03: codes as cells with mark 0: a first write, and a legend. */
static inline void set_cells(uint8_t *restrict cells, const uint8_t *restrict codes, size_t n)
{
    for (size_t i = 0; i < n; i++) {
        cells[CELL_BYTES * i] = codes[i];
        cells[CELL_BYTES * i + 1] = 0;
    }
}

/* Two different characters collide, and the old one stays. T-03: character and underscore set the mark. `^` has the compiler keep to bytes: `+` takes twice
 * as long. */
static inline unsigned merge(uint8_t *restrict line, const uint8_t *restrict codes)
{
    uint8_t collision = 0;
    for (unsigned i = 0; i < LINE_CELLS; i++) {
        uint8_t old = line[CELL_BYTES * i], new = codes[i], of_old = weakness(old), of_new = weakness(new);
        collision |= ((of_old | of_new) == 0) & (old != new);
        line[CELL_BYTES * i] = of_old > of_new ? new : old;
        line[CELL_BYTES * i + 1] |= (of_old ^ of_new) == 1;
    }
    return collision ? COLLISION : 0;
}

/* The stand-in goes to all codes first: a size that the compiler knows is quicker than just the rest. */
static inline struct unprintables fill_line(uint8_t *codes, const uint8_t *bytes, size_t n, unsigned pitches, const uint8_t *table)
{
    memset(codes, stand_in(pitches, table), LINE_CELLS);
    look_up(codes, bytes, n, table);
    return replace_unprintable(codes, n, pitches, table);
}

/* The codes of a line are made aside: a first write sets the line to them, a later one merges them. */
static inline struct findings write_line(const struct printer *p, const uint8_t *record, size_t n, uint8_t *page, const uint8_t *tables)
{
    uint8_t *line = page + (p->line - 1) * LINE_BYTES;
    uint8_t codes[LINE_CELLS];
    struct findings found = { loaded(p) ? 0 : UNLOADED, fill_line(codes, record, n, p->pitches, serving(p, tables)) };
    if (p->flags & WRITTEN)
        found.causes |= merge(line, codes);
    else
        set_cells(line, codes, LINE_CELLS);
    return found;
}

#endif

/* Writing a line; T-01; T-03. */
#include "parts.h"

#include <string.h>

/* Writing a line: FF for 00 to 3F, else the byte modulo 64. */
static void starting_table_0(uint8_t *table)
{
    for (unsigned byte = 0; byte < SLOT_BYTES; byte++)
        table[byte] = byte <= 0x3F ? 0xFF : (uint8_t)(byte % 64);
}

/* Reset and sense: the slots as after Initialize, 1 to 3 zeroed. */
void starting_tables(uint8_t *tables)
{
    memset(tables, 0, TABLE_BYTES);
    starting_table_0(tables);
}

/* Writing a line: FF, or a code of a module not fitted. */
static bool unprintable(const struct printer *p, uint8_t code)
{
    return code == 0xFF || p->pitch[code >> 6] == 0;
}

/* Writing a line: the table's code for 40, and 00 if that too is unprintable. */
static uint8_t stand_in(const struct printer *p, const uint8_t *table)
{
    return unprintable(p, table[0x40]) ? 0x00 : table[0x40];
}

/* Writing a line: the selected table, or table 0 where that isn't loaded. */
static const uint8_t *serving_table(const struct printer *p, const uint8_t *tables)
{
    return p->loaded[p->selected] ? tables + p->selected * SLOT_BYTES : tables;
}

/* T-01: the first unprintable position of a text, and how many there are. */
static void add_unprintable(struct findings *found, size_t position)
{
    if (found->unprintables == 0)
        found->first_unprintable = (unsigned)position;
    found->unprintables++;
}

/* Writing a line: bytes to codes; finds which are unprintable, and whether the selected table isn't loaded. */
struct findings translate(const struct printer *p, const uint8_t *tables, const uint8_t *bytes, size_t count, uint8_t *codes)
{
    const uint8_t *table = serving_table(p, tables);
    struct findings found = { .no_table = !p->loaded[p->selected] };
    for (size_t i = 0; i < count; i++) {
        uint8_t code = table[bytes[i]];
        bool replaced = unprintable(p, code);
        codes[i] = replaced ? stand_in(p, table) : code;
        if (replaced)
            add_unprintable(&found, i + 1);
    }
    return found;
}

/* T-03: a cell of a line, a page or a copy, counted from 0. */
struct cell cell_at(const uint8_t *cells, size_t i)
{
    return (struct cell){ cells[CELL_BYTES * i], cells[CELL_BYTES * i + 1] };
}

void put_cell(uint8_t *cells, size_t i, struct cell cell)
{
    cells[CELL_BYTES * i] = cell.code;
    cells[CELL_BYTES * i + 1] = cell.mark;
}

/* Writing a line: location 00 of any module. */
static bool blank(uint8_t code)
{
    return (code & 0x3F) == 0x00;
}

/* Writing a line: location 2D of any module. */
static bool underscore(uint8_t code)
{
    return (code & 0x3F) == 0x2D;
}

/* Writing a line, T-03: old cell then new code. Character with underscore is the one merge that sets the mark; two different characters collide. */
static struct cell merge(struct cell old, uint8_t new, bool *collide)
{
    if ((blank(old.code) && blank(new)) || (underscore(old.code) && underscore(new)) || old.code == new)
        return old;
    if (blank(old.code))
        return (struct cell){ new, old.mark };
    if (blank(new))
        return old;
    if (underscore(old.code))
        return (struct cell){ new, 1 };
    if (underscore(new))
        return (struct cell){ old.code, 1 };
    *collide = true;
    return old;
}

/* Writing a line: a later write merges by position; gives whether two characters collide. */
static bool merge_line(uint8_t *line, const uint8_t *codes)
{
    bool collide = false;
    for (unsigned i = 0; i < LINE_CELLS; i++)
        put_cell(line, i, merge(cell_at(line, i), codes[i], &collide));
    return collide;
}

/* Writing a line, T-03: the first write sets all cells, each without a mark. */
static void set_line(uint8_t *line, const uint8_t *codes)
{
    for (unsigned i = 0; i < LINE_CELLS; i++)
        put_cell(line, i, (struct cell){ codes[i], 0 });
}

/* Writing a line: the whole of a write, without its movement; the fill after the record is not translated, so it is never found. */
struct findings write_line(const struct printer *p, const uint8_t *tables, const uint8_t *record, size_t count, uint8_t *page)
{
    uint8_t codes[LINE_CELLS];
    uint8_t *line = page + (p->line - 1) * LINE_BYTES;
    memset(codes, stand_in(p, serving_table(p, tables)), LINE_CELLS);
    struct findings found = translate(p, tables, record, count, codes);
    if (p->written)
        found.multiple = merge_line(line, codes);
    else
        set_line(line, codes);
    return found;
}

/*
 * What stands in a cell of a page or a copy, by the header's readers of code and mark: after every merge, after piles of writes, under a legend. Which marks
 * are refused, and which codes are unprintable.
 */
#include "printer.h"

#include <stdio.h>
#include <string.h>

enum { FORM = 84, LINES = 15, BYTES = 256 };

/* What stands in a cell after one code and then another: the old one, unless it gives way. */
static uint8_t merged(uint8_t old, uint8_t new)
{
    unsigned o = trestlepip_location(old), n = trestlepip_location(new);
    bool to_anything = o == TRESTLEPIP_BLANK && n != TRESTLEPIP_BLANK;
    bool to_a_character = o == TRESTLEPIP_UNDERSCORE && n != TRESTLEPIP_UNDERSCORE && n != TRESTLEPIP_BLANK;
    return to_anything || to_a_character ? new : old;
}

static bool is_character(uint8_t code)
{
    return trestlepip_location(code) != TRESTLEPIP_BLANK && trestlepip_location(code) != TRESTLEPIP_UNDERSCORE;
}

static bool collides(uint8_t old, uint8_t new)
{
    return is_character(old) && is_character(new) && old != new;
}

/* Whether one of two codes is the underscore, and the other a character. */
static bool sets_mark(uint8_t old, uint8_t new)
{
    bool new_rules = is_character(old) && trestlepip_location(new) == TRESTLEPIP_UNDERSCORE;
    bool old_ruled = is_character(new) && trestlepip_location(old) == TRESTLEPIP_UNDERSCORE;
    return new_rules || old_ruled;
}

/* One code over another, in cell 1 of a line. */
static void check_merge(struct printer *p, uint8_t old, uint8_t new)
{
    printer_send(p, TRESTLEPIP_WRITE_NO_SPACE, &old, 1);
    check(trestlepip_mark_at(p->page, 0) == 0, "marked by a first write", old);
    uint64_t answer = printer_send(p, TRESTLEPIP_WRITE_NO_SPACE, &new, 1);
    bool unit_check = (trestlepip_status(answer) & TRESTLEPIP_STATUS_UNIT_CHECK) != 0;
    check(trestlepip_code_at(p->page, 0) == merged(old, new), "merged otherwise", old * 256u + new);
    check(trestlepip_mark_at(p->page, 0) == sets_mark(old, new), "marked otherwise", old * 256u + new);
    check(unit_check == collides(old, new), "checked otherwise", old * 256u + new);
    printer_send(p, TRESTLEPIP_CLEAR, NULL, 0);
    printer_release(p);
}

/* Every code over every code; FF is none. */
static void check_merges(struct printer *p)
{
    printer_start(p, FORM);
    printer_load_codes(p);
    for (unsigned old = 0; old < BYTES - 1; old++)
        for (unsigned new = 0; new < BYTES - 1; new++)
            check_merge(p, (uint8_t)old, (uint8_t)new);
}

/* Codes that are written one over the other, and what then stands in their cell: blanks, underscores and characters of modules 0 and 1. */
enum { B = TRESTLEPIP_BLANK, U = TRESTLEPIP_UNDERSCORE, B1 = 0x40 | B, U1 = 0x40 | U, C = 0x01, D = 0x02, C1 = 0x41, WRITES_MOST = 4 };
static const struct pile {
    uint8_t codes[WRITES_MOST];
    unsigned writes;
    uint8_t code, mark;
} piles[] = {
    {{C}, 1, C, 0}, {{U}, 1, U, 0}, {{B}, 1, B, 0},
    {{C, U}, 2, C, 1}, {{U, C}, 2, C, 1}, {{C, U1}, 2, C, 1}, {{U1, C}, 2, C, 1}, {{C1, U}, 2, C1, 1},
    {{B, U}, 2, U, 0}, {{U, B}, 2, U, 0}, {{U, U}, 2, U, 0}, {{U1, U}, 2, U1, 0}, {{B1, U}, 2, U, 0},
    {{B, C}, 2, C, 0}, {{C, B}, 2, C, 0}, {{C, C}, 2, C, 0}, {{C, D}, 2, C, 0}, {{C, C1}, 2, C, 0},
    {{C, U, B}, 3, C, 1}, {{C, U, U}, 3, C, 1}, {{C, U, C}, 3, C, 1}, {{C, U, D}, 3, C, 1}, {{U, C, D}, 3, C, 1}, {{U, C, B}, 3, C, 1},
    {{B, U, C}, 3, C, 1}, {{U, B, C}, 3, C, 1}, {{U, U, C}, 3, C, 1}, {{B, C, U}, 3, C, 1}, {{C, D, U}, 3, C, 1},
    {{C, U, D, B}, 4, C, 1}, {{B, U, B, C}, 4, C, 1},
};

enum { PILES = sizeof piles / sizeof *piles };

/* Writes a code at a position of the current line, and blanks before it. */
static void write_at(struct printer *p, unsigned position, uint8_t code)
{
    uint8_t record[TRESTLEPIP_LINE_CELLS] = {TRESTLEPIP_BLANK};
    record[position - 1] = code;
    printer_send(p, TRESTLEPIP_WRITE_NO_SPACE, record, position);
}

/* A line of the page or of a copy, from 1. */
static const uint8_t *line_of(const uint8_t *cells, unsigned line)
{
    return cells + (line - 1) * TRESTLEPIP_LINE_BYTES;
}

static unsigned marks_in(const uint8_t *cells, size_t count)
{
    unsigned marks = 0;
    for (size_t i = 0; i < count; i++)
        marks += trestlepip_mark_at(cells, i);
    return marks;
}

/* A legend on its line hides the mark in the copy, and not on the page; it may have the same code. */
static void check_copy(struct printer *p, const struct pile *pile, unsigned line, unsigned position, bool legend)
{
    static uint8_t copy[TRESTLEPIP_PAGE_BYTES];
    const size_t cells = (size_t)trestlepip_printable_lines(p->state) * TRESTLEPIP_LINE_CELLS;
    unsigned mark = legend ? 0 : pile->mark;
    check(accepted(trestlepip_compose(1, copy, cells * TRESTLEPIP_CELL_BYTES, STORES(p))), "not composed: pile", (unsigned)(pile - piles));
    check(trestlepip_code_at(line_of(copy, line), position - 1) == (legend ? C : pile->code), "another code in the copy: pile", (unsigned)(pile - piles));
    check(trestlepip_mark_at(line_of(copy, line), position - 1) == mark, "another mark in the copy: pile", (unsigned)(pile - piles));
    check(marks_in(copy, cells) == mark, "another cell marked in the copy: pile", (unsigned)(pile - piles));
}

/* One pile of writes, on a line and at a position; all other cells of the page are left unmarked. */
static void check_pile(struct printer *p, const struct pile *pile, unsigned line, unsigned position, bool legend)
{
    const uint8_t segment[] = {1, 1, (uint8_t)line, 1, (uint8_t)position, 1, C};
    printer_start(p, FORM);
    printer_load_codes(p);
    if (legend)
        printer_send(p, TRESTLEPIP_LOAD_COPY_MODIFICATION, segment, sizeof segment);
    for (unsigned i = 1; i < line; i++)
        printer_send(p, TRESTLEPIP_SPACE_1, NULL, 0);
    for (unsigned i = 0; i < pile->writes; i++)
        write_at(p, position, pile->codes[i]);
    check(trestlepip_code_at(line_of(p->page, line), position - 1) == pile->code, "another code: pile", (unsigned)(pile - piles));
    check(trestlepip_mark_at(line_of(p->page, line), position - 1) == pile->mark, "another mark: pile", (unsigned)(pile - piles));
    check(marks_in(p->page, TRESTLEPIP_PAGE_BYTES / TRESTLEPIP_CELL_BYTES) == pile->mark, "another cell marked: pile", (unsigned)(pile - piles));
    printer_send(p, TRESTLEPIP_CLEAR, NULL, 0);
    check_copy(p, pile, line, position, legend);
}

/* At both ends of a line and within it, on the first line, the second and the last of the form. */
static void check_piles(struct printer *p)
{
    static const unsigned places[][2] = {{1, 1}, {1, 2}, {1, TRESTLEPIP_LINE_CELLS}, {2, 1}, {2, 101}, {LINES, 1}, {LINES, TRESTLEPIP_LINE_CELLS}};
    for (unsigned i = 0; i < PILES; i++)
        for (unsigned j = 0; j < sizeof places / sizeof *places; j++) {
            check_pile(p, &piles[i], places[j][0], places[j][1], false);
            check_pile(p, &piles[i], places[j][0], places[j][1], true);
        }
}

/* Every call except Start refuses a mark above 1; a code may be anything. */
static void check_bad_mark(struct printer *p, size_t cell, unsigned value)
{
    printer_start(p, FORM);
    p->page[cell * TRESTLEPIP_CELL_BYTES] = (uint8_t)value;
    check(accepted(printer_send(p, TRESTLEPIP_NO_OP, NULL, 0)), "a code refused", value);
    p->page[cell * TRESTLEPIP_CELL_BYTES + 1] = (uint8_t)value;
    check(printer_refusals(p) == (value > 1 ? PRINTER_CALLS : 0), "another answer to mark", value);
}

/* In the first cell, in the last of line P and the first after it, and in the last of all. */
static void check_bad_marks(struct printer *p)
{
    static const size_t cells[] = {0, LINES * TRESTLEPIP_LINE_CELLS - 1, LINES * TRESTLEPIP_LINE_CELLS, TRESTLEPIP_PAGE_BYTES / TRESTLEPIP_CELL_BYTES - 1};
    for (unsigned i = 0; i < sizeof cells / sizeof *cells; i++)
        for (unsigned value = 0; value < BYTES; value++)
            check_bad_mark(p, cells[i], value);
}

/* A code is unprintable exactly if its module is not fitted, or it is FF. */
static void check_code(struct printer *p, uint8_t code, unsigned absent)
{
    uint64_t answer = printer_send(p, TRESTLEPIP_WRITE_NO_SPACE, &code, 1);
    bool unprintable = (trestlepip_status(answer) & TRESTLEPIP_STATUS_UNIT_CHECK) != 0;
    check(unprintable == (code == 0xFF || trestlepip_module(code) == absent), "the module of code", code);
    check(trestlepip_module(code) * 64 + trestlepip_location(code) == code, "module and location of code", code);
    printer_send(p, TRESTLEPIP_CLEAR, NULL, 0);
    printer_release(p);
}

/* With one module after the other absent; module 0 cannot be. */
static void check_modules(struct printer *p)
{
    for (unsigned absent = 1; absent <= TRESTLEPIP_MODULES; absent++) {
        uint32_t pitch[TRESTLEPIP_MODULES];
        for (unsigned i = 0; i < TRESTLEPIP_MODULES; i++)
            pitch[i] = i == absent ? 0 : 10;
        uint64_t answer = trestlepip_start(FORM, pitch[0], pitch[1], pitch[2], pitch[3], TRESTLEPIP_NEW_WAY, STORES(p));
        check(accepted(answer), "not started without module", absent);
        for (unsigned i = 0; i < TRESTLEPIP_MODULES; i++)
            check(p->state[TRESTLEPIP_AT_PITCH + i] == pitch[i], "the pitch of module", i);
        printer_load_codes(p);
        for (unsigned code = 0; code < BYTES; code++)
            check_code(p, (uint8_t)code, absent);
    }
}

int main(void)
{
    static struct printer p;
    check_merges(&p);
    check_piles(&p);
    check_bad_marks(&p);
    check_modules(&p);
    printf("cells: every code over every code, %u piles of writes, bad marks, modules, %u faults\n", (unsigned)PILES, faults());
    return faults() == 0 ? 0 : 1;
}

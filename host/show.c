/* What the spooler writes: the composed copies, as text. */
#include "morning.h"

#define COPY(name, way) {name, way},
const struct copy copies[COPIES] = {
#include "copies.def"
};
#undef COPY

static bool is_marked(const uint8_t *cells, size_t i)
{
    return trestlepip_mark_at(cells, i) != 0;
}

static bool is_underscore(const uint8_t *cells, size_t i)
{
    return trestlepip_location(trestlepip_code_at(cells, i)) == TRESTLEPIP_UNDERSCORE;
}

static char character_at(const uint8_t *cells, size_t i)
{
    uint8_t code = trestlepip_code_at(cells, i);
    return trestlepip_location(code) == TRESTLEPIP_BLANK ? ' ' : text_of_code(code);
}

/* On paper an underscore and the rule under a character are one line, so the row of the rule has both. */
static char rule_at(const uint8_t *cells, size_t i)
{
    return is_marked(cells, i) || is_underscore(cells, i) ? '-' : ' ';
}

static char character_above(const uint8_t *cells, size_t i)
{
    return is_underscore(cells, i) ? ' ' : character_at(cells, i);
}

/* Shows a line's cells as one row, each as this function has it, without the blanks at the end. */
static void show_row(FILE *to, const uint8_t *line, char (*shown)(const uint8_t *cells, size_t i))
{
    size_t count = TRESTLEPIP_LINE_CELLS;
    while (count > 0 && shown(line, count - 1) == ' ')
        count--;
    for (size_t i = 0; i < count; i++)
        fputc(shown(line, i), to);
    fputc('\n', to);
}

static bool is_ruled(const uint8_t *line)
{
    bool ruled = false;
    for (size_t i = 0; i < TRESTLEPIP_LINE_CELLS; i++)
        ruled = ruled || is_marked(line, i);
    return ruled;
}

/* A line that has a mark takes two rows. */
static void show_line(FILE *to, const uint8_t *line)
{
    bool ruled = is_ruled(line);
    show_row(to, line, ruled ? character_above : character_at);
    if (ruled)
        show_row(to, line, rule_at);
}

/* How many cells there are up to the last that is not blank; a mark under a blank is shown too. */
static size_t without_blanks(const uint8_t *cells, size_t count)
{
    while (count > 0 && character_at(cells, count - 1) == ' ' && !is_marked(cells, count - 1))
        count--;
    return count;
}

static void show_lines(FILE *to, const uint8_t *copy)
{
    size_t cells = without_blanks(copy, TRESTLEPIP_PAGE_BYTES / TRESTLEPIP_CELL_BYTES);
    for (size_t at = 0; at < cells; at += TRESTLEPIP_LINE_CELLS)
        show_line(to, copy + at * TRESTLEPIP_CELL_BYTES);
}

static void show_head(const struct spool *spool, unsigned number, unsigned mark)
{
    const struct sheet *sheet = spool->opened ? spool->opened : spool->sheet;
    fprintf(spool->sheets, "---- %ssheet %zu, copy %u (%s), overlay mark %u\n",
        spool->opened ? "divider before " : "", sheet->number, number, copies[number - 1].name, mark);
}

void show_copy(struct spool *spool, uint64_t answer)
{
    unsigned number = trestlepip_copy_number(answer);
    if (spool->only != 0 && spool->only != number)
        return;
    if (spool->begun)
        fputs(spool->between, spool->sheets);
    spool->begun = true;
    if (spool->heads)
        show_head(spool, number, trestlepip_mark(answer));
    show_lines(spool->sheets, spool->copy);
}

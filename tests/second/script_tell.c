/* Telling of a call that the script asked for, in the words of the program `rows`. */
#include "script_parts.h"

#include <string.h>

/* A number that is left out where it is 0. */
static void tell_count(FILE *to, const char *name, size_t count)
{
    if (count != 0)
        fprintf(to, " %s %zu", name, count);
}

static size_t count_unlike(const uint8_t *a, const uint8_t *b, size_t count)
{
    size_t unlike = 0;
    for (size_t i = 0; i < count; i++)
        unlike += a[i] != b[i];
    return unlike;
}

static size_t count_other(const uint8_t *bytes, uint8_t than, size_t count)
{
    size_t other = 0;
    for (size_t i = 0; i < count; i++)
        other += bytes[i] != than;
    return other;
}

static void tell_answer(FILE *to, uint64_t answer)
{
    fprintf(to, " | number %u", trestlepip_number(answer));
    tell_count(to, "cause", trestlepip_cause(answer));
    fprintf(to, " status %02X", trestlepip_status(answer));
    tell_count(to, "ready", trestlepip_ready(answer));
    tell_count(to, "lines", trestlepip_lines(answer));
    tell_count(to, "copy", trestlepip_copy_number(answer));
    tell_count(to, "mark", trestlepip_mark(answer));
    tell_count(to, "first", trestlepip_first_unprintable(answer));
    tell_count(to, "count", trestlepip_unprintables(answer));
}

/* The bytes of the page counters, left out where all are 00. */
static void tell_pages(FILE *to, const uint8_t *counters)
{
    if (count_other(counters, 0, COUNTER_BYTES) == 0)
        return;
    fprintf(to, " pages");
    for (size_t i = 0; i < COUNTER_BYTES; i++)
        fprintf(to, " %02X", counters[i]);
}

/* A cell as its two bytes, code then mark. */
static void tell_cell(FILE *to, const char *name, const uint8_t *cells, size_t i)
{
    fprintf(to, " %s %02X %02X", name, trestlepip_code_at(cells, i), trestlepip_mark_at(cells, i));
}

/* The sense, the current line, that line's first cell if the page has it, and the page counters. */
static void tell_state(FILE *to, const uint8_t *state, const uint8_t *page)
{
    size_t line = state[TRESTLEPIP_AT_LINE];
    fprintf(to, " | sense %02X %02X %02X .. %02X %02X line %zu", state[TRESTLEPIP_AT_SENSE_0], state[TRESTLEPIP_AT_SENSE_1], state[TRESTLEPIP_AT_SENSE_2],
            state[TRESTLEPIP_AT_SENSE_22], state[TRESTLEPIP_AT_SENSE_23], line);
    if (line != 0 && line * TRESTLEPIP_LINE_BYTES <= TRESTLEPIP_PAGE_BYTES)
        tell_cell(to, "cell", page, (line - 1) * TRESTLEPIP_LINE_CELLS);
    tell_pages(to, state + TRESTLEPIP_AT_CHANNEL_PAGE);
}

/* How many bytes of each store have changed, also of one byte after it; then how many are not 00. */
static void tell_stores(FILE *to, const struct player *p)
{
    fprintf(to, " | changed");
    for (enum store i = STATE; i <= TABLES; i++) {
        tell_count(to, parts[i].name, count_unlike(p->lent[i], p->before[i], parts[i].size + 1));
        if (i == STATE)
            tell_count(to, "sense", count_unlike(p->lent[i] + TRESTLEPIP_AT_SENSE_0, p->before[i] + TRESTLEPIP_AT_SENSE_0, TRESTLEPIP_SENSE_KEPT));
    }
    fprintf(to, " | filled");
    for (enum store i = STATE; i <= TABLES; i++)
        tell_count(to, parts[i].name, count_other(p->lent[i], 0, parts[i].size));
}

static void tell_copy(FILE *to, const uint8_t *copy, size_t count, const uint8_t *page)
{
    tell_cell(to, "cell 1", copy, 0);
    tell_cell(to, "cell 204", copy, TRESTLEPIP_LINE_CELLS - 1);
    tell_count(to, "filled", count_other(copy, 0, count));
    tell_count(to, "unlike", count_unlike(copy, page, count));
}

/* What the call wrote into the buffer: a copy, or the reply to Sense. */
static void tell_buffer(FILE *to, const struct player *p, const struct line *l, uint64_t answer)
{
    const uint8_t *b = p->lent[BUFFER];
    size_t written = count_other(b, parts[BUFFER].filler, parts[BUFFER].size + 1);
    tell_count(to, "| buffer", written);
    if (trestlepip_number(answer) != TRESTLEPIP_ACCEPTED)
        return;
    if (l->letter == 'C')
        tell_copy(to, b, written, p->lent[PAGE]);
    if (l->letter == COMMAND && l->given[0] == 0x04)
        fprintf(to, " reply %02X %02X %02X %02X .. %02X %02X", b[0], b[1], b[2], b[3], b[22], b[23]);
}

/* The eight bytes of the feet, high byte first; of Feet alone. */
static void tell_feet(FILE *to, const struct player *p, const struct line *l)
{
    uint64_t bits;
    if (l->letter != 'F')
        return;
    memcpy(&bits, &p->feet, sizeof bits);
    fprintf(to, " feet");
    for (unsigned shift = 64; shift != 0; shift -= 8)
        fprintf(to, " %02X", (unsigned)(bits >> (shift - 8) & 0xFF));
}

void tell_call(FILE *to, const struct player *p, const struct line *l, uint64_t answer)
{
    tell_answer(to, answer);
    tell_state(to, p->lent[STATE], p->lent[PAGE]);
    tell_stores(to, p);
    tell_buffer(to, p, l, answer);
    tell_feet(to, p, l);
}

/* Form and forms control; Movement; T-05. */
#include "parts.h"

#include <string.h>

/* Form and forms control: the lengths in 24ths of an inch, common-use and ISO. */
bool form_listed(uint32_t form)
{
    switch (form) {
    case 84: case 132: case 168: case 204: case 264:
    case 72: case 96: case 144: case 192: case 240: case 288:
        return true;
    default:
        return false;
    }
}

/* Form and forms control: one module's pitch, 0 if absent. */
static bool pitch_listed(uint32_t pitch)
{
    return pitch == 0 || pitch == 10 || pitch == 12 || pitch == 15;
}

/* Form and forms control: four pitches, and module 0 fitted. */
bool pitches_listed(const uint32_t pitch[TRESTLEPIP_MODULES])
{
    return pitch[0] != 0 && pitch_listed(pitch[0]) && pitch_listed(pitch[1]) && pitch_listed(pitch[2]) && pitch_listed(pitch[3]);
}

/* T-05: the new way or the old. */
bool way_listed(uint32_t way)
{
    return way == NEW_WAY || way == OLD_WAY;
}

/* Form and forms control: a line's units by the upper half, 0 where that is no spacing. */
static unsigned units(uint8_t fcb_byte)
{
    switch (fcb_byte >> 4) {
    case 0: return 4;
    case 1: return 3;
    case 3: return 2;
    default: return 0;
    }
}

/* Form and forms control: a line's channel, the lower half. */
static unsigned channel(uint8_t fcb_byte)
{
    return fcb_byte & 0x0Fu;
}

/* Form and forms control, check 1. */
static bool channel_above_12(const uint8_t *fcb, size_t count)
{
    for (size_t i = 0; i < count; i++)
        if (channel(fcb[i]) > 12)
            return true;
    return false;
}

/* Form and forms control, check 2: the first half. */
static bool another_upper_half(const uint8_t *fcb, size_t count)
{
    for (size_t i = 0; i < count; i++)
        if (units(fcb[i]) == 0)
            return true;
    return false;
}

/* Form and forms control, check 2: the second half; a run ends at a change and at the record's end. */
static bool run_not_half_inches(const uint8_t *fcb, size_t count)
{
    unsigned run = 0;
    for (size_t i = 0; i < count; i++) {
        run += units(fcb[i]);
        bool run_ends = i + 1 == count || units(fcb[i + 1]) != units(fcb[i]);
        if (run_ends && run % HALF_INCH != 0)
            return true;
        if (run_ends)
            run = 0;
    }
    return false;
}

/* Form and forms control, check 3: the sum of all lines. */
static unsigned sum_of_units(const uint8_t *fcb, size_t count)
{
    unsigned sum = 0;
    for (size_t i = 0; i < count; i++)
        sum += units(fcb[i]);
    return sum;
}

/* Form and forms control, check 4: the sum is the form length by now. */
static bool channel_at_an_edge(unsigned form, const uint8_t *fcb, size_t count)
{
    unsigned top = 0;
    for (size_t i = 0; i < count; i++) {
        bool edge = top < HALF_INCH || top >= form - HALF_INCH;
        if (edge && channel(fcb[i]) != 0)
            return true;
        top += units(fcb[i]);
    }
    return false;
}

/* Form and forms control: the four checks in order, as causes 1 to 4; 0 if none. */
unsigned fcb_cause(unsigned form, const uint8_t *fcb, size_t count)
{
    if (channel_above_12(fcb, count))
        return 1;
    if (another_upper_half(fcb, count) || run_not_half_inches(fcb, count))
        return 2;
    if (sum_of_units(fcb, count) != form)
        return 3;
    if (channel_at_an_edge(form, fcb, count))
        return 4;
    return 0;
}

/* Form and forms control: 6 lines per inch, channel 1 at line 1, which comes after three lines of margin. */
void starting_fcb(struct printer *p)
{
    memset(p->fcb, 0, TRESTLEPIP_FCB_MOST);
    p->fcb_count = p->form / 4;
    p->fcb[3] = 1;
}

/* Form and forms control: how many lines begin above a place that is measured in units from the fold. */
static unsigned lines_above(const struct printer *p, unsigned place)
{
    unsigned top = 0, lines = 0;
    while (lines < p->fcb_count && top < place)
        top += units(p->fcb[lines++]);
    return lines;
}

/* Form and forms control: P, the lines between the first and the last half inch. */
unsigned printable_lines(const struct printer *p)
{
    return lines_above(p, p->form - HALF_INCH) - lines_above(p, HALF_INCH);
}

/* Form and forms control: the FCB byte of line 1. */
static const uint8_t *first_printable(const struct printer *p)
{
    return p->fcb + lines_above(p, HALF_INCH);
}

/* Movement: space n, a line at a time, ended by the end of the page. */
struct movement space(const struct printer *p, unsigned lines)
{
    unsigned last = printable_lines(p);
    const uint8_t *fcb = first_printable(p);
    struct movement m = { .line = p->line };
    while (m.lines_moved < lines && !m.completes) {
        m.completes = m.line == last;
        m.line = m.completes ? 1 : m.line + 1;
        m.lines_moved++;
        m.channel_9 = m.channel_9 || channel(fcb[m.line - 1]) == 9;
        m.channel_12 = m.channel_12 || channel(fcb[m.line - 1]) == 12;
    }
    return m;
}

/* Movement: skip looks at the P lines after the current one, round the end of the form. */
struct movement skip(const struct printer *p, unsigned sought)
{
    unsigned last = printable_lines(p);
    const uint8_t *fcb = first_printable(p);
    for (unsigned looked = 1; looked <= last; looked++) {
        bool over = p->line + looked > last;
        unsigned line = over ? p->line + looked - last : p->line + looked;
        if (channel(fcb[line - 1]) == sought)
            return (struct movement){ .line = line, .lines_moved = looked, .completes = over };
    }
    return (struct movement){ .line = 1, .lines_moved = last, .completes = true, .no_match = true };
}

/* T-05: whether an immediate skip to this channel stands: in the new way, where the current line has the channel and nothing is written on it. */
bool skip_stands(const struct printer *p, unsigned sought)
{
    return p->way == NEW_WAY && !p->written && channel(first_printable(p)[p->line - 1]) == sought;
}

/* Movement: when a page is started. */
bool page_started(const struct printer *p)
{
    return p->line != 1 || p->written;
}

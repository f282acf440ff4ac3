/* What the generator sees of the printer: its stores may be damaged, so any bytes are taken. */
#include "making.h"

#include <string.h>

const uint8_t *state_of(const struct generator *g)
{
    return g->stores[STATE];
}

unsigned form_now(const struct generator *g)
{
    return state_of(g)[TRESTLEPIP_AT_FORM] * 256u + state_of(g)[TRESTLEPIP_AT_FORM + 1];
}

/* The units of an FCB byte; a damaged one counts as 6 lines per inch. */
unsigned units(uint8_t fcb_byte)
{
    return fcb_byte >> 4 == 3 ? 2 : fcb_byte >> 4 == 1 ? 3 : 4;
}

/* The printable lines, at least 1 and at most 132 for any bytes. */
unsigned lines_now(const struct generator *g)
{
    const uint8_t *s = state_of(g);
    unsigned top = 0, lines = 0;
    for (unsigned i = 0; i < s[TRESTLEPIP_AT_FCB_COUNT] && i < TRESTLEPIP_FCB_MOST; i++) {
        lines += top >= 12 && top + 12 < form_now(g);
        top += units(s[TRESTLEPIP_AT_FCB + i]);
    }
    return lines == 0 ? 1 : lines > LINES_MOST ? LINES_MOST : lines;
}

size_t line_place(const struct generator *g)
{
    size_t line = state_of(g)[TRESTLEPIP_AT_LINE];
    return line == 0 || line > LINES_MOST ? 0 : (line - 1) * LINE_CELLS;
}

uint8_t code_on_page(const struct generator *g, size_t cell)
{
    return trestlepip_code_at(g->stores[PAGE], cell);
}

/* Whether bytes that damage set hold a mark above 1; every odd byte of the page is a mark. */
static bool has_bad_mark(const struct generator *g, const struct change *set)
{
    for (size_t at = set->offset; at < set->offset + set->count; at++)
        if (at % TRESTLEPIP_CELL_BYTES != 0 && g->stores[PAGE][at] > 1)
            return true;
    return false;
}

bool bad_mark_now(const struct generator *g)
{
    for (size_t i = 0; i < g->undo_count; i++)
        if (g->undo[i].store == PAGE && has_bad_mark(g, &g->undo[i]))
            return true;
    return false;
}

/* The copies of the sequence, at least 1 for any bytes. */
unsigned copies_now(const struct generator *g)
{
    const uint8_t *s = state_of(g);
    unsigned copies = 0;
    for (unsigned i = 0; i < s[TRESTLEPIP_AT_SEQUENCE_COUNT] && i < TRESTLEPIP_SEQUENCE_MOST; i += 2)
        copies += s[TRESTLEPIP_AT_SEQUENCE + i];
    return copies == 0 ? 1 : copies;
}

bool started_now(const struct generator *g)
{
    return state_of(g)[TRESTLEPIP_AT_LINE] != 1 || state_of(g)[TRESTLEPIP_AT_WRITTEN] != 0;
}

bool written_now(const struct generator *g)
{
    return state_of(g)[TRESTLEPIP_AT_WRITTEN] == 1;
}

/* The lines are numbered from the one that begins half an inch below the fold. */
unsigned channel_of_line(const uint8_t *state)
{
    unsigned top = 0, line = 0;
    for (unsigned i = 0; i < state[TRESTLEPIP_AT_FCB_COUNT] && i < TRESTLEPIP_FCB_MOST; i++) {
        line += top >= 12;
        if (line != 0 && line == state[TRESTLEPIP_AT_LINE])
            return state[TRESTLEPIP_AT_FCB + i] % 16;
        top += units(state[TRESTLEPIP_AT_FCB + i]);
    }
    return 0;
}

bool skips_where_it_stands(const struct call *c, const uint8_t *state)
{
    unsigned channel = immediate_channel(c);
    return channel != 0 && channel_of_line(state) == channel && state[TRESTLEPIP_AT_WRITTEN] == 0;
}

/* A channel that some line of the FCB has, or any if the line looked at has none. */
unsigned channel_near(struct generator *g)
{
    const uint8_t *s = state_of(g);
    unsigned count = s[TRESTLEPIP_AT_FCB_COUNT] > TRESTLEPIP_FCB_MOST ? TRESTLEPIP_FCB_MOST : s[TRESTLEPIP_AT_FCB_COUNT];
    unsigned first = below(g, count);
    for (unsigned i = first; i < count; i++)
        if (s[TRESTLEPIP_AT_FCB + i] % 16 >= 1 && s[TRESTLEPIP_AT_FCB + i] % 16 <= 12)
            return s[TRESTLEPIP_AT_FCB + i] % 16u;
    return between(g, 1, 12);
}

static bool is_loaded(const struct generator *g, unsigned slot)
{
    return state_of(g)[TRESTLEPIP_AT_LOADED + slot] == 1;
}

/* A slot that is loaded, mostly one of the higher. */
unsigned slot_near(struct generator *g)
{
    unsigned slot = below(g, TRESTLEPIP_SLOTS);
    while (slot > 0 && !is_loaded(g, slot))
        slot--;
    return slot;
}

/* A slot that is not loaded: the selected one if it is not, else the lowest; the selected one if all are loaded. */
unsigned slot_to_load(const struct generator *g)
{
    unsigned selected = state_of(g)[TRESTLEPIP_AT_SELECTED] % TRESTLEPIP_SLOTS, slot = 0;
    while (slot < TRESTLEPIP_SLOTS && is_loaded(g, slot))
        slot++;
    return slot == TRESTLEPIP_SLOTS || !is_loaded(g, selected) ? selected : slot;
}

static const uint8_t *serving_table(const struct generator *g)
{
    unsigned selected = state_of(g)[TRESTLEPIP_AT_SELECTED] % TRESTLEPIP_SLOTS;
    return g->stores[TABLES] + (is_loaded(g, selected) ? selected : 0) * SLOT_BYTES;
}

/* Whether the table that serves can print a byte of a text. */
static bool is_printable(const struct generator *g, unsigned text_byte)
{
    uint8_t code = serving_table(g)[text_byte];
    return code != 0xFF && state_of(g)[TRESTLEPIP_AT_PITCH + trestlepip_module(code)] != 0;
}

void bytes_of_codes(const struct generator *g, uint8_t byte_of[SLOT_BYTES])
{
    memset(byte_of, 0x40, SLOT_BYTES);
    for (unsigned i = 0; i < SLOT_BYTES; i++)
        byte_of[serving_table(g)[i]] = (uint8_t)i;
}

/* A byte that the table which serves can print, or one that it cannot; any byte if there is none. */
uint8_t byte_by_table(struct generator *g, bool printable)
{
    unsigned first = byte(g), passed = 0;
    while (passed < SLOT_BYTES && is_printable(g, (first + passed) % SLOT_BYTES) != printable)
        passed++;
    return (uint8_t)(first + passed);
}

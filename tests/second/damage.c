/* Damage: bytes of the stores set for some calls, and put back. */
#include "making.h"

#include <string.h>

/* A byte that differs from the old one by little, or not by little. */
static uint8_t other_value(struct generator *g, uint8_t old)
{
    switch (below(g, 6)) {
    case 0: return (uint8_t)(old + 1);
    case 1: return (uint8_t)(old - 1);
    case 2: return (uint8_t)(old ^ (1u << below(g, 8)));
    case 3: return 0;
    case 4: return 0xFF;
    default: return byte(g);
    }
}

/* Where a store is damaged: in the state and the legends mostly where they are in use. */
static size_t damage_offset(struct generator *g, enum store store)
{
    if (store == STATE)
        return percent(g, 65) ? below(g, TRESTLEPIP_AT_SEQUENCE) : below(g, store_size[STATE]);
    if (store == LEGENDS && percent(g, 70))
        return percent(g, 80) ? below(g, 40) : store_size[LEGENDS] - 1 - below(g, 8);
    return below(g, store_size[store]);
}

/* Bytes are to be set before the call; the old ones are kept to be put back. */
static void set_bytes(struct generator *g, struct call *c, enum store store, size_t offset, const uint8_t *bytes, size_t count)
{
    struct change *undo = &g->undo[g->undo_count++], *change = &c->changes[c->change_count++];
    *undo = (struct change){ .store = store, .offset = offset, .count = count };
    *change = *undo;
    memcpy(undo->bytes, g->stores[store] + offset, count);
    memcpy(change->bytes, bytes, count);
}

static void set_byte(struct generator *g, struct call *c, enum store store, size_t offset, unsigned value)
{
    set_bytes(g, c, store, offset, (const uint8_t[]){ (uint8_t)value }, 1);
}

/* Any byte of any store. */
static void damage_byte(struct generator *g, struct call *c)
{
    enum store store = (enum store)WEIGHTED(g, 60, 10, 22, 8);
    size_t offset = damage_offset(g, store);
    set_byte(g, c, store, offset, other_value(g, g->stores[store][offset]));
}

/* A byte of the state, from the pitches to the reset due, set to a value next to its range. */
static void damage_field(struct generator *g, struct call *c)
{
    static const struct { uint8_t at, outside; } bytes[] = {
        { TRESTLEPIP_AT_PITCH, 0 }, { TRESTLEPIP_AT_PITCH + 1, 1 }, { TRESTLEPIP_AT_PITCH + 2, 11 }, { TRESTLEPIP_AT_PITCH + 3, 16 },
        { TRESTLEPIP_AT_SKIP, TRESTLEPIP_OLD_WAY + 1 }, { TRESTLEPIP_AT_BLOCK, 2 }, { TRESTLEPIP_AT_FCB_COUNT, TRESTLEPIP_FCB_MOST + 1 },
        { TRESTLEPIP_AT_LOADED, 0 }, { TRESTLEPIP_AT_LOADED + 1, 2 }, { TRESTLEPIP_AT_LOADED + 2, 2 }, { TRESTLEPIP_AT_LOADED + 3, 2 },
        { TRESTLEPIP_AT_SELECTED, TRESTLEPIP_SLOTS },
        { TRESTLEPIP_AT_SEQUENCE_COUNT, TRESTLEPIP_SEQUENCE_MOST + 2 }, { TRESTLEPIP_AT_COPY_NUMBER, 0 }, { TRESTLEPIP_AT_LINE, 133 },
        { TRESTLEPIP_AT_WRITTEN, 2 }, { TRESTLEPIP_AT_WAITING, 2 }, { TRESTLEPIP_AT_RESET_DUE, 2 }
    };
    unsigned i = below(g, COUNT(bytes));
    set_byte(g, c, STATE, bytes[i].at, bytes[i].outside);
}

/* The other way of skipping, which every call takes, or a byte that is neither. */
static void damage_way(struct generator *g, struct call *c)
{
    static const uint8_t neither[] = { 0x02, 0x03, 0x80, 0x81, 0xFF };
    bool is_new = state_of(g)[TRESTLEPIP_AT_SKIP] == TRESTLEPIP_NEW_WAY;
    unsigned bad = percent(g, 50) ? neither[below(g, COUNT(neither))] : between(g, TRESTLEPIP_OLD_WAY + 1, 0xFF);
    unsigned other = is_new ? TRESTLEPIP_OLD_WAY : TRESTLEPIP_NEW_WAY;
    set_byte(g, c, STATE, TRESTLEPIP_AT_SKIP, percent(g, 40) ? other : bad);
}

/* A page that waits though none was completed, in a state that is mostly a printer's otherwise. */
static void damage_to_waiting(struct generator *g, struct call *c)
{
    set_byte(g, c, STATE, TRESTLEPIP_AT_WRITTEN, percent(g, 15));
    set_byte(g, c, STATE, TRESTLEPIP_AT_WAITING, 1);
    set_byte(g, c, STATE, TRESTLEPIP_AT_RESET_DUE, below(g, 2));
}

/* Another line of the form, often the last or the one after it. */
static void damage_line(struct generator *g, struct call *c)
{
    unsigned last = lines_now(g);
    switch (below(g, 4)) {
    case 0: set_byte(g, c, STATE, TRESTLEPIP_AT_LINE, last); break;
    case 1: set_byte(g, c, STATE, TRESTLEPIP_AT_LINE, last + 1); break;
    case 2: set_byte(g, c, STATE, TRESTLEPIP_AT_LINE, between(g, 1, last)); break;
    default: set_byte(g, c, STATE, TRESTLEPIP_AT_LINE, 0); break;
    }
}

/* The call's record as an array of the state with its count, as far as there is room; 00 after it. */
static void set_array(struct generator *g, struct call *c, size_t at_count, size_t at, size_t most)
{
    size_t count = c->record_len < most ? c->record_len : most;
    memset(c->record + count, 0, most - count);
    set_byte(g, c, STATE, at_count, (unsigned)count);
    set_bytes(g, c, STATE, at, c->record, most);
}

/* A whole FCB in the state, taken by its load or not; the call's record is not made yet and serves to make it. */
static void damage_fcb(struct generator *g, struct call *c)
{
    memset(c->record, 0, CHANGE_MOST);
    fcb_record(g, c);
    set_array(g, c, TRESTLEPIP_AT_FCB_COUNT, TRESTLEPIP_AT_FCB, TRESTLEPIP_FCB_MOST);
}

/* A whole overlay sequence in the state, taken by its load or not. */
static void damage_sequence(struct generator *g, struct call *c)
{
    sequence_record(g, c);
    set_array(g, c, TRESTLEPIP_AT_SEQUENCE_COUNT, TRESTLEPIP_AT_SEQUENCE, TRESTLEPIP_SEQUENCE_MOST);
}

/* Legends over the front of the store, taken by their load or not. */
static void damage_legends(struct generator *g, struct call *c)
{
    legends_record(g, c);
    set_bytes(g, c, LEGENDS, 0, c->record, c->record_len < CHANGE_MOST ? c->record_len : CHANGE_MOST);
}

/* Any bytes on the page: half of them are marks, and mostly bad ones. */
static void damage_page(struct generator *g, struct call *c)
{
    uint8_t bytes[8];
    generator_fill(g, bytes, sizeof bytes);
    set_bytes(g, c, PAGE, below(g, store_size[PAGE] - sizeof bytes), bytes, sizeof bytes);
}

/* A cell of the page, counted from 0: up to line P, past it, next to where that line ends, the first or the last. */
static size_t some_cell(struct generator *g)
{
    const size_t last = PAGE_CELLS - 1, end = (size_t)lines_now(g) * LINE_CELLS, past = end > last ? last : end;
    switch (WEIGHTED(g, 30, 30, 10, 10, 10, 10)) {
    case 0: return below(g, end);
    case 1: return past + below(g, PAGE_CELLS - past);
    case 2: return end - 1;
    case 3: return past;
    case 4: return 0;
    default: return last;
    }
}

/* A mark that is neither 0 nor 1. */
static void damage_mark(struct generator *g, struct call *c)
{
    static const uint8_t marks[] = { 0x02, 0x80, 0xFF };
    size_t cell = some_cell(g);
    unsigned mark = percent(g, 60) ? marks[below(g, COUNT(marks))] : between(g, 2, 0xFF);
    set_byte(g, c, PAGE, TRESTLEPIP_CELL_BYTES * cell + 1, mark);
}

/* A cell that every call takes, whatever its code: marks on blanks and underscores too, which no writes lead to. */
static void good_cell(struct generator *g, uint8_t *cell)
{
    static const uint8_t codes[] = { 0x00, 0x00, 0x40, 0x2D, 0xAD, 0x01, 0x01, 0x02 };
    cell[0] = percent(g, 75) ? codes[below(g, COUNT(codes))] : byte(g);
    cell[1] = (uint8_t)below(g, 2);
}

/* Some such cells from a place on; only Start, Release and a first write on the line may clean them. */
static void set_good_cells(struct generator *g, struct call *c, size_t first)
{
    enum { CELLS = 8 };
    uint8_t cells[CELLS * TRESTLEPIP_CELL_BYTES];
    for (unsigned i = 0; i < CELLS; i++)
        good_cell(g, cells + TRESTLEPIP_CELL_BYTES * i);
    first = first > PAGE_CELLS - CELLS ? PAGE_CELLS - CELLS : first;
    set_bytes(g, c, PAGE, TRESTLEPIP_CELL_BYTES * first, cells, sizeof cells);
}

/* Such cells anywhere, or where the next write meets them: it mostly merges, as if the line were written. */
static void damage_cells(struct generator *g, struct call *c)
{
    const unsigned near = 12;
    bool on_line = percent(g, 60), may_be_written = state_of(g)[TRESTLEPIP_AT_WAITING] == 0;
    set_good_cells(g, c, on_line ? line_place(g) + below(g, near) : some_cell(g));
    if (on_line && may_be_written && percent(g, 80))
        set_byte(g, c, STATE, TRESTLEPIP_AT_WRITTEN, 1);
}

/* Counters that no calls can lead to. */
static void damage_counters(struct generator *g, struct call *c)
{
    uint8_t bytes[COUNTER_BYTES];
    unreachable_counters(g, bytes);
    set_bytes(g, c, STATE, TRESTLEPIP_AT_CHANNEL_PAGE, bytes, sizeof bytes);
}

/* The stores are damaged for this call and some after it. */
static void damage(struct generator *g, struct call *c)
{
    g->damage_left = between(g, 2, 6);
    switch (started_now(g) ? WEIGHTED(g, 50, 12, 12, 8, 5, 8, 10, 12, 50, 25, 20, 4) : WEIGHTED(g, 40, 7, 7, 8, 5, 8, 8, 12, 60, 25, 20, 6)) {
    case 0: damage_byte(g, c); break;
    case 1: damage_to_waiting(g, c); break;
    case 2: damage_line(g, c); break;
    case 3: damage_fcb(g, c); break;
    case 4: damage_sequence(g, c); break;
    case 5: damage_legends(g, c); break;
    case 6: damage_field(g, c); break;
    case 7: damage_counters(g, c); break;
    case 8: damage_cells(g, c); break;
    case 9: damage_mark(g, c); break;
    case 10: damage_way(g, c); break;
    default: damage_page(g, c); break;
    }
    if (g->undo_count < CHANGES_MOST && percent(g, 12))
        damage_byte(g, c);
    c->record_len = 0;
}

/* The damage ends: mostly the old bytes are put back, last first; else what came of it stays. */
static void end_damage(struct generator *g, struct call *c)
{
    bool put_back = percent(g, 80);
    while (g->undo_count > 0) {
        g->undo_count--;
        if (put_back)
            c->changes[c->change_count++] = g->undo[g->undo_count];
    }
}

/* Damage begins, goes on or ends before this call. */
void tend_damage(struct generator *g, struct call *c)
{
    if (g->undo_count > 0 && --g->damage_left == 0)
        end_damage(g, c);
    else if (g->undo_count == 0 && g->made > 1 && permille(g, started_now(g) ? 16 : 53))
        damage(g, c);
    for (size_t i = 0; i < g->undo_count; i++)
        c->damaged[g->undo[i].store] = true;
}

/* The state's bytes, and the contents that no printer has; T-03's marks among these. */
#include "parts.h"

#include <string.h>

/* STATE.md: the fields of one byte, in its order. */
static void decode_singles(const uint8_t *bytes, struct printer *p)
{
    p->way = bytes[TRESTLEPIP_AT_SKIP];
    p->block = bytes[TRESTLEPIP_AT_BLOCK];
    p->fcb_count = bytes[TRESTLEPIP_AT_FCB_COUNT];
    p->selected = bytes[TRESTLEPIP_AT_SELECTED];
    p->sequence_count = bytes[TRESTLEPIP_AT_SEQUENCE_COUNT];
    p->copy_number = bytes[TRESTLEPIP_AT_COPY_NUMBER];
    p->line = bytes[TRESTLEPIP_AT_LINE];
    p->written = bytes[TRESTLEPIP_AT_WRITTEN];
    p->waiting = bytes[TRESTLEPIP_AT_WAITING];
    p->reset_due = bytes[TRESTLEPIP_AT_RESET_DUE];
}

/* STATE.md: a number of two bytes, high byte first. */
static uint16_t decode_double(const uint8_t *bytes)
{
    return (uint16_t)(bytes[0] * 256u + bytes[1]);
}

static void encode_double(unsigned number, uint8_t *bytes)
{
    bytes[0] = (uint8_t)(number / 256u);
    bytes[1] = (uint8_t)(number % 256u);
}

/* STATE.md: the counters, read and written. */
static void decode_counters(const uint8_t *bytes, struct counters *n)
{
    n->channel = decode_double(bytes + TRESTLEPIP_AT_CHANNEL_PAGE);
    n->transfer = decode_double(bytes + TRESTLEPIP_AT_TRANSFER_PAGE);
    n->fuser = decode_double(bytes + TRESTLEPIP_AT_FUSER_PAGE);
    n->stacker = decode_double(bytes + TRESTLEPIP_AT_STACKER_PAGE);
}

static void encode_counters(const struct counters *n, uint8_t *bytes)
{
    encode_double(n->channel, bytes + TRESTLEPIP_AT_CHANNEL_PAGE);
    encode_double(n->transfer, bytes + TRESTLEPIP_AT_TRANSFER_PAGE);
    encode_double(n->fuser, bytes + TRESTLEPIP_AT_FUSER_PAGE);
    encode_double(n->stacker, bytes + TRESTLEPIP_AT_STACKER_PAGE);
}

/* STATE.md, read; any bytes are taken here and judged later. */
void decode(const uint8_t *bytes, struct printer *p)
{
    p->form = decode_double(bytes + TRESTLEPIP_AT_FORM);
    decode_singles(bytes, p);
    for (unsigned i = 0; i < TRESTLEPIP_MODULES; i++)
        p->pitch[i] = bytes[TRESTLEPIP_AT_PITCH + i];
    for (unsigned i = 0; i < TRESTLEPIP_SLOTS; i++)
        p->loaded[i] = bytes[TRESTLEPIP_AT_LOADED + i];
    memcpy(p->sense, bytes + TRESTLEPIP_AT_SENSE_0, TRESTLEPIP_SENSE_KEPT);
    memcpy(p->sequence, bytes + TRESTLEPIP_AT_SEQUENCE, TRESTLEPIP_SEQUENCE_MOST);
    memcpy(p->fcb, bytes + TRESTLEPIP_AT_FCB, TRESTLEPIP_FCB_MOST);
    decode_counters(bytes, &p->pages);
}

/* STATE.md: the fields of one byte again, written. */
static void encode_singles(const struct printer *p, uint8_t *bytes)
{
    bytes[TRESTLEPIP_AT_SKIP] = (uint8_t)p->way;
    bytes[TRESTLEPIP_AT_BLOCK] = (uint8_t)p->block;
    bytes[TRESTLEPIP_AT_FCB_COUNT] = (uint8_t)p->fcb_count;
    bytes[TRESTLEPIP_AT_SELECTED] = (uint8_t)p->selected;
    bytes[TRESTLEPIP_AT_SEQUENCE_COUNT] = (uint8_t)p->sequence_count;
    bytes[TRESTLEPIP_AT_COPY_NUMBER] = (uint8_t)p->copy_number;
    bytes[TRESTLEPIP_AT_LINE] = (uint8_t)p->line;
    bytes[TRESTLEPIP_AT_WRITTEN] = (uint8_t)p->written;
    bytes[TRESTLEPIP_AT_WAITING] = (uint8_t)p->waiting;
    bytes[TRESTLEPIP_AT_RESET_DUE] = (uint8_t)p->reset_due;
}

/* STATE.md, written. */
void encode(const struct printer *p, uint8_t *bytes)
{
    encode_double(p->form, bytes + TRESTLEPIP_AT_FORM);
    encode_singles(p, bytes);
    for (unsigned i = 0; i < TRESTLEPIP_MODULES; i++)
        bytes[TRESTLEPIP_AT_PITCH + i] = (uint8_t)p->pitch[i];
    for (unsigned i = 0; i < TRESTLEPIP_SLOTS; i++)
        bytes[TRESTLEPIP_AT_LOADED + i] = (uint8_t)p->loaded[i];
    memcpy(bytes + TRESTLEPIP_AT_SENSE_0, p->sense, TRESTLEPIP_SENSE_KEPT);
    memcpy(bytes + TRESTLEPIP_AT_SEQUENCE, p->sequence, TRESTLEPIP_SEQUENCE_MOST);
    memcpy(bytes + TRESTLEPIP_AT_FCB, p->fcb, TRESTLEPIP_FCB_MOST);
    encode_counters(&p->pages, bytes);
}

/* Bytes not in use are 00, so that one printer has one state; a store is never longer than the legends here. */
bool all_zero(const uint8_t *bytes, size_t count)
{
    static const uint8_t zeros[LEGEND_BYTES];
    return memcmp(bytes, zeros, count) == 0;
}

/* STATE.md: slot 0 is loaded, and each other slot is or is not. */
static bool slots_in_range(const struct printer *p)
{
    return p->loaded[0] == 1 && p->loaded[1] <= 1 && p->loaded[2] <= 1 && p->loaded[3] <= 1;
}

/* Numbers: forms control that its load would refuse is contents no printer has. */
static bool fcb_in_range(const struct printer *p)
{
    return p->fcb_count <= TRESTLEPIP_FCB_MOST && fcb_cause(p->form, p->fcb, p->fcb_count) == 0
        && all_zero(p->fcb + p->fcb_count, TRESTLEPIP_FCB_MOST - p->fcb_count);
}

/* Numbers: an overlay sequence that its load would refuse likewise. */
static bool sequence_in_range(const struct printer *p)
{
    return p->sequence_count <= TRESTLEPIP_SEQUENCE_MOST && sequence_cause(p->sequence, p->sequence_count) == 0
        && all_zero(p->sequence + p->sequence_count, TRESTLEPIP_SEQUENCE_MOST - p->sequence_count);
}

/* Numbers: line, marks and waiting page agree with each other; the forms control must have been judged before. */
static bool page_in_range(const struct printer *p)
{
    if (p->written > 1 || p->waiting > 1 || p->reset_due > 1)
        return false;
    if (p->reset_due && !p->waiting)
        return false;
    if (p->written && p->waiting)
        return false;
    return p->line >= 1 && p->line <= printable_lines(p);
}

/* T-03: each mark is 0 or 1, those past line P too. Joining every sixteenth cell bit by bit is fast, and keeps any bit above a mark's lowest. */
static bool marks_in_range(const uint8_t *page)
{
    enum { CELLS = 16 };
    uint8_t joined[CELLS * CELL_BYTES] = { 0 };
    _Static_assert(PAGE_BYTES % sizeof joined == 0, "no cell is left over");
    for (size_t at = 0; at < PAGE_BYTES; at += sizeof joined)
        for (size_t i = 0; i < sizeof joined; i++)
            joined[i] |= page[at + i];
    for (size_t i = 0; i < CELLS; i++)
        if (cell_at(joined, i).mark > 1)
            return false;
    return true;
}

/* Numbers, 9: contents no printer has, without the sizes. */
bool contents_of_a_printer(const struct printer *p, const uint8_t *page, const uint8_t *legends)
{
    return form_listed(p->form) && pitches_listed(p->pitch) && way_listed(p->way) && p->block <= 1 && slots_in_range(p)
        && p->selected < TRESTLEPIP_SLOTS && p->copy_number >= 1 && fcb_in_range(p) && sequence_in_range(p) && page_in_range(p) && counters_reachable(&p->pages)
        && legends_as_stored(legends) && marks_in_range(page);
}

/* Numbers, 9: the sizes of the stores. */
bool stores_sized(size_t state_len, size_t page_len, size_t legends_len, size_t tables_len)
{
    return state_len == STATE_BYTES && page_len == PAGE_BYTES && legends_len == LEGEND_BYTES && tables_len == TABLE_BYTES;
}

/* Numbers, 9: the printer that the stores hold; false if a size is wrong or no printer has these contents. */
bool read_printer(const uint8_t *state, size_t state_len, const uint8_t *page, size_t page_len, const uint8_t *legends, size_t legends_len,
        size_t tables_len, struct printer *p)
{
    if (!stores_sized(state_len, page_len, legends_len, tables_len))
        return false;
    decode(state, p);
    return contents_of_a_printer(p, page, legends);
}

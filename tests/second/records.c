/* Records for writes, translate tables, overlay sequences and copy numbers: good, near misses of each rule, and any. */
#include "making.h"

#include <string.h>

/* ---- text and tables ---- */

/* Bytes that meet each other on a line: blanks, underscores, and a few characters. */
static void text_of_few(struct generator *g, uint8_t *bytes, size_t count)
{
    static const uint8_t few[] = { 0x40, 0x40, 0x40, 0x6D, 0x6D, 0xC1, 0xC1, 0xC2 };
    for (size_t i = 0; i < count; i++)
        bytes[i] = few[below(g, COUNT(few))];
}

/* Bytes that the starting table can print. */
static void text_printable(struct generator *g, uint8_t *bytes, size_t count)
{
    for (size_t i = 0; i < count; i++)
        bytes[i] = (uint8_t)between(g, 0x40, 0xFF);
}

/* Mostly blanks, so that several writes of a line seldom collide. */
static void text_sparse(struct generator *g, uint8_t *bytes, size_t count)
{
    memset(bytes, 0x40, count);
    for (unsigned i = 0; i < 3; i++) {
        unsigned at = below(g, count);
        bytes[at] = (uint8_t)between(g, 0x40, 0xFF);
    }
}

/* A text with one unprintable position, often the last. */
static void text_but_one(struct generator *g, uint8_t *bytes, size_t count)
{
    memset(bytes, byte_by_table(g, true), count);
    size_t at = percent(g, 50) ? count - 1 : below(g, count);
    bytes[at] = byte_by_table(g, false);
}

/* Text that merges with what stands on the line, cell by cell: an underscore of the same module, the same again, the code after it, or a blank. */
static void text_over_line(struct generator *g, uint8_t *bytes, size_t count)
{
    uint8_t byte_of[SLOT_BYTES];
    bytes_of_codes(g, byte_of);
    for (size_t i = 0; i < count; i++) {
        uint8_t old = code_on_page(g, line_place(g) + i % LINE_CELLS);
        switch (WEIGHTED(g, 40, 20, 25, 15)) {
        case 0: bytes[i] = byte_of[old - trestlepip_location(old) + TRESTLEPIP_UNDERSCORE]; break;
        case 1: bytes[i] = byte_of[old]; break;
        case 2: bytes[i] = byte_of[(old + 1) % SLOT_BYTES]; break;
        default: bytes[i] = 0x40; break;
        }
    }
}

/* The text of a write or of a segment; count is not 0. */
void text(struct generator *g, uint8_t *bytes, size_t count)
{
    switch (WEIGHTED(g, 30, 20, 25, 8, 10, 7, 3)) {
    case 0: text_of_few(g, bytes, count); break;
    case 1: text_printable(g, bytes, count); break;
    case 2: text_sparse(g, bytes, count); break;
    case 3: generator_fill(g, bytes, count); break;
    case 4: memset(bytes, percent(g, 50) ? 0x40 : 0x6D, count); break;
    case 5: memset(bytes, byte(g), count); break;
    default: text_but_one(g, bytes, count); break;
    }
}

/* The byte modulo 64, in one module. */
static void table_of_module(struct generator *g, uint8_t *table)
{
    unsigned module = below(g, 4) * 64;
    for (unsigned i = 0; i < SLOT_BYTES; i++)
        table[i] = (uint8_t)(module + i % 64);
}

/* Codes of the classes that merging tells apart, in all modules. */
static void table_of_classes(struct generator *g, uint8_t *table)
{
    static const uint8_t codes[] = { 0x00, 0x40, 0x80, 0xC0, 0x2D, 0x6D, 0xAD, 0xED, 0x01, 0x41, 0x02, 0xC1, 0x3F, 0xFF };
    for (unsigned i = 0; i < SLOT_BYTES; i++)
        table[i] = codes[below(g, COUNT(codes))];
}

/* FF and printable codes of module 0 mixed. */
static void table_with_ff(struct generator *g, uint8_t *table)
{
    for (unsigned i = 0; i < SLOT_BYTES; i++)
        table[i] = percent(g, 30) ? 0xFF : (uint8_t)below(g, 64);
}

/* A translate table, its code for 40 often a special one. */
static void table(struct generator *g, uint8_t *bytes)
{
    static const uint8_t for_40[] = { 0xFF, 0x05, 0x2D, 0x00, 0x40, 0x80, 0xC0, 0x45, 0xAD };
    switch (WEIGHTED(g, 40, 20, 20, 20)) {
    case 0: table_of_module(g, bytes); break;
    case 1: table_of_classes(g, bytes); break;
    case 2: table_with_ff(g, bytes); break;
    default: generator_fill(g, bytes, SLOT_BYTES); break;
    }
    if (percent(g, 50))
        bytes[0x40] = for_40[below(g, COUNT(for_40))];
}

/* ---- records ---- */

/* A record of this length with bytes that no command reads in order. */
void any_record(struct generator *g, struct call *c, size_t length)
{
    c->record_len = length;
    generator_fill(g, c->record, length < 16 ? length : 16);
}

/* A length that a command which ignores its record must not mind. */
size_t ignored_length(struct generator *g)
{
    static const size_t lengths[] = { 0, 0, 0, 0, 1, 5, 204, 205, 8192, 8193 };
    return lengths[below(g, COUNT(lengths))];
}

/* The record of a write: mostly 1 to 204 bytes. */
void write_record(struct generator *g, struct call *c)
{
    switch (WEIGHTED(g, 400, 400, 120, 15, 15, 5)) {
    case 0: c->record_len = between(g, 1, 12); break;
    case 1: c->record_len = between(g, 1, WRITE_MOST); break;
    case 2: c->record_len = WRITE_MOST; break;
    case 3: c->record_len = 0; break;
    case 4: c->record_len = WRITE_MOST + 1; break;
    default: c->record_len = between(g, WRITE_MOST + 2, RECORD_ROOM); break;
    }
    if (written_now(g) && percent(g, 30))
        text_over_line(g, c->record, c->record_len);
    else if (c->record_len != 0)
        text(g, c->record, c->record_len);
}

/* The record of a translate load. */
void table_record(struct generator *g, struct call *c)
{
    table(g, c->record);
    memset(c->record + SLOT_BYTES, 0xA5, LOAD_MOST);
    switch (WEIGHTED(g, 60, 15, 5, 8, 5, 4, 3)) {
    case 0: c->record_len = SLOT_BYTES; break;
    case 1: c->record_len = SLOT_BYTES + 1; break;
    case 2: c->record_len = LOAD_MOST; break;
    case 3: c->record_len = SLOT_BYTES - 1; break;
    case 4: c->record_len = below(g, SLOT_BYTES); break;
    case 5: c->record_len = 0; break;
    default: c->record_len = LOAD_MOST + 1; break;
    }
}

/* Pairs of an overlay sequence that the load takes, for a total that is not less than the pairs. */
static void pairs(struct generator *g, uint8_t *record, unsigned count, unsigned total)
{
    for (unsigned i = 0; i < count; i++) {
        unsigned after = count - i - 1;
        unsigned copies = after == 0 ? total : between(g, 1, total - after);
        record[2 * i] = (uint8_t)copies;
        record[2 * i + 1] = (uint8_t)below(g, 2);
        total -= copies;
    }
}

/* Two pairs with one copy too many. */
static void pairs_of_256(struct generator *g, uint8_t *record)
{
    pairs(g, record, 2, 255);
    record[0] = (uint8_t)(record[0] + 1);
}

/* One fault of an overlay sequence. */
static void sequence_fault(struct generator *g, struct call *c)
{
    size_t pair = 2 * (size_t)below(g, c->record_len / 2);
    switch (below(g, 6)) {
    case 0: c->record[pair] = 0; break;
    case 1: c->record[pair + 1] = (uint8_t)(percent(g, 50) ? 2 : between(g, 2, 255)); break;
    case 2: c->record_len -= 1; break;
    case 3: c->record_len = 0; break;
    case 4: pairs(g, c->record, 9, between(g, 9, 255)); c->record_len = percent(g, 50) ? 18 : 17; break;
    default: pairs_of_256(g, c->record); c->record_len = 4; break;
    }
}

/* The total of an overlay sequence: seldom many copies, since composing all of them takes long; a calm list is long enough for them. */
static unsigned copies_total(struct generator *g)
{
    switch (g->calm ? WEIGHTED(g, 50, 20, 5, 25) : WEIGHTED(g, 60, 25, 10, 5)) {
    case 0: return between(g, 1, 4);
    case 1: return between(g, 2, 30);
    case 2: return between(g, 30, 254);
    default: return 255;
    }
}

/* The record of an overlay sequence load. */
void sequence_record(struct generator *g, struct call *c)
{
    unsigned total = copies_total(g);
    unsigned count = between(g, 1, total < 8 ? total : 8);
    pairs(g, c->record, count, total);
    c->record_len = 2 * (size_t)count;
    if (percent(g, 22))
        sequence_fault(g, c);
    if (percent(g, 10) && c->record_len >= 2)
        sequence_fault(g, c);
    if (permille(g, 10))
        any_record(g, c, LOAD_MOST + 1);
}

/* The record of a copy number load. */
void number_record(struct generator *g, struct call *c)
{
    c->record[0] = (uint8_t)(percent(g, g->calm ? 50 : 30) ? 255 : percent(g, 40) ? between(g, 1, 3) : between(g, 1, 255));
    c->record[1] = byte(g);
    switch (WEIGHTED(g, 75, 9, 8, 6, 2)) {
    case 0: c->record_len = 1; break;
    case 1: c->record_len = 1; c->record[0] = 0; break;
    case 2: c->record_len = 2; break;
    case 3: c->record_len = 0; break;
    default: any_record(g, c, percent(g, 50) ? LOAD_MOST : LOAD_MOST + 1); break;
    }
}

/* The parts of the second program: the printer as a struct, and what each section of the paper says about it. */
#ifndef SECOND_PARTS_H
#define SECOND_PARTS_H

#include "../../include/trestlepip.h"

#include <stdbool.h>
#include <stddef.h>
#include <stdint.h>

enum {
    STATE_BYTES = TRESTLEPIP_STATE_BYTES,
    LINE_CELLS = 204,
    CELL_BYTES = 2,
    LINE_BYTES = LINE_CELLS * CELL_BYTES,
    PAGE_LINES = 132,
    PAGE_BYTES = PAGE_LINES * LINE_BYTES,
    LEGEND_BYTES = 8192,
    SLOT_BYTES = 256,
    TABLE_BYTES = TRESTLEPIP_SLOTS * SLOT_BYTES,
    REPLY_BYTES = 24,
    LOAD_MOST = 8192,
    HALF_INCH = 12,
    SEGMENT_HEAD = 6,
    PAGES_OUT_MOST = 32767
};

/* T-05: the ways of skipping, as Start is asked for them. */
enum { NEW_WAY = 0, OLD_WAY = 1 };

/* Causes in sense byte 1 of a data check. */
enum { UNPRINTABLE = 0x80, NO_TABLE = 0x20, NO_MATCH = 0x10, MULTIPLE = 0x08 };

/* T-03: a stored cell, code then rule mark. */
struct cell {
    uint8_t code, mark;
};

/* T-02: the page counters, which go on from FFFF to 0000. */
struct counters {
    uint16_t channel, transfer, fuser, stacker;
};

/* The state, a member for each row of STATE.md, the four counters in one; sense holds bytes 0, 1, 2, 22 and 23. */
struct printer {
    unsigned form;
    uint32_t pitch[TRESTLEPIP_MODULES];
    uint32_t way;
    unsigned block;
    unsigned fcb_count;
    unsigned loaded[TRESTLEPIP_SLOTS];
    unsigned selected;
    unsigned sequence_count;
    unsigned copy_number;
    unsigned line;
    unsigned written;
    unsigned waiting;
    unsigned reset_due;
    uint8_t sense[TRESTLEPIP_SENSE_KEPT];
    uint8_t sequence[TRESTLEPIP_SEQUENCE_MOST];
    uint8_t fcb[TRESTLEPIP_FCB_MOST];
    struct counters pages;
};

/* What a write or a legend load finds on its way; positions count from 1, and the first is 0 if there is none. */
struct findings {
    unsigned first_unprintable;
    unsigned unprintables;
    bool no_table;
    bool multiple;
};

/* What a space or a skip does to the form. */
struct movement {
    unsigned line;
    unsigned lines_moved;
    bool completes;
    bool channel_9;
    bool channel_12;
    bool no_match;
};

/* state.c */
void decode(const uint8_t *bytes, struct printer *p);
void encode(const struct printer *p, uint8_t *bytes);
bool contents_of_a_printer(const struct printer *p, const uint8_t *page, const uint8_t *legends);
bool stores_sized(size_t state_len, size_t page_len, size_t legends_len, size_t tables_len);
bool read_printer(const uint8_t *state, size_t state_len, const uint8_t *page, size_t page_len, const uint8_t *legends, size_t legends_len,
        size_t tables_len, struct printer *p);
bool all_zero(const uint8_t *bytes, size_t count);

/* form.c */
bool form_listed(uint32_t form);
bool pitches_listed(const uint32_t pitch[TRESTLEPIP_MODULES]);
bool way_listed(uint32_t way);
unsigned fcb_cause(unsigned form, const uint8_t *fcb, size_t count);
void starting_fcb(struct printer *p);
unsigned printable_lines(const struct printer *p);
struct movement space(const struct printer *p, unsigned lines);
struct movement skip(const struct printer *p, unsigned channel);
bool skip_stands(const struct printer *p, unsigned channel);
bool page_started(const struct printer *p);

/* line.c */
struct cell cell_at(const uint8_t *cells, size_t i);
void put_cell(uint8_t *cells, size_t i, struct cell cell);
void starting_tables(uint8_t *tables);
struct findings translate(const struct printer *p, const uint8_t *tables, const uint8_t *bytes, size_t count, uint8_t *codes);
struct findings write_line(const struct printer *p, const uint8_t *tables, const uint8_t *record, size_t count, uint8_t *page);

/* stations.c */
bool counters_reachable(const struct counters *n);
bool most_pages_out(const struct counters *n);

/* copies.c */
unsigned sequence_cause(const uint8_t *pairs, size_t count);
unsigned copies_in_all(const struct printer *p);
unsigned mark_of_copy(const struct printer *p, unsigned copy);
unsigned legends_cause(const uint8_t *record, size_t count);
bool legends_as_stored(const uint8_t *legends);
struct findings load_legends(const struct printer *p, const uint8_t *tables, const uint8_t *record, size_t count, uint8_t *legends);
const uint8_t *next_segment(const uint8_t *legends, const uint8_t *segment);
bool segment_covers_copy(const uint8_t *segment, unsigned number);
void compose_copy(const struct printer *p, unsigned number, const uint8_t *page, const uint8_t *legends, uint8_t *out);

#endif

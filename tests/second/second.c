/* Calls; Numbers; Commands; Reset and sense; T-01; of T-02, what a Release counts; of T-05, which skips may stand, and Start's choice. */
#include "second.h"

#include "parts.h"

#include <string.h>

/* Calls, T-01: what an answer holds. */
struct answer {
    unsigned number;
    unsigned status;
    unsigned ready;
    unsigned mark;
    unsigned cause;
    unsigned lines_moved;
    unsigned copy_number;
    unsigned first_unprintable;
    unsigned unprintables;
};

/* The buffers of one command. */
struct lent {
    const uint8_t *record;
    size_t record_len;
    uint8_t *reply;
    size_t reply_len;
    uint8_t *page;
    uint8_t *legends;
    uint8_t *tables;
};

/* Commands: what a byte asks for. */
enum kind {
    NOT_LISTED, WRITE_SPACE, WRITE_SKIP, SPACE_NOW, SKIP_NOW, NO_OP, SENSE, INITIALIZE, CLEAR, BLOCK, ALLOW, SELECT,
    LOAD_FCB, LOAD_TABLE, LOAD_LEGENDS, LOAD_SEQUENCE, LOAD_NUMBER
};

/* A command's kind with its lines, channel or slot. */
struct command {
    enum kind kind;
    unsigned n;
};

/* The interface's bits. */
static uint64_t pack(struct answer a)
{
    return (uint64_t)a.number | (uint64_t)a.status << 8 | (uint64_t)a.ready << 16 | (uint64_t)a.mark << 17
        | (uint64_t)a.cause << 18 | (uint64_t)a.lines_moved << 24 | (uint64_t)a.copy_number << 32
        | (uint64_t)a.first_unprintable << 41 | (uint64_t)a.unprintables << 49;
}

/* Numbers: a refusal that shows its number and status alone. */
static struct answer refused(unsigned number, unsigned status)
{
    return (struct answer){ .number = number, .status = status };
}

/* Commands: the codes of the paper and of the command set table, but for the skips. */
static struct command single_code(uint8_t byte)
{
    switch (byte) {
    case 0x01: return (struct command){ WRITE_SPACE, 0 };
    case 0x09: return (struct command){ WRITE_SPACE, 1 };
    case 0x11: return (struct command){ WRITE_SPACE, 2 };
    case 0x19: return (struct command){ WRITE_SPACE, 3 };
    case 0x0B: return (struct command){ SPACE_NOW, 1 };
    case 0x13: return (struct command){ SPACE_NOW, 2 };
    case 0x1B: return (struct command){ SPACE_NOW, 3 };
    case 0x03: return (struct command){ NO_OP, 0 };
    case 0x04: return (struct command){ SENSE, 0 };
    case 0x37: return (struct command){ INITIALIZE, 0 };
    case 0x87: return (struct command){ CLEAR, 0 };
    case 0x73: return (struct command){ BLOCK, 0 };
    case 0x7B: return (struct command){ ALLOW, 0 };
    case 0x47: return (struct command){ SELECT, 0 };
    case 0x57: return (struct command){ SELECT, 1 };
    case 0x67: return (struct command){ SELECT, 2 };
    case 0x77: return (struct command){ SELECT, 3 };
    case 0x63: return (struct command){ LOAD_FCB, 0 };
    case 0x83: return (struct command){ LOAD_TABLE, 0 };
    case 0x43: return (struct command){ LOAD_SEQUENCE, 0 };
    case 0x35: return (struct command){ LOAD_LEGENDS, 0 };
    case 0x23: return (struct command){ LOAD_NUMBER, 0 };
    default: return (struct command){ NOT_LISTED, 0 };
    }
}

/* Commands: 1nnnn001 and 1nnnn011 with nnnn from 1 to 12 are skips. */
static struct command command_of(uint8_t byte)
{
    unsigned nnnn = (byte >> 3) & 0x0Fu;
    bool in_range = nnnn >= 1 && nnnn <= 12;
    if (in_range && (byte & 0x87) == 0x81)
        return (struct command){ WRITE_SKIP, nnnn };
    if (in_range && (byte & 0x87) == 0x83)
        return (struct command){ SKIP_NOW, nnnn };
    return single_code(byte);
}

/* Commands: the four writes and the write and skip. */
static bool is_write(enum kind kind)
{
    return kind == WRITE_SPACE || kind == WRITE_SKIP;
}

/* Commands: the five loads. */
static bool is_load(enum kind kind)
{
    return kind >= LOAD_FCB;
}

/* Reset and sense: the sense set anew; bytes 22 and 23 are 00 but for an FCB's wrong sum. */
static void set_sense(struct printer *p, unsigned byte_0, unsigned byte_1, unsigned byte_2)
{
    memset(p->sense, 0, TRESTLEPIP_SENSE_KEPT);
    p->sense[0] = (uint8_t)byte_0;
    p->sense[1] = (uint8_t)byte_1;
    p->sense[2] = (uint8_t)byte_2;
}

/* Reset and sense: all that Initialize resets; the way of skipping, the check switch, the sense and the counters are left. */
static void reset(struct printer *p, uint8_t *legends, uint8_t *tables)
{
    starting_fcb(p);
    starting_tables(tables);
    memset(legends, 0, LEGEND_BYTES);
    memset(p->sequence, 0, TRESTLEPIP_SEQUENCE_MOST);
    p->sequence[0] = 1;
    p->sequence_count = 2;
    p->copy_number = 1;
    p->selected = 0;
    p->loaded[0] = 1;
    p->loaded[1] = p->loaded[2] = p->loaded[3] = 0;
    p->line = 1;
    p->written = 0;
    p->reset_due = 0;
}

/* Writing a line, Movement: the causes of a data check; 80 is that there is an unprintable position. */
static unsigned causes_of(const struct findings *found, const struct movement *m)
{
    return (found->unprintables != 0 ? UNPRINTABLE : 0u) | (found->no_table ? NO_TABLE : 0u) | (m->no_match ? NO_MATCH : 0u)
        | (found->multiple ? MULTIPLE : 0u);
}

/* Writing a line: Block hides 80 and 08 alone; what is left is a data check. Channel 9 and 12 join. T-01: Block doesn't hide the positions. */
static struct answer accepted(struct printer *p, const struct findings *found, const struct movement *m)
{
    unsigned causes = causes_of(found, m);
    unsigned shown = p->block ? causes & ~(unsigned)(UNPRINTABLE | MULTIPLE) : causes;
    unsigned byte_0 = (shown ? 0x08u : 0u) | (m->channel_9 ? 0x01u : 0u);
    set_sense(p, byte_0, shown, 0);
    unsigned status = 0x0Cu | (byte_0 ? 0x02u : 0u) | (m->channel_12 ? 0x01u : 0u);
    return (struct answer){ .status = status, .ready = m->completes, .lines_moved = m->lines_moved,
            .first_unprintable = found->first_unprintable, .unprintables = found->unprintables };
}

/* Writing a line: what a command finds that translates nothing. */
static const struct findings nothing = { 0 };

/* Movement: where nothing moves and no page is completed. */
static struct movement at_rest(const struct printer *p)
{
    return (struct movement){ .line = p->line };
}

/* Movement: the form moves; a line left is no longer the written one, and a completed page waits. */
static void move(struct printer *p, const struct movement *m)
{
    if (m->lines_moved == 0 && !m->completes)
        return;
    p->line = m->line;
    p->written = 0;
    p->waiting = m->completes;
}

/* Movement, T-05: where a write or an immediate command moves the form. A write and skip always moves. */
static struct movement movement_of(const struct printer *p, struct command c)
{
    if (c.kind == SKIP_NOW && skip_stands(p, c.n))
        return at_rest(p);
    return c.kind == WRITE_SKIP || c.kind == SKIP_NOW ? skip(p, c.n) : space(p, c.n);
}

/* Writing a line, Movement: writing comes before movement; causes of both are joined. */
static struct answer write_or_move(struct printer *p, struct command c, const struct lent *l)
{
    struct findings found = nothing;
    if (is_write(c.kind)) {
        found = write_line(p, l->tables, l->record, l->record_len, l->page);
        p->written = 1;
    }
    struct movement m = movement_of(p, c);
    move(p, &m);
    return accepted(p, &found, &m);
}

/* Movement: Clear completes a started page and puts the form at line 1; else it does nothing. */
static struct answer clear(struct printer *p)
{
    struct movement m = { .line = 1, .completes = page_started(p) };
    move(p, &m);
    return accepted(p, &nothing, &m);
}

/* Reset and sense: at once on a page not started, else with the page's Release. */
static struct answer initialize(struct printer *p, const struct lent *l)
{
    struct answer a = clear(p);
    if (a.ready)
        p->reset_due = 1;
    else
        reset(p, l->legends, l->tables);
    return a;
}

/* Reset and sense: byte 3 of the reply. */
static uint8_t sense_byte_3(const struct printer *p)
{
    return (uint8_t)(0x80u | (page_started(p) || p->waiting ? 0u : 0x40u) | (p->block ? 0x20u : 0u));
}

/* Reset and sense: 24 bytes are replied, then the sense is cleared. */
static struct answer sense(struct printer *p, const struct lent *l)
{
    memset(l->reply, 0, REPLY_BYTES);
    memcpy(l->reply, p->sense, 3);
    l->reply[3] = sense_byte_3(p);
    memcpy(l->reply + 22, p->sense + 3, 2);
    memset(p->sense, 0, TRESTLEPIP_SENSE_KEPT);
    return (struct answer){ .status = 0x0C };
}

/* Form and forms control: an accepted load puts the form at line 1. */
static void load_fcb(struct printer *p, const struct lent *l)
{
    memset(p->fcb, 0, TRESTLEPIP_FCB_MOST);
    memcpy(p->fcb, l->record, l->record_len);
    p->fcb_count = (unsigned)l->record_len;
    p->line = 1;
}

/* Copies and legends: the first 256 bytes go in the selected slot. */
static void load_table(struct printer *p, const struct lent *l)
{
    memcpy(l->tables + p->selected * SLOT_BYTES, l->record, SLOT_BYTES);
    p->loaded[p->selected] = 1;
}

/* Copies and legends: the pairs replace those before. */
static void load_sequence(struct printer *p, const struct lent *l)
{
    memset(p->sequence, 0, TRESTLEPIP_SEQUENCE_MOST);
    memcpy(p->sequence, l->record, l->record_len);
    p->sequence_count = (unsigned)l->record_len;
}

/* Commands: a load whose record has been judged; legends alone have text in which something is found. */
static struct answer load(struct printer *p, enum kind kind, const struct lent *l)
{
    struct findings found = nothing;
    if (kind == LOAD_FCB)
        load_fcb(p, l);
    else if (kind == LOAD_TABLE)
        load_table(p, l);
    else if (kind == LOAD_SEQUENCE)
        load_sequence(p, l);
    else if (kind == LOAD_NUMBER)
        p->copy_number = l->record[0];
    else
        found = load_legends(p, l->tables, l->record, l->record_len, l->legends);
    struct movement m = at_rest(p);
    return accepted(p, &found, &m);
}

/* Commands: Block, Allow and Select. */
static struct answer set_switch(struct printer *p, struct command c)
{
    if (c.kind == SELECT)
        p->selected = c.n;
    else
        p->block = c.kind == BLOCK;
    struct movement m = at_rest(p);
    return accepted(p, &nothing, &m);
}

/* Commands: a command that nothing refuses. */
static struct answer perform(struct printer *p, struct command c, const struct lent *l)
{
    switch (c.kind) {
    case NO_OP: return (struct answer){ .status = 0x0C };
    case SENSE: return sense(p, l);
    case INITIALIZE: return initialize(p, l);
    case CLEAR: return clear(p);
    case BLOCK: case ALLOW: case SELECT: return set_switch(p, c);
    case WRITE_SPACE: case WRITE_SKIP: case SPACE_NOW: case SKIP_NOW: return write_or_move(p, c, l);
    default: return load(p, c.kind, l);
    }
}

/* Copies and legends: exactly one byte, not zero. */
static bool copy_number_record(const struct lent *l)
{
    return l->record_len == 1 && l->record[0] != 0;
}

/* Numbers, 3: the load check that a record gets, 0 if none. */
static unsigned load_cause(const struct printer *p, enum kind kind, const struct lent *l)
{
    switch (kind) {
    case LOAD_FCB: return fcb_cause(p->form, l->record, l->record_len);
    case LOAD_TABLE: return l->record_len < SLOT_BYTES ? 5 : 0;
    case LOAD_SEQUENCE: return sequence_cause(l->record, l->record_len);
    case LOAD_NUMBER: return copy_number_record(l) ? 0 : 8;
    case LOAD_LEGENDS: return legends_cause(l->record, l->record_len);
    default: return 0;
    }
}

/* Numbers, 3: sense byte 0 is 02, and each cause has its bit in byte 1 or byte 2. */
static struct answer load_check(struct printer *p, unsigned cause, size_t count)
{
    static const uint8_t byte_1[] = { 0, 0x10, 0x40, 0x08, 0x20, 0x80, 0x80, 0x00, 0x80, 0x80, 0x00 };
    static const uint8_t byte_2[] = { 0, 0x00, 0x00, 0x00, 0x00, 0x00, 0x00, 0x10, 0x00, 0x00, 0x20 };
    set_sense(p, 0x02, byte_1[cause], byte_2[cause]);
    if (cause == 3) {
        p->sense[3] = (uint8_t)(count / 256);
        p->sense[4] = (uint8_t)(count % 256);
    }
    return (struct answer){ .number = 3, .status = 0x0E, .cause = cause };
}

/* Numbers, 2: a write record empty or over 204, a load record over 8,192. */
static bool bad_record(enum kind kind, size_t count)
{
    return (is_write(kind) && (count == 0 || count > LINE_CELLS)) || (is_load(kind) && count > LOAD_MOST);
}

/* Numbers: a command's refusals after 9, in order 1, 4, 2, 5, 3, 8; 11 has no case. */
static struct answer judge_and_perform(struct printer *p, struct command c, const struct lent *l)
{
    if (c.kind == NOT_LISTED) {
        set_sense(p, 0x80, 0x80, 0x00);
        return refused(1, 0x0E);
    }
    if (p->waiting && c.kind != NO_OP && c.kind != SENSE)
        return refused(4, 0x10);
    if (bad_record(c.kind, l->record_len))
        return refused(2, 0x00);
    if (is_load(c.kind) && page_started(p)) {
        set_sense(p, 0x02, 0x00, 0x00);
        return refused(5, 0x0E);
    }
    unsigned cause = load_cause(p, c.kind, l);
    if (cause != 0)
        return load_check(p, cause, l->record_len);
    if (c.kind == SENSE && l->reply_len < REPLY_BYTES)
        return refused(8, 0x00);
    return perform(p, c, l);
}

/* Calls, Command. */
uint64_t second_command(uint8_t command,
        const uint8_t *record, size_t record_len, uint8_t *reply, size_t reply_len,
        uint8_t *state, size_t state_len, uint8_t *page, size_t page_len,
        uint8_t *legends, size_t legends_len, uint8_t *tables, size_t tables_len)
{
    struct printer p;
    struct lent l = { record, record_len, reply, reply_len, page, legends, tables };
    if (!read_printer(state, state_len, page, page_len, legends, legends_len, tables_len, &p))
        return pack(refused(9, 0x00));
    struct answer a = judge_and_perform(&p, command_of(command), &l);
    encode(&p, state);
    return pack(a);
}

/* Calls, Start, T-05: sizes, then form, pitches and way; what the buffers held is not looked at. */
static struct answer judge_start(uint32_t form, const uint32_t pitch[TRESTLEPIP_MODULES], uint32_t way, bool sized)
{
    if (!sized)
        return refused(9, 0x00);
    if (!form_listed(form) || !pitches_listed(pitch) || !way_listed(way))
        return refused(10, 0x00);
    return (struct answer){ 0 };
}

/* Calls, Start: the state of a new printer; the stores as after Initialize, with the page set to zeros. */
static void new_printer(uint32_t form, const uint32_t pitch[TRESTLEPIP_MODULES], uint32_t way, struct printer *p, uint8_t *page, uint8_t *legends,
        uint8_t *tables)
{
    memset(p, 0, sizeof *p);
    p->form = form;
    memcpy(p->pitch, pitch, sizeof p->pitch);
    p->way = way;
    reset(p, legends, tables);
    memset(page, 0, PAGE_BYTES);
}

/* Calls, Start; Numbers: a refused Start leaves zeros where the state buffer has its size. */
uint64_t second_start(uint32_t form,
        uint32_t pitch0, uint32_t pitch1, uint32_t pitch2, uint32_t pitch3, uint32_t skip,
        uint8_t *state, size_t state_len, uint8_t *page, size_t page_len,
        uint8_t *legends, size_t legends_len, uint8_t *tables, size_t tables_len)
{
    struct printer p;
    const uint32_t pitch[TRESTLEPIP_MODULES] = { pitch0, pitch1, pitch2, pitch3 };
    bool sized = stores_sized(state_len, page_len, legends_len, tables_len);
    struct answer a = judge_start(form, pitch, skip, sized);
    if (a.number == 0) {
        new_printer(form, pitch, skip, &p, page, legends, tables);
        encode(&p, state);
    } else if (state_len == STATE_BYTES) {
        memset(state, 0, STATE_BYTES);
    }
    return pack(a);
}

/* Calls, Compose, after 9: in order 6, 7, 8. */
static struct answer judge_compose(const struct printer *p, uint32_t copy, size_t out_len)
{
    if (!p->waiting)
        return refused(6, 0x00);
    if (copy == 0 || copy > copies_in_all(p))
        return refused(7, 0x00);
    if (out_len < (size_t)printable_lines(p) * LINE_BYTES)
        return refused(8, 0x00);
    return (struct answer){ .mark = mark_of_copy(p, copy), .copy_number = p->copy_number + copy - 1 };
}

/* Calls, Compose. */
uint64_t second_compose(uint32_t copy,
        uint8_t *out, size_t out_len,
        const uint8_t *state, size_t state_len, const uint8_t *page, size_t page_len,
        const uint8_t *legends, size_t legends_len, const uint8_t *tables, size_t tables_len)
{
    struct printer p;
    (void)tables;
    if (!read_printer(state, state_len, page, page_len, legends, legends_len, tables_len, &p))
        return pack(refused(9, 0x00));
    struct answer a = judge_compose(&p, copy, out_len);
    if (a.number == 0)
        compose_copy(&p, a.copy_number, page, legends, out);
    return pack(a);
}

/* Movement, Reset and sense, T-02: the page is counted, its bytes are set to 00, and a reset that is due is done; the sense is left. */
static struct answer release(struct printer *p, uint8_t *page, uint8_t *legends, uint8_t *tables)
{
    if (!p->waiting)
        return refused(6, 0x00);
    if (most_pages_out(&p->pages))
        return refused(13, 0x00);
    p->pages.channel++;
    p->waiting = 0;
    memset(page, 0, PAGE_BYTES);
    if (p->reset_due)
        reset(p, legends, tables);
    return (struct answer){ 0 };
}

/* Calls, Release. */
uint64_t second_release(
        uint8_t *state, size_t state_len, uint8_t *page, size_t page_len,
        uint8_t *legends, size_t legends_len, uint8_t *tables, size_t tables_len)
{
    struct printer p;
    if (!read_printer(state, state_len, page, page_len, legends, legends_len, tables_len, &p))
        return pack(refused(9, 0x00));
    struct answer a = release(&p, page, legends, tables);
    encode(&p, state);
    return pack(a);
}

/* The calls: numbers in their order, commands, movement, copies, page counters, feet of paper. */
#include "plain.h"

#include "plain_line.h"
#include "plain_loads.h"
#include "plain_state.h"

enum kind {
    UNLISTED, NO_OP, SENSE, WRITE_SPACE, WRITE_SKIP, SPACE_NOW, SKIP_NOW, INITIALIZE, CLEAR, BLOCK, ALLOW, SELECT,
    LOAD_FCB, LOAD_TABLE, LOAD_LEGENDS, LOAD_SEQUENCE, LOAD_NUMBER
};

/* A command's kind with its lines, channel or slot. */
struct command {
    uint8_t kind;
    uint8_t n;
};

#define SKIPS(n) [0x81 | (n) << 3] = { WRITE_SKIP, n }, [0x83 | (n) << 3] = { SKIP_NOW, n }

/* Commands: every byte; those not named are UNLISTED. */
static const struct command commands[256] = {
    [0x01] = { WRITE_SPACE, 0 }, [0x09] = { WRITE_SPACE, 1 }, [0x11] = { WRITE_SPACE, 2 }, [0x19] = { WRITE_SPACE, 3 },
    [0x0B] = { SPACE_NOW, 1 }, [0x13] = { SPACE_NOW, 2 }, [0x1B] = { SPACE_NOW, 3 },
    [0x03] = { NO_OP, 0 }, [0x04] = { SENSE, 0 }, [0x37] = { INITIALIZE, 0 }, [0x87] = { CLEAR, 0 }, [0x73] = { BLOCK, 0 }, [0x7B] = { ALLOW, 0 },
    [0x47] = { SELECT, 0 }, [0x57] = { SELECT, 1 }, [0x67] = { SELECT, 2 }, [0x77] = { SELECT, 3 },
    [0x63] = { LOAD_FCB, 0 }, [0x83] = { LOAD_TABLE, 0 }, [0x35] = { LOAD_LEGENDS, 0 }, [0x43] = { LOAD_SEQUENCE, 0 }, [0x23] = { LOAD_NUMBER, 0 },
    SKIPS(1), SKIPS(2), SKIPS(3), SKIPS(4), SKIPS(5), SKIPS(6), SKIPS(7), SKIPS(8), SKIPS(9), SKIPS(10), SKIPS(11), SKIPS(12)
};

/* What a space or a skip does: the line taken, the lines entered or looked at, and what it reports. */
struct movement {
    unsigned line, lines;
    bool ready, nine, twelve, missed;
};

static uint64_t answer(unsigned number, unsigned status)
{
    return (uint64_t)number | (uint64_t)status << 8;
}

static inline void set_sense(struct printer *p, unsigned byte_0, unsigned byte_1, unsigned byte_2)
{
    p->sense[0] = (uint8_t)byte_0;
    p->sense[1] = (uint8_t)byte_1;
    p->sense[2] = (uint8_t)byte_2;
    p->sense[3] = p->sense[4] = 0;
}

static inline bool page_started(const struct printer *p)
{
    return p->line != 1 || (p->flags & WRITTEN) != 0;
}

/* Writing a line: Block hides 80 and 08; causes of writing and of movement are joined. */
static inline uint64_t accepted(struct printer *p, struct findings found, struct movement m)
{
    unsigned shown = found.causes | (found.unprintables.count != 0 ? UNPRINTABLE : 0u) | (m.missed ? UNMATCHED : 0u);
    if (p->flags & BLOCKED)
        shown &= ~(unsigned)(UNPRINTABLE | COLLISION);
    unsigned byte_0 = (shown ? 0x08u : 0u) | m.nine;
    set_sense(p, byte_0, shown, 0);
    unsigned status = 0x0Cu | (byte_0 ? 0x02u : 0u) | m.twelve;
    return (uint64_t)status << 8 | (uint64_t)m.ready << 16 | (uint64_t)m.lines << 24
        | (uint64_t)found.unprintables.first << 41 | (uint64_t)found.unprintables.count << 49;
}

/* What a command finds that translates nothing. */
static const struct findings nothing = { 0 };

static inline uint64_t stand(struct printer *p, struct findings found)
{
    return accepted(p, found, (struct movement){ .line = p->line });
}

/* Movement: space n, a line at a time; the end of the page ends it. */
static inline struct movement space(const struct printer *p, unsigned lines, unsigned n)
{
    struct movement m = { .line = p->line };
    while (m.lines < n && !m.ready) {
        m.ready = m.line == lines;
        m.line = m.ready ? 1 : m.line + 1;
        m.lines++;
        m.nine |= p->channel[m.line - 1] == 9;
        m.twelve |= p->channel[m.line - 1] == 12;
    }
    return m;
}

/* Movement: from the next line to P, then from line 1 up to the current one. */
static inline struct movement skip(const struct printer *p, unsigned lines, unsigned channel)
{
    const uint8_t *next = p->channel + p->line;
    const uint8_t *found = memchr(next, (int)channel, lines - p->line);
    if (found != NULL)
        return (struct movement){ .line = (unsigned)(found - p->channel) + 1, .lines = (unsigned)(found - next) + 1 };
    found = memchr(p->channel, (int)channel, p->line);
    if (found == NULL)
        return (struct movement){ .line = 1, .lines = lines, .ready = true, .missed = true };
    unsigned line = (unsigned)(found - p->channel) + 1;
    return (struct movement){ .line = line, .lines = lines - p->line + line, .ready = true };
}

/* Movement: the form goes to a line; a completed page waits. */
static inline uint64_t move(struct printer *p, struct findings found, struct movement m)
{
    if (m.lines != 0)
        p->flags &= (uint8_t)~WRITTEN;
    if (m.ready)
        p->flags |= WAITING;
    p->line = (uint8_t)m.line;
    return accepted(p, found, m);
}

/* T-05: in the new way an immediate skip stands at its own channel, unless the line is written. */
static inline bool stands(const struct printer *p, unsigned channel)
{
    return p->way == TRESTLEPIP_NEW_WAY && (p->flags & WRITTEN) == 0 && p->channel[p->line - 1] == channel;
}

static inline uint64_t move_on(struct printer *p, struct command c, unsigned lines)
{
    if (c.kind == SPACE_NOW)
        return move(p, nothing, space(p, lines, c.n));
    return stands(p, c.n) ? stand(p, nothing) : move(p, nothing, skip(p, lines, c.n));
}

static inline uint64_t write_and_move(struct printer *p, struct command c, unsigned lines, const uint8_t *record, size_t n,
        uint8_t *page, const uint8_t *tables)
{
    struct findings found = write_line(p, record, n, page, tables);
    p->flags |= WRITTEN;
    return move(p, found, c.kind == WRITE_SPACE ? space(p, lines, c.n) : skip(p, lines, c.n));
}

/* Movement: Clear on a started page; the line that was written is left. */
static uint64_t complete(struct printer *p)
{
    p->flags = (uint8_t)((p->flags & ~WRITTEN) | WAITING);
    p->line = 1;
    return accepted(p, nothing, (struct movement){ .line = 1, .ready = true });
}

/* Form and forms control: 6 lines per inch, channel 1 at line 1. */
static void starting_fcb(struct printer *p)
{
    memset(p->spacing, 0, HALVES);
    memset(p->spacing, 3, p->halves);
    memset(p->channel, 0, CHANNELS);
    p->channel[0] = 1;
}

/* Reset and sense: all but the page, the way of skipping, the check switch and the sense. */
static void reset(struct printer *p, uint8_t *legends, uint8_t *tables)
{
    memset(legends, 0, LEGEND_BYTES);
    memset(tables, 0, TABLE_BYTES);
    for (unsigned byte = 0; byte < SLOT_BYTES; byte++)
        tables[byte] = byte < 0x40 ? 0xFF : byte % 64;
    starting_fcb(p);
    load_sequence(p, (const uint8_t[]){ 1, 0 }, 2);
    p->flags = (p->flags & BLOCKED) | LOADED_0;
    p->selected = 0;
    p->reference = 1;
    p->line = 1;
}

static uint64_t initialize(struct printer *p, uint8_t *legends, uint8_t *tables)
{
    if (page_started(p)) {
        p->flags |= DUE;
        return complete(p);
    }
    reset(p, legends, tables);
    return stand(p, nothing);
}

static uint64_t sense(struct printer *p, uint8_t *reply, size_t reply_len)
{
    if (reply_len < TRESTLEPIP_SENSE_BYTES)
        return answer(TRESTLEPIP_TOO_SHORT, 0);
    bool idle = !page_started(p) && (p->flags & WAITING) == 0;
    memset(reply, 0, TRESTLEPIP_SENSE_BYTES);
    memcpy(reply, p->sense, 3);
    reply[3] = (uint8_t)(0x80 | (idle ? 0x40 : 0) | (p->flags & BLOCKED ? 0x20 : 0));
    memcpy(reply + 22, p->sense + 3, 2);
    memset(p->sense, 0, SENSE_KEPT);
    return answer(TRESTLEPIP_ACCEPTED, 0x0C);
}

static enum trestlepip_causes load_cause(const struct printer *p, unsigned kind, const uint8_t *record, size_t n)
{
    switch (kind) {
    case LOAD_FCB: return fcb_cause(p->halves, record, n);
    case LOAD_TABLE: return n < SLOT_BYTES ? TRESTLEPIP_TABLE_SHORT : TRESTLEPIP_NO_CAUSE;
    case LOAD_LEGENDS: return legends_cause(record, n);
    case LOAD_SEQUENCE: return sequence_cause(record, n);
    default: return n == 1 && record[0] != 0 ? TRESTLEPIP_NO_CAUSE : TRESTLEPIP_NUMBER_RECORD;
    }
}

/* Numbers, 3: each cause has its bit in sense byte 1 or 2; a wrong sum shows the record's byte count. */
static uint64_t load_check(struct printer *p, enum trestlepip_causes cause, size_t n)
{
    static const uint8_t byte_1[] = { 0, 0x10, 0x40, 0x08, 0x20, 0x80, 0x80, 0x00, 0x80, 0x80, 0x00 };
    set_sense(p, 0x02, byte_1[cause], cause == TRESTLEPIP_SEQUENCE_COUNTS ? 0x10 : cause == TRESTLEPIP_SEGMENT_FIELDS ? 0x20 : 0x00);
    if (cause == TRESTLEPIP_FCB_SUM) {
        p->sense[3] = (uint8_t)(n >> 8);
        p->sense[4] = (uint8_t)n;
    }
    return answer(TRESTLEPIP_LOAD_CHECK, 0x0E) | (uint64_t)cause << 18;
}

/* Numbers: the order 2, 5, 3 of a load. */
static uint64_t load(struct printer *p, unsigned kind, const uint8_t *record, size_t n, uint8_t *legends, uint8_t *tables)
{
    if (n > LOAD_MOST)
        return answer(TRESTLEPIP_BAD_RECORD, 0);
    if (page_started(p)) {
        set_sense(p, 0x02, 0, 0);
        return answer(TRESTLEPIP_PAGE_STARTED, 0x0E);
    }
    enum trestlepip_causes cause = load_cause(p, kind, record, n);
    if (cause != TRESTLEPIP_NO_CAUSE)
        return load_check(p, cause, n);
    struct findings found = nothing;
    switch (kind) {
    case LOAD_FCB: load_fcb(p, record, n); break;
    case LOAD_TABLE: load_table(p, record, tables); break;
    case LOAD_LEGENDS: found = load_legends(p, record, n, legends, tables); break;
    case LOAD_SEQUENCE: load_sequence(p, record, n); break;
    default: p->reference = record[0];
    }
    return stand(p, found);
}

/* The control commands but No-Op and Sense. */
static uint64_t control(struct printer *p, struct command c, uint8_t *legends, uint8_t *tables)
{
    switch (c.kind) {
    case INITIALIZE: return initialize(p, legends, tables);
    case CLEAR: return page_started(p) ? complete(p) : stand(p, nothing);
    case BLOCK: p->flags |= BLOCKED; break;
    case ALLOW: p->flags &= (uint8_t)~BLOCKED; break;
    default: p->selected = c.n;
    }
    return stand(p, nothing);
}

/* Numbers: the order 9, 1, 4, then what each kind of command can get. */
uint64_t plain_command(uint8_t command,
        const uint8_t *record, size_t record_len, uint8_t *reply, size_t reply_len,
        uint8_t *state, size_t state_len, uint8_t *page, size_t page_len,
        uint8_t *legends, size_t legends_len, uint8_t *tables, size_t tables_len)
{
    unsigned lines = checked(state, state_len, page, page_len, legends, legends_len, tables_len);
    if (lines == 0)
        return answer(TRESTLEPIP_BAD_STORE, 0);
    struct printer *p = (struct printer *)state;
    struct command c = commands[command];
    if (c.kind == UNLISTED) {
        set_sense(p, 0x80, 0x80, 0);
        return answer(TRESTLEPIP_NOT_LISTED, 0x0E);
    }
    if (c.kind == NO_OP)
        return answer(TRESTLEPIP_ACCEPTED, 0x0C);
    if (c.kind == SENSE)
        return sense(p, reply, reply_len);
    if (p->flags & WAITING)
        return answer(TRESTLEPIP_PAGE_WAITING, 0x10);
    if (c.kind == WRITE_SPACE || c.kind == WRITE_SKIP) {
        if (record_len == 0 || record_len > LINE_CELLS)
            return answer(TRESTLEPIP_BAD_RECORD, 0);
        return write_and_move(p, c, lines, record, record_len, page, tables);
    }
    if (c.kind == SPACE_NOW || c.kind == SKIP_NOW)
        return move_on(p, c, lines);
    if (c.kind >= LOAD_FCB)
        return load(p, c.kind, record, record_len, legends, tables);
    return control(p, c, legends, tables);
}

/* Form and forms control: two bits for a pitch, 0 if absent; above 3 if it is not listed. */
static unsigned pitch_bits(uint32_t pitch)
{
    switch (pitch) {
    case 0: return 0;
    case 10: return 1;
    case 12: return 2;
    case 15: return 3;
    default: return 4;
    }
}

static inline bool form_listed(uint32_t form)
{
    return form % HALF_INCH == 0 && halves_listed(form / HALF_INCH);
}

/* Numbers: 9 by sizes, then 10. A refused Start leaves a state of zeros. */
uint64_t plain_start(uint32_t form,
        uint32_t pitch0, uint32_t pitch1, uint32_t pitch2, uint32_t pitch3, uint32_t way,
        uint8_t *state, size_t state_len, uint8_t *page, size_t page_len,
        uint8_t *legends, size_t legends_len, uint8_t *tables, size_t tables_len)
{
    if (state_len != PLAIN_STATE_BYTES)
        return answer(TRESTLEPIP_BAD_STORE, 0);
    struct printer *p = (struct printer *)state;
    memset(p, 0, sizeof *p);
    if (page_len != PAGE_BYTES || legends_len != LEGEND_BYTES || tables_len != TABLE_BYTES)
        return answer(TRESTLEPIP_BAD_STORE, 0);
    const unsigned bits[4] = { pitch_bits(pitch0), pitch_bits(pitch1), pitch_bits(pitch2), pitch_bits(pitch3) };
    if (!form_listed(form) || bits[0] == 0 || (bits[0] | bits[1] | bits[2] | bits[3]) > 3 || way > TRESTLEPIP_OLD_WAY)
        return answer(TRESTLEPIP_BAD_FORM, 0);
    p->halves = (uint8_t)(form / HALF_INCH);
    p->pitches = (uint8_t)(bits[0] | bits[1] << 2 | bits[2] << 4 | bits[3] << 6);
    p->way = (uint8_t)way;
    memset(page, 0, PAGE_BYTES);
    reset(p, legends, tables);
    return answer(TRESTLEPIP_ACCEPTED, 0);
}

/* Copies and legends: the text on each line of the segment that the form has; the first of them is copied to the others. By memmove, which the compiler
 * leaves to the C library: of a memcpy of so few bytes it makes a string instruction, which is slower. */
static inline void paint(uint8_t *out, const uint8_t *s, unsigned lines)
{
    unsigned first = s[FIRST_LINE] - 1u, end = first + s[LINES];
    if (end > lines)
        end = lines;
    if (first >= end)
        return;
    uint8_t *text = out + first * LINE_BYTES + (s[FIRST_POSITION] - 1u) * CELL_BYTES;
    set_cells(text, s + SEGMENT_HEAD, s[POSITIONS]);
    for (unsigned i = 1; first + i < end; i++)
        memmove(text + i * LINE_BYTES, text, (size_t)s[POSITIONS] * CELL_BYTES);
}

/* Segments are laid in order, so that the last one to cover a cell stands. The legends have been checked. */
static inline void paint_all(uint8_t *out, const uint8_t *legends, unsigned number, unsigned lines)
{
    for (size_t at = 0; at < LEGEND_BYTES && legends[at] != 0; at += segment_size(legends + at)) {
        const uint8_t *s = legends + at;
        if (number >= s[FIRST_COPY] && number < (unsigned)s[FIRST_COPY] + s[COPIES])
            paint(out, s, lines);
    }
}

/* The pair to which a copy index belongs. */
static inline unsigned pair_of(const struct printer *p, unsigned copy)
{
    unsigned pair = 0;
    while (p->ends[pair] < copy)
        pair++;
    return pair;
}

/* Numbers: 9, 6, 7, 8. */
uint64_t plain_compose(uint32_t copy,
        uint8_t *out, size_t out_len,
        const uint8_t *state, size_t state_len, const uint8_t *page, size_t page_len,
        const uint8_t *legends, size_t legends_len, const uint8_t *tables, size_t tables_len)
{
    (void)tables;
    unsigned lines = checked(state, state_len, page, page_len, legends, legends_len, tables_len);
    if (lines == 0)
        return answer(TRESTLEPIP_BAD_STORE, 0);
    const struct printer *p = (const struct printer *)state;
    if ((p->flags & WAITING) == 0)
        return answer(TRESTLEPIP_NO_PAGE, 0);
    if (copy == 0 || copy > p->ends[p->pairs - 1])
        return answer(TRESTLEPIP_BAD_INDEX, 0);
    size_t bytes = (size_t)lines * LINE_BYTES;
    if (out_len < bytes)
        return answer(TRESTLEPIP_TOO_SHORT, 0);
    unsigned number = p->reference + copy - 1;
    memcpy(out, page, bytes);
    paint_all(out, legends, number, lines);
    return (uint64_t)(p->overlay_marks >> pair_of(p, copy) & 1) << 17 | (uint64_t)number << 32;
}

/* Numbers: 9, 6, 13. */
uint64_t plain_release(
        uint8_t *state, size_t state_len, uint8_t *page, size_t page_len,
        uint8_t *legends, size_t legends_len, uint8_t *tables, size_t tables_len)
{
    if (checked(state, state_len, page, page_len, legends, legends_len, tables_len) == 0)
        return answer(TRESTLEPIP_BAD_STORE, 0);
    struct printer *p = (struct printer *)state;
    if ((p->flags & WAITING) == 0)
        return answer(TRESTLEPIP_NO_PAGE, 0);
    if (pages_left(p, CHANNEL_PAGE) == MOST_PAGES)
        return answer(TRESTLEPIP_MOST_BETWEEN, 0);
    put_pages(p, CHANNEL_PAGE, (uint16_t)(pages_at(p, CHANNEL_PAGE) + 1));
    memset(page, 0, PAGE_BYTES);
    bool due = (p->flags & DUE) != 0;
    p->flags &= (uint8_t)~(WAITING | DUE);
    if (due)
        reset(p, legends, tables);
    return answer(TRESTLEPIP_ACCEPTED, 0);
}

/* T-02: a page passed a station. Numbers: 12 where its counter equals the one before it. */
static inline uint64_t pass(struct printer *p, enum counter station)
{
    uint16_t pages = pages_at(p, station);
    if (pages == pages_at(p, station - 1))
        return answer(TRESTLEPIP_NONE_BETWEEN, 0);
    put_pages(p, station, (uint16_t)(pages + 1));
    return answer(TRESTLEPIP_ACCEPTED, 0);
}

static inline uint64_t transferred(struct printer *p)
{
    return pass(p, TRANSFER_PAGE);
}

static inline uint64_t fused(struct printer *p)
{
    return pass(p, FUSER_PAGE);
}

static inline uint64_t stacked(struct printer *p)
{
    return pass(p, STACKER_PAGE);
}

static inline uint64_t cancel(struct printer *p)
{
    put_pages(p, CHANNEL_PAGE, pages_at(p, TRANSFER_PAGE));
    return answer(TRESTLEPIP_ACCEPTED, 0);
}

static inline uint64_t restart(struct printer *p)
{
    for (enum counter counter = CHANNEL_PAGE; counter < STACKER_PAGE; counter++)
        put_pages(p, counter, pages_at(p, STACKER_PAGE));
    return answer(TRESTLEPIP_ACCEPTED, 0);
}

/* Numbers: 9, then what the call can get. */
#define TALLY(name) \
    uint64_t plain_##name( \
            uint8_t *state, size_t state_len, const uint8_t *page, size_t page_len, \
            const uint8_t *legends, size_t legends_len, const uint8_t *tables, size_t tables_len) \
    { \
        (void)tables; \
        if (checked(state, state_len, page, page_len, legends, legends_len, tables_len) == 0) \
            return answer(TRESTLEPIP_BAD_STORE, 0); \
        return name((struct printer *)state); \
    }

TALLY(transferred)
TALLY(fused)
TALLY(stacked)
TALLY(cancel)
TALLY(restart)

/* T-04: feet of paper. Numbers: 16. The product has 33 bits; a foot is 288 24ths of an inch. */
uint64_t plain_feet(uint16_t initial, uint16_t final, uint32_t copies, uint32_t form, double *feet)
{
    if (!form_listed(form) || copies == 0 || copies > 255) {
        *feet = 0;
        return answer(TRESTLEPIP_BAD_PAPER, 0);
    }
    int64_t pages = (uint16_t)(final - initial);
    *feet = (double)(pages * copies * form) / 288;
    return answer(TRESTLEPIP_ACCEPTED, 0);
}

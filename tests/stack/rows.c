/* The rows, and how their printers come to stand. */
#include "rows.h"

#include <string.h>

/* The usual form: 11 inches. At 6 lines per inch, as Start leaves it, P is 60. */
enum { FORM = 264, HALF_INCHES = 22, LINES = 60, FORM_LEAST = 72 };

/* In the starting table A and B are letters, 07 cannot be printed; code 01 is the letter A. */
enum { LETTER_A = 0xC1, LETTER_B = 0xC2, UNDERSCORE = 0x6D, NO_CHARACTER = 0x07, BLANK = 0x40, CODE_A = 0x01 };

#define EXPORT(name) {#name, (void (*)(void))name}
const struct exported exports[EXPORTS] = {
    [START] = EXPORT(trestlepip_start), [COMMAND] = EXPORT(trestlepip_command), [COMPOSE] = EXPORT(trestlepip_compose),
    [RELEASE] = EXPORT(trestlepip_release), [TRANSFERRED] = EXPORT(trestlepip_transferred), [FUSED] = EXPORT(trestlepip_fused),
    [STACKED] = EXPORT(trestlepip_stacked), [CANCEL] = EXPORT(trestlepip_cancel), [RESTART] = EXPORT(trestlepip_restart),
    [FEET] = EXPORT(trestlepip_feet)};

/* ---- records ---- */

static size_t letters(uint8_t *record, size_t length)
{
    memset(record, LETTER_A, length);
    return length;
}

static size_t other_letters(uint8_t *record, size_t length)
{
    memset(record, LETTER_B, length);
    return length;
}

static size_t underscores(uint8_t *record, size_t length)
{
    memset(record, UNDERSCORE, length);
    return length;
}

static size_t unprintables(uint8_t *record, size_t length)
{
    memset(record, NO_CHARACTER, length);
    return length;
}

/* Letters, with one unprintable byte at each end. */
static size_t two_unprintables(uint8_t *record, size_t length)
{
    letters(record, length);
    record[0] = record[length - 1] = NO_CHARACTER;
    return length;
}

static size_t zeros(uint8_t *record, size_t length)
{
    memset(record, 0, length);
    return length;
}

static size_t ones(uint8_t *record, size_t length)
{
    memset(record, 1, length);
    return length;
}

/* A half inch of lines at a spacing: 6, 8 or 12 lines per inch. */
static size_t put_half_inch(uint8_t *fcb, unsigned spacing)
{
    static const uint8_t lines[] = {3, 4, 6}, bytes[] = {0x00, 0x10, 0x30};
    memset(fcb, bytes[spacing], lines[spacing]);
    return lines[spacing];
}

static size_t put_fcb(uint8_t *fcb, const unsigned spacing[3])
{
    size_t count = 0;
    for (unsigned i = 0; i < HALF_INCHES; i++)
        count += put_half_inch(fcb + count, spacing[i % 3]);
    return count;
}

/* No line has a channel. */
static size_t fcb_6(uint8_t *record, size_t length)
{
    (void)length;
    return put_fcb(record, (const unsigned[]){0, 0, 0});
}

static size_t fcb_12(uint8_t *record, size_t length)
{
    (void)length;
    return put_fcb(record, (const unsigned[]){2, 2, 2});
}

/* The spacing changes with every half inch. */
static size_t fcb_mixed(uint8_t *record, size_t length)
{
    (void)length;
    return put_fcb(record, (const unsigned[]){0, 1, 2});
}

/* Channels 1 to 12 on lines 1 to 12, which begin after the first half inch. */
static size_t fcb_channels(uint8_t *record, size_t length)
{
    size_t count = fcb_6(record, length);
    for (uint8_t channel = 1; channel <= 12; channel++)
        record[2 + channel] = channel;
    return count;
}

/* Each of these has one fault, in the middle or at the end, so that what comes before it is judged too. */
static size_t fcb_bad_channel(uint8_t *record, size_t length)
{
    size_t count = fcb_mixed(record, length);
    record[count / 2] |= 0x0D;
    return count;
}

static size_t fcb_bad_spacing(uint8_t *record, size_t length)
{
    size_t count = fcb_mixed(record, length);
    record[count - 1] = 0x20;
    return count;
}

static size_t fcb_bad_sum(uint8_t *record, size_t length)
{
    return fcb_mixed(record, length) - 3;
}

static size_t fcb_bad_edge(uint8_t *record, size_t length)
{
    size_t count = fcb_mixed(record, length);
    record[count - 1] |= 1;
    return count;
}

/* A table that has the letter A for a blank, and so for whatever it cannot print; bytes of C0 and above are letters as in the starting table. */
static size_t table_of_letters(uint8_t *record, size_t length)
{
    for (unsigned i = 0; i < 256; i++)
        record[i] = (uint8_t)(i < BLANK ? 0xFF : i % 64);
    record[BLANK] = CODE_A;
    return length;
}

/* A pair for each of 8 runs of copies, with marks; 255 copies in all. */
static size_t pairs_most(uint8_t *record, size_t length)
{
    for (uint8_t i = 0; i < 8; i++) {
        record[2 * i] = i == 0 ? 31 : 32;
        record[2 * i + 1] = i % 2;
    }
    return length;
}

/* One segment of text: copies 1 to 255, all lines, from position 1. */
static size_t put_segment(uint8_t *record, uint8_t byte, size_t positions)
{
    static const uint8_t head[5] = {1, 255, 1, 132, 1};
    memcpy(record, head, sizeof head);
    record[sizeof head] = (uint8_t)positions;
    memset(record + sizeof head + 1, byte, positions);
    return sizeof head + 1 + positions;
}

/* Segments of the most text, and a last one that ends where the record does. */
static size_t put_segments(uint8_t *record, uint8_t byte, size_t length)
{
    size_t count = 0;
    while (length - count > 2 * (6 + TRESTLEPIP_LINE_CELLS))
        count += put_segment(record + count, byte, TRESTLEPIP_LINE_CELLS);
    while (length - count > 6 + TRESTLEPIP_LINE_CELLS)
        count += put_segment(record + count, byte, 100);
    return count + put_segment(record + count, byte, length - count - 6);
}

static size_t segments(uint8_t *record, size_t length)
{
    return put_segments(record, LETTER_A, length);
}

static size_t segments_unprintable(uint8_t *record, size_t length)
{
    return put_segments(record, NO_CHARACTER, length);
}

/* The last segment ends within its text. */
static size_t segments_cut(uint8_t *record, size_t length)
{
    return segments(record, length) - 1;
}

/* The last segment goes past the last position. */
static size_t segments_wide(uint8_t *record, size_t length)
{
    size_t count = segments(record, length - 7);
    put_segment(record + count, LETTER_A, 1);
    record[count + 4] = TRESTLEPIP_LINE_CELLS + 1;
    return length;
}

/* ---- how a printer stands ---- */

/* A command that has to be accepted. */
static void send(struct printer *p, uint8_t command, const uint8_t *record, size_t length)
{
    check(accepted(printer_send(p, command, record, length)), "stack: not accepted while a row is made ready: command", command);
}

static void send_made(struct printer *p, uint8_t command, size_t (*make)(uint8_t *, size_t), size_t length)
{
    static uint8_t record[RECORD_MOST];
    size_t count = make(record, length);
    send(p, command, record, count);
}

static void started(struct printer *p)
{
    printer_start(p, FORM);
}

static void started_old(struct printer *p)
{
    check(accepted(trestlepip_start(FORM, 10, 10, 12, 15, TRESTLEPIP_OLD_WAY, STORES(p))), "stack: not started the old way", FORM);
}

static void written(struct printer *p)
{
    started(p);
    send_made(p, TRESTLEPIP_WRITE_NO_SPACE, letters, 132);
}

static void blocked(struct printer *p)
{
    started(p);
    send(p, TRESTLEPIP_BLOCK, NULL, 0);
}

static void blocked_written(struct printer *p)
{
    written(p);
    send(p, TRESTLEPIP_BLOCK, NULL, 0);
}

static void with_letters(struct printer *p)
{
    started(p);
    send_made(p, TRESTLEPIP_LOAD_TABLE, table_of_letters, 256);
}

static void with_letters_written(struct printer *p)
{
    with_letters(p);
    send_made(p, TRESTLEPIP_WRITE_NO_SPACE, letters, 132);
}

/* Table 1 is not loaded: table 0 serves, and a data check says so. */
static void without_table(struct printer *p)
{
    started(p);
    send(p, TRESTLEPIP_SELECT_1, NULL, 0);
}

static void with_channels(struct printer *p)
{
    started(p);
    send_made(p, TRESTLEPIP_LOAD_FCB, fcb_channels, 0);
}

static void without_channels(struct printer *p)
{
    started(p);
    send_made(p, TRESTLEPIP_LOAD_FCB, fcb_6, 0);
}

static void with_mixed_fcb(struct printer *p)
{
    started(p);
    send_made(p, TRESTLEPIP_LOAD_FCB, fcb_mixed, 0);
}

/* Line 2 of a started page. */
static void spaced(struct printer *p)
{
    started(p);
    send(p, TRESTLEPIP_SPACE_1, NULL, 0);
}

static void on_last_line(struct printer *p)
{
    started(p);
    for (unsigned line = 1; line < LINES; line++)
        send(p, TRESTLEPIP_SPACE_1, NULL, 0);
}

static void waiting(struct printer *p)
{
    written(p);
    send(p, TRESTLEPIP_CLEAR, NULL, 0);
}

static void waiting_for_reset(struct printer *p)
{
    written(p);
    send(p, TRESTLEPIP_INITIALIZE, NULL, 0);
}

static void with_all_loaded(struct printer *p)
{
    with_mixed_fcb(p);
    send_made(p, TRESTLEPIP_LOAD_OVERLAY_SEQUENCE, pairs_most, 16);
    send_made(p, TRESTLEPIP_LOAD_COPY_MODIFICATION, segments, TRESTLEPIP_LEGEND_BYTES);
}

static void with_all_waiting(struct printer *p)
{
    with_all_loaded(p);
    send_made(p, TRESTLEPIP_WRITE_SPACE_1, letters, 132);
    send(p, TRESTLEPIP_CLEAR, NULL, 0);
}

static void with_all_for_reset(struct printer *p)
{
    with_all_loaded(p);
    send_made(p, TRESTLEPIP_WRITE_SPACE_1, letters, 132);
    send(p, TRESTLEPIP_INITIALIZE, NULL, 0);
}

/* Calls can lead to this: as many pages are released as may be, and none is stacked. */
static void with_most_pages(struct printer *p)
{
    waiting(p);
    printer_set_counters(p, TRESTLEPIP_MOST_PAGES, 0, 0, 0);
}

static void released(struct printer *p)
{
    waiting(p);
    check(accepted(trestlepip_release(STORES(p))), "stack: not released, form", FORM);
}

static void transferred(struct printer *p)
{
    released(p);
    check(accepted(trestlepip_transferred(STORES(p))), "stack: not transferred, form", FORM);
}

static void fused(struct printer *p)
{
    transferred(p);
    check(accepted(trestlepip_fused(STORES(p))), "stack: not fused, form", FORM);
}

/* What no printer leaves: after the FCB's bytes in use, in the place of the first segment's text, in the last cell of the page. */
static void with_bad_state(struct printer *p)
{
    started(p);
    p->state[TRESTLEPIP_LAST_OF_FCB] = 1;
}

static void with_bad_legends(struct printer *p)
{
    with_all_loaded(p);
    p->legends[4] = TRESTLEPIP_LINE_CELLS;
}

static void with_bad_mark(struct printer *p)
{
    waiting(p);
    p->page[TRESTLEPIP_PAGE_BYTES - 1] = 2;
}

static void not_started(struct printer *p)
{
    (void)p;
}

/* ---- the rows ---- */

#define ON_PRINTER(how) .stand = how
#define SENT(byte) .call = COMMAND, .command = byte
#define RECORD(made, bytes) .record = made, .length = bytes
#define ACCEPTED_CHECKED .told.checked = true
#define REFUSED(n) .told.number = n

const struct row rows[] = {
    /* Writes. What fills a line after its record is what stands in for an unprintable byte. */
    {"write first, 1 byte", SENT(TRESTLEPIP_WRITE_NO_SPACE), ON_PRINTER(started), RECORD(letters, 1)},
    {"write first, 132 bytes", SENT(TRESTLEPIP_WRITE_NO_SPACE), ON_PRINTER(started), RECORD(letters, 132)},
    {"write first, 204 bytes", SENT(TRESTLEPIP_WRITE_NO_SPACE), ON_PRINTER(started), RECORD(letters, 204)},
    {"write first, 132 bytes, 2 unprintable", SENT(TRESTLEPIP_WRITE_NO_SPACE), ON_PRINTER(started), RECORD(two_unprintables, 132),
        ACCEPTED_CHECKED, .told.unprintables = 2},
    {"write first, 204 bytes, all unprintable", SENT(TRESTLEPIP_WRITE_NO_SPACE), ON_PRINTER(started), RECORD(unprintables, 204),
        ACCEPTED_CHECKED, .told.unprintables = 204},
    {"write first, the same with Block", SENT(TRESTLEPIP_WRITE_NO_SPACE), ON_PRINTER(blocked), RECORD(unprintables, 204), .told.unprintables = 204},
    {"write first, stand-in a letter", SENT(TRESTLEPIP_WRITE_NO_SPACE), ON_PRINTER(with_letters), RECORD(letters, 132)},
    {"write first, stand-in a letter, unprintable", SENT(TRESTLEPIP_WRITE_NO_SPACE), ON_PRINTER(with_letters), RECORD(unprintables, 132),
        ACCEPTED_CHECKED, .told.unprintables = 132},
    {"write first, table not loaded", SENT(TRESTLEPIP_WRITE_NO_SPACE), ON_PRINTER(without_table), RECORD(letters, 132), ACCEPTED_CHECKED},
    {"write later, 1 byte", SENT(TRESTLEPIP_WRITE_NO_SPACE), ON_PRINTER(written), RECORD(underscores, 1)},
    {"write later, 132 bytes", SENT(TRESTLEPIP_WRITE_NO_SPACE), ON_PRINTER(written), RECORD(underscores, 132)},
    {"write later, 204 bytes", SENT(TRESTLEPIP_WRITE_NO_SPACE), ON_PRINTER(written), RECORD(underscores, 204)},
    {"write later, two characters in a place", SENT(TRESTLEPIP_WRITE_NO_SPACE), ON_PRINTER(written), RECORD(other_letters, 132), ACCEPTED_CHECKED},
    {"write later, 132 bytes, 2 unprintable", SENT(TRESTLEPIP_WRITE_NO_SPACE), ON_PRINTER(written), RECORD(two_unprintables, 132),
        ACCEPTED_CHECKED, .told.unprintables = 2},
    {"write later, 204 bytes, all unprintable", SENT(TRESTLEPIP_WRITE_NO_SPACE), ON_PRINTER(written), RECORD(unprintables, 204),
        ACCEPTED_CHECKED, .told.unprintables = 204},
    {"write later, the same with Block", SENT(TRESTLEPIP_WRITE_NO_SPACE), ON_PRINTER(blocked_written), RECORD(unprintables, 204),
        .told.unprintables = 204},
    {"write later, stand-in a letter", SENT(TRESTLEPIP_WRITE_NO_SPACE), ON_PRINTER(with_letters_written), RECORD(underscores, 132)},
    {"write later, stand-in a letter, unprintable", SENT(TRESTLEPIP_WRITE_NO_SPACE), ON_PRINTER(with_letters_written), RECORD(unprintables, 132),
        ACCEPTED_CHECKED, .told.unprintables = 132},
    {"write first, space 1", SENT(TRESTLEPIP_WRITE_SPACE_1), ON_PRINTER(started), RECORD(letters, 132), .told.lines = 1},
    {"write first, space 2", SENT(TRESTLEPIP_WRITE_SPACE_2), ON_PRINTER(started), RECORD(letters, 132), .told.lines = 2},
    {"write first, space 3", SENT(TRESTLEPIP_WRITE_SPACE_3), ON_PRINTER(started), RECORD(letters, 132), .told.lines = 3},
    {"write first, space 3, page completed", SENT(TRESTLEPIP_WRITE_SPACE_3), ON_PRINTER(on_last_line), RECORD(letters, 132),
        .told.lines = 1, .told.ready = true},
    {"write later, space 1", SENT(TRESTLEPIP_WRITE_SPACE_1), ON_PRINTER(written), RECORD(underscores, 132), .told.lines = 1},
    {"write first, skip to channel 12", SENT(TRESTLEPIP_WRITE_SKIP(12)), ON_PRINTER(with_channels), RECORD(letters, 132), .told.lines = 11},
    {"write first, skip to channel 1, page completed", SENT(TRESTLEPIP_WRITE_SKIP(1)), ON_PRINTER(started), RECORD(letters, 132),
        .told.lines = LINES, .told.ready = true},
    {"write first, skip, no line has the channel", SENT(TRESTLEPIP_WRITE_SKIP(1)), .channels = 12, ON_PRINTER(without_channels), RECORD(letters, 132),
        ACCEPTED_CHECKED, .told.lines = LINES, .told.ready = true},
    {"write later, skip to channel 1, page completed", SENT(TRESTLEPIP_WRITE_SKIP(1)), ON_PRINTER(written), RECORD(underscores, 132),
        .told.lines = LINES, .told.ready = true},

    /* The immediate commands. */
    {"space 1", SENT(TRESTLEPIP_SPACE_1), ON_PRINTER(started), .told.lines = 1},
    {"space 2", SENT(TRESTLEPIP_SPACE_2), ON_PRINTER(started), .told.lines = 2},
    {"space 3", SENT(TRESTLEPIP_SPACE_3), ON_PRINTER(started), .told.lines = 3},
    {"space 3, page completed", SENT(TRESTLEPIP_SPACE_3), ON_PRINTER(on_last_line), .told.lines = 1, .told.ready = true},
    {"skip to channel 12", SENT(TRESTLEPIP_SKIP(12)), ON_PRINTER(with_channels), .told.lines = 11},
    {"skip that stands", SENT(TRESTLEPIP_SKIP(1)), ON_PRINTER(started)},
    {"skip of the old way, page completed", SENT(TRESTLEPIP_SKIP(1)), ON_PRINTER(started_old), .told.lines = LINES, .told.ready = true},
    {"skip to channel 1, page completed", SENT(TRESTLEPIP_SKIP(1)), ON_PRINTER(spaced), .told.lines = LINES - 1, .told.ready = true},
    {"skip, no line has the channel", SENT(TRESTLEPIP_SKIP(1)), .channels = 12, ON_PRINTER(without_channels),
        ACCEPTED_CHECKED, .told.lines = LINES, .told.ready = true},

    /* The loads. */
    {"load FCB, 6 lines per inch", SENT(TRESTLEPIP_LOAD_FCB), ON_PRINTER(started), RECORD(fcb_6, 0)},
    {"load FCB, 12 lines per inch", SENT(TRESTLEPIP_LOAD_FCB), ON_PRINTER(started), RECORD(fcb_12, 0)},
    {"load FCB, mixed spacings", SENT(TRESTLEPIP_LOAD_FCB), ON_PRINTER(started), RECORD(fcb_mixed, 0)},
    {"load FCB, over one of mixed spacings", SENT(TRESTLEPIP_LOAD_FCB), ON_PRINTER(with_all_loaded), RECORD(fcb_mixed, 0)},
    {"load table, 256 bytes", SENT(TRESTLEPIP_LOAD_TABLE), ON_PRINTER(started), RECORD(table_of_letters, 256)},
    {"load table, 8,192 bytes", SENT(TRESTLEPIP_LOAD_TABLE), ON_PRINTER(started), RECORD(table_of_letters, TRESTLEPIP_LEGEND_BYTES)},
    {"load overlay sequence, 1 pair", SENT(TRESTLEPIP_LOAD_OVERLAY_SEQUENCE), ON_PRINTER(started), RECORD(pairs_most, 2)},
    {"load overlay sequence, 8 pairs", SENT(TRESTLEPIP_LOAD_OVERLAY_SEQUENCE), ON_PRINTER(started), RECORD(pairs_most, 16)},
    {"load copy number", SENT(TRESTLEPIP_LOAD_COPY_NUMBER), ON_PRINTER(started), RECORD(ones, 1)},
    {"load copy modification, 1 segment", SENT(TRESTLEPIP_LOAD_COPY_MODIFICATION), ON_PRINTER(started), RECORD(segments, 6 + 132)},
    {"load copy modification, 8,192 bytes", SENT(TRESTLEPIP_LOAD_COPY_MODIFICATION), ON_PRINTER(started), RECORD(segments, TRESTLEPIP_LEGEND_BYTES)},
    {"load copy modification, unprintable", SENT(TRESTLEPIP_LOAD_COPY_MODIFICATION), ON_PRINTER(started), RECORD(segments_unprintable, 6 + 132),
        ACCEPTED_CHECKED, .told.unprintables = 132},
    {"load copy modification, over legends", SENT(TRESTLEPIP_LOAD_COPY_MODIFICATION), ON_PRINTER(with_all_loaded),
        RECORD(segments, TRESTLEPIP_LEGEND_BYTES)},

    /* The controls. */
    {"no-op", SENT(TRESTLEPIP_NO_OP), ON_PRINTER(started)},
    {"no-op, page waiting", SENT(TRESTLEPIP_NO_OP), ON_PRINTER(waiting)},
    {"sense", SENT(TRESTLEPIP_SENSE), ON_PRINTER(started)},
    {"sense, page waiting", SENT(TRESTLEPIP_SENSE), ON_PRINTER(waiting)},
    {"initialize, page not started", SENT(TRESTLEPIP_INITIALIZE), ON_PRINTER(with_all_loaded)},
    {"initialize, page started", SENT(TRESTLEPIP_INITIALIZE), ON_PRINTER(written), .told.ready = true},
    {"clear, page not started", SENT(TRESTLEPIP_CLEAR), ON_PRINTER(started)},
    {"clear, page started", SENT(TRESTLEPIP_CLEAR), ON_PRINTER(written), .told.ready = true},
    {"block", SENT(TRESTLEPIP_BLOCK), ON_PRINTER(started)},
    {"allow", SENT(TRESTLEPIP_ALLOW), ON_PRINTER(blocked)},
    {"select 0", SENT(TRESTLEPIP_SELECT_0), ON_PRINTER(without_table)},
    {"select 1", SENT(TRESTLEPIP_SELECT_1), ON_PRINTER(started)},
    {"select 2", SENT(TRESTLEPIP_SELECT_2), ON_PRINTER(started)},
    {"select 3", SENT(TRESTLEPIP_SELECT_3), ON_PRINTER(started)},

    /* The refusals of a command, in the order of their numbers. */
    {"refusal 1, byte not listed", SENT(0xFF), ON_PRINTER(started), REFUSED(TRESTLEPIP_NOT_LISTED), .told.checked = true},
    {"refusal 2, write of 0 bytes", SENT(TRESTLEPIP_WRITE_NO_SPACE), ON_PRINTER(started), REFUSED(TRESTLEPIP_BAD_RECORD)},
    {"refusal 2, write of 205 bytes", SENT(TRESTLEPIP_WRITE_NO_SPACE), ON_PRINTER(started), RECORD(letters, 205), REFUSED(TRESTLEPIP_BAD_RECORD)},
    {"refusal 2, load of 8,193 bytes", SENT(TRESTLEPIP_LOAD_TABLE), ON_PRINTER(started), RECORD(zeros, RECORD_MOST), REFUSED(TRESTLEPIP_BAD_RECORD)},
    {"refusal 3, cause 1", SENT(TRESTLEPIP_LOAD_FCB), ON_PRINTER(started), RECORD(fcb_bad_channel, 0),
        REFUSED(TRESTLEPIP_LOAD_CHECK), .told.checked = true, .told.cause = TRESTLEPIP_FCB_CHANNEL},
    {"refusal 3, cause 2", SENT(TRESTLEPIP_LOAD_FCB), ON_PRINTER(started), RECORD(fcb_bad_spacing, 0),
        REFUSED(TRESTLEPIP_LOAD_CHECK), .told.checked = true, .told.cause = TRESTLEPIP_FCB_SPACING},
    {"refusal 3, cause 3", SENT(TRESTLEPIP_LOAD_FCB), ON_PRINTER(started), RECORD(fcb_bad_sum, 0),
        REFUSED(TRESTLEPIP_LOAD_CHECK), .told.checked = true, .told.cause = TRESTLEPIP_FCB_SUM},
    {"refusal 3, cause 4", SENT(TRESTLEPIP_LOAD_FCB), ON_PRINTER(started), RECORD(fcb_bad_edge, 0),
        REFUSED(TRESTLEPIP_LOAD_CHECK), .told.checked = true, .told.cause = TRESTLEPIP_FCB_EDGE},
    {"refusal 3, cause 5", SENT(TRESTLEPIP_LOAD_TABLE), ON_PRINTER(started), RECORD(zeros, 255),
        REFUSED(TRESTLEPIP_LOAD_CHECK), .told.checked = true, .told.cause = TRESTLEPIP_TABLE_SHORT},
    {"refusal 3, cause 6", SENT(TRESTLEPIP_LOAD_OVERLAY_SEQUENCE), ON_PRINTER(started), RECORD(ones, 18),
        REFUSED(TRESTLEPIP_LOAD_CHECK), .told.checked = true, .told.cause = TRESTLEPIP_SEQUENCE_PAIRS},
    {"refusal 3, cause 7", SENT(TRESTLEPIP_LOAD_OVERLAY_SEQUENCE), ON_PRINTER(started), RECORD(zeros, 16),
        REFUSED(TRESTLEPIP_LOAD_CHECK), .told.checked = true, .told.cause = TRESTLEPIP_SEQUENCE_COUNTS},
    {"refusal 3, cause 8", SENT(TRESTLEPIP_LOAD_COPY_NUMBER), ON_PRINTER(started), RECORD(zeros, 1),
        REFUSED(TRESTLEPIP_LOAD_CHECK), .told.checked = true, .told.cause = TRESTLEPIP_NUMBER_RECORD},
    {"refusal 3, cause 9", SENT(TRESTLEPIP_LOAD_COPY_MODIFICATION), ON_PRINTER(started), RECORD(segments_cut, TRESTLEPIP_LEGEND_BYTES),
        REFUSED(TRESTLEPIP_LOAD_CHECK), .told.checked = true, .told.cause = TRESTLEPIP_SEGMENT_ENDS},
    {"refusal 3, cause 10", SENT(TRESTLEPIP_LOAD_COPY_MODIFICATION), ON_PRINTER(started), RECORD(segments_wide, TRESTLEPIP_LEGEND_BYTES),
        REFUSED(TRESTLEPIP_LOAD_CHECK), .told.checked = true, .told.cause = TRESTLEPIP_SEGMENT_FIELDS},
    {"refusal 4, page waiting", SENT(TRESTLEPIP_WRITE_NO_SPACE), ON_PRINTER(waiting), RECORD(letters, 132), REFUSED(TRESTLEPIP_PAGE_WAITING)},
    {"refusal 5, load on a started page", SENT(TRESTLEPIP_LOAD_FCB), ON_PRINTER(written), RECORD(fcb_mixed, 0),
        REFUSED(TRESTLEPIP_PAGE_STARTED), .told.checked = true},
    {"refusal 8, reply too short", SENT(TRESTLEPIP_SENSE), ON_PRINTER(started), .cut = 1, REFUSED(TRESTLEPIP_TOO_SHORT)},
    {"refusal 9, a size", SENT(TRESTLEPIP_NO_OP), ON_PRINTER(started), .cut = 1, REFUSED(TRESTLEPIP_BAD_STORE)},
    {"refusal 9, the state", SENT(TRESTLEPIP_NO_OP), ON_PRINTER(with_bad_state), REFUSED(TRESTLEPIP_BAD_STORE)},
    {"refusal 9, the legends", SENT(TRESTLEPIP_NO_OP), ON_PRINTER(with_bad_legends), REFUSED(TRESTLEPIP_BAD_STORE)},
    {"refusal 9, a mark of the page", SENT(TRESTLEPIP_NO_OP), ON_PRINTER(with_bad_mark), REFUSED(TRESTLEPIP_BAD_STORE)},

    {"compose", .call = COMPOSE, ON_PRINTER(waiting), .number = 1, .told.copy = 1},
    {"compose, all legends, mixed spacings", .call = COMPOSE, ON_PRINTER(with_all_waiting), .number = 1, .told.copy = 1},
    {"compose, the last of 255 copies", .call = COMPOSE, ON_PRINTER(with_all_waiting), .number = 255, .told.copy = 255},
    {"refusal 6, no page", .call = COMPOSE, ON_PRINTER(started), .number = 1, REFUSED(TRESTLEPIP_NO_PAGE)},
    {"refusal 7, no such copy", .call = COMPOSE, ON_PRINTER(with_all_waiting), .number = 256, REFUSED(TRESTLEPIP_BAD_INDEX)},
    {"refusal 8, output too short", .call = COMPOSE, ON_PRINTER(waiting), .number = 1, .cut = TRESTLEPIP_PAGE_BYTES, REFUSED(TRESTLEPIP_TOO_SHORT)},
    {"refusal 9, the state", .call = COMPOSE, ON_PRINTER(with_bad_state), .number = 1, REFUSED(TRESTLEPIP_BAD_STORE)},
    {"refusal 9, a mark of the page", .call = COMPOSE, ON_PRINTER(with_bad_mark), .number = 1, REFUSED(TRESTLEPIP_BAD_STORE)},

    {"release", .call = RELEASE, ON_PRINTER(waiting)},
    {"release, mixed spacings", .call = RELEASE, ON_PRINTER(with_all_waiting)},
    {"release, reset due", .call = RELEASE, ON_PRINTER(waiting_for_reset)},
    {"release, reset due, all loaded", .call = RELEASE, ON_PRINTER(with_all_for_reset)},
    {"refusal 6, no page", .call = RELEASE, ON_PRINTER(started), REFUSED(TRESTLEPIP_NO_PAGE)},
    {"refusal 9, a size", .call = RELEASE, ON_PRINTER(waiting), .cut = 1, REFUSED(TRESTLEPIP_BAD_STORE)},
    {"refusal 9, a mark of the page", .call = RELEASE, ON_PRINTER(with_bad_mark), REFUSED(TRESTLEPIP_BAD_STORE)},
    {"refusal 13, most pages", .call = RELEASE, ON_PRINTER(with_most_pages), REFUSED(TRESTLEPIP_MOST_BETWEEN)},

    {"start", .call = START, ON_PRINTER(not_started), .number = FORM, .other = TRESTLEPIP_NEW_WAY},
    {"start, the old way", .call = START, ON_PRINTER(not_started), .number = FORM, .other = TRESTLEPIP_OLD_WAY},
    {"start, the shortest form", .call = START, ON_PRINTER(not_started), .number = FORM_LEAST, .other = TRESTLEPIP_NEW_WAY},
    {"start, over another printer", .call = START, ON_PRINTER(with_all_waiting), .number = FORM, .other = TRESTLEPIP_NEW_WAY},
    {"refusal 9, a size", .call = START, ON_PRINTER(not_started), .number = FORM, .cut = 1, REFUSED(TRESTLEPIP_BAD_STORE)},
    {"refusal 10, the form", .call = START, ON_PRINTER(not_started), .number = FORM + 1, REFUSED(TRESTLEPIP_BAD_FORM)},
    {"refusal 10, the way of skipping", .call = START, ON_PRINTER(not_started), .number = FORM, .other = 2, REFUSED(TRESTLEPIP_BAD_FORM)},

    {"transferred", .call = TRANSFERRED, ON_PRINTER(released)},
    {"refusal 9, a mark of the page", .call = TRANSFERRED, ON_PRINTER(with_bad_mark), REFUSED(TRESTLEPIP_BAD_STORE)},
    {"refusal 12, none between", .call = TRANSFERRED, ON_PRINTER(started), REFUSED(TRESTLEPIP_NONE_BETWEEN)},
    {"fused", .call = FUSED, ON_PRINTER(transferred)},
    {"refusal 9, a mark of the page", .call = FUSED, ON_PRINTER(with_bad_mark), REFUSED(TRESTLEPIP_BAD_STORE)},
    {"refusal 12, none between", .call = FUSED, ON_PRINTER(released), REFUSED(TRESTLEPIP_NONE_BETWEEN)},
    {"stacked", .call = STACKED, ON_PRINTER(fused)},
    {"refusal 9, a mark of the page", .call = STACKED, ON_PRINTER(with_bad_mark), REFUSED(TRESTLEPIP_BAD_STORE)},
    {"refusal 12, none between", .call = STACKED, ON_PRINTER(transferred), REFUSED(TRESTLEPIP_NONE_BETWEEN)},
    {"cancel", .call = CANCEL, ON_PRINTER(released)},
    {"refusal 9, a mark of the page", .call = CANCEL, ON_PRINTER(with_bad_mark), REFUSED(TRESTLEPIP_BAD_STORE)},
    {"restart", .call = RESTART, ON_PRINTER(fused)},
    {"refusal 9, a mark of the page", .call = RESTART, ON_PRINTER(with_bad_mark), REFUSED(TRESTLEPIP_BAD_STORE)},

    {"feet", .call = FEET, ON_PRINTER(not_started), .number = 255, .other = FORM},
    {"refusal 16, the form", .call = FEET, ON_PRINTER(not_started), .number = 1, .other = FORM + 1, REFUSED(TRESTLEPIP_BAD_PAPER)},
    {"refusal 16, the copies", .call = FEET, ON_PRINTER(not_started), .number = 256, .other = FORM, REFUSED(TRESTLEPIP_BAD_PAPER)},
};

const size_t row_count = sizeof rows / sizeof *rows;

/* ---- the calls ---- */

static void pass(struct call *c, uint64_t word)
{
    c->words[c->count++] = word;
}

static void pass_bytes(struct call *c, const uint8_t *bytes, size_t length)
{
    pass(c, (uintptr_t)bytes);
    pass(c, length);
}

static void pass_stores(struct call *c, const struct printer *p, size_t cut)
{
    pass_bytes(c, p->state, sizeof p->state);
    pass_bytes(c, p->page, sizeof p->page - cut);
    pass_bytes(c, p->legends, sizeof p->legends);
    pass_bytes(c, p->tables, sizeof p->tables);
}

static void pass_start(struct call *c, const struct row *r)
{
    static const uint32_t pitches[TRESTLEPIP_MODULES] = {10, 10, 12, 15};
    pass(c, r->number);
    for (size_t i = 0; i < TRESTLEPIP_MODULES; i++)
        pass(c, pitches[i]);
    pass(c, r->other);
}

/* A refusal 8 has its reply cut, another row its page. */
static void pass_command(struct bench *b, const struct row *r, unsigned channel)
{
    size_t reply_cut = r->told.number == TRESTLEPIP_TOO_SHORT ? r->cut : 0;
    pass(&b->call, r->command + 8 * channel);
    pass_bytes(&b->call, b->record, r->record != NULL ? r->record(b->record, r->length) : 0);
    pass_bytes(&b->call, b->reply, sizeof b->reply - reply_cut);
    pass_stores(&b->call, &b->printer, r->cut - reply_cut);
}

static void pass_compose(struct bench *b, const struct row *r)
{
    pass(&b->call, r->number);
    pass_bytes(&b->call, b->out, sizeof b->out - r->cut);
    pass_stores(&b->call, &b->printer, 0);
}

/* 32,767 pages, over FFFF to 0000. */
static void pass_feet(struct bench *b, const struct row *r)
{
    pass(&b->call, 0xFFFF);
    pass(&b->call, 0x7FFE);
    pass(&b->call, r->number);
    pass(&b->call, r->other);
    pass(&b->call, (uintptr_t)&b->feet);
}

void prepare(struct bench *b, const struct row *r, unsigned channel)
{
    r->stand(&b->printer);
    b->call.function = exports[r->call].function;
    b->call.count = 0;
    if (r->call == COMMAND) {
        pass_command(b, r, channel);
    } else if (r->call == COMPOSE) {
        pass_compose(b, r);
    } else if (r->call == FEET) {
        pass_feet(b, r);
    } else {
        if (r->call == START)
            pass_start(&b->call, r);
        pass_stores(&b->call, &b->printer, r->cut);
    }
}

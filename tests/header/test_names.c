/*
 * The names of the header that crates/tables/stdout does not have, held to the library: the bits of status and sense, the locations, the counts in the
 * state, the ways of skipping, and the most pages between two counters. tools/tables asks that each of them stands here or in test_cells.c. The feet of a
 * page, by the reader of the channel's counter. The texts of trestlepip_text.h: one for each number, cause and data check.
 */
#include "printer.h"
#include "trestlepip_text.h"

#include <stdio.h>
#include <string.h>

enum { FORM = 84, FCB_BYTES = 21, AT_LINE_1 = 3, LINES = 15, STEPS = 3, RECORD = 24, TABLE = 256, BYTES = 256 };

/* What a command's status and the sense after it are to be, with the commands that lead there. */
struct row {
    const char *what;
    struct {
        uint8_t command, length, record[RECORD];
    } steps[STEPS];
    unsigned count, status;
    uint8_t sense[4];
};

#define A_LETTER {TRESTLEPIP_WRITE_NO_SPACE, 1, {0xC1}}
#define ANOTHER_LETTER {TRESTLEPIP_WRITE_NO_SPACE, 1, {0xC2}}
#define NO_LETTER {TRESTLEPIP_WRITE_NO_SPACE, 1, {0x3F}}
#define WITHOUT_RECORD(command) {command, 0, {0}}
#define FCB(...) {TRESTLEPIP_LOAD_FCB, FCB_BYTES, {__VA_ARGS__}}
#define CHECKED (TRESTLEPIP_STATUS_ENDED | TRESTLEPIP_STATUS_UNIT_CHECK)
#define IDLE (TRESTLEPIP_SENSE_3_READY | TRESTLEPIP_SENSE_3_EMPTY)

static const struct row rows[] = {
    {"ended", {WITHOUT_RECORD(TRESTLEPIP_CLEAR)}, 1, TRESTLEPIP_STATUS_ENDED, {0, 0, 0, IDLE}},
    {"a page started", {A_LETTER}, 1, TRESTLEPIP_STATUS_ENDED, {0, 0, 0, TRESTLEPIP_SENSE_3_READY}},
    {"a page waiting", {A_LETTER, WITHOUT_RECORD(TRESTLEPIP_CLEAR)}, 2, TRESTLEPIP_STATUS_ENDED, {0, 0, 0, TRESTLEPIP_SENSE_3_READY}},
    {"busy", {A_LETTER, WITHOUT_RECORD(TRESTLEPIP_CLEAR), WITHOUT_RECORD(TRESTLEPIP_CLEAR)}, 3, TRESTLEPIP_STATUS_BUSY,
        {0, 0, 0, TRESTLEPIP_SENSE_3_READY}},
    {"blocked", {WITHOUT_RECORD(TRESTLEPIP_BLOCK)}, 1, TRESTLEPIP_STATUS_ENDED, {0, 0, 0, IDLE | TRESTLEPIP_SENSE_3_BLOCKED}},
    {"allowed", {WITHOUT_RECORD(TRESTLEPIP_BLOCK), WITHOUT_RECORD(TRESTLEPIP_ALLOW)}, 2, TRESTLEPIP_STATUS_ENDED, {0, 0, 0, IDLE}},
    {"not listed", {WITHOUT_RECORD(0x00)}, 1, CHECKED, {TRESTLEPIP_SENSE_0_COMMAND_REJECT, TRESTLEPIP_SENSE_1_NOT_LISTED, 0, IDLE}},
    {"channel 9", {FCB(0, 0, 0, 0, 9), WITHOUT_RECORD(TRESTLEPIP_SPACE_1)}, 2, CHECKED, {TRESTLEPIP_SENSE_0_CHANNEL_9, 0, 0, TRESTLEPIP_SENSE_3_READY}},
    {"channel 12", {FCB(0, 0, 0, 0, 12), WITHOUT_RECORD(TRESTLEPIP_SPACE_1)}, 2, TRESTLEPIP_STATUS_ENDED | TRESTLEPIP_STATUS_UNIT_EXCEPTION,
        {0, 0, 0, TRESTLEPIP_SENSE_3_READY}},
    {"unprintable", {NO_LETTER}, 1, CHECKED, {TRESTLEPIP_SENSE_0_DATA_CHECK, TRESTLEPIP_SENSE_1_UNPRINTABLE, 0, TRESTLEPIP_SENSE_3_READY}},
    {"no table", {WITHOUT_RECORD(TRESTLEPIP_SELECT_1), A_LETTER}, 2, CHECKED,
        {TRESTLEPIP_SENSE_0_DATA_CHECK, TRESTLEPIP_SENSE_1_NO_TABLE, 0, TRESTLEPIP_SENSE_3_READY}},
    {"no match", {WITHOUT_RECORD(TRESTLEPIP_SKIP(2))}, 1, CHECKED,
        {TRESTLEPIP_SENSE_0_DATA_CHECK, TRESTLEPIP_SENSE_1_NO_MATCH, 0, TRESTLEPIP_SENSE_3_READY}},
    {"a skip that stands", {WITHOUT_RECORD(0x00), WITHOUT_RECORD(TRESTLEPIP_SKIP(1))}, 2, TRESTLEPIP_STATUS_ENDED, {0, 0, 0, IDLE}},
    {"multiple", {A_LETTER, ANOTHER_LETTER}, 2, CHECKED, {TRESTLEPIP_SENSE_0_DATA_CHECK, TRESTLEPIP_SENSE_1_MULTIPLE, 0, TRESTLEPIP_SENSE_3_READY}},
    {"unprintable hidden", {WITHOUT_RECORD(TRESTLEPIP_BLOCK), NO_LETTER}, 2, TRESTLEPIP_STATUS_ENDED,
        {0, 0, 0, TRESTLEPIP_SENSE_3_READY | TRESTLEPIP_SENSE_3_BLOCKED}},
    {"multiple hidden", {WITHOUT_RECORD(TRESTLEPIP_BLOCK), A_LETTER, ANOTHER_LETTER}, 3, TRESTLEPIP_STATUS_ENDED,
        {0, 0, 0, TRESTLEPIP_SENSE_3_READY | TRESTLEPIP_SENSE_3_BLOCKED}},
    {"no table not hidden", {WITHOUT_RECORD(TRESTLEPIP_BLOCK), WITHOUT_RECORD(TRESTLEPIP_SELECT_1), A_LETTER}, 3, CHECKED,
        {TRESTLEPIP_SENSE_0_DATA_CHECK, TRESTLEPIP_SENSE_1_NO_TABLE, 0, TRESTLEPIP_SENSE_3_READY | TRESTLEPIP_SENSE_3_BLOCKED}},
    {"no match not hidden", {WITHOUT_RECORD(TRESTLEPIP_BLOCK), WITHOUT_RECORD(TRESTLEPIP_SKIP(2))}, 2, CHECKED,
        {TRESTLEPIP_SENSE_0_DATA_CHECK, TRESTLEPIP_SENSE_1_NO_MATCH, 0, TRESTLEPIP_SENSE_3_READY | TRESTLEPIP_SENSE_3_BLOCKED}},
    {"load on a started page", {A_LETTER, {TRESTLEPIP_LOAD_COPY_NUMBER, 1, {1}}}, 2, CHECKED,
        {TRESTLEPIP_SENSE_0_LOAD_CHECK, 0, 0, TRESTLEPIP_SENSE_3_READY}},
    {"cause 1", {FCB(0, 0, 0, 13)}, 1, CHECKED, {TRESTLEPIP_SENSE_0_LOAD_CHECK, TRESTLEPIP_SENSE_1_CHANNEL, 0, IDLE}},
    {"cause 2", {FCB(0, 0, 0, 0x20)}, 1, CHECKED, {TRESTLEPIP_SENSE_0_LOAD_CHECK, TRESTLEPIP_SENSE_1_SPACING, 0, IDLE}},
    {"cause 3", {{TRESTLEPIP_LOAD_FCB, 3, {0}}}, 1, CHECKED, {TRESTLEPIP_SENSE_0_LOAD_CHECK, TRESTLEPIP_SENSE_1_SUM, 0, IDLE}},
    {"cause 4", {FCB(1)}, 1, CHECKED, {TRESTLEPIP_SENSE_0_LOAD_CHECK, TRESTLEPIP_SENSE_1_EDGE, 0, IDLE}},
    {"cause 5", {{TRESTLEPIP_LOAD_TABLE, 1, {0}}}, 1, CHECKED, {TRESTLEPIP_SENSE_0_LOAD_CHECK, TRESTLEPIP_SENSE_1_LENGTH, 0, IDLE}},
    {"cause 6", {{TRESTLEPIP_LOAD_OVERLAY_SEQUENCE, 1, {1}}}, 1, CHECKED, {TRESTLEPIP_SENSE_0_LOAD_CHECK, TRESTLEPIP_SENSE_1_LENGTH, 0, IDLE}},
    {"cause 7", {{TRESTLEPIP_LOAD_OVERLAY_SEQUENCE, 2, {0, 0}}}, 1, CHECKED, {TRESTLEPIP_SENSE_0_LOAD_CHECK, 0, TRESTLEPIP_SENSE_2_SEQUENCE, IDLE}},
    {"cause 8", {{TRESTLEPIP_LOAD_COPY_NUMBER, 1, {0}}}, 1, CHECKED, {TRESTLEPIP_SENSE_0_LOAD_CHECK, TRESTLEPIP_SENSE_1_LENGTH, 0, IDLE}},
    {"cause 9", {{TRESTLEPIP_LOAD_COPY_MODIFICATION, 1, {1}}}, 1, CHECKED, {TRESTLEPIP_SENSE_0_LOAD_CHECK, TRESTLEPIP_SENSE_1_LENGTH, 0, IDLE}},
    {"cause 10", {{TRESTLEPIP_LOAD_COPY_MODIFICATION, 7, {1, 1, 1, 0, 1, 1, 0xC1}}}, 1, CHECKED,
        {TRESTLEPIP_SENSE_0_LOAD_CHECK, 0, TRESTLEPIP_SENSE_2_SEGMENT, IDLE}},
};

enum { ROWS = sizeof rows / sizeof *rows };

/* Sense bytes 4 to 21 are 0, whatever the buffer held. */
static void check_middle(struct printer *p, uint8_t *sense, unsigned row)
{
    memset(sense, 0xFF, TRESTLEPIP_SENSE_BYTES);
    printer_sense(p, sense);
    for (unsigned i = 4; i < TRESTLEPIP_SENSE_COUNT_HIGH; i++)
        check(sense[i] == 0, rows[row].what, i);
}

static void check_row(struct printer *p, unsigned row)
{
    uint8_t sense[TRESTLEPIP_SENSE_BYTES];
    uint64_t answer = 0;
    printer_start(p, FORM);
    for (unsigned i = 0; i < rows[row].count; i++)
        answer = printer_send(p, rows[row].steps[i].command, rows[row].steps[i].record, rows[row].steps[i].length);
    check(trestlepip_status(answer) == rows[row].status, rows[row].what, trestlepip_status(answer));
    check_middle(p, sense, row);
    for (unsigned i = 0; i < sizeof rows[row].sense; i++)
        check(sense[i] == rows[row].sense[i], rows[row].what, i);
    bool of_sum = rows[row].sense[1] == TRESTLEPIP_SENSE_1_SUM && rows[row].sense[0] == TRESTLEPIP_SENSE_0_LOAD_CHECK;
    check(sense[TRESTLEPIP_SENSE_COUNT_HIGH] == 0, rows[row].what, TRESTLEPIP_SENSE_COUNT_HIGH);
    check(sense[TRESTLEPIP_SENSE_COUNT_LOW] == (of_sum ? rows[row].steps[0].length : 0), rows[row].what, TRESTLEPIP_SENSE_COUNT_LOW);
}

/* An FCB of 258 bytes has another high byte than low; the state keeps the sense until it is read. */
static void check_count(struct printer *p)
{
    static const uint8_t fcb[0x0102], kept[] = {TRESTLEPIP_SENSE_0_LOAD_CHECK, TRESTLEPIP_SENSE_1_SUM, 0, 0x01, 0x02};
    uint8_t sense[TRESTLEPIP_SENSE_BYTES];
    printer_start(p, FORM);
    printer_send(p, TRESTLEPIP_LOAD_FCB, fcb, sizeof fcb);
    check(sizeof kept == TRESTLEPIP_SENSE_KEPT && memcmp(p->state + TRESTLEPIP_AT_SENSE_0, kept, sizeof kept) == 0, "the sense in the state", sizeof kept);
    printer_sense(p, sense);
    check(sense[TRESTLEPIP_SENSE_COUNT_HIGH] == 0x01, "the count's high byte", sense[TRESTLEPIP_SENSE_COUNT_HIGH]);
    check(sense[TRESTLEPIP_SENSE_COUNT_LOW] == 0x02, "the count's low byte", sense[TRESTLEPIP_SENSE_COUNT_LOW]);
    check(TRESTLEPIP_SENSE_COUNT_LOW == TRESTLEPIP_SENSE_BYTES - 1, "the last sense byte", TRESTLEPIP_SENSE_COUNT_LOW);
    for (unsigned i = 0; i < TRESTLEPIP_SENSE_KEPT; i++)
        check(p->state[TRESTLEPIP_AT_SENSE_0 + i] == 0, "not cleared by Sense", i);
}

/* Each slot is selected, marked as loaded, and filled. */
static void check_slots(struct printer *p)
{
    static const uint8_t selects[TRESTLEPIP_SLOTS] = {TRESTLEPIP_SELECT_0, TRESTLEPIP_SELECT_1, TRESTLEPIP_SELECT_2, TRESTLEPIP_SELECT_3};
    check(TRESTLEPIP_SLOTS * TABLE == TRESTLEPIP_TABLE_BYTES, "the size of all slots", TRESTLEPIP_SLOTS * TABLE);
    printer_start(p, FORM);
    for (unsigned slot = 0; slot < TRESTLEPIP_SLOTS; slot++) {
        printer_send(p, selects[slot], NULL, 0);
        check(p->state[TRESTLEPIP_AT_SELECTED] == slot, "not selected: slot", slot);
        check(p->state[TRESTLEPIP_AT_LOADED + slot] == (slot == 0), "loaded from the start: slot", slot);
        printer_load_codes(p);
        check(p->state[TRESTLEPIP_AT_LOADED + slot] == 1, "not loaded: slot", slot);
        check(p->tables[slot * TABLE + 0x2D] == 0x2D && p->tables[slot * TABLE + 0xC1] == 0xC1, "not filled: slot", slot);
    }
}

/* Loads a record that is as long as the state has room for: it is kept whole, and its length in its count. */
static void check_kept(struct printer *p, uint8_t command, const uint8_t *record, size_t most, unsigned at, unsigned at_count)
{
    check(accepted(printer_send(p, command, record, most)), "the longest record refused, of command", command);
    check(p->state[at_count] == most && memcmp(p->state + at, record, most) == 0, "not kept whole: the record of command", command);
    check(!accepted(printer_send(p, command, record, most + 2)), "a longer record accepted, of command", command);
}

/* The longest FCB is of the longest form at 12 lines per inch, the longest sequence has 8 pairs. */
static void check_mosts(struct printer *p)
{
    uint8_t fcb[TRESTLEPIP_FCB_MOST + 2], sequence[TRESTLEPIP_SEQUENCE_MOST + 2];
    memset(fcb, 0x30, sizeof fcb);
    memset(sequence, 1, sizeof sequence);
    printer_start(p, 288);
    check_kept(p, TRESTLEPIP_LOAD_FCB, fcb, TRESTLEPIP_FCB_MOST, TRESTLEPIP_AT_FCB, TRESTLEPIP_AT_FCB_COUNT);
    check_kept(p, TRESTLEPIP_LOAD_OVERLAY_SEQUENCE, sequence, TRESTLEPIP_SEQUENCE_MOST, TRESTLEPIP_AT_SEQUENCE, TRESTLEPIP_AT_SEQUENCE_COUNT);
}

/* What a Release gets with so many pages between channel and stacker. */
static void check_pages(struct printer *p, unsigned pages, unsigned stacker, unsigned number)
{
    printer_start(p, FORM);
    printer_complete(p);
    printer_set_counters(p, stacker + pages, stacker, stacker, stacker);
    check(trestlepip_number(trestlepip_release(STORES(p))) == number, "another number with so many pages between", pages);
}

/* The last page that may be released makes them TRESTLEPIP_MOST_PAGES, and no calls lead to more; FFFF goes on to 0000. */
static void check_most_pages(struct printer *p)
{
    for (unsigned stacker = 0; stacker <= 0xFFFF; stacker += 0x3333) {
        check_pages(p, TRESTLEPIP_MOST_PAGES - 1, stacker, TRESTLEPIP_ACCEPTED);
        check_pages(p, TRESTLEPIP_MOST_PAGES, stacker, TRESTLEPIP_MOST_BETWEEN);
        check_pages(p, TRESTLEPIP_MOST_PAGES + 1, stacker, TRESTLEPIP_BAD_STORE);
    }
}

/* The feet of one page on the form, by the counter that the reader gives before and after it; and the number that refuses copies. */
static void check_paper(struct printer *p)
{
    double feet = -1.5;
    printer_start(p, FORM);
    uint16_t initial = (uint16_t)trestlepip_channel_page(p->state);
    printer_complete(p);
    printer_release(p);
    uint16_t final = (uint16_t)trestlepip_channel_page(p->state);
    check(accepted(trestlepip_feet(initial, final, 1, FORM, &feet)) && feet == FORM / 288.0, "other feet than those of one page, form", FORM);
    check(trestlepip_number(trestlepip_feet(initial, final, 0, FORM, &feet)) == TRESTLEPIP_BAD_PAPER && feet == 0, "feet of copies", 0);
}

/* The state ends after its last field: one byte less or more is no state. */
static void check_end(struct printer *p)
{
    uint8_t state[TRESTLEPIP_AFTER_ALL + 1] = {0};
    printer_start(p, FORM);
    memcpy(state, p->state, TRESTLEPIP_AFTER_ALL);
    for (size_t length = TRESTLEPIP_AFTER_ALL - 1; length <= TRESTLEPIP_AFTER_ALL + 1; length++) {
        uint64_t answer = trestlepip_command(TRESTLEPIP_NO_OP, NULL, 0, NULL, 0, state, length,
                p->page, sizeof p->page, p->legends, sizeof p->legends, p->tables, sizeof p->tables);
        unsigned expected = length == TRESTLEPIP_AFTER_ALL ? TRESTLEPIP_ACCEPTED : TRESTLEPIP_BAD_STORE;
        check(trestlepip_number(answer) == expected, "a state of another size", (unsigned)length);
    }
}

/* From line 1 to the line of the channel, which is the one after so many. */
static void check_skip(struct printer *p, uint8_t command, unsigned channel)
{
    uint8_t fcb[FCB_BYTES] = {0};
    static const uint8_t letter[] = {0xC1};
    for (unsigned i = 1; i <= 12; i++)
        fcb[AT_LINE_1 + i] = (uint8_t)i;
    printer_start(p, FORM);
    printer_send(p, TRESTLEPIP_LOAD_FCB, fcb, sizeof fcb);
    uint64_t answer = printer_send(p, command, letter, sizeof letter);
    bool writes = command == TRESTLEPIP_WRITE_SKIP(channel);
    check(accepted(answer) && trestlepip_lines(answer) == channel && !trestlepip_ready(answer), "no skip: command", command);
    check(p->state[TRESTLEPIP_AT_LINE] == channel + 1, "another line: command", command);
    check((trestlepip_code_at(p->page, 0) != TRESTLEPIP_BLANK) == writes, "written or not: command", command);
}

static void check_skips(struct printer *p)
{
    for (unsigned channel = 1; channel <= 12; channel++) {
        check_skip(p, (uint8_t)TRESTLEPIP_WRITE_SKIP(channel), channel);
        check_skip(p, (uint8_t)TRESTLEPIP_SKIP(channel), channel);
    }
}

/* What a skip moves: lines, and whether it completes a page. */
struct move {
    unsigned lines, ready;
};

/*
 * Commands, and what the last of them moves in the new way and in the old. Line 1 has channel 1, lines 3 and 7 have channel 2. Each command is sent with a
 * letter, which only a write takes.
 */
static const struct way_row {
    const char *what;
    uint8_t commands[STEPS];
    unsigned count;
    struct move new, old;
} way_rows[] = {
    {"nothing written", {TRESTLEPIP_SKIP(1)}, 1, {0, 0}, {LINES, 1}},
    {"the line written", {TRESTLEPIP_WRITE_NO_SPACE, TRESTLEPIP_SKIP(1)}, 2, {LINES, 1}, {LINES, 1}},
    {"the line written before another command", {TRESTLEPIP_WRITE_NO_SPACE, TRESTLEPIP_SELECT_0, TRESTLEPIP_SKIP(1)}, 3, {LINES, 1}, {LINES, 1}},
    {"a write and skip", {TRESTLEPIP_WRITE_SKIP(1)}, 1, {LINES, 1}, {LINES, 1}},
    {"another channel", {TRESTLEPIP_SKIP(2)}, 1, {2, 0}, {2, 0}},
    {"a channel that no line has", {TRESTLEPIP_SKIP(3)}, 1, {LINES, 1}, {LINES, 1}},
    {"a line without a channel", {TRESTLEPIP_SPACE_1, TRESTLEPIP_SKIP(1)}, 2, {LINES - 1, 1}, {LINES - 1, 1}},
    {"the same skip again", {TRESTLEPIP_SKIP(2), TRESTLEPIP_SKIP(2)}, 2, {0, 0}, {4, 0}},
    {"another line written", {TRESTLEPIP_WRITE_SPACE_2, TRESTLEPIP_SKIP(2)}, 2, {0, 0}, {4, 0}},
    {"after Initialize", {TRESTLEPIP_INITIALIZE, TRESTLEPIP_SKIP(1)}, 2, {0, 0}, {LINES, 1}},
};

enum { WAY_ROWS = sizeof way_rows / sizeof *way_rows };

static uint64_t start_with_way(struct printer *p, uint32_t way)
{
    return trestlepip_start(FORM, 10, 10, 12, 15, way, STORES(p));
}

/* A skip that moves nothing leaves the state and the stores as they were. */
static void check_way(struct printer *p, uint32_t way, const struct way_row *row, struct move move)
{
    static const uint8_t fcb[FCB_BYTES] = {[AT_LINE_1] = 1, [AT_LINE_1 + 2] = 2, [AT_LINE_1 + 6] = 2}, letter[] = {0xC1};
    static struct printer before;
    uint64_t answer = start_with_way(p, way);
    check(accepted(answer), "not started with way", way);
    printer_send(p, TRESTLEPIP_LOAD_FCB, fcb, sizeof fcb);
    for (unsigned i = 0; i < row->count; i++) {
        before = *p;
        answer = printer_send(p, row->commands[i], letter, sizeof letter);
    }
    check(accepted(answer) && trestlepip_lines(answer) == move.lines && trestlepip_ready(answer) == move.ready, row->what, way);
    check(move.lines > 0 || memcmp(&before, p, sizeof before) == 0, row->what, way);
    check(p->state[TRESTLEPIP_AT_SKIP] == way, "another way in the state than", way);
}

static void check_ways(struct printer *p)
{
    for (unsigned row = 0; row < WAY_ROWS; row++) {
        check_way(p, TRESTLEPIP_NEW_WAY, &way_rows[row], way_rows[row].new);
        check_way(p, TRESTLEPIP_OLD_WAY, &way_rows[row], way_rows[row].old);
    }
}

/* Any other way is refused, also one that would be a way in one, two or three bytes; a wrong size comes before it. */
static void check_no_ways(struct printer *p)
{
    static const uint32_t no_ways[] = {2, 3, 255, 256, 257, 0x00010000, 0x00010001, 0x01000000, 0x01000001, 0x80000000, 0x80000001, UINT32_MAX};
    static const uint8_t zeros[TRESTLEPIP_STATE_BYTES];
    for (size_t i = 0; i < sizeof no_ways / sizeof *no_ways; i++) {
        printer_start(p, FORM);
        check(start_with_way(p, no_ways[i]) == TRESTLEPIP_BAD_FORM, "another answer to way", no_ways[i]);
        check(memcmp(p->state, zeros, sizeof zeros) == 0, "a state other than zeros after way", no_ways[i]);
        uint64_t answer = trestlepip_start(FORM, 10, 10, 12, 15, no_ways[i], p->state, sizeof p->state, p->page, sizeof p->page - 1,
                p->legends, sizeof p->legends, p->tables, sizeof p->tables);
        check(answer == TRESTLEPIP_BAD_STORE, "another answer to a short page and way", no_ways[i]);
    }
}

/* A text is one of its own, and not what any other number gets. */
static void check_texts(const char *(*text)(unsigned), const unsigned *numbers, size_t count)
{
    for (size_t i = 0; i < count; i++) {
        check(strcmp(text(numbers[i]), text(BYTES)) != 0, "no text for", numbers[i]);
        for (size_t other = 0; other < i; other++)
            check(strcmp(text(numbers[i]), text(numbers[other])) != 0, "one text for two", numbers[i]);
    }
}

/* The list of numbers serves for the causes too, which count from 1. */
static void check_all_texts(void)
{
    static const unsigned numbers[] = {0, 1, 2, 3, 4, 5, 6, 7, 8, 9, 10, 11, 12, TRESTLEPIP_MOST_BETWEEN, TRESTLEPIP_BAD_PAPER};
    static const unsigned checks[] = {
        TRESTLEPIP_SENSE_1_UNPRINTABLE, TRESTLEPIP_SENSE_1_NO_TABLE, TRESTLEPIP_SENSE_1_NO_MATCH, TRESTLEPIP_SENSE_1_MULTIPLE};
    check_texts(trestlepip_number_text, numbers, sizeof numbers / sizeof *numbers);
    check_texts(trestlepip_cause_text, numbers + 1, TRESTLEPIP_SEGMENT_FIELDS);
    check_texts(trestlepip_data_check_text, checks, sizeof checks / sizeof *checks);
}

int main(void)
{
    static struct printer p;
    for (unsigned row = 0; row < ROWS; row++)
        check_row(&p, row);
    check_count(&p);
    check_slots(&p);
    check_mosts(&p);
    check_most_pages(&p);
    check_paper(&p);
    check_end(&p);
    check_skips(&p);
    check_ways(&p);
    check_no_ways(&p);
    check_all_texts();
    printf("names: %u rows of status and sense, %u rows of skips in two ways, slots, skips, most pages, a page's feet and texts, %u faults\n",
            (unsigned)ROWS, (unsigned)WAY_ROWS, faults());
    return faults() == 0 ? 0 : 1;
}

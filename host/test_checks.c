/*
 * Provokes each check, which is no refusal: the data checks, the channels, and the skip that opens a job. Asks that the job goes on, that the check is
 * reported in the words of docs/NUMBERS.md or messages.h, and that the sheets which it spoils, and no others, are to be held back.
 */
#include <string.h>

#include "messages.h"
#include "test_refusals.h"
#include "test_run.h"

enum { NO_LETTER = 0x3F };
static const uint8_t other_letter[] = {0xC2}, no_letter[] = {NO_LETTER};

/*
 * Parts of what is said: where a report begins before any sheet, how that of an unprintable byte ends, another check, where a report begins on the
 * skip that opens a job, the sheet to hold back.
 */
#define NO_SHEET "before any sheet, command "
#define COLUMN_4 ": first in column 4, 2 in all\n"
#define PLACE_3 ": first at place 3 in a legend's text, 2 in all\n"
#define NO_TABLE SHEET_7 "01: data check 20, the selected table is not loaded\n"
#define OPENING BEFORE_7 "command 8B: "
#define HOLD_7 "hold back all copies of sheet 7: Calf house, page 2 of 3\n"

/*
 * Each check except that of unprintable bytes, with the commands that provoke it on line 1 of a sheet; the last one is reported. Channels stand on line
 * 2 of the form.
 */
static const struct {
    const char *row;
    uint8_t channel, before, command;
    const uint8_t *record;
} checks[] = {
    {"20", 0, TRESTLEPIP_SELECT_1, TRESTLEPIP_WRITE_NO_SPACE, letter},
    {"10", 0, TRESTLEPIP_NO_OP, TRESTLEPIP_WRITE_SKIP(2), letter},
    {"08", 0, TRESTLEPIP_WRITE_NO_SPACE, TRESTLEPIP_WRITE_NO_SPACE, other_letter},
    {SAYS_CHANNEL_9, 9, TRESTLEPIP_NO_OP, TRESTLEPIP_WRITE_SPACE_1, letter},
    {SAYS_CHANNEL_12, 12, TRESTLEPIP_NO_OP, TRESTLEPIP_WRITE_SPACE_1, letter},
};

/* A check is no refusal: the job goes on, and the sheet is to be held back. */
static void check_check(FILE *page, size_t i)
{
    char text[ROOM], line[2 * ROOM];
    uint8_t forms[FORM / 4] = {0};
    forms[4] = checks[i].channel;
    expect(page, "| Check |", checks[i].row, "data check", text);
    strcat(text, "\n");
    snprintf(line, sizeof line, SHEET_7 "%02X: %s" HOLD_7, checks[i].command, checks[i].channel ? checks[i].row : text);
    begin_run();
    spool_send(&spool, TRESTLEPIP_LOAD_FCB, forms, sizeof forms);
    spool.sheet = &sheet;
    spool_send(&spool, checks[i].before, letter, sizeof letter);
    spool_send(&spool, checks[i].command, checks[i].record, 1);
    spool_send(&spool, TRESTLEPIP_CLEAR, NULL, 0);
    end_run_with(HOLD_BACK, 1, line, "not reported: check", (unsigned)i);
}

/*
 * Bytes that cannot be printed, sent after two other commands: two in a line, the first in column 4; two in legends, the first at place 3 of the
 * second legend, which is the first that has one. All that is said is `before`, the check, and `after`.
 */
static const uint8_t bad_line[] = {LETTER, LETTER, LETTER, NO_LETTER, LETTER, NO_LETTER};
static const uint8_t bad_legends[] = {
    1, 1, 1, 1, 1, 1, LETTER,
    1, 1, 2, 1, 1, 4, LETTER, LETTER, NO_LETTER, LETTER,
    1, 1, 3, 1, 1, 1, NO_LETTER,
};
static const struct {
    uint8_t first, second, command;
    const char *before, *after;
} unprintables[] = {
    {TRESTLEPIP_NO_OP, TRESTLEPIP_NO_OP, TRESTLEPIP_WRITE_NO_SPACE, SHEET_7 "01: ", COLUMN_4 HOLD_7},
    {TRESTLEPIP_NO_OP, TRESTLEPIP_BLOCK, TRESTLEPIP_WRITE_NO_SPACE, SHEET_7 "01: Block hid ", COLUMN_4 HOLD_7},
    {TRESTLEPIP_BLOCK, TRESTLEPIP_ALLOW, TRESTLEPIP_WRITE_NO_SPACE, SHEET_7 "01: ", COLUMN_4 HOLD_7},
    {TRESTLEPIP_NO_OP, TRESTLEPIP_BLOCK, TRESTLEPIP_WRITE_SKIP(1), SHEET_7 "89: Block hid ", COLUMN_4 HOLD_7},
    {TRESTLEPIP_NO_OP, TRESTLEPIP_SELECT_1, TRESTLEPIP_WRITE_NO_SPACE, SHEET_7 "01: ", COLUMN_4 NO_TABLE HOLD_7},
    {TRESTLEPIP_BLOCK, TRESTLEPIP_SELECT_1, TRESTLEPIP_WRITE_NO_SPACE, SHEET_7 "01: Block hid ", COLUMN_4 NO_TABLE HOLD_7},
    {TRESTLEPIP_NO_OP, TRESTLEPIP_NO_OP, TRESTLEPIP_LOAD_COPY_MODIFICATION, NO_SHEET "35: ", PLACE_3 SAYS_HOLD_ALL},
    {TRESTLEPIP_NO_OP, TRESTLEPIP_BLOCK, TRESTLEPIP_LOAD_COPY_MODIFICATION, NO_SHEET "35: Block hid ", PLACE_3 SAYS_HOLD_ALL},
};

/* Reported once, with Block or without, and the sheet is to be held back; a legend is on every sheet. */
static void check_unprintable(FILE *page, size_t i)
{
    char text[ROOM], all[3 * ROOM];
    expect(page, "| Check |", "80", "data check", text);
    snprintf(all, sizeof all, "%s%s%s", unprintables[i].before, text, unprintables[i].after);
    begin_run();
    spool_send(&spool, unprintables[i].first, NULL, 0);
    spool_send(&spool, unprintables[i].second, NULL, 0);
    if (unprintables[i].command == TRESTLEPIP_LOAD_COPY_MODIFICATION) {
        spool_send(&spool, unprintables[i].command, bad_legends, sizeof bad_legends);
    } else {
        spool.sheet = &sheet;
        spool_send(&spool, unprintables[i].command, bad_line, sizeof bad_line);
    }
    spool_send(&spool, TRESTLEPIP_CLEAR, NULL, 0);
    end_run_with(HOLD_BACK, spool.sheet ? 1 : 0, all, "not reported: unprintable", (unsigned)i);
}

/*
 * The skip that opens a job, sent after another command, where it does not go as planned: the form, whose lines 1 and 2 have these channels, has no
 * channel 1, which is a data check; or it stands elsewhere; or it has that channel twice. All that is said is `said`, the data check, and what to hold
 * back.
 */
static const struct {
    uint32_t way;
    uint8_t before, channels[2];
    const char *said;
    bool has_check;
    size_t pages;
} openings[] = {
    {TRESTLEPIP_NEW_WAY, TRESTLEPIP_NO_OP, {0, 0}, OPENING SAYS_OPENING, true, 2},
    {TRESTLEPIP_OLD_WAY, TRESTLEPIP_NO_OP, {0, 0}, "", true, 2},
    {TRESTLEPIP_NEW_WAY, TRESTLEPIP_SPACE_1, {1, 0}, OPENING SAYS_OPENING, false, 2},
    {TRESTLEPIP_NEW_WAY, TRESTLEPIP_NO_OP, {0, 1}, OPENING SAYS_OPENING, false, 1},
    {TRESTLEPIP_OLD_WAY, TRESTLEPIP_NO_OP, {1, 1}, OPENING SAYS_OPENING, false, 1},
};

/* All sheets have the same form, and all are to be held back. */
static void check_opening(FILE *page, size_t i)
{
    char text[ROOM], all[3 * ROOM];
    uint8_t forms[FORM / 4] = {0, 0, 0, openings[i].channels[0], openings[i].channels[1]};
    expect(page, "| Check |", "10", OPENING "data check", text);
    strcat(text, "\n");
    snprintf(all, sizeof all, "%s%s" SAYS_HOLD_ALL, openings[i].said, openings[i].has_check ? text : "");
    begin_run_in(openings[i].way);
    spool_send(&spool, TRESTLEPIP_LOAD_FCB, forms, sizeof forms);
    spool_send(&spool, openings[i].before, NULL, 0);
    open_job();
    print_sheet();
    end_run_with(HOLD_BACK, openings[i].pages, all, "not reported: opening", (unsigned)i);
}

static void check_no_channel_12(void)
{
    begin_run();
    spool.sheet = &sheet;
    spool_send_last(&spool, TRESTLEPIP_WRITE_SPACE_1, letter, sizeof letter);
    spool_send(&spool, TRESTLEPIP_CLEAR, NULL, 0);
    check(spool.complete == sheet.number && sheet.out && sheet.held, "not held back: channel", 12);
    spool_send(&spool, 0x00, NULL, 0);
    end_run(STOPPED, 1, SAYS_NO_CHANNEL_12 SHEET_7 "00: refusal 1", "not reported: channel", 12);
}

/* A sheet that did not come out is not to be held back. */
static void check_not_out(void)
{
    begin_run();
    spool.sheet = &sheet;
    spool_send(&spool, TRESTLEPIP_WRITE_NO_SPACE, no_letter, sizeof no_letter);
    spool_send(&spool, 0x00, NULL, 0);
    end_run(STOPPED, 0, "is not listed\n" SAYS_NONE_OUT, "said to be out: sheet", 7);
}

/* Block by itself is no reason to hold a sheet back. */
static void check_good_line(void)
{
    begin_run();
    spool_send(&spool, TRESTLEPIP_BLOCK, NULL, 0);
    print_sheet();
    end_run_with(ALL_GOOD, 1, "", "reported, though good, after", TRESTLEPIP_BLOCK);
}

size_t test_checks(FILE *page)
{
    for (size_t i = 0; i < sizeof checks / sizeof *checks; i++)
        check_check(page, i);
    for (size_t i = 0; i < sizeof unprintables / sizeof *unprintables; i++)
        check_unprintable(page, i);
    for (size_t i = 0; i < sizeof openings / sizeof *openings; i++)
        check_opening(page, i);
    check_no_channel_12();
    check_not_out();
    check_good_line();
    return sizeof checks / sizeof *checks + sizeof unprintables / sizeof *unprintables + sizeof openings / sizeof *openings + 1;
}

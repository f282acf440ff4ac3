/* Asks how many pages and feet of paper a run says went out: of a few sheets, of very many, of dividers, and of a job that stopped. */
#include <string.h>

#include "messages.h"
#include "test_refusals.h"
#include "test_run.h"

/* Two sheets move every counter by two, from FFFF to 0000 too, and are two pages and their feet wherever the counters stood. */
static void check_pages(unsigned channel, unsigned others)
{
    unsigned after = (others + 2) % 65536;
    begin_run();
    set_counters(channel, others);
    spool.paper.initial = (uint16_t)channel;
    print_sheet();
    print_sheet();
    check(trestlepip_channel_page(spool.state) == (channel + 2) % 65536, "not released: pages after", channel);
    check(trestlepip_transfer_page(spool.state) == after, "not transferred: pages after", others);
    check(trestlepip_fuser_page(spool.state) == after, "not fused: pages after", others);
    check(trestlepip_stacker_page(spool.state) == after, "not stacked: pages after", others);
    end_run_with(ALL_GOOD, 2, "", "reported, though good, after", channel);
}

/*
 * What a run says of its paper, by the copies that are wanted of each sheet: a copy takes 84 24ths of an inch, which are 7/24 of a foot. The last two
 * come to 22.75 and 15.75 feet; added up page by page they would be a little less, and be shown so.
 */
static const struct {
    unsigned only, sheets;
    const char *feet;
} papers[] = {
    {0, 0, "0; feet of paper: 0.0\n"},
    {0, 1, "1; feet of paper: 0.6\n"},
    {0, 3, "3; feet of paper: 1.8\n"},
    {1, 3, "3; feet of paper: 0.9\n"},
    {COPIES, 3, "3; feet of paper: 0.9\n"},
    {0, 39, "39; feet of paper: 22.8\n"},
    {1, 54, "54; feet of paper: 15.8\n"},
};

/* Each name of a copy has one copy. */
static void load_pairs(void)
{
    uint8_t pairs[2 * COPIES] = {0};
    for (size_t i = 0; i < COPIES; i++)
        pairs[2 * i] = 1;
    spool_send(&spool, TRESTLEPIP_LOAD_OVERLAY_SEQUENCE, pairs, sizeof pairs);
}

static void check_paper(size_t i)
{
    begin_run();
    load_pairs();
    spool.only = papers[i].only;
    for (unsigned n = 0; n < papers[i].sheets; n++)
        print_sheet();
    const char *text = all_reports(ALL_GOOD, papers[i].sheets), *number = strstr(text, ": ");
    check(number && strcmp(number + 2, papers[i].feet) == 0, "other pages or feet: paper", (unsigned)i);
}

/* A printer that is started again counts from 0, and the run goes on counting. */
static void check_started_again(void)
{
    begin_run();
    print_sheet();
    print_sheet();
    spool_start(&spool, FORM, TRESTLEPIP_NEW_WAY);
    print_sheet();
    end_run_with(ALL_GOOD, 3, "", "reported, though good: sheet", 3);
}

/* A sum that is refused after a good one changes neither pages nor feet. */
static void check_bad_paper(void)
{
    begin_run();
    print_sheet();
    spool.paper.form = 100;
    print_sheet();
    end_run(STOPPED, 1, "line 1, feet: refusal 16", "not reported: sheet", 2);
}

/* A run in which so many sums are full, as it stands two pages before the next is, and five pages on. */
static void check_long_run(unsigned sums)
{
    enum { SUM = 65535, LEFT = 2, MORE = 5 };
    unsigned initial = sums * SUM, pages = initial + SUM - LEFT;
    begin_run();
    set_counters(pages % 65536, pages % 65536);
    spool.paper = (struct paper){FORM, (uint16_t)initial, feet_of(initial), feet_of(pages)};
    spool.pages = pages;
    for (unsigned i = 0; i < MORE; i++)
        print_sheet();
    check(spool.paper.feet == feet_of(pages + MORE), "other feet after pages", pages);
    end_run_with(ALL_GOOD, pages + MORE, "", "reported, though good, after pages", pages);
}

static void fill_disk(void)
{
    fclose(spool.sheets);
    spool.sheets = fopen("/dev/full", "w");
}

/* A sheet that could not be written whole, after one that was. */
static void check_not_written(void)
{
    begin_run();
    print_sheet();
    fill_disk();
    print_sheet();
    end_run(STOPPED, 1, "the sheets could not be written: ", "not reported: sheet", 2);
}

/* A page that is released, and stops the job before it is stacked, after one that is stacked. */
static void check_not_stacked(void)
{
    begin_run();
    print_sheet();
    complete_page();
    trestlepip_release(STORES(&spool));
    spool.page[1] = 2;
    spool_pass_stations(&spool);
    check(trestlepip_channel_page(spool.state) == 2, "not released: page", 2);
    end_run(STOPPED, 1, "line 1, transferred: refusal 9", "not reported: page", 2);
}

/* What a damaged printer counts is not asked: the sheet that came out before is still counted. */
static void check_damaged(void)
{
    begin_run();
    print_sheet();
    set_counters(0, 1000);
    print_sheet();
    end_run(STOPPED, 1, SHEET_7 "01: refusal 9", "not reported: counters", 1000);
}

/* A mark that is neither 0 nor 1 stops the job, also past the last line of the form. */
static void check_damaged_mark(void)
{
    begin_run();
    print_sheet();
    spool.page[sizeof spool.page - 1] = 2;
    print_sheet();
    end_run(STOPPED, 1, SHEET_7 "01: refusal 9", "not reported: mark", 2);
}

/* Two jobs of two sheets: four pages, and in the old way two dividers. */
static void check_jobs(uint32_t way, size_t pages)
{
    begin_run_in(way);
    for (unsigned jobs = 0; jobs < 2; jobs++) {
        open_job();
        print_sheet();
        print_sheet();
    }
    end_run_with(ALL_GOOD, pages, "", "reported, though good: way", way);
}

/*
 * On a good sheet the skip that opens a job in the new way leaves no trace. From line 2 it moves, and is reported: so it is sent before the first sheet
 * of a place, and before no other.
 */
static void check_opened(size_t page, bool is_opened)
{
    const struct herd herd = {0};
    const struct plan plan = {&sheet, 1};
    begin_run();
    spool_start(&spool, FORM_LENGTH, TRESTLEPIP_NEW_WAY);
    sheets_load(&spool, "2026-11-16", false);
    spool_send(&spool, TRESTLEPIP_SPACE_1, NULL, 0);
    sheet.page = page;
    sheets_print(&spool, &herd, &plan);
    const char *text = all_reports(is_opened ? HOLD_BACK : ALL_GOOD, (unsigned)page);
    check((strstr(text, SAYS_OPENING) != NULL) == is_opened, "opened or not: page", (unsigned)page);
}

/* A job that stops after its divider: that is a page, and no sheet. */
static void check_divider(void)
{
    begin_run_in(TRESTLEPIP_OLD_WAY);
    open_job();
    check(!sheet.out && !sheet.held, "taken for a sheet: divider", 1);
    spool_send(&spool, 0x00, NULL, 0);
    end_run(STOPPED, 1, SAYS_NONE_OUT, "taken for a sheet: divider", 1);
}

/* A divider that could not be written, after a sheet that was: the sheet is out and good. Without legends a divider has only its head. */
static void check_divider_not_written(void)
{
    begin_run_in(TRESTLEPIP_OLD_WAY);
    spool.heads = true;
    print_sheet();
    fill_disk();
    open_job();
    check(spool.complete == sheet.number && !sheet.held, "not good: sheet", 7);
    end_run(STOPPED, 1, "the sheets could not be written: ", "not reported: divider", 2);
}

/* A divider that is written, and not released. */
static void check_divider_refused(void)
{
    begin_run_in(TRESTLEPIP_OLD_WAY);
    set_counters(TRESTLEPIP_MOST_PAGES, 0);
    open_job();
    end_run(STOPPED, 0, BEFORE_7 "release: refusal 13", "not reported: divider", 3);
}

void test_pages(void)
{
    check_pages(0, 0);
    check_pages(0xFFFF, 0xFFFF);
    check_pages(3, 0xFFFE);
    for (size_t i = 0; i < sizeof papers / sizeof *papers; i++)
        check_paper(i);
    check_started_again();
    check_bad_paper();
    check_long_run(0);
    check_long_run(1);
    check_not_written();
    check_not_stacked();
    check_damaged();
    check_damaged_mark();
    check_jobs(TRESTLEPIP_NEW_WAY, 4);
    check_jobs(TRESTLEPIP_OLD_WAY, 6);
    check_opened(1, true);
    check_opened(2, false);
    check_divider();
    check_divider_not_written();
    check_divider_refused();
}

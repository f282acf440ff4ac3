/* The printer as the spooler drives it: each answer is looked at, refusals and checks are reported, completed pages printed, released and counted. */
#include <string.h>

#include "morning.h"

static bool is_accepted(uint64_t answer)
{
    return trestlepip_number(answer) == TRESTLEPIP_ACCEPTED;
}

/* Notes what is done and on which line, for a report. */
static void begin_call(struct spool *spool, const char *call)
{
    spool->line = spool->state[TRESTLEPIP_AT_LINE];
    strcpy(spool->call, call);
}

static void begin_command(struct spool *spool, uint8_t command)
{
    spool->line = spool->state[TRESTLEPIP_AT_LINE];
    snprintf(spool->call, sizeof spool->call, "command %02X", command);
}

/* A sheet with a line missing is worse than none: a refusal stops the job. */
static void stop_if_refused(struct spool *spool, uint64_t answer)
{
    if (is_accepted(answer))
        return;
    report_refusal(spool, answer);
    spool->stopped = true;
}

/* What goes wrong while no sheet is in work, in the loads or in opening a job, concerns every sheet: all have the same form. */
static void hold_back(struct spool *spool)
{
    if (spool->sheet)
        spool->sheet->held = true;
    else
        spool->all_held = true;
}

/* Block hides an unprintable byte from status and sense, and not from the answer; a character is missing all the same. */
static bool has_check(uint64_t answer)
{
    return (trestlepip_status(answer) & TRESTLEPIP_STATUS_UNIT_CHECK) != 0 || trestlepip_unprintables(answer) > 0;
}

/* Reports what the answer and the sense tell. The sense is read at once: the next command sets it anew. */
static void read_sense(struct spool *spool, uint64_t answer)
{
    uint8_t sense[TRESTLEPIP_SENSE_BYTES] = {0};
    uint64_t sensed = trestlepip_command(TRESTLEPIP_SENSE, NULL, 0, sense, sizeof sense, STORES(spool));
    report_checks(spool, answer, sense);
    hold_back(spool);
    stop_if_refused(spool, sensed);
}

/* Channel 12 stands where the weights of a sheet end, and a space alone tells of it: elsewhere the printer's lines are not those of the plan. */
static void check_channel_12(struct spool *spool, uint64_t answer, bool is_due)
{
    bool came = (trestlepip_status(answer) & TRESTLEPIP_STATUS_UNIT_EXCEPTION) != 0;
    if (came == is_due)
        return;
    report_channel_12(spool, came);
    hold_back(spool);
}

/* At the top of the form the skip stands, or in the old way completes a page: where it does not, the printer's lines are not those of the plan. */
static void check_opening(struct spool *spool, uint64_t answer)
{
    bool is_old = spool->way == TRESTLEPIP_OLD_WAY;
    if (is_old ? trestlepip_ready(answer) == 1 : trestlepip_lines(answer) == 0)
        return;
    report_opening(spool);
    hold_back(spool);
}

/* Bytes after the form's last line stay as they are, so they are made blank first. */
static uint64_t compose(struct spool *spool, uint32_t index)
{
    memset(spool->copy, 0, sizeof spool->copy);
    return trestlepip_compose(index, spool->copy, sizeof spool->copy, STORES(spool));
}

static void print_copies(struct spool *spool)
{
    uint64_t answer;
    for (uint32_t index = 1; is_accepted(answer = compose(spool, index)); index++)
        show_copy(spool, answer);
    if (trestlepip_number(answer) != TRESTLEPIP_BAD_INDEX)
        stop_if_refused(spool, answer);
}

static void flush_sheets(struct spool *spool)
{
    if (fflush(spool->sheets) == 0 && !ferror(spool->sheets))
        return;
    report_not_written(spool);
    spool->stopped = true;
}

/* The stations of the paper path, in their order, each with the call that says that a page passed it. */
static const struct {
    const char *call;
    uint64_t (*passed)(uint8_t *, size_t, const uint8_t *, size_t, const uint8_t *, size_t, const uint8_t *, size_t);
} stations[] = {
    {"transferred", trestlepip_transferred},
    {"fused", trestlepip_fused},
    {"stacked", trestlepip_stacked},
};

static uint32_t copies_printed(const struct spool *spool)
{
    return spool->only != 0 ? 1 : COPIES;
}

/* A sum takes the difference of two identifiers, and so this many pages at most. */
enum { SUM_PAGES_MOST = 0xFFFF };

static void begin_sum(struct paper *paper, unsigned initial)
{
    paper->initial = (uint16_t)initial;
    paper->earlier = paper->feet;
}

/* The feet of all pages so far. The sum is made anew with each page: feet that are added up page by page would be rounded as often. */
static void sum_feet(struct spool *spool)
{
    struct paper *paper = &spool->paper;
    unsigned final = trestlepip_channel_page(spool->state);
    double feet;
    begin_call(spool, "feet");
    stop_if_refused(spool, trestlepip_feet(paper->initial, (uint16_t)final, copies_printed(spool), paper->form, &feet));
    if (spool->stopped)
        return;
    paper->feet = paper->earlier + feet;
    if (trestlepip_pages_between(final, paper->initial) == SUM_PAGES_MOST)
        begin_sum(paper, final);
}

/*
 * A page went out when it is stacked: until then a cancel or a restart takes it back. Pages are added up one by one, since the stacker's counter goes
 * round, and a state that is damaged later cannot be asked. A page at which the job stops is neither among the pages nor in the feet.
 */
void spool_pass_stations(struct spool *spool)
{
    unsigned before = trestlepip_stacker_page(spool->state);
    for (size_t i = 0; i < sizeof stations / sizeof *stations && !spool->stopped; i++) {
        begin_call(spool, stations[i].call);
        stop_if_refused(spool, stations[i].passed(STORES(spool)));
    }
    if (!spool->stopped)
        sum_feet(spool);
    if (!spool->stopped)
        spool->pages += trestlepip_pages_between(trestlepip_stacker_page(spool->state), before);
}

/* A sheet that stopped between its copies is to be held back. */
static void note_sheet(struct spool *spool, struct sheet *sheet)
{
    sheet->out = true;
    if (spool->stopped)
        sheet->held = true;
    else
        spool->complete = sheet->number;
}

/* A page is released only when all its copies are out. A divider is no sheet, so that nothing is noted of it. */
static void print_page(struct spool *spool)
{
    begin_call(spool, "compose");
    print_copies(spool);
    flush_sheets(spool);
    if (spool->sheet)
        note_sheet(spool, spool->sheet);
    if (spool->stopped)
        return;
    begin_call(spool, "release");
    stop_if_refused(spool, trestlepip_release(STORES(spool)));
    spool_pass_stations(spool);
}

void spool_start(struct spool *spool, uint32_t form, uint32_t way)
{
    begin_call(spool, "start");
    stop_if_refused(spool, trestlepip_start(form, 10, 10, 12, 15, way, STORES(spool)));
    spool->way = way;
    spool->paper.form = form;
    begin_sum(&spool->paper, trestlepip_channel_page(spool->state));
}

static void send(struct spool *spool, bool is_last, uint8_t command, const uint8_t *record, size_t length)
{
    if (spool->stopped)
        return;
    begin_command(spool, command);
    uint64_t answer = trestlepip_command(command, record, length, NULL, 0, STORES(spool));
    stop_if_refused(spool, answer);
    if (spool->stopped)
        return;
    check_channel_12(spool, answer, is_last);
    if (spool->opened)
        check_opening(spool, answer);
    if (has_check(answer))
        read_sense(spool, answer);
    if (trestlepip_ready(answer) && !spool->stopped)
        print_page(spool);
}

void spool_send(struct spool *spool, uint8_t command, const uint8_t *record, size_t length)
{
    send(spool, false, command, record, length);
}

void spool_send_last(struct spool *spool, uint8_t command, const uint8_t *record, size_t length)
{
    send(spool, true, command, record, length);
}

void spool_open(struct spool *spool, const struct sheet *first, uint8_t skip)
{
    spool->sheet = NULL;
    spool->opened = first;
    spool_send(spool, skip, NULL, 0);
    spool->opened = NULL;
}

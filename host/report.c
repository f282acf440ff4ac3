/* What the spooler reports of the printer and of the run, in the words of messages.h and of the library's texts. */
#include <errno.h>
#include <string.h>

#include "messages.h"
#include "morning.h"
#include "trestlepip_text.h"

/* Begins a report: where the job is. */
static void say_where(const struct spool *spool)
{
    const struct sheet *sheet = spool->sheet, *opened = spool->opened;
    if (sheet)
        fprintf(spool->reports, SAYS_ON_SHEET, sheet->number, sheet->place->title, sheet->page, sheet->pages, spool->line, spool->call);
    else if (opened)
        fprintf(spool->reports, SAYS_BEFORE_SHEET, opened->number, opened->place->title, opened->page, opened->pages, spool->call);
    else
        fprintf(spool->reports, SAYS_BEFORE_SHEETS, spool->call);
}

void report_refusal(const struct spool *spool, uint64_t answer)
{
    unsigned number = trestlepip_number(answer), cause = trestlepip_cause(answer);
    const char *text = trestlepip_number_text(number);
    say_where(spool);
    if (number == TRESTLEPIP_LOAD_CHECK)
        fprintf(spool->reports, SAYS_LOAD_CHECK, number, text, cause, trestlepip_cause_text(cause));
    else
        fprintf(spool->reports, SAYS_REFUSAL, number, text);
}

/* The answer tells of unprintable bytes, with Block on too, when the sense does not. Before any sheet there are no lines, only legends. */
static void report_unprintable(const struct spool *spool, uint64_t answer, bool is_hidden)
{
    unsigned check = TRESTLEPIP_SENSE_1_UNPRINTABLE, first = trestlepip_first_unprintable(answer), count = trestlepip_unprintables(answer);
    const char *text = trestlepip_data_check_text(check);
    say_where(spool);
    if (spool->sheet)
        fprintf(spool->reports, is_hidden ? SAYS_HIDDEN : SAYS_UNPRINTABLE, check, text, first, count);
    else
        fprintf(spool->reports, is_hidden ? SAYS_HIDDEN_LEGEND : SAYS_LEGEND, check, text, first, count);
}

/* The data checks other than unprintable: bits of sense byte 1, which has other meanings unless byte 0 says data check. */
static void report_data_checks(const struct spool *spool, unsigned bits)
{
    static const unsigned data_checks[] = {TRESTLEPIP_SENSE_1_NO_TABLE, TRESTLEPIP_SENSE_1_NO_MATCH, TRESTLEPIP_SENSE_1_MULTIPLE};
    for (size_t i = 0; i < sizeof data_checks / sizeof *data_checks; i++)
        if (bits & data_checks[i]) {
            say_where(spool);
            fprintf(spool->reports, SAYS_DATA_CHECK, data_checks[i], trestlepip_data_check_text(data_checks[i]));
        }
}

void report_checks(const struct spool *spool, uint64_t answer, const uint8_t *sense)
{
    if (trestlepip_unprintables(answer) > 0)
        report_unprintable(spool, answer, (sense[3] & TRESTLEPIP_SENSE_3_BLOCKED) != 0);
    if (sense[0] & TRESTLEPIP_SENSE_0_DATA_CHECK)
        report_data_checks(spool, sense[1]);
    if (sense[0] & TRESTLEPIP_SENSE_0_CHANNEL_9) {
        say_where(spool);
        fprintf(spool->reports, SAYS_CHANNEL_9);
    }
}

void report_channel_12(const struct spool *spool, bool came)
{
    say_where(spool);
    if (came)
        fprintf(spool->reports, SAYS_CHANNEL_12);
    else
        fprintf(spool->reports, SAYS_NO_CHANNEL_12);
}

void report_opening(const struct spool *spool)
{
    say_where(spool);
    fprintf(spool->reports, SAYS_OPENING);
}

void report_not_written(const struct spool *spool)
{
    fprintf(spool->reports, SAYS_NOT_WRITTEN, strerror(errno));
}

/* Names the sheets that are out and to be held back; answers whether there are any. */
static bool report_held(FILE *to, const struct plan *plan)
{
    bool any = false;
    for (const struct sheet *sheet = plan->sheets; sheet < plan->sheets + plan->count; sheet++)
        if (sheet->out && sheet->held) {
            fprintf(to, SAYS_HOLD_BACK, sheet->number, sheet->place->title, sheet->page, sheet->pages);
            any = true;
        }
    return any;
}

static enum endings report_sheets(const struct spool *spool, const struct plan *plan)
{
    bool any_held = spool->all_held || report_held(spool->reports, plan);
    if (spool->all_held)
        fprintf(spool->reports, SAYS_HOLD_ALL);
    if (!spool->stopped)
        return any_held ? HOLD_BACK : ALL_GOOD;
    if (spool->complete > 0)
        fprintf(spool->reports, SAYS_SOME_OUT, spool->complete, plan->count);
    else
        fprintf(spool->reports, SAYS_NONE_OUT);
    return STOPPED;
}

enum endings report_end(const struct spool *spool, const struct plan *plan)
{
    enum endings ending = report_sheets(spool, plan);
    fprintf(spool->reports, SAYS_PAGES, spool->pages, spool->paper.feet);
    return ending;
}

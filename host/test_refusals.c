/*
 * Provokes each refusal that a host can provoke, which is all except number 11, and each cause, and holds the reports to the texts of docs/NUMBERS.md,
 * whose path is the argument. Then runs the parts of test_refusals.h. All reports go to standard error too, for host/test_morning.
 */
#include <string.h>

#include "test_refusals.h"
#include "test_run.h"

enum { LISTED_CAUSES = 10 };

static const uint8_t pair[] = {1, 0};

/* Those that can be provoked, in their order. */
static const unsigned numbers[] = {
    TRESTLEPIP_NOT_LISTED, TRESTLEPIP_BAD_RECORD, TRESTLEPIP_LOAD_CHECK, TRESTLEPIP_PAGE_WAITING, TRESTLEPIP_PAGE_STARTED, TRESTLEPIP_NO_PAGE,
    TRESTLEPIP_BAD_INDEX, TRESTLEPIP_TOO_SHORT, TRESTLEPIP_BAD_STORE, TRESTLEPIP_BAD_FORM, TRESTLEPIP_NONE_BETWEEN, TRESTLEPIP_MOST_BETWEEN,
    TRESTLEPIP_BAD_PAPER,
};

/*
 * Numbers 6 and 7 cannot come by the spooler's way, which stops at neither; the calls are made beside it. Number 12 comes to stations that are told of
 * a page when none was released. Number 16 comes if the spooler forgets which form it started on.
 */
static void provoke(unsigned number)
{
    switch (number) {
    case TRESTLEPIP_NOT_LISTED:
        spool_send(&spool, 0x00, NULL, 0);
        break;
    case TRESTLEPIP_BAD_RECORD:
        spool_send(&spool, TRESTLEPIP_WRITE_NO_SPACE, NULL, 0);
        break;
    case TRESTLEPIP_LOAD_CHECK:
        spool_send(&spool, TRESTLEPIP_LOAD_OVERLAY_SEQUENCE, NULL, 0);
        break;
    case TRESTLEPIP_PAGE_WAITING:
        complete_page();
        spool_send(&spool, TRESTLEPIP_CLEAR, NULL, 0);
        break;
    case TRESTLEPIP_PAGE_STARTED:
        spool_send(&spool, TRESTLEPIP_WRITE_NO_SPACE, letter, sizeof letter);
        spool_send(&spool, TRESTLEPIP_LOAD_OVERLAY_SEQUENCE, pair, sizeof pair);
        break;
    case TRESTLEPIP_NO_PAGE:
        report_refusal(&spool, trestlepip_release(STORES(&spool)));
        break;
    case TRESTLEPIP_BAD_INDEX:
        complete_page();
        report_refusal(&spool, trestlepip_compose(2, spool.copy, sizeof spool.copy, STORES(&spool)));
        break;
    case TRESTLEPIP_TOO_SHORT:
        spool_send(&spool, TRESTLEPIP_SENSE, NULL, 0);
        break;
    case TRESTLEPIP_BAD_STORE:
        memset(spool.state, 0, sizeof spool.state);
        spool_send(&spool, TRESTLEPIP_CLEAR, NULL, 0);
        break;
    case TRESTLEPIP_BAD_FORM:
        spool_start(&spool, 100, TRESTLEPIP_NEW_WAY);
        break;
    case TRESTLEPIP_NONE_BETWEEN:
        spool_pass_stations(&spool);
        break;
    case TRESTLEPIP_MOST_BETWEEN:
        set_counters(TRESTLEPIP_MOST_PAGES, 0);
        print_sheet();
        break;
    default:
        spool.paper.form = 100;
        print_sheet();
    }
}

/* A faulty record for each cause, from 1. */
static const struct {
    uint8_t command;
    size_t length;
    uint8_t record[256];
} faults[LISTED_CAUSES] = {
    {TRESTLEPIP_LOAD_FCB, 21, {0, 0, 0, 0x0D}},
    {TRESTLEPIP_LOAD_FCB, 20, {0}},
    {TRESTLEPIP_LOAD_FCB, 18, {0}},
    {TRESTLEPIP_LOAD_FCB, 21, {1}},
    {TRESTLEPIP_LOAD_TABLE, 255, {0}},
    {TRESTLEPIP_LOAD_OVERLAY_SEQUENCE, 3, {1, 0, 1}},
    {TRESTLEPIP_LOAD_OVERLAY_SEQUENCE, 2, {0, 0}},
    {TRESTLEPIP_LOAD_COPY_NUMBER, 1, {0}},
    {TRESTLEPIP_LOAD_COPY_MODIFICATION, 7, {1, 1, 1, 1, 1, 2, 0xC1}},
    {TRESTLEPIP_LOAD_COPY_MODIFICATION, 7, {1, 1, 1, 1, 0xCD, 1, 0xC1}},
};

static void check_number(FILE *page, unsigned number)
{
    char name[4], line[ROOM];
    snprintf(name, sizeof name, "%u", number % 100);
    expect(page, "| Number |", name, ": refusal", line);
    begin_run();
    provoke(number);
    check(spool.stopped || number == TRESTLEPIP_NO_PAGE || number == TRESTLEPIP_BAD_INDEX, "the job went on after refusal", number);
    spool.stopped = true;
    end_run(STOPPED, 0, line, "not reported as on the page: refusal", number);
}

/* Number 10 is for a way of skipping too, if it is neither. */
static void check_bad_way(FILE *page)
{
    char line[ROOM];
    expect(page, "| Number |", "10", ": refusal", line);
    begin_run_in(TRESTLEPIP_OLD_WAY + 1);
    end_run(STOPPED, 0, line, "not reported as on the page: way", TRESTLEPIP_OLD_WAY + 1);
}

static void check_cause(FILE *page, unsigned cause)
{
    char name[4], line[ROOM];
    snprintf(name, sizeof name, "%u", cause % 100);
    expect(page, "| Cause |", name, ", cause", line);
    begin_run();
    spool_send(&spool, faults[cause - 1].command, faults[cause - 1].record, faults[cause - 1].length);
    spool_send(&spool, TRESTLEPIP_WRITE_NO_SPACE, letter, sizeof letter);
    check(spool.state[TRESTLEPIP_AT_WRITTEN] == 0, "the job went on after cause", cause);
    end_run(STOPPED, 0, line, "not reported as on the page: cause", cause);
}

int main(int argc, char **argv)
{
    FILE *page = argc == 2 ? fopen(argv[1], "r") : NULL;
    if (!page) {
        fprintf(stderr, "usage: test_refusals NUMBERS\n");
        return 2;
    }
    for (size_t i = 0; i < sizeof numbers / sizeof *numbers; i++)
        check_number(page, numbers[i]);
    check_bad_way(page);
    for (unsigned cause = 1; cause <= LISTED_CAUSES; cause++)
        check_cause(page, cause);
    size_t checks = test_checks(page);
    test_pages();
    size_t rules = test_rules();
    test_memory();
    test_text();
    fclose(page);
    printf("refusals: %zu numbers, %u causes and %zu checks provoked, %zu rules shown, %u faults\n",
        sizeof numbers / sizeof *numbers, (unsigned)LISTED_CAUSES, checks, rules, failures());
    return failures() == 0 ? 0 : 1;
}

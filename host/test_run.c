/* What the tests of the spooler share. */
#include <stdlib.h>
#include <string.h>

#include "messages.h"
#include "test_run.h"

static unsigned failure_count;

void check(bool good, const char *what, unsigned number)
{
    if (good)
        return;
    printf("test_refusals: %s %u\n", what, number);
    failure_count++;
}

unsigned failures(void)
{
    return failure_count;
}

FILE *scratch(void)
{
    FILE *file = tmpfile();
    if (!file) {
        perror("test_refusals");
        exit(2);
    }
    return file;
}

char *read_back(FILE *file)
{
    static char text[ROOM];
    rewind(file);
    text[fread(text, 1, ROOM - 1, file)] = '\0';
    return text;
}

char *written(FILE *file)
{
    char *text = read_back(file);
    fclose(file);
    return text;
}

struct sheet sheet;
struct spool spool;
const uint8_t letter[] = {LETTER};

static const struct place calf_house = {.title = "Calf house"};
static const struct plan plan = {&sheet, 1};

void begin_run_in(uint32_t way)
{
    sheet = (struct sheet){.place = &calf_house, .number = 7, .page = 2, .pages = 3};
    memset(&spool, 0, sizeof spool);
    spool.sheets = scratch();
    spool.reports = scratch();
    spool.between = "";
    spool.only = 1;
    spool_start(&spool, FORM, way);
}

void begin_run(void)
{
    begin_run_in(TRESTLEPIP_NEW_WAY);
}

void complete_page(void)
{
    trestlepip_command(TRESTLEPIP_WRITE_SPACE_1, letter, sizeof letter, NULL, 0, STORES(&spool));
    trestlepip_command(TRESTLEPIP_CLEAR, NULL, 0, NULL, 0, STORES(&spool));
}

void set_counters(unsigned channel, unsigned others)
{
    for (size_t at = TRESTLEPIP_AT_CHANNEL_PAGE; at < TRESTLEPIP_AFTER_ALL; at += 2) {
        unsigned counter = at == TRESTLEPIP_AT_CHANNEL_PAGE ? channel : others;
        spool.state[at] = (uint8_t)(counter / 256);
        spool.state[at + 1] = (uint8_t)(counter % 256);
    }
}

void open_job(void)
{
    spool_open(&spool, &sheet, TRESTLEPIP_SKIP(1));
}

void print_sheet(void)
{
    spool.sheet = &sheet;
    spool_send(&spool, TRESTLEPIP_WRITE_NO_SPACE, letter, sizeof letter);
    spool_send(&spool, TRESTLEPIP_CLEAR, NULL, 0);
}

double feet_of(size_t pages)
{
    return (double)(pages * FORM) / 288;
}

/* Takes the last report off, which says that so many pages went out, and their feet. */
static void take_pages(char *text, size_t pages, unsigned number)
{
    char last[ROOM];
    size_t all = strlen(text), length = (size_t)snprintf(last, sizeof last, SAYS_PAGES, pages, feet_of(pages));
    bool counted = all >= length && strcmp(text + all - length, last) == 0;
    check(counted, "other pages or feet went out, after", number);
    if (counted)
        text[all - length] = '\0';
}

char *all_reports(enum endings ending, unsigned number)
{
    enum endings ended = report_end(&spool, &plan);
    char *text = written(spool.reports);
    fputs(text, stderr);
    check(ended == ending, "wrong ending after", number);
    fclose(spool.sheets);
    return text;
}

/* Ends the run, and returns its reports up to the last, which says that so many pages went out, and their feet. */
static const char *reports(enum endings ending, size_t pages, unsigned number)
{
    char *text = all_reports(ending, number);
    take_pages(text, pages, number);
    return text;
}

void end_run(enum endings ending, size_t pages, const char *line, const char *what, unsigned number)
{
    check(strstr(reports(ending, pages, number), line) != NULL, what, number);
}

void end_run_with(enum endings ending, size_t pages, const char *all, const char *what, unsigned number)
{
    check(strcmp(reports(ending, pages, number), all) == 0, what, number);
}

/* Reads the page up to the row that begins so; the row stays empty if there is none. */
static void find_row(FILE *page, const char *beginning, char *row)
{
    while (fgets(row, ROOM, page))
        if (strncmp(row, beginning, strlen(beginning)) == 0)
            return;
    row[0] = '\0';
}

void expect(FILE *page, const char *table, const char *row_name, const char *words, char *line)
{
    char beginning[ROOM], row[ROOM];
    rewind(page);
    find_row(page, table, row);
    snprintf(beginning, sizeof beginning, "| %s | ", row_name);
    find_row(page, beginning, row);
    const char *text = row + (row[0] ? strlen(beginning) : 0), *bar = strstr(text, " | ");
    snprintf(line, ROOM, "%s %s, %.*s", words, row_name, (int)(bar ? bar - text : 0), text);
}

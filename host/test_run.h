/* A run of the spooler for its tests: one sheet on one printer, what is said of it, the page of numbers to hold that to, and a count of what failed. */
#ifndef TEST_RUN_H
#define TEST_RUN_H

#include "morning.h"

/* Room for what a run says, and for a row of the page of numbers; the length of the form. */
enum { ROOM = 1024, FORM = 84 };

/* Says what failed, with a number to tell by which of many it was. */
void check(bool good, const char *what, unsigned number);

/* How many checks failed. */
unsigned failures(void);

/* A file that is gone when it is closed. */
FILE *scratch(void);

/* Reads back what was written to a file, as one string. */
char *read_back(FILE *file);

/* The same, and closes the file. */
char *written(FILE *file);

/* A sheet in work, and the printer that it is printed on. */
extern struct sheet sheet;
extern struct spool spool;

/* Where a report on this sheet begins, and one on the opening of a job before it. */
#define SHEET_7 "sheet 7 (Calf house, page 2 of 3), line 1, command "
#define BEFORE_7 "before sheet 7 (Calf house, page 2 of 3), "

/* A record with one letter. */
enum { LETTER = 0xC1 };
extern const uint8_t letter[1];

/* A printer as after Start, before any sheet, whose output can be read back. It prints one copy, as the sequence says that Start leaves. */
void begin_run(void);

/* The same with this way of skipping, which else is the new one. */
void begin_run_in(uint32_t way);

/* Leaves a completed page waiting, behind the spooler's back. */
void complete_page(void);

/* Sets the printer's page counters, behind the spooler's back: the channel's, and the other three alike. */
void set_counters(unsigned channel, unsigned others);

/* Opens a job before this sheet. */
void open_job(void);

/* Prints a sheet with one letter. */
void print_sheet(void);

/* The feet of so many pages, in one copy. */
double feet_of(size_t pages);

/* Ends the run, and returns all its reports, which go to standard error too. */
char *all_reports(enum endings ending, unsigned number);

/* Ends the run, and looks for a line among its reports, of which the last says that so many pages went out, and their feet. */
void end_run(enum endings ending, size_t pages, const char *line, const char *what, unsigned number);

/* Ends the run, and asks for these reports and that last one, and no others. */
void end_run_with(enum endings ending, size_t pages, const char *all, const char *what, unsigned number);

/* The text that a row of this table of docs/NUMBERS.md has, after these words, as the end of a report. `line` has ROOM. */
void expect(FILE *page, const char *table, const char *row_name, const char *words, char *line);

#endif

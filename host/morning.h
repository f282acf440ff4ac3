/*
 * The morning's spooler: what its files share. weights.c reads the weights, sheets.c lays them out on sheets, spool.c sends commands to the printer,
 * show.c writes the copies, report.c the messages; text.c turns text into bytes, and codes into text.
 */
#ifndef MORNING_H
#define MORNING_H

#include <stdbool.h>
#include <stdio.h>

#include "trestlepip.h"

/* How a run ends. */
enum endings { ALL_GOOD = 0, STOPPED = 1, REFUSED = 2, HOLD_BACK = 3 };

/* The copies of a sheet, as host/copies.def lists them: the name, and the way of skipping that a run of this copy alone asks for. */
#define COPY(name, way) +1
enum {
    COPIES = 0
#include "copies.def"
};
#undef COPY
struct copy {
    const char *name;
    uint32_t way;
};
extern const struct copy copies[COPIES];

/* The most characters of a place, a tag and a name: the columns of a sheet. A character has up to four bytes in the file. */
enum { PLACE_WIDTH = 43, TAG_WIDTH = 9, NAME_WIDTH = 18, CHARACTER_BYTES = 4, DATE_WIDTH = 10 };

/* Weights are in tenths of a kilogram. `place` is an index, and `next` that of the next animal in the same place. */
struct animal {
    char tag[TAG_WIDTH * CHARACTER_BYTES + 1], name[NAME_WIDTH * CHARACTER_BYTES + 1];
    unsigned tenths;
    size_t line, place, next, chained;
};

struct place {
    char title[PLACE_WIDTH * CHARACTER_BYTES + 1];
    size_t first, last, heads;
    uint64_t tenths;
};

/* All that is read from a file. `allocate` is realloc, except in a test. */
struct herd {
    struct animal *animals;
    struct place *places;
    size_t animal_count, place_count;
    bool sample;
    void *(*allocate)(void *array, size_t bytes);
};

/* A page of the morning, which comes out in COPIES copies. It begins with the animal of index `first`. */
struct sheet {
    const struct place *place;
    size_t number, page, pages, first, heads;
    uint64_t tenths;
    bool held, out;
};

struct plan {
    struct sheet *sheets;
    size_t count;
};

/* Reads the weights, and reports what is wrong with them: ALL_GOOD, REFUSED, or STOPPED for want of memory. */
enum endings weights_read(struct herd *herd, FILE *from, const char *file, FILE *reports);

/* Room for one more element: the array, moved if it had to grow; NULL if there is no memory. */
void *grown(void *(*allocate)(void *array, size_t bytes), void *array, size_t count, size_t size);

/*
 * The paper of the pages that came to the stacker: `feet`, for all copies that are printed, on a form of length `form`. It is the manual's sum since
 * the channel's page counter was `initial`, and `earlier`, which is the sums before that.
 */
struct paper {
    uint32_t form;
    uint16_t initial;
    double earlier, feet;
};

/*
 * A printer with all that the host keeps of it: the four buffers lent to every call, one to compose in, where the output goes and how it is to look.
 * `only` is the number of the one copy to print, 0 for all; `way` is the way of skipping. `sheet` is the sheet in work, NULL where there is none;
 * `opened` is the first sheet of the job that is being opened, NULL at other times. `complete` is the number of the latest sheet that is out,
 * `pages` how many pages came to the stacker, `paper` what these took; `line` and `call` say what is done.
 */
struct spool {
    uint8_t state[TRESTLEPIP_STATE_BYTES];
    uint8_t page[TRESTLEPIP_PAGE_BYTES];
    uint8_t legends[TRESTLEPIP_LEGEND_BYTES];
    uint8_t tables[TRESTLEPIP_TABLE_BYTES];
    uint8_t copy[TRESTLEPIP_PAGE_BYTES];
    FILE *sheets, *reports;
    const char *between;
    unsigned only;
    uint32_t way;
    bool heads, begun, stopped, all_held;
    struct sheet *sheet;
    const struct sheet *opened;
    size_t complete, pages;
    struct paper paper;
    unsigned line;
    char call[sizeof "transferred"];
};

/* The lent buffers of a spool, in the order in which every call takes them. */
#define STORES(s) (s)->state, sizeof (s)->state, (s)->page, sizeof (s)->page, (s)->legends, sizeof (s)->legends, (s)->tables, sizeof (s)->tables

/*
 * Starts the printer on a form of this length, with this way of skipping; modules 0 and 1 have the same pitch, so that capitals and small letters stand
 * in line.
 */
void spool_start(struct spool *spool, uint32_t form, uint32_t way);

/* Sends a command and prints the page that it completes. After a refusal nothing more is sent. */
void spool_send(struct spool *spool, uint8_t command, const uint8_t *record, size_t length);

/* The same for the weight that fills a sheet: channel 12 has to come with it, and with no other command. */
void spool_send_last(struct spool *spool, uint8_t command, const uint8_t *record, size_t length);

/*
 * Opens a job, which is the sheets of one place from `first` on, with an immediate skip to the top of the form. In the new way the form stands. In the
 * old way a divider comes out: a page with the legends alone, which is no sheet.
 */
void spool_open(struct spool *spool, const struct sheet *first, uint8_t skip);

/* Reports the page that was released past each station, and counts it and its paper when it is stacked. */
void spool_pass_stations(struct spool *spool);

/*
 * Writes the composed copy as text, unless another is the only one wanted: its lines up to the last that is not blank. Below a line that has rule marks
 * stands a row of hyphens, one under each marked cell and in the place of each underscore.
 */
void show_copy(struct spool *spool, uint64_t answer);

/*
 * Each report says the sheet in work and the line, or the sheet before which a job is being opened; and the call. The checks are those of a command's
 * answer, with the sense read after it.
 */
void report_refusal(const struct spool *spool, uint64_t answer);
void report_checks(const struct spool *spool, uint64_t answer, const uint8_t *sense);
void report_channel_12(const struct spool *spool, bool came);
void report_opening(const struct spool *spool);
void report_not_written(const struct spool *spool);

/* Says which sheets are to be held back, of a job that stopped which are out, and last how many pages and feet went out. Returns how the run ends. */
enum endings report_end(const struct spool *spool, const struct plan *plan);

/* How many characters the text has. */
size_t text_length(const char *text);

/* Text as EBCDIC, a byte a character, cut at `room` bytes; returns the bytes used. What the sheets do not have becomes a byte that cannot be printed. */
size_t text_to_bytes(const char *text, uint8_t *bytes, size_t room);

/* The spooler's translate table: 256 bytes. */
void text_table(uint8_t *table);

/* The character that this table prints by a code. */
char text_of_code(uint8_t code);

/* The EBCDIC blank. */
enum { TEXT_BLANK = 0x40 };

/* The sheets' form, five and a half inches in 24ths. */
enum { FORM_LENGTH = 132 };

/* Divides the animals of each place into sheets; false if there is no memory. */
bool sheets_plan(struct plan *plan, const struct herd *herd);

/* Loads the forms, the table, the overlay sequence and the legends, which lay date and copy name over each page, and SAMPLE if need be. */
void sheets_load(struct spool *spool, const char *date, bool sample);

void sheets_print(struct spool *spool, const struct herd *herd, const struct plan *plan);

#endif

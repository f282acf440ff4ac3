/* The morning's sheets: the plan that divides the animals into sheets, the loads that lay a sheet out, and the lines that print it. */
#include <inttypes.h>
#include <string.h>

#include "morning.h"

/*
 * The form: half an inch of margin and six heading lines at 6 lines per inch, then four inches at 8, of which the last half inch is margin. The margin
 * above has three bytes, so that the byte of line 1 has index 3.
 */
enum { MARGIN_ABOVE = 3, HEADING_LINES = 6, BODY_BYTES = 32, MARGIN_BELOW = 4, SIX_PER_INCH = 0x00, EIGHT_PER_INCH = 0x10 };
enum { HEAD_BYTES = MARGIN_ABOVE + HEADING_LINES, LAST_LINE = HEADING_LINES + BODY_BYTES - MARGIN_BELOW };

/* The lines. Channel 1 is the first; channel 2 the first of the weights; channel 12 the first below them, where the totals begin. */
enum { PLACE_LINE = 1, COPY_LINE = 2, COLUMNS_LINE = 4, SAMPLE_LINE = 5, BODY_LINE = HEADING_LINES + 1, TOTALS_LINE = 30, TOTALS_LINES = 3 };
enum { TOP = 1, BODY = 2, BOTTOM = 12, WEIGHTS_PER_SHEET = TOTALS_LINE - BODY_LINE };
_Static_assert(COLUMNS_LINE < SAMPLE_LINE && SAMPLE_LINE < BODY_LINE, "the legend SAMPLE lies over blanks");
_Static_assert(TOTALS_LINE + TOTALS_LINES <= LAST_LINE, "the space after the totals stays on the sheet");

/*
 * The positions. A weight and a total end where the figures end; beside a total stands its head count. A figure of 64 bits has up to 20 digits and a
 * point, a count up to 20 digits.
 */
enum { TAG_AT = 1, NAME_AT = 11, FIGURES_END = 36, COUNT_AT = 39, LEGENDS_AT = 45, SAMPLE_AT = 1 };
enum { WEIGHT_WIDTH = 6, RULE_WIDTH = 8, LABEL_WIDTH = sizeof "Sheet total" - 1, COUNT_WIDTH = 20, FIGURE_WIDTH = 21, LINE_WIDTH = 64 };
_Static_assert(PLACE_WIDTH + 1 < LEGENDS_AT, "a blank stands between the place and the date");
_Static_assert(TAG_AT + TAG_WIDTH < NAME_AT, "a blank stands between the tag and the name");
_Static_assert(NAME_AT + NAME_WIDTH < FIGURES_END - WEIGHT_WIDTH + 1, "a blank stands between the name and the weight");
_Static_assert(LABEL_WIDTH < FIGURES_END - FIGURE_WIDTH && FIGURES_END < COUNT_AT, "a total has room beside its label and its count");
_Static_assert(COUNT_AT + COUNT_WIDTH + (int)sizeof " head" - 1 <= LINE_WIDTH, "a count has room on the line");

static void load_forms(struct spool *spool)
{
    uint8_t forms[HEAD_BYTES + BODY_BYTES], *before_line_1 = forms + MARGIN_ABOVE - 1;
    memset(forms, SIX_PER_INCH, HEAD_BYTES);
    memset(forms + HEAD_BYTES, EIGHT_PER_INCH, BODY_BYTES);
    before_line_1[PLACE_LINE] |= TOP;
    before_line_1[BODY_LINE] |= BODY;
    before_line_1[TOTALS_LINE] |= BOTTOM;
    spool_send(spool, TRESTLEPIP_LOAD_FCB, forms, sizeof forms);
}

static void load_table(struct spool *spool)
{
    uint8_t table[256];
    text_table(table);
    spool_send(spool, TRESTLEPIP_LOAD_TABLE, table, sizeof table);
}

/* Each name has one copy; all but the first have the overlay. */
_Static_assert(2 * COPIES <= TRESTLEPIP_SEQUENCE_MOST, "the overlay sequence has a pair for each copy");
static void load_sequence(struct spool *spool)
{
    uint8_t pairs[2 * COPIES];
    for (size_t i = 0; i < COPIES; i++) {
        pairs[2 * i] = 1;
        pairs[2 * i + 1] = i > 0;
    }
    spool_send(spool, TRESTLEPIP_LOAD_OVERLAY_SEQUENCE, pairs, sizeof pairs);
}

/* The record of the legends as it grows, a segment of one line each. */
enum { SEGMENT_NUMBERS = 6, LEGENDS_MOST = (SEGMENT_NUMBERS + TRESTLEPIP_LINE_CELLS) * (COPIES + 2) };
struct legends {
    uint8_t record[LEGENDS_MOST];
    size_t length;
};

struct legend {
    uint8_t copy, copies, line, position;
    const char *text;
};

static void add_legend(struct legends *legends, struct legend legend)
{
    uint8_t *segment = legends->record + legends->length;
    size_t length = text_to_bytes(legend.text, segment + SEGMENT_NUMBERS, (size_t)(TRESTLEPIP_LINE_CELLS - legend.position + 1));
    const uint8_t numbers[SEGMENT_NUMBERS] = {legend.copy, legend.copies, legend.line, 1, legend.position, (uint8_t)length};
    memcpy(segment, numbers, sizeof numbers);
    legends->length += sizeof numbers + length;
}

static void add_copy_names(struct legends *legends)
{
    for (uint8_t copy = 1; copy <= COPIES; copy++)
        add_legend(legends, (struct legend){copy, 1, COPY_LINE, LEGENDS_AT, copies[copy - 1].name});
}

/* A load replaces all legends, so they travel in one record, after the table that translates them. */
static void load_legends(struct spool *spool, const char *date, bool sample)
{
    struct legends legends = {.length = 0};
    add_legend(&legends, (struct legend){1, COPIES, PLACE_LINE, LEGENDS_AT, date});
    add_copy_names(&legends);
    if (sample)
        add_legend(&legends, (struct legend){1, COPIES, SAMPLE_LINE, SAMPLE_AT, "SAMPLE: these weights are not real"});
    spool_send(spool, TRESTLEPIP_LOAD_COPY_MODIFICATION, legends.record, legends.length);
}

void sheets_load(struct spool *spool, const char *date, bool sample)
{
    load_forms(spool);
    load_table(spool);
    load_sequence(spool);
    load_legends(spool, date, sample);
}

/* Fills a sheet with the next animals of its place; returns the index of the one after them. */
static size_t fill_sheet(struct sheet *sheet, const struct herd *herd, size_t left)
{
    size_t at = sheet->first;
    for (; sheet->heads < WEIGHTS_PER_SHEET && sheet->heads < left; sheet->heads++) {
        sheet->tenths += herd->animals[at].tenths;
        at = herd->animals[at].next;
    }
    return at;
}

/* Adds a place's sheets to the plan; false if there is no memory. */
static bool plan_place(struct plan *plan, const struct herd *herd, const struct place *place)
{
    size_t pages = (place->heads + WEIGHTS_PER_SHEET - 1) / WEIGHTS_PER_SHEET, first = place->first;
    for (size_t page = 1; page <= pages; page++) {
        struct sheet *sheets = grown(herd->allocate, plan->sheets, plan->count, sizeof *sheets);
        if (!sheets)
            return false;
        plan->sheets = sheets;
        sheets[plan->count] = (struct sheet){.place = place, .number = plan->count + 1, .page = page, .pages = pages, .first = first};
        first = fill_sheet(&sheets[plan->count++], herd, place->heads - (page - 1) * WEIGHTS_PER_SHEET);
    }
    return true;
}

bool sheets_plan(struct plan *plan, const struct herd *herd)
{
    bool planned = true;
    for (size_t i = 0; planned && i < herd->place_count; i++)
        planned = plan_place(plan, herd, &herd->places[i]);
    return planned;
}

/* A line as it is laid out: blanks, and texts at their positions. */
struct layout {
    uint8_t bytes[LINE_WIDTH];
};

static struct layout blank_line(void)
{
    struct layout line;
    memset(line.bytes, TEXT_BLANK, sizeof line.bytes);
    return line;
}

static void put(struct layout *line, size_t position, const char *text)
{
    text_to_bytes(text, line->bytes + position - 1, LINE_WIDTH - (position - 1));
}

static void put_figure(struct layout *line, uint64_t tenths)
{
    char text[FIGURE_WIDTH + 1];
    int length = snprintf(text, sizeof text, "%" PRIu64 ".%" PRIu64, tenths / 10, tenths % 10);
    put(line, (size_t)(FIGURES_END - length + 1), text);
}

static void write_line(struct spool *spool, uint8_t command, const struct layout *line)
{
    spool_send(spool, command, line->bytes, sizeof line->bytes);
}

static void write_text(struct spool *spool, uint8_t command, const char *text)
{
    struct layout line = blank_line();
    put(&line, TAG_AT, text);
    write_line(spool, command, &line);
}

/* The heading; its last line skips to the first line of the body. */
static void write_heading(struct spool *spool)
{
    const struct sheet *sheet = spool->sheet;
    char page[LINE_WIDTH];
    struct layout heads = blank_line();
    snprintf(page, sizeof page, "page %zu of %zu", sheet->page, sheet->pages);
    put(&heads, TAG_AT, "Tag");
    put(&heads, NAME_AT, "Name");
    put(&heads, FIGURES_END - 1, "kg");
    write_text(spool, TRESTLEPIP_WRITE_SPACE_1, sheet->place->title);
    write_text(spool, TRESTLEPIP_WRITE_SPACE_1, "Weights before feeding");
    write_text(spool, TRESTLEPIP_WRITE_SPACE_1, page);
    write_line(spool, TRESTLEPIP_WRITE_SKIP(BODY), &heads);
}

static struct layout weight_line(const struct animal *animal)
{
    struct layout line = blank_line();
    put(&line, TAG_AT, animal->tag);
    put(&line, NAME_AT, animal->name);
    put_figure(&line, animal->tenths);
    return line;
}

/* Each weight a line. The one that fills the sheet comes to channel 12, and a sheet that is not full skips there. */
static void write_weights(struct spool *spool, const struct herd *herd)
{
    const struct sheet *sheet = spool->sheet;
    size_t at = sheet->first;
    for (size_t n = 1; n <= sheet->heads; n++, at = herd->animals[at].next) {
        const struct layout line = weight_line(&herd->animals[at]);
        if (n == WEIGHTS_PER_SHEET)
            spool_send_last(spool, TRESTLEPIP_WRITE_SPACE_1, line.bytes, sizeof line.bytes);
        else
            write_line(spool, n < sheet->heads ? TRESTLEPIP_WRITE_SPACE_1 : TRESTLEPIP_WRITE_SKIP(BOTTOM), &line);
    }
}

static struct layout rule(size_t first)
{
    struct layout line = blank_line();
    for (size_t position = first; position <= FIGURES_END; position++)
        put(&line, position, "_");
    return line;
}

/* A total, written without spacing, and underscores over it: its characters get rule marks, its blanks become underscores, and all is one rule. */
static void write_total(struct spool *spool, const char *label, size_t heads, uint64_t tenths)
{
    char count[COUNT_WIDTH + sizeof " head"];
    struct layout line = blank_line();
    const struct layout under = rule(TAG_AT);
    snprintf(count, sizeof count, "%zu head", heads);
    put(&line, TAG_AT, label);
    put_figure(&line, tenths);
    put(&line, COUNT_AT, count);
    write_line(spool, TRESTLEPIP_WRITE_NO_SPACE, &line);
    write_line(spool, TRESTLEPIP_WRITE_SPACE_1, &under);
}

/* A rule under the weights, the sheet's total, and on the last of several sheets the place's. */
static void write_totals(struct spool *spool)
{
    const struct sheet *sheet = spool->sheet;
    const struct layout above = rule(FIGURES_END - RULE_WIDTH + 1);
    write_line(spool, TRESTLEPIP_WRITE_SPACE_1, &above);
    write_total(spool, "Sheet total", sheet->heads, sheet->tenths);
    if (sheet->pages > 1 && sheet->page == sheet->pages)
        write_total(spool, "Place total", sheet->place->heads, sheet->place->tenths);
}

/* A job opens before the first sheet of its place. Clear ends a sheet, and the next begins on line 1. */
void sheets_print(struct spool *spool, const struct herd *herd, const struct plan *plan)
{
    for (size_t i = 0; i < plan->count && !spool->stopped; i++) {
        struct sheet *sheet = &plan->sheets[i];
        if (sheet->page == 1)
            spool_open(spool, sheet, TRESTLEPIP_SKIP(TOP));
        spool->sheet = sheet;
        write_heading(spool);
        write_weights(spool, herd);
        write_totals(spool);
        spool_send(spool, TRESTLEPIP_CLEAR, NULL, 0);
    }
}

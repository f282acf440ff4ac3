/* Asks what a sheet shows: the rules below its lines, and each character as itself. */
#include <string.h>

#include "test_refusals.h"
#include "test_run.h"

/*
 * What a sheet shows of two writes on line 1, of a legend that begins in column `column` there, and of a mark that is set behind the spooler's back in cell
 * `marked` of the page, from 1. Calls mark no blank; if one is marked all the same, the sheet shows it.
 */
static const struct {
    const char *first, *second, *legend;
    uint8_t column;
    size_t marked;
    const char *shown;
} rules[] = {
    {"A B", "___", "", 0, 0, "A B\n---\n"},
    {"___", "A B", "", 0, 0, "A B\n---\n"},
    {"ABC", " _ ", "", 0, 0, "ABC\n -\n"},
    {"A_ B", "_", "", 0, 0, "A  B\n--\n"},
    {"AB", "____", "", 0, 0, "AB\n----\n"},
    {"A_", "", "", 0, 0, "A_\n"},
    {"_ _B", "___", "", 0, 0, "___B\n"},
    {"ABC", "___", "D", 2, 0, "ADC\n- -\n"},
    {"ABC", "___", "B", 2, 0, "ABC\n- -\n"},
    {"ABC", "___", " ", 2, 0, "A C\n- -\n"},
    {"ABC", "___", "ABC", 1, 0, "ABC\n"},
    {"ABC", "", "", 0, 1, "ABC\n-\n"},
    {"A", "", "", 0, 3, "A\n  -\n"},
    {"A", "", "", 0, TRESTLEPIP_LINE_CELLS + 2, "A\n\n -\n"},
};

static void load_legend(uint8_t column, const char *text)
{
    uint8_t record[ROOM] = {1, 1, 1, 1, column, (uint8_t)strlen(text)};
    size_t length = text_to_bytes(text, record + 6, sizeof record - 6);
    if (length > 0)
        spool_send(&spool, TRESTLEPIP_LOAD_COPY_MODIFICATION, record, 6 + length);
}

static void write_text(const char *text)
{
    uint8_t record[TRESTLEPIP_LINE_CELLS];
    size_t length = text_to_bytes(text, record, sizeof record);
    if (length > 0)
        spool_send(&spool, TRESTLEPIP_WRITE_NO_SPACE, record, length);
}

static void check_rule(size_t i)
{
    begin_run();
    load_legend(rules[i].column, rules[i].legend);
    spool.sheet = &sheet;
    write_text(rules[i].first);
    write_text(rules[i].second);
    if (rules[i].marked > 0)
        spool.page[(rules[i].marked - 1) * TRESTLEPIP_CELL_BYTES + 1] = 1;
    spool_send(&spool, TRESTLEPIP_CLEAR, NULL, 0);
    check(strcmp(read_back(spool.sheets), rules[i].shown) == 0, "shown otherwise: rule", (unsigned)i);
    end_run_with(ALL_GOOD, 1, "", "reported, though good: rule", (unsigned)i);
}

size_t test_rules(void)
{
    for (size_t i = 0; i < sizeof rules / sizeof *rules; i++)
        check_rule(i);
    return sizeof rules / sizeof *rules;
}

/* What a character comes back as from its byte and its code: itself, or FF if it cannot be printed. */
static int there_and_back(char c)
{
    uint8_t table[256], byte;
    text_table(table);
    text_to_bytes((char[]){c, '\0'}, &byte, 1);
    return table[byte] == 0xFF ? 0xFF : text_of_code(table[byte]);
}

/* No two characters share a code, or one of them would come back as the other. */
void test_text(void)
{
    for (char c = ' '; c <= '~'; c++) {
        bool has_none = strchr("[]{}\\^~", c) != NULL;
        check(there_and_back(c) == (has_none ? 0xFF : c), "not printed as itself: character", (unsigned)c);
    }
}

/* A table of counts, printed and judged. */
#include "table.h"

#include <stdbool.h>
#include <stdio.h>
#include <stdlib.h>

void table_add(struct table *t, const char *name, unsigned long count, unsigned long least)
{
    if (t->count == ROWS_MOST)
        abort();
    struct row *r = &t->rows[t->count++];
    snprintf(r->name, sizeof r->name, "%s", name);
    r->count = count;
    r->least = least;
}

void table_add_rows(struct table *t, const struct row *rows, size_t count)
{
    for (size_t i = 0; i < count; i++)
        table_add(t, rows[i].name, rows[i].count, rows[i].least);
}

static bool is_forbidden(const struct row *r)
{
    return r->least == NEVER && r->count != 0;
}

static bool is_missing(const struct row *r)
{
    return r->least != NEVER && r->count < r->least;
}

static void print_row(const struct row *r)
{
    printf("%-72s %9lu%s\n", r->name, r->count, r->least == NEVER ? " (cannot occur)" : "");
}

static void name_fault(const struct row *r)
{
    if (is_forbidden(r))
        printf("met, and cannot occur: %s\n", r->name);
    else if (is_missing(r) && r->count == 0)
        printf("none met: %s\n", r->name);
    else if (is_missing(r))
        printf("%lu met, at least %lu wanted: %s\n", r->count, r->least, r->name);
}

struct faults table_print(const struct table *t)
{
    struct faults f = { 0, 0 };
    for (size_t i = 0; i < t->count; i++)
        print_row(&t->rows[i]);
    for (size_t i = 0; i < t->count; i++) {
        name_fault(&t->rows[i]);
        f.missing += is_missing(&t->rows[i]);
        f.forbidden += is_forbidden(&t->rows[i]);
    }
    return f;
}

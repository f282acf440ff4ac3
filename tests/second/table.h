/* A table of counts in print: each row has a count, and the least that it has to be. */
#ifndef TABLE_H
#define TABLE_H

#include <limits.h>
#include <stddef.h>

enum { NAME_ROOM = 72, ROWS_MOST = 320 };

/* In place of a least count: the count has to be 0. */
#define NEVER ULONG_MAX

struct row {
    char name[NAME_ROOM];
    unsigned long count;
    unsigned long least;
};

struct table {
    struct row rows[ROWS_MOST];
    size_t count;
};

/* How many rows are below their least, and how many of those that have to be 0 are not. */
struct faults {
    unsigned missing, forbidden;
};

/* Adds one row at the end. */
void table_add(struct table *t, const char *name, unsigned long count, unsigned long least);

/* Adds some rows at the end. */
void table_add_rows(struct table *t, const struct row *rows, size_t count);

#define TABLE_ADD_ROWS(t, ...) table_add_rows(t, (const struct row[]){ __VA_ARGS__ }, sizeof (const struct row[]){ __VA_ARGS__ } / sizeof(struct row))

/* Prints the table, a row a line, and then names each row that is not as it must be. */
struct faults table_print(const struct table *t);

#endif

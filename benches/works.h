/* The works that are timed: each a printer made ready, and a round of calls that is made over and over. */
#ifndef WORKS_H
#define WORKS_H

#include "sides.h"

/* What is done to a printer that is ready, so that every call gets number 9. The last two are no damage: so many pages as only very many calls release, and
 * a rule mark in every cell, which a first write and a legend have to clear. */
enum damage { NO_DAMAGE, SHORT_PAGE, BAD_SELECTION, LAST_LEGEND_BYTE, FIRST_MARK, LAST_MARK, BAD_STACKER, MOST_RELEASED, ALL_RULED };

struct work {
    char name[80];
    struct call ready[CALLS_MOST]; /* all accepted, from Start on */
    size_t ready_count;
    enum damage damage;
    struct call round[CALLS_MOST]; /* all get `number` */
    size_t round_count;
    unsigned number;
    unsigned parts; /* how many times the round does what the name says */
    size_t copied;  /* the bytes of a composed copy, else 0 */
    bool limited;   /* its composing, by the time that memcpy takes for those bytes: MEMCPY_LIMIT of bench.c */
};

enum { WORKS_MOST = 50 };

/* Fills the works and gives their number. */
size_t works_make(struct work *works);

#endif

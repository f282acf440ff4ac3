/* The parts of the script's player: script_read.c reads a line, script.c obeys it and compares, script_tell.c tells of the call. */
#ifndef SCRIPT_PARTS_H
#define SCRIPT_PARTS_H

#include "calls.h"
#include "second.h"

#include <stdio.h>

/* What a call is lent: the stores, then a buffer for the reply or the copy. */
enum { BUFFER = STORES, LENT };

/* The usual size of each, and the byte that it is full of at first. The buffer is filled anew for every call, with a byte that no cell has. */
struct part {
    const char *name;
    size_t size;
    uint8_t filler;
};

extern const struct part parts[LENT];

/* A program, what its next call is lent, the feet among it, and the stores as they were before the latest call. */
struct player {
    const char *name;
    struct exports exports;
    uint8_t *lent[LENT];
    size_t lent_len[LENT];
    double feet;
    uint8_t *before[STORES];
    unsigned long calls;
};

/* Where no letter stands a command's byte does. Its record may be one byte longer than a load takes. */
enum { COMMAND = '0', COMMENT = '#', GIVEN_MOST = 1 + TRESTLEPIP_LEGEND_BYTES + 1 };

/* A line of the script: the letter that says what it is for, and its bytes. */
struct line {
    char letter;
    size_t count;
    uint8_t given[GIVEN_MOST];
};

/* Whether the line is one of a script; fills in what it says. */
bool read_line(struct line *l, const char *text, size_t length);

/* Tells of a call that a line asked for, in the words of the program `rows`: its answer, the state, the stores, the buffer and the feet. */
void tell_call(FILE *to, const struct player *p, const struct line *l, uint64_t answer);

#endif

/* What is measured, row by row: how the printer stands, the call, and the answer that it has to give. */
#ifndef ROWS_H
#define ROWS_H

#include "../header/printer.h"
#include "painted.h"

/* The exports. */
enum export { START, COMMAND, COMPOSE, RELEASE, TRANSFERRED, FUSED, STACKED, CANCEL, RESTART, FEET, EXPORTS };

struct exported {
    const char *name;
    void (*function)(void);
};
extern const struct exported exports[EXPORTS];

/* A load's record may be as long as the legends; one byte more is refused. */
enum { RECORD_MOST = TRESTLEPIP_LEGEND_BYTES + 1 };

/* All that a call is lent, the call, and what came of it. */
struct bench {
    struct printer printer;
    uint8_t record[RECORD_MOST];
    uint8_t reply[TRESTLEPIP_SENSE_BYTES];
    uint8_t out[TRESTLEPIP_PAGE_BYTES];
    double feet;
    struct call call;
    uint64_t answer;
    size_t bytes;
};

/* What an answer must tell; what a row does not name is 0, and false. */
struct told {
    unsigned number, cause, lines, unprintables, copy;
    bool checked, ready; /* unit check in the status; a page is completed */
};

/* Number and other are Start's form and way, Compose's index, or the copies and the form of Feet. */
struct row {
    const char *name;
    enum export call;
    void (*stand)(struct printer *p);
    uint8_t command;
    unsigned channels; /* for a skip: so many channels from the command's on, each measured */
    size_t (*record)(uint8_t *record, size_t length);
    size_t length;
    uint32_t number, other;
    size_t cut; /* bytes that are lent less: of the reply, of Compose's output, of the page for the other calls */
    struct told told;
};

extern const struct row rows[];
extern const size_t row_count;

/* Has the printer stand as the row says, and makes its call ready, for one of its channels from 0. */
void prepare(struct bench *b, const struct row *r, unsigned channel);

#endif

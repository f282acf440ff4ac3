/* A printer for the tests of the header: its buffers, calls on them, and a count of what went wrong. */
#ifndef PRINTER_H
#define PRINTER_H

#include <stdbool.h>

#include "trestlepip.h"

struct printer {
    uint8_t state[TRESTLEPIP_STATE_BYTES];
    uint8_t page[TRESTLEPIP_PAGE_BYTES];
    uint8_t legends[TRESTLEPIP_LEGEND_BYTES];
    uint8_t tables[TRESTLEPIP_TABLE_BYTES];
};

/* The lent buffers of a printer, in the order in which every call takes them. */
#define STORES(p) (p)->state, sizeof (p)->state, (p)->page, sizeof (p)->page, (p)->legends, sizeof (p)->legends, (p)->tables, sizeof (p)->tables

/* Whether an answer has number 0. */
bool accepted(uint64_t answer);

/* Starts a printer whose four modules are fitted, with the new way of skipping. */
void printer_start(struct printer *p, uint32_t form);

uint64_t printer_send(struct printer *p, uint8_t command, const uint8_t *record, size_t length);

/* Loads a table that gives each byte as its code, so that a record is codes. */
void printer_load_codes(struct printer *p);

/* Completes a page; one that is not started gets a blank line. */
void printer_complete(struct printer *p);

/* Releases the page that waits, and reports it past each station as a host does: without that no page is released after TRESTLEPIP_MOST_PAGES. */
void printer_release(struct printer *p);

/* Makes every call that is lent the stores, except Start. Returns how many of the PRINTER_CALLS get TRESTLEPIP_BAD_STORE. */
enum { PRINTER_CALLS = 8 };
unsigned printer_refusals(struct printer *p);

/* Sets the page counters, each modulo 65,536. */
void printer_set_counters(struct printer *p, unsigned channel, unsigned transfer, unsigned fuser, unsigned stacker);

/* Reads the sense, TRESTLEPIP_SENSE_BYTES. */
void printer_sense(struct printer *p, uint8_t *sense);

/* Says what went wrong, with a number to tell by which of many it was. */
void check(bool good, const char *what, unsigned number);

/* How many checks went wrong. */
unsigned faults(void);

/* Pseudo-random numbers, the same in each run: from 0 to below the bound. */
unsigned chance(unsigned bound);

#endif

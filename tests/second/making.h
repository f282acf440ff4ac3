/* What the parts of the generator share: chance.c has its random numbers, look.c looks at the state, records.c, fcb_records.c and
 * legend_records.c make records, station_calls.c makes calls that count pages, and counters, feet_calls.c those for feet, damage.c damages stores. */
#ifndef MAKING_H
#define MAKING_H

#include "../../include/trestlepip.h"
#include "calls.h"

enum { LINE_CELLS = 204, LINES_MOST = 132, PAGE_CELLS = LINES_MOST * LINE_CELLS };
enum { WRITE_MOST = 204, LOAD_MOST = 8192, SLOT_BYTES = 256, REPLY_BYTES = 24, HEAD = 6, SEGMENT_LEAST = 7 };

#define COUNT(array) (sizeof(array) / sizeof((array)[0]))

/* Random numbers. Never two of one expression without an order, so that a seed gives the same calls everywhere. */

/* splitmix64: spreads a seed over the words of the generator. */
uint64_t splitmix(uint64_t *x);

/* xoshiro256**. */
uint64_t next(struct generator *g);

/* A number from 0 to below the bound; a bound of 0 gives 0. */
unsigned below(struct generator *g, size_t bound);

/* A number from low to high, both among them. */
unsigned between(struct generator *g, unsigned low, unsigned high);

/* Whether a chance of so many in a hundred, or in a thousand, comes true. */
bool percent(struct generator *g, unsigned chance);
bool permille(struct generator *g, unsigned chance);

/* Any byte. */
uint8_t byte(struct generator *g);

/* The place of one weight among some, each as likely as it is heavy. */
unsigned weighted(struct generator *g, const unsigned *weights, size_t count);

#define WEIGHTED(g, ...) weighted(g, (const unsigned[]){ __VA_ARGS__ }, COUNT(((const unsigned[]){ __VA_ARGS__ })))

/* What the state shows: its bytes, the form, and whether a page is started, or its current line written. */
const uint8_t *state_of(const struct generator *g);
unsigned form_now(const struct generator *g);
bool started_now(const struct generator *g);
bool written_now(const struct generator *g);

/* The units of an FCB byte; a damaged one counts as 6 lines per inch. */
unsigned units(uint8_t fcb_byte);

/* The printable lines, at least 1 and at most 132 for any bytes. */
unsigned lines_now(const struct generator *g);

/* The place on the page of the current line's first cell, counted in cells from 0; that of line 1 if the page has no such line. */
size_t line_place(const struct generator *g);

/* The code of a cell of the page. */
uint8_t code_on_page(const struct generator *g, size_t cell);

/* Whether the latest damage has put a mark above 1 on the page. */
bool bad_mark_now(const struct generator *g);

/* The copies of the sequence, at least 1 for any bytes. */
unsigned copies_now(const struct generator *g);

/* A channel that some line of the FCB has, or any if the line looked at has none. */
unsigned channel_near(struct generator *g);

/* A slot that is loaded, mostly one of the higher. */
unsigned slot_near(struct generator *g);

/* A slot that is not loaded: the selected one if it is not, else the lowest; the selected one if all are loaded. */
unsigned slot_to_load(const struct generator *g);

/* A byte that the table which serves can print, or one that it cannot; any byte if there is none. */
uint8_t byte_by_table(struct generator *g, bool printable);

/* For each code a byte that the table which serves makes it of; 40 if there is none. */
void bytes_of_codes(const struct generator *g, uint8_t byte_of[SLOT_BYTES]);

/* The text of a write or of a segment; count is not 0. */
void text(struct generator *g, uint8_t *bytes, size_t count);

/* A record of this length with bytes that no command reads in order. */
void any_record(struct generator *g, struct call *c, size_t length);

/* A length that a command which ignores its record must not mind. */
size_t ignored_length(struct generator *g);

/* The record of a write: mostly 1 to 204 bytes. */
void write_record(struct generator *g, struct call *c);

/* The record of an FCB load. */
void fcb_record(struct generator *g, struct call *c);

/* The record of a translate load. */
void table_record(struct generator *g, struct call *c);

/* The record of an overlay sequence load. */
void sequence_record(struct generator *g, struct call *c);

/* The record of a copy number load. */
void number_record(struct generator *g, struct call *c);

/* The record of a copy modification load. */
void legends_record(struct generator *g, struct call *c);

/* Whether it is time for a station, cancel or restart call, and such a call. */
bool tally_due(struct generator *g);
void tally_call(struct generator *g, struct call *c);

/* Whether it is time for a call for feet of paper, and such a call. */
bool feet_due(struct generator *g);
void feet_call(struct generator *g, struct call *c);

/* Counters that no calls can lead to, by one page. */
void unreachable_counters(struct generator *g, uint8_t bytes[COUNTER_BYTES]);

/* Damage begins, goes on or ends before this call. */
void tend_damage(struct generator *g, struct call *c);

#endif

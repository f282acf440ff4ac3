/* The generator: one call after another, from numbers that a seed decides. */
#ifndef CALLS_H
#define CALLS_H

#include "../../include/trestlepip.h"

#include <stdbool.h>
#include <stddef.h>
#include <stdint.h>

enum { STORES = 4, FORMS = 11, RECORD_ROOM = 10240, REPLY_ROOM = 64, OUT_ROOM = TRESTLEPIP_PAGE_BYTES + 64, FEET_BYTES = sizeof(double) };

enum { CHANGES_MOST = 3, CHANGE_MOST = 256 };

/* The page counters, in the order of the state, and their bytes there. */
enum { CHANNEL, TRANSFER, FUSER, STACKER, COUNTERS, COUNTER_BYTES = 2 * COUNTERS };

/* The most text that a legend load takes: 39 segments of a whole line each. */
enum { TEXT_MOST = 39 * TRESTLEPIP_LINE_CELLS };

/* The lent stores, in the order of the interface. */
enum store { STATE, PAGE, LEGENDS, TABLES };

/* The right size of each store. */
extern const size_t store_size[STORES];

/* The form lengths that Start and Feet take, the longest last. */
extern const unsigned forms[FORMS];

/* The most copies that a page may have, and the most pages from one identifier to another. */
enum { COPIES_MOST = 255, PAGES_MOST = 0xFFFF };

/* Those from Command on judge what their stores hold, and those from Transferred on count pages. */
enum call_kind {
    CALL_START, CALL_FEET, CALL_COMMAND, CALL_COMPOSE, CALL_RELEASE, CALL_TRANSFERRED, CALL_FUSED, CALL_STACKED, CALL_CANCEL, CALL_RESTART, CALL_KINDS
};

/* The calls' names, for print. */
extern const char *const call_name[CALL_KINDS];

/* Bytes of a store that are to be set before the call. */
struct change {
    enum store store;
    size_t offset;
    size_t count;
    uint8_t bytes[CHANGE_MOST];
};

/* One call with all its numbers and lengths; `buffer_len` is that of the reply or the output. A store of wrong size begins where the right one
 * does, so that its contents are good, or else ends where it does. Counters that are to be set before the call are such as calls lead to. Feet has
 * the form length and the last three numbers, and is lent no store. */
struct call {
    enum call_kind kind;
    uint32_t form;
    uint32_t pitch[4];
    uint32_t skip;
    uint8_t command;
    uint32_t copy;
    uint8_t record[RECORD_ROOM];
    size_t record_len;
    size_t buffer_len;
    size_t store_len[STORES];
    bool at_begin;
    bool null_if_empty;
    struct change changes[CHANGES_MOST];
    size_t change_count;
    bool damaged[STORES];
    bool sets_counters;
    uint8_t counters[COUNTER_BYTES];
    uint16_t initial, final;
    uint32_t copies;
};

/* Whether the call is a write, if its byte is listed. */
bool writes(const struct call *c);

/* Whether the call is a write or a legend load, if its byte is listed: only these translate. */
bool translates(const struct call *c);

/* The channel of an immediate skip, and that of a write and skip; 0 of any other call. */
unsigned immediate_channel(const struct call *c);
unsigned write_channel(const struct call *c);

/* Whether the call is one of the five that change the page counters alone. */
bool is_tally(const struct call *c);

/* Whether the call judges what its stores hold: Start does not look, and Feet is lent none. */
bool judges_stores(const struct call *c);

/* The pages that Feet is asked about. */
uint16_t pages_of_feet(const struct call *c);

/* What the generator keeps from call to call. A calm one makes no Start except the first, and damages nothing. None sets counters unless it is told
 * how often. */
struct generator {
    uint64_t word[4];
    bool calm;
    unsigned made;
    struct change undo[CHANGES_MOST];
    size_t undo_count;
    unsigned damage_left;
    unsigned percent_overprint;
    unsigned percent_skip;
    unsigned permille_wrong_size;
    unsigned permille_counters;
    unsigned loads_left;
    uint32_t copy_run;
    const uint8_t *stores[STORES];
};

/* Makes the generator of one list, calm or not; the stores are those whose state it looks at to choose well. */
void generator_begin(struct generator *g, uint64_t seed, uint64_t list, bool calm, const uint8_t *const stores[STORES]);

/* Fills bytes at random. */
void generator_fill(struct generator *g, uint8_t *bytes, size_t count);

/* Makes the next call over the one before it; `answered` is the number that that one got. */
void generator_next(struct generator *g, unsigned answered, struct call *c);

/* The channel of a state's current line; 0 if the line has none, or the form no such line. */
unsigned channel_of_line(const uint8_t *state);

/* Whether the call is an immediate skip to the current line's own channel, with nothing written on that line: it stands in the new way, and moves in
 * the old. */
bool skips_where_it_stands(const struct call *c, const uint8_t *state);

/* A page counter of a state. */
unsigned counter_of(const uint8_t *state, unsigned counter);

/* Makes counters that calls can lead to, with at most so many pages between channel and stacker. */
void reachable_counters(struct generator *g, unsigned most_out, uint8_t bytes[COUNTER_BYTES]);

#endif

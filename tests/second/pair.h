/* A pair of printers on the library: calls on either, and what differs between them. */
#ifndef PAIR_H
#define PAIR_H

#include "calls.h"
#include "lent.h"

enum { SIDES = 2 };

/* One printer of a pair, with a generator for the calls that it gets alone; the call and the answer are its latest. */
struct side {
    struct set set;
    struct generator generator;
    struct call call;
    uint64_t answer;
    bool deferred;
};

/* Two printers, and where in the run they are: the latest deed, the first printer's state before it, and whether calls left out came after it. */
struct pair {
    unsigned long long seed, number, of, deed_number;
    struct call deed;
    uint8_t state_before[TRESTLEPIP_STATE_BYTES];
    bool left_out;
    struct side side[SIDES];
    struct set scratch;
};

/* Makes the buffers of both printers and of the copy. */
void pair_make(struct pair *p);

/* A call on a printer's buffers; a fault is printed, and ends the run. */
uint64_t pair_call(const struct pair *p, const struct set *s, const struct call *c);

/* The answer that a call would get from a printer, found on a copy of it. */
uint64_t answer_on_copy(const struct pair *p, const struct set *s, const struct call *c);

/* Calls with the right sizes: a command with a record of one byte, which only a write reads; Release; a station, cancel or
 * restart call; Compose. */
uint64_t pair_command(const struct pair *p, struct side *s, uint8_t command);
uint64_t pair_release(const struct pair *p, struct side *s);
uint64_t pair_tally(const struct pair *p, struct side *s, enum call_kind kind);
uint64_t pair_compose(const struct pair *p, struct side *s, uint32_t copy);

/* Whether a store is alike on both printers; the sense in the state need not be. */
bool store_is_alike(const struct pair *p, enum store which);

/* Whether the latest answers, all stores, and the output of this copy are alike; each prints the first difference. */
bool answers_agree(const struct pair *p);
bool stores_agree(const struct pair *p);
bool outputs_agree(const struct pair *p, uint32_t copy);

#endif

/* The lent buffers: what the driver hands to a call, laid so that a write or a read beyond it is seen. */
#ifndef LENT_H
#define LENT_H

#include "calls.h"

enum { CANARY_BYTES = 64, CANARY = 0xC9 };

/* The lent buffers are the stores, then these. */
enum { RECORD = STORES, REPLY, OUT, FEET, PARTS };

/* A buffer that ends at `end`, before canary bytes or an inaccessible page, and begins after canary bytes. */
struct lent {
    uint8_t *end;
    size_t room;
    bool guarded;
};

/* All buffers of one program. */
struct set {
    struct lent part[PARTS];
};

/* New memory of so much room, by its end. */
uint8_t *plain_end(size_t room);

/* Makes the buffers of one program, each before an inaccessible page if they are to be guarded. */
struct set set_make(bool guarded);

/* The last bytes of a buffer, so that any length ends where the buffer ends. */
uint8_t *last_bytes(const struct set *s, unsigned part, size_t length);

/* The begin of a store of the right size. */
uint8_t *store(const struct set *s, enum store which);

#endif

/* The two programs that are timed, the library and plain C, each with stores of its own; and the calls that are made to both. */
#ifndef SIDES_H
#define SIDES_H

#include "../tests/exports.h"

#include <stdalign.h>
#include <stdbool.h>
#include <stddef.h>
#include <stdint.h>

enum { COUNTER_BYTES = TRESTLEPIP_AFTER_ALL - TRESTLEPIP_AT_CHANNEL_PAGE };
enum { STATE_ROOM = 256, OUT_ROOM = TRESTLEPIP_PAGE_BYTES + 64, REPLY_ROOM = TRESTLEPIP_SENSE_BYTES + 8, CALLS_MOST = 160 };

enum call_kind {
    CALL_START, CALL_OLD_START, CALL_COMMAND, CALL_COMPOSE, CALL_RELEASE, CALL_TRANSFERRED, CALL_FUSED, CALL_STACKED, CALL_CANCEL, CALL_RESTART, CALL_FEET
};

/* One call: `number` is the form length of both Starts and Feet, the byte of Command, the index of Compose. The record is Command's; of Feet, its sum. */
struct call {
    enum call_kind kind;
    uint32_t number;
    const void *record;
    size_t record_len;
};

/* What Feet is given besides the form length. */
struct sum {
    uint16_t initial, final;
    uint32_t copies;
};

/* The calls of one program, and three facts about its state. */
struct program {
    const char *name;
    size_t state_bytes;
    size_t selected_at; /* the place of the selected slot */
    size_t counters_at; /* that of the page counters, which both programs keep alike */
    struct exports exports;
};

extern const struct program library, plain;

/* A printer of one program: the buffers it is lent, the state to put back, the answers of the latest round, and its latest feet. */
struct side {
    const struct program *program;
    size_t page_len;
    alignas(64) uint8_t state[STATE_ROOM];
    alignas(64) uint8_t kept[STATE_ROOM];
    alignas(64) uint8_t page[TRESTLEPIP_PAGE_BYTES];
    alignas(64) uint8_t legends[TRESTLEPIP_LEGEND_BYTES];
    alignas(64) uint8_t tables[TRESTLEPIP_TABLE_BYTES];
    alignas(64) uint8_t out[OUT_ROOM];
    alignas(64) uint8_t reply[REPLY_ROOM];
    uint64_t answers[CALLS_MOST];
    double feet;
};

/* Buffers as no call has touched them. */
void side_clean(struct side *s);

uint64_t side_call(struct side *s, const struct call *c);

/* Makes the calls in turn; each answer is kept. */
void side_round(struct side *s, const struct call *calls, size_t count);

void side_keep_state(struct side *s);
void side_put_back_state(struct side *s);

/* What differs between two sides after the same calls, or NULL; it takes the sense of both to see. */
const char *sides_differ(struct side *a, struct side *b, size_t answers);

#endif

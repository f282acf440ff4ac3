#include "sides.h"

#include "trestlepip.h"
#include "plain.h"

#include <string.h>

const struct program library = { "the library", TRESTLEPIP_STATE_BYTES, TRESTLEPIP_AT_SELECTED, TRESTLEPIP_AT_CHANNEL_PAGE, EXPORTS(trestlepip) };
const struct program plain = { "plain C", PLAIN_STATE_BYTES, PLAIN_STATE_SELECTED, PLAIN_STATE_COUNTERS, EXPORTS(plain) };

/* Bytes that no call writes are to keep this value. */
enum { UNTOUCHED = 0xA5 };

void side_clean(struct side *s)
{
    s->page_len = TRESTLEPIP_PAGE_BYTES;
    memset(s->state, UNTOUCHED, sizeof s->state);
    memset(s->page, UNTOUCHED, sizeof s->page);
    memset(s->legends, UNTOUCHED, sizeof s->legends);
    memset(s->tables, UNTOUCHED, sizeof s->tables);
    memset(s->out, UNTOUCHED, sizeof s->out);
    memset(s->reply, UNTOUCHED, sizeof s->reply);
    memset(&s->feet, UNTOUCHED, sizeof s->feet);
}

#define STORES s->state, s->program->state_bytes, s->page, s->page_len, s->legends, sizeof s->legends, s->tables, sizeof s->tables

static uint64_t side_feet(struct side *s, uint32_t form, const struct sum *sum)
{
    return s->program->exports.feet(sum->initial, sum->final, sum->copies, form, &s->feet);
}

/* All four modules are fitted. */
static uint64_t side_start(struct side *s, uint32_t form, enum trestlepip_ways way)
{
    return s->program->exports.start(form, 10, 10, 12, 15, way, STORES);
}

uint64_t side_call(struct side *s, const struct call *c)
{
    switch (c->kind) {
    case CALL_START: return side_start(s, c->number, TRESTLEPIP_NEW_WAY);
    case CALL_OLD_START: return side_start(s, c->number, TRESTLEPIP_OLD_WAY);
    case CALL_COMMAND: return s->program->exports.command((uint8_t)c->number, c->record, c->record_len, s->reply, TRESTLEPIP_SENSE_BYTES, STORES);
    case CALL_COMPOSE: return s->program->exports.compose(c->number, s->out, TRESTLEPIP_PAGE_BYTES, STORES);
    case CALL_RELEASE: return s->program->exports.release(STORES);
    case CALL_TRANSFERRED: return s->program->exports.transferred(STORES);
    case CALL_FUSED: return s->program->exports.fused(STORES);
    case CALL_STACKED: return s->program->exports.stacked(STORES);
    case CALL_CANCEL: return s->program->exports.cancel(STORES);
    case CALL_RESTART: return s->program->exports.restart(STORES);
    default: return side_feet(s, c->number, c->record);
    }
}

void side_round(struct side *s, const struct call *calls, size_t count)
{
    for (size_t i = 0; i < count; i++)
        s->answers[i] = side_call(s, calls + i);
}

void side_keep_state(struct side *s)
{
    memcpy(s->kept, s->state, s->program->state_bytes);
}

void side_put_back_state(struct side *s)
{
    memcpy(s->state, s->kept, s->program->state_bytes);
}

const char *sides_differ(struct side *a, struct side *b, size_t answers)
{
    const struct call sense = { CALL_COMMAND, 0x04, NULL, 0 };
    if (memcmp(a->answers, b->answers, answers * sizeof *a->answers) != 0)
        return "an answer";
    if (memcmp(a->state + a->program->counters_at, b->state + b->program->counters_at, COUNTER_BYTES) != 0)
        return "the page counters";
    if (memcmp(&a->feet, &b->feet, sizeof a->feet) != 0)
        return "the feet of paper";
    if (memcmp(a->page, b->page, sizeof a->page) != 0)
        return "the page";
    if (memcmp(a->legends, b->legends, sizeof a->legends) != 0)
        return "the legends";
    if (memcmp(a->tables, b->tables, sizeof a->tables) != 0)
        return "the tables";
    if (memcmp(a->out, b->out, sizeof a->out) != 0)
        return "the composed copy, or a byte after it";
    if (side_call(a, &sense) != side_call(b, &sense))
        return "the answer to Sense";
    if (memcmp(a->reply, b->reply, sizeof a->reply) != 0)
        return "the sense, or a reply byte after it";
    return NULL;
}

/* Comparing: every byte that a call was lent, what a refused call must leave, what an answer may tell, and what a call may do to the page's marks. */
#include "compare.h"

#include "../../include/trestlepip.h"

#include <string.h>

enum { AFTER_SENSE = TRESTLEPIP_AT_SENSE_23 + 1 };

const char *const part_name[PARTS] = { "state", "page", "legends", "tables", "record", "reply", "output", "feet" };

/* The first byte in which two stretches differ; they do. */
size_t first_difference(const uint8_t *a, const uint8_t *b)
{
    size_t at = 0;
    while (a[at] == b[at])
        at++;
    return at;
}

/* Whether a stretch of the library's differs from what it must be; tells where. */
static bool differs(const char *what, unsigned part, const uint8_t *got, const uint8_t *expected, size_t count, struct difference *d)
{
    if (memcmp(got, expected, count) == 0)
        return false;
    size_t at = first_difference(got, expected);
    *d = (struct difference){ what, part_name[part], at, got[at], expected[at] };
    return true;
}

/* Whether the canaries before and after a buffer were written. */
static bool canary_written(const struct lent *l, unsigned part, struct difference *d)
{
    static uint8_t canaries[CANARY_BYTES];
    memset(canaries, CANARY, CANARY_BYTES);
    return differs("canary before", part, l->end - l->room - CANARY_BYTES, canaries, CANARY_BYTES, d)
        || (!l->guarded && differs("canary after", part, l->end, canaries, CANARY_BYTES, d));
}

/* Whether a buffer is looked at after a call of this kind: if the call was lent it, and a store always. */
static bool is_looked_at(const struct call *c, unsigned part)
{
    switch (part) {
    case RECORD: case REPLY: return c->kind == CALL_COMMAND;
    case OUT: return c->kind == CALL_COMPOSE;
    case FEET: return c->kind == CALL_FEET;
    default: return true;
    }
}

/* How much of a buffer's room the call is lent; a store of wrong size is compared as one of the right size. */
static size_t lent_length(const struct call *c, unsigned part)
{
    switch (part) {
    case RECORD: return c->record_len;
    case REPLY: case OUT: return c->buffer_len;
    case FEET: return FEET_BYTES;
    default: return store_size[part];
    }
}

/* One buffer of both programs: what was lent, the room before it, and the canaries. */
static bool buffer_differs(const struct run *r, unsigned part, struct difference *d)
{
    const struct lent *a = &r->library->part[part], *b = &r->second.part[part];
    size_t length = lent_length(&r->call, part);
    return differs("bytes of", part, a->end - length, b->end - length, length, d)
        || differs("room before", part, a->end - a->room, b->end - b->room, a->room - length, d) || canary_written(a, part, d);
}

/* All stores, and the buffers that the call was lent. */
bool buffers_differ(const struct run *r, struct difference *d)
{
    for (unsigned i = 0; i < PARTS; i++)
        if (is_looked_at(&r->call, i) && buffer_differs(r, i, d))
            return true;
    return false;
}

/* Numbers: a refused call but Start changes no byte, but the sense for 1, 3 and 5. */
static bool refusal_changes_state(const struct run *r, unsigned number, struct difference *d)
{
    const uint8_t *state = store(r->library, STATE), *before = r->before[STATE];
    bool sense_set = number == 1 || number == 3 || number == 5;
    return differs("refused, but changed: first bytes of", STATE, state, before, TRESTLEPIP_AT_SENSE_0, d)
        || differs("refused, but changed: last bytes of", STATE, state + AFTER_SENSE, before + AFTER_SENSE, store_size[STATE] - AFTER_SENSE, d)
        || (!sense_set
                && differs("refused, but changed: sense in", STATE, state + TRESTLEPIP_AT_SENSE_0, before + TRESTLEPIP_AT_SENSE_0, TRESTLEPIP_SENSE_KEPT, d));
}

/* Numbers: a refused Start zeroes a right-sized state and leaves another as it is. */
static bool refused_start_state(const struct run *r, struct difference *d)
{
    static const uint8_t zeros[TRESTLEPIP_STATE_BYTES];
    bool right = r->call.store_len[STATE] == store_size[STATE];
    return differs("refused Start:", STATE, store(r->library, STATE), right ? zeros : r->before[STATE], store_size[STATE], d);
}

/* Whether a refused call changed what it must not. */
bool refusal_changes(const struct run *r, struct difference *d)
{
    unsigned number = trestlepip_number(r->library_answer);
    if (number == 0)
        return false;
    for (enum store i = PAGE; i <= TABLES; i++)
        if (differs("refused, but changed:", i, store(r->library, i), r->before[i], store_size[i], d))
            return true;
    return r->call.kind == CALL_START ? refused_start_state(r, d) : refusal_changes_state(r, number, d);
}

/* T-04: Feet is lent no store. */
bool feet_change_store(const struct run *r, struct difference *d)
{
    if (r->call.kind != CALL_FEET)
        return false;
    for (enum store i = STATE; i <= TABLES; i++)
        if (differs("Feet changed:", i, store(r->library, i), r->before[i], store_size[i], d))
            return true;
    return false;
}

/* T-01: whether a record has room for so many positions, from the first of them on; the fill after a write's record is no room. */
static bool is_in_record(const struct call *c, unsigned first, unsigned count)
{
    if (c->command == TRESTLEPIP_LOAD_COPY_MODIFICATION)
        return first <= TRESTLEPIP_LINE_CELLS && count <= TEXT_MOST;
    return first + count <= c->record_len + 1;
}

/* T-01: what is told is also a data check, unless Block is on; nothing else gives an accepted write or legend load that bit. */
static bool is_in_sense(const uint8_t *state, unsigned count)
{
    bool shown = (state[TRESTLEPIP_AT_SENSE_1] & TRESTLEPIP_SENSE_1_UNPRINTABLE) != 0;
    return shown == (count != 0 && state[TRESTLEPIP_AT_BLOCK] == 0);
}

/* T-01: both are 0 or neither is, and both are 0 but for an accepted write or legend load. */
const char *telling_fault(const struct run *r)
{
    unsigned first = trestlepip_first_unprintable(r->library_answer), count = trestlepip_unprintables(r->library_answer);
    if ((first == 0) != (count == 0))
        return "one of first unprintable and unprintables is 0, the other is not";
    if (trestlepip_number(r->library_answer) != 0 || !translates(&r->call))
        return count == 0 ? NULL : "unprintables are told, and the call is no accepted write or legend load";
    if (!is_in_record(&r->call, first, count))
        return "the record has no room for such unprintables";
    return is_in_sense(store(r->library, STATE), count) ? NULL : "sense byte 1 does not agree with the unprintables";
}

/* T-03: neither a blank nor an underscore. */
static bool is_character(uint8_t code)
{
    return trestlepip_location(code) != TRESTLEPIP_BLANK && trestlepip_location(code) != TRESTLEPIP_UNDERSCORE;
}

/* T-03: whether a merge may leave this cell's mark. A mark stays. One is set where a character takes the place of an underscore, and may be set
 * where a character stays: the new code may have been an underscore. */
static bool mark_may_be(const uint8_t *old, const uint8_t *line, size_t i)
{
    uint8_t old_code = trestlepip_code_at(old, i), code = trestlepip_code_at(line, i), mark = trestlepip_mark_at(line, i);
    bool on_underscore = trestlepip_location(old_code) == TRESTLEPIP_UNDERSCORE && is_character(code);
    if (trestlepip_mark_at(old, i) == 1 || on_underscore)
        return mark == 1;
    return mark == 0 || (mark == 1 && is_character(code) && code == old_code);
}

/* T-03: the line that a write wrote, beside the same line before it. */
static const char *line_fault(const uint8_t *old, const uint8_t *line, bool merged)
{
    for (size_t i = 0; i < TRESTLEPIP_LINE_CELLS; i++) {
        if (!merged && trestlepip_mark_at(line, i) != 0)
            return "the first write on a line left a mark there";
        if (merged && !mark_may_be(old, line, i))
            return "a merge left a mark that no merge leaves";
    }
    return NULL;
}

/* T-03: a write changes the current line alone. */
static const char *write_fault(const struct run *r)
{
    const uint8_t *old = r->before[PAGE], *page = store(r->library, PAGE), *state = r->before[STATE];
    size_t end = (size_t)state[TRESTLEPIP_AT_LINE] * TRESTLEPIP_LINE_BYTES, begin = end - TRESTLEPIP_LINE_BYTES;
    if (end == 0 || end > store_size[PAGE])
        return "a write was accepted on a line that no page has";
    if (memcmp(page, old, begin) != 0 || memcmp(page + end, old + end, store_size[PAGE] - end) != 0)
        return "a write changed another line than the current one";
    return line_fault(old + begin, page + begin, state[TRESTLEPIP_AT_WRITTEN] == 1);
}

/* T-03: whether a line of a copy has a mark in a cell that is not the page's. */
static bool has_mark_of_its_own(const uint8_t *page, const uint8_t *copy)
{
    for (size_t i = 0; i < TRESTLEPIP_LINE_CELLS; i++) {
        bool same = trestlepip_code_at(copy, i) == trestlepip_code_at(page, i) && trestlepip_mark_at(copy, i) == trestlepip_mark_at(page, i);
        if (!same && trestlepip_mark_at(copy, i) != 0)
            return true;
    }
    return false;
}

/* T-03: a cell of a copy is the page's, or a legend's without a mark; most lines are all the page's. */
static const char *copy_fault(const struct run *r)
{
    const uint8_t *page = r->before[PAGE], *copy = last_bytes(r->library, OUT, r->call.buffer_len);
    size_t length = (size_t)trestlepip_printable_lines(r->before[STATE]) * TRESTLEPIP_LINE_BYTES;
    if (length > r->call.buffer_len)
        return "a copy was composed into an output that is too short for it";
    for (size_t at = 0; at < length; at += TRESTLEPIP_LINE_BYTES)
        if (memcmp(page + at, copy + at, TRESTLEPIP_LINE_BYTES) != 0 && has_mark_of_its_own(page + at, copy + at))
            return "a cell of the copy has a mark and is not the page's";
    return NULL;
}

/* Calls, Movement: of an accepted call. Start and Release set the page to 00, a write writes on it, and no other call changes it. */
static const char *accepted_fault(const struct run *r)
{
    static const uint8_t zeros[TRESTLEPIP_PAGE_BYTES];
    const uint8_t *page = store(r->library, PAGE);
    if (writes(&r->call))
        return write_fault(r);
    if (r->call.kind == CALL_START || r->call.kind == CALL_RELEASE)
        return memcmp(page, zeros, sizeof zeros) == 0 ? NULL : "the page is not all 00";
    if (memcmp(page, r->before[PAGE], store_size[PAGE]) != 0)
        return "the page changed, and the call writes nothing on it";
    return r->call.kind == CALL_COMPOSE ? copy_fault(r) : NULL;
}

/* T-03: whether damage has put a mark above 1 before a call that must refuse it. A page without damage is not searched: that would take long. */
static bool has_to_get_9(const struct run *r)
{
    if (!judges_stores(&r->call) || !r->call.damaged[PAGE])
        return false;
    for (size_t i = 0; i < store_size[PAGE] / TRESTLEPIP_CELL_BYTES; i++)
        if (trestlepip_mark_at(r->before[PAGE], i) > 1)
            return true;
    return false;
}

const char *page_fault(const struct run *r)
{
    unsigned number = trestlepip_number(r->library_answer);
    if (number != TRESTLEPIP_BAD_STORE && has_to_get_9(r))
        return "a mark above 1 did not get number 9";
    return number == TRESTLEPIP_ACCEPTED ? accepted_fault(r) : NULL;
}

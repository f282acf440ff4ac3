/* The counts, added up call by call and list by list. */
#include "counts.h"

#include "../../include/trestlepip.h"
#include "parts.h"
#include "second.h"

#include <string.h>

enum { NUMBER_MOST = 509, LONG_LIST = 1000, MANY_PAGES = 100, SHORT_RUN = 10 };

/* Sense byte 1 of a command that Block was on for, had it been off: what Block hid is seen only so. */
static unsigned causes_if_allowed(const struct call *c, uint8_t *const before[STORES])
{
    static uint8_t state[STATE_BYTES], page[PAGE_BYTES], legends[LEGEND_BYTES], tables[TABLE_BYTES];
    memcpy(state, before[STATE], STATE_BYTES);
    memcpy(page, before[PAGE], PAGE_BYTES);
    memcpy(legends, before[LEGENDS], LEGEND_BYTES);
    memcpy(tables, before[TABLES], TABLE_BYTES);
    state[TRESTLEPIP_AT_BLOCK] = 0;
    second_command(c->command, c->record, c->record_len, NULL, 0,
            state, STATE_BYTES, page, PAGE_BYTES, legends, LEGEND_BYTES, tables, TABLE_BYTES);
    return state[TRESTLEPIP_AT_SENSE_0] & 0x08 ? state[TRESTLEPIP_AT_SENSE_1] : 0;
}

/* An accepted command: its causes, shown and hidden. Only what translates has causes that Block hides. */
static void add_causes(struct counts *n, const struct call *c, uint8_t *const before[STORES], const uint8_t *state)
{
    unsigned hidden = before[STATE][TRESTLEPIP_AT_BLOCK] && translates(c) ? causes_if_allowed(c, before) : 0;
    n->hidden_unprintable += (hidden & UNPRINTABLE) != 0;
    n->hidden_multiple += (hidden & MULTIPLE) != 0;
    n->channel_9 += state[TRESTLEPIP_AT_SENSE_0] & 0x01;
    for (unsigned bit = 0x80; state[TRESTLEPIP_AT_SENSE_0] & 0x08 && bit != 0; bit >>= 1)
        n->data_check[bit] += (state[TRESTLEPIP_AT_SENSE_1] & bit) != 0;
}

/* The deep states that an accepted write or legend load met. */
static void add_depth(struct counts *n, const struct call *c, const uint8_t *state)
{
    const uint8_t *loaded = state + TRESTLEPIP_AT_LOADED;
    n->write_on_last_line += c->command != 0x35 && state[TRESTLEPIP_AT_LINE] == PAGE_LINES;
    n->all_slots_loaded += loaded[0] && loaded[1] && loaded[2] && loaded[3];
}

/* The texts of a record: how many, their positions, and those with code FF. A bad text has an unprintable position; the first bad one also has its
 * place among the texts, from 1, and its positions. */
struct texts {
    unsigned count, positions, ff;
    unsigned bad, first_bad, first_bad_positions;
};

uint8_t code_of(uint8_t *const before[STORES], uint8_t byte)
{
    unsigned selected = before[STATE][TRESTLEPIP_AT_SELECTED];
    unsigned slot = before[STATE][TRESTLEPIP_AT_LOADED + selected] ? selected : 0;
    return before[TABLES][slot * SLOT_BYTES + byte];
}

bool is_unprintable(uint8_t *const before[STORES], uint8_t code)
{
    return code == 0xFF || before[STATE][TRESTLEPIP_AT_PITCH + trestlepip_module(code)] == 0;
}

/* One text more. */
static void look_at_text(struct texts *t, uint8_t *const before[STORES], const uint8_t *bytes, unsigned count)
{
    bool bad = false;
    for (unsigned i = 0; i < count; i++) {
        uint8_t code = code_of(before, bytes[i]);
        bad = bad || is_unprintable(before, code);
        t->ff += code == 0xFF;
    }
    t->count++;
    t->positions += count;
    if (t->bad == 0 && bad) {
        t->first_bad = t->count;
        t->first_bad_positions = count;
    }
    t->bad += bad;
}

/* Whether a whole segment that the load takes begins a record. */
static bool begins_with_segment(const uint8_t *record, size_t count)
{
    return count > SEGMENT_HEAD && count - SEGMENT_HEAD >= record[5] && legends_cause(record, (size_t)SEGMENT_HEAD + record[5]) == 0;
}

/* The texts of a legend load, up to its fault if it has one. */
static void look_at_segments(struct texts *t, uint8_t *const before[STORES], const struct call *c)
{
    for (size_t at = 0; begins_with_segment(c->record + at, c->record_len - at); at += (size_t)SEGMENT_HEAD + c->record[at + 5])
        look_at_text(t, before, c->record + at + SEGMENT_HEAD, c->record[at + 5]);
}

/* An answer that tells an unprintable position, beside the texts that it is about. */
static void add_told(struct told_counts *n, uint64_t answer, const struct texts *t, const uint8_t *state)
{
    unsigned first = trestlepip_first_unprintable(answer), told = trestlepip_unprintables(answer);
    n->block_off += !state[TRESTLEPIP_AT_BLOCK];
    n->block_on += state[TRESTLEPIP_AT_BLOCK];
    n->one += told == 1;
    n->several += told > 1;
    n->all += told == t->positions;
    n->first_1 += first == 1;
    n->first_middle += first > 1 && first < t->first_bad_positions;
    n->first_last += first > 1 && first == t->first_bad_positions;
    n->first_204 += first == LINE_CELLS;
    n->by_table_0 += !state[TRESTLEPIP_AT_LOADED + state[TRESTLEPIP_AT_SELECTED]];
    n->by_modules += t->ff == 0;
}

/* An accepted write; the code for 40 fills the line after a record that is shorter. */
static void add_write(struct counts *n, const struct call *c, uint64_t answer, uint8_t *const before[STORES])
{
    struct texts t = { 0 };
    unsigned told = trestlepip_unprintables(answer);
    look_at_text(&t, before, c->record, (unsigned)c->record_len);
    if (told != 0)
        add_told(&n->write_tells, answer, &t, before[STATE]);
    n->fill_unprintable += told == 0 && t.bad == 0 && c->record_len < LINE_CELLS && is_unprintable(before, code_of(before, 0x40));
}

/* A legend load of any answer except 9. */
static void add_legend_load(struct counts *n, const struct call *c, uint64_t answer, uint8_t *const before[STORES])
{
    struct texts t = { 0 };
    unsigned told = trestlepip_unprintables(answer), number = trestlepip_number(answer);
    look_at_segments(&t, before, c);
    if (told != 0)
        add_told(&n->load_tells, answer, &t, before[STATE]);
    n->later_segment += told != 0 && t.first_bad > 1;
    n->two_segments += told != 0 && t.bad > 1;
    n->most_text += told == TEXT_MOST;
    n->unprintable_at_3 += number == TRESTLEPIP_LOAD_CHECK && t.bad != 0;
    n->unprintable_at_4_or_5 += (number == TRESTLEPIP_PAGE_WAITING || number == TRESTLEPIP_PAGE_STARTED) && t.bad != 0;
}

/* A write or a legend load of any answer; the stores are looked into only where number 9 has not found them bad. */
static void add_translation(struct counts *n, const struct call *c, uint64_t answer, uint8_t *const before[STORES])
{
    unsigned number = trestlepip_number(answer);
    if (c->command == 0x35 && number != TRESTLEPIP_BAD_STORE)
        add_legend_load(n, c, answer, before);
    else if (c->command != 0x35 && number == TRESTLEPIP_ACCEPTED)
        add_write(n, c, answer, before);
}

/* A command of any answer; No-Op leaves the sense of an earlier one, so that its causes are none of its own. */
static void add_command(struct counts *n, const struct call *c, uint64_t answer, uint8_t *const before[STORES], const uint8_t *state)
{
    n->page_ready += trestlepip_ready(answer);
    n->unit_exception += trestlepip_status(answer) & 0x01;
    if (translates(c))
        add_translation(n, c, answer, before);
    if (trestlepip_number(answer) != 0)
        return;
    n->command[c->command]++;
    if (translates(c))
        add_depth(n, c, before[STATE]);
    if (c->command != 0x03 && c->command != 0x04)
        add_causes(n, c, before, state);
}

/* Covers the cells of one line of a segment; gives whether one was covered before. */
static bool cover_cells(uint8_t *cells, unsigned count)
{
    bool again = memchr(cells, 1, count) != NULL;
    memset(cells, 1, count);
    return again;
}

/* Covers the cells of a segment; gives bit 0 if it covers any, bit 1 if one was covered before. */
static unsigned cover_segment(const uint8_t *segment, unsigned last_line, uint8_t *covered)
{
    unsigned seen = 0;
    for (unsigned line = segment[2]; line < (unsigned)segment[2] + segment[3] && line <= last_line; line++)
        seen |= cover_cells(covered + (line - 1) * LINE_CELLS + segment[4] - 1, segment[5]) ? 3 : 1;
    return seen;
}

/* A composed copy: whether a legend covered something, and whether two segments met. */
static void add_copy(struct counts *n, uint64_t answer, const uint8_t *const after[STORES])
{
    static uint8_t covered[PAGE_LINES * LINE_CELLS];
    struct printer p;
    unsigned seen = 0, number = trestlepip_copy_number(answer);
    decode(after[STATE], &p);
    memset(covered, 0, sizeof covered);
    for (const uint8_t *s = next_segment(after[LEGENDS], NULL); s != NULL && seen != 3; s = next_segment(after[LEGENDS], s))
        if (segment_covers_copy(s, number))
            seen |= cover_segment(s, printable_lines(&p), covered);
    n->copy++;
    n->copy_covered += seen & 1;
    n->copy_overlapped += seen >> 1;
    n->copy_above_255 += number > 255;
    n->copy_of_last_number += number == NUMBER_MOST;
    n->copy_of_most_lines += printable_lines(&p) == PAGE_LINES;
}

/* Start: accepted by form, or refused so that the state is zeroed. */
static void add_start(struct counts *n, const struct call *c, uint64_t answer)
{
    bool taken = trestlepip_number(answer) == 0;
    for (unsigned i = 0; i < FORMS; i++)
        n->form[i] += taken && c->form == forms[i];
    n->start_refused_sized += !taken && c->store_len[STATE] == STATE_BYTES;
}

bool is_sized(const struct call *c)
{
    return memcmp(c->store_len, store_size, sizeof store_size) == 0;
}

/* A call on damaged stores of right sizes: refused with 9, or taken. */
static void add_damage(struct counts *n, const struct call *c, uint64_t answer)
{
    bool nine = trestlepip_number(answer) == 9;
    bool other = c->damaged[STATE] || c->damaged[LEGENDS];
    n->state_refused += c->damaged[STATE] && nine;
    n->state_taken += c->damaged[STATE] && !nine;
    n->legends_refused += c->damaged[LEGENDS] && !c->damaged[STATE] && nine;
    n->legends_taken += c->damaged[LEGENDS] && !nine;
    n->page_refused += c->damaged[PAGE] && !other && nine;
    n->cells_taken += (c->damaged[PAGE] || c->damaged[TABLES]) && !other && !nine;
}

/* Whether the driver had its hand in this call, and not the printer's own calls alone. */
static bool disturbs(const struct call *c)
{
    return c->kind == CALL_START || c->change_count != 0 || !is_sized(c) || c->damaged[STATE] || c->damaged[PAGE] || c->damaged[LEGENDS]
        || c->damaged[TABLES];
}

/* The run of undisturbed calls ends here. */
static void end_run(struct counts *n)
{
    n->runs += n->run_so_far != 0;
    n->runs_short += n->run_so_far != 0 && n->run_so_far < SHORT_RUN;
    n->run_so_far = 0;
}

/* One call of a list and of a run; a list begins with a Start, which does not disturb it. */
static void add_to_list(struct counts *n, const struct call *c, uint64_t answer, const uint8_t *before)
{
    bool taken = trestlepip_number(answer) == 0, released = c->kind == CALL_RELEASE && taken;
    bool initialized = c->kind == CALL_COMMAND && c->command == TRESTLEPIP_INITIALIZE && taken;
    n->list.disturbed = n->list.disturbed || (disturbs(c) && n->list.calls != 0);
    n->list.old_way = n->list.calls == 0 ? c->skip == TRESTLEPIP_OLD_WAY : n->list.old_way;
    n->list.calls++;
    n->list.releases += released;
    n->list.resets_at_once += initialized && !trestlepip_ready(answer);
    n->list.resets_deferred += released && before[TRESTLEPIP_AT_RESET_DUE];
    n->list.nines += trestlepip_number(answer) == TRESTLEPIP_BAD_STORE;
    if (disturbs(c))
        end_run(n);
    else
        n->run_so_far++;
}

/* Adds what an undisturbed list met to what all of them did. */
static void add_undisturbed(struct counts *n, const struct list_counts *list)
{
    n->lists_long += list->calls >= LONG_LIST;
    n->lists_of_pages += list->calls >= LONG_LIST && list->releases >= MANY_PAGES;
    n->lists_of_way[list->old_way] += list->calls >= LONG_LIST;
    n->undisturbed.resets_at_once += list->resets_at_once;
    n->undisturbed.resets_deferred += list->resets_deferred;
    n->undisturbed.nines += list->nines;
}

void counts_end_list(struct counts *n)
{
    end_run(n);
    if (!n->list.disturbed)
        add_undisturbed(n, &n->list);
    n->list = (struct list_counts){ 0 };
}

void counts_add(struct counts *n, const struct call *c, uint64_t answer, uint8_t *const before[STORES], const uint8_t *const after[STORES],
        const uint8_t *out)
{
    bool taken = trestlepip_number(answer) == 0;
    n->number[trestlepip_number(answer) % NUMBERS]++;
    n->cause[trestlepip_cause(answer) % CAUSES]++;
    if (c->kind == CALL_COMMAND)
        add_command(n, c, answer, before, after[STATE]);
    if (c->kind == CALL_COMPOSE && taken)
        add_copy(n, answer, after);
    if (c->kind == CALL_START)
        add_start(n, c, answer);
    if (judges_stores(c) && is_sized(c))
        add_damage(n, c, answer);
    page_counts_add(&n->pages, c, trestlepip_number(answer), before, after[STATE]);
    mark_counts_add(&n->marks, c, trestlepip_number(answer), before, out);
    skip_counts_add(&n->skips, c, answer, before, after[STATE]);
    add_to_list(n, c, answer, before[STATE]);
}

/* The generator of calls: weights are chosen so that deep states come often and every refusal comes now and then. */
#include "making.h"

#include <string.h>

const size_t store_size[STORES] = { TRESTLEPIP_STATE_BYTES, TRESTLEPIP_PAGE_BYTES, TRESTLEPIP_LEGEND_BYTES, TRESTLEPIP_TABLE_BYTES };

const char *const call_name[CALL_KINDS] = {
    "Start", "Feet", "Command", "Compose", "Release", "Transferred", "Fused", "Stacked", "Cancel", "Restart"
};

const unsigned forms[FORMS] = { 72, 84, 96, 132, 144, 168, 192, 204, 240, 264, 288 };

/* At 12 lines per inch this form has 132 printable lines, and no other has so many. */
enum { FORM_LONGEST = 288 };

bool writes(const struct call *c)
{
    return c->kind == CALL_COMMAND && c->command % 8 == 1;
}

bool translates(const struct call *c)
{
    return writes(c) || (c->kind == CALL_COMMAND && c->command == 0x35);
}

/* The channel of a skip whose byte ends in these three bits: 1nnnn001 after a write, 1nnnn011 immediate. */
static unsigned channel_in(const struct call *c, unsigned last_bits)
{
    unsigned channel = (c->command >> 3) & 0x0Fu;
    bool is_skip = c->kind == CALL_COMMAND && c->command >= 0x80 && c->command % 8 == last_bits && channel <= 12;
    return is_skip ? channel : 0;
}

unsigned immediate_channel(const struct call *c)
{
    return channel_in(c, 3);
}

unsigned write_channel(const struct call *c)
{
    return channel_in(c, 1);
}

bool judges_stores(const struct call *c)
{
    return c->kind >= CALL_COMMAND;
}

/* ---- commands ---- */

/* A write: no space for overprints, spaces, or a skip. */
static void write_command(struct generator *g, struct call *c)
{
    static const uint8_t spaces[] = { 0x09, 0x09, 0x09, 0x11, 0x19 };
    c->command = percent(g, g->percent_overprint) ? 0x01 : spaces[below(g, COUNT(spaces))];
    if (percent(g, g->percent_skip))
        c->command = (uint8_t)(0x81 + 8 * (percent(g, 60) ? channel_near(g) : between(g, 1, 12)));
    write_record(g, c);
}

/* An immediate space or skip. */
static void move_command(struct generator *g, struct call *c)
{
    static const uint8_t spaces[] = { 0x0B, 0x13, 0x1B };
    c->command = spaces[below(g, COUNT(spaces))];
    if (percent(g, 5 + g->percent_skip))
        c->command = (uint8_t)(0x83 + 8 * (percent(g, 60) ? channel_near(g) : between(g, 1, 12)));
    any_record(g, c, ignored_length(g));
}

/* Whether it is time for a skip to the channel that the current line has itself; mostly where nothing is written there, so that it may stand. */
static bool skip_here_due(struct generator *g)
{
    return channel_of_line(state_of(g)) != 0 && percent(g, written_now(g) ? 3 : 6);
}

/* Such a skip: mostly immediate, else after a write. */
static void skip_here_command(struct generator *g, struct call *c)
{
    unsigned channel = channel_of_line(state_of(g));
    bool immediate = percent(g, 70);
    c->command = (uint8_t)(immediate ? TRESTLEPIP_SKIP(channel) : TRESTLEPIP_WRITE_SKIP(channel));
    if (immediate)
        any_record(g, c, ignored_length(g));
    else
        write_record(g, c);
}

/* A translate load; a calm printer is mostly told first to select a slot that is not loaded, so that in time all four are. */
static void table_command(struct generator *g, struct call *c)
{
    unsigned slot = slot_to_load(g);
    bool selects = g->calm && slot != state_of(g)[TRESTLEPIP_AT_SELECTED] && percent(g, 80);
    c->command = selects ? (uint8_t)(0x47 + 0x10 * slot) : 0x83;
    table_record(g, c);
}

/* One of the five loads. */
static void load_command(struct generator *g, struct call *c)
{
    switch (g->calm ? WEIGHTED(g, 15, 45, 15, 10, 15) : WEIGHTED(g, 25, 20, 18, 12, 25)) {
    case 0: c->command = 0x63; fcb_record(g, c); break;
    case 1: table_command(g, c); break;
    case 2: c->command = 0x43; sequence_record(g, c); break;
    case 3: c->command = 0x23; number_record(g, c); break;
    default: c->command = 0x35; legends_record(g, c); break;
    }
}

/* Sense, with a reply that is mostly long enough. */
static void sense_command(struct generator *g, struct call *c)
{
    c->command = 0x04;
    switch (WEIGHTED(g, 60, 12, 6, 4, 18)) {
    case 0: c->buffer_len = REPLY_BYTES; break;
    case 1: c->buffer_len = REPLY_BYTES - 1; break;
    case 2: c->buffer_len = 0; break;
    case 3: c->buffer_len = below(g, REPLY_BYTES); break;
    default: c->buffer_len = between(g, REPLY_BYTES, REPLY_ROOM); break;
    }
}

/* The commands that ignore their record and move no form, and those that complete a page. */
static void control_command(struct generator *g, struct call *c)
{
    any_record(g, c, ignored_length(g));
    switch (started_now(g) ? WEIGHTED(g, 34, 10, 10, 9, 25, 6, 6) : WEIGHTED(g, 25, 8, 10, 9, 25, 18, 5)) {
    case 0: sense_command(g, c); break;
    case 1: c->command = 0x03; break;
    case 2: c->command = 0x73; break;
    case 3: c->command = 0x7B; break;
    case 4: c->command = (uint8_t)(0x47 + 0x10 * (percent(g, 40) ? slot_near(g) : below(g, 4))); break;
    case 5: c->command = 0x37; break;
    default: c->command = 0x87; break;
    }
}

/* Any byte, most often one that is not listed though it looks so. */
static void any_command(struct generator *g, struct call *c)
{
    static const uint8_t near[] = { 0x00, 0x81, 0xE9, 0xEB, 0xF1, 0xF3, 0xF9, 0xFB, 0x25, 0x53, 0x07, 0x17, 0x33, 0xE4, 0x24, 0x14, 0x85, 0x8F };
    c->command = percent(g, 40) ? near[below(g, COUNT(near))] : byte(g);
    any_record(g, c, ignored_length(g));
}

/* A calm printer is now and then set up for a job, by loads in a row; gives whether this call is to be one of them. */
static bool tend_set_up(struct generator *g)
{
    if (!g->calm || started_now(g) || state_of(g)[TRESTLEPIP_AT_WAITING] == 1)
        return false;
    if (g->loads_left == 0 && percent(g, 15))
        g->loads_left = between(g, 6, 20);
    g->loads_left -= g->loads_left != 0;
    return g->loads_left != 0;
}

/* A command; a page not started is the time for loads. */
static void command(struct generator *g, struct call *c)
{
    c->kind = CALL_COMMAND;
    c->buffer_len = percent(g, 50) ? 0 : below(g, REPLY_ROOM + 1);
    if (tend_set_up(g)) {
        load_command(g, c);
        return;
    }
    if (skip_here_due(g)) {
        skip_here_command(g, c);
        return;
    }
    switch (started_now(g) ? WEIGHTED(g, 800, 60, 25, 95, 20) : WEIGHTED(g, 420, 30, 400, 130, 20)) {
    case 0: write_command(g, c); break;
    case 1: move_command(g, c); break;
    case 2: load_command(g, c); break;
    case 3: control_command(g, c); break;
    default: any_command(g, c); break;
    }
}

/* ---- the other calls ---- */

/* Start's numbers, all listed. */
static void start_listed(struct generator *g, struct call *c)
{
    static const uint32_t pitches[] = { 10, 12, 15, 0 };
    c->form = forms[below(g, COUNT(forms))];
    for (unsigned i = 0; i < 4; i++)
        c->pitch[i] = pitches[below(g, i == 0 ? 3 : 4)];
    if (percent(g, 35))
        c->pitch[0] = c->pitch[1] = c->pitch[2] = c->pitch[3] = 10;
    if (g->calm && percent(g, 50))
        c->form = FORM_LONGEST;
    c->skip = percent(g, 50) ? TRESTLEPIP_NEW_WAY : TRESTLEPIP_OLD_WAY;
}

/* One of Start's numbers, not listed, also such that its low bits are. */
static void start_fault(struct generator *g, struct call *c)
{
    static const uint32_t not_listed[] = { 0, 12, 73, 83, 85, 108, 228, 287, 289, 65535, 84 + 65536, 72 + 256, UINT32_MAX };
    static const uint32_t no_pitch[] = { 1, 9, 11, 13, 14, 16, 255, 10 + 256, 12 + 65536, 256, 65536, UINT32_MAX };
    unsigned module = below(g, 4);
    switch (WEIGHTED(g, 30, 15, 35, 20)) {
    case 0: c->form = not_listed[below(g, COUNT(not_listed))]; break;
    case 1: c->form = percent(g, 50) ? (uint32_t)next(g) : below(g, 300); break;
    case 2: c->pitch[module] = no_pitch[below(g, COUNT(no_pitch))]; break;
    default: c->pitch[0] = 0; break;
    }
}

/* A way of skipping that is neither the new nor the old, also such that its low bits are. */
static void other_way(struct generator *g, struct call *c)
{
    static const uint32_t neither[] = { 2, 3, 128, 254, 255, 256, 257, 65536, 65537, 0x80000000, 0x80000001, UINT32_MAX - 1, UINT32_MAX };
    c->skip = percent(g, 80) ? neither[below(g, COUNT(neither))] : (uint32_t)next(g) | 2;
}

/* A store of wrong size: a byte short, a byte long, empty, or half. */
static void wrong_size(struct generator *g, struct call *c)
{
    size_t *length = &c->store_len[below(g, STORES)];
    switch (WEIGHTED(g, 35, 35, 20, 10)) {
    case 0: *length -= 1; break;
    case 1: *length += 1; break;
    case 2: *length = 0; break;
    default: *length /= 2; break;
    }
}

/* How often a line is written again, and how often a page is left by a skip; calm lists skip more, so that they get to many pages. */
static void choose_moods(struct generator *g)
{
    static const unsigned overprint[] = { 5, 30, 60 }, skips[] = { 1, 3, 8, 20 }, calm_skips[] = { 2, 25, 40, 60 };
    g->percent_overprint = overprint[below(g, COUNT(overprint))];
    g->percent_skip = (g->calm ? calm_skips : skips)[below(g, COUNT(skips))];
}

/* Start; the moods of the printing after it are chosen anew. */
static void start(struct generator *g, struct call *c)
{
    c->kind = CALL_START;
    choose_moods(g);
    start_listed(g, c);
    if (g->made == 1)
        return;
    bool neither = percent(g, 12);
    if (percent(g, 15))
        start_fault(g, c);
    if (neither)
        other_way(g, c);
    if (percent(g, neither ? 20 : 8))
        wrong_size(g, c);
}

/* A copy index that is good, or bad by a little or a lot. */
static uint32_t copy_index(struct generator *g)
{
    unsigned copies = copies_now(g), good = between(g, 1, copies);
    switch (WEIGHTED(g, 45, 40, 4, 7, 2, 2)) {
    case 0: return good;
    case 1: return percent(g, 50) ? 1 : copies;
    case 2: return 0;
    case 3: return copies + 1;
    case 4: return UINT32_MAX;
    default: return good + (percent(g, 50) ? 256 : 65536);
    }
}

/* Compose, with an output that mostly serves. */
static void compose(struct generator *g, struct call *c, uint32_t copy)
{
    unsigned exact = lines_now(g) * TRESTLEPIP_LINE_BYTES;
    c->kind = CALL_COMPOSE;
    c->copy = copy;
    switch (WEIGHTED(g, 45, 25, 15, 6, 2, 2, 2, 5)) {
    case 0: c->buffer_len = exact; break;
    case 1: c->buffer_len = store_size[PAGE]; break;
    case 2: c->buffer_len = between(g, exact, OUT_ROOM); break;
    case 3: c->buffer_len = exact - 1; break;
    case 4: c->buffer_len = 0; break;
    case 5: c->buffer_len = below(g, exact); break;
    case 6: c->buffer_len = exact / TRESTLEPIP_CELL_BYTES; break;
    default: c->buffer_len = exact + 1; break;
    }
}

/* Release; the moods of a calm printer change between pages. */
static void release(struct generator *g, struct call *c)
{
    c->kind = CALL_RELEASE;
    if (g->calm && percent(g, 30))
        choose_moods(g);
}

/* A page waits: it is composed, commands are tried, and it is released; now and then all its copies are composed in a row. */
static void while_waiting(struct generator *g, struct call *c)
{
    if (g->copy_run == 0 && permille(g, g->calm ? 7 : 20))
        g->copy_run = 1;
    if (g->copy_run != 0) {
        compose(g, c, g->copy_run);
        g->copy_run = g->copy_run > copies_now(g) ? 0 : g->copy_run + 1;
        return;
    }
    switch (WEIGHTED(g, 48, 38, 14)) {
    case 0: compose(g, c, copy_index(g)); break;
    case 1: release(g, c); break;
    default: command(g, c); break;
    }
}

/* No page waits: a command, and seldom a call that needs a page. */
static void while_printing(struct generator *g, struct call *c)
{
    g->copy_run = 0;
    switch (WEIGHTED(g, 985, 8, 7)) {
    case 0: command(g, c); break;
    case 1: compose(g, c, copy_index(g)); break;
    default: c->kind = CALL_RELEASE; break;
    }
}

/* ---- the next call ---- */

/* A call with the right sizes and nothing else. */
static void clean(struct generator *g, struct call *c)
{
    c->record_len = c->buffer_len = c->change_count = 0;
    c->sets_counters = false;
    c->at_begin = percent(g, 60);
    c->null_if_empty = percent(g, 50);
    memcpy(c->store_len, store_size, sizeof store_size);
    memset(c->damaged, 0, sizeof c->damaged);
}

/* Whether it is time for a Start: at first; if the list is not calm, also after a state is lost, and now and then. */
static bool start_due(struct generator *g, unsigned answered)
{
    if (g->made == 1 || g->calm)
        return g->made == 1;
    if (form_now(g) == 0 || (answered == 9 && g->undo_count == 0))
        return percent(g, 60);
    return permille(g, 6);
}

void generator_begin(struct generator *g, uint64_t seed, uint64_t list, bool calm, const uint8_t *const stores[STORES])
{
    uint64_t x = seed ^ splitmix(&list);
    memset(g, 0, sizeof *g);
    g->calm = calm;
    g->permille_wrong_size = calm ? 0 : 12;
    for (unsigned i = 0; i < 4; i++)
        g->word[i] = splitmix(&x);
    memcpy(g->stores, stores, sizeof g->stores);
}

/* Now and then counters are set that calls would lead to after very many pages, more often while a reset is due; not amid damage, which is put
 * back. */
static void tend_counters(struct generator *g, struct call *c)
{
    unsigned times = state_of(g)[TRESTLEPIP_AT_RESET_DUE] == 1 ? 4 : 1;
    c->sets_counters = g->made > 1 && g->undo_count == 0 && permille(g, times * g->permille_counters);
    if (c->sets_counters)
        reachable_counters(g, TRESTLEPIP_MOST_PAGES, c->counters);
}

void generator_next(struct generator *g, unsigned answered, struct call *c)
{
    bool new_printer = c->kind == CALL_START && answered == 0;
    g->undo_count = new_printer ? 0 : g->undo_count;
    g->made++;
    clean(g, c);
    if (!g->calm)
        tend_damage(g, c);
    tend_counters(g, c);
    if (start_due(g, answered))
        start(g, c);
    else if (feet_due(g))
        feet_call(g, c);
    else if (tally_due(g))
        tally_call(g, c);
    else if (state_of(g)[TRESTLEPIP_AT_WAITING] == 1)
        while_waiting(g, c);
    else
        while_printing(g, c);
    if (judges_stores(c) && permille(g, g->permille_wrong_size))
        wrong_size(g, c);
}

/* The table of counts: a name for each, and the least that it has to be. */
#include "counts.h"

#include "parts.h"

#include <stdio.h>

bool number_occurs(unsigned number)
{
    return number != TRESTLEPIP_TWO_PAGES && number != 14 && number != 15;
}

/* Every number that occurs has to be met. */
static void number_rows(struct table *t, const struct counts *n)
{
    static const char *const names[NUMBERS] = {
        "number 0: accepted", "number 1: byte not listed", "number 2: write or load record", "number 3: load check",
        "number 4: page waiting", "number 5: load on a started page", "number 6: no page waiting", "number 7: copy index",
        "number 8: output or reply too short", "number 9: store of wrong size or contents", "number 10: form, pitch or way of skipping",
        "number 11: two pages completed", "number 12: no page between a station and the one before it",
        "number 13: 32,767 pages released and not stacked", "number 14: no call gives it", "number 15: no call gives it",
        "number 16: form length or copies of Feet"
    };
    for (unsigned i = 0; i < NUMBERS; i++)
        table_add(t, names[i], n->number[i], number_occurs(i) ? 1 : NEVER);
}

/* Causes 1 to 10 of a load check. */
static void cause_rows(struct table *t, const struct counts *n)
{
    static const char *const names[CAUSES] = {
        "", "cause 1: FCB channel above 12", "cause 2: FCB spacing", "cause 3: FCB sum", "cause 4: FCB channel in an edge half inch",
        "cause 5: translate table short", "cause 6: overlay sequence not 1 to 8 pairs", "cause 7: overlay sequence count, mark or total",
        "cause 8: copy number record", "cause 9: copy modification ends in a segment or is empty", "cause 10: copy modification field"
    };
    for (unsigned i = 1; i < CAUSES; i++)
        table_add(t, names[i], n->cause[i], 1);
}

/* What accepted commands reported, or Block hid. */
static void report_rows(struct table *t, const struct counts *n)
{
    TABLE_ADD_ROWS(t, { "data check 80: unprintable", n->data_check[UNPRINTABLE], 1 },
            { "data check 20: table not loaded", n->data_check[NO_TABLE], 1 }, { "data check 10: no channel match", n->data_check[NO_MATCH], 1 },
            { "data check 08: multiple characters", n->data_check[MULTIPLE], 1 },
            { "data check 80 hidden by Block", n->hidden_unprintable, 1 }, { "data check 08 hidden by Block", n->hidden_multiple, 1 },
            { "unit exception (channel 12)", n->unit_exception, 1 }, { "channel 9", n->channel_9, 1 });
}

/* Accepted writes that tell an unprintable position, and those that tell none though their fill would be one. */
static void write_rows(struct table *t, const struct counts *n)
{
    const struct told_counts *w = &n->write_tells;
    TABLE_ADD_ROWS(t, { "write that tells an unprintable position, Block off", w->block_off, 20 },
            { "write that tells an unprintable position, Block on", w->block_on, 20 },
            { "write that tells exactly one unprintable position", w->one, 20 },
            { "write that tells more than one unprintable position", w->several, 20 },
            { "write with all its positions unprintable", w->all, 20 },
            { "write whose first unprintable position is 1", w->first_1, 20 },
            { "write whose first unprintable position is in the middle", w->first_middle, 20 },
            { "write whose first unprintable position is its last", w->first_last, 20 },
            { "write whose first unprintable position is 204", w->first_204, 20 },
            { "write with unprintable positions, the selected table not loaded", w->by_table_0, 20 },
            { "write with unprintable positions by absent modules alone", w->by_modules, 20 },
            { "write whose fill would be unprintable, its record not: tells none", n->fill_unprintable, 20 });
}

/* Accepted legend loads that tell an unprintable position, and refused ones that tell none though their text has one. */
static void legend_rows(struct table *t, const struct counts *n)
{
    const struct told_counts *l = &n->load_tells;
    TABLE_ADD_ROWS(t, { "legend load that tells an unprintable position, Block off", l->block_off, 20 },
            { "legend load that tells an unprintable position, Block on", l->block_on, 20 },
            { "legend load that tells exactly one unprintable position", l->one, 20 },
            { "legend load that tells more than one unprintable position", l->several, 20 },
            { "legend load with all its positions unprintable", l->all, 20 },
            { "legend load that tells 7,956 unprintable positions, the most possible", n->most_text, 5 },
            { "legend load whose first unprintable position is 1", l->first_1, 20 },
            { "legend load whose first unprintable position is in the middle", l->first_middle, 20 },
            { "legend load whose first unprintable position is its text's last", l->first_last, 20 },
            { "legend load whose first unprintable position is 204", l->first_204, 5 },
            { "legend load whose first unprintable position is in a later segment", n->later_segment, 20 },
            { "legend load with unprintable positions in two segments or more", n->two_segments, 20 },
            { "legend load with unprintable positions, the selected table not loaded", l->by_table_0, 20 },
            { "legend load with unprintable positions by absent modules alone", l->by_modules, 20 },
            { "legend load refused with 3 after an unprintable position: tells none", n->unprintable_at_3, 20 },
            { "legend load of unprintable text refused with 4 or 5: tells none", n->unprintable_at_4_or_5, 20 });
}

/* The accepted commands of one skip kind, all channels together. */
static unsigned long skips(const struct counts *n, unsigned lowest)
{
    unsigned long sum = 0;
    for (unsigned channel = 0; channel < 12; channel++)
        sum += n->command[lowest + 8 * channel];
    return sum;
}

/* The accepted commands of that skip code of both kinds which came least. */
static unsigned long rarest_skip(const struct counts *n)
{
    unsigned long least = n->command[0x89];
    for (unsigned code = 0x89; code <= 0xE3; code += code % 8 == 1 ? 2 : 6)
        least = n->command[code] < least ? n->command[code] : least;
    return least;
}

/* Accepted commands by kind. */
static void command_rows(struct table *t, const struct counts *n)
{
    const unsigned long *c = n->command;
    TABLE_ADD_ROWS(t, { "01 write, no space", c[0x01], 1 }, { "09 write, space 1", c[0x09], 1 }, { "11 write, space 2", c[0x11], 1 },
            { "19 write, space 3", c[0x19], 1 }, { "1nnnn001 write and skip", skips(n, 0x89), 1 }, { "0B space 1", c[0x0B], 1 },
            { "13 space 2", c[0x13], 1 }, { "1B space 3", c[0x1B], 1 }, { "1nnnn011 skip", skips(n, 0x8B), 1 },
            { "the skip code that came least", rarest_skip(n), 1 }, { "03 No-Op", c[0x03], 1 }, { "04 Sense", c[0x04], 1 },
            { "37 Initialize", c[0x37], 1 }, { "87 Clear", c[0x87], 1 }, { "73 Block", c[0x73], 1 }, { "7B Allow", c[0x7B], 1 },
            { "47 Select 0", c[0x47], 1 }, { "57 Select 1", c[0x57], 1 }, { "67 Select 2", c[0x67], 1 }, { "77 Select 3", c[0x77], 1 },
            { "63 load FCB", c[0x63], 1 }, { "83 load translate table", c[0x83], 1 }, { "43 load overlay sequence", c[0x43], 1 },
            { "35 load copy modification", c[0x35], 1 }, { "23 load copy number", c[0x23], 1 });
}

/* Accepted Starts by form length. */
static void form_rows(struct table *t, const struct counts *n)
{
    char name[NAME_ROOM];
    for (unsigned i = 0; i < FORMS; i++) {
        snprintf(name, sizeof name, "Start with form length %u", forms[i]);
        table_add(t, name, n->form[i], 1);
    }
}

/* Pages and copies, and how far writes and copies went. */
static void page_rows(struct table *t, const struct counts *n)
{
    TABLE_ADD_ROWS(t, { "page ready", n->page_ready, 1 },
            { "write on line 132", n->write_on_last_line, 20 }, { "write or legend load while all four slots are loaded", n->all_slots_loaded, 20 },
            { "copy composed", n->copy, 1 }, { "copy where a legend covered something", n->copy_covered, 1 },
            { "copy where segments overlapped", n->copy_overlapped, 1 }, { "copy with a number above 255", n->copy_above_255, 1 },
            { "copy with number 509", n->copy_of_last_number, 5 }, { "copy of 132 lines", n->copy_of_most_lines, 20 });
}

/* Station, cancel and restart calls. */
static void tally_rows(struct table *t, const struct page_counts *n)
{
    TABLE_ADD_ROWS(t, { "page transferred", n->taken[0], 200 }, { "page fused", n->taken[1], 200 }, { "page stacked", n->taken[2], 200 },
            { "cancel", n->taken[3], 20 }, { "restart", n->taken[4], 20 },
            { "page transferred, refused with 12", n->none_between[0], 20 }, { "page fused, refused with 12", n->none_between[1], 20 },
            { "page stacked, refused with 12", n->none_between[2], 20 },
            { "cancel that gives pages up", n->cancel_of_pages, 20 }, { "cancel that gives none up", n->cancel_of_none, 20 },
            { "restart that gives pages up", n->restart_of_pages, 20 }, { "restart that gives none up", n->restart_of_none, 5 },
            { "cancel or restart while a page waits", n->while_waiting, 5 },
            { "cancel or restart while the channel's counter alone has wrapped", n->over_wrap, 5 });
}

/* The counters themselves, and what Release does about them. */
static void counter_rows(struct table *t, const struct page_counts *n)
{
    TABLE_ADD_ROWS(t, { "channel counter from FFFF to 0000", n->wrap[CHANNEL], 5 }, { "transfer counter from FFFF to 0000", n->wrap[TRANSFER], 5 },
            { "fuser counter from FFFF to 0000", n->wrap[FUSER], 5 }, { "stacker counter from FFFF to 0000", n->wrap[STACKER], 5 },
            { "Release that leaves 32,767 pages between channel and stacker", n->most_out, 5 },
            { "Release that counts a page and does the reset that is due", n->reset_counts, 5 },
            { "Release refused with 13, a reset due", n->reset_waits, 5 },
            { "number 9 for the counters alone: a page too many is out", n->too_many_out, 20 },
            { "number 9 for the counters alone: transfer a page past the channel", n->transfer_ahead, 20 },
            { "number 9 for the counters alone: fuser a page past transfer", n->fuser_ahead, 20 },
            { "number 9 for the counters alone: stacker a page past the fuser", n->stacker_ahead, 20 });
}

/* Every call that is lent the stores, except Start, judges this part of the state. */
static void nine_rows(struct table *t, const char *part, const unsigned long count[CALL_KINDS])
{
    char name[NAME_ROOM];
    for (enum call_kind i = CALL_COMMAND; i < CALL_KINDS; i++) {
        snprintf(name, sizeof name, "number 9 for the %s alone: %s", part, call_name[i]);
        table_add(t, name, count[i], 5);
    }
}

/* What becomes of a cell's mark in a merge. */
static const char *mark_after(unsigned mark, enum code_class old, enum code_class new)
{
    bool sets = (old == IS_CHARACTER && new == IS_UNDERSCORE) || (old == IS_UNDERSCORE && new == IS_CHARACTER);
    return mark != 0 ? "mark kept" : sets ? "mark set" : "no mark";
}

/* Every merge that there is: only a character can come upon the same one. A mark on a blank or an underscore is one that the driver set. */
static void merge_rows(struct table *t, const struct mark_counts *n)
{
    static const char *const names[NEW_CLASSES] = { "blank", "underscore", "character", "the same character" };
    char name[NAME_ROOM];
    for (unsigned mark = 0; mark < 2; mark++)
        for (enum code_class old = IS_BLANK; old < OLD_CLASSES; old++)
            for (enum code_class new = IS_BLANK; new <= (old == IS_CHARACTER ? IS_SAME : IS_CHARACTER); new++) {
                bool collide = old == IS_CHARACTER && new == IS_CHARACTER, lent = mark != 0 && old != IS_CHARACTER;
                snprintf(name, sizeof name, "merge, %s: %s, then %s", mark_after(mark, old, new), names[old], collide ? "another" : names[new]);
                table_add(t, name, n->merged[mark][old][new], lent ? 5 : 20);
            }
}

/* Marks on lines and copies, and those that the driver set. */
static void mark_rows(struct table *t, const struct mark_counts *n)
{
    TABLE_ADD_ROWS(t, { "first write on a line that has marks, which it clears", n->first_over_marks, 5 },
            { "copy that shows a mark", n->copy_shows, 200 }, { "copy where a legend covers a mark", n->copy_covers, 20 },
            { "copy where a legend covers a mark with the page's own code", n->copy_covers_same, 5 },
            { "mark 0 set by the driver on a blank, taken", n->lent[0][IS_BLANK], 20 },
            { "mark 0 set by the driver on an underscore, taken", n->lent[0][IS_UNDERSCORE], 20 },
            { "mark 0 set by the driver on a character, taken", n->lent[0][IS_CHARACTER], 20 },
            { "mark 1 set by the driver on a blank, taken", n->lent[1][IS_BLANK], 20 },
            { "mark 1 set by the driver on an underscore, taken", n->lent[1][IS_UNDERSCORE], 20 },
            { "mark 1 set by the driver on a character, taken", n->lent[1][IS_CHARACTER], 20 });
}

/* Every call that is lent the stores, except Start, judges all marks. */
static void bad_mark_rows(struct table *t, const struct mark_counts *n)
{
    char name[NAME_ROOM];
    for (enum call_kind i = CALL_COMMAND; i < CALL_KINDS; i++) {
        snprintf(name, sizeof name, "number 9 for marks alone, up to line P: %s", call_name[i]);
        table_add(t, name, n->bad_up_to_p[i], 5);
        snprintf(name, sizeof name, "number 9 for marks alone, past line P: %s", call_name[i]);
        table_add(t, name, n->bad_past_p[i], 5);
    }
    TABLE_ADD_ROWS(t, { "number 9 for one mark alone: the page's first", n->bad_first_cell, 20 },
            { "number 9 for one mark alone: the page's last", n->bad_last_cell, 20 },
            { "number 9 for one mark alone: 02", n->bad_02, 20 }, { "number 9 for one mark alone: 80", n->bad_80, 20 },
            { "number 9 for one mark alone: FF", n->bad_ff, 20 }, { "number 9 for one mark alone: another", n->bad_other, 20 });
}

/* Calls for feet of paper. */
static void feet_rows(struct table *t, const struct feet_counts *n)
{
    TABLE_ADD_ROWS(t, { "feet told", n->told, 200 }, { "feet refused with 16 for the form length alone", n->bad_form, 20 },
            { "feet refused with 16 for copies 0 alone", n->no_copies, 20 },
            { "feet refused with 16 for copies above 255 alone", n->many_copies, 20 },
            { "feet refused with 16 for form length and copies", n->bad_both, 20 },
            { "feet told, the identifiers equal", n->no_pages, 20 },
            { "feet told, the identifier gone on from FFFF to 0000", n->over_wrap, 20 },
            { "feet of 65,535 pages told", n->most_pages, 20 },
            { "feet told of a product above 32 bits", n->above_32_bits, 20 }, { "feet told of the largest product", n->longest, 5 },
            { "feet told that are the exact fraction, not 0", n->rounded[EXACT], 20 },
            { "feet told that are rounded up", n->rounded[ROUNDED_UP], 20 }, { "feet told that are rounded down", n->rounded[ROUNDED_DOWN], 20 });
}

/* Start's choice of the way of skipping, and what was done in each way. */
static void way_rows(struct table *t, const struct skip_counts *n)
{
    TABLE_ADD_ROWS(t, { "Start in the new way", n->started[TRESTLEPIP_NEW_WAY], 200 },
            { "Start in the old way", n->started[TRESTLEPIP_OLD_WAY], 200 },
            { "Start refused with 10 for the way of skipping alone", n->neither, 20 },
            { "Start refused with 10 for the high bits of the way alone", n->neither_by_high_bits, 5 },
            { "Start refused with 10 for the way and a form or pitch", n->neither_and_form, 5 },
            { "Start refused with 9 for a size, the way being neither", n->sizes_first, 5 },
            { "command accepted in the new way", n->commands[TRESTLEPIP_NEW_WAY], 200 },
            { "command accepted in the old way", n->commands[TRESTLEPIP_OLD_WAY], 200 },
            { "reset done in the new way", n->resets[TRESTLEPIP_NEW_WAY], 20 }, { "reset done in the old way", n->resets[TRESTLEPIP_OLD_WAY], 20 },
            { "new way set by the driver, taken", n->lent[TRESTLEPIP_NEW_WAY], 5 },
            { "old way set by the driver, taken", n->lent[TRESTLEPIP_OLD_WAY], 5 });
}

/* Skips that stood, and those that moved though one thing more or less would have let them stand. */
static void skip_rows(struct table *t, const struct skip_counts *n)
{
    TABLE_ADD_ROWS(t, { "skip that stood at line 1", n->stood_at_first, 20 }, { "skip that stood at another line", n->stood_later, 20 },
            { "skip that stood at the last line", n->stood_at_last, 1 },
            { "skip that stood, other lines of the page written", n->stood_among_lines, 20 },
            { "skip that stood, the call before it a skip that landed there", n->stood_after_landing, 20 },
            { "skip that stood on a line of channel 9 or 12", n->stood_at_9_or_12, 20 },
            { "skip that stood, and set the sense anew", n->stood_over_sense, 20 },
            { "skip to its line's own channel that moved: the line is written", n->moved_written, 20 },
            { "skip to its line's own channel that moved: the old way", n->moved_old, 20 },
            { "skip in the new way from an unwritten line of another channel", n->moved_other_channel, 20 },
            { "skip in the new way from an unwritten line of no channel", n->moved_no_channel, 20 },
            { "skip to its line's own channel, new way, refused with 4", n->waits, 5 },
            { "write and skip to its line's own channel, new way, first write", n->write_and_skip[TRESTLEPIP_NEW_WAY][0], 20 },
            { "write and skip to its line's own channel, new way, later write", n->write_and_skip[TRESTLEPIP_NEW_WAY][1], 20 },
            { "write and skip to its line's own channel, old way, first write", n->write_and_skip[TRESTLEPIP_OLD_WAY][0], 20 },
            { "write and skip to its line's own channel, old way, later write", n->write_and_skip[TRESTLEPIP_OLD_WAY][1], 20 });
}

/* Refused Starts and damage. */
static void damage_rows(struct table *t, const struct counts *n)
{
    TABLE_ADD_ROWS(t, { "refused Start with a right-sized state", n->start_refused_sized, 1 },
            { "damaged state refused with 9", n->state_refused, 1 }, { "damaged state taken", n->state_taken, 1 },
            { "damaged legends refused with 9", n->legends_refused, 1 }, { "damaged legends taken", n->legends_taken, 1 },
            { "damaged page refused with 9", n->page_refused, 1 }, { "damaged page or tables taken", n->cells_taken, 1 });
}

/* What undisturbed lists met; those alone show that nothing a printer does leaves contents that get 9. */
static void list_rows(struct table *t, const struct counts *n)
{
    TABLE_ADD_ROWS(t, { "undisturbed list of 1,000 calls or more", n->lists_long, 10 },
            { "such a list with 100 released pages or more", n->lists_of_pages, 10 },
            { "such a list in the new way", n->lists_of_way[TRESTLEPIP_NEW_WAY], 1 },
            { "such a list in the old way", n->lists_of_way[TRESTLEPIP_OLD_WAY], 1 },
            { "reset at once in an undisturbed list", n->undisturbed.resets_at_once, 20 },
            { "deferred reset done in an undisturbed list", n->undisturbed.resets_deferred, 20 },
            { "number 9 in an undisturbed list", n->undisturbed.nines, NEVER }, { "undisturbed run of calls", n->runs, 1 },
            { "undisturbed run of fewer than ten calls", n->runs_short, 0 });
}

struct faults counts_print(const struct counts *n)
{
    struct table t = { .count = 0 };
    number_rows(&t, n);
    cause_rows(&t, n);
    report_rows(&t, n);
    write_rows(&t, n);
    legend_rows(&t, n);
    command_rows(&t, n);
    form_rows(&t, n);
    page_rows(&t, n);
    tally_rows(&t, &n->pages);
    counter_rows(&t, &n->pages);
    nine_rows(&t, "counters", n->pages.unreachable);
    merge_rows(&t, &n->marks);
    mark_rows(&t, &n->marks);
    bad_mark_rows(&t, &n->marks);
    feet_rows(&t, &n->feet);
    way_rows(&t, &n->skips);
    skip_rows(&t, &n->skips);
    nine_rows(&t, "way of skipping", n->skips.bad_way);
    damage_rows(&t, n);
    list_rows(&t, n);
    return table_print(&t);
}

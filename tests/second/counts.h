/* What a run has met: a count for each thing that must have occurred. */
#ifndef COUNTS_H
#define COUNTS_H

#include "calls.h"
#include "feet_law.h"
#include "table.h"

enum { NUMBERS = TRESTLEPIP_BAD_PAPER + 1, CAUSES = 11, TALLIES = 5, SKIP_WAYS = TRESTLEPIP_OLD_WAY + 1 };

/* What a list has met, and the way of skipping that its first call asked for; it is disturbed by a Start after that call, by a byte that the driver
 * sets, and by a store of wrong size. */
struct list_counts {
    unsigned long calls, releases, resets_at_once, resets_deferred, nines;
    bool old_way, disturbed;
};

/* Accepted writes, or legend loads, that tell an unprintable position: by the switch, by how many they tell, by where in its text the first one is,
 * and by why they are unprintable. Position 1 counts neither as a middle nor as a last one. */
struct told_counts {
    unsigned long block_off, block_on;
    unsigned long one, several, all;
    unsigned long first_1, first_middle, first_last, first_204;
    unsigned long by_table_0, by_modules;
};

/* Station, cancel and restart calls: accepted, and refused with 12; counters that went on from FFFF to 0000; what cancels and restarts gave up; Releases
 * that counted a page with a reset, left the most pages out, or were refused with 13 and a reset due; and calls refused with 9 for their counters. */
struct page_counts {
    unsigned long taken[TALLIES], none_between[TALLIES];
    unsigned long wrap[COUNTERS];
    unsigned long cancel_of_pages, cancel_of_none, restart_of_pages, restart_of_none, while_waiting, over_wrap;
    unsigned long reset_counts, most_out, reset_waits;
    unsigned long unreachable[CALL_KINDS], stacker_ahead, fuser_ahead, transfer_ahead, too_many_out;
};

/* What a merge tells apart in a code; an old cell is one of the first three, and a new character may be the same as the old one. */
enum code_class { IS_BLANK, IS_UNDERSCORE, IS_CHARACTER, OLD_CLASSES, IS_SAME = OLD_CLASSES, NEW_CLASSES };

/* Writes by what merged in a cell of theirs: its old mark, its old code and the new one; first writes on a line that had marks; copies that show a
 * mark, where a legend covers one, and where it does so with the page's own code. Calls refused with 9 for marks alone, all up to line P or all
 * past it; those with one such mark also by where and what it is. Marks of 0 and 1 that the driver set and a call took, by the code beside them. */
struct mark_counts {
    unsigned long merged[2][OLD_CLASSES][NEW_CLASSES], first_over_marks;
    unsigned long copy_shows, copy_covers, copy_covers_same;
    unsigned long bad_up_to_p[CALL_KINDS], bad_past_p[CALL_KINDS];
    unsigned long bad_first_cell, bad_last_cell, bad_02, bad_80, bad_ff, bad_other;
    unsigned long lent[2][OLD_CLASSES];
};

/* Calls for feet of paper: refused for the form length, for the copies or for both; accepted by the pages from one identifier to the other, by
 * the length of the paper, and, unless there is none, by how the fraction was rounded. */
struct feet_counts {
    unsigned long bad_form, no_copies, many_copies, bad_both;
    unsigned long told, no_pages, over_wrap, most_pages, above_32_bits, longest;
    unsigned long rounded[ROUNDINGS];
};

/* Start's choice: accepted by the way of skipping, refused with 10 because it is neither, or with 9 before that. Immediate skips that stood, by where
 * they did; those that moved, by what kept them from standing; and those refused with 4 that would have stood. Writes and skips to their line's own
 * channel, by the way and by whether the line was written before. Commands and resets by the way; calls refused with 9 for the way alone; ways that
 * the driver set and a call took. The latest call landed if it was a skip that moved to its channel. */
struct skip_counts {
    unsigned long started[SKIP_WAYS], neither, neither_by_high_bits, neither_and_form, sizes_first;
    unsigned long stood_at_first, stood_at_last, stood_later, stood_among_lines, stood_after_landing, stood_at_9_or_12, stood_over_sense;
    unsigned long moved_written, moved_old, moved_other_channel, moved_no_channel, waits;
    unsigned long write_and_skip[SKIP_WAYS][2];
    unsigned long commands[SKIP_WAYS], resets[SKIP_WAYS];
    unsigned long bad_way[CALL_KINDS], lent[SKIP_WAYS];
    bool landed;
};

struct counts {
    unsigned long number[NUMBERS];
    unsigned long cause[CAUSES];
    unsigned long data_check[256];
    unsigned long hidden_unprintable, hidden_multiple;
    unsigned long unit_exception, channel_9;
    struct told_counts write_tells, load_tells;
    unsigned long fill_unprintable, later_segment, two_segments, most_text;
    unsigned long unprintable_at_3, unprintable_at_4_or_5;
    unsigned long command[256];
    unsigned long form[FORMS];
    unsigned long page_ready;
    unsigned long write_on_last_line, all_slots_loaded;
    unsigned long copy, copy_covered, copy_overlapped, copy_above_255, copy_of_last_number, copy_of_most_lines;
    unsigned long start_refused_sized;
    unsigned long state_refused, state_taken, legends_refused, legends_taken, page_refused, cells_taken;
    unsigned long lists_long, lists_of_pages, lists_of_way[SKIP_WAYS];
    unsigned long run_so_far, runs, runs_short;
    struct page_counts pages;
    struct mark_counts marks;
    struct feet_counts feet;
    struct skip_counts skips;
    struct list_counts list, undisturbed;
};

/* Adds one call: its answer, the stores before and after it, and the output, which is read after an accepted Compose. */
void counts_add(struct counts *n, const struct call *c, uint64_t answer, uint8_t *const before[STORES], const uint8_t *const after[STORES],
        const uint8_t *out);

/* Whether a call can get this number: 11 cannot occur, and nothing gives 14 and 15. */
bool number_occurs(unsigned number);

/* Whether a call's stores all have their sizes. */
bool is_sized(const struct call *c);

/* A byte's code in the table that serves, and whether a code cannot be printed: looked up in the stores before the call, so that what is counted does
 * not rest on the programs that are compared. */
uint8_t code_of(uint8_t *const before[STORES], uint8_t byte);
bool is_unprintable(uint8_t *const before[STORES], uint8_t code);

/* Whether some cells have a mark among them. */
bool has_mark(const uint8_t *cells, size_t count);

/* Adds what one call did with marks: its number, the stores before it, and its output. */
void mark_counts_add(struct mark_counts *n, const struct call *c, unsigned number, uint8_t *const before[STORES], const uint8_t *out);

/* Adds what one call did with the page counters: its number, the stores before it, and the state after it. */
void page_counts_add(struct page_counts *n, const struct call *c, unsigned number, uint8_t *const before[STORES], const uint8_t *after);

/* Adds a call for feet of paper: its number, and the double's bytes after it. */
void feet_counts_add(struct feet_counts *n, const struct call *c, unsigned number, const uint8_t *feet);

/* Adds what one call did with the way of skipping: its answer, the stores before it, and the state after it. */
void skip_counts_add(struct skip_counts *n, const struct call *c, uint64_t answer, uint8_t *const before[STORES], const uint8_t *after);

/* Adds the list whose last call was added: only now is it known whether it was disturbed. */
void counts_end_list(struct counts *n);

/* Prints the table, a count a line, and then names each that is not as it must be; gives how many those are. */
struct faults counts_print(const struct counts *n);

#endif

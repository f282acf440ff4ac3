/*
 * The readers of the page counters beside the library: what each gives after each call, from zero and from where they go over FFFF to 0000; and that
 * the pages between channel and stacker are those released, less those cancelled, less those stacked.
 */
#include "printer.h"

#include <stdio.h>

#include "../exports.h"

enum { FORM = 84, COUNTERS = 4, WALKED = 400000 };

/* RESET is a Release that does the reset which Initialize left due. */
enum calls { RELEASE, TRANSFERRED, FUSED, STACKED, CANCEL, RESTART, INITIALIZE, RESET };

static const char *const names[] = {"release", "transferred", "fused", "stacked", "cancel", "restart", "initialize", "reset"};

static unsigned (*const readers[COUNTERS])(const uint8_t *) = {
    trestlepip_channel_page, trestlepip_transfer_page, trestlepip_fuser_page, trestlepip_stacker_page};

/* Makes the call, and all that it takes before. */
static uint64_t make_call(struct printer *p, enum calls call)
{
    static tally_call *const tallies[] = {[TRANSFERRED] = trestlepip_transferred, [FUSED] = trestlepip_fused, [STACKED] = trestlepip_stacked,
        [CANCEL] = trestlepip_cancel, [RESTART] = trestlepip_restart};
    switch (call) {
    case RELEASE:
        printer_complete(p);
        return trestlepip_release(STORES(p));
    case INITIALIZE:
        return printer_send(p, TRESTLEPIP_INITIALIZE, NULL, 0);
    case RESET:
        printer_send(p, TRESTLEPIP_SPACE_1, NULL, 0);
        printer_send(p, TRESTLEPIP_INITIALIZE, NULL, 0);
        return trestlepip_release(STORES(p));
    default:
        return tallies[call](STORES(p));
    }
}

/* Calls in turn, each with its number and how far channel, transfer, fuser and stacker then are from where all four began. */
static const struct row {
    enum calls call;
    unsigned number, counters[COUNTERS];
} rows[] = {
    {TRANSFERRED, TRESTLEPIP_NONE_BETWEEN, {0, 0, 0, 0}},
    {FUSED, TRESTLEPIP_NONE_BETWEEN, {0, 0, 0, 0}},
    {STACKED, TRESTLEPIP_NONE_BETWEEN, {0, 0, 0, 0}},
    {CANCEL, TRESTLEPIP_ACCEPTED, {0, 0, 0, 0}},
    {RESTART, TRESTLEPIP_ACCEPTED, {0, 0, 0, 0}},
    {RELEASE, TRESTLEPIP_ACCEPTED, {1, 0, 0, 0}},
    {FUSED, TRESTLEPIP_NONE_BETWEEN, {1, 0, 0, 0}},
    {STACKED, TRESTLEPIP_NONE_BETWEEN, {1, 0, 0, 0}},
    {TRANSFERRED, TRESTLEPIP_ACCEPTED, {1, 1, 0, 0}},
    {TRANSFERRED, TRESTLEPIP_NONE_BETWEEN, {1, 1, 0, 0}},
    {STACKED, TRESTLEPIP_NONE_BETWEEN, {1, 1, 0, 0}},
    {FUSED, TRESTLEPIP_ACCEPTED, {1, 1, 1, 0}},
    {FUSED, TRESTLEPIP_NONE_BETWEEN, {1, 1, 1, 0}},
    {STACKED, TRESTLEPIP_ACCEPTED, {1, 1, 1, 1}},
    {STACKED, TRESTLEPIP_NONE_BETWEEN, {1, 1, 1, 1}},
    {RELEASE, TRESTLEPIP_ACCEPTED, {2, 1, 1, 1}},
    {RELEASE, TRESTLEPIP_ACCEPTED, {3, 1, 1, 1}},
    {TRANSFERRED, TRESTLEPIP_ACCEPTED, {3, 2, 1, 1}},
    {INITIALIZE, TRESTLEPIP_ACCEPTED, {3, 2, 1, 1}},
    {RESET, TRESTLEPIP_ACCEPTED, {4, 2, 1, 1}},
    {CANCEL, TRESTLEPIP_ACCEPTED, {2, 2, 1, 1}},
    {RELEASE, TRESTLEPIP_ACCEPTED, {3, 2, 1, 1}},
    {FUSED, TRESTLEPIP_ACCEPTED, {3, 2, 2, 1}},
    {TRANSFERRED, TRESTLEPIP_ACCEPTED, {3, 3, 2, 1}},
    {RELEASE, TRESTLEPIP_ACCEPTED, {4, 3, 2, 1}},
    {STACKED, TRESTLEPIP_ACCEPTED, {4, 3, 2, 2}},
    {FUSED, TRESTLEPIP_ACCEPTED, {4, 3, 3, 2}},
    {RELEASE, TRESTLEPIP_ACCEPTED, {5, 3, 3, 2}},
    {RESTART, TRESTLEPIP_ACCEPTED, {2, 2, 2, 2}},
    {STACKED, TRESTLEPIP_NONE_BETWEEN, {2, 2, 2, 2}},
    {RELEASE, TRESTLEPIP_ACCEPTED, {3, 2, 2, 2}},
};

enum { ROWS = sizeof rows / sizeof *rows };

/* The reader of a counter, and the pages between it and the stacker's, which do not depend on where all began. */
static void check_reader(const struct printer *p, const struct row *row, unsigned first, unsigned i)
{
    unsigned counter = readers[i](p->state), stacker = trestlepip_stacker_page(p->state);
    check(counter == (first + row->counters[i]) % 65536, names[row->call], first);
    check(trestlepip_pages_between(counter, stacker) == row->counters[i] - row->counters[COUNTERS - 1], names[row->call], first);
}

/* The answer has nothing but its number, except Initialize's, which is a command. */
static void check_row(struct printer *p, const struct row *row, unsigned first)
{
    uint64_t answer = make_call(p, row->call);
    check(row->call == INITIALIZE ? trestlepip_number(answer) == row->number : answer == row->number, names[row->call], trestlepip_number(answer));
    for (unsigned i = 0; i < COUNTERS; i++)
        check_reader(p, row, first, i);
}

/* Start puts all at zero, whatever the state held. */
static void check_start(struct printer *p)
{
    printer_start(p, FORM);
    for (unsigned i = 0; i < COUNTERS; i++)
        check(readers[i](p->state) == 0, "not zero after Start: counter", i);
}

/* All rows on a printer whose four counters begin alike, as after Start or a restart. */
static void check_rows(struct printer *p, unsigned first)
{
    check_start(p);
    printer_set_counters(p, first, first, first, first);
    for (size_t i = 0; i < ROWS; i++)
        check_row(p, &rows[i], first);
}

/* The pages between channel and stacker after a call, by what the paper counts. A cancel takes those between channel and transfer. */
static unsigned pages_after(enum calls call, uint64_t answer, unsigned pages, unsigned cancelled)
{
    unsigned one = trestlepip_number(answer) == TRESTLEPIP_ACCEPTED ? 1 : 0;
    switch (call) {
    case RELEASE: return pages + one;
    case STACKED: return pages - one;
    case CANCEL: return pages - cancelled;
    case RESTART: return 0;
    default: return pages;
    }
}

/* Mostly a release or a report, so that pages are under way when a cancel or a restart comes. */
static enum calls any_call(void)
{
    if (chance(100) != 0)
        return (enum calls)chance(CANCEL);
    return chance(10) == 0 ? RESTART : CANCEL;
}

/* Calls by chance from Start on, until channel has gone over FFFF to 0000. */
static void walk(struct printer *p)
{
    unsigned pages = 0, rounds = 0;
    printer_start(p, FORM);
    for (unsigned i = 0; i < WALKED; i++) {
        enum calls call = any_call();
        unsigned channel = trestlepip_channel_page(p->state), cancelled = trestlepip_pages_between(channel, trestlepip_transfer_page(p->state));
        uint64_t answer = make_call(p, call);
        pages = pages_after(call, answer, pages, cancelled);
        check(answer == TRESTLEPIP_ACCEPTED || answer == TRESTLEPIP_NONE_BETWEEN, names[call], trestlepip_number(answer));
        check(trestlepip_pages_between(trestlepip_channel_page(p->state), trestlepip_stacker_page(p->state)) == pages, names[call], i);
        rounds += call == RELEASE && channel == 0xFFFF;
    }
    check(rounds > 0, "never from FFFF to 0000 in calls", WALKED);
}

/* With no page waiting, 6 comes before 13; counters that no calls reach get 9 before 12. */
static void check_orders(struct printer *p)
{
    printer_start(p, FORM);
    printer_set_counters(p, TRESTLEPIP_MOST_PAGES, 0, 0, 0);
    check(trestlepip_release(STORES(p)) == TRESTLEPIP_NO_PAGE, "not 6 before 13: counter", trestlepip_channel_page(p->state));
    printer_set_counters(p, 0, 0, 1, 0);
    for (enum calls call = TRANSFERRED; call <= RESTART; call++)
        check(make_call(p, call) == TRESTLEPIP_BAD_STORE, names[call], TRESTLEPIP_BAD_STORE);
}

int main(void)
{
    static const unsigned firsts[] = {0, 0x00FE, 0x7FFE, 0xFFFC, 0xFFFD, 0xFFFE, 0xFFFF};
    static struct printer p;
    for (size_t i = 0; i < sizeof firsts / sizeof *firsts; i++)
        check_rows(&p, firsts[i]);
    check_orders(&p);
    walk(&p);
    printf("counters: %u rows from %zu counts, %u calls by chance, %u faults\n", (unsigned)ROWS, sizeof firsts / sizeof *firsts, (unsigned)WALKED, faults());
    return faults() == 0 ? 0 : 1;
}

/*
 * trestlepip_printable_lines beside the library: P of many FCBs on every form, and 0 exactly for the states that the library refuses with 9. A way of
 * skipping above 1 is one of these.
 */
#include "printer.h"

#include <stdio.h>
#include <string.h>

enum { HALF_INCH = 12, HALF_INCHES_MOST = 288 / HALF_INCH, ALL_UP_TO = 96, SAMPLES = 10000, PAIRS = 20000, MADE_UP = 200000 };

static const uint32_t forms[] = {72, 84, 96, 132, 144, 168, 192, 204, 240, 264, 288};

/* The lines of a half inch at each spacing, and the FCB byte of such a line. */
static const struct {
    unsigned lines;
    uint8_t fcb_byte;
} spacings[] = {{3, 0x00}, {4, 0x10}, {6, 0x30}};

enum { SPACINGS = sizeof spacings / sizeof *spacings };

static struct {
    unsigned fcbs, states, good;
} tried;

/* Writes the FCB that has these spacings, one for each half inch. Returns its bytes. */
static size_t put_fcb(const unsigned *spacing, unsigned half_inches, uint8_t *fcb)
{
    size_t count = 0;
    for (unsigned i = 0; i < half_inches; i++) {
        memset(fcb + count, spacings[spacing[i]].fcb_byte, spacings[spacing[i]].lines);
        count += spacings[spacing[i]].lines;
    }
    return count;
}

/* The library takes P lines of room for a copy, and not a byte less. */
static bool needs_lines(struct printer *p, unsigned lines)
{
    static uint8_t out[TRESTLEPIP_PAGE_BYTES];
    size_t room = (size_t)lines * TRESTLEPIP_LINE_BYTES;
    return lines > 0 && room <= sizeof out
        && trestlepip_number(trestlepip_compose(1, out, room, STORES(p))) == TRESTLEPIP_ACCEPTED
        && trestlepip_number(trestlepip_compose(1, out, room - 1, STORES(p))) == TRESTLEPIP_TOO_SHORT;
}

/* Loads an FCB, and completes a page on it, so that there is something to compose. */
static void compare_lines(struct printer *p, const unsigned *spacing, unsigned half_inches)
{
    uint8_t fcb[TRESTLEPIP_FCB_MOST];
    size_t count = put_fcb(spacing, half_inches, fcb);
    bool loaded = trestlepip_number(printer_send(p, TRESTLEPIP_LOAD_FCB, fcb, count)) == TRESTLEPIP_ACCEPTED;
    printer_complete(p);
    check(loaded && needs_lines(p, trestlepip_printable_lines(p->state)), "other lines than the library's, FCB", tried.fcbs);
    printer_release(p);
    tried.fcbs++;
}

/* The next combination, as a number counts up; false after the last. */
static bool next_combination(unsigned *spacing, unsigned half_inches)
{
    for (unsigned i = 0; i < half_inches; i++) {
        spacing[i] = (spacing[i] + 1) % SPACINGS;
        if (spacing[i] != 0)
            return true;
    }
    return false;
}

static void compare_all(struct printer *p, unsigned half_inches)
{
    unsigned spacing[HALF_INCHES_MOST] = {0};
    do
        compare_lines(p, spacing, half_inches);
    while (next_combination(spacing, half_inches));
}

/* The first samples are of one spacing throughout, the others mixed. */
static void compare_samples(struct printer *p, unsigned half_inches)
{
    unsigned spacing[HALF_INCHES_MOST];
    for (unsigned sample = 0; sample < SAMPLES; sample++) {
        for (unsigned i = 0; i < half_inches; i++)
            spacing[i] = sample < SPACINGS ? sample : chance(SPACINGS);
        compare_lines(p, spacing, half_inches);
    }
}

static void compare_form(struct printer *p, uint32_t form)
{
    printer_start(p, form);
    if (form <= ALL_UP_TO)
        compare_all(p, form / HALF_INCH);
    else
        compare_samples(p, form / HALF_INCH);
}

/* The legends are empty, the marks are 0 and the sizes right, so that only the state can get 9. A No-Op leaves it as it is. */
static void compare_state(struct printer *p, unsigned place)
{
    bool refused = trestlepip_number(printer_send(p, TRESTLEPIP_NO_OP, NULL, 0)) == TRESTLEPIP_BAD_STORE;
    bool none = trestlepip_printable_lines(p->state) == 0;
    check(none == refused, refused ? "not 0 for a state that gets 9, byte" : "0 for a good state, byte", place);
    tried.states++;
    tried.good += refused ? 0 : 1;
}

/* Every byte of the state set to every value. */
static void damage_bytes(struct printer *p)
{
    for (unsigned place = 0; place < TRESTLEPIP_STATE_BYTES; place++) {
        uint8_t kept = p->state[place];
        for (unsigned value = 0; value < 256; value++) {
            p->state[place] = (uint8_t)value;
            compare_state(p, place);
        }
        p->state[place] = kept;
    }
}

/* Half of the places are among the single fields, and half of the values small, so that two damages may agree with each other. */
static void damage_pair(struct printer *p)
{
    uint8_t kept[TRESTLEPIP_STATE_BYTES];
    memcpy(kept, p->state, sizeof kept);
    unsigned place = 0;
    for (unsigned i = 0; i < 2; i++) {
        place = chance(chance(2) ? TRESTLEPIP_AT_SENSE_0 : TRESTLEPIP_STATE_BYTES);
        p->state[place] = (uint8_t)chance(chance(2) ? 4 : 256);
    }
    compare_state(p, place);
    memcpy(p->state, kept, sizeof kept);
}

/* Eight pairs, 255 copies: as much as a sequence may have. */
static void load_long_sequence(struct printer *p)
{
    static const uint8_t pairs[] = {32, 0, 32, 1, 32, 0, 32, 1, 32, 0, 32, 1, 32, 0, 31, 1};
    printer_send(p, TRESTLEPIP_LOAD_OVERLAY_SEQUENCE, pairs, sizeof pairs);
}

/* A heading at 6 lines per inch, a body at 8 and a foot at 12, with channels in its first and last printable lines. */
static void load_mixed_fcb(struct printer *p)
{
    static const unsigned spacing[] = {0, 0, 1, 1, 1, 2, 2};
    uint8_t fcb[TRESTLEPIP_FCB_MOST];
    size_t count = put_fcb(spacing, sizeof spacing / sizeof *spacing, fcb);
    fcb[3] |= 1;
    fcb[count - 7] |= 12;
    printer_send(p, TRESTLEPIP_LOAD_FCB, fcb, count);
}

/* The FCB with the most bytes. */
static void load_densest_fcb(struct printer *p)
{
    uint8_t fcb[TRESTLEPIP_FCB_MOST];
    memset(fcb, spacings[SPACINGS - 1].fcb_byte, sizeof fcb);
    printer_send(p, TRESTLEPIP_LOAD_FCB, fcb, sizeof fcb);
}

/*
 * States that the library takes, each made from the one before as far as it goes; the last is on the longest form, with as many pages between channel
 * and stacker as there may be.
 */
enum good_states { FRESH, MIXED_FCB, LONG_SEQUENCE, STARTED, WAITING, RESET_DUE, DENSEST, GOOD_STATES };

static void make_good(struct printer *p, enum good_states which)
{
    static const uint8_t letter[] = {0xC1};
    printer_start(p, which == DENSEST ? 288 : 84);
    if (which == DENSEST)
        load_densest_fcb(p);
    else if (which >= MIXED_FCB)
        load_mixed_fcb(p);
    if (which >= LONG_SEQUENCE)
        load_long_sequence(p);
    if (which >= STARTED)
        printer_send(p, TRESTLEPIP_WRITE_NO_SPACE, letter, sizeof letter);
    if (which == WAITING)
        printer_send(p, TRESTLEPIP_CLEAR, NULL, 0);
    if (which == RESET_DUE)
        printer_send(p, TRESTLEPIP_INITIALIZE, NULL, 0);
    if (which >= STARTED)
        printer_set_counters(p, 0x0203, 0x0102, 0x00FF, 0xFFFE);
    if (which == DENSEST)
        printer_set_counters(p, 0xFFFE + TRESTLEPIP_MOST_PAGES, 0x0102, 0x00FF, 0xFFFE);
}

/* The two ways are good, and every other is refused by every call. */
static void damage_way(struct printer *p)
{
    static struct printer kept;
    kept = *p;
    for (unsigned way = 0; way < 256; way++) {
        bool good = way == TRESTLEPIP_NEW_WAY || way == TRESTLEPIP_OLD_WAY;
        p->state[TRESTLEPIP_AT_SKIP] = (uint8_t)way;
        check((trestlepip_printable_lines(p->state) > 0) == good, "other lines than the state has with way", way);
        check(printer_refusals(p) == (good ? 0 : PRINTER_CALLS), "another answer to way", way);
        *p = kept;
    }
}

static void damage(struct printer *p, enum good_states which)
{
    make_good(p, which);
    check(trestlepip_printable_lines(p->state) > 0, "no good state", which);
    damage_way(p);
    damage_bytes(p);
    for (unsigned i = 0; i < PAIRS; i++)
        damage_pair(p);
}

/* An FCB byte that is mostly none. */
static uint8_t odd_byte(void)
{
    unsigned upper = chance(16), channel = chance(2) ? chance(16) : 0;
    return (uint8_t)(upper << 4 | channel);
}

/* Exchanges two bytes of an FCB, or changes one, and may add one or leave one out. Returns its bytes. */
static size_t make_fault(uint8_t *fcb, size_t count)
{
    size_t one = chance((unsigned)count), other = chance((unsigned)count);
    uint8_t byte = fcb[one];
    fcb[one] = chance(2) ? fcb[other] : odd_byte();
    fcb[other] = byte;
    return chance(4) == 0 ? count + 1 : count - (chance(8) == 0);
}

/* Lays out some half inches at any spacing, and makes up to two faults. Returns its bytes. */
static size_t make_up_fcb(uint8_t *fcb, unsigned half_inches)
{
    unsigned spacing[HALF_INCHES_MOST + 1];
    for (unsigned i = 0; i < half_inches; i++)
        spacing[i] = chance(chance(4) == 0 ? SPACINGS : 1);
    size_t count = put_fcb(spacing, half_inches, fcb);
    for (unsigned left = chance(3); left > 0 && count > 0; left--)
        count = make_fault(fcb, count);
    return count;
}

/* Few pairs or many, with counts and marks that are good or nearly so. */
static void make_up_sequence(uint8_t *state)
{
    static const uint8_t counts[] = {1, 1, 2, 31, 32, 127, 128, 0}, marks[] = {0, 0, 0, 1, 1, 1, 1, 2};
    unsigned count = chance(TRESTLEPIP_SEQUENCE_MOST + 2);
    memset(state + TRESTLEPIP_AT_SEQUENCE, 0, TRESTLEPIP_SEQUENCE_MOST);
    for (unsigned i = 0; i < count && i < TRESTLEPIP_SEQUENCE_MOST; i++)
        state[TRESTLEPIP_AT_SEQUENCE + i] = i % 2 == 0 ? counts[chance(8)] : marks[chance(8)];
    state[TRESTLEPIP_AT_SEQUENCE_COUNT] = (uint8_t)count;
}

/* A state with a form, listed or not, that its FCB adds up to, and with a sequence of its own. */
static void compare_made_up(struct printer *p, unsigned number)
{
    uint8_t fcb[2 * TRESTLEPIP_FCB_MOST] = {0};
    unsigned half_inches = chance(HALF_INCHES_MOST + 2);
    size_t count = make_up_fcb(fcb, half_inches);
    p->state[TRESTLEPIP_AT_FORM] = (uint8_t)(half_inches * HALF_INCH / 256);
    p->state[TRESTLEPIP_LAST_OF_FORM] = (uint8_t)(half_inches * HALF_INCH % 256);
    p->state[TRESTLEPIP_AT_FCB_COUNT] = (uint8_t)count;
    memcpy(p->state + TRESTLEPIP_AT_FCB, fcb, TRESTLEPIP_FCB_MOST);
    if (chance(2))
        make_up_sequence(p->state);
    compare_state(p, number);
}

static void make_up_states(struct printer *p)
{
    uint8_t fresh[TRESTLEPIP_STATE_BYTES];
    printer_start(p, 84);
    memcpy(fresh, p->state, sizeof fresh);
    for (unsigned i = 0; i < MADE_UP; i++) {
        memcpy(p->state, fresh, sizeof fresh);
        compare_made_up(p, i);
    }
}

/* How far a counter is ahead of the stacker's: not at all, a little, as far as may be, farther; the last two are behind it. */
static const unsigned distances[] = {0, 1, 2, 255, 256, TRESTLEPIP_MOST_PAGES - 1, TRESTLEPIP_MOST_PAGES, TRESTLEPIP_MOST_PAGES + 1, 0xFFFE, 0xFFFF};

enum { DISTANCES = sizeof distances / sizeof *distances, TRIPLES = DISTANCES * DISTANCES * DISTANCES };

/* Channel, transfer and fuser at each three such distances. */
static void compare_counters(struct printer *p, unsigned stacker)
{
    for (unsigned i = 0; i < TRIPLES; i++) {
        unsigned channel = distances[i % DISTANCES], transfer = distances[i / DISTANCES % DISTANCES], fuser = distances[i / DISTANCES / DISTANCES];
        printer_set_counters(p, stacker + channel, stacker + transfer, stacker + fuser, stacker);
        compare_state(p, TRESTLEPIP_AT_CHANNEL_PAGE);
    }
}

/* From stackers at both ends, in the middle, and anywhere. */
static void make_up_counters(struct printer *p)
{
    static const unsigned stackers[] = {0, 1, 0x00FF, 0x7FFF, 0x8000, 0x8001, 0xFFFE, 0xFFFF};
    printer_start(p, 84);
    for (size_t i = 0; i < sizeof stackers / sizeof *stackers; i++) {
        compare_counters(p, stackers[i]);
        compare_counters(p, chance(65536));
    }
}

int main(void)
{
    static struct printer p;
    for (size_t i = 0; i < sizeof forms / sizeof *forms; i++)
        compare_form(&p, forms[i]);
    for (enum good_states which = FRESH; which < GOOD_STATES; which++)
        damage(&p, which);
    make_up_states(&p);
    make_up_counters(&p);
    printf("lines: %u FCBs on %u forms, %u states of which %u are good, %u faults\n", tried.fcbs, (unsigned)(sizeof forms / sizeof *forms),
            tried.states, tried.good, faults());
    return faults() == 0 ? 0 : 1;
}

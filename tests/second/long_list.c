/* The long list (T-02), made in each way of skipping (T-05): no byte of a store is set, and yet each counter goes on from FFFF to 0000, and releases
 * are refused with 13. What each step leads to stands here, so that it does not rest on the second program. */
#include "long_list.h"

#include "programs.h"
#include "report.h"
#include "run.h"

#include <stdio.h>
#include <string.h>

enum { NO_PAGE, BY_CLEAR = TRESTLEPIP_CLEAR, BY_INITIALIZE = TRESTLEPIP_INITIALIZE };

/* A call so many times over, each time after a page is completed if it says how; the number that it gets, and the counters after it. */
struct step {
    uint8_t completed;
    enum call_kind kind;
    unsigned times, number;
    unsigned counters[COUNTERS];
};

static const struct step steps[] = {
    /* The most pages are out, none transferred; the next one waits. */
    { BY_CLEAR, CALL_RELEASE, 32767, 0, { 0x7FFF, 0, 0, 0 } },
    { BY_CLEAR, CALL_RELEASE, 1, 13, { 0x7FFF, 0, 0, 0 } },
    { NO_PAGE, CALL_RELEASE, 1, 13, { 0x7FFF, 0, 0, 0 } },
    { NO_PAGE, CALL_FUSED, 1, 12, { 0x7FFF, 0, 0, 0 } },
    { NO_PAGE, CALL_STACKED, 1, 12, { 0x7FFF, 0, 0, 0 } },
    { NO_PAGE, CALL_TRANSFERRED, 32767, 0, { 0x7FFF, 0x7FFF, 0, 0 } },
    { NO_PAGE, CALL_TRANSFERRED, 1, 12, { 0x7FFF, 0x7FFF, 0, 0 } },
    { NO_PAGE, CALL_STACKED, 1, 12, { 0x7FFF, 0x7FFF, 0, 0 } },
    { NO_PAGE, CALL_FUSED, 32767, 0, { 0x7FFF, 0x7FFF, 0x7FFF, 0 } },
    { NO_PAGE, CALL_FUSED, 1, 12, { 0x7FFF, 0x7FFF, 0x7FFF, 0 } },
    { NO_PAGE, CALL_RELEASE, 1, 13, { 0x7FFF, 0x7FFF, 0x7FFF, 0 } },
    /* A sheet stacked makes room for one page. */
    { NO_PAGE, CALL_STACKED, 1, 0, { 0x7FFF, 0x7FFF, 0x7FFF, 1 } },
    { NO_PAGE, CALL_RELEASE, 1, 0, { 0x8000, 0x7FFF, 0x7FFF, 1 } },
    { BY_CLEAR, CALL_RELEASE, 1, 13, { 0x8000, 0x7FFF, 0x7FFF, 1 } },
    { NO_PAGE, CALL_STACKED, 32766, 0, { 0x8000, 0x7FFF, 0x7FFF, 0x7FFF } },
    { NO_PAGE, CALL_STACKED, 1, 12, { 0x8000, 0x7FFF, 0x7FFF, 0x7FFF } },
    { NO_PAGE, CALL_RELEASE, 1, 0, { 0x8001, 0x7FFF, 0x7FFF, 0x7FFF } },
    { NO_PAGE, CALL_TRANSFERRED, 2, 0, { 0x8001, 0x8001, 0x7FFF, 0x7FFF } },
    { NO_PAGE, CALL_FUSED, 2, 0, { 0x8001, 0x8001, 0x8001, 0x7FFF } },
    { NO_PAGE, CALL_STACKED, 2, 0, { 0x8001, 0x8001, 0x8001, 0x8001 } },
    /* The channel's counter wraps alone; a cancel takes it back, and the page whose reset is due still waits. */
    { BY_CLEAR, CALL_RELEASE, 32766, 0, { 0xFFFF, 0x8001, 0x8001, 0x8001 } },
    { BY_CLEAR, CALL_RELEASE, 1, 0, { 0x0000, 0x8001, 0x8001, 0x8001 } },
    { BY_INITIALIZE, CALL_RELEASE, 1, 13, { 0x0000, 0x8001, 0x8001, 0x8001 } },
    { NO_PAGE, CALL_CANCEL, 1, 0, { 0x8001, 0x8001, 0x8001, 0x8001 } },
    { NO_PAGE, CALL_RELEASE, 1, 0, { 0x8002, 0x8001, 0x8001, 0x8001 } },
    /* The others wrap one after the other. */
    { BY_CLEAR, CALL_RELEASE, 32766, 0, { 0x0000, 0x8001, 0x8001, 0x8001 } },
    { NO_PAGE, CALL_TRANSFERRED, 32767, 0, { 0x0000, 0x0000, 0x8001, 0x8001 } },
    { NO_PAGE, CALL_TRANSFERRED, 1, 12, { 0x0000, 0x0000, 0x8001, 0x8001 } },
    { NO_PAGE, CALL_FUSED, 32767, 0, { 0x0000, 0x0000, 0x0000, 0x8001 } },
    { NO_PAGE, CALL_FUSED, 1, 12, { 0x0000, 0x0000, 0x0000, 0x8001 } },
    { NO_PAGE, CALL_STACKED, 32767, 0, { 0x0000, 0x0000, 0x0000, 0x0000 } },
    { NO_PAGE, CALL_STACKED, 1, 12, { 0x0000, 0x0000, 0x0000, 0x0000 } },
    /* Cancel and restart, with pages everywhere and with none. */
    { NO_PAGE, CALL_RESTART, 1, 0, { 0, 0, 0, 0 } },
    { BY_CLEAR, CALL_RELEASE, 5, 0, { 5, 0, 0, 0 } },
    { NO_PAGE, CALL_TRANSFERRED, 4, 0, { 5, 4, 0, 0 } },
    { NO_PAGE, CALL_FUSED, 3, 0, { 5, 4, 3, 0 } },
    { NO_PAGE, CALL_STACKED, 2, 0, { 5, 4, 3, 2 } },
    { NO_PAGE, CALL_CANCEL, 1, 0, { 4, 4, 3, 2 } },
    { NO_PAGE, CALL_CANCEL, 1, 0, { 4, 4, 3, 2 } },
    { BY_CLEAR, CALL_RELEASE, 1, 0, { 5, 4, 3, 2 } },
    { NO_PAGE, CALL_RESTART, 1, 0, { 2, 2, 2, 2 } },
};

enum { STEPS = sizeof steps / sizeof steps[0] };

/* The printable lines of the shortest form. */
enum { LINES = 12 };

/* One call on both programs. */
static bool make_call(struct run *r, enum call_kind kind, uint8_t command)
{
    r->call.kind = kind;
    r->call.command = command;
    r->call_in_list++;
    return run_call(r);
}

/* A Start in a way of skipping, with the one byte that each write writes. */
static bool start(struct run *r, uint32_t way)
{
    r->call.form = forms[0];
    r->call.pitch[0] = 10;
    r->call.skip = way;
    r->call.record[0] = 0xC1;
    r->call.record_len = 1;
    r->call.at_begin = true;
    memcpy(r->call.store_len, store_size, sizeof store_size);
    return make_call(r, CALL_START, 0);
}

/* Whether a field of the library's answer is what it must be; another is printed. */
static bool field_holds(const struct run *r, const char *name, unsigned field, unsigned expected)
{
    if (field == expected)
        return true;
    print_place(r);
    printf("%s %u, must be %u\n", name, field, expected);
    return false;
}

/* A job opens with a skip to channel 1, which line 1 has: in the old way that completes an empty page. */
static bool open_page(struct run *r, bool empty)
{
    return make_call(r, CALL_COMMAND, TRESTLEPIP_SKIP(1)) && field_holds(r, "page ready", trestlepip_ready(r->library_answer), empty)
        && field_holds(r, "lines moved", trestlepip_lines(r->library_answer), empty ? LINES : 0);
}

/* Clear and Initialize need a page that is started. */
static bool complete_started(struct run *r, uint8_t command)
{
    return make_call(r, CALL_COMMAND, TRESTLEPIP_WRITE_NO_SPACE) && make_call(r, CALL_COMMAND, command);
}

/* In the old way the empty page serves where Clear would complete one; before Initialize none is opened. */
static bool complete_page(struct run *r, uint8_t command)
{
    if (r->call.skip == TRESTLEPIP_OLD_WAY)
        return command == BY_CLEAR ? open_page(r, true) : complete_started(r, command);
    return open_page(r, false) && complete_started(r, command);
}

/* A step's call once. */
static bool take_step_once(struct run *r, const struct step *s)
{
    if (s->completed != NO_PAGE && !complete_page(r, s->completed))
        return false;
    return make_call(r, s->kind, 0) && field_holds(r, "number", trestlepip_number(r->library_answer), s->number);
}

/* Whether the library's counters are those that the step leads to. */
static bool counters_hold(const struct run *r, const struct step *s)
{
    unsigned i = 0;
    while (i < COUNTERS && counter_of(store(r->library, STATE), i) == s->counters[i])
        i++;
    if (i == COUNTERS)
        return true;
    print_place(r);
    printf("page counter %u is %04X after it, must be %04X\n", i + 1, counter_of(store(r->library, STATE), i), s->counters[i]);
    return false;
}

static bool step_holds(struct run *r, const struct step *s)
{
    for (unsigned i = 0; i < s->times; i++)
        if (!take_step_once(r, s))
            return false;
    return counters_hold(r, s);
}

/* The list in one way of skipping. */
static bool holds_in(struct run *r, uint32_t way)
{
    unsigned step = 0;
    r->list++;
    begin_list(r);
    bool holds = start(r, way);
    while (holds && step < STEPS)
        holds = step_holds(r, &steps[step++]);
    printf("the long list in the %s way of skipping, %llu calls, %u of %u steps: %s\n", way == TRESTLEPIP_NEW_WAY ? "new" : "old", r->call_in_list,
            step, (unsigned)STEPS, holds ? "0 differences" : "a difference");
    return holds;
}

bool long_list_holds(void)
{
    static struct run r = { .options = { .lists = 2 } };
    make_buffers(&r);
    catch_faults();
    return holds_in(&r, TRESTLEPIP_NEW_WAY) && holds_in(&r, TRESTLEPIP_OLD_WAY);
}

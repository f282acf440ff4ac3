/* A call made on the library, whose faults are caught, or on the second program. */
#define _DEFAULT_SOURCE 1

#include "programs.h"

#include "second.h"

#include <setjmp.h>
#include <signal.h>
#include <string.h>

static const struct exports library = EXPORTS(trestlepip), second = EXPORTS(second);

/* The record and the old bytes of reply, output and feet, which differ from call to call so that a write left out is seen. The old feet are a
 * negative double, which no call leaves. */
void lay_out(const struct set *s, const struct call *c, unsigned old)
{
    memcpy(last_bytes(s, RECORD, c->record_len), c->record, c->record_len);
    memset(last_bytes(s, REPLY, REPLY_ROOM), (int)(old & 0xFF), REPLY_ROOM);
    if (c->kind == CALL_COMPOSE)
        memset(last_bytes(s, OUT, OUT_ROOM), (int)(old & 0xFF), OUT_ROOM);
    memset(last_bytes(s, FEET, FEET_BYTES), (int)(0x80 | (old & 0xFF)), FEET_BYTES);
}

/* What a call is handed: null for some empty buffers; a store of wrong size from the begin of the right one, or up to its end. */
static uint8_t *handed(const struct set *s, unsigned part, size_t length, const struct call *c)
{
    if (length == 0 && c->null_if_empty)
        return NULL;
    return last_bytes(s, part, part < STORES && c->at_begin ? store_size[part] : length);
}

#define HANDED(part, length) handed(s, part, length, c), length
#define HANDED_STORES HANDED(STATE, c->store_len[STATE]), HANDED(PAGE, c->store_len[PAGE]), \
    HANDED(LEGENDS, c->store_len[LEGENDS]), HANDED(TABLES, c->store_len[TABLES])

/* The double that Feet is handed: what ends at the end of its buffer is aligned for one. */
static double *handed_feet(const struct set *s)
{
    return (double *)(void *)last_bytes(s, FEET, FEET_BYTES);
}

static uint64_t make_call(const struct exports *p, const struct set *s, const struct call *c)
{
    switch (c->kind) {
    case CALL_START: return p->start(c->form, c->pitch[0], c->pitch[1], c->pitch[2], c->pitch[3], c->skip, HANDED_STORES);
    case CALL_FEET: return p->feet(c->initial, c->final, c->copies, c->form, handed_feet(s));
    case CALL_COMMAND: return p->command(c->command, HANDED(RECORD, c->record_len), HANDED(REPLY, c->buffer_len), HANDED_STORES);
    case CALL_COMPOSE: return p->compose(c->copy, HANDED(OUT, c->buffer_len), HANDED_STORES);
    case CALL_RELEASE: return p->release(HANDED_STORES);
    case CALL_TRANSFERRED: return p->transferred(HANDED_STORES);
    case CALL_FUSED: return p->fused(HANDED_STORES);
    case CALL_STACKED: return p->stacked(HANDED_STORES);
    case CALL_CANCEL: return p->cancel(HANDED_STORES);
    default: return p->restart(HANDED_STORES);
    }
}

static sigjmp_buf fault_return;
static volatile sig_atomic_t in_library;

/* A fault in the library comes back to the driver; any other ends the program as it would have. */
static void on_fault(int number)
{
    if (in_library)
        siglongjmp(fault_return, number);
    signal(number, SIG_DFL);
    raise(number);
}

void catch_faults(void)
{
    struct sigaction action;
    memset(&action, 0, sizeof action);
    action.sa_handler = on_fault;
    sigaction(SIGSEGV, &action, NULL);
    sigaction(SIGBUS, &action, NULL);
}

/* The library's answer; false if it touched memory that it was not lent. */
bool call_library(const struct set *s, const struct call *c, uint64_t *answer)
{
    if (sigsetjmp(fault_return, 0) != 0)
        return false;
    in_library = 1;
    *answer = make_call(&library, s, c);
    in_library = 0;
    return true;
}

uint64_t call_second(const struct set *s, const struct call *c)
{
    return make_call(&second, s, c);
}

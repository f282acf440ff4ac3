/* The report of a difference, in print. */
#include "report.h"

#include "../../include/trestlepip.h"

#include <stdio.h>

static void print_bytes(const char *name, const uint8_t *bytes, size_t count)
{
    size_t shown = count < 512 ? count : 512;
    printf("%s, %zu bytes:", name, count);
    for (size_t i = 0; i < shown; i++)
        printf("%s%02X", i % 32 == 0 ? "\n    " : " ", bytes[i]);
    printf("%s\n", shown < count ? " ..." : "");
}

static void print_lengths(const struct call *c)
{
    printf("lengths: state %zu, page %zu, legends %zu, tables %zu, reply or output %zu; empty buffers are %s\n", c->store_len[STATE],
            c->store_len[PAGE], c->store_len[LEGENDS], c->store_len[TABLES], c->buffer_len, c->null_if_empty ? "null" : "not null");
}

/* A call by its name, with its numbers if it has any. */
static void print_name(const struct call *c)
{
    printf("%s", call_name[c->kind]);
    if (c->kind == CALL_START)
        printf(": form %u, pitches %u %u %u %u, way of skipping %u", c->form, c->pitch[0], c->pitch[1], c->pitch[2], c->pitch[3], c->skip);
    else if (c->kind == CALL_FEET)
        printf(": initial %04X, final %04X, copies %u, form %u", c->initial, c->final, c->copies, c->form);
    else if (c->kind == CALL_COMMAND)
        printf(": %02X", c->command);
    else if (c->kind == CALL_COMPOSE)
        printf(": copy %u", c->copy);
    printf("\n");
}

void print_call(const struct call *c, const uint8_t *state)
{
    print_name(c);
    if (c->kind != CALL_FEET)
        print_lengths(c);
    if (c->kind == CALL_COMMAND)
        print_bytes("record", c->record, c->record_len);
    print_bytes("state before", state, store_size[STATE]);
}

static void print_field(const char *name, unsigned in_a, unsigned in_b)
{
    printf("    %-17s %10X %10X%s\n", name, in_a, in_b, in_a == in_b ? "" : "  differ");
}

void print_answers(const char *a_name, uint64_t a, const char *b_name, uint64_t b)
{
    printf("answers (hex)         %10s %10s\n", a_name, b_name);
    print_field("number", trestlepip_number(a), trestlepip_number(b));
    print_field("status", trestlepip_status(a), trestlepip_status(b));
    print_field("page ready", trestlepip_ready(a), trestlepip_ready(b));
    print_field("mark", trestlepip_mark(a), trestlepip_mark(b));
    print_field("cause", trestlepip_cause(a), trestlepip_cause(b));
    print_field("lines moved", trestlepip_lines(a), trestlepip_lines(b));
    print_field("copy number", trestlepip_copy_number(a), trestlepip_copy_number(b));
    print_field("first unprintable", trestlepip_first_unprintable(a), trestlepip_first_unprintable(b));
    print_field("unprintables", trestlepip_unprintables(a), trestlepip_unprintables(b));
}

void print_place(const struct run *r)
{
    printf("difference: seed %llu, list %llu of %llu, call %llu of the list (%llu calls asked for, %s)\n", r->options.seed, r->list,
            r->options.lists, r->call_in_list, r->options.calls, r->library == &r->guarded ? "guard pages" : "canaries");
    print_call(&r->call, r->before[STATE]);
}

void print_difference(const struct difference *d)
{
    printf("%s %s: byte %zu is %02X from the library, must be %02X\n", d->what, d->part, d->at, d->library, d->expected);
}

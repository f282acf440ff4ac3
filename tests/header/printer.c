/* What the tests of the header share. */
#include "printer.h"

#include <stdio.h>

static unsigned fault_count;

void check(bool good, const char *what, unsigned number)
{
    if (good)
        return;
    fprintf(stderr, "tests/header: %s, %u\n", what, number);
    fault_count++;
}

unsigned faults(void)
{
    return fault_count;
}

bool accepted(uint64_t answer)
{
    return trestlepip_number(answer) == TRESTLEPIP_ACCEPTED;
}

void printer_start(struct printer *p, uint32_t form)
{
    check(accepted(trestlepip_start(form, 10, 10, 12, 15, TRESTLEPIP_NEW_WAY, STORES(p))), "not started on a form of length", form);
}

uint64_t printer_send(struct printer *p, uint8_t command, const uint8_t *record, size_t length)
{
    return trestlepip_command(command, record, length, NULL, 0, STORES(p));
}

void printer_load_codes(struct printer *p)
{
    uint8_t table[256];
    for (unsigned i = 0; i < sizeof table; i++)
        table[i] = (uint8_t)i;
    check(accepted(printer_send(p, TRESTLEPIP_LOAD_TABLE, table, sizeof table)), "the table of codes", sizeof table);
}

void printer_complete(struct printer *p)
{
    printer_send(p, TRESTLEPIP_SPACE_1, NULL, 0);
    printer_send(p, TRESTLEPIP_CLEAR, NULL, 0);
}

void printer_release(struct printer *p)
{
    bool counted = accepted(trestlepip_release(STORES(p))) && accepted(trestlepip_transferred(STORES(p))) && accepted(trestlepip_fused(STORES(p)))
        && accepted(trestlepip_stacked(STORES(p)));
    check(counted, "not released and stacked: the page after", trestlepip_stacker_page(p->state));
}

unsigned printer_refusals(struct printer *p)
{
    static uint8_t out[TRESTLEPIP_PAGE_BYTES];
    const uint64_t answers[PRINTER_CALLS] = {
        printer_send(p, TRESTLEPIP_NO_OP, NULL, 0), trestlepip_compose(1, out, sizeof out, STORES(p)), trestlepip_release(STORES(p)),
        trestlepip_transferred(STORES(p)), trestlepip_fused(STORES(p)), trestlepip_stacked(STORES(p)), trestlepip_cancel(STORES(p)),
        trestlepip_restart(STORES(p))};
    unsigned refused = 0;
    for (unsigned i = 0; i < PRINTER_CALLS; i++)
        refused += trestlepip_number(answers[i]) == TRESTLEPIP_BAD_STORE;
    return refused;
}

static void set_counter(uint8_t *bytes, unsigned counter)
{
    bytes[0] = (uint8_t)(counter / 256);
    bytes[1] = (uint8_t)(counter % 256);
}

void printer_set_counters(struct printer *p, unsigned channel, unsigned transfer, unsigned fuser, unsigned stacker)
{
    set_counter(p->state + TRESTLEPIP_AT_CHANNEL_PAGE, channel);
    set_counter(p->state + TRESTLEPIP_AT_TRANSFER_PAGE, transfer);
    set_counter(p->state + TRESTLEPIP_AT_FUSER_PAGE, fuser);
    set_counter(p->state + TRESTLEPIP_AT_STACKER_PAGE, stacker);
}

void printer_sense(struct printer *p, uint8_t *sense)
{
    uint64_t answer = trestlepip_command(TRESTLEPIP_SENSE, NULL, 0, sense, TRESTLEPIP_SENSE_BYTES, STORES(p));
    check(trestlepip_number(answer) == TRESTLEPIP_ACCEPTED, "no sense: number", trestlepip_number(answer));
}

/* splitmix64. */
unsigned chance(unsigned bound)
{
    static uint64_t seed;
    uint64_t z = seed += UINT64_C(0x9E3779B97F4A7C15);
    z = (z ^ (z >> 30)) * UINT64_C(0xBF58476D1CE4E5B9);
    z = (z ^ (z >> 27)) * UINT64_C(0x94D049BB133111EB);
    return (unsigned)(((z >> 32) * bound) >> 32);
}

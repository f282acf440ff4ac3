/* A pair of printers: their calls, and the report of a difference between them. */
#include "pair.h"

#include "compare.h"
#include "programs.h"
#include "report.h"

#include <stdio.h>
#include <stdlib.h>
#include <string.h>

/* ---- differences ---- */

static void print_deed(const struct pair *p)
{
    printf("difference: seed %llu, pair %llu of %llu, deed %llu of the pair%s%s\n", p->seed, p->number, p->of, p->deed_number,
            p->deed_number == 0 ? " (the reset)" : "", p->left_out ? ", and calls left out after it" : "");
    if (p->deed_number != 0)
        print_call(&p->deed, p->state_before);
}

static void print_byte(const char *what, size_t at, unsigned first, unsigned second)
{
    printf("bytes of %s: byte %zu is %02X on the first printer, %02X on the second\n", what, at, first, second);
}

bool answers_agree(const struct pair *p)
{
    if (p->side[0].answer == p->side[1].answer)
        return true;
    print_deed(p);
    print_answers("first", p->side[0].answer, "second", p->side[1].answer);
    return false;
}

/* Whether a part of a store is alike on both printers. */
static bool part_is_alike(const struct pair *p, enum store which, size_t from, size_t to)
{
    return memcmp(store(&p->side[0].set, which) + from, store(&p->side[1].set, which) + from, to - from) == 0;
}

bool store_is_alike(const struct pair *p, enum store which)
{
    if (which != STATE)
        return part_is_alike(p, which, 0, store_size[which]);
    return part_is_alike(p, STATE, 0, TRESTLEPIP_AT_SENSE_0) && part_is_alike(p, STATE, TRESTLEPIP_AT_SEQUENCE, store_size[STATE]);
}

/* The first byte of a store that differs; the sense is passed over. */
static void print_store(const struct pair *p, enum store which)
{
    const uint8_t *a = store(&p->side[0].set, which), *b = store(&p->side[1].set, which);
    size_t from = which == STATE && part_is_alike(p, STATE, 0, TRESTLEPIP_AT_SENSE_0) ? TRESTLEPIP_AT_SEQUENCE : 0;
    size_t at = from + first_difference(a + from, b + from);
    print_byte(part_name[which], at, a[at], b[at]);
}

bool stores_agree(const struct pair *p)
{
    enum store i = STATE;
    while (i <= TABLES && store_is_alike(p, i))
        i++;
    if (i > TABLES)
        return true;
    print_deed(p);
    print_store(p, i);
    return false;
}

bool outputs_agree(const struct pair *p, uint32_t copy)
{
    const uint8_t *a = last_bytes(&p->side[0].set, OUT, OUT_ROOM), *b = last_bytes(&p->side[1].set, OUT, OUT_ROOM);
    if (memcmp(a, b, OUT_ROOM) == 0)
        return true;
    size_t at = first_difference(a, b);
    print_deed(p);
    printf("copy %u of the page, ", copy);
    print_byte("the output", at, a[at], b[at]);
    return false;
}

/* ---- calls ---- */

void pair_make(struct pair *p)
{
    for (unsigned i = 0; i < SIDES; i++)
        p->side[i].set = set_make(false);
    p->scratch = set_make(false);
}

uint64_t pair_call(const struct pair *p, const struct set *s, const struct call *c)
{
    uint64_t answer = 0;
    lay_out(s, c, (unsigned)p->deed_number);
    if (call_library(s, c, &answer))
        return answer;
    print_deed(p);
    printf("the library touched memory that it was not lent\n");
    exit(1);
}

uint64_t answer_on_copy(const struct pair *p, const struct set *s, const struct call *c)
{
    for (enum store i = STATE; i <= TABLES; i++)
        memcpy(store(&p->scratch, i), store(s, i), store_size[i]);
    return pair_call(p, &p->scratch, c);
}

/* A call of the driver's own, with the right sizes. */
static uint64_t own_call(const struct pair *p, struct side *s, const struct call *own)
{
    s->call = *own;
    s->call.at_begin = true;
    memcpy(s->call.store_len, store_size, sizeof store_size);
    return pair_call(p, &s->set, &s->call);
}

uint64_t pair_command(const struct pair *p, struct side *s, uint8_t command)
{
    return own_call(p, s, &(struct call){ .kind = CALL_COMMAND, .command = command, .record = { 0xC1 }, .record_len = 1 });
}

uint64_t pair_release(const struct pair *p, struct side *s)
{
    return own_call(p, s, &(struct call){ .kind = CALL_RELEASE });
}

uint64_t pair_tally(const struct pair *p, struct side *s, enum call_kind kind)
{
    return own_call(p, s, &(struct call){ .kind = kind });
}

uint64_t pair_compose(const struct pair *p, struct side *s, uint32_t copy)
{
    return own_call(p, s, &(struct call){ .kind = CALL_COMPOSE, .copy = copy, .buffer_len = OUT_ROOM });
}

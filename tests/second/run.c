/* Running: a list is laid out, each call made on both programs, compared, and counted. */
#define _DEFAULT_SOURCE 1

#include "run.h"

#include "../../include/trestlepip.h"
#include "compare.h"
#include "feet_law.h"
#include "making.h"
#include "programs.h"
#include "report.h"
#include "skip_law.h"

#include <stdio.h>
#include <string.h>
#include <time.h>
#include <unistd.h>

/* The first list of each four is calm, and four times as long as another, so that it comes to a hundred pages and more. */
enum { LISTS_OF_FOUR = 4, SHARES_CALM = 4, CALLS_ON_AVERAGE = 1750 };

/* In a list whose counters are set now and then, so many times in a thousand calls. */
enum { PERMILLE_COUNTERS = 8 };

unsigned long long usual_lists(unsigned long long calls)
{
    return calls < CALLS_ON_AVERAGE ? 1 : calls / CALLS_ON_AVERAGE;
}

/* Which four a list is of, from 0. */
static unsigned long long four_of(unsigned long long list)
{
    return (list - 1) / LISTS_OF_FOUR;
}

static bool is_calm(unsigned long long list)
{
    return list % LISTS_OF_FOUR == 1;
}

/* The shares of the first lists together. */
static unsigned long long shares_of_first(unsigned long long lists)
{
    unsigned long long calm = (lists + LISTS_OF_FOUR - 1) / LISTS_OF_FOUR;
    return lists + calm * (SHARES_CALM - 1);
}

void make_buffers(struct run *r)
{
    r->plain = set_make(false);
    r->guarded = set_make(true);
    r->second = set_make(false);
    for (enum store i = STATE; i <= TABLES; i++)
        r->before[i] = plain_end(store_size[i]) - store_size[i];
}

/* Before a guard page there is no byte more: a store that is too long then ends where the right one does. */
static void settle_begin(struct call *c, bool guarded)
{
    for (enum store i = STATE; i <= TABLES; i++)
        c->at_begin = c->at_begin && !(guarded && c->store_len[i] > store_size[i]);
}

/* Sets the bytes that the generator asks for, in all stores alike. */
static void apply_changes(struct run *r)
{
    for (size_t i = 0; i < r->call.change_count; i++) {
        const struct change *x = &r->call.changes[i];
        memcpy(store(r->library, x->store) + x->offset, x->bytes, x->count);
        memcpy(store(&r->second, x->store) + x->offset, x->bytes, x->count);
        memcpy(r->before[x->store] + x->offset, x->bytes, x->count);
    }
}

/* Sets the counters that the generator asks for, alike. */
static void apply_counters(struct run *r)
{
    if (!r->call.sets_counters)
        return;
    memcpy(store(r->library, STATE) + TRESTLEPIP_AT_CHANNEL_PAGE, r->call.counters, COUNTER_BYTES);
    memcpy(store(&r->second, STATE) + TRESTLEPIP_AT_CHANNEL_PAGE, r->call.counters, COUNTER_BYTES);
    memcpy(r->before[STATE] + TRESTLEPIP_AT_CHANNEL_PAGE, r->call.counters, COUNTER_BYTES);
}

/* A part of a store as it is now becomes that before the next call. */
static void remember_part(struct run *r, enum store which, size_t from, size_t count)
{
    memcpy(r->before[which] + from, store(&r->second, which) + from, count);
}

/* The page is the largest store. Only Start, Release and writes change it, and a write only its line, as page_fault has seen. */
static void remember_page(struct run *r)
{
    if (writes(&r->call))
        remember_part(r, PAGE, (r->before[STATE][TRESTLEPIP_AT_LINE] - (size_t)1) * TRESTLEPIP_LINE_BYTES, TRESTLEPIP_LINE_BYTES);
    else if (r->call.kind != CALL_COMMAND)
        remember_part(r, PAGE, 0, store_size[PAGE]);
}

/* The stores as they are now become those before the next call. */
static void remember(struct run *r)
{
    bool stores_kept = trestlepip_number(r->second_answer) != 0 || r->call.kind == CALL_COMPOSE || r->call.kind == CALL_FEET || is_tally(&r->call);
    if (!stores_kept) {
        remember_page(r);
        remember_part(r, LEGENDS, 0, store_size[LEGENDS]);
        remember_part(r, TABLES, 0, store_size[TABLES]);
    }
    remember_part(r, STATE, 0, store_size[STATE]);
}

static void count_call(struct run *r)
{
    const struct set *s = &r->second;
    const uint8_t *const after[STORES] = { store(s, STATE), store(s, PAGE), store(s, LEGENDS), store(s, TABLES) };
    counts_add(&r->counts, &r->call, r->second_answer, r->before, after, last_bytes(s, OUT, r->call.buffer_len));
    if (r->call.kind == CALL_FEET)
        feet_counts_add(&r->counts.feet, &r->call, trestlepip_number(r->second_answer), last_bytes(s, FEET, FEET_BYTES));
    r->calls_made++;
}

/* A line a second, if someone looks. */
static void show_progress(const struct run *r)
{
    static time_t shown;
    if (r->calls_made % 1024 != 0 || !isatty(STDERR_FILENO) || time(NULL) == shown)
        return;
    shown = time(NULL);
    fprintf(stderr, "%llu of %llu calls\r", r->calls_made, r->options.calls);
}

/* Parts of what the library did, and what is wrong in each whatever the second program did; null where nothing is. */
enum { OWN_FAULTS = 5 };

struct own_faults {
    struct {
        const char *of, *what;
    } part[OWN_FAULTS];
};

static struct own_faults find_own_faults(const struct run *r)
{
    const uint8_t *state = store(r->library, STATE), *feet = last_bytes(r->library, FEET, FEET_BYTES);
    return (struct own_faults){ {
            { "answer by itself", telling_fault(r) },
            { "page or copy by itself", page_fault(r) },
            { "counters by themselves", counting_fault(&r->law, &r->call, r->library_answer, r->before[STATE], state) },
            { "feet by themselves", feet_fault(&r->call, r->library_answer, feet) },
            { "skip by itself", skip_fault(r) },
    } };
}

static bool has_own_fault(const struct own_faults *own)
{
    for (unsigned i = 0; i < OWN_FAULTS; i++)
        if (own->part[i].what != NULL)
            return true;
    return false;
}

static void print_own_faults(const struct own_faults *own)
{
    for (unsigned i = 0; i < OWN_FAULTS; i++)
        if (own->part[i].what != NULL)
            printf("the library's %s: %s\n", own->part[i].of, own->part[i].what);
}

/* Compares all that the call left; prints the first difference. */
static bool agree(const struct run *r)
{
    struct difference d;
    bool same_answer = r->library_answer == r->second_answer;
    bool buffers = buffers_differ(r, &d) || refusal_changes(r, &d) || feet_change_store(r, &d);
    struct own_faults own = find_own_faults(r);
    if (same_answer && !buffers && !has_own_fault(&own))
        return true;
    print_place(r);
    print_answers("library", r->library_answer, "second", r->second_answer);
    if (buffers)
        print_difference(&d);
    print_own_faults(&own);
    return false;
}

bool run_call(struct run *r)
{
    settle_begin(&r->call, r->library == &r->guarded);
    apply_changes(r);
    apply_counters(r);
    lay_out(r->library, &r->call, (unsigned)r->calls_made);
    lay_out(&r->second, &r->call, (unsigned)r->calls_made);
    r->second_answer = call_second(&r->second, &r->call);
    if (!call_library(r->library, &r->call, &r->library_answer)) {
        print_place(r);
        printf("the library touched memory that it was not lent\n");
        return false;
    }
    law_count(&r->law, &r->call, r->library_answer, r->before[STATE]);
    if (!agree(r))
        return false;
    count_call(r);
    remember(r);
    show_progress(r);
    return true;
}

/* The stores before a list's first Start: zeros or any bytes, alike for both. */
static void lay_stores(struct run *r)
{
    bool any = percent(&r->generator, 50);
    for (enum store i = STATE; i <= TABLES; i++) {
        memset(r->before[i], 0, store_size[i]);
        if (any)
            generator_fill(&r->generator, r->before[i], store_size[i]);
        memcpy(store(r->library, i), r->before[i], store_size[i]);
        memcpy(store(&r->second, i), r->before[i], store_size[i]);
    }
}

/* Old bytes of the other buffers, alike in both sets when a list begins. */
static void lay_buffers(const struct set *s)
{
    for (unsigned i = RECORD; i < PARTS; i++)
        memset(s->part[i].end - s->part[i].room, 0, s->part[i].room);
}

/* Whether guard pages serve a list: two lists of each four, and every other calm one. */
static bool is_guarded(const struct run *r)
{
    return r->options.guard_all || (four_of(r->list) + r->list) % 2 == 0;
}

/* Whether the driver sets counters in a list: in two lists of each four, and in two calm ones of each four. */
static bool sets_counters(unsigned long long list)
{
    return (four_of(list) / 2 + list / 2) % 2 == 0;
}

void begin_list(struct run *r)
{
    r->library = is_guarded(r) ? &r->guarded : &r->plain;
    const struct set *s = &r->second;
    const uint8_t *const looked_at[STORES] = { store(s, STATE), store(s, PAGE), store(s, LEGENDS), store(s, TABLES) };
    generator_begin(&r->generator, r->options.seed, r->list, is_calm(r->list), looked_at);
    r->generator.permille_counters = sets_counters(r->list) ? PERMILLE_COUNTERS : 0;
    lay_stores(r);
    lay_buffers(r->library);
    lay_buffers(&r->second);
    r->call_in_list = 0;
}

/* One list. */
static bool run_list(struct run *r, unsigned long long calls)
{
    begin_list(r);
    while (r->call_in_list < calls) {
        r->call_in_list++;
        generator_next(&r->generator, trestlepip_number(r->second_answer), &r->call);
        if (!run_call(r))
            return false;
    }
    counts_end_list(&r->counts);
    return true;
}

/* How many of the calls the first lists have: one each, and their shares of the rest; no product is beyond the number's range. */
static unsigned long long calls_of_first(const struct options *o, unsigned long long lists)
{
    unsigned long long rest = o->calls - o->lists, first = shares_of_first(lists), all = shares_of_first(o->lists);
    return lists + rest / all * first + rest % all * first / all;
}

/* All lists; they have all calls together. */
bool run_lists(struct run *r)
{
    const struct options *o = &r->options;
    for (r->list = 1; r->list <= o->lists; r->list++)
        if (!run_list(r, calls_of_first(o, r->list) - calls_of_first(o, r->list - 1)))
            return false;
    return true;
}

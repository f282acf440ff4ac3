/* Demand 3, run on the library: two printers started alike have pasts of their own up to a finished reset, after which their page counters agree.
 * Then the same deeds are done on both, accepted commands, releases, and station, cancel and restart calls; and on each some other calls, which demand 3
 * leaves out. */
#include "demand3.h"

#include "counts.h"
#include "making.h"
#include "pair.h"
#include "programs.h"

#include <stdio.h>
#include <string.h>

enum { PAST_MOST = 400, DEEDS_MOST = 400, LEFT_OUT_MOST = 8, TRIES_MOST = 100000, PERMILLE_WRONG_SIZE = 20, GAP_MOST = 3 };

/* How the counters of a pair come to agree at the reset: by calls; set in the state's bytes, before the pasts too; or because nothing was counted. */
enum means { BY_CALLS, BY_BYTES, UNCOUNTED, MEANS };

/* What the pairs met; calls left out are counted from the reset on. */
struct met {
    unsigned long start_alone, at_once, deferred, each_way, switch_on, switch_off;
    unsigned long unlike[STORES], counters_unlike[MEANS], counters_zero[MEANS];
    unsigned long past_calls, deeds[CALL_KINDS], resets;
    unsigned long started[SKIP_WAYS], stood_in_past, stood, pairs_stood, moved_old;
    unsigned long refused[NUMBERS], no_op, sense, compose, feet;
    unsigned long pages, pages_with_legends, pages_with_marks, copies;
};

/* A run: the pair, the means by which its counters agree and the goal that they are brought to, one page before they agree; the generator of its
 * deeds, and what all pairs met. */
struct demand_3 {
    struct pair pair;
    enum means means;
    unsigned goal[COUNTERS];
    uint8_t goal_bytes[COUNTER_BYTES];
    struct generator deeds;
    struct met met;
};

/* ---- pasts and resets ---- */

/* A printer's own stream of calls, and stores of any bytes; the stream's first call is a Start, which is not made. */
static void begin_side(struct pair *p, struct side *s, uint64_t stream)
{
    const uint8_t *const stores[STORES] = { store(&s->set, STATE), store(&s->set, PAGE), store(&s->set, LEGENDS), store(&s->set, TABLES) };
    generator_begin(&s->generator, p->seed, stream, true, stores);
    s->generator.permille_wrong_size = PERMILLE_WRONG_SIZE;
    for (enum store i = STATE; i <= TABLES; i++)
        generator_fill(&s->generator, store(&s->set, i), store_size[i]);
    generator_next(&s->generator, 0, &s->call);
}

/* Both printers are started alike, by the first call of the stream of deeds. */
static void start_pair(struct demand_3 *d)
{
    struct pair *p = &d->pair;
    uint64_t stream = p->number * (SIDES + 1);
    p->deed_number = 0;
    p->left_out = false;
    for (unsigned i = 0; i < SIDES; i++)
        begin_side(p, &p->side[i], stream + i);
    generator_begin(&d->deeds, p->seed, stream + SIDES, true, p->side[0].generator.stores);
    generator_next(&d->deeds, 0, &p->deed);
    for (unsigned i = 0; i < SIDES; i++)
        p->side[i].answer = pair_call(p, &p->side[i].set, &p->deed);
    d->met.started[p->deed.skip == TRESTLEPIP_OLD_WAY]++;
}

static void set_counters(struct side *s, const uint8_t bytes[COUNTER_BYTES])
{
    memcpy(store(&s->set, STATE) + TRESTLEPIP_AT_CHANNEL_PAGE, bytes, COUNTER_BYTES);
}

/* Whether the call would complete a page. */
static bool completes(const struct pair *p, const struct side *s)
{
    return trestlepip_ready(answer_on_copy(p, &s->set, &s->call)) == 1;
}

/* Whether a call is an immediate skip that stood. */
static bool is_stood(const struct call *c, uint64_t answer)
{
    return immediate_channel(c) != 0 && trestlepip_number(answer) == 0 && trestlepip_lines(answer) == 0;
}

/* A past of the printer's own; if nothing is to be counted, it completes no page. */
static void live_past(struct demand_3 *d, struct side *s)
{
    for (unsigned left = between(&s->generator, 1, PAST_MOST); left > 0; left--) {
        generator_next(&s->generator, trestlepip_number(s->answer), &s->call);
        if (d->means == UNCOUNTED && completes(&d->pair, s))
            continue;
        s->answer = pair_call(&d->pair, &s->set, &s->call);
        d->met.past_calls++;
        d->met.stood_in_past += is_stood(&s->call, s->answer);
    }
}

/* A page is completed by Clear, or by Initialize for a reset that is due. */
static void complete_page(const struct pair *p, struct side *s, uint8_t command)
{
    pair_command(p, s, TRESTLEPIP_WRITE_NO_SPACE);
    pair_command(p, s, command);
}

static void release_pages(const struct pair *p, struct side *s, unsigned times)
{
    for (unsigned i = 0; i < times; i++) {
        complete_page(p, s, TRESTLEPIP_CLEAR);
        pair_release(p, s);
    }
}

static void pass_pages(const struct pair *p, struct side *s, enum call_kind station, unsigned times)
{
    for (unsigned i = 0; i < times; i++)
        pair_tally(p, s, station);
}

/* Calls lead to the goal from counters that are all the stacker's; modulo 65,536 the loops end whatever the library left there. */
static void reach_goal(const struct pair *p, struct side *s, const unsigned goal[COUNTERS])
{
    unsigned from = counter_of(store(&s->set, STATE), STACKER);
    release_pages(p, s, trestlepip_pages_between(goal[CHANNEL], from));
    pass_pages(p, s, CALL_TRANSFERRED, trestlepip_pages_between(goal[TRANSFER], from));
    pass_pages(p, s, CALL_FUSED, trestlepip_pages_between(goal[FUSER], from));
    pass_pages(p, s, CALL_STACKED, trestlepip_pages_between(goal[STACKER], from));
}

/* The switch is set, the counters are brought to the goal, and the printer to where one call finishes a reset: no page is started, or one waits for which
 * the reset is due. Either way one page more is counted up to the reset. The first restart lets a page go that waits while the most are out, the
 * second takes its count back. */
static void approach_reset(struct demand_3 *d, struct side *s, bool switch_on)
{
    const struct pair *p = &d->pair;
    pair_tally(p, s, CALL_RESTART);
    pair_release(p, s);
    pair_tally(p, s, CALL_RESTART);
    if (d->means == BY_BYTES)
        set_counters(s, d->goal_bytes);
    else
        reach_goal(p, s, d->goal);
    pair_command(p, s, switch_on ? TRESTLEPIP_BLOCK : TRESTLEPIP_ALLOW);
    complete_page(p, s, s->deferred ? TRESTLEPIP_INITIALIZE : TRESTLEPIP_CLEAR);
    if (!s->deferred)
        pair_release(p, s);
}

static void finish_reset(struct demand_3 *d, struct side *s)
{
    bool due = store(&s->set, STATE)[TRESTLEPIP_AT_RESET_DUE] == 1;
    s->answer = s->deferred ? pair_release(&d->pair, s) : pair_command(&d->pair, s, TRESTLEPIP_INITIALIZE);
    bool taken = trestlepip_number(s->answer) == 0;
    d->met.deferred += taken && s->deferred && due;
    d->met.at_once += taken && !s->deferred && !trestlepip_ready(s->answer);
}

/* How the two pasts differ, and how they are ended. */
static void count_pasts(struct demand_3 *d, bool switch_on)
{
    for (enum store i = STATE; i <= TABLES; i++)
        d->met.unlike[i] += !store_is_alike(&d->pair, i);
    d->met.each_way += d->pair.side[0].deferred != d->pair.side[1].deferred;
    d->met.switch_on += switch_on;
    d->met.switch_off += !switch_on;
}

/* Different pasts, which begin with different counters if these are set. */
static void live_pasts(struct demand_3 *d)
{
    uint8_t bytes[COUNTER_BYTES];
    for (unsigned i = 0; i < SIDES; i++) {
        struct side *s = &d->pair.side[i];
        reachable_counters(&s->generator, TRESTLEPIP_MOST_PAGES, bytes);
        if (d->means == BY_BYTES)
            set_counters(s, bytes);
        live_past(d, s);
    }
}

/* Both means of bringing the counters to agree get their goal; no stacker has to go back for it, and there is room for the page that is counted
 * last. */
static void choose_goal(struct demand_3 *d)
{
    unsigned a = counter_of(store(&d->pair.side[0].set, STATE), STACKER), b = counter_of(store(&d->pair.side[1].set, STATE), STACKER);
    d->goal[STACKER] = a > b ? a : b;
    for (unsigned i = STACKER; i > CHANNEL; i--)
        d->goal[i - 1] = d->goal[i] + (d->means == UNCOUNTED ? 0 : below(&d->deeds, GAP_MOST + 1));
    reachable_counters(&d->deeds, TRESTLEPIP_MOST_PAGES - 1, d->goal_bytes);
}

/* How the counters stand after the pasts. */
static void count_counters(struct demand_3 *d)
{
    static const uint8_t zeros[COUNTER_BYTES];
    const uint8_t *a = store(&d->pair.side[0].set, STATE) + TRESTLEPIP_AT_CHANNEL_PAGE;
    const uint8_t *b = store(&d->pair.side[1].set, STATE) + TRESTLEPIP_AT_CHANNEL_PAGE;
    d->met.counters_unlike[d->means] += memcmp(a, b, COUNTER_BYTES) != 0;
    d->met.counters_zero[d->means] += memcmp(a, zeros, COUNTER_BYTES) == 0 && memcmp(b, zeros, COUNTER_BYTES) == 0;
}

/* Different pasts, and a finished reset on each printer with the switch alike. */
static void reset_pair(struct demand_3 *d)
{
    bool switch_on = percent(&d->deeds, 50);
    d->means = (enum means)WEIGHTED(&d->deeds, 40, 40, 20);
    live_pasts(d);
    count_counters(d);
    choose_goal(d);
    for (unsigned i = 0; i < SIDES; i++) {
        struct side *s = &d->pair.side[i];
        s->deferred = percent(&d->deeds, 50);
        approach_reset(d, s, switch_on);
    }
    count_pasts(d, switch_on);
    for (unsigned i = 0; i < SIDES; i++)
        finish_reset(d, &d->pair.side[i]);
}

/* ---- deeds ---- */

/* Demand 3 speaks of accepted commands, releases, and station, cancel and restart calls; it leaves out No-Op, Sense, Compose, Feet
 * and what is refused. */
static bool is_deed(const struct call *c, uint64_t answer)
{
    bool no_op_or_sense = c->kind == CALL_COMMAND && (c->command == TRESTLEPIP_NO_OP || c->command == TRESTLEPIP_SENSE);
    return trestlepip_number(answer) == 0 && c->kind != CALL_COMPOSE && c->kind != CALL_FEET && !no_op_or_sense;
}

static void count_left_out(struct met *m, const struct call *c, uint64_t answer)
{
    bool taken = trestlepip_number(answer) == 0;
    m->refused[trestlepip_number(answer) % NUMBERS] += !taken;
    m->compose += taken && c->kind == CALL_COMPOSE;
    m->feet += taken && c->kind == CALL_FEET;
    m->no_op += taken && c->kind == CALL_COMMAND && c->command == TRESTLEPIP_NO_OP;
    m->sense += taken && c->kind == CALL_COMMAND && c->command == TRESTLEPIP_SENSE;
}

static void count_deed(struct met *m, const struct call *c, uint64_t answer, const uint8_t *state_before)
{
    bool initialized = c->kind == CALL_COMMAND && c->command == TRESTLEPIP_INITIALIZE;
    m->deeds[c->kind]++;
    m->resets += c->kind == CALL_RELEASE && state_before[TRESTLEPIP_AT_RESET_DUE] == 1;
    m->resets += initialized && !trestlepip_ready(answer);
    m->stood += is_stood(c, answer);
    m->moved_old += state_before[TRESTLEPIP_AT_SKIP] == TRESTLEPIP_OLD_WAY && skips_where_it_stands(c, state_before);
}

/* Some calls that demand 3 leaves out, of this printer's own; a copy shows first whether a call is one. */
static void make_left_out(struct demand_3 *d, struct side *s)
{
    for (unsigned left = below(&s->generator, LEFT_OUT_MOST + 1); left > 0; left--) {
        generator_next(&s->generator, trestlepip_number(s->answer), &s->call);
        if (is_deed(&s->call, answer_on_copy(&d->pair, &s->set, &s->call)))
            continue;
        s->answer = pair_call(&d->pair, &s->set, &s->call);
        count_left_out(&d->met, &s->call, s->answer);
    }
}

/* The next deed, found on a copy of the first printer; false if that printer accepts nothing any more. */
static bool find_deed(struct demand_3 *d)
{
    struct pair *p = &d->pair;
    for (unsigned tries = 0; tries < TRIES_MOST; tries++) {
        generator_next(&d->deeds, 0, &p->deed);
        if (is_deed(&p->deed, answer_on_copy(p, &p->side[0].set, &p->deed)))
            return true;
    }
    printf("seed %llu, pair %llu: the first printer accepts nothing any more\n", p->seed, p->number);
    return false;
}

/* One copy on both printers, or the refusal that ends the copies. */
static bool copy_agrees(struct pair *p, uint32_t copy)
{
    for (unsigned i = 0; i < SIDES; i++)
        p->side[i].answer = pair_compose(p, &p->side[i], copy);
    if (answers_agree(p))
        return outputs_agree(p, copy);
    printf("these are the answers to Compose, copy %u of the page\n", copy);
    return false;
}

/* All copies of the page that waits, up to number 7. */
static bool copies_agree(struct demand_3 *d)
{
    struct pair *p = &d->pair;
    unsigned number = 0;
    for (uint32_t copy = 1; number == 0 && copy <= COPIES_MOST + 1; copy++) {
        if (!copy_agrees(p, copy))
            return false;
        number = trestlepip_number(p->side[0].answer);
        d->met.copies += number == 0;
    }
    d->met.pages++;
    d->met.pages_with_legends += store(&p->side[0].set, LEGENDS)[0] != 0;
    d->met.pages_with_marks += has_mark(store(&p->side[0].set, PAGE), PAGE_CELLS);
    if (number != TRESTLEPIP_BAD_INDEX)
        printf("seed %llu, pair %llu, deed %llu: the copies end with number %u, not 7\n", p->seed, p->number, p->deed_number, number);
    return number == TRESTLEPIP_BAD_INDEX;
}

/* A deed on both printers, and what it left. */
static bool deed_agrees(struct demand_3 *d)
{
    struct pair *p = &d->pair;
    p->left_out = false;
    memcpy(p->state_before, store(&p->side[0].set, STATE), sizeof p->state_before);
    for (unsigned i = 0; i < SIDES; i++)
        p->side[i].answer = pair_call(p, &p->side[i].set, &p->deed);
    count_deed(&d->met, &p->deed, p->side[0].answer, p->state_before);
    return answers_agree(p) && stores_agree(p);
}

/* The calls left out must have changed nothing: neither the stores nor the copies of a page that waits. */
static bool left_out_agrees(struct demand_3 *d)
{
    struct pair *p = &d->pair;
    p->left_out = true;
    for (unsigned i = 0; i < SIDES; i++)
        make_left_out(d, &p->side[i]);
    return stores_agree(p) && (store(&p->side[0].set, STATE)[TRESTLEPIP_AT_WAITING] == 0 || copies_agree(d));
}

static bool deeds_agree(struct demand_3 *d)
{
    unsigned deeds = between(&d->deeds, 1, DEEDS_MOST);
    unsigned long stood = d->met.stood;
    for (d->pair.deed_number = 1; d->pair.deed_number <= deeds; d->pair.deed_number++)
        if (!find_deed(d) || !deed_agrees(d) || !left_out_agrees(d))
            return false;
    d->met.pairs_stood += d->met.stood != stood;
    return true;
}

/* ---- the run ---- */

/* One pair; for one in four the Start is the only reset. */
static bool pair_agrees(struct demand_3 *d)
{
    start_pair(d);
    bool start_alone = percent(&d->deeds, 25);
    d->met.start_alone += start_alone;
    if (!start_alone)
        reset_pair(d);
    return stores_agree(&d->pair) && left_out_agrees(d) && deeds_agree(d);
}

/* Every number that a call other than Start can get; 10 is Start's. */
static void refused_rows(struct table *t, const struct met *m)
{
    char name[NAME_ROOM];
    for (unsigned i = TRESTLEPIP_NOT_LISTED; i < NUMBERS; i++) {
        bool possible = i != TRESTLEPIP_BAD_FORM && number_occurs(i);
        snprintf(name, sizeof name, "left out: refused with number %u", i);
        table_add(t, name, m->refused[i], possible ? 1 : NEVER);
    }
}

/* The deeds by the call; a Compose is none, and a Start comes before them. */
static void deed_rows(struct table *t, const struct met *m)
{
    char name[NAME_ROOM];
    for (enum call_kind i = CALL_COMMAND; i < CALL_KINDS; i++) {
        snprintf(name, sizeof name, "deed: %s", call_name[i]);
        table_add(t, name, m->deeds[i], i == CALL_COMPOSE ? NEVER : 1);
    }
    TABLE_ADD_ROWS(t, { "deed that finished a reset", m->resets, 1 }, { "deed: skip that stood", m->stood, 1 },
            { "pair with a skip that stood among its deeds", m->pairs_stood, 1 },
            { "deed: skip to its line's own channel that moved: the old way", m->moved_old, 1 });
}

static void reset_rows(struct table *t, const struct met *m)
{
    TABLE_ADD_ROWS(t, { "pair started in the new way", m->started[TRESTLEPIP_NEW_WAY], 1 },
            { "pair started in the old way", m->started[TRESTLEPIP_OLD_WAY], 1 },
            { "pair whose only reset is the Start", m->start_alone, 1 }, { "printer reset at once", m->at_once, 1 },
            { "printer reset by Release", m->deferred, 1 }, { "pair with one printer reset each way", m->each_way, 1 },
            { "pair reset with Block on", m->switch_on, 1 }, { "pair reset with Block off", m->switch_off, 1 },
            { "pair whose states differed before the reset", m->unlike[STATE], 1 },
            { "pair whose pages differed before the reset", m->unlike[PAGE], 1 },
            { "pair whose legends differed before the reset", m->unlike[LEGENDS], 1 },
            { "pair whose tables differed before the reset", m->unlike[TABLES], 1 },
            { "pair whose counters differed, and agree at the reset by calls", m->counters_unlike[BY_CALLS], 1 },
            { "pair whose counters differed, and are set to agree at the reset", m->counters_unlike[BY_BYTES], 1 },
            { "pair that had counted nothing before the page of the reset", m->counters_zero[UNCOUNTED], 1 },
            { "call in a past", m->past_calls, 1 }, { "skip that stood in a past", m->stood_in_past, 1 });
}

static struct faults print_met(const struct met *m)
{
    struct table t = { .count = 0 };
    reset_rows(&t, m);
    deed_rows(&t, m);
    refused_rows(&t, m);
    TABLE_ADD_ROWS(&t, { "left out: No-Op", m->no_op, 1 }, { "left out: Sense", m->sense, 1 }, { "left out: Compose", m->compose, 1 },
            { "left out: Feet", m->feet, 1 }, { "page compared", m->pages, 1 }, { "page with legends compared", m->pages_with_legends, 1 },
            { "page with marks compared", m->pages_with_marks, 1 }, { "copy compared", m->copies, 1 });
    return table_print(&t);
}

bool demand_3_holds(unsigned long long pairs, unsigned long long seed, bool meet_all)
{
    static struct demand_3 d;
    d.pair.of = pairs;
    d.pair.seed = seed;
    pair_make(&d.pair);
    catch_faults();
    for (d.pair.number = 1; d.pair.number <= pairs; d.pair.number++)
        if (!pair_agrees(&d))
            return false;
    struct faults f = print_met(&d.met);
    printf("demand 3: %llu pair%s, seed %llu: 0 differences\n", pairs, pairs == 1 ? "" : "s", seed);
    return f.forbidden == 0 && (f.missing == 0 || !meet_all);
}

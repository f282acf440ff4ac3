/*
 * The library's times beside those of plain C, through the same interface. Each work is first done by both and compared, and again after its
 * times were taken. Entries take turns, batch by batch, all works are gone through several times, and the best batch of each entry counts, so that
 * what else the machine does matters least.
 */
#define _POSIX_C_SOURCE 199309L
#include "works.h"

#include <stdio.h>
#include <stdlib.h>
#include <string.h>
#include <time.h>

enum { PASSES = 10, BATCHES = 100, BATCH_NS = 25000, MEMCPY_LIMIT = 3 };

static struct side library_side = { .program = &library }, plain_side = { .program = &plain };

/* Nanoseconds of one part of a work; where the work composes, also of memcpy, and of the library's judging alone. */
struct times {
    double library, plain, copied, judged;
};

/* A time that any other is less than. */
#define NEVER 1e18

struct options {
    bool compare_only;
    double at_least;
};

static void fail(const char *work, const char *what)
{
    printf("%s: %s\n", work, what);
    exit(1);
}

/* ---- the printers ---- */

static void damage(struct side *s, enum damage kind)
{
    if (kind == SHORT_PAGE)
        s->page_len--;
    if (kind == BAD_SELECTION)
        s->state[s->program->selected_at] = 4;
    if (kind == LAST_LEGEND_BYTE)
        s->legends[TRESTLEPIP_LEGEND_BYTES - 1] = 1;
    if (kind == FIRST_MARK)
        s->page[1] = 2;
    if (kind == LAST_MARK)
        s->page[TRESTLEPIP_PAGE_BYTES - 1] = 2;
    if (kind == BAD_STACKER)
        s->state[s->program->counters_at + COUNTER_BYTES - 1] = 1;
    if (kind == MOST_RELEASED) {
        s->state[s->program->counters_at] = TRESTLEPIP_MOST_PAGES / 256;
        s->state[s->program->counters_at + 1] = TRESTLEPIP_MOST_PAGES % 256;
    }
    if (kind == ALL_RULED)
        for (size_t i = 1; i < TRESTLEPIP_PAGE_BYTES; i += TRESTLEPIP_CELL_BYTES)
            s->page[i] = 1;
}

/* A printer as the work begins with it. */
static void make_ready(struct side *s, const struct work *w)
{
    side_clean(s);
    for (size_t i = 0; i < w->ready_count; i++)
        if (trestlepip_number(side_call(s, w->ready + i)) != TRESTLEPIP_ACCEPTED)
            fail(w->name, "a call that makes the printer ready is refused");
    damage(s, w->damage);
    side_keep_state(s);
}

/* Sense changes the state, so that the state is put back after it. */
static void compare(const struct work *w)
{
    const char *what = sides_differ(&library_side, &plain_side, w->round_count);
    if (what != NULL) {
        printf("%s: %s and %s differ in %s\n", w->name, library.name, plain.name, what);
        exit(1);
    }
    side_put_back_state(&library_side);
    side_put_back_state(&plain_side);
}

static void expect_numbers(const struct work *w)
{
    for (size_t i = 0; i < w->round_count; i++)
        if (trestlepip_number(library_side.answers[i]) != w->number)
            fail(w->name, "an answer has another number than the work is to measure");
}

static void begin(const struct work *w)
{
    make_ready(&library_side, w);
    make_ready(&plain_side, w);
    side_round(&library_side, w->round, w->round_count);
    side_round(&plain_side, w->round, w->round_count);
    expect_numbers(w);
    compare(w);
}

/* ---- the times ---- */

static double now(void)
{
    struct timespec t;
    clock_gettime(CLOCK_MONOTONIC, &t);
    return (double)t.tv_sec * 1e9 + (double)t.tv_nsec;
}

/* Putting back a state of some 200 bytes takes a few nanoseconds in a round, on both sides alike. */
static double batch(struct side *s, const struct work *w, unsigned rounds)
{
    double from = now();
    for (unsigned i = 0; i < rounds; i++) {
        side_put_back_state(s);
        side_round(s, w->round, w->round_count);
    }
    return now() - from;
}

/* The function by a pointer that the compiler does not see through, so that every copy is made. */
static double copy_batch(const struct work *w, unsigned rounds)
{
    static void *(*volatile copy)(void *, const void *, size_t) = memcpy;
    static alignas(64) uint8_t to[TRESTLEPIP_PAGE_BYTES];
    double from = now();
    for (size_t i = 0; i < rounds * w->round_count; i++)
        copy(to, library_side.page, w->copied);
    return now() - from;
}

/* Copy 0, which is refused when all has been judged. */
static double judge_batch(const struct work *w, unsigned rounds)
{
    static const struct call copy_0 = { CALL_COMPOSE, 0, NULL, 0 };
    double from = now();
    for (size_t i = 0; i < rounds * w->round_count; i++)
        side_call(&library_side, &copy_0);
    return now() - from;
}

/* Enough rounds that the clock does not matter, by the quicker side. */
static unsigned rounds_of(const struct work *w)
{
    unsigned rounds = 1;
    while (batch(&library_side, w, rounds) < BATCH_NS || batch(&plain_side, w, rounds) < BATCH_NS)
        rounds++;
    return rounds;
}

static double lesser(double a, double b)
{
    return a < b ? a : b;
}

static void take_times(const struct work *w, struct times *best)
{
    unsigned rounds = rounds_of(w);
    double parts = (double)rounds * w->parts;
    for (unsigned i = 0; i < BATCHES; i++) {
        best->library = lesser(best->library, batch(&library_side, w, rounds) / parts);
        best->plain = lesser(best->plain, batch(&plain_side, w, rounds) / parts);
        if (w->copied == 0)
            continue;
        best->copied = lesser(best->copied, copy_batch(w, rounds) / parts);
        best->judged = lesser(best->judged, judge_batch(w, rounds) / parts);
    }
}

/* Every work once. */
static void pass(const struct work *works, size_t count, struct times *best)
{
    for (size_t i = 0; i < count; i++) {
        begin(works + i);
        take_times(works + i, best + i);
        compare(works + i);
    }
}

static void measure_all(const struct work *works, size_t count, struct times *best)
{
    for (size_t i = 0; i < count; i++)
        best[i] = (struct times){ NEVER, NEVER, NEVER, NEVER };
    for (unsigned i = 0; i < PASSES; i++)
        pass(works, count, best);
}

/* ---- the table ---- */

static double ratio(struct times t)
{
    return t.plain / t.library;
}

/* What composing takes beyond the judging. */
static double composing(struct times t)
{
    return t.library - t.judged;
}

static void print_head(void)
{
    printf("Nanoseconds, each the best of %u batches of %u us or more, library and plain C in turn.\n", PASSES * BATCHES, BATCH_NS / 1000);
    printf("Ratio: speed of the library over that of plain C, so that 1.00 or more is at least as fast.\n");
    printf("Memcpy: how many times as long as memcpy of the same bytes the library takes for a composed copy; and so without the judging, which reads\n"
           "the whole page.\n\n");
    printf("%-60s %10s %10s %6s %7s\n", "", "library", "plain C", "ratio", "memcpy");
}

static void print_times(const struct work *w, struct times t)
{
    printf("%-60s %10.1f %10.1f %6.2f", w->name, t.library, t.plain, ratio(t));
    if (w->copied != 0)
        printf(" %7.2f %6.2f", t.library / t.copied, composing(t) / t.copied);
    printf("\n");
}

/* --at-least: whether a work is within both limits; says so if it is not. */
static bool within(const struct work *w, struct times t, double at_least)
{
    bool quick = ratio(t) >= at_least;
    bool near_memcpy = !w->limited || composing(t) <= MEMCPY_LIMIT * t.copied;
    if (!quick)
        printf("    below %.2f\n", at_least);
    if (!near_memcpy)
        printf("    composing takes more than %d times memcpy\n", MEMCPY_LIMIT);
    return quick && near_memcpy;
}

static bool print_table(const struct work *works, size_t count, const struct times *best, double at_least)
{
    size_t least = 0;
    bool good = true;
    print_head();
    for (size_t i = 0; i < count; i++) {
        print_times(works + i, best[i]);
        if (at_least > 0)
            good &= within(works + i, best[i], at_least);
        if (ratio(best[i]) < ratio(best[least]))
            least = i;
    }
    printf("\nleast ratio %.2f: %s\n", ratio(best[least]), works[least].name);
    return good;
}

/* ---- comparing alone ---- */

static void compare_sum(uint32_t form, struct sum sum)
{
    const struct call feet = { CALL_FEET, form, &sum, 0 };
    uint64_t answer = side_call(&library_side, &feet), plain_answer = side_call(&plain_side, &feet);
    if (answer == plain_answer && memcmp(&library_side.feet, &plain_side.feet, sizeof library_side.feet) == 0)
        return;
    printf("feet of paper: %s and %s differ, initial %04X, final %04X, copies %u, form %u\n", library.name, plain.name,
            (unsigned)sum.initial, (unsigned)sum.final, sum.copies, form);
    exit(1);
}

/* No page, the most, and identifiers that are mixed alike in each run. Returns how many sums these are. */
static unsigned compare_pages(uint32_t form, uint32_t copies)
{
    enum { MIXED = 6 };
    static uint32_t mixed;
    compare_sum(form, (struct sum){ 5, 5, copies });
    compare_sum(form, (struct sum){ 5, 4, copies });
    for (unsigned i = 0; i < MIXED; i++) {
        mixed = mixed * 69069 + 1;
        compare_sum(form, (struct sum){ (uint16_t)(mixed >> 16), (uint16_t)mixed, copies });
    }
    return 2 + MIXED;
}

/* Lengths and copies that are listed, others, and such as would be listed if two bytes were all of them. */
static unsigned compare_feet(void)
{
    enum { FORM_MOST = 300, COPIES_MOST = 257, TWO_BYTES = 0x10000 };
    unsigned sums = 0;
    for (uint32_t form = 0; form <= FORM_MOST; form++)
        for (uint32_t copies = 0; copies <= COPIES_MOST; copies++)
            sums += compare_pages(form, copies) + compare_pages(form + TWO_BYTES, copies) + compare_pages(form, copies + TWO_BYTES);
    return sums;
}

static void compare_all(const struct work *works, size_t count)
{
    for (size_t i = 0; i < count; i++)
        begin(works + i);
    unsigned sums = compare_feet();
    printf("%zu works and %u sums of feet compared, no difference\n", count, sums);
}

/* ---- */

static void usage(void)
{
    fprintf(stderr, "usage: bench [--compare | --at-least RATIO]\n");
    exit(2);
}

static double ratio_of(const char *word)
{
    char *end;
    double r = strtod(word, &end);
    if (end == word || *end != '\0' || !(r > 0))
        usage();
    return r;
}

static struct options options_of(int count, char **words)
{
    struct options o = { false, 0 };
    if (count == 2 && strcmp(words[1], "--compare") == 0)
        o.compare_only = true;
    else if (count == 3 && strcmp(words[1], "--at-least") == 0)
        o.at_least = ratio_of(words[2]);
    else if (count != 1)
        usage();
    return o;
}

int main(int count, char **words)
{
    static struct work works[WORKS_MOST];
    static struct times best[WORKS_MOST];
    struct options o = options_of(count, words);
    size_t n = works_make(works);
    if (o.compare_only) {
        compare_all(works, n);
        return 0;
    }
    measure_all(works, n, best);
    return print_table(works, n, best, o.at_least) ? 0 : 1;
}

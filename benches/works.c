#include "works.h"

#include <stdio.h>
#include <stdlib.h>
#include <string.h>

enum { FORM = 264, LINE_MOST = TRESTLEPIP_LINE_CELLS, TEXT = 60, HEAD = 6 };

/* Records live as long as the program. */
static uint8_t record_room[65536];
static size_t record_used;

static uint8_t *record_of(size_t size)
{
    if (sizeof record_room - record_used < size)
        abort();
    record_used += size;
    return record_room + record_used - size;
}

/* EBCDIC letters in words of six. */
static void fill_text(uint8_t *text, size_t size)
{
    for (size_t i = 0; i < size; i++)
        text[i] = i % 7 == 6 ? 0x40 : (uint8_t)(0xC1 + i % 9);
}

/* What is written over such a text with no collision: an underscore, a blank, a letter, the last over a blank or the same letter. */
static void fill_overprint(uint8_t *text, size_t size)
{
    for (size_t i = 0; i < size; i++)
        text[i] = i % 3 == 0 ? 0x6D : i % 3 == 1 ? 0x40 : (uint8_t)(0xC1 + i % 9);
}

/* A total has underscores of its own between its words. */
static void fill_total(uint8_t *text, size_t size)
{
    fill_text(text, size);
    for (size_t i = 6; i < size; i += 14)
        text[i] = 0x6D;
}

/* ---- making a work ---- */

static void ready(struct work *w, enum call_kind kind, uint32_t number, const void *record, size_t record_len)
{
    w->ready[w->ready_count++] = (struct call){ kind, number, record, record_len };
}

static void measure(struct work *w, enum call_kind kind, uint32_t number, const void *record, size_t record_len)
{
    w->round[w->round_count++] = (struct call){ kind, number, record, record_len };
}

static void ready_lines(struct work *w, unsigned lines, const uint8_t *text)
{
    for (unsigned i = 0; i < lines; i++)
        ready(w, CALL_COMMAND, 0x09, text, LINE_MOST);
}

/* So many lines, and the page is complete. */
static void ready_page(struct work *w, unsigned lines, const uint8_t *text)
{
    ready_lines(w, lines, text);
    ready(w, CALL_COMMAND, 0x87, NULL, 0);
}

/* Pages that have passed no station yet. */
static void ready_released(struct work *w, unsigned pages, const uint8_t *text)
{
    for (unsigned i = 0; i < pages; i++) {
        ready_page(w, 1, text);
        ready(w, CALL_RELEASE, 0, NULL, 0);
    }
}

/* The same call over and over, each of them a part. */
static void measure_often(struct work *w, unsigned times, enum call_kind kind, uint32_t number, const void *record, size_t record_len)
{
    for (unsigned i = 0; i < times; i++)
        measure(w, kind, number, record, record_len);
    w->parts = times;
}

/* Form and forms control: lines per inch as the upper half of an FCB byte. */
static uint8_t upper_half(unsigned lpi)
{
    return lpi == 6 ? 0x00 : lpi == 8 ? 0x10 : 0x30;
}

/* P on the form of 11 inches, of which a half inch at each end is not printable. */
static unsigned printable(unsigned lpi)
{
    return 10 * lpi;
}

/* Start, and an FCB of one spacing with channel 1 at line 1. */
static void ready_form(struct work *w, unsigned form, unsigned lpi)
{
    size_t lines = form * lpi / 24;
    uint8_t *fcb = record_of(lines);
    memset(fcb, upper_half(lpi), lines);
    fcb[lpi / 2] |= 1;
    ready(w, CALL_START, form, NULL, 0);
    ready(w, CALL_COMMAND, 0x63, fcb, lines);
}

/* One legend for every copy; k makes its line and position. */
static void put_segment(uint8_t *to, unsigned k, size_t positions, uint8_t lines)
{
    const uint8_t head[HEAD] = { 1, 255, lines == 1 ? (uint8_t)(1 + k) : 1, lines, (uint8_t)(1 + 3 * k % 120), (uint8_t)positions };
    memcpy(to, head, HEAD);
    fill_text(to + HEAD, positions);
}

/* Segments of the usual text, on so many lines each. */
static void ready_segments(struct work *w, unsigned count, uint8_t lines)
{
    uint8_t *record = record_of(count * (HEAD + TEXT));
    for (unsigned k = 0; k < count; k++)
        put_segment(record + k * (HEAD + TEXT), k, TEXT, lines);
    if (count != 0)
        ready(w, CALL_COMMAND, 0x35, record, count * (HEAD + TEXT));
}

/* A record of exactly so many bytes: segments of the usual text but for the last two, which share what is left. */
static uint8_t *legends_of(size_t bytes)
{
    uint8_t *record = record_of(bytes);
    size_t at = 0;
    for (unsigned k = 0; at < bytes; k++) {
        size_t left = bytes - at, whole = HEAD + TEXT;
        size_t size = left >= 2 * whole || left == whole ? whole : left > whole ? left / 2 : left;
        put_segment(record + at, k, size - HEAD, 1);
        at += size;
    }
    return record;
}

/* ---- the works ---- */

struct making {
    struct work *works;
    size_t count;
    uint8_t text[LINE_MOST];
    uint8_t overprint[LINE_MOST];
    uint8_t total[LINE_MOST];
    uint8_t rule[LINE_MOST];
};

static struct work *next_work(struct making *m)
{
    if (m->count == WORKS_MOST)
        abort();
    return m->works + m->count++;
}

/* The last line stays free: a round ends before the page is complete, and putting back the state is all it takes to begin anew. */
static void make_write(struct making *m, size_t bytes, unsigned lpi)
{
    struct work *w = next_work(m);
    snprintf(w->name, sizeof w->name, "write and space 1, %zu bytes, %u lines per inch", bytes, lpi);
    ready_form(w, FORM, lpi);
    w->damage = ALL_RULED;
    measure_often(w, printable(lpi) - 1, CALL_COMMAND, 0x09, m->text, bytes);
}

/* Two characters that the starting table does not have, one near each end: only such a line is looked through. */
static void make_bad_write(struct making *m, size_t bytes)
{
    struct work *w = next_work(m);
    uint8_t *text = record_of(bytes);
    snprintf(w->name, sizeof w->name, "write and space 1, %zu bytes, 2 unprintable, 6 lines per inch", bytes);
    fill_text(text, bytes);
    text[9] = text[bytes - 9] = 0x3F;
    ready_form(w, FORM, 6);
    measure_often(w, printable(6) - 1, CALL_COMMAND, 0x09, text, bytes);
}

/* The second write is merged with the first. */
static void make_pair(struct making *m, const char *what, const uint8_t *first, const uint8_t *second, size_t bytes)
{
    struct work *w = next_work(m);
    snprintf(w->name, sizeof w->name, "%s, 01 then 09, %zu bytes", what, bytes);
    ready_form(w, FORM, 6);
    w->parts = printable(6) - 1;
    for (unsigned i = 0; i < w->parts; i++) {
        measure(w, CALL_COMMAND, 0x01, first, bytes);
        measure(w, CALL_COMMAND, 0x09, second, bytes);
    }
}

/* On a form of 12 inches, where 60 lines leave the page to be completed by the skip. */
static void make_page(struct making *m)
{
    static const uint8_t three_copies[] = { 3, 0 };
    struct work *w = next_work(m);
    snprintf(w->name, sizeof w->name, "page: 60 writes, skip, 3 copies with 4 legends, release");
    ready_form(w, 288, 6);
    ready(w, CALL_COMMAND, 0x43, three_copies, sizeof three_copies);
    ready_segments(w, 4, 1);
    measure_often(w, 60, CALL_COMMAND, 0x09, m->text, 132);
    measure(w, CALL_COMMAND, 0x8B, NULL, 0);
    for (uint32_t copy = 1; copy <= 3; copy++)
        measure(w, CALL_COMPOSE, copy, NULL, 0);
    measure(w, CALL_RELEASE, 0, NULL, 0);
    w->parts = 1;
}

/* At line 1, which has channel 1, with nothing written: it changes nothing, so that the same skip can follow. */
static void make_standing_skip(struct making *m)
{
    struct work *w = next_work(m);
    snprintf(w->name, sizeof w->name, "immediate skip that stands");
    ready_form(w, FORM, 6);
    measure_often(w, 100, CALL_COMMAND, 0x8B, NULL, 0);
}

/* In the old way the same skip goes on over the whole form. */
static void make_empty_page(struct making *m)
{
    struct work *w = next_work(m);
    snprintf(w->name, sizeof w->name, "empty page: skip in the old way, release");
    ready(w, CALL_OLD_START, FORM, NULL, 0);
    w->parts = 40;
    for (unsigned i = 0; i < w->parts; i++) {
        measure(w, CALL_COMMAND, 0x8B, NULL, 0);
        measure(w, CALL_RELEASE, 0, NULL, 0);
    }
}

static void make_reports(struct making *m)
{
    struct work *w = next_work(m);
    snprintf(w->name, sizeof w->name, "page reported: transferred, fused, stacked");
    ready_form(w, FORM, 6);
    w->parts = 40;
    ready_released(w, w->parts, m->text);
    for (unsigned i = 0; i < w->parts; i++) {
        measure(w, CALL_TRANSFERRED, 0, NULL, 0);
        measure(w, CALL_FUSED, 0, NULL, 0);
        measure(w, CALL_STACKED, 0, NULL, 0);
    }
}

/* A cancel or a restart; there is a page before each station. */
static void make_giving_up(struct making *m, const char *name, enum call_kind kind)
{
    struct work *w = next_work(m);
    snprintf(w->name, sizeof w->name, "%s", name);
    ready_form(w, FORM, 6);
    ready_released(w, 3, m->text);
    ready(w, CALL_TRANSFERRED, 0, NULL, 0);
    ready(w, CALL_TRANSFERRED, 0, NULL, 0);
    ready(w, CALL_FUSED, 0, NULL, 0);
    measure_often(w, 100, kind, 0, NULL, 0);
}

/* Over FFFF to 0000, and with a fraction that is no double. */
static void make_feet(struct making *m)
{
    static const struct sum sum = { 0xFFF0, 0x01A7, 2 };
    struct work *w = next_work(m);
    snprintf(w->name, sizeof w->name, "feet of paper");
    ready_form(w, FORM, 6);
    measure_often(w, 100, CALL_FEET, FORM, &sum, 0);
}

/* A refusal on a printer with no legends, on a page that waits or is empty. */
static struct work *make_refusal(struct making *m, unsigned number, const char *how, bool waiting, struct call c)
{
    struct work *w = next_work(m);
    snprintf(w->name, sizeof w->name, "refusal %u: %s", number, how);
    ready_form(w, FORM, 6);
    if (waiting)
        ready_page(w, 1, m->text);
    w->number = number;
    measure_often(w, 100, c.kind, c.number, c.record, c.record_len);
    return w;
}

/* Judging the marks takes as much as the refusal for the last of them takes longer than that for the first. */
static void make_refusals(struct making *m)
{
    static const struct sum many_copies = { 0, 1, 256 };
    const struct call write = { CALL_COMMAND, 0x09, m->text, 132 }, release = { CALL_RELEASE, 0, NULL, 0 };
    make_refusal(m, 1, "byte FF", false, (struct call){ CALL_COMMAND, 0xFF, NULL, 0 });
    make_refusal(m, 2, "write of 0 bytes", false, (struct call){ CALL_COMMAND, 0x09, NULL, 0 });
    make_refusal(m, 4, "write while a page waits", true, write);
    make_refusal(m, 6, "release with no page waiting", false, release);
    make_refusal(m, 7, "copy 2 of one", true, (struct call){ CALL_COMPOSE, 2, NULL, 0 });
    make_refusal(m, 9, "page of a wrong size", false, write)->damage = SHORT_PAGE;
    make_refusal(m, 9, "selected slot 4", false, write)->damage = BAD_SELECTION;
    make_refusal(m, 9, "last byte of the legends set", false, write)->damage = LAST_LEGEND_BYTE;
    make_refusal(m, 9, "first mark of the page is 2", false, write)->damage = FIRST_MARK;
    make_refusal(m, 9, "last mark of the page is 2", false, write)->damage = LAST_MARK;
    make_refusal(m, 9, "stacker ahead of the fuser", false, write)->damage = BAD_STACKER;
    make_refusal(m, 12, "transferred with no page released", false, (struct call){ CALL_TRANSFERRED, 0, NULL, 0 });
    make_refusal(m, 13, "release with the most pages between", true, release)->damage = MOST_RELEASED;
    make_refusal(m, 16, "feet of 256 copies", false, (struct call){ CALL_FEET, FORM, &many_copies, 0 });
}

/* Four segments at 6 lines per inch have a limit. */
static void make_compose(struct making *m, unsigned segments, uint8_t lines, unsigned lpi)
{
    struct work *w = next_work(m);
    snprintf(w->name, sizeof w->name, "compose, %u segments on %s, %u lines per inch", segments, lines == 1 ? "a line each" : "every line", lpi);
    ready_form(w, FORM, lpi);
    ready_segments(w, segments, lines);
    ready_page(w, printable(lpi) - 1, m->text);
    w->damage = ALL_RULED;
    measure_often(w, 20, CALL_COMPOSE, 1, NULL, 0);
    w->copied = (size_t)printable(lpi) * TRESTLEPIP_LINE_BYTES;
    w->limited = segments == 4 && lpi == 6;
}

static void make_load(struct making *m)
{
    struct work *w = next_work(m);
    snprintf(w->name, sizeof w->name, "load of %u bytes of legends", TRESTLEPIP_LEGEND_BYTES);
    ready_form(w, FORM, 6);
    measure_often(w, 10, CALL_COMMAND, 0x35, legends_of(TRESTLEPIP_LEGEND_BYTES), TRESTLEPIP_LEGEND_BYTES);
}

static void make_with_legends(struct making *m, const char *what, uint8_t byte, size_t record_len, size_t bytes)
{
    struct work *w = next_work(m);
    snprintf(w->name, sizeof w->name, "%s, legends of %zu bytes", what, bytes);
    ready_form(w, FORM, 6);
    if (bytes != 0)
        ready(w, CALL_COMMAND, 0x35, legends_of(bytes), bytes);
    measure_often(w, printable(6) - 1, CALL_COMMAND, byte, m->text, record_len);
}

static void make_growth(struct making *m, const char *what, uint8_t byte, size_t record_len)
{
    static const size_t sizes[] = { 0, 512, 1024, 2048, 4096, 8192 };
    for (size_t i = 0; i < sizeof sizes / sizeof *sizes; i++)
        make_with_legends(m, what, byte, record_len, sizes[i]);
}

size_t works_make(struct work *works)
{
    static struct making m;
    m.works = works;
    fill_text(m.text, sizeof m.text);
    fill_overprint(m.overprint, sizeof m.overprint);
    fill_total(m.total, sizeof m.total);
    memset(m.rule, 0x6D, sizeof m.rule);
    make_write(&m, 132, 6);
    make_write(&m, 132, 8);
    make_write(&m, 204, 6);
    make_write(&m, 204, 8);
    make_bad_write(&m, 132);
    make_bad_write(&m, 204);
    make_pair(&m, "two writes on a line", m.text, m.overprint, 132);
    make_pair(&m, "two writes on a line", m.text, m.overprint, 204);
    make_pair(&m, "a total and its rule", m.total, m.rule, 132);
    make_pair(&m, "a total and its rule", m.total, m.rule, 204);
    make_page(&m);
    make_standing_skip(&m);
    make_empty_page(&m);
    make_reports(&m);
    make_giving_up(&m, "cancel", CALL_CANCEL);
    make_giving_up(&m, "restart", CALL_RESTART);
    make_feet(&m);
    make_refusals(&m);
    make_compose(&m, 0, 1, 6);
    make_compose(&m, 4, 1, 6);
    make_compose(&m, 40, 1, 6);
    make_compose(&m, 40, 255, 6);
    make_compose(&m, 4, 1, 8);
    make_compose(&m, 4, 1, 12);
    make_load(&m);
    make_growth(&m, "write and space 1, 132 bytes", 0x09, 132);
    make_growth(&m, "No-Op", 0x03, 0);
    return m.count;
}

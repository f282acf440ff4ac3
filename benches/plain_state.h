/* The state's bytes, laid out so that every range is tested by a few vector operations; and the contents no printer has. */
#ifndef PLAIN_STATE_H
#define PLAIN_STATE_H

#include "plain.h"
#include "trestlepip.h"

#include <stdbool.h>
#include <string.h>

enum {
    LINE_CELLS = TRESTLEPIP_LINE_CELLS,
    CELL_BYTES = TRESTLEPIP_CELL_BYTES,
    LINE_BYTES = TRESTLEPIP_LINE_BYTES,
    PAGE_BYTES = TRESTLEPIP_PAGE_BYTES,
    LEGEND_BYTES = TRESTLEPIP_LEGEND_BYTES,
    TABLE_BYTES = TRESTLEPIP_TABLE_BYTES,
    SLOT_BYTES = TABLE_BYTES / 4,
    LOAD_MOST = LEGEND_BYTES,
    PAIRS = 8,
    SENSE_KEPT = 5,
    HALF_INCH = 12,
    MOST_PAGES = TRESTLEPIP_MOST_PAGES,
    HALVES = 32,    /* half inches: 24 at most, rounded up to whole vectors */
    CHANNELS = 144, /* printable lines: 132 at most, likewise */
    SEGMENT_HEAD = 6
};

/* The bits of `flags`; that of slot n is LOADED_0 << n. */
enum { WRITTEN = 0x01, WAITING = 0x02, DUE = 0x04, BLOCKED = 0x08, LOADED_0 = 0x10 };

/* T-02: the page counters, in the order of the paper path. */
enum counter { CHANNEL_PAGE, TRANSFER_PAGE, FUSER_PAGE, STACKER_PAGE, COUNTERS };

/*
 * Bytes alone, so that a lent buffer of any alignment can be read as one. Forms control is kept as its load understood it: how many lines each
 * half inch has, and the channel of each printable line.
 */
struct printer {
    uint8_t halves;             /* form length in half inches */
    uint8_t pitches;            /* two bits a module: 0 absent, 1 to 3 for 10, 12, 15 */
    uint8_t flags;
    uint8_t selected;
    uint8_t reference;
    uint8_t line;
    uint8_t pairs;
    uint8_t overlay_marks;      /* a bit a pair */
    uint8_t ends[PAIRS];        /* the index of each pair's last copy, 00 after the pairs */
    uint8_t spacing[HALVES];    /* lines in each half inch, 00 after the form */
    uint8_t channel[CHANNELS];  /* of each printable line, 00 after the last */
    uint8_t sense[SENSE_KEPT];  /* bytes 0, 1, 2, 22, 23 */
    uint8_t way;                /* of skipping, T-05 */
    uint8_t counters[2 * COUNTERS]; /* high bytes first */
};

_Static_assert(sizeof(struct printer) == PLAIN_STATE_BYTES, "the state has no padding");
_Static_assert(offsetof(struct printer, selected) == PLAIN_STATE_SELECTED, "the selected slot is where plain.h says");
_Static_assert(offsetof(struct printer, counters) == PLAIN_STATE_COUNTERS, "so are the page counters");

/* Form and forms control: the listed lengths, a bit for each number of half inches. */
static inline bool halves_listed(unsigned halves)
{
    const uint32_t listed = 1u << 6 | 1u << 7 | 1u << 8 | 1u << 11 | 1u << 12 | 1u << 14 | 1u << 16 | 1u << 17 | 1u << 20 | 1u << 22 | 1u << 24;
    return halves < 32 && (listed >> halves & 1) != 0;
}

#define EIGHT(v) v, v, v, v, v, v, v, v
#define SIXTEEN(v) EIGHT(v), EIGHT(v)

/* The fewest lines of a half inch, 0 after the form, read from HALVES - halves on. */
static const uint8_t fewest[2 * HALVES] = { SIXTEEN(3), SIXTEEN(3) };

/* The greatest channel of a line, 0 after line P, read from CHANNELS - P on. */
static const uint8_t most[2 * CHANNELS] = {
    SIXTEEN(12), SIXTEEN(12), SIXTEEN(12), SIXTEEN(12), SIXTEEN(12), SIXTEEN(12), SIXTEEN(12), SIXTEEN(12), SIXTEEN(12)
};

/* From 3 to 6 lines but 5, and from 0 to 0 after the form: the fewest are as many as there may be more. */
static inline bool spacing_bad(const uint8_t *spacing, unsigned halves)
{
    const uint8_t *least = fewest + HALVES - halves;
    uint8_t bad = 0;
    for (unsigned i = 0; i < HALVES; i++)
        bad |= ((uint8_t)(spacing[i] - least[i]) > least[i]) | (spacing[i] == 5);
    return bad != 0;
}

static inline bool channels_bad(const uint8_t *channel, unsigned lines)
{
    const uint8_t *limit = most + CHANNELS - lines;
    uint8_t bad = 0;
    for (unsigned i = 0; i < CHANNELS; i++)
        bad |= channel[i] > limit[i];
    return bad != 0;
}

/* P: the lines of all half inches but the first and the last. */
static inline unsigned printable(const struct printer *p)
{
    uint8_t sum = 0;
    for (unsigned i = 0; i < HALVES; i++)
        sum = (uint8_t)(sum + p->spacing[i]);
    return (unsigned)sum - p->spacing[0] - p->spacing[p->halves - 1];
}

/* Each pair has a copy or more, so that the ends rise; they are bytes, so that no total is above 255. */
static inline bool pairs_bad(const struct printer *p)
{
    if (p->pairs == 0 || p->pairs > PAIRS || p->overlay_marks >> p->pairs != 0)
        return true;
    unsigned before = 0, i = 0;
    bool bad = false;
    for (; i < p->pairs; i++) {
        bad |= p->ends[i] <= before;
        before = p->ends[i];
    }
    for (; i < PAIRS; i++)
        bad |= p->ends[i] != 0;
    return bad;
}

/* Slot 0 is always loaded; a reset is due only while a page waits, and then no line is written. */
static inline bool flags_bad(unsigned flags)
{
    return (flags & LOADED_0) == 0 || (flags & (DUE | WAITING)) == DUE || (flags & (WRITTEN | WAITING)) == (WRITTEN | WAITING);
}

static inline uint16_t pages_at(const struct printer *p, enum counter counter)
{
    return (uint16_t)(p->counters[2 * counter] << 8 | p->counters[2 * counter + 1]);
}

static inline void put_pages(struct printer *p, enum counter counter, uint16_t pages)
{
    p->counters[2 * counter] = (uint8_t)(pages >> 8);
    p->counters[2 * counter + 1] = (uint8_t)pages;
}

/* The pages between a counter and the stacker's, which goes on from FFFF to 0000 as the others do. */
static inline uint16_t pages_left(const struct printer *p, enum counter counter)
{
    return (uint16_t)(pages_at(p, counter) - pages_at(p, STACKER_PAGE));
}

/* No counter is ahead of the one before it, and the channel's is ahead of the stacker's by MOST_PAGES at most. */
static inline bool counters_bad(const struct printer *p)
{
    uint16_t channel = pages_left(p, CHANNEL_PAGE), transfer = pages_left(p, TRANSFER_PAGE), fuser = pages_left(p, FUSER_PAGE);
    return fuser > transfer || transfer > channel || channel > MOST_PAGES;
}

/* P, or 0 where the state is one that no printer has. */
static inline unsigned lines_of(const struct printer *p)
{
    if (!halves_listed(p->halves) || spacing_bad(p->spacing, p->halves))
        return 0;
    unsigned lines = printable(p);
    bool singles = (p->pitches & 3) == 0 || p->way > TRESTLEPIP_OLD_WAY || p->selected > 3 || p->reference == 0 || p->line == 0 || p->line > lines;
    return singles || flags_bad(p->flags) || pairs_bad(p) || counters_bad(p) || channels_bad(p->channel, lines) ? 0 : lines;
}

/* Bytes read as words and tested once in 256, with no branch between: the loop over one block is a row of vector operations. */
static inline bool any_in_block(const uint8_t *s)
{
    uint64_t all = 0, word;
    for (unsigned i = 0; i < 256; i += sizeof word) {
        memcpy(&word, s + i, sizeof word);
        all |= word;
    }
    return all != 0;
}

static inline bool all_zero(const uint8_t *s, size_t n)
{
    static const uint8_t zeros[256];
    for (; n >= sizeof zeros; s += sizeof zeros, n -= sizeof zeros)
        if (any_in_block(s))
            return false;
    return memcmp(s, zeros, n) == 0;
}

/* Copies and legends: the six bytes that begin a segment. */
enum { FIRST_COPY, COPIES, FIRST_LINE, LINES, FIRST_POSITION, POSITIONS };

/* A zero among the six, or positions past 204. */
static inline bool head_bad(const uint8_t *s)
{
    bool zero = s[0] == 0 || s[1] == 0 || s[2] == 0 || s[3] == 0 || s[4] == 0 || s[5] == 0;
    return zero || s[FIRST_POSITION] + s[POSITIONS] > LINE_CELLS + 1;
}

static inline size_t segment_size(const uint8_t *s)
{
    return (size_t)SEGMENT_HEAD + s[POSITIONS];
}

/* Where the sound segments at the front of s end; a segment that begins with 00 is not sound. */
static inline size_t sound_end(const uint8_t *s, size_t n)
{
    size_t at = 0;
    while (n - at >= SEGMENT_HEAD && !head_bad(s + at) && n - at >= segment_size(s + at))
        at += segment_size(s + at);
    return at;
}

static inline bool legends_sound(const uint8_t *legends)
{
    size_t end = sound_end(legends, LEGEND_BYTES);
    return all_zero(legends + end, LEGEND_BYTES - end);
}

/* The bits that no mark has, in a word of four cells. */
static inline uint64_t above_1(void)
{
    static const uint8_t bits[] = { 0, 0xFE, 0, 0xFE, 0, 0xFE, 0, 0xFE };
    uint64_t word;
    memcpy(&word, bits, sizeof word);
    return word;
}

/* T-03: the page in blocks, each of rows of twelve words. A block of eleven rows the compiler writes out whole. */
enum { WORD = sizeof(uint64_t), ROW_WORDS = 12, ROW_BYTES = ROW_WORDS * WORD, MARK_BLOCK = 11 * ROW_BYTES };
_Static_assert(PAGE_BYTES % MARK_BLOCK == 0, "the page is whole blocks");

static inline bool any_mark_bad(const uint8_t *block)
{
    uint64_t row[ROW_WORDS] = { 0 }, all = 0, word;
    for (unsigned at = 0; at < MARK_BLOCK; at += ROW_BYTES)
        for (unsigned i = 0; i < ROW_WORDS; i++) {
            memcpy(&word, block + at + i * WORD, WORD);
            row[i] |= word;
        }
    for (unsigned i = 0; i < ROW_WORDS; i++)
        all |= row[i];
    return (all & above_1()) != 0;
}

/*
 * T-03: every mark of the page is 0 or 1. By words side by side, with a test after each block: 0.62 us, the fastest of the plain ways that were tried, and
 * as long as memchr takes to read the page. Word after word takes 0.76 in blocks of 272 bytes, and 1.2 with one test at the end; the marks alone, joined
 * by `|`, take 0.9 to 1.3; a test at each mark takes 9.
 */
static inline bool marks_sound(const uint8_t *page)
{
    for (size_t at = 0; at < PAGE_BYTES; at += MARK_BLOCK)
        if (any_mark_bad(page + at))
            return false;
    return true;
}

/* Numbers, 9: P, or 0 where sizes or contents are wrong. The page comes last, as it takes longest. */
static inline unsigned checked(const uint8_t *state, size_t state_len, const uint8_t *page, size_t page_len,
        const uint8_t *legends, size_t legends_len, size_t tables_len)
{
    if (state_len != PLAIN_STATE_BYTES || page_len != PAGE_BYTES || legends_len != LEGEND_BYTES || tables_len != TABLE_BYTES)
        return 0;
    unsigned lines = lines_of((const struct printer *)state);
    return lines != 0 && legends_sound(legends) && marks_sound(page) ? lines : 0;
}

#endif

/* The script of the program `rows`: each line is obeyed, and what each program gave is compared. */
#define _DEFAULT_SOURCE 1

#include "script.h"

#include "script_parts.h"

#include <stdlib.h>
#include <string.h>

const struct part parts[LENT] = {
    [STATE] = { "state", TRESTLEPIP_STATE_BYTES, 4 },
    [PAGE] = { "page", TRESTLEPIP_PAGE_BYTES, 5 },
    [LEGENDS] = { "legends", TRESTLEPIP_LEGEND_BYTES, 6 },
    [TABLES] = { "tables", TRESTLEPIP_TABLE_BYTES, 7 },
    [BUFFER] = { "buffer", TRESTLEPIP_PAGE_BYTES, 0xFF },
};

struct text {
    char *bytes;
    size_t count;
};

static void stop(const char *why)
{
    perror(why);
    exit(2);
}

/* ---- a line is obeyed ---- */

/* A number of two bytes, high byte first. */
static uint16_t two_bytes(const uint8_t *bytes)
{
    return (uint16_t)(bytes[0] * 256u + bytes[1]);
}

/* The same of four. */
static uint32_t four_bytes(const uint8_t *bytes)
{
    return two_bytes(bytes) * UINT32_C(0x10000) + two_bytes(bytes + 2);
}

#define PART(i) p->lent[i], p->lent_len[i]
#define PART_STORES PART(STATE), PART(PAGE), PART(LEGENDS), PART(TABLES)

static uint64_t make_call(struct player *p, const struct line *l)
{
    const uint8_t *g = l->given;
    p->calls++;
    switch (l->letter) {
    case 'S': return p->exports.start(two_bytes(g), g[2], g[3], g[4], g[5], g[6], PART_STORES);
    case 'F': return p->exports.feet(two_bytes(g), two_bytes(g + 2), four_bytes(g + 4), four_bytes(g + 8), &p->feet);
    case 'C': return p->exports.compose(two_bytes(g), PART(BUFFER), PART_STORES);
    case 'R': return p->exports.release(PART_STORES);
    case 'T': return p->exports.transferred(PART_STORES);
    case 'U': return p->exports.fused(PART_STORES);
    case 'K': return p->exports.stacked(PART_STORES);
    case 'X': return p->exports.cancel(PART_STORES);
    case 'N': return p->exports.restart(PART_STORES);
    default: return p->exports.command(g[0], g + 1, l->count - 1, PART(BUFFER), PART_STORES);
    }
}

static void lend_usual(struct player *p)
{
    for (unsigned i = 0; i < LENT; i++)
        p->lent_len[i] = parts[i].size;
}

/* Feet is lent 1.0, which a refusal must not leave. */
static void obey_call(struct player *p, const struct line *l, FILE *to)
{
    for (enum store i = STATE; i <= TABLES; i++)
        memcpy(p->before[i], p->lent[i], parts[i].size + 1);
    memset(p->lent[BUFFER], parts[BUFFER].filler, parts[BUFFER].size + 1);
    p->feet = 1.0;
    uint64_t answer = make_call(p, l);
    tell_call(to, p, l, answer);
    lend_usual(p);
}

/* Puts a byte into a store, or into the one after it; false if there is no such place. */
static bool put(struct player *p, enum store i, size_t at, uint8_t value)
{
    if (at > parts[i].size)
        return false;
    p->lent[i][at] = value;
    return true;
}

/* How much of a store or the buffer the next call is lent; false if there is no room for it. */
static bool resize(struct player *p, unsigned i, size_t size)
{
    p->lent_len[i] = size;
    return size <= parts[i].size + 1;
}

/* The same for each store by its two bytes, of which 00 00 is the usual size. */
static bool resize_stores(struct player *p, const uint8_t *sizes)
{
    bool room = true;
    for (enum store i = STATE; i <= TABLES; i++) {
        size_t size = two_bytes(sizes + 2 * i);
        room = resize(p, i, size != 0 ? size : parts[i].size) && room;
    }
    return room;
}

/* One line; false if it cannot be obeyed. */
static bool obey_line(struct player *p, const char *text, size_t length, FILE *to)
{
    static struct line l;
    fwrite(text, 1, length, to);
    if (!read_line(&l, text, length))
        return false;
    switch (l.letter) {
    case COMMENT: return true;
    case 'P': return put(p, STATE, l.given[0], l.given[1]);
    case 'G': return put(p, LEGENDS, two_bytes(l.given), l.given[2]);
    case 'M': return put(p, PAGE, two_bytes(l.given), l.given[2]);
    case 'L': return resize_stores(p, l.given);
    case 'B': return resize(p, BUFFER, two_bytes(l.given));
    default: obey_call(p, &l, to); return true;
    }
}

/* ---- texts ---- */

/* Where the line that begins here ends, without its newline. */
static size_t line_end(struct text t, size_t at)
{
    const char *newline = memchr(t.bytes + at, '\n', t.count - at);
    return newline == NULL ? t.count : (size_t)(newline - t.bytes);
}

static FILE *write_text(struct text *t)
{
    FILE *to = open_memstream(&t->bytes, &t->count);
    if (to == NULL)
        stop("no memory");
    return to;
}

static struct text read_file(const char *path)
{
    struct text t;
    FILE *from = fopen(path, "r"), *to = write_text(&t);
    if (from == NULL)
        stop(path);
    for (int c = getc(from); c != EOF; c = getc(from))
        putc(c, to);
    if (ferror(from))
        stop(path);
    fclose(from);
    fclose(to);
    return t;
}

/* What a program gives for the whole script, up to a line that cannot be obeyed. */
static struct text obey_script(struct player *p, struct text script)
{
    struct text given;
    FILE *to = write_text(&given);
    bool obeyed = true;
    for (size_t at = 0, end; obeyed && at < script.count; at = end + 1) {
        end = line_end(script, at);
        obeyed = obey_line(p, script.bytes + at, end - at, to);
        fputs(obeyed ? "\n" : " not read\n", to);
    }
    fclose(to);
    return given;
}

/* ---- comparing ---- */

static void print_line(const char *head, struct text t, size_t at)
{
    if (at < t.count)
        printf("    %-8s %.*s\n", head, (int)(line_end(t, at) - at), t.bytes + at);
    else
        printf("    %-8s no more lines\n", head);
}

/* Whether two texts, alike up to this place, are alike in the line that begins there. */
static bool is_same_line(struct text a, struct text b, size_t at)
{
    size_t end = line_end(a, at);
    return end == line_end(b, at) && memcmp(a.bytes + at, b.bytes + at, end - at) == 0;
}

/* Whether what a program gave is what was expected; prints the first line that is not. */
static bool is_expected(const struct player *p, struct text given, struct text expected)
{
    unsigned long line = 1;
    size_t at = 0;
    for (; at < given.count && at < expected.count && is_same_line(given, expected, at); at = line_end(given, at) + 1)
        line++;
    if (at >= given.count && at >= expected.count)
        return true;
    printf("difference: line %lu of the script, %s\n", line, p->name);
    print_line("given", given, at);
    print_line("expected", expected, at);
    return false;
}

static uint8_t *room_of(size_t count)
{
    uint8_t *room = malloc(count);
    if (room == NULL)
        stop("no memory");
    return room;
}

/* The stores begin with bytes that no Start leaves, and have room for one byte too many. */
static void make_room(struct player *p)
{
    for (unsigned i = 0; i < LENT; i++) {
        p->lent[i] = room_of(parts[i].size + 1);
        memset(p->lent[i], parts[i].filler, parts[i].size + 1);
    }
    for (enum store i = STATE; i <= TABLES; i++)
        p->before[i] = room_of(parts[i].size + 1);
    lend_usual(p);
}

/* The script on one program; one without a call shows nothing, and does not hold. */
static bool play(struct player *p, struct text script, struct text expected)
{
    make_room(p);
    struct text given = obey_script(p, script);
    bool holds = is_expected(p, given, expected);
    free(given.bytes);
    if (holds)
        printf("%lu calls of the script on %s: %s\n", p->calls, p->name, p->calls != 0 ? "0 differences" : "nothing to compare");
    return holds && p->calls != 0;
}

bool script_holds(const char *script_path, const char *expected_path)
{
    static struct player library = { .name = "the library", .exports = EXPORTS(trestlepip) };
    static struct player second = { .name = "the second program", .exports = EXPORTS(second) };
    struct text script = read_file(script_path), expected = read_file(expected_path);
    bool library_holds = play(&library, script, expected), second_holds = play(&second, script, expected);
    free(script.bytes);
    free(expected.bytes);
    return library_holds && second_holds;
}

/* Sends the examples of docs/RECORDS.md, whose path is the argument, to the library, and holds it to what the page says that they give. */
#include "printer.h"

#include <ctype.h>
#include <stdio.h>
#include <stdlib.h>
#include <string.h>

enum { LINE_ROOM = 512, INDENT = 4, RECORD_ROOM = 512, CAUSES = TRESTLEPIP_SEGMENT_FIELDS };

/* The page's session: the printer, and the bytes of the example at hand, of which the first is the command. */
static struct {
    struct printer printer;
    uint8_t bytes[RECORD_ROOM], reply[TRESTLEPIP_SENSE_BYTES];
    size_t count;
    uint64_t answer;
    bool sent, may_be_refused;
    unsigned line;
} session;

static struct {
    unsigned examples, claims;
    bool accepted[256], causes[CAUSES + 1];
} seen;

static bool begins(const char *text, const char *with)
{
    return strncmp(text, with, strlen(with)) == 0;
}

/* The bytes at the front of a text, single blanks between them. Returns how many. */
static size_t read_bytes(const char *text, uint8_t *bytes, size_t room)
{
    size_t count = 0;
    while (count < room && isxdigit((unsigned char)text[0]) && isxdigit((unsigned char)text[1]) && isspace((unsigned char)text[2])) {
        bytes[count++] = (uint8_t)strtoul(text, NULL, 16);
        text += text[2] == ' ' && text[3] != ' ' ? 3 : 2;
    }
    return count;
}

static void send_example(void)
{
    if (session.sent || session.count == 0)
        return;
    session.answer = trestlepip_command(session.bytes[0], session.bytes + 1, session.count - 1,
            session.reply, sizeof session.reply, STORES(&session.printer));
    session.sent = true;
    seen.examples++;
    seen.accepted[session.bytes[0]] |= accepted(session.answer);
}

/* An example that is not said to be refused is accepted. */
static void end_example(void)
{
    send_example();
    check(!session.sent || session.may_be_refused || accepted(session.answer), "refused: the example that ends before line", session.line);
    session.sent = session.may_be_refused = false;
    session.count = 0;
}

/* A copy of the printer on which a page waits: the one that waits, or one that this makes. */
static struct printer *with_page(void)
{
    static struct printer p;
    p = session.printer;
    if (!p.state[TRESTLEPIP_AT_WAITING])
        printer_complete(&p);
    return &p;
}

static uint8_t cells[TRESTLEPIP_PAGE_BYTES];

/* Composes a copy in the cells, of which so many bytes are lent. */
static uint64_t compose(struct printer *p, unsigned copy, size_t room)
{
    return trestlepip_compose(copy, cells, room, STORES(p));
}

static bool gives_lines(unsigned lines)
{
    struct printer *p = with_page();
    size_t room = (size_t)lines * TRESTLEPIP_LINE_BYTES;
    return trestlepip_printable_lines(p->state) == lines && accepted(compose(p, 1, room)) && !accepted(compose(p, 1, room - 1));
}

/* A skip to the channel ends on the line, and finds it: a skip that finds none has a unit check. */
static bool gives_channel(unsigned channel, unsigned line)
{
    static struct printer p;
    p = session.printer;
    uint64_t answer = printer_send(&p, (uint8_t)TRESTLEPIP_SKIP(channel), NULL, 0);
    return accepted(answer) && !(trestlepip_status(answer) & TRESTLEPIP_STATUS_UNIT_CHECK) && p.state[TRESTLEPIP_AT_LINE] == line;
}

static bool gives_copies(unsigned copies)
{
    struct printer *p = with_page();
    return accepted(compose(p, copies, sizeof cells)) && trestlepip_number(compose(p, copies + 1, sizeof cells)) == TRESTLEPIP_BAD_INDEX;
}

static bool gives_copy(unsigned copy, unsigned number, unsigned mark)
{
    uint64_t answer = compose(with_page(), copy, sizeof cells);
    return accepted(answer) && trestlepip_copy_number(answer) == number && trestlepip_mark(answer) == mark;
}

/* Cells of a copy in a row: of each the code or the mark, as `byte_at` reads it. */
static bool gives_cells(uint8_t (*byte_at)(const uint8_t *, size_t), unsigned copy, unsigned line, unsigned position, const char *text)
{
    uint8_t expected[TRESTLEPIP_LINE_CELLS];
    size_t count = read_bytes(text, expected, sizeof expected);
    size_t first = ((size_t)line - 1) * TRESTLEPIP_LINE_CELLS + position - 1;
    bool same = count > 0 && first + count <= sizeof cells / TRESTLEPIP_CELL_BYTES && accepted(compose(with_page(), copy, sizeof cells));
    for (size_t i = 0; same && i < count; i++)
        same = byte_at(cells, first + i) == expected[i];
    return same;
}

static bool gives_reply(const char *text)
{
    uint8_t expected[TRESTLEPIP_SENSE_BYTES];
    return read_bytes(text, expected, sizeof expected) == sizeof expected && memcmp(session.reply, expected, sizeof expected) == 0;
}

static bool gives_number(unsigned number)
{
    session.may_be_refused = true;
    return trestlepip_number(session.answer) == number;
}

static bool gives_cause(unsigned cause)
{
    if (cause <= CAUSES)
        seen.causes[cause] = true;
    return gives_number(TRESTLEPIP_LOAD_CHECK) && trestlepip_cause(session.answer) == cause;
}

/* What stands after "gives", in one of the ways that the page has of saying it. */
static bool is_so(const char *claim)
{
    unsigned a, b, c;
    int end = 0;
    if (sscanf(claim, "P %u", &a) == 1)
        return gives_lines(a);
    if (sscanf(claim, "channel %u on line %u", &a, &b) == 2)
        return gives_channel(a, b);
    if (sscanf(claim, "copies %u", &a) == 1)
        return gives_copies(a);
    if (sscanf(claim, "copy %u: number %u, mark %u", &a, &b, &c) == 3)
        return gives_copy(a, b, c);
    if (sscanf(claim, "copy %u, line %u, position %u: %n", &a, &b, &c, &end) == 3 && end > 0)
        return gives_cells(trestlepip_code_at, a, b, c, claim + end);
    if (sscanf(claim, "rule marks in copy %u, line %u, position %u: %n", &a, &b, &c, &end) == 3 && end > 0)
        return gives_cells(trestlepip_mark_at, a, b, c, claim + end);
    if (sscanf(claim, "number %u", &a) == 1)
        return gives_number(a);
    if (sscanf(claim, "cause %u", &a) == 1)
        return gives_cause(a);
    return begins(claim, "reply ") && gives_reply(claim + strlen("reply "));
}

/* The page gives the form, the pitches and the way of skipping. */
static void start(const char *numbers)
{
    struct printer *p = &session.printer;
    unsigned form, pitch[TRESTLEPIP_MODULES], way;
    bool read = sscanf(numbers, "%u %u %u %u %u %u", &form, &pitch[0], &pitch[1], &pitch[2], &pitch[3], &way) == 2 + TRESTLEPIP_MODULES;
    bool started = read && accepted(trestlepip_start(form, pitch[0], pitch[1], pitch[2], pitch[3], way, STORES(p)));
    check(started, "not started: line", session.line);
}

/* More bytes of the example at hand, or of the next one if this is sent. */
static void take_bytes(const char *text)
{
    if (session.sent && isxdigit((unsigned char)text[0]) && isxdigit((unsigned char)text[1]))
        end_example();
    session.count += read_bytes(text, session.bytes + session.count, RECORD_ROOM - session.count);
}

/* Checks what a line says that its example gives; a line need not say anything. */
static void take_claim(const char *text)
{
    const char *claim = strstr(text, "gives ");
    if (!claim)
        return;
    send_example();
    check(is_so(claim + strlen("gives ")), "not so: line", session.line);
    seen.claims++;
}

static void take_line(const char *text)
{
    if (begins(text, "start "))
        start(text + strlen("start "));
    else if (begins(text, "release"))
        check(accepted(trestlepip_release(STORES(&session.printer))), "not released: line", session.line);
    else
        take_bytes(text);
    take_claim(text);
}

static void read_page(FILE *page)
{
    char text[LINE_ROOM];
    for (session.line = 1; fgets(text, sizeof text, page); session.line++)
        if (strspn(text, " ") >= INDENT)
            take_line(text + INDENT);
        else
            end_example();
    end_example();
}

/* The page has an example of each load and of each cause. */
static void check_whole(void)
{
    static const uint8_t loads[] = {TRESTLEPIP_LOAD_FCB, TRESTLEPIP_LOAD_TABLE, TRESTLEPIP_LOAD_OVERLAY_SEQUENCE,
        TRESTLEPIP_LOAD_COPY_NUMBER, TRESTLEPIP_LOAD_COPY_MODIFICATION, TRESTLEPIP_WRITE_SPACE_1, TRESTLEPIP_SENSE};
    for (size_t i = 0; i < sizeof loads; i++)
        check(seen.accepted[loads[i]], "no example of command", loads[i]);
    for (unsigned cause = 1; cause <= CAUSES; cause++)
        check(seen.causes[cause], "no example of cause", cause);
}

int main(int argc, char **argv)
{
    FILE *page = argc == 2 ? fopen(argv[1], "r") : NULL;
    if (!page) {
        fprintf(stderr, "usage: test_records RECORDS.md\n");
        return 2;
    }
    read_page(page);
    fclose(page);
    check_whole();
    printf("records: %u examples sent, %u things that they give, %u faults\n", seen.examples, seen.claims, faults());
    return faults() == 0 ? 0 : 1;
}

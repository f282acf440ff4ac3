/*
 * The stack that the calls are seen to use. Prints a line `seen` for each row: the call, its bytes, the row's name; then a line `most` for each call: the
 * most of its rows, and how many bytes of them are arguments that the caller puts on the stack. Fails if a row does not get the answer that it is there for,
 * or if a command of the library has no row that it accepts.
 *
 * Link it with -z now: else the first use of memcpy, memmove or memset looks the function up, on the stack of that call. To see just that, link it with
 * -z lazy. Then each row must be the first use: so a row is made ready in a child process, its call is made in another, and this one makes no call.
 */
#define _DEFAULT_SOURCE 1
#include "rows.h"

#include <stdio.h>
#include <stdlib.h>
#include <sys/mman.h>
#include <sys/wait.h>
#include <unistd.h>

/* Two paints with no bit alike: a byte that happens to equal the one differs from the other. */
static const uint8_t paints[] = {0xA5, 0x5A};

static struct bench *bench;

/* Of each export. */
static struct {
    size_t bytes, pushed;
} most[EXPORTS];

/* Commands that a row has seen accepted. */
static bool is_covered[256];

static _Noreturn void stop(const char *what)
{
    perror(what);
    exit(1);
}

/* Does the work in a child process. What it changes in the bench is seen here; if it counts faults, there is one here too. */
static void in_child(void (*work)(const struct row *r, unsigned argument), const struct row *r, unsigned argument)
{
    int status;
    unsigned before = faults();
    pid_t child = fork();
    if (child < 0)
        stop("seen: fork");
    if (child == 0) {
        work(r, argument);
        _exit(faults() == before ? 0 : 1);
    }
    if (waitpid(child, &status, 0) != child)
        stop("seen: waitpid");
    check(status == 0, "stack: a child process had faults, or did not end: status", (unsigned)status);
}

static void make_ready(const struct row *r, unsigned channel)
{
    prepare(bench, r, channel);
}

static void make_call(const struct row *r, unsigned paint)
{
    (void)r;
    bench->answer = painted_call(&bench->call, (uint8_t)paint, &bench->bytes);
}

static bool is_told(uint64_t answer, const struct told *t)
{
    return trestlepip_number(answer) == t->number && trestlepip_cause(answer) == t->cause && trestlepip_lines(answer) == t->lines
        && trestlepip_unprintables(answer) == t->unprintables && trestlepip_copy_number(answer) == t->copy
        && (trestlepip_ready(answer) == 1) == t->ready && ((trestlepip_status(answer) & TRESTLEPIP_STATUS_UNIT_CHECK) != 0) == t->checked;
}

static void judge(const struct row *r)
{
    check(is_told(bench->answer, &r->told), "stack: not the answer that the row is there for, number", trestlepip_number(bench->answer));
    if (!is_told(bench->answer, &r->told))
        fprintf(stderr, "    %s, %s: %016llX\n", exports[r->call].name, r->name, (unsigned long long)bench->answer);
    check(bench->bytes > 0 && bench->bytes < STACK_BYTES, "stack: more than was painted, or nothing", (unsigned)bench->bytes);
}

/* Each time on a printer that is made ready anew. */
static size_t most_of_paints(const struct row *r, unsigned channel)
{
    size_t bytes = 0;
    for (size_t i = 0; i < sizeof paints; i++) {
        in_child(make_ready, r, channel);
        in_child(make_call, r, paints[i]);
        judge(r);
        bytes = bench->bytes > bytes ? bench->bytes : bytes;
    }
    return bytes;
}

static void measure(const struct row *r)
{
    size_t bytes = 0;
    for (unsigned channel = 0; channel == 0 || channel < r->channels; channel++) {
        size_t of_channel = most_of_paints(r, channel);
        bytes = of_channel > bytes ? of_channel : bytes;
        is_covered[bench->call.words[0] % 256] |= r->call == COMMAND && r->told.number == TRESTLEPIP_ACCEPTED;
    }
    printf("seen     %-22s %6zu  %s\n", exports[r->call].name, bytes, r->name);
    most[r->call].pushed = pushed_bytes(&bench->call);
    most[r->call].bytes = bytes > most[r->call].bytes ? bytes : most[r->call].bytes;
}

/* Counts a fault for each command that the library knows and no row has, and for each that a row has and the library does not know. */
static void compare_commands(const struct row *r, unsigned argument)
{
    const uint32_t any_form = 72;
    (void)r;
    (void)argument;
    printer_start(&bench->printer, any_form);
    for (unsigned command = 0; command < 256; command++) {
        bool is_listed = trestlepip_number(printer_send(&bench->printer, (uint8_t)command, NULL, 0)) != TRESTLEPIP_NOT_LISTED;
        check(is_listed == is_covered[command], "stack: no row has it accepted: command", command);
    }
}

int main(void)
{
    bench = mmap(NULL, sizeof *bench, PROT_READ | PROT_WRITE, MAP_SHARED | MAP_ANONYMOUS, -1, 0);
    if (bench == MAP_FAILED)
        stop("seen: mmap");
    for (size_t i = 0; i < row_count; i++)
        measure(&rows[i]);
    in_child(compare_commands, &rows[0], 0);
    for (unsigned i = 0; i < EXPORTS; i++) {
        check(most[i].bytes > 0, "stack: no row for export", i);
        printf("most     %-22s %6zu %6zu\n", exports[i].name, most[i].bytes, most[i].pushed);
    }
    return faults() == 0 ? 0 : 1;
}

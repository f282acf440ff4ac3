/* The bureau's spooler for the morning's weighing sheets. The script ./morning has judged its arguments (host/arguments.sh). */
#define _POSIX_C_SOURCE 200809L
#include <errno.h>
#include <signal.h>
#include <stdlib.h>
#include <string.h>
#include <unistd.h>

#include "messages.h"
#include "morning.h"

struct arguments {
    const char *file, *date;
    unsigned only;
    bool heads;
};

/* The number of the copy with this name; 0 if there is none. */
static unsigned copy_of(const char *name)
{
    for (unsigned i = 0; name && i < COPIES; i++)
        if (strcmp(copies[i].name, name) == 0)
            return i + 1;
    return 0;
}

/* Takes the options, then FILE and DATE; false if they are not such. */
static bool take_arguments(struct arguments *arguments, char **argv)
{
    bool good = true;
    for (argv++; good && *argv && strncmp(*argv, "--", 2) == 0; argv++) {
        bool is_copy = strcmp(*argv, "--copy") == 0;
        bool is_heads = strcmp(*argv, "--heads") == 0;
        if (is_copy)
            arguments->only = copy_of(*++argv);
        arguments->heads = arguments->heads || is_heads;
        good = is_heads || (is_copy && arguments->only != 0);
    }
    if (!good || !argv[0] || !argv[1] || argv[2])
        return false;
    arguments->file = argv[0];
    arguments->date = argv[1];
    return strlen(arguments->date) == DATE_WIDTH;
}

/* Reads the weights from the file, or from standard input if that is named "-". */
static enum endings read_weights(struct herd *herd, const char *file)
{
    if (strcmp(file, "-") == 0)
        return weights_read(herd, stdin, "standard input", stderr);
    FILE *from = fopen(file, "r");
    if (!from) {
        fprintf(stderr, SAYS_NOT_READ, file, strerror(errno));
        return REFUSED;
    }
    enum endings ending = weights_read(herd, from, file, stderr);
    fclose(from);
    return ending;
}

/* One start serves all copies of a run: a copy has its way if it is printed alone. */
static uint32_t way_of(unsigned only)
{
    return only != 0 ? copies[only - 1].way : TRESTLEPIP_NEW_WAY;
}

/* A printer takes a form feed between sheets; on a screen an empty line is enough. */
static enum endings print(const struct arguments *arguments, const struct herd *herd, const struct plan *plan)
{
    static struct spool spool;
    spool.sheets = stdout;
    spool.reports = stderr;
    spool.only = arguments->only;
    spool.heads = arguments->heads;
    spool.between = isatty(fileno(stdout)) ? "\n" : "\f";
    spool_start(&spool, FORM_LENGTH, way_of(spool.only));
    sheets_load(&spool, arguments->date, herd->sample);
    sheets_print(&spool, herd, plan);
    return report_end(&spool, plan);
}

static enum endings run(const struct arguments *arguments, struct herd *herd, struct plan *plan)
{
    enum endings ending = read_weights(herd, arguments->file);
    if (ending != ALL_GOOD)
        return ending;
    if (sheets_plan(plan, herd))
        return print(arguments, herd, plan);
    fprintf(stderr, SAYS_NO_MEMORY);
    return STOPPED;
}

int main(int argc, char **argv)
{
    struct arguments arguments = {0};
    struct herd herd = {.allocate = realloc};
    struct plan plan = {0};
    if (argc < 1 || !take_arguments(&arguments, argv)) {
        fprintf(stderr, SAYS_USAGE);
        return REFUSED;
    }
    /* A printer that goes away is a sheet that could not be written. */
    signal(SIGPIPE, SIG_IGN);
    enum endings ending = run(&arguments, &herd, &plan);
    free(plan.sheets);
    free(herd.animals);
    free(herd.places);
    return (int)ending;
}

/* The driver: runs lists of calls, the long list, or a script on the library and on the second program, and compares what they give; or demand 3 on
 * pairs. */
#include "counts.h"
#include "demand3.h"
#include "long_list.h"
#include "programs.h"
#include "run.h"
#include "script.h"

#include <stdio.h>
#include <stdlib.h>
#include <string.h>

static void usage(void)
{
    fprintf(stderr, "drive: usage: drive [--calls N] [--seed S] [--lists L] [--guard] [--meet-all]; L is not above N\n"
            "              drive --demand-3 N [--seed S] [--meet-all]\n"
            "              drive --long-list\n"
            "              drive --script FILE --expect FILE\n");
    exit(2);
}

static unsigned long long number_argument(const char *text)
{
    char *end = NULL;
    if (text == NULL || *text < '0' || *text > '9')
        usage();
    unsigned long long value = strtoull(text, &end, 0);
    if (*end != '\0')
        usage();
    return value;
}

/* A number of calls, lists or pairs. */
static unsigned long long count_argument(const char *text)
{
    unsigned long long value = number_argument(text);
    if (value == 0)
        usage();
    return value;
}

static struct options read_options(char **argument)
{
    struct options o = { .calls = 200000, .seed = 3800 };
    for (; *argument != NULL; argument++) {
        if (strcmp(*argument, "--guard") == 0)
            o.guard_all = true;
        else if (strcmp(*argument, "--meet-all") == 0)
            o.meet_all = true;
        else if (strcmp(*argument, "--demand-3") == 0)
            o.pairs = count_argument(*++argument);
        else if (strcmp(*argument, "--calls") == 0)
            o.calls = count_argument(*++argument);
        else if (strcmp(*argument, "--lists") == 0)
            o.lists = count_argument(*++argument);
        else if (strcmp(*argument, "--seed") == 0)
            o.seed = number_argument(*++argument);
        else
            usage();
    }
    o.lists = o.lists == 0 ? usual_lists(o.calls) : o.lists;
    if (o.lists > o.calls)
        usage();
    return o;
}

/* Prints what is made, or has been. */
static void print_made(unsigned long long calls, const struct options *o, const char *also)
{
    printf("%llu call%s in %llu list%s, seed %llu%s\n", calls, calls == 1 ? "" : "s", o->lists, o->lists == 1 ? "" : "s", o->seed, also);
}

/* Lists of calls, and the table of what they met; whether all is as it must be. */
static bool lists_hold(struct options options)
{
    static struct run r;
    r.options = options;
    print_made(r.options.calls, &r.options, r.options.guard_all ? ", guard pages for all lists" : ", guard pages for two lists of each four");
    fflush(stdout);
    make_buffers(&r);
    catch_faults();
    if (!run_lists(&r))
        return false;
    struct faults f = counts_print(&r.counts);
    print_made(r.calls_made, &r.options, ": 0 differences");
    return f.forbidden == 0 && (f.missing == 0 || !r.options.meet_all);
}

static bool asks_for_script(int count, char **arguments)
{
    return count == 5 && strcmp(arguments[1], "--script") == 0 && strcmp(arguments[3], "--expect") == 0;
}

/* What the command line asks for, and whether it holds. */
static bool all_holds(int count, char **arguments)
{
    if (asks_for_script(count, arguments))
        return script_holds(arguments[2], arguments[4]);
    if (count == 2 && strcmp(arguments[1], "--long-list") == 0)
        return long_list_holds();
    struct options options = read_options(arguments + (count > 0 ? 1 : 0));
    return options.pairs != 0 ? demand_3_holds(options.pairs, options.seed, options.meet_all) : lists_hold(options);
}

int main(int count, char **arguments)
{
    return all_holds(count, arguments) ? 0 : 1;
}

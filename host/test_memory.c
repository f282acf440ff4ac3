/* Reads weights and plans sheets with too little memory, and asks that this is reported. */
#include <stdlib.h>
#include <string.h>

#include "messages.h"
#include "test_refusals.h"
#include "test_run.h"

/* realloc that gives memory so many times more. */
static unsigned gifts;
static void *give(void *array, size_t bytes)
{
    return gifts-- > 0 ? realloc(array, bytes) : NULL;
}

/* Reads and plans with memory for this many growths; answers whether it was enough. */
static bool is_memory_enough(unsigned growths)
{
    struct herd herd = {.allocate = give};
    struct plan sheets = {0};
    FILE *from = scratch(), *reports = scratch();
    fputs("Here,1,Ann,1\nThere,1,Bess,2\nHere,2,Cora,3\n", from);
    rewind(from);
    gifts = growths;
    enum endings ending = weights_read(&herd, from, "weights", reports);
    bool planned = ending == ALL_GOOD && sheets_plan(&sheets, &herd);
    const char *text = written(reports);
    fputs(text, stderr);
    check(ending != REFUSED && strcmp(text, ending == ALL_GOOD ? "" : SAYS_NO_MEMORY) == 0, "not reported: memory for growths", growths);
    free(sheets.sheets);
    free(herd.animals);
    free(herd.places);
    fclose(from);
    return planned;
}

void test_memory(void)
{
    unsigned growths = 0;
    while (!is_memory_enough(growths))
        growths++;
    check(growths == 7, "another number of growths:", growths);
}

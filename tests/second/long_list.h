/* The long list: from Start alone, more pages than a counter can tell. */
#ifndef LONG_LIST_H
#define LONG_LIST_H

#include <stdbool.h>

/* Runs the long list on both programs, in each way of skipping; false once a difference, or what must not be, has been printed. */
bool long_list_holds(void);

#endif

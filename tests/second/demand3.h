/* Demand 3, run: pairs of printers that agree since a finished reset, whatever came before it, if their page counters agree there. */
#ifndef DEMAND3_H
#define DEMAND3_H

#include <stdbool.h>

/* Runs so many pairs on the library and prints what they met; false if two printers differ, or, where all is to be met, if something was not. */
bool demand_3_holds(unsigned long long pairs, unsigned long long seed, bool meet_all);

#endif

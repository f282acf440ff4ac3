/* The script of the program `rows` (crates/rows/stdin, which says how it is written), obeyed by the library and by the second program. */
#ifndef SCRIPT_H
#define SCRIPT_H

#include <stdbool.h>

/* Whether both programs, obeying this script, give the very lines of the other file; prints the first line that one of them gives otherwise. */
bool script_holds(const char *script_path, const char *expected_path);

#endif

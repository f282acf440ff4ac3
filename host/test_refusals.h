/* The parts of the program test_refusals that have files of their own. `page` is docs/NUMBERS.md. */
#ifndef TEST_REFUSALS_H
#define TEST_REFUSALS_H

#include <stdio.h>

/* Returns how many checks were provoked. */
size_t test_checks(FILE *page);

void test_pages(void);

/* Returns how many rules were shown. */
size_t test_rules(void);

void test_memory(void);
void test_text(void);

#endif

/* A row as text, and the accesses as a recording (docs/MANUAL.md). No library, no allocation. */
#ifndef CENSUS_TEXT_H
#define CENSUS_TEXT_H

#include "census.h"

/* Prints text with `print`, which gets one character after the other. */
struct census_printer {
    void (*print)(void *at, char character);
    void *at;
};

void census_print_table(const struct census_printer *to, enum census_end end, const struct census_row rows[CENSUS_RULES]);
/* The same in words alone: `scratch holds ff`, a line for each rule, to be compared by a program. */
void census_print_rows(const struct census_printer *to, enum census_end end, const struct census_row rows[CENSUS_RULES]);
/* Three rules to a line of 80, for a screen of 25 lines: a rule that differs has its value, one that was not seen a dash. */
void census_print_short(const struct census_printer *to, enum census_end end, const struct census_row rows[CENSUS_RULES]);
void census_print_recording(const struct census_printer *to, const struct census_recording *recording);

#endif

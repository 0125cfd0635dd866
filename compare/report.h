/* Differences and what was never reached: printed, counted. */
#ifndef REPORT_H
#define REPORT_H

#include "world.h"

/* Counts a difference and prints its head. False where it is to be silent. */
bool report_difference(const char *kind, uint64_t seed, uint64_t number);

/* Counts and prints a thing that should have been seen and was not. */
void report_missing(const char *what, const char *which);

/* Both numbers, where they differ. */
void report_number(const char *what, uint64_t plain, uint64_t proved);

void report_cells(const char *what, const uint32_t *cells);

void report_lengths(const struct world *w);

/* What was handed out, where the sides differ. */
void report_outcomes(const struct outcomes *out);

/* The cells, data and output words in which the proved side differs. */
void report_sides(const struct world *w);

/* The same of the counted side, the library by crowmitten_run_with. */
void report_counted(const struct world *w);

/* The first words that differ. */
void report_words(const char *what, const uint16_t *plain,
                  const uint16_t *proved, size_t count);

/* The last line. The program's exit: 0 where nothing was counted. */
int report_end(void);

#endif

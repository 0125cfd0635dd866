/* Results of a wrong length, lent to crowmitten_run_with. */
#ifndef RESULTS_H
#define RESULTS_H

#include "world.h"

/*
 * Now and then, before a case's own call: a run with results of a wrong length
 * is refused with 2, whatever else is wrong, and changes nothing. The sides are
 * level before it and after. Drawn from a sequence of its own.
 */
void results_case(struct world *w, bool spoilt, uint16_t budget,
                  uint64_t kind, uint64_t seed, uint64_t number);

/* What was lent, and what never was. */
void print_results(void);

#endif

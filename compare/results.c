#include "results.h"

#include "cases.h"
#include "report.h"

#include <inttypes.h>
#include <stdio.h>

static const uint32_t wrong_lengths[] = { 0, 1, 2, 4, RESULT_ROOM,
                                          WIDE_RESULTS };
enum { LENGTHS = sizeof wrong_lengths / sizeof wrong_lengths[0] };

/* By length, in a good world [0] and in a spoilt one [1]. */
static uint64_t refused[LENGTHS][2];

void results_case(struct world *w, bool spoilt, uint16_t budget,
                  uint64_t kind, uint64_t seed, uint64_t number)
{
    struct draw d = draw_case(seed, KIND_RESULTS + kind, number);
    if (!draw_percent(&d, spoilt ? 40 : 3))
        return;
    uint32_t which = draw_below(&d, LENGTHS);
    refused[which][spoilt]++;
    if (results_refused(w, budget, wrong_lengths[which]))
        return;
    if (report_difference(kind == KIND_RUN ? "results of run"
                                           : "results of step",
                          seed, number)) {
        printf("  results of %" PRIu32 " numbers, budget %" PRIu32
               ": not refused with 2, or something is changed\n",
               wrong_lengths[which], (uint32_t)budget);
        report_lengths(w);
        report_cells("cells before", w->plain.cells);
        report_counted(w);
    }
    sides_level(w);
}

void print_results(void)
{
    printf("results of a wrong length, in a good world + a spoilt one:");
    for (int i = 0; i < LENGTHS; i++)
        printf("%s %" PRIu32 ": %" PRIu64 " + %" PRIu64, i == 0 ? "" : ",",
               wrong_lengths[i], refused[i][0], refused[i][1]);
    printf("\n");
    for (int i = 0; i < LENGTHS; i++) {
        char length[12];
        snprintf(length, sizeof length, "%" PRIu32, wrong_lengths[i]);
        if (refused[i][0] == 0 || refused[i][1] == 0)
            report_missing("results of a wrong length,", length);
    }
}

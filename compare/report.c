#include "report.h"

#include <inttypes.h>
#include <stdio.h>

enum { PRINTED = 10, WORDS_PRINTED = 8 };

static unsigned long differences;
static unsigned long missing;

static const char *const cell_names[PLAIN_CELLS] = {
    "ACC", "P", "T", "PC", "PFC",
    "AR0", "AR1", "AR2", "AR3", "AR4", "AR5", "AR6", "AR7",
    "ARP", "ARB", "DP", "PM", "OV", "OVM", "SXM", "C", "CNF", "MID", "RPTC",
    "STACK0", "STACK1", "STACK2", "STACK3",
    "STACK4", "STACK5", "STACK6", "STACK7",
    "INPUT_CURSOR", "OUTPUT_CURSOR",
};

bool report_difference(const char *kind, uint64_t seed, uint64_t number)
{
    differences++;
    if (differences > PRINTED)
        return false;
    printf("DIFFERENCE in %s %" PRIu64 " of seed %" PRIu64 "\n", kind, number,
           seed);
    return true;
}

void report_missing(const char *what, const char *which)
{
    missing++;
    printf("NEVER REACHED: %s %s\n", what, which);
}

void report_number(const char *what, uint64_t plain, uint64_t proved)
{
    if (plain != proved)
        printf("  %s: plain %" PRIu64 ", proved %" PRIu64 "\n", what, plain,
               proved);
}

void report_cells(const char *what, const uint32_t *cells)
{
    printf("  %s:", what);
    for (int i = 0; i < PLAIN_CELLS; i++)
        printf(" %s=%" PRIX32, cell_names[i], cells[i]);
    printf("\n");
}

void report_lengths(const struct world *w)
{
    printf("  lengths: cells %zu, rom %zu, data %zu, input %zu, output %zu\n",
           w->cells_length, w->rom_length, w->data_length, w->input_length,
           w->output_length);
}

void report_words(const char *what, const uint16_t *plain,
                  const uint16_t *proved, size_t count)
{
    size_t found = 0;
    for (size_t i = 0; i < count; i++) {
        if (plain[i] == proved[i])
            continue;
        if (found++ < WORDS_PRINTED)
            printf("  %s %04zX: plain %04X, proved %04X\n", what, i, plain[i],
                   proved[i]);
    }
    if (found > WORDS_PRINTED)
        printf("  %s: %zu words differ\n", what, found);
}

void report_outcomes(const struct outcomes *out)
{
    const struct outcome *a = &out->plain;
    const struct outcome *c = &out->counted;
    printf("  plain's answer %" PRIu32 ", steps %" PRIu32 ", external reads %"
           PRIu32 ", writes %" PRIu32 "\n", a->answer, a->steps, a->reads,
           a->writes);
    report_number("answer", a->answer, out->proved.answer);
    report_number("steps", a->steps, out->proved.steps);
    report_number("run_with: answer", a->answer, c->answer);
    report_number("run_with: steps", a->steps, c->steps);
    report_number("run_with: external reads", a->reads, c->reads);
    report_number("run_with: external writes", a->writes, c->writes);
    report_number("run_with: changed behind the results", a->past, c->past);
}

static void report_changed_cells(const char *call, const uint32_t *plain,
                                 const uint32_t *proved)
{
    for (int i = 0; i < CELL_ROOM; i++)
        if (plain[i] != proved[i])
            printf("  %s%s after: plain %" PRIX32 ", proved %" PRIX32 "\n",
                   call, i < PLAIN_CELLS ? cell_names[i] : "past the cells",
                   plain[i], proved[i]);
}

void report_sides(const struct world *w)
{
    const struct side *a = &w->plain;
    const struct side *b = &w->proved;
    report_changed_cells("", a->cells, b->cells);
    report_words("data", a->data, b->data, MEMORY_ROOM);
    report_words("output", a->output, b->output, PORT_ROOM);
}

void report_counted(const struct world *w)
{
    const struct side *a = &w->plain;
    const struct side *c = &w->counted;
    report_changed_cells("run_with: ", a->cells, c->cells);
    report_words("run_with: data", a->data, c->data, MEMORY_ROOM);
    report_words("run_with: output", a->output, c->output, PORT_ROOM);
}

int report_end(void)
{
    printf("differences: %lu", differences);
    if (missing != 0)
        printf("; never reached: %lu", missing);
    printf("\n");
    return differences != 0 || missing != 0;
}

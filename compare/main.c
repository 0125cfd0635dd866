/*
 * compare CASES SEED: feeds both emulators the same worlds.
 * compare bench: measures their speed.
 * compare once LOAD SIDE BUDGET: one run of the benchmark, or (sides 2 and 3)
 * its steps by calls, or (side 4) a run by crowmitten_run_with; no output.
 */
#include "cases.h"
#include "report.h"
#include "results.h"
#include "words.h"

#include <inttypes.h>
#include <stdio.h>
#include <stdlib.h>
#include <string.h>

static bool number_in(const char *text, uint64_t *number)
{
    char *end;
    *number = strtoull(text, &end, 10);
    return text[0] >= '0' && text[0] <= '9' && *end == '\0';
}

static int compare_all(uint64_t cases, uint64_t seed)
{
    if (!words_sort())
        report_missing("built:", "75 pages");
    printf("seed %" PRIu64 "\n", seed);
    compare_empty();
    compare_words(seed);
    compare_steps(seed, cases);
    compare_runs(seed, cases / 50);
    print_results();
    compare_files(seed, cases / 50);
    compare_views(seed, cases / 50);
    if (!wide_untouched() && report_difference("all cases, up to", seed, cases))
        printf("  a slice of a wrong length was changed\n");
    return report_end();
}

int main(int count, char **words)
{
    uint64_t numbers[3];
    if (count == 2 && strcmp(words[1], "bench") == 0)
        return measure_speed();
    if (count == 3 && number_in(words[1], &numbers[0])
        && number_in(words[2], &numbers[1]))
        return compare_all(numbers[0], numbers[1]);
    if (count == 5 && strcmp(words[1], "once") == 0
        && number_in(words[2], &numbers[0]) && number_in(words[3], &numbers[1])
        && number_in(words[4], &numbers[2]))
        return run_once(numbers[0], numbers[1], numbers[2]);
    fprintf(stderr, "usage: compare CASES SEED, or compare bench\n");
    return 2;
}

/* Empty slices, lent as NULL: what each call of the library answers. */
#include "cases.h"
#include "report.h"

#include "crowmitten.h"

#include <stdio.h>

static uint32_t cells[CROWMITTEN_CELLS];
static uint16_t rom[CROWMITTEN_MEMORY_WORDS];
static uint16_t data[CROWMITTEN_MEMORY_WORDS];
static uint8_t bytes[CROWMITTEN_FILE_BYTES_MAX];

static void expect(const char *call, uint64_t want, uint64_t got)
{
    if (want != got && report_difference(call, 0, 0))
        report_number("wanted, got", want, got);
}

/* Numbers that a call must change. */
enum { OTHER = 77 };

static uint32_t results[CROWMITTEN_RESULTS];

/* A run with results, of cells that may be empty and of these lengths. */
static uint32_t run_with(size_t cells_length, size_t memory_length,
                         uint16_t budget, size_t results_length)
{
    bool lent = memory_length > 0;
    for (int i = 0; i < CROWMITTEN_RESULTS; i++)
        results[i] = OTHER;
    return crowmitten_run_with(cells_length > 0 ? cells : NULL, cells_length,
                               lent ? rom : NULL, memory_length,
                               lent ? data : NULL, memory_length, NULL, 0,
                               NULL, 0, budget,
                               results_length > 0 ? results : NULL,
                               results_length);
}

static void expect_results(uint32_t steps, uint32_t reads, uint32_t writes)
{
    expect("results, steps", steps, results[CROWMITTEN_STEPS]);
    expect("results, reads", reads, results[CROWMITTEN_READS]);
    expect("results, writes", writes, results[CROWMITTEN_WRITES]);
}

static void empty_cells(void)
{
    uint32_t steps = OTHER, memory = OTHER;
    size_t from = OTHER, count = OTHER, sent = OTHER;
    expect("reset", 2, crowmitten_reset(NULL, 0));
    expect("step", 2, crowmitten_step(NULL, 0, NULL, 0, NULL, 0, NULL, 0,
                                      NULL, 0));
    expect("run", 2, crowmitten_run(NULL, 0, NULL, 0, NULL, 0, NULL, 0,
                                    NULL, 0, 1, &steps));
    expect("window", 2, crowmitten_window(NULL, 0, NULL, 0, NULL, 0, 0,
                                          &memory, &from, &count));
    expect("words sent", 2, crowmitten_words_sent(NULL, 0, NULL, 0, &sent));
    expect("counts", 0, steps + memory + from + count + sent);
    expect("run with", 2, run_with(0, 0, 1, CROWMITTEN_RESULTS));
    expect_results(0, 0, 0);
    expect("run with, no results", 2, run_with(0, 0, 1, 0));
}

static void empty_memories(void)
{
    uint32_t steps = OTHER, memory = OTHER;
    size_t from = OTHER, count = OTHER;
    crowmitten_reset(cells, CROWMITTEN_CELLS);
    expect("step", 2, crowmitten_step(cells, CROWMITTEN_CELLS, NULL, 0, NULL,
                                      0, NULL, 0, NULL, 0));
    expect("run", 2, crowmitten_run(cells, CROWMITTEN_CELLS, NULL, 0, NULL, 0,
                                    NULL, 0, NULL, 0, 1, &steps));
    expect("window", 2, crowmitten_window(cells, CROWMITTEN_CELLS, NULL, 0,
                                          NULL, 0, 0, &memory, &from, &count));
    expect("counts", 0, steps + memory + from + count);
    expect("run with", 2, run_with(CROWMITTEN_CELLS, 0, 1, CROWMITTEN_RESULTS));
    expect_results(0, 0, 0);
}

/* 2 for the results goes before 1, and before any step. */
static void empty_results(void)
{
    crowmitten_reset(cells, CROWMITTEN_CELLS);
    rom[0] = 0x5500; /* NOP */
    expect("run with, no results", 2, run_with(CROWMITTEN_CELLS,
                                               CROWMITTEN_MEMORY_WORDS, 1, 0));
    expect("PC after no results", 0, cells[CROWMITTEN_PC]);
    cells[CROWMITTEN_ARP] = 8;
    expect("run with, no results", 2, run_with(CROWMITTEN_CELLS,
                                               CROWMITTEN_MEMORY_WORDS, 0, 0));
    expect("run with", 1, run_with(CROWMITTEN_CELLS, CROWMITTEN_MEMORY_WORDS, 0,
                                   CROWMITTEN_RESULTS));
    expect_results(0, 0, 0);
}

/* IN of a dry port is refused and stores nothing (D02, request 2). */
static void empty_input(void)
{
    uint32_t steps = OTHER;
    crowmitten_reset(cells, CROWMITTEN_CELLS);
    rom[0] = 0x8060; /* IN 60h, PA0 */
    data[0x60] = OTHER;
    expect("step", 11, crowmitten_step(cells, CROWMITTEN_CELLS, rom,
                                       CROWMITTEN_MEMORY_WORDS, data,
                                       CROWMITTEN_MEMORY_WORDS, NULL, 0, NULL,
                                       0));
    expect("run", 11, crowmitten_run(cells, CROWMITTEN_CELLS, rom,
                                     CROWMITTEN_MEMORY_WORDS, data,
                                     CROWMITTEN_MEMORY_WORDS, NULL, 0, NULL, 0,
                                     2, &steps));
    expect("steps", 0, steps);
    expect("run with", 11, run_with(CROWMITTEN_CELLS, CROWMITTEN_MEMORY_WORDS,
                                    2, CROWMITTEN_RESULTS));
    expect_results(0, 0, 0);
    expect("word of a dry port", OTHER, data[0x60]);
    expect("PC at a dry port", 0, cells[CROWMITTEN_PC]);
    expect("cursor of a dry port", 0, cells[CROWMITTEN_INPUT_CURSOR]);
}

/* OUT to a full port is refused, here as the third step. */
static void empty_output(void)
{
    uint32_t steps = OTHER;
    size_t sent = OTHER;
    crowmitten_reset(cells, CROWMITTEN_CELLS);
    rom[0] = 0xC808; /* LDPK 8 */
    rom[1] = 0x6000; /* SACL 400h: an external write (D02, request 7) */
    rom[2] = 0xE100; /* OUT 400h, PA1 */
    expect("run", 10, crowmitten_run(cells, CROWMITTEN_CELLS, rom,
                                     CROWMITTEN_MEMORY_WORDS, data,
                                     CROWMITTEN_MEMORY_WORDS, NULL, 0, NULL, 0,
                                     3, &steps));
    expect("steps", 2, steps);
    crowmitten_reset(cells, CROWMITTEN_CELLS);
    expect("run with", 10, run_with(CROWMITTEN_CELLS, CROWMITTEN_MEMORY_WORDS,
                                    3, CROWMITTEN_RESULTS));
    expect_results(2, 0, 1);
    expect("words sent", 0, crowmitten_words_sent(cells, CROWMITTEN_CELLS,
                                                  NULL, 0, &sent));
    expect("count", 0, sent);
}

static void empty_files(void)
{
    size_t count = OTHER, inputs = OTHER;
    uint16_t budget = OTHER;
    expect("read", 20, crowmitten_read(NULL, 0, &inputs, &budget));
    expect("set up", 20, crowmitten_set_up(NULL, 0, NULL, 0, NULL, 0, NULL, 0));
    expect("write", 23, crowmitten_write(NULL, 0, NULL, 0, NULL, 0, 5, NULL, 0,
                                         &count));
    expect("counts", 0, inputs + budget + count);
    expect("write", 0, crowmitten_write(NULL, 0, NULL, 0, NULL, 0, 5, bytes,
                                        sizeof bytes, &count));
    expect("bytes", 16, count);
    expect("set up", 2, crowmitten_set_up(bytes, count, NULL, 0, NULL, 0, NULL,
                                          0));
    expect("set up", 0, crowmitten_set_up(bytes, count, rom,
                                          CROWMITTEN_MEMORY_WORDS, data,
                                          CROWMITTEN_MEMORY_WORDS, NULL, 0));
    expect("word of an empty program", 0, rom[0]);
}

void compare_empty(void)
{
    empty_cells();
    empty_memories();
    empty_results();
    empty_input();
    empty_output();
    empty_files();
    printf("empty slices: each of the nine calls, with NULL\n");
}

/* The kinds of cases, each with its own sequence for every case's number. */
#ifndef CASES_H
#define CASES_H

#include <stdint.h>

enum {
    KIND_STEP = 1,
    KIND_RUN,
    KIND_FILE,
    KIND_VIEW,
    KIND_WORD,
    KIND_RESULTS = 16 /* added to a kind, for the results lent to its cases */
};

/* Every call of the library with empty slices, lent as NULL. */
void compare_empty(void);

/* One step of every word, from a state drawn by chance. */
void compare_words(uint64_t seed);

/* Single steps from states drawn by chance. */
void compare_steps(uint64_t seed, uint64_t cases);

/* Whole runs of programs drawn by chance. */
void compare_runs(uint64_t seed, uint64_t cases);

/* Run files, good and damaged: read, set up, written. */
void compare_files(uint64_t seed, uint64_t cases);

/* Fetch windows, words sent and resets. */
void compare_views(uint64_t seed, uint64_t cases);

/* Steps per second of both emulators. Gives the program's exit. */
int measure_speed(void);

/*
 * One run of a workload, 0 to 2, on the plain (0) or proved (1) side, its steps
 * by calls of step (2 and 3), or a run by crowmitten_run_with (4).
 */
int run_once(uint64_t load, uint64_t side, uint64_t budget);

#endif

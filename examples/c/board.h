/* A board for the examples: what the calls of the library are lent, in one place. */
#ifndef BOARD_H
#define BOARD_H

#include "crowmitten.h"

struct board {
    uint32_t cells[CROWMITTEN_CELLS];
    uint16_t rom[CROWMITTEN_MEMORY_WORDS], data[CROWMITTEN_MEMORY_WORDS];
    uint16_t input[CROWMITTEN_PORT_WORDS_MAX], output[CROWMITTEN_PORT_WORDS_MAX];
    size_t input_count;
    uint16_t budget; /* the run file's */
};

/* Sets the board up from the run file on standard input, and resets it: 0, 20, 21 or 22. Ends the program where the file cannot be read. */
uint32_t set_up_board(struct board *b);

uint32_t run_board(struct board *b, uint16_t budget, uint32_t *steps);

/* The same, with all that a run hands out: CROWMITTEN_RESULTS numbers. */
uint32_t run_board_with(struct board *b, uint16_t budget, uint32_t *results);

/* The line of a run, as `replay` prints it. */
void print_line(const struct board *b, uint32_t answer, uint32_t steps);

#endif

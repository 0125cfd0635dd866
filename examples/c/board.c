#include "board.h"

#include <inttypes.h>
#include <stdio.h>
#include <stdlib.h>

uint32_t set_up_board(struct board *b)
{
    /* One byte more than any file has: a longer one is then refused. */
    static uint8_t bytes[CROWMITTEN_FILE_BYTES_MAX + 1];
    size_t length = fread(bytes, 1, sizeof bytes, stdin);
    uint32_t answer;

    if (ferror(stdin)) {
        perror("the run file could not be read");
        exit(1);
    }
    answer = crowmitten_read(bytes, length, &b->input_count, &b->budget);
    if (answer != CROWMITTEN_DONE)
        return answer;
    crowmitten_reset(b->cells, CROWMITTEN_CELLS);
    return crowmitten_set_up(bytes, length, b->rom, CROWMITTEN_MEMORY_WORDS, b->data,
                             CROWMITTEN_MEMORY_WORDS, b->input, b->input_count);
}

uint32_t run_board(struct board *b, uint16_t budget, uint32_t *steps)
{
    return crowmitten_run(b->cells, CROWMITTEN_CELLS, b->rom, CROWMITTEN_MEMORY_WORDS, b->data,
                          CROWMITTEN_MEMORY_WORDS, b->input, b->input_count, b->output,
                          CROWMITTEN_PORT_WORDS_MAX, budget, steps);
}

uint32_t run_board_with(struct board *b, uint16_t budget, uint32_t *results)
{
    return crowmitten_run_with(b->cells, CROWMITTEN_CELLS, b->rom, CROWMITTEN_MEMORY_WORDS,
                               b->data, CROWMITTEN_MEMORY_WORDS, b->input, b->input_count,
                               b->output, CROWMITTEN_PORT_WORDS_MAX, budget, results,
                               CROWMITTEN_RESULTS);
}

void print_line(const struct board *b, uint32_t answer, uint32_t steps)
{
    size_t count, i;

    crowmitten_words_sent(b->cells, CROWMITTEN_CELLS, b->output, CROWMITTEN_PORT_WORDS_MAX,
                          &count);
    printf("%" PRIu32 " %" PRIu32 " %04" PRIX32 " %08" PRIX32 " %" PRIu32, answer, steps,
           b->cells[CROWMITTEN_PC], b->cells[CROWMITTEN_ACC], b->cells[CROWMITTEN_OV]);
    for (i = 0; i < count; i++)
        printf(" %04" PRIX16, b->output[i]);
    printf("\n");
}

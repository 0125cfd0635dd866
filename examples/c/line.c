/* Runs the file on standard input from reset and prints its line, as `replay` does. */
#include "board.h"

#include <inttypes.h>
#include <stdio.h>

static struct board board;

int main(void)
{
    uint32_t answer = set_up_board(&board), steps;

    if (answer != CROWMITTEN_DONE) {
        printf("%" PRIu32 "\n", answer);
        return 0;
    }
    answer = run_board(&board, board.budget, &steps);
    print_line(&board, answer, steps);
    return 0;
}

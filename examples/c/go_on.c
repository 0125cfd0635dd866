/*
 * Runs the file on standard input from reset and prints its line. Where a dry
 * input port stopped the run (11), puts the words that are given as arguments
 * behind the input, goes on, and prints the line of both parts together: it is
 * the line of the run that had all words from the start.
 */
#include "board.h"

#include <inttypes.h>
#include <stdio.h>
#include <stdlib.h>
#include <string.h>

static struct board board;

static int is_word(const char *text)
{
    size_t digits = strspn(text, "0123456789ABCDEFabcdef");

    return digits >= 1 && digits <= 4 && text[digits] == '\0';
}

/* Whether there was room for all of them behind the words that are there. */
static int add_words(struct board *b, char **words)
{
    for (; *words != NULL && b->input_count < CROWMITTEN_PORT_WORDS_MAX; words++)
        b->input[b->input_count++] = (uint16_t)strtoul(*words, NULL, 16);
    return *words == NULL;
}

int main(int argc, char **argv)
{
    uint32_t answer, steps, further_steps;
    int i;

    for (i = 1; i < argc; i++)
        if (!is_word(argv[i])) {
            fprintf(stderr, "%s: a word is one to four hexadecimal digits\n", argv[i]);
            return 2;
        }
    answer = set_up_board(&board);
    if (answer != CROWMITTEN_DONE) {
        printf("%" PRIu32 "\n", answer);
        return 0;
    }
    answer = run_board(&board, board.budget, &steps);
    print_line(&board, answer, steps);
    if (answer != CROWMITTEN_INPUT_DRY)
        return 0;
    if (!add_words(&board, argv + 1)) {
        fprintf(stderr, "an input has at most %d words\n", CROWMITTEN_PORT_WORDS_MAX);
        return 2;
    }
    /* The cells, the memories and the output are as the first run left them. */
    answer = run_board(&board, (uint16_t)(board.budget - steps), &further_steps);
    print_line(&board, answer, steps + further_steps);
    return 0;
}

/*
 * Runs the file on standard input from reset and prints its line, then the
 * data reads and writes that went to external RAM: in all, and for each page
 * of 128 words that had any. What two pages read and write there, B1 could
 * take (0300h to 03FFh, 256 words).
 */
#include "board.h"

#include <inttypes.h>
#include <stdio.h>

enum { PAGE_WORDS = 128, PAGES = CROWMITTEN_MEMORY_WORDS / PAGE_WORDS };

struct counts {
    uint32_t reads, writes;
};

static struct board board;
static struct counts pages[PAGES];

/* The program word at PC, which the fetch window begins with; 0 where there is none, and the step will be refused. */
static uint16_t word_at_pc(const struct board *b)
{
    uint32_t memory;
    size_t from, count;

    if (crowmitten_window(b->cells, CROWMITTEN_CELLS, b->rom, CROWMITTEN_MEMORY_WORDS, b->data,
                          CROWMITTEN_MEMORY_WORDS, (uint16_t)b->cells[CROWMITTEN_PC], &memory,
                          &from, &count) != CROWMITTEN_DONE)
        return 0;
    return memory == 1 ? b->rom[from] : b->data[from];
}

/*
 * The data address of the instruction at PC, if it has one. Every instruction
 * that is built has at most one that can be outside: the second one of a data
 * move is on chip. Bit 7 of the word tells indirect addressing from direct
 * (the guide, section 4.1).
 */
static uint32_t data_address(const struct board *b)
{
    uint16_t word = word_at_pc(b);

    if (word & 0x80)
        return b->cells[CROWMITTEN_AR0 + b->cells[CROWMITTEN_ARP]];
    return b->cells[CROWMITTEN_DP] * PAGE_WORDS + (word & 0x7F);
}

/* One step, its counts put down for the page of its data address. */
static uint32_t counted_step(struct board *b, struct counts *total)
{
    uint32_t results[CROWMITTEN_RESULTS];
    uint32_t page = data_address(b) / PAGE_WORDS;
    uint32_t answer = run_board_with(b, 1, results);

    if (results[CROWMITTEN_READS] + results[CROWMITTEN_WRITES] > 0) {
        pages[page].reads += results[CROWMITTEN_READS];
        pages[page].writes += results[CROWMITTEN_WRITES];
        total->reads += results[CROWMITTEN_READS];
        total->writes += results[CROWMITTEN_WRITES];
    }
    return answer;
}

static void print_counts(const struct counts *total)
{
    uint32_t page;

    printf("external reads %" PRIu32 ", writes %" PRIu32 "\n", total->reads, total->writes);
    for (page = 0; page < PAGES; page++)
        if (pages[page].reads + pages[page].writes > 0)
            printf("page %2" PRIu32 ", %04" PRIX32 "h to %04" PRIX32 "h: reads %" PRIu32
                   ", writes %" PRIu32 "\n",
                   page, page * PAGE_WORDS, page * PAGE_WORDS + PAGE_WORDS - 1,
                   pages[page].reads, pages[page].writes);
}

int main(void)
{
    struct counts total = { 0, 0 };
    uint32_t answer = set_up_board(&board), steps = 0;

    if (answer != CROWMITTEN_DONE) {
        printf("%" PRIu32 "\n", answer);
        return 0;
    }
    while (steps < board.budget && (answer = counted_step(&board, &total)) == CROWMITTEN_DONE)
        steps++;
    print_line(&board, answer, steps);
    print_counts(&total);
    return 0;
}

/*
 * Single steps from states drawn by chance: every word once, then words drawn
 * so that every page, mode and refusal comes often.
 */
#include "cases.h"
#include "report.h"
#include "results.h"
#include "words.h"

#include <inttypes.h>
#include <stdio.h>
#include <string.h>

/* The built pages that read a data word, and that write one (section 4.3). */
enum { ANSWERS = 12, READING_PAGES = 30, WRITING_PAGES = 6 };

/* The three places of answer 5 in the order of a step (D01). */
static const char *const absent_names[3] = {
    "first word", "second word", "table word",
};

static uint64_t answers[ANSWERS];
static uint64_t absent[3];
static uint64_t done[BUILT_PAGES];
static uint64_t refused[BUILT_PAGES];
static uint64_t modes[MODES];
static uint64_t pairs[BUILT_PAGES][MODES];

/* Steps done, by page: an external read, an external write (D02, request 7). */
static uint64_t read_outside[BUILT_PAGES];
static uint64_t wrote_outside[BUILT_PAGES];

static struct world world;

static uint16_t draw_instruction(struct draw *d)
{
    uint32_t how = draw_below(d, 100);
    if (how < 3)
        return (uint16_t)(0x8000 | draw_below(d, 256)); /* IN, port 0 */
    if (how < 90)
        return draw_built_word(d);
    return how < 96 ? draw_other_word(d) : (uint16_t)draw_bits(d);
}

/* An offset for a direct word, good with DP or not; others are left. */
static uint16_t draw_offset(struct draw *d, struct world *w, uint16_t word)
{
    struct plain_machine *m = &w->plain.machine;
    uint32_t address = draw_data_address(d, m->cnf);
    if (mode_of(word) != 0)
        return word;
    m->dp = (address >> 7) & 511;
    return (uint16_t)((word & 0xFF80) | (address & 0x7F));
}

/* The operand's words, and AR(ARP) where the word is indirect. */
static void draw_operand(struct draw *d, struct world *w, uint16_t word)
{
    struct plain_machine *m = &w->plain.machine;
    uint32_t address = 128 * m->dp + (word & 0x7F);
    if (mode_of(word) > 0) {
        address = draw_data_address(d, m->cnf);
        if (word >= 0xF000) /* a branch makes no access; BANZ asks for 0 */
            address = draw_word(d);
        m->ar[m->arp] = address;
    }
    put_data(w, address, draw_word(d));
    put_data(w, address + 1, draw_word(d));
}

/* The words that the step can read are set last, so that they stay. */
static void draw_world(struct draw *d, struct world *w, uint16_t word)
{
    struct plain_machine *m = &w->plain.machine;
    draw_operand(d, w, word);
    uint32_t second = draw_program_address(d, m->cnf);
    uint32_t table = m->mid == 0 ? second : m->pfc;
    w->input[m->input_cursor] = draw_word(d);
    put_program(w, table, draw_word(d));
    put_program(w, (m->pc + 1) & 0xFFFF, (uint16_t)second);
    put_program(w, m->pc, word);
}

/* Where a 5 was given. */
static int absent_place(const struct plain_machine *m)
{
    if (!program_on_board(m->cnf, m->pc))
        return 0;
    return program_on_board(m->cnf, (m->pc + 1) & 0xFFFF) ? 2 : 1;
}

static void count_step(const struct plain_machine *before, uint16_t word,
                       struct outcome out)
{
    bool fetched = program_on_board(before->cnf, before->pc);
    int page = fetched ? page_of(word) : -1;
    int mode = mode_of(word);
    if (out.answer < ANSWERS)
        answers[out.answer]++;
    if (out.answer == PLAIN_PROGRAM_ABSENT)
        absent[absent_place(before)]++;
    if (page < 0)
        return;
    if (out.answer != PLAIN_DONE) {
        refused[page]++;
        return;
    }
    done[page]++;
    read_outside[page] += out.reads;
    wrote_outside[page] += out.writes;
    if (mode >= 0) {
        modes[mode]++;
        pairs[page][mode]++;
    }
}

static void report_step(const struct side *before, uint16_t word,
                        uint16_t second, const struct outcomes *out)
{
    printf("  word %04X (%s), second word %04X\n", word, plain_name(word),
           second);
    report_lengths(&world);
    report_cells("cells before", before->cells);
    report_outcomes(out);
    report_sides(&world);
    report_counted(&world);
}

/* Steps the world on every side, level so far. Gives the plain answer. */
static uint32_t compare_step(const char *kind, uint64_t seed, uint64_t number)
{
    static struct side before;
    memcpy(before.cells, world.plain.cells, sizeof before.cells);
    uint32_t pc = before.machine.pc & 0xFFFF;
    uint16_t word = (uint16_t)program_word(&world, pc);
    uint16_t second = (uint16_t)program_word(&world, (pc + 1) & 0xFFFF);

    struct outcomes out = step_all(&world);
    count_step(&before.machine, word, out.plain);
    if (all_same(&world, &out))
        return out.plain.answer;
    if (report_difference(kind, seed, number))
        report_step(&before, word, second, &out);
    sides_level(&world);
    return out.plain.answer;
}

static void step_case(uint64_t seed, uint64_t number)
{
    struct draw d = draw_case(seed, KIND_STEP, number);
    draw_cells(&d, &world.plain.machine);
    draw_slices(&d, &world);
    draw_world(&d, &world, draw_offset(&d, &world, draw_instruction(&d)));
    bool spoilt = draw_percent(&d, 5);
    if (spoilt)
        spoil(&d, &world);
    cells_level(&world);
    results_case(&world, spoilt, 1, KIND_STEP, seed, number);
    compare_step("step", seed, number);
}

/* With PC on the board and no repeat, 3 and 4 are the word's alone. */
static uint32_t word_case(uint64_t seed, uint32_t word)
{
    struct draw d = draw_case(seed, KIND_WORD, word);
    struct plain_machine *m = &world.plain.machine;
    draw_cells(&d, m);
    draw_slices(&d, &world);
    m->pc = draw_below(&d, PLAIN_ROM_WORDS - 1);
    m->rptc = 0;
    draw_world(&d, &world, (uint16_t)word);
    cells_level(&world);
    return compare_step("word", seed, word);
}

static void print_answers(void)
{
    printf("  by answer:");
    for (uint32_t i = 0; i < ANSWERS; i++)
        if (is_step_answer(i))
            printf(" %" PRIu32 ": %" PRIu64 "%s", i, answers[i],
                   i + 1 < ANSWERS ? "," : "");
    printf("\n  5 by place:");
    for (int i = 0; i < 3; i++)
        printf(" %s %" PRIu64 "%s", absent_names[i], absent[i],
               i < 2 ? "," : "");
    printf("\n");
}

static void print_pages(void)
{
    printf("  by page, done + refused:");
    for (int i = 0; i < BUILT_PAGES; i++)
        printf("%s%-4s %7" PRIu64 " +%6" PRIu64, i % 4 == 0 ? "\n    " : "   ",
               page_name(i), done[i], refused[i]);
    printf("\n  by mode, done:");
    for (int i = 0; i < MODES; i++)
        printf("%s%-10s %7" PRIu64, i % 5 == 0 ? "\n    " : "   ",
               mode_name(i), modes[i]);
    int met = 0;
    int all = 0;
    for (int i = 0; i < BUILT_PAGES; i++)
        for (int j = 0; j < MODES; j++) {
            all += page_has_mode(i, j);
            met += pairs[i][j] != 0;
        }
    printf("\n  pages with a mode, done: %d of %d\n", met, all);
}

/* How many pages have such steps, and on chip some that have none. */
static int pages_with(const uint64_t outside[BUILT_PAGES])
{
    int pages = 0;
    for (int i = 0; i < BUILT_PAGES; i++)
        pages += outside[i] != 0 && outside[i] < done[i];
    return pages;
}

static void print_external(void)
{
    uint64_t reads = 0, writes = 0, neither = 0;
    for (int i = 0; i < BUILT_PAGES; i++) {
        reads += read_outside[i];
        writes += wrote_outside[i];
        neither += done[i] - read_outside[i] - wrote_outside[i];
    }
    int reading = pages_with(read_outside);
    int writing = pages_with(wrote_outside);
    printf("  external, done: a read %" PRIu64 " (%d pages), a write %" PRIu64
           " (%d pages), neither %" PRIu64 "\n", reads, reading, writes,
           writing, neither);
    if (reading != READING_PAGES)
        report_missing("both on chip and outside:", "the 30 pages that read");
    if (writing != WRITING_PAGES)
        report_missing("both on chip and outside:", "the 6 pages that write");
}

static void find_missing(void)
{
    char number[4];
    for (uint32_t i = 0; i < ANSWERS; i++) {
        snprintf(number, sizeof number, "%" PRIu32, i);
        if (answers[i] == 0 && is_step_answer(i))
            report_missing("answer", number);
    }
    for (int i = 0; i < 3; i++)
        if (absent[i] == 0)
            report_missing("answer 5 for the", absent_names[i]);
    for (int i = 0; i < BUILT_PAGES; i++)
        if (done[i] == 0)
            report_missing("page", page_name(i));
    for (int i = 0; i < MODES; i++)
        if (modes[i] == 0)
            report_missing("mode", mode_name(i));
}

/* R9 has the three counts over all words. */
void compare_words(uint64_t seed)
{
    uint32_t other = 0;
    uint32_t nothing = 0;
    for (uint32_t word = 0; word < 0x10000; word++) {
        uint32_t answer = word_case(seed, word);
        other += answer == PLAIN_NOT_IN_BASE;
        nothing += answer == PLAIN_NO_ENCODING;
    }
    printf("every word once: built %" PRIu32 ", answer 4: %" PRIu32
           ", answer 3: %" PRIu32 "\n",
           0x10000 - other - nothing, other, nothing);
    if (other != 9097 || nothing != 9298)
        report_missing("the counts of", "answers 3 and 4");
}

static void forget_counts(void)
{
    memset(answers, 0, sizeof answers);
    memset(absent, 0, sizeof absent);
    memset(done, 0, sizeof done);
    memset(refused, 0, sizeof refused);
    memset(modes, 0, sizeof modes);
    memset(pairs, 0, sizeof pairs);
    memset(read_outside, 0, sizeof read_outside);
    memset(wrote_outside, 0, sizeof wrote_outside);
}

void compare_steps(uint64_t seed, uint64_t cases)
{
    forget_counts();
    for (uint64_t i = 0; i < cases; i++)
        step_case(seed, i);
    printf("single steps: %" PRIu64 "\n", cases);
    print_answers();
    print_pages();
    print_external();
    find_missing();
}

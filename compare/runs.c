/*
 * Whole runs. A program is grown: where the run comes to a word that is not
 * settled, instructions are drawn until one is done and leaves a state from
 * which more can be done. The start is then run by both emulators. A run that
 * meets a dry port is continued with more words (D02, request 2).
 */
#include "cases.h"
#include "report.h"
#include "results.h"
#include "words.h"

#include "crowmitten.h"

#include <inttypes.h>
#include <stdio.h>
#include <string.h>

enum { ANSWERS = 12, LENGTHS = 6, TRIES = 24, BRINGS = 4 };

static uint64_t answers[ANSWERS];
static uint64_t lengths[LENGTHS]; /* 0, 1 on, 10 on, 100 on, 1000 on, .. */
static uint64_t steps_done;
static uint64_t most_steps;
static uint64_t split_runs;
static uint64_t file_runs;
static uint64_t continued_runs;
static uint64_t continued_steps;
static uint64_t calls_with_words;
static uint64_t calls_without;

/* External reads and writes (D02, request 7), and the runs that have them. */
static uint64_t external_reads;
static uint64_t external_writes;
static uint64_t runs_reading;
static uint64_t runs_writing;
static uint64_t runs_with_neither;
static uint64_t refused_with_some;

static struct world world;
static struct world start;

/* ---- Growing a program -------------------------------------------------- */

/* The world in which the growing program runs, on its plain side. */
static struct world nursery;
static bool settled[0x10000];

/* The same word in the nursery and in the world that is made. */
static void settle_word(struct world *w, uint32_t address, uint32_t word)
{
    w->plain.machine.cnf = nursery.plain.machine.cnf;
    put_program(w, address, (uint16_t)word);
    put_program(&nursery, address, (uint16_t)word);
}

/* Near ahead, back to a settled word, or anywhere. */
static uint32_t draw_target(struct draw *d, const struct plain_machine *m,
                            bool always_taken)
{
    uint32_t how = draw_below(d, 100);
    if (how < 55 || (always_taken && how < 90))
        return (m->pc + 2 + draw_below(d, 6)) & 0xFFFF;
    if (how < 92)
        return (m->pc - draw_below(d, 40)) & 0xFFFF;
    return draw_program_address(d, m->cnf);
}

/* From such a state a direct and an indirect access can be made. */
static bool is_fertile(const struct plain_machine *m)
{
    uint32_t page = 128 * m->dp + (m->dp == 0 ? 0x60 : 0);
    return program_on_board(m->cnf, m->pc) && data_on_board(m->cnf, page)
        && data_on_board(m->cnf, m->ar[m->arp]);
}

/* An instruction that has a fair chance in this state, or mends it. */
static uint16_t draw_fair_word(struct draw *d, const struct plain_machine *m)
{
    uint16_t word = draw_built_word(d);
    if (!data_on_board(m->cnf, m->ar[m->arp]) && draw_percent(d, 30))
        return (uint16_t)(0xC060 | m->arp << 8 | draw_below(d, 32)); /* LARK */
    if (!is_fertile(m) && draw_percent(d, 20))
        return (uint16_t)(0xC806 + draw_below(d, 26)); /* LDPK */
    if ((word & 0xFE00) == 0xC800 && draw_percent(d, 95)) /* LDPK */
        return (uint16_t)(0xC800 | (draw_data_address(d, 0) >> 7 & 511));
    if ((word & 0xF800) == 0xC000 && draw_percent(d, 70)) /* LARK */
        return (uint16_t)((word & 0xFF00) | (0x60 + draw_below(d, 32)));
    if ((word & 0xFF00) == 0xCB00 && draw_percent(d, 75)) /* RPTK */
        return (uint16_t)(0xCB00 | draw_below(d, 10));
    if (plain_has_address(word) && draw_percent(d, m->rptc > 0 ? 30 : 5))
        return (uint16_t)(0x8000 | (word & 0xFF)); /* IN, port 0 */
    return word;
}

static uint32_t draw_second(struct draw *d, const struct plain_machine *m,
                            uint16_t word)
{
    bool mac = (word & 0xFE00) == 0x5C00;
    bool always = word >= 0xFE00; /* CALL, B */
    return mac ? draw_program_address(d, m->cnf) : draw_target(d, m, always);
}

/* The data words that a step of the nursery may change. */
static uint32_t changed_address(const struct plain_machine *m, uint16_t word)
{
    uint32_t address = (word & 0x80) != 0 ? m->ar[m->arp]
                                          : 128 * m->dp + (word & 0x7F);
    return address < PLAIN_DATA_WORDS ? address : 0;
}

/* One drawn instruction at PC. False where it was undone. */
static bool try_instruction(struct draw *d, struct world *w)
{
    struct plain_machine *m = &nursery.plain.machine;
    const struct plain_machine old = *m;
    uint16_t word = draw_fair_word(d, m);
    uint32_t second = (m->pc + 1) & 0xFFFF;
    bool two = plain_words(word) == 2;
    if (two && settled[second])
        return false;
    if (two)
        settle_word(w, second, draw_second(d, m, word));
    settle_word(w, m->pc, word);
    uint16_t *data = nursery.plain.data + changed_address(m, word);
    uint16_t kept[2] = { data[0], data[1] };
    if (step_plain(&nursery).answer != PLAIN_DONE)
        return false;
    if (!is_fertile(m) && is_fertile(&old) && draw_percent(d, 98)) {
        *m = old;
        memcpy(data, kept, sizeof kept);
        return false;
    }
    settled[old.pc] = true;
    settled[second] = settled[second] || two;
    return true;
}

/* Where the program ends it goes back to its start or some way. */
static void close_loop(struct draw *d, struct world *w, uint32_t first)
{
    uint32_t pc = nursery.plain.machine.pc;
    uint32_t back = draw_percent(d, 50) ? first : pc - draw_below(d, 60);
    if (settled[pc])
        return;
    settle_word(w, pc, 0xFF80); /* B */
    settle_word(w, (pc + 1) & 0xFFFF, back & 0xFFFF);
}

/* The nursery has 1,024 words: a program goes on behind what will be dry. */
static void grow(struct draw *d, struct world *w, uint32_t passes)
{
    const struct plain_machine first = w->plain.machine;
    nursery = *w;
    nursery.input_length = PLAIN_PORT_WORDS;
    memset(settled, 0, sizeof settled);
    for (uint32_t i = 0; i < passes; i++) {
        uint32_t pc = nursery.plain.machine.pc;
        bool going = false;
        if (settled[pc])
            going = step_plain(&nursery).answer == PLAIN_DONE;
        else if (program_on_board(nursery.plain.machine.cnf, pc))
            for (int j = 0; j < TRIES && !going; j++)
                going = try_instruction(d, w);
        if (!going)
            break;
    }
    close_loop(d, w, first.pc);
    w->plain.machine = first;
}

/* ---- The start of a run ------------------------------------------------- */

/* Memories of any words, many of them good addresses, pages and repeats. */
static void draw_memories(struct draw *d, struct world *w)
{
    draw_fill(d, w->rom, PLAIN_ROM_WORDS);
    draw_fill(d, w->plain.data, PLAIN_DATA_WORDS);
    draw_fill(d, w->input, PLAIN_PORT_WORDS);
    for (uint32_t i = 0; i < PLAIN_DATA_WORDS; i += 1 + draw_below(d, 4))
        w->plain.data[i] = draw_percent(d, 70)
            ? (uint16_t)draw_data_address(d, 0)
            : draw_word(d);
    for (uint32_t i = 0; i < PLAIN_ROM_WORDS; i += 1 + draw_below(d, 8))
        w->rom[i] = draw_percent(d, 50) ? draw_built_word(d) : draw_word(d);
}

/* Registers that stay on the board for a while. */
static void draw_fair_cells(struct draw *d, struct plain_machine *m)
{
    draw_cells(d, m);
    m->pc = draw_below(d, 4000);
    if (m->cnf == 1 && draw_percent(d, 30))
        m->pc = 0xFF00 + draw_below(d, 240);
    m->dp = 6 + draw_below(d, 26);
    m->ar[0] = draw_below(d, 8);
    for (int i = 1; i < 8; i++)
        m->ar[i] = 0x300 + draw_below(d, 0xD00);
    m->mid = 0;
    m->rptc = 0;
    for (int i = 0; i < PLAIN_STACK_WORDS; i++)
        m->stack[i] = draw_below(d, 4096);
}

/* Few words left, half of the time: then the port runs dry. */
static void shorten_input(struct draw *d, struct world *w)
{
    size_t few = w->plain.machine.input_cursor + draw_below(d, 16);
    if (draw_percent(d, 50) && few < w->input_length)
        w->input_length = few;
}

/* The world of a run file, as both sides set it up (D01). */
static bool start_from_file(struct draw *d, struct world *w)
{
    static uint8_t bytes[PLAIN_FILE_LONGEST];
    static uint16_t rom[MEMORY_ROOM];
    static uint16_t input[PORT_ROOM];
    size_t length = 0;
    size_t data_count = draw_below(d, PLAIN_FILE_DATA + 1);
    w->input_length = draw_below(d, PLAIN_FILE_INPUT + 1);
    w->output_length = PLAIN_PORT_WORDS;
    plain_reset(&w->plain.machine);
    shorten_input(d, w);
    memset(w->plain.output, 0, sizeof w->plain.output);
    memset(w->plain.data, 0, 2 * 0x400);
    memset(w->plain.data + 0x400 + data_count, 0, 2 * (0xC00 - data_count));
    w->proved = w->plain;
    crowmitten_reset(w->proved.cells, PLAIN_CELLS);
    draw_fill(d, w->proved.data, PLAIN_DATA_WORDS);
    plain_write(w->rom, PLAIN_ROM_WORDS, w->plain.data + 0x400, data_count,
                w->input, w->input_length, 0, bytes, sizeof bytes, &length);
    crowmitten_set_up(bytes, length, rom, PLAIN_ROM_WORDS, w->proved.data,
                      PLAIN_DATA_WORDS, input, w->input_length);
    return sides_same(w) && memcmp(rom, w->rom, sizeof rom) == 0
        && memcmp(input, w->input, 2 * w->input_length) == 0;
}

/* Grown from reset or from any state, or not grown. */
static void draw_start(struct draw *d, struct world *w)
{
    draw_memories(d, w);
    draw_fair_cells(d, &w->plain.machine);
    draw_slices(d, w);
    uint32_t how = draw_below(d, 100);
    if (how < 30)
        plain_reset(&w->plain.machine);
    else if (how >= 90)
        draw_cells(d, &w->plain.machine);
    shorten_input(d, w);
    if (how < 85)
        grow(d, w, 20 + draw_below(d, 400));
}

/*
 * The world, from a run file where the program starts at reset; else spoilt
 * now and then, *spoilt says so. False where the file is set up otherwise.
 */
static bool draw_run_world(struct draw *d, struct world *w, bool *spoilt)
{
    draw_start(d, w);
    *spoilt = false;
    if (w->plain.machine.pc == 0 && draw_percent(d, 40)) {
        file_runs++;
        return start_from_file(d, w);
    }
    *spoilt = draw_percent(d, 4);
    if (*spoilt)
        spoil(d, w);
    return true;
}

/* Budget 0 makes checks 1 and 2 (D01), so a spoilt world has it often. */
static uint16_t draw_budget(struct draw *d, bool spoilt)
{
    uint32_t how = draw_below(d, 100);
    if (spoilt && how < 40)
        return 0;
    if (how < 5)
        return (uint16_t)draw_below(d, 3);
    if (how < 60)
        return (uint16_t)draw_below(d, 500);
    return (uint16_t)(how < 98 ? draw_below(d, 4000) : draw_bits(d) & 0xFFFF);
}

/* ---- The comparison ----------------------------------------------------- */

/* Finds the first step in which the two differ, from the same start. */
static void report_first_step(uint32_t steps)
{
    world = start;
    for (uint32_t i = 0; i <= steps; i++) {
        struct side before = world.plain;
        uint16_t word = (uint16_t)program_word(&world, before.machine.pc);
        struct outcomes out = step_all(&world);
        if (all_same(&world, &out))
            continue;
        printf("  first at step %" PRIu32 ", word %04X (%s)\n", i + 1, word,
               plain_name(word));
        report_cells("cells before it", before.cells);
        report_outcomes(&out);
        report_sides(&world);
        report_counted(&world);
        return;
    }
    printf("  step by step the two agree\n");
}

static void report_run(const char *kind, uint64_t seed, uint64_t number,
                       uint32_t budget, const struct outcomes *out)
{
    if (!report_difference(kind, seed, number))
        return;
    printf("  budget %" PRIu32 "\n", budget);
    report_outcomes(out);
    report_lengths(&start);
    report_cells("cells at the start", start.plain.cells);
    report_sides(&world);
    report_counted(&world);
    report_first_step(out->plain.steps);
}

static void count_run(struct outcome out)
{
    int place = 0;
    for (uint32_t n = out.steps; n > 0; n /= 10)
        place++;
    lengths[place]++;
    steps_done += out.steps;
    if (out.steps > most_steps)
        most_steps = out.steps;
    if (out.answer < ANSWERS)
        answers[out.answer]++;
    bool some = out.reads > 0 || out.writes > 0;
    external_reads += out.reads;
    external_writes += out.writes;
    runs_reading += out.reads > 0;
    runs_writing += out.writes > 0;
    runs_with_neither += !some;
    refused_with_some += some && out.answer != PLAIN_DONE;
}

/* Two runs, one after the other: the last answer, and the sums. */
static struct outcome together(struct outcome one, struct outcome two)
{
    return (struct outcome){ two.answer, one.steps + two.steps,
                             one.reads + two.reads, one.writes + two.writes,
                             one.past + two.past };
}

/*
 * The library goes on from what it left, on its unused budget; the plain side
 * makes one run from the start.
 */
static void go_on(struct outcomes *out, uint16_t budget)
{
    uint16_t left = (uint16_t)(budget - out->proved.steps);
    world.plain = start.plain;
    out->plain = run_plain(&world, budget);
    out->proved = together(out->proved, run_proved(&world, left));
    out->counted = together(out->counted, run_counted(&world, left));
}

/* A run of a + b steps is one of a, which is compared, and then one of b. */
static struct outcomes run_in_two(uint16_t budget, uint16_t a)
{
    struct outcomes out = run_all(&world, a);
    if (out.plain.answer == PLAIN_DONE && all_same(&world, &out))
        go_on(&out, budget);
    return out;
}

/* Words behind the list: none, few or many, to 1,024 at most (D02). */
static void bring_words(struct draw *d, struct world *w)
{
    uint32_t room = (uint32_t)(PLAIN_PORT_WORDS - w->input_length);
    uint32_t how = draw_below(d, 100);
    uint32_t count = how < 20 ? 0 : 1 + draw_below(d, how < 60 ? 8 : 1024);
    if (count > room)
        count = room;
    draw_fill(d, w->input + w->input_length, count);
    w->input_length += count;
    calls_with_words += count > 0;
    calls_without += count == 0;
}

/* After a dry port: with all words from the start (D02, request 2). */
static void continue_run(struct draw *d, uint16_t budget, struct outcomes *out)
{
    bring_words(d, &start);
    memcpy(world.input, start.input, sizeof world.input);
    world.input_length = start.input_length;
    go_on(out, budget);
}

/* Continues the run `out` for as long as it is dry, four times at most. */
static void continue_case(struct draw *d, uint64_t seed, uint64_t number,
                          uint16_t budget, struct outcomes out)
{
    uint32_t before = out.plain.steps;
    continued_runs++;
    for (int i = 0; i < BRINGS && out.plain.answer == PLAIN_INPUT_DRY; i++) {
        continue_run(d, budget, &out);
        if (all_same(&world, &out))
            continue;
        report_run("continued run", seed, number, budget, &out);
        return;
    }
    continued_steps += out.plain.steps - before;
}

static void run_case(uint64_t seed, uint64_t number)
{
    struct draw d = draw_case(seed, KIND_RUN, number);
    bool spoilt;
    if (!draw_run_world(&d, &world, &spoilt)
        && report_difference("run (its file)", seed, number))
        report_sides(&world);
    sides_level(&world);
    start = world;
    uint16_t budget = draw_budget(&d, spoilt);
    bool split = draw_percent(&d, 20);
    split_runs += split;
    results_case(&world, spoilt, budget, KIND_RUN, seed, number);
    struct outcomes out = split
        ? run_in_two(budget, (uint16_t)draw_below(&d, budget + 1u))
        : run_all(&world, budget);
    count_run(out.plain);
    if (!all_same(&world, &out))
        report_run("run", seed, number, budget, &out);
    else if (out.plain.answer == PLAIN_INPUT_DRY)
        continue_case(&d, seed, number, budget, out);
}

static void print_external(void)
{
    printf("  external: reads %" PRIu64 ", writes %" PRIu64
           "; runs with reads %" PRIu64 ", with writes %" PRIu64
           ", with neither %" PRIu64 ", refused with some %" PRIu64 "\n",
           external_reads, external_writes, runs_reading, runs_writing,
           runs_with_neither, refused_with_some);
    if (runs_reading == 0)
        report_missing("a run with", "an external read");
    if (runs_writing == 0)
        report_missing("a run with", "an external write");
    if (runs_with_neither == 0)
        report_missing("a run with", "neither of them");
    if (refused_with_some == 0)
        report_missing("a run with", "some of them, then refused");
}

static void print_continued(void)
{
    printf("  continued after 11: %" PRIu64 ", with new words %" PRIu64
           " times, without %" PRIu64 ", steps %" PRIu64 "\n", continued_runs,
           calls_with_words, calls_without, continued_steps);
    if (calls_with_words == 0 || continued_steps == 0)
        report_missing("a run continued with", "new words");
    if (calls_without == 0)
        report_missing("a run continued with", "no new words");
}

void compare_runs(uint64_t seed, uint64_t cases)
{
    for (uint64_t i = 0; i < cases; i++)
        run_case(seed, i);
    printf("runs: %" PRIu64 ", of them in two parts %" PRIu64
           ", from a run file %" PRIu64 "\n", cases, split_runs, file_runs);
    printf("  steps: %" PRIu64 ", the longest run %" PRIu64 "\n  by answer:",
           steps_done, most_steps);
    for (uint32_t i = 0; i < ANSWERS; i++)
        if (is_step_answer(i))
            printf(" %" PRIu32 ": %" PRIu64 "%s", i, answers[i],
                   i + 1 < ANSWERS ? "," : "");
    printf("\n  by steps: 0: %" PRIu64, lengths[0]);
    for (int i = 1, from = 1; i < LENGTHS; i++, from *= 10)
        printf(", from %d: %" PRIu64, from, lengths[i]);
    printf("\n");
    print_external();
    print_continued();
}

/* What is asked for without a step: windows, words sent; and resets. */
#include "cases.h"
#include "report.h"

#include "crowmitten.h"

#include <inttypes.h>
#include <stdio.h>
#include <string.h>

enum { ANSWERS = 6 };

/* A part of a lent memory, as the library tells of it. */
struct part {
    uint32_t answer;
    uint32_t memory; /* 0 none, 1 rom, 2 data */
    size_t from;
    size_t count;
};

static uint64_t windows[ANSWERS];
static uint64_t window_memories[3];
static uint64_t sent[ANSWERS];

static struct world world;

static struct part window_plain(const struct world *w, uint16_t address)
{
    struct part part = { PLAIN_SLICE_WRONG, 0, 0, 0 };
    const uint16_t *rom = lent_rom(w);
    const uint16_t *data = lent_data(w, (struct side *)&w->plain);
    const uint16_t *words;
    if (w->cells_length != PLAIN_CELLS)
        return part;
    part.answer = (uint32_t)plain_window(&w->plain.machine, rom, w->rom_length,
                                         data, w->data_length, address, &words,
                                         &part.count);
    if (part.count == 0)
        return part;
    bool in_rom = address < PLAIN_ROM_WORDS;
    part.memory = in_rom ? 1 : 2;
    part.from = (size_t)(words - (in_rom ? rom : data));
    return part;
}

static struct part window_proved(const struct world *w, uint16_t address)
{
    struct part part = { 0, 7, 77, 777 };
    part.answer = crowmitten_window(w->proved.cells, w->cells_length,
                                    lent_rom(w), w->rom_length,
                                    lent_data(w, (struct side *)&w->proved),
                                    w->data_length, address, &part.memory,
                                    &part.from, &part.count);
    return part;
}

static struct part sent_plain(const struct world *w, const uint16_t *output)
{
    struct part part = { PLAIN_SLICE_WRONG, 0, 0, 0 };
    const uint16_t *words;
    if (w->cells_length == PLAIN_CELLS)
        part.answer = (uint32_t)plain_words_sent(&w->plain.machine, output,
                                                 w->output_length, &words,
                                                 &part.count);
    return part;
}

static struct part sent_proved(const struct world *w, const uint16_t *output)
{
    struct part part = { 0, 0, 0, 777 };
    part.answer = crowmitten_words_sent(w->proved.cells, w->cells_length,
                                        output, w->output_length, &part.count);
    return part;
}

static bool parts_same(struct part a, struct part b)
{
    return a.answer == b.answer && a.memory == b.memory && a.from == b.from
        && a.count == b.count;
}

static void report_parts(struct part plain, struct part proved)
{
    report_number("answer", plain.answer, proved.answer);
    report_number("memory", plain.memory, proved.memory);
    report_number("from", plain.from, proved.from);
    report_number("count", plain.count, proved.count);
    report_cells("cells", world.plain.cells);
    report_lengths(&world);
}

static void window_case(struct draw *d, uint64_t seed, uint64_t number)
{
    uint32_t cnf = world.plain.machine.cnf;
    uint16_t address = (uint16_t)draw_program_address(d, cnf);
    if (draw_percent(d, 20))
        address = (uint16_t)draw_border(d);
    struct part plain = window_plain(&world, address);
    struct part proved = window_proved(&world, address);
    windows[plain.answer]++;
    window_memories[plain.memory]++;
    if (parts_same(plain, proved))
        return;
    if (report_difference("window", seed, number)) {
        printf("  address %04X\n", address);
        report_parts(plain, proved);
    }
}

/* The output slice can be long here: nothing is read from it. */
static void sent_case(uint64_t seed, uint64_t number)
{
    static const uint16_t output[65536 + 1024];
    struct part plain = sent_plain(&world, output);
    struct part proved = sent_proved(&world, output);
    sent[plain.answer]++;
    if (!parts_same(plain, proved)
        && report_difference("words sent", seed, number))
        report_parts(plain, proved);
}

static void reset_case(uint64_t seed, uint64_t number)
{
    uint32_t want = PLAIN_SLICE_WRONG;
    if (world.cells_length == PLAIN_CELLS) {
        plain_reset(&world.plain.machine);
        want = PLAIN_DONE;
    }
    uint32_t got = crowmitten_reset(world.proved.cells, world.cells_length);
    if (got == want && sides_same(&world))
        return;
    if (report_difference("reset", seed, number)) {
        report_number("answer", want, got);
        report_sides(&world);
    }
    sides_level(&world);
}

static void view_case(uint64_t seed, uint64_t number)
{
    struct draw d = draw_case(seed, KIND_VIEW, number);
    draw_cells(&d, &world.plain.machine);
    draw_slices(&d, &world);
    if (draw_percent(&d, 20))
        spoil(&d, &world);
    memcpy(world.proved.cells, world.plain.cells, sizeof world.proved.cells);
    window_case(&d, seed, number);
    sent_case(seed, number);
    reset_case(seed, number);
}

void compare_views(uint64_t seed, uint64_t cases)
{
    for (uint64_t i = 0; i < cases; i++)
        view_case(seed, i);
    printf("windows, words sent, resets: %" PRIu64 " each\n", cases);
    printf("  windows by answer: 0: %" PRIu64 " (rom %" PRIu64 ", B0 %" PRIu64
           "), 1: %" PRIu64 ", 2: %" PRIu64 ", 5: %" PRIu64 "\n",
           windows[0], window_memories[1], window_memories[2], windows[1],
           windows[2], windows[5]);
    printf("  words sent by answer: 0: %" PRIu64 ", 1: %" PRIu64
           ", 2: %" PRIu64 "\n", sent[0], sent[1], sent[2]);
    if (windows[1] == 0 || windows[2] == 0 || windows[5] == 0
        || window_memories[1] == 0 || window_memories[2] == 0)
        report_missing("an answer of", "windows");
    if (sent[0] == 0 || sent[1] == 0 || sent[2] == 0)
        report_missing("an answer of", "words sent");
}

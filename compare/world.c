#include "world.h"

#include "crowmitten.h"

#include <string.h>

/* Slices longer than a world's own, one for each place in a call. */
static uint16_t wide[4][WIDE_ROOM];

/* What the results hold before a call that must set them, or leave them. */
static const uint32_t not_set = 0xDEAD;
static uint32_t wide_results[WIDE_RESULTS];

const uint16_t *lent_rom(const struct world *w)
{
    return w->rom_length > MEMORY_ROOM ? wide[0] : w->rom;
}

uint16_t *lent_data(const struct world *w, struct side *side)
{
    return w->data_length > MEMORY_ROOM ? wide[1] : side->data;
}

static const uint16_t *lent_input(const struct world *w)
{
    return w->input_length > PORT_ROOM ? wide[2] : w->input;
}

static uint16_t *lent_output(const struct world *w, struct side *side)
{
    return w->output_length > PORT_ROOM ? wide[3] : side->output;
}

bool wide_untouched(void)
{
    for (int i = 0; i < 4; i++)
        for (size_t j = 0; j < WIDE_ROOM; j++)
            if (wide[i][j] != 0)
                return false;
    for (size_t i = RESULT_ROOM; i < WIDE_RESULTS; i++)
        if (wide_results[i] != 0)
            return false;
    return true;
}

struct outcome step_plain(struct world *w)
{
    struct side *s = &w->plain;
    struct plain_external external;
    if (w->cells_length != PLAIN_CELLS)
        return (struct outcome){ .answer = PLAIN_SLICE_WRONG };
    int answer = plain_step(&s->machine, lent_rom(w), w->rom_length,
                            lent_data(w, s), w->data_length,
                            lent_input(w), w->input_length,
                            lent_output(w, s), w->output_length, &external);
    return (struct outcome){ .answer = (uint32_t)answer,
                             .steps = answer == PLAIN_DONE,
                             .reads = external.reads,
                             .writes = external.writes };
}

struct outcome step_proved(struct world *w)
{
    struct side *s = &w->proved;
    uint32_t answer = crowmitten_step(s->cells, w->cells_length,
                                      lent_rom(w), w->rom_length,
                                      lent_data(w, s), w->data_length,
                                      lent_input(w), w->input_length,
                                      lent_output(w, s), w->output_length);
    return (struct outcome){ .answer = answer, .steps = answer == PLAIN_DONE };
}

struct outcome run_plain(struct world *w, uint16_t budget)
{
    struct side *s = &w->plain;
    struct plain_external external;
    if (w->cells_length != PLAIN_CELLS)
        return (struct outcome){ .answer = PLAIN_SLICE_WRONG };
    uint32_t steps = 0;
    int answer = plain_run(&s->machine, lent_rom(w), w->rom_length,
                           lent_data(w, s), w->data_length,
                           lent_input(w), w->input_length,
                           lent_output(w, s), w->output_length,
                           budget, &steps, &external);
    return (struct outcome){ .answer = (uint32_t)answer, .steps = steps,
                             .reads = external.reads,
                             .writes = external.writes };
}

struct outcome run_proved(struct world *w, uint16_t budget)
{
    struct side *s = &w->proved;
    struct outcome out = { .steps = not_set };
    out.answer = crowmitten_run(s->cells, w->cells_length,
                                lent_rom(w), w->rom_length,
                                lent_data(w, s), w->data_length,
                                lent_input(w), w->input_length,
                                lent_output(w, s), w->output_length,
                                budget, &out.steps);
    return out;
}

static uint32_t run_with(struct world *w, uint16_t budget, uint32_t *results,
                         size_t results_length)
{
    struct side *s = &w->counted;
    for (size_t i = 0; i < RESULT_ROOM; i++)
        results[i] = not_set;
    return crowmitten_run_with(s->cells, w->cells_length,
                               lent_rom(w), w->rom_length,
                               lent_data(w, s), w->data_length,
                               lent_input(w), w->input_length,
                               lent_output(w, s), w->output_length,
                               budget, results, results_length);
}

/* How many of the results from this place on a call has changed. */
static uint32_t changed_from(const uint32_t *results, size_t place)
{
    uint32_t count = 0;
    for (; place < RESULT_ROOM; place++)
        count += results[place] != not_set;
    return count;
}

struct outcome run_counted(struct world *w, uint16_t budget)
{
    uint32_t results[RESULT_ROOM];
    uint32_t answer = run_with(w, budget, results, CROWMITTEN_RESULTS);
    return (struct outcome){ .answer = answer,
                             .steps = results[CROWMITTEN_STEPS],
                             .reads = results[CROWMITTEN_READS],
                             .writes = results[CROWMITTEN_WRITES],
                             .past = changed_from(results,
                                                  CROWMITTEN_RESULTS) };
}

struct outcomes step_all(struct world *w)
{
    return (struct outcomes){ step_plain(w), step_proved(w),
                              run_counted(w, 1) };
}

struct outcomes run_all(struct world *w, uint16_t budget)
{
    return (struct outcomes){ run_plain(w, budget), run_proved(w, budget),
                              run_counted(w, budget) };
}

bool is_step_answer(uint32_t answer)
{
    return answer <= PLAIN_INPUT_DRY && answer != 8;
}

/* A step reads at most one data word and writes at most one (X5). */
static bool is_outcome(const struct outcome *out)
{
    return is_step_answer(out->answer) && out->reads <= out->steps
        && out->writes <= out->steps;
}

bool outcomes_same(const struct outcomes *out)
{
    const struct outcome *a = &out->plain;
    const struct outcome *b = &out->proved;
    const struct outcome *c = &out->counted;
    return is_outcome(a) && a->answer == b->answer && a->steps == b->steps
        && a->answer == c->answer && a->steps == c->steps
        && a->reads == c->reads && a->writes == c->writes && c->past == 0;
}

static bool same(const struct side *a, const struct side *b)
{
    return memcmp(a->cells, b->cells, sizeof a->cells) == 0
        && memcmp(a->data, b->data, sizeof a->data) == 0
        && memcmp(a->output, b->output, sizeof a->output) == 0;
}

bool sides_same(const struct world *w)
{
    return same(&w->plain, &w->proved);
}

bool all_same(const struct world *w, const struct outcomes *out)
{
    return outcomes_same(out) && same(&w->plain, &w->proved)
        && same(&w->plain, &w->counted);
}

bool results_refused(struct world *w, uint16_t budget, size_t length)
{
    uint32_t answer = run_with(w, budget, wide_results, length);
    return answer == PLAIN_SLICE_WRONG && changed_from(wide_results, 0) == 0
        && same(&w->plain, &w->counted);
}

void sides_level(struct world *w)
{
    memcpy(&w->proved, &w->plain, sizeof w->proved);
    memcpy(&w->counted, &w->plain, sizeof w->counted);
}

void cells_level(struct world *w)
{
    memcpy(w->proved.cells, w->plain.cells, sizeof w->proved.cells);
    memcpy(w->counted.cells, w->plain.cells, sizeof w->counted.cells);
}

void put_data(struct world *w, uint32_t address, uint16_t word)
{
    if (address >= MEMORY_ROOM)
        return;
    w->plain.data[address] = word;
    w->proved.data[address] = word;
    w->counted.data[address] = word;
}

void put_program(struct world *w, uint32_t address, uint16_t word)
{
    if (address < PLAIN_ROM_WORDS)
        w->rom[address] = word;
    else if (program_on_board(w->plain.machine.cnf, address))
        put_data(w, 0x200 + (address & 0xFF), word);
}

uint32_t program_word(const struct world *w, uint32_t address)
{
    if (address < PLAIN_ROM_WORDS)
        return w->rom[address];
    if (program_on_board(w->plain.machine.cnf, address))
        return w->plain.data[0x200 + (address & 0xFF)];
    return 0;
}

void draw_cells(struct draw *d, struct plain_machine *m)
{
    static const uint32_t counts[] = { 1, 2, 254, 255 };
    m->acc = draw_long(d);
    m->p = draw_long(d);
    m->t = draw_word(d);
    m->cnf = draw_below(d, 2);
    m->pc = draw_program_address(d, m->cnf);
    m->pfc = draw_program_address(d, m->cnf);
    for (int i = 0; i < 8; i++)
        m->ar[i] = draw_data_address(d, m->cnf);
    if (draw_percent(d, 60))
        m->ar[0] = draw_word(d);
    m->arp = draw_below(d, 8);
    m->arb = draw_below(d, 8);
    m->dp = draw_data_address(d, m->cnf) >> 7;
    m->pm = draw_below(d, 4);
    m->ov = draw_below(d, 2);
    m->ovm = draw_below(d, 2);
    m->sxm = draw_below(d, 2);
    m->c = draw_below(d, 2);
    m->mid = draw_percent(d, 30);
    m->rptc = 0;
    if (draw_percent(d, 20))
        m->rptc = draw_percent(d, 70) ? DRAW_OF(d, counts) : draw_below(d, 256);
    for (int i = 0; i < PLAIN_STACK_WORDS; i++)
        m->stack[i] = draw_percent(d, 50) ? draw_word(d) : draw_below(d, 4096);
    m->input_cursor = 0;
    m->output_cursor = 0;
}

/* 0 to length: the start, the end and the place before it favoured. */
static uint32_t draw_cursor(struct draw *d, size_t length)
{
    uint32_t how = draw_below(d, 8);
    if (how == 0 || length == 0)
        return 0;
    if (how == 1)
        return (uint32_t)length;
    if (how == 2)
        return (uint32_t)length - 1;
    return draw_below(d, (uint32_t)length);
}

static size_t draw_port_length(struct draw *d)
{
    static const uint32_t lengths[] = { 0, 1, 2, 4, 255, 256, 1023, 1024 };
    return draw_percent(d, 50) ? DRAW_OF(d, lengths) : draw_below(d, 1025);
}

void draw_slices(struct draw *d, struct world *w)
{
    struct plain_machine *m = &w->plain.machine;
    w->cells_length = PLAIN_CELLS;
    w->rom_length = PLAIN_ROM_WORDS;
    w->data_length = PLAIN_DATA_WORDS;
    w->input_length = draw_port_length(d);
    w->output_length = draw_port_length(d);
    m->input_cursor = draw_cursor(d, w->input_length);
    m->output_cursor = draw_cursor(d, w->output_length);
}

/* The largest number of each cell (D01, "The cells of the machine"). */
static const uint32_t limits[PLAIN_CELLS] = {
    0xFFFFFFFF, 0xFFFFFFFF, 0xFFFF, 0xFFFF, 0xFFFF,
    0xFFFF, 0xFFFF, 0xFFFF, 0xFFFF, 0xFFFF, 0xFFFF, 0xFFFF, 0xFFFF,
    7, 7, 511, 3, 1, 1, 1, 1, 1, 1, 255,
    0xFFFF, 0xFFFF, 0xFFFF, 0xFFFF, 0xFFFF, 0xFFFF, 0xFFFF, 0xFFFF,
    1024, 1024,
};

/* By one, wildly, or with a good number in the low 8 or 16 bits. */
static void spoil_cell(struct draw *d, uint32_t *cells)
{
    uint32_t i = 2 + draw_below(d, PLAIN_CELLS - 2);
    uint32_t most = limits[i];
    uint32_t bad = most + 1;
    switch (draw_below(d, 4)) {
    case 0:
        bad = draw_long(d);
        break;
    case 1:
        bad = 0x10000u * (1 + draw_below(d, 0xFFFF)) + (cells[i] & 0xFFFF);
        break;
    case 2:
        bad = most < 256 ? 0x100 + cells[i] : 0x80000000u + cells[i];
        break;
    }
    cells[i] = bad > most ? bad : most + 1;
}

static void spoil_length(struct draw *d, struct world *w)
{
    static const uint32_t memory[] = { 0, 1, 4095, 4097, MEMORY_ROOM,
                                       WIDE_ROOM };
    static const uint32_t ports[] = { 1025, PORT_ROOM, 65536, 65536 + 1024 };
    struct plain_machine *m = &w->plain.machine;
    switch (draw_below(d, 6)) {
    case 0:
        w->rom_length = DRAW_OF(d, memory);
        break;
    case 1:
        w->data_length = DRAW_OF(d, memory);
        break;
    case 2:
        w->input_length = DRAW_OF(d, ports);
        break;
    case 3:
        w->output_length = DRAW_OF(d, ports);
        break;
    case 4:
        m->input_cursor = (uint32_t)w->input_length + 1 + draw_below(d, 3);
        break;
    default:
        m->output_cursor = (uint32_t)w->output_length + 1 + draw_below(d, 3);
        break;
    }
}

void spoil(struct draw *d, struct world *w)
{
    static const uint32_t cells[] = { 0, 1, 33, 35, CELL_ROOM };
    uint32_t how = draw_below(d, 16);
    if (how == 0)
        w->cells_length = DRAW_OF(d, cells);
    if (how < 9)
        spoil_cell(d, w->plain.cells);
    if (how == 0 || how >= 8)
        spoil_length(d, w);
}

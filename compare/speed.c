/*
 * Steps per second on both emulators, of `run` and of calls of `step`, and of
 * the library's `run` beside `run_with`, which also tells the external reads
 * and writes: the same programs from reset, turn about in short spells of
 * processor time, the fastest spell counted.
 */
#include "cases.h"
#include "world.h"

#include "crowmitten.h"

#include <inttypes.h>
#include <stdio.h>
#include <string.h>
#include <time.h>

enum { SPELLS = 10 };
static const double spell_seconds = 0.2;

struct workload {
    const char *name;
    const uint16_t *program;
    size_t count;
    uint16_t budget;
};

/* RPTK 126, MAC, APAC over a table in ROM: 127 passes in 133 steps. */
static const uint16_t mac_stack[] = {
    0xC808,         /* LDPK 8 */
    0x5589,         /* LARP 1 */
    0x3100,         /* 2: LAR AR1,0 */
    0xCA00,         /* ZAC */
    0xA000,         /* MPYK 0 */
    0xCB7E,         /* RPTK 126 */
    0x5DA0, 0x0100, /* MAC 0100h,*+ */
    0xCE15,         /* APAC */
    0xFF80, 0x0002, /* B 2 */
};

static const uint16_t mixed_loop[] = {
    0xC808,         /* LDPK 8 */
    0x5589,         /* LARP 1 */
    0x3100,         /* 2: LAR AR1,0 */
    0x3201,         /* LAR AR2,1 */
    0x2402,         /* 4: LAC 2,4 */
    0x0303,         /* ADD 3,3 */
    0x1204,         /* SUB 4,2 */
    0x4E05,         /* AND 5 */
    0x3CA0,         /* LT *+ */
    0x3890,         /* MPY *- */
    0xCE15,         /* APAC */
    0x6006,         /* SACL 6 */
    0x6907,         /* SACH 7,1 */
    0x4D08,         /* OR 8 */
    0x4C09,         /* XOR 9 */
    0xCC05,         /* ADDK 5 */
    0xCD03,         /* SUBK 3 */
    0x480A,         /* ADDH 10 */
    0x3DA0,         /* LTA *+ */
    0x3A80,         /* MPYA * */
    0xCE18,         /* SFL */
    0xCE19,         /* SFR */
    0x558A,         /* LARP 2 */
    0xFB99, 0x0004, /* BANZ 4,*-,AR1 */
    0xFF80, 0x0002, /* B 2 */
};

/* 1,024 words in and 1,024 words out, 256 at a time: 2,060 steps. */
static const uint16_t transfer[] = {
    0xC808,         /* LDPK 8 */
    0x5589,         /* LARP 1 */
    0x3100,         /* LAR AR1,0 */
    0xCBFF, 0x80A0, /* RPTK 255; IN *+,PA0 */
    0xCBFF, 0x80A0, 0xCBFF, 0x80A0, 0xCBFF, 0x80A0,
    0x3100,         /* LAR AR1,0 */
    0xCBFF, 0xE1A0, /* RPTK 255; OUT *+,PA1 */
    0xCBFF, 0xE1A0, 0xCBFF, 0xE1A0, 0xCBFF, 0xE1A0,
};

#define LOAD(name, words, budget) \
    { (name), (words), sizeof (words) / sizeof (words)[0], (budget) }

static const struct workload workloads[] = {
    LOAD("(a) MAC stack of 127 frames", mac_stack, 65535),
    LOAD("(b) loop of mixed instructions", mixed_loop, 65535),
    LOAD("(c) IN and OUT transfer", transfer, 2060),
};

static struct world world;

typedef struct outcome one_run(uint16_t budget);

static struct outcome once_plain(uint16_t budget)
{
    plain_reset(&world.plain.machine);
    return run_plain(&world, budget);
}

static struct outcome once_proved(uint16_t budget)
{
    crowmitten_reset(world.proved.cells, PLAIN_CELLS);
    return run_proved(&world, budget);
}

static struct outcome once_counted(uint16_t budget)
{
    crowmitten_reset(world.counted.cells, PLAIN_CELLS);
    return run_counted(&world, budget);
}

/* As many calls of one step each. */
static struct outcome calls(struct outcome step(struct world *w), uint16_t count)
{
    struct outcome out = { .answer = PLAIN_DONE };
    while (out.answer == PLAIN_DONE && out.steps < count) {
        out.answer = step(&world).answer;
        out.steps++;
    }
    return out;
}

static struct outcome calls_plain(uint16_t count)
{
    plain_reset(&world.plain.machine);
    return calls(step_plain, count);
}

static struct outcome calls_proved(uint16_t count)
{
    crowmitten_reset(world.proved.cells, PLAIN_CELLS);
    return calls(step_proved, count);
}

/* What is measured: a run, calls of a step; and what counting costs. */
static one_run *const by_run[2] = { once_plain, once_proved };
static one_run *const by_calls[2] = { calls_plain, calls_proved };
static one_run *const by_counting[2] = { once_proved, once_counted };

/* Any words in the memories; 0400h has AR1's start, 0401h the loop's count. */
static void set_world(const struct workload *load)
{
    struct draw d = draw_case(1, 0, 0);
    draw_fill(&d, world.rom, PLAIN_ROM_WORDS);
    draw_fill(&d, world.plain.data, PLAIN_DATA_WORDS);
    draw_fill(&d, world.input, PLAIN_PORT_WORDS);
    memcpy(world.rom, load->program, 2 * load->count);
    world.plain.data[0x400] = 0x0480;
    world.plain.data[0x401] = 99;
    world.cells_length = PLAIN_CELLS;
    world.rom_length = PLAIN_ROM_WORDS;
    world.data_length = PLAIN_DATA_WORDS;
    world.input_length = PLAIN_PORT_WORDS;
    world.output_length = PLAIN_PORT_WORDS;
    sides_level(&world);
}

static double seconds_now(void)
{
    return (double)clock() / CLOCKS_PER_SEC;
}

/* Steps per second of runs of this budget over one spell. */
static double spell(one_run *once, uint16_t budget)
{
    double began = seconds_now();
    double passed = 0;
    uint64_t steps = 0;
    while (passed < spell_seconds) {
        steps += once(budget).steps;
        passed = seconds_now() - began;
    }
    return (double)steps / passed;
}

/* The fastest spell of each of the two. */
static void rates(one_run *const sides[2], uint16_t budget, int spells,
                  double fastest[2])
{
    fastest[0] = 0;
    fastest[1] = 0;
    for (int i = 0; i < 2 * spells; i++) {
        double rate = spell(sides[i % 2], budget);
        if (rate > fastest[i % 2])
            fastest[i % 2] = rate;
    }
}

/* One run on each side: what is measured is the same and is done whole. */
static bool runs_agree(const struct workload *load)
{
    set_world(load);
    struct outcomes out = { once_plain(load->budget), once_proved(load->budget),
                            once_counted(load->budget) };
    bool good = all_same(&world, &out) && out.plain.answer == PLAIN_DONE
        && out.plain.steps == load->budget;
    if (!good)
        printf("%s: the runs differ, or are refused (%" PRIu32 ")\n",
               load->name, out.plain.answer);
    return good;
}

static void print_growth(const struct workload *load)
{
    double first[2] = { 0, 0 };
    printf("time of one run of %s, ms, and ns a step:\n", load->name);
    printf("  %6s %10s %8s %10s %8s\n", "budget", "plain", "ns", "proved",
           "ns");
    for (uint32_t budget = 1000; budget <= 64000; budget *= 2) {
        double rate[2];
        rates(by_run, (uint16_t)budget, 3, rate);
        printf("  %6" PRIu32, budget);
        for (int i = 0; i < 2; i++) {
            double ns = 1e9 / rate[i];
            first[i] = budget == 1000 ? ns : first[i];
            printf(" %10.3f %8.1f", ns * budget / 1e6, ns);
            if (budget == 64000)
                first[i] = 64 * ns / first[i];
        }
        printf("\n");
    }
    printf("  64,000 steps over 1,000: plain %.1f, proved %.1f times\n",
           first[0], first[1]);
}

int run_once(uint64_t load, uint64_t side, uint64_t budget)
{
    static one_run *const sides[] = { once_plain, once_proved, calls_plain,
                                      calls_proved, once_counted };
    if (load >= sizeof workloads / sizeof workloads[0]
        || side >= sizeof sides / sizeof sides[0] || budget > 65535)
        return 2;
    set_world(&workloads[load]);
    struct outcome out = sides[side]((uint16_t)budget);
    return out.answer == PLAIN_DONE && out.steps == budget ? 0 : 1;
}

static void print_rates(const char *name, const double rate[2])
{
    printf("  %-32s plain %10.0f   proved %10.0f   ratio %.2f\n", name,
           rate[0], rate[1], rate[1] / rate[0]);
    fflush(stdout);
}

/* The library alone: a run, and the same with its external accesses. */
static void print_counting(const double rate[2])
{
    printf("  %-32s run   %10.0f   run_with %8.0f   ratio %.2f\n",
           "    of the proved side", rate[0], rate[1], rate[1] / rate[0]);
    fflush(stdout);
}

int measure_speed(void)
{
    bool good = true;
    printf("steps per second:\n");
    for (size_t i = 0; i < sizeof workloads / sizeof workloads[0]; i++) {
        double rate[2];
        good = runs_agree(&workloads[i]) && good;
        rates(by_run, workloads[i].budget, SPELLS, rate);
        print_rates(workloads[i].name, rate);
        rates(by_counting, workloads[i].budget, SPELLS, rate);
        print_counting(rate);
    }
    double rate[2];
    good = runs_agree(&workloads[1]) && good;
    rates(by_calls, workloads[1].budget, SPELLS, rate);
    print_rates("(b), a call of step for each", rate);
    for (int i = 0; i < 2; i++) {
        good = runs_agree(&workloads[i]) && good;
        print_growth(&workloads[i]);
    }
    return good ? 0 : 1;
}

/*
 * Self-tests of the plain interpreter. Every expected value is taken from the
 * documents: D01 (the scope paper), D02 (the change requests), G n (line n of
 * the guide), Rn or Xn (a ruling).
 */
#include "plain.h"

#include <stdbool.h>
#include <stdio.h>
#include <string.h>

static unsigned long checks;
static unsigned long failures;

static void expect(const char *what, uint64_t got, uint64_t want)
{
    checks++;
    if (got == want)
        return;
    failures++;
    if (failures <= 40)
        printf("FAILED %s: got %llX, want %llX\n", what,
               (unsigned long long)got, (unsigned long long)want);
}

/* ---- A world to step in ------------------------------------------------- */

static struct plain_machine m;
static uint16_t rom[PLAIN_ROM_WORDS + 1];
static uint16_t data[PLAIN_DATA_WORDS + 1];
static uint16_t input[PLAIN_PORT_WORDS + 1];
static uint16_t output[PLAIN_PORT_WORDS + 1];
static size_t rom_len, data_len, input_len, output_len;
static struct plain_external external; /* of the last step or run */

static void fresh(void)
{
    plain_reset(&m);
    memset(rom, 0, sizeof rom);
    memset(data, 0, sizeof data);
    memset(input, 0, sizeof input);
    memset(output, 0, sizeof output);
    rom_len = PLAIN_ROM_WORDS;
    data_len = PLAIN_DATA_WORDS;
    input_len = 4;
    output_len = 4;
}

/* Counts that a step or a run must set. */
static const struct plain_external not_set = { 77, 77 };

static int step(void)
{
    external = not_set;
    return plain_step(&m, rom, rom_len, data, data_len, input, input_len,
                      output, output_len, &external);
}

static int run(uint16_t budget, uint32_t *steps)
{
    external = not_set;
    return plain_run(&m, rom, rom_len, data, data_len, input, input_len,
                     output, output_len, budget, steps, &external);
}

static void expect_external(const char *what, uint32_t reads, uint32_t writes)
{
    expect(what, external.reads, reads);
    expect(what, external.writes, writes);
}

/* Puts a word at PC and makes the step, which is to be done. */
static void does(const char *what, unsigned word)
{
    rom[m.pc] = (uint16_t)word;
    expect(what, (uint64_t)step(), PLAIN_DONE);
}

/* The same with a second word. */
static void does2(const char *what, unsigned word, unsigned second)
{
    rom[m.pc + 1] = (uint16_t)second;
    does(what, word);
}

/* The step is refused with this number, changes nothing, counts nothing. */
static void refuses(const char *what, int want)
{
    static struct plain_machine machine_before;
    static uint16_t data_before[sizeof data / sizeof data[0]];
    static uint16_t output_before[sizeof output / sizeof output[0]];
    machine_before = m;
    memcpy(data_before, data, sizeof data);
    memcpy(output_before, output, sizeof output);
    expect(what, (uint64_t)step(), (uint64_t)want);
    expect_external(what, 0, 0);
    expect(what, (uint64_t)memcmp(&machine_before, &m, sizeof m), 0);
    expect(what, (uint64_t)memcmp(data_before, data, sizeof data), 0);
    expect(what, (uint64_t)memcmp(output_before, output, sizeof output), 0);
}

static void expect_stack(const char *what, const uint32_t want[8])
{
    for (int i = 0; i < 8; i++)
        expect(what, m.stack[i], want[i]);
}

static bool listed(const char *name, const char *const *list)
{
    for (; *list != NULL; list++)
        if (strcmp(name, *list) == 0)
            return true;
    return false;
}

/* ---- Decoding ----------------------------------------------------------- */

static void decode_counts(void)
{
    /* R9 */
    unsigned long counts[5] = { 0 };
    for (uint32_t word = 0; word < 0x10000; word++) {
        int answer = plain_decode((uint16_t)word);
        counts[answer]++;
        expect("one encoding at most", plain_matches((uint16_t)word) <= 1, 1);
    }
    expect("R9 built words", counts[0], 47141);
    expect("R9 words not built", counts[4], 9097);
    expect("R9 words in no encoding", counts[3], 9298);

    /* R1, R2 */
    expect("R1 42B0", (uint64_t)plain_decode(0x42B0), 3);
    expect("R1 42A0", (uint64_t)plain_decode(0x42A0), 4);
    expect("R1 FFB0", (uint64_t)plain_decode(0xFFB0), 3);
    expect("R2 FF00", (uint64_t)plain_decode(0xFF00), 3);
    expect("R2 5E00", (uint64_t)plain_decode(0x5E00), 3);
    expect("R2 5F80", (uint64_t)plain_decode(0x5F80), 4);
    expect("R2 FC00", (uint64_t)plain_decode(0xFC00), 4);
    expect("R2 FD80", (uint64_t)plain_decode(0xFD80), 4);

    /* R4 */
    for (uint32_t high = 0xD0; high <= 0xDF; high++)
        for (uint32_t low = 0; low <= 0xFF; low++) {
            bool published = (low == 0 && high <= 0xD7)
                || (low >= 1 && low <= 6);
            expect("R4", (uint64_t)plain_decode((uint16_t)(high << 8 | low)),
                   published ? 4 : 3);
        }
}

/* R3, the whole list of upper byte CEh. */
static void decode_ce(void)
{
    static const struct { uint8_t low; const char *name; } built[] = {
        { 0x02, "ROVM" }, { 0x03, "SOVM" }, { 0x04, "CNFD" }, { 0x05, "CNFP" },
        { 0x06, "RSXM" }, { 0x07, "SSXM" }, { 0x08, "SPM" },  { 0x09, "SPM" },
        { 0x0A, "SPM" },  { 0x0B, "SPM" },  { 0x14, "PAC" },  { 0x15, "APAC" },
        { 0x16, "SPAC" }, { 0x18, "SFL" },  { 0x19, "SFR" },  { 0x1B, "ABS" },
        { 0x1C, "PUSH" }, { 0x1D, "POP" },  { 0x23, "NEG" },  { 0x26, "RET" },
        { 0x27, "CMPL" },
    };
    static const uint8_t other[] = {
        0x00, 0x01, 0x0C, 0x0D, 0x0E, 0x0F, 0x1E, 0x1F, 0x20, 0x21, 0x24, 0x25,
        0x30, 0x31, 0x32, 0x33, 0x34, 0x35, 0x36, 0x37, 0x38, 0x39, 0x50, 0x51,
        0x52, 0x53, 0x82, 0x92, 0xA2, 0xC2, 0xD2, 0xE2, 0xF2,
    };
    int want[256];
    const char *names[256] = { NULL };
    for (int i = 0; i < 256; i++)
        want[i] = 3;
    for (size_t i = 0; i < sizeof built / sizeof built[0]; i++) {
        want[built[i].low] = 0;
        names[built[i].low] = built[i].name;
    }
    for (size_t i = 0; i < sizeof other; i++)
        want[other[i]] = 4;
    for (unsigned i = 0; i < 256; i++) {
        uint16_t word = (uint16_t)(0xCE00 | i);
        expect("R3", (uint64_t)plain_decode(word), (uint64_t)want[i]);
        if (names[i] != NULL)
            expect("R3 name", (uint64_t)strcmp(plain_name(word), names[i]), 0);
    }
}

/* Table 4-4 (G 1959 on): the upper bytes that are built, written out again. */
static void decode_table(void)
{
    static const struct { uint8_t first, last; const char *name; } upper[] = {
        { 0x00, 0x0F, "ADD" },  { 0x10, 0x1F, "SUB" },  { 0x20, 0x2F, "LAC" },
        { 0x30, 0x37, "LAR" },  { 0x38, 0x38, "MPY" },  { 0x39, 0x39, "SQRA" },
        { 0x3A, 0x3A, "MPYA" }, { 0x3B, 0x3B, "MPYS" }, { 0x3C, 0x3C, "LT" },
        { 0x3D, 0x3D, "LTA" },  { 0x3E, 0x3E, "LTP" },  { 0x3F, 0x3F, "LTD" },
        { 0x40, 0x40, "ZALH" }, { 0x41, 0x41, "ZALS" }, { 0x44, 0x44, "SUBH" },
        { 0x45, 0x45, "SUBS" }, { 0x47, 0x47, "SUBC" }, { 0x48, 0x48, "ADDH" },
        { 0x49, 0x49, "ADDS" }, { 0x4B, 0x4B, "RPT" },  { 0x4C, 0x4C, "XOR" },
        { 0x4D, 0x4D, "OR" },   { 0x4E, 0x4E, "AND" },  { 0x52, 0x52, "LDP" },
        { 0x55, 0x55, "MAR" },  { 0x56, 0x56, "DMOV" }, { 0x5A, 0x5A, "SQRS" },
        { 0x5B, 0x5B, "LTS" },  { 0x5C, 0x5C, "MACD" }, { 0x5D, 0x5D, "MAC" },
        { 0x60, 0x67, "SACL" }, { 0x68, 0x6F, "SACH" }, { 0x70, 0x77, "SAR" },
        { 0x7C, 0x7C, "SPL" },  { 0x7D, 0x7D, "SPH" },  { 0x7E, 0x7E, "ADRK" },
        { 0x7F, 0x7F, "SBRK" }, { 0x80, 0x8F, "IN" },   { 0xA0, 0xBF, "MPYK" },
        { 0xC0, 0xC7, "LARK" }, { 0xC8, 0xC9, "LDPK" }, { 0xCA, 0xCA, "LACK" },
        { 0xCB, 0xCB, "RPTK" }, { 0xCC, 0xCC, "ADDK" }, { 0xCD, 0xCD, "SUBK" },
        { 0xE0, 0xEF, "OUT" },  { 0xF0, 0xF0, "BV" },   { 0xF1, 0xF1, "BGZ" },
        { 0xF2, 0xF2, "BLEZ" }, { 0xF3, 0xF3, "BLZ" },  { 0xF4, 0xF4, "BGEZ" },
        { 0xF5, 0xF5, "BNZ" },  { 0xF6, 0xF6, "BZ" },   { 0xF7, 0xF7, "BNV" },
        { 0xFB, 0xFB, "BANZ" }, { 0xFE, 0xFE, "CALL" }, { 0xFF, 0xFF, "B" },
    };
    static const char *const no_field[] = { "ADRK", "SBRK", "MPYK", "LARK",
        "LDPK", "LACK", "RPTK", "ADDK", "SUBK", NULL };
    static const char *const branches[] = { "BV", "BGZ", "BLEZ", "BLZ", "BGEZ",
        "BNZ", "BZ", "BNV", "BANZ", "CALL", "B", NULL };
    bool in_table[256] = { false };
    for (size_t i = 0; i < sizeof upper / sizeof upper[0]; i++)
        for (unsigned high = upper[i].first; high <= upper[i].last; high++) {
            in_table[high] = true;
            for (unsigned low = 0; low < 256; low++) {
                uint16_t word = (uint16_t)(high << 8 | low);
                bool good = true;
                if (!listed(upper[i].name, no_field))
                    good = (low & 0xF0) != 0xB0;
                if (listed(upper[i].name, branches))
                    good = good && low >= 0x80;
                expect("Table 4-4", (uint64_t)plain_decode(word),
                       good ? 0 : 3);
                if (good)
                    expect("Table 4-4 name", (uint64_t)strcmp(
                        plain_name(word), upper[i].name), 0);
            }
        }
    /* No built word has another upper byte, CEh excepted. */
    for (unsigned word = 0; word < 0x10000; word++)
        if (!in_table[word >> 8] && word >> 8 != 0xCE)
            expect("Table 4-4 rest", plain_decode((uint16_t)word) != 0, 1);
}

/* Appendix D (G 15597): which built ones are not repeatable. Answer 7. */
static void repeatability(void)
{
    static const char *const once[] = { "RPT", "ADDK", "ADRK", "LACK", "LARK",
        "LDPK", "MPYK", "RPTK", "SBRK", "SPM", "SUBK", "B", "BANZ", "BGEZ",
        "BGZ", "BLEZ", "BLZ", "BNV", "BNZ", "BV", "BZ", "CALL", "RET", NULL };
    fresh();
    for (unsigned word = 0; word < 0x10000; word++) {
        if (plain_decode((uint16_t)word) != 0)
            continue;
        plain_reset(&m);
        m.dp = 6;
        m.ar[0] = 0x300;
        m.rptc = 2;
        rom[0] = (uint16_t)word;
        rom[1] = 0x0005;
        bool io = word >> 12 == 8 || word >> 12 == 0xE;
        bool port = (word >> 8 & 15) == (word >> 12 == 8 ? 0 : 1);
        int answer = step();
        if (listed(plain_name((uint16_t)word), once)) {
            expect("not repeatable", (uint64_t)answer, 7);
            expect("not repeatable, RPTC", m.rptc, 2);
        } else if (io && !port) {
            expect("wrong port", (uint64_t)answer, 9);
        } else {
            expect("repeatable", (uint64_t)answer, 0);
            expect("repeatable, RPTC", m.rptc, 1);
            expect("repeatable, MID", m.mid, 1);
            expect("repeatable, PC", m.pc, 0);
        }
    }
}

/* ---- D01, "Bench values" ------------------------------------------------ */

static void bench(void)
{
    for (uint32_t c = 0; c <= 1; c++) {
        fresh();
        m.c = c; m.dp = 6; data[0x31E] = 0x0F; m.p = 0x12C; m.acc = 0x1F4;
        does("M1", 0x391E);
        expect("M1 T", m.t, 0x0F);
        expect("M1 P", m.p, 0xE1);
        expect("M1 ACC", m.acc, 0x320);
        expect("M1 C", m.c, 0);

        fresh();
        m.c = c; m.dp = 6; data[0x309] = 8; m.p = 0x190; m.acc = 0x1450;
        m.t = 0x1124;
        does("M2", 0x5A09);
        expect("M2 T", m.t, 8);
        expect("M2 P", m.p, 0x40);
        expect("M2 ACC", m.acc, 0x12C0);
        expect("M2 C", m.c, 1);
    }

    fresh();
    m.p = 0xFE079844; m.pm = 2; m.dp = 4; data[0x203] = 0x4567;
    does("M3 SPH", 0x7D03);
    expect("M3 SPH word", data[0x203], 0xE079);
    data[0x203] = 0x4567;
    does("M3 SPL", 0x7C03);
    expect("M3 SPL word", data[0x203], 0x8440);
    expect("M3 P", m.p, 0xFE079844);

    fresh();
    m.acc = 0x7FFFFFFF; m.ovm = 1;
    does("M4", 0xCC01);
    expect("M4 ACC", m.acc, 0x7FFFFFFF);
    expect("M4 OV", m.ov, 1);
    expect("M4 C", m.c, 0);

    fresh();
    m.acc = 0x7FFFFFFF;
    does("M5", 0xCC01);
    expect("M5 ACC", m.acc, 0x80000000);
    expect("M5 OV", m.ov, 1);
    expect("M5 C", m.c, 0);

    for (uint32_t ov = 0; ov <= 1; ov++) {
        fresh();
        m.acc = 0xFFFFFFFF; m.ov = ov; m.c = 0;
        does("M6", 0xCC01);
        expect("M6 ACC", m.acc, 0);
        expect("M6 C", m.c, 1);
        expect("M6 OV", m.ov, ov);
    }

    fresh();
    does("M7", 0xCD01);
    expect("M7 ACC", m.acc, 0xFFFFFFFF);
    expect("M7 C", m.c, 0);

    fresh();
    m.arp = 1; m.ar[1] = 8; m.ar[0] = 8;
    does("M8", 0x55F0);
    expect("M8 AR1", m.ar[1], 4);
    expect("M8 AR0", m.ar[0], 8);

    fresh();
    m.p = 0xFFFFFFFF; m.pm = 3;
    does("M9", 0xCE14);
    expect("M9 ACC", m.acc, 0xFFFFFFFF);

    fresh();
    m.pc = 0x1000;
    refuses("M10", 5);

    fresh();
    rom[0] = 0x00B0;
    refuses("M11", 3);

    fresh();
    m.t = 0x8000; m.dp = 6; data[0x300] = 0x8000;
    does("M12", 0x3800);
    expect("M12 P", m.p, 0x40000000);

    fresh();
    m.dp = 1; rom[0] = 0x2000;
    refuses("direct, DP 1, offset 0", 6);
    fresh();
    data[0x60] = 0x1234;
    does("direct, DP 0, offset 60h", 0x2060);
    expect("direct, DP 0, offset 60h: ACC", m.acc, 0x1234);
}

/* Figure 3-9 (G 987 on): the carry, by ADDK 1 and SUBK 1. */
static void carry_figure(void)
{
    static const struct {
        uint32_t before, word, after, c;
    } rows[] = {
        { 0xFFFFFFFF, 0xCC01, 0x00000000, 1 },
        { 0x00000000, 0xCD01, 0xFFFFFFFF, 0 },
        { 0x7FFFFFFF, 0xCC01, 0x80000000, 0 },
        { 0x80000000, 0xCD01, 0x7FFFFFFF, 1 },
    };
    for (size_t i = 0; i < sizeof rows / sizeof rows[0]; i++)
        for (uint32_t c = 0; c <= 1; c++) {
            fresh();
            m.acc = rows[i].before; m.c = c;
            does("Figure 3-9", rows[i].word);
            expect("Figure 3-9 ACC", m.acc, rows[i].after);
            expect("Figure 3-9 C", m.c, rows[i].c);
        }
}

/* ---- D01, demand 3 ------------------------------------------------------ */

/* RPT or RPTK giving n - 1, n passes of MAC or MACD, APAC; all words -32768. */
static void sum_of(unsigned n, bool by_rpt, bool moving, uint32_t ovm,
                   uint32_t acc, uint32_t ov)
{
    fresh();
    m.pm = 3; m.ovm = ovm; m.arp = 1; m.ar[1] = 0x300;
    for (unsigned i = 0; i < 0x100; i++) {
        data[0x300 + i] = 0x8000;
        rom[0x800 + i] = 0x8000;
    }
    data[0x60] = (uint16_t)(0xAB00 | (n - 1));
    rom[0] = by_rpt ? 0x4B60 : (uint16_t)(0xCB00 | (n - 1));
    rom[1] = moving ? 0x5CA0 : 0x5DA0;
    rom[2] = 0x0800;
    rom[3] = 0xCE15;
    uint32_t steps;
    expect("demand 3", (uint64_t)run((uint16_t)(n + 2), &steps), 0);
    expect("demand 3 steps", steps, n + 2);
    expect("demand 3 ACC", m.acc, acc);
    expect("demand 3 OV", m.ov, ov);
    expect("demand 3 PC", m.pc, 4);
    expect("demand 3 AR1", m.ar[1], 0x300 + n);
    expect("demand 3 PFC", m.pfc, 0x800 + n);
}

static void demand_3(void)
{
    for (int way = 0; way < 4; way++) {
        bool by_rpt = (way & 1) != 0, moving = (way & 2) != 0;
        sum_of(127, by_rpt, moving, 0, 0x7F000000, 0);
        sum_of(127, by_rpt, moving, 1, 0x7F000000, 0);
        sum_of(128, by_rpt, moving, 1, 0x7FFFFFFF, 1);
        /* The low 32 bits of 128 times 1000000h, not held. */
        sum_of(128, by_rpt, moving, 0, 0x80000000, 1);
    }
}

/* ---- The guide's surviving examples, page by page ----------------------- */

static void guide_accumulator(void)
{
    fresh(); /* ADD, G 2344 */
    m.dp = 10; data[1281] = 8; m.acc = 2;
    does("ADD DAT1,3", 0x0301);
    expect("ADD ACC", m.acc, 0x42);
    expect("ADD C", m.c, 0);
    fresh();
    m.ar[0] = 1281; data[1281] = 8; m.acc = 2;
    does("ADD *,3", 0x0380);
    expect("ADD * ACC", m.acc, 0x42);
    expect("ADD * C", m.c, 0);

    for (uint32_t c = 0; c <= 1; c++) { /* CMPL, G 3996 */
        fresh();
        m.acc = 0xF7982513; m.c = c;
        does("CMPL", 0xCE27);
        expect("CMPL ACC", m.acc, 0x0867DAEC);
        expect("CMPL C", m.c, c);
    }

    fresh(); /* SFL, G 7048 */
    m.acc = 0xB0001234; m.c = 0;
    does("SFL", 0xCE18);
    expect("SFL ACC", m.acc, 0x60002468);
    expect("SFL C", m.c, 1);

    fresh(); /* SFR, G 7099 */
    m.acc = 0xB0001234; m.sxm = 0;
    does("SFR, SXM 0", 0xCE19);
    expect("SFR ACC, SXM 0", m.acc, 0x5800091A);
    expect("SFR C, SXM 0", m.c, 0);
    fresh(); /* SFR, G 7105 */
    m.acc = 0xB0001234; m.sxm = 1;
    does("SFR, SXM 1", 0xCE19);
    expect("SFR ACC, SXM 1", m.acc, 0xD800091A);
    expect("SFR C, SXM 1", m.c, 0);
}

static void guide_registers(void)
{
    fresh(); /* ADRK, G 2655 */
    m.arp = 5; m.ar[5] = 0x4321;
    does("ADRK 80h", 0x7E80);
    expect("ADRK AR5", m.ar[5], 0x43A1);

    fresh(); /* SBRK, G 7004 */
    m.arp = 7;
    does("SBRK 0FFh", 0x7FFF);
    expect("SBRK AR7", m.ar[7], 0xFF01);

    fresh(); /* LAR, G 4575 */
    m.dp = 4; data[522] = 0x18; m.ar[0] = 6;
    does("LAR AR0,DAT10", 0x300A);
    expect("LAR AR0", m.ar[0], 0x18);
    fresh(); /* LAR, G 4581; the address as AR4 has it, 617h */
    data[0x617] = 0x32; m.ar[4] = 0x617;
    does("LARP AR4", 0x558C);
    does("LAR AR4,*-", 0x3490);
    expect("LAR AR4", m.ar[4], 0x32);
    expect("LAR ARP", m.arp, 4);

    fresh(); /* LARK, G 4625 */
    does("LARK AR0,15h", 0xC015);
    expect("LARK AR0", m.ar[0], 0x15);

    fresh(); /* LDP, G 4711; the address moved to one that is there */
    m.dp = 0x1FF; m.ar[0] = 0x400; data[0x400] = 0xFEDC;
    does("LDP *", 0x5280);
    expect("LDP DP", m.dp, 0x0DC);
    fresh(); /* LDPK, G 4751 */
    does("LDPK 64", 0xC840);
    expect("LDPK DP", m.dp, 64);

    fresh(); /* MAR, G 5583 */
    m.ar[1] = 0x35;
    does("MAR *,1", 0x5589);
    expect("MAR ARP", m.arp, 1);
    does("MAR *-", 0x5590); /* G 5588 */
    expect("MAR AR1", m.ar[1], 0x34);
    does("MAR *+,5", 0x55AD); /* G 5594 */
    expect("MAR AR1 again", m.ar[1], 0x35);
    expect("MAR ARP again", m.arp, 5);
    expect("MAR ARB", m.arb, 1);

    fresh(); /* SAR, G 6902 */
    m.dp = 6; m.ar[0] = 0x37; data[798] = 0x18;
    does("SAR AR0,DAT30", 0x701E);
    expect("SAR word", data[798], 0x37);
    expect("SAR AR0", m.ar[0], 0x37);
    fresh(); /* SAR, G 6917 */
    m.ar[0] = 0x401;
    does("LARP AR0", 0x5588);
    does("SAR AR0,*0+", 0x70E0);
    expect("SAR *0+ word", data[1025], 0x401);
    expect("SAR *0+ AR0", m.ar[0], 0x802);
}

static void guide_branches(void)
{
    static const struct {
        uint32_t word, ar, pc, target, ar_after, pc_after;
    } banz[] = { /* G 2904 to 2924 */
        { 0xFB90, 1, 0x46, 0x35, 0, 0x35 },
        { 0xFB90, 0, 0x46, 0x35, 0xFFFF, 0x48 },
        { 0xFBA0, 0xFFFF, 0x117, 0x64, 0, 0x64 },
        { 0xFBA0, 0, 0x117, 0x64, 1, 0x119 },
    };
    for (size_t i = 0; i < sizeof banz / sizeof banz[0]; i++) {
        fresh();
        m.ar[0] = banz[i].ar; m.pc = banz[i].pc;
        does2("BANZ", banz[i].word, banz[i].target);
        expect("BANZ AR", m.ar[0], banz[i].ar_after);
        expect("BANZ PC", m.pc, banz[i].pc_after);
    }

    /* The remarks of G 2819, 3112, 3156, 3401, 3699, 3787, 3831, 3875. */
    static const struct {
        uint32_t word, target, acc, ov;
        bool taken;
    } branch[] = {
        { 0xFF80, 191, 0, 0, true },
        { 0xF480, 217, 0, 0, true },
        { 0xF480, 217, 0x7FFFFFFF, 0, true },
        { 0xF480, 217, 0x80000000, 0, false },
        { 0xF180, 342, 1, 0, true },
        { 0xF180, 342, 0, 0, false },
        { 0xF180, 342, 0xFFFFFFFF, 0, false },
        { 0xF280, 63, 0, 0, true },
        { 0xF280, 63, 0xFFFFFFFF, 0, true },
        { 0xF280, 63, 1, 0, false },
        { 0xF380, 481, 0xFFFFFFFF, 0, true },
        { 0xF380, 481, 0, 0, false },
        { 0xF780, 315, 0, 0, true },
        { 0xF780, 315, 0, 1, false },
        { 0xF580, 320, 1, 0, true },
        { 0xF580, 320, 0, 0, false },
        { 0xF080, 610, 0, 1, true },
        { 0xF080, 610, 0, 0, false },
        { 0xF680, 77, 0, 0, true }, /* BZ, R6 */
        { 0xF680, 77, 1, 0, false },
    };
    for (size_t i = 0; i < sizeof branch / sizeof branch[0]; i++) {
        fresh();
        m.acc = branch[i].acc; m.ov = branch[i].ov; m.pc = 0x20;
        does2("branch", branch[i].word, branch[i].target);
        expect("branch PC", m.pc, branch[i].taken ? branch[i].target : 0x22);
        expect("branch OV", m.ov, 0); /* R23 */
        expect("branch ACC", m.acc, branch[i].acc);
    }

    /* CALL, G 3959; the eighth word before is 0 (the damaged prints). */
    static const uint32_t before[8] = { 0x71, 0x48, 0x16, 0x80, 0, 0, 0, 0 };
    static const uint32_t after[8] = { 0x35, 0x71, 0x48, 0x16, 0x80, 0, 0, 0 };
    fresh();
    memcpy(m.stack, before, sizeof before);
    m.pc = 0x33;
    does2("CALL PRG109", 0xFE80, 109);
    expect("CALL PC", m.pc, 0x6D);
    expect_stack("CALL stack", after);

    /* RET, G 6384 */
    static const uint32_t full[8] = {
        0x37, 0x45, 0x75, 0x21, 0x3F, 0x45, 0x6E, 0x6E };
    static const uint32_t popped[8] = {
        0x45, 0x75, 0x21, 0x3F, 0x45, 0x6E, 0x6E, 0x6E };
    fresh();
    memcpy(m.stack, full, sizeof full);
    m.pc = 0x96;
    does("RET", 0xCE26);
    expect("RET PC", m.pc, 0x37);
    expect_stack("RET stack", popped);
}

static void guide_multiplier(void)
{
    fresh(); /* LT, G 5040 */
    m.dp = 8; data[1048] = 0x62; m.t = 3;
    does("LT DAT24", 0x3C18);
    expect("LT T", m.t, 0x62);

    for (uint32_t c = 0; c <= 1; c++) {
        fresh(); /* LTA, G 5101 */
        m.dp = 6; data[804] = 0x62; m.t = 3; m.p = 0x0F; m.acc = 5; m.c = c;
        does("LTA DAT36", 0x3D24);
        expect("LTA T", m.t, 0x62);
        expect("LTA P", m.p, 0x0F);
        expect("LTA ACC", m.acc, 0x14);
        expect("LTA C", m.c, 0);

        fresh(); /* LTP, G 5218 */
        m.dp = 6; data[804] = 0x62; m.t = 3; m.p = 0x0F; m.acc = 5; m.c = c;
        does("LTP DAT36", 0x3E24);
        expect("LTP T", m.t, 0x62);
        expect("LTP P", m.p, 0x0F);
        expect("LTP ACC", m.acc, 0x0F);
        expect("LTP C", m.c, c);

        fresh(); /* LTS, G 5268; ACC as the rulings mend it */
        m.dp = 6; data[804] = 0x62; m.t = 3; m.p = 0x0F; m.acc = 5; m.c = c;
        does("LTS DAT36", 0x5B24);
        expect("LTS T", m.t, 0x62);
        expect("LTS P", m.p, 0x0F);
        expect("LTS ACC", m.acc, 0xFFFFFFF6);
        expect("LTS C", m.c, 0);

        fresh(); /* MPYA, G 5682 */
        m.dp = 6; data[781] = 7; m.t = 6; m.p = 0x36; m.acc = 0x54; m.c = c;
        does("MPYA DAT13", 0x3A0D);
        expect("MPYA T", m.t, 6);
        expect("MPYA P", m.p, 0x2A);
        expect("MPYA ACC", m.acc, 0x8A);
        expect("MPYA C", m.c, 0);

        fresh(); /* MPYS, G 5770 */
        m.dp = 6; data[781] = 7; m.t = 6; m.p = 0x36; m.acc = 0x54; m.c = c;
        does("MPYS DAT13", 0x3B0D);
        expect("MPYS T", m.t, 6);
        expect("MPYS P", m.p, 0x2A);
        expect("MPYS ACC", m.acc, 0x1E);
        expect("MPYS C", m.c, 1);
    }

    fresh(); /* MPY, G 5632 */
    m.dp = 8; data[1037] = 7; m.t = 6; m.p = 0x36;
    does("MPY DAT13", 0x380D);
    expect("MPY T", m.t, 6);
    expect("MPY P", m.p, 0x2A);

    fresh(); /* MPYK, G 5726: -9 is 1FF7h in 13 bits */
    m.t = 7; m.p = 0x2A;
    does("MPYK -9", 0xBFF7);
    expect("MPYK T", m.t, 7);
    expect("MPYK P", m.p, 0xFFFFFFC1);

    fresh(); /* MAC, G 5393 to 5416: the third pass of the loop */
    m.pm = 3; m.cnf = 1; m.arp = 1; m.ar[1] = 0x302; m.rptc = 0xFD;
    m.mid = 1; m.pfc = 0xFF02; m.p = 0x458972; m.acc = 0x723EC41;
    data[770] = 0x23; data[0x202] = 0xFAAA;
    does2("MAC 0FF00h,*+", 0x5DA0, 0xFF00);
    expect("MAC AR1", m.ar[1], 0x303);
    expect("MAC RPTC", m.rptc, 0xFC);
    expect("MAC PFC", m.pfc, 0xFF03);
    expect("MAC P", m.p, 0xFFFF453E);
    expect("MAC ACC", m.acc, 0x7250266);
    expect("MAC C", m.c, 0);
    expect("MAC T", m.t, 0x23);
    expect("MAC word", data[770], 0x23);

    fresh(); /* MACD, G 5520 to 5548; AR3, and P mended by the rulings */
    m.ovm = 1; m.cnf = 1; m.arp = 3; m.ar[3] = 0x3FD; m.rptc = 0xFD;
    m.mid = 1; m.pfc = 0xFF02; m.p = 0x458972; m.acc = 0x723EC41;
    data[1021] = 0x23; data[1022] = 0x7FC; data[0x202] = 0xFAAA;
    does2("MACD 0FF00h,*-", 0x5C90, 0xFF00);
    expect("MACD AR3", m.ar[3], 0x3FC);
    expect("MACD RPTC", m.rptc, 0xFC);
    expect("MACD PFC", m.pfc, 0xFF03);
    expect("MACD word", data[1021], 0x23);
    expect("MACD moved word", data[1022], 0x23);
    expect("MACD P", m.p, 0xFFFF453E);
    expect("MACD ACC", m.acc, 0x76975B3);
    expect("MACD C", m.c, 0);

    /* SPH, SPL, SQRA and SQRS are M3, M1 and M2. */

    fresh(); /* RPTK, G 6626: 3, 4 and 5 for X, Y and Z */
    m.ar[2] = 0x200; m.arp = 2;
    data[0x200] = 3; data[0x201] = 4; data[0x202] = 5;
    static const uint16_t squares[] = { 0xCA00, 0xA000, 0xCB02, 0x39A0,
        0xCE15 };
    memcpy(rom, squares, sizeof squares);
    uint32_t steps;
    expect("RPTK run", (uint64_t)run(7, &steps), 0);
    expect("RPTK steps", steps, 7);
    expect("RPTK ACC", m.acc, 50);
    expect("RPTK PC", m.pc, 5);
}

/* The opcodes that section 4.1 works out (G 1699, 1803 to 1836). */
static void guide_opcodes(void)
{
    static const uint16_t adds[] = { 0x0509, 0x08A0, 0x0880, 0x0890, 0x08E0,
        0x08D0, 0x08AB, 0x08C0, 0x08F0 };
    for (size_t i = 0; i < sizeof adds / sizeof adds[0]; i++)
        expect("section 4.1", (uint64_t)strcmp(plain_name(adds[i]), "ADD"), 0);

    static const struct { uint32_t word, ar, arp; } after[] = {
        { 0x08A0, 0x501, 1 }, { 0x0880, 0x500, 1 }, { 0x0890, 0x4FF, 1 },
        { 0x08E0, 0x510, 1 }, { 0x08D0, 0x4F0, 1 }, { 0x08AB, 0x501, 3 },
    };
    for (size_t i = 0; i < sizeof after / sizeof after[0]; i++) {
        fresh();
        m.arp = 1; m.ar[0] = 0x10; m.ar[1] = 0x500; data[0x500] = 3;
        does("section 4.1 step", after[i].word);
        expect("section 4.1 ACC", m.acc, 0x300);
        expect("section 4.1 AR1", m.ar[1], after[i].ar);
        expect("section 4.1 ARP", m.arp, after[i].arp);
    }
}

/* ---- The board's map ---------------------------------------------------- */

static bool there(uint32_t cnf, uint32_t a)
{
    return (a >= 0x60 && a <= 0x7F) || (a >= 0x200 && a <= 0x2FF && cnf == 0)
        || (a >= 0x300 && a <= 0xFFF);
}

static bool moves(uint32_t cnf, uint32_t a)
{
    return (a >= 0x60 && a <= 0x7E) || (a >= 0x200 && a <= 0x2FF && cnf == 0)
        || (a >= 0x300 && a <= 0x3FE);
}

static void memory_map(void)
{
    for (uint32_t cnf = 0; cnf <= 1; cnf++)
        for (uint32_t a = 0; a < 0x10000; a++) {
            int want = there(cnf, a) ? 0 : 6;
            static const uint16_t words[] = { 0x2080, 0x6080, 0x5680 };
            if (a == 0)
                fresh();
            for (int i = 0; i < 3; i++) { /* LAC *, SACL *, DMOV * */
                plain_reset(&m);
                m.cnf = cnf; m.ar[0] = a; m.acc = 0xA5A5;
                rom[0] = words[i];
                if (a + 1 < PLAIN_DATA_WORDS) {
                    data[a] = 0x1111;
                    data[a + 1] = 0x2222;
                }
                expect("data map", (uint64_t)step(), (uint64_t)want);
                uint32_t far = a >= 0x400 && a <= 0xFFF; /* X2: DMOV reads */
                expect_external("data map, external", i == 1 ? 0 : far,
                                i == 1 ? far : 0);
                if (want == 0 && i == 1)
                    expect("stored", data[a], 0xA5A5);
                if (i == 2 && a + 1 < PLAIN_DATA_WORDS)
                    expect("data move", data[a + 1],
                           moves(cnf, a) ? 0x1111 : 0x2222);
            }
        }

    for (uint32_t cnf = 0; cnf <= 1; cnf++) {
        fresh();
        for (int i = 0; i < PLAIN_ROM_WORDS; i++)
            rom[i] = 0x5500;
        for (int i = 0x200; i < 0x300; i++)
            data[i] = 0x5500;
        for (uint32_t pc = 0; pc < 0x10000; pc++) {
            plain_reset(&m);
            m.cnf = cnf; m.pc = pc;
            bool present = pc < 0x1000 || (cnf == 1 && pc >= 0xFF00);
            expect("program map", (uint64_t)step(), present ? 0 : 5);
            if (present)
                expect("next PC", m.pc, (pc + 1) & 0xFFFF);

            const uint16_t *words;
            size_t count;
            expect("window", (uint64_t)plain_window(&m, rom, rom_len, data,
                data_len, (uint16_t)pc, &words, &count), present ? 0 : 5);
            size_t left = pc < 0x1000 ? 0x1000 - pc : 0x10000 - pc;
            expect("window count", count, present ? left : 0);
            if (present)
                expect("window place", words == (pc < 0x1000 ? rom + pc
                    : data + 0x200 + (pc - 0xFF00)), 1);
        }
    }

    /* The 128 words of a page and no more; direct addresses by DP (D01). */
    for (uint32_t dp = 0; dp < 512; dp++)
        for (uint32_t low = 0; low < 128; low += 0x1F) {
            fresh();
            m.dp = dp; m.acc = 0x77;
            rom[0] = (uint16_t)(0x6000 | low);
            uint32_t a = 128 * dp + low;
            expect("page", (uint64_t)step(), there(0, a) ? 0 : 6);
            if (there(0, a))
                expect("page word", data[a], 0x77);
        }
}

/* ---- Check 1 and check 2 ------------------------------------------------ */

static void ranges(void)
{
    /* The cells in the header's order, their largest values (D01). */
    static const uint32_t largest[PLAIN_CELLS] = {
        0xFFFFFFFF, 0xFFFFFFFF, 0xFFFF, 0xFFFF, 0xFFFF,
        0xFFFF, 0xFFFF, 0xFFFF, 0xFFFF, 0xFFFF, 0xFFFF, 0xFFFF, 0xFFFF,
        7, 7, 511, 3, 1, 1, 1, 1, 1, 1, 255,
        0xFFFF, 0xFFFF, 0xFFFF, 0xFFFF, 0xFFFF, 0xFFFF, 0xFFFF, 0xFFFF,
        1024, 1024,
    };
    for (int i = 0; i < PLAIN_CELLS; i++) {
        uint32_t cells[PLAIN_CELLS];
        uint32_t steps;
        const uint16_t *words;
        size_t count;
        fresh();
        input_len = output_len = PLAIN_PORT_WORDS;
        memcpy(cells, &m, sizeof m);
        cells[i] = largest[i];
        memcpy(&m, cells, sizeof m);
        expect("largest", (uint64_t)run(0, &steps), 0);
        if (i < 2)
            continue;
        cells[i] = largest[i] + 1;
        memcpy(&m, cells, sizeof m);
        refuses("above the largest", 1);
        expect("above, run 0", (uint64_t)run(0, &steps), 1);
        expect("above, run 9", (uint64_t)run(9, &steps), 1);
        expect("above, steps", steps, 0);
        expect_external("above, external", 0, 0);
        expect("above, window", (uint64_t)plain_window(&m, rom, rom_len, data,
            data_len, 0, &words, &count), 1);
        expect("above, window count", count, 0);
        expect("above, sent", (uint64_t)plain_words_sent(&m, output,
            output_len, &words, &count), 1);
        expect("above, sent count", count, 0);
        cells[i] = 0xFFFFFFFF;
        memcpy(&m, cells, sizeof m);
        refuses("far above", 1);
        rom_len = 0; /* 1 goes before 2 (R14) */
        refuses("1 before 2", 1);
    }
}

static void slices(void)
{
    uint32_t steps;
    const uint16_t *words;
    size_t count;
    for (int i = 0; i < 10; i++) {
        fresh();
        m.pc = 0x2000; /* 2 goes before 5 */
        switch (i) {
        case 0: rom_len = 4095; break;
        case 1: rom_len = 4097; break;
        case 2: data_len = 4095; break;
        case 3: data_len = 4097; break;
        case 4: input_len = 1025; break;
        case 5: output_len = 1025; break;
        case 6: m.input_cursor = 5; break;
        case 7: m.output_cursor = 5; break;
        case 8: rom_len = 0; break;
        default: data_len = 0; break;
        }
        refuses("check 2", 2);
        expect("check 2, run 0", (uint64_t)run(0, &steps), 2);
        expect("check 2, steps", steps, 0);
        expect_external("check 2, external", 0, 0);
        /* R32 */
        bool memories = i <= 3 || i >= 8;
        expect("R32 window", (uint64_t)plain_window(&m, rom, rom_len, data,
            data_len, 0, &words, &count), memories ? 2 : 0);
        expect("R32 window count", count, memories ? 0 : 4096);
        bool sending = i == 5 || i == 7;
        expect("R32 sent", (uint64_t)plain_words_sent(&m, output, output_len,
            &words, &count), sending ? 2 : 0);
        expect("R32 sent count", count, 0);
    }
    /* R14, R32: a cursor at its slice's end is fine. */
    fresh();
    m.input_cursor = 4; m.output_cursor = 4;
    does("cursors at the end", 0x5500);
    expect("words sent", (uint64_t)plain_words_sent(&m, output, output_len,
        &words, &count), 0);
    expect("words sent count", count, 4);
    expect("words sent place", words == output, 1);
    fresh();
    input_len = output_len = 0;
    does("empty ports", 0x5500);
    /* Budget 0 looks at nothing else. */
    fresh();
    m.pc = 0x2000;
    expect("run 0", (uint64_t)run(0, &steps), 0);
    expect("run 1", (uint64_t)run(1, &steps), 5);
}

/* ---- The order of the refusals ------------------------------------------ */

static void order(void)
{
    /* 5 for the first word before 3. */
    fresh();
    m.pc = 0x1000; m.rptc = 1;
    refuses("5 first", 5);
    /* 3 before 4 (R1), and both before 7. */
    fresh();
    m.rptc = 1; rom[0] = 0x42B0;
    refuses("3 before 7", 3);
    rom[0] = 0xD002;
    refuses("4 before 7", 4);
    rom[0] = 0x4260;
    refuses("4", 4);
    /* 7 before 5 for the second word. */
    fresh();
    m.pc = 0xFFF; m.rptc = 1; rom[0xFFF] = 0xFF80;
    refuses("7 before the second 5", 7);
    m.rptc = 0;
    refuses("second 5", 5);
    /* 7 before 6: RPT at an absent address. */
    fresh();
    m.rptc = 1; rom[0] = 0x4B00;
    refuses("7 before 6", 7);
    m.rptc = 0;
    refuses("RPT reads", 6);
    /* R12: MID plays no part in 7. */
    fresh();
    m.mid = 1; m.rptc = 1; rom[0] = 0xCB05;
    refuses("R12", 7);
    fresh();
    m.mid = 1;
    does("R12, RPTC 0", 0xCB05);
    expect("R12 RPTC", m.rptc, 5);
    expect("R12 MID", m.mid, 0);
    rom[m.pc] = 0xCB00;
    refuses("R12 RPTK after RPTK", 7);
    /* The second 5 before 6: MAC at the end of the ROM. */
    fresh();
    m.pc = 0xFFF; rom[0xFFF] = 0x5D00;
    refuses("second 5 before 6", 5);
    /* R11: a later pass of MAC, and a branch that is not taken. */
    fresh();
    m.pc = 0xFFF; rom[0xFFF] = 0x5D60; m.mid = 1; m.pfc = 0x10; m.rptc = 3;
    refuses("R11 MAC", 5);
    rom[0xFFF] = 0xF680; m.acc = 1; m.rptc = 0;
    refuses("R11 BZ", 5);
    /* 9 before 6. */
    for (unsigned port = 0; port < 16; port++) {
        fresh();
        rom[0] = (uint16_t)(0x8000 | port << 8);
        refuses("IN", port == 0 ? 6 : 9);
        rom[0] = (uint16_t)(0xE000 | port << 8);
        refuses("OUT", port == 1 ? 6 : 9);
    }
    /* 3 before 9 (R7). */
    fresh();
    rom[0] = 0x83B0;
    refuses("3 before 9", 3);
    /* The highest direct address is 65,535: absent, and 8 is retired. */
    fresh();
    m.dp = 511; rom[0] = 0x607F;
    refuses("highest direct address", 6);
    /* 6 before 5 for the table word, then that 5. */
    fresh();
    rom[0] = 0x5D00; rom[1] = 0x1000;
    refuses("6 before the table's 5", 6);
    rom[0] = 0x5D60;
    refuses("the table's 5", 5);
    rom[1] = 0xFF00;
    refuses("B0 is not in program space", 5);
    m.cnf = 1;
    does("B0 in program space", 0x5D60);
    expect("PFC", m.pfc, 0xFF01);
    /* 6 before 10, then 10. */
    fresh();
    m.output_cursor = 4; rom[0] = 0xE100;
    refuses("6 before 10", 6);
    rom[0] = 0xE160;
    refuses("10", 10);
    output_len = 0; m.output_cursor = 0;
    refuses("10, empty slice", 10);
    /* R8: MAR and branches make no access. */
    fresh();
    m.dp = 511; m.ar[0] = 0xFFFF;
    does("MAR direct", 0x5500);
    expect("MAR direct AR0", m.ar[0], 0xFFFF);
    does("MAR indirect", 0x55A0);
    expect("MAR indirect AR0", m.ar[0], 0);
    does2("B *-", 0xFF90, 0x30);
    expect("B *- AR0", m.ar[0], 0xFFFF);
}

/* ---- The rulings -------------------------------------------------------- */

static void rulings_order(void)
{
    /* R10: at FFFFh the second word is ROM word 0. */
    fresh();
    m.cnf = 1; m.pc = 0xFFFF; data[0x2FF] = 0xFF80; rom[0] = 0x0123;
    expect("R10 B", (uint64_t)step(), 0);
    expect("R10 B PC", m.pc, 0x123);
    m.pc = 0xFFFF; data[0x2FF] = 0xFE80;
    expect("R10 CALL", (uint64_t)step(), 0);
    expect("R10 CALL PC", m.pc, 0x123);
    expect("R10 CALL TOS", m.stack[0], 1);
    m.pc = 0xFFFF; data[0x2FF] = 0xF580; m.acc = 0;
    expect("R10 BNZ", (uint64_t)step(), 0);
    expect("R10 BNZ PC", m.pc, 1);
    m.pc = 0xFFFF; data[0x2FF] = 0xCA42;
    expect("R10 LACK", (uint64_t)step(), 0);
    expect("R10 LACK PC", m.pc, 0);

    /* R13 */
    fresh();
    does2("R13 B", 0xFF80, 0x5000);
    expect("R13 PC", m.pc, 0x5000);
    refuses("R13 next", 5);
    fresh();
    m.stack[0] = 0x5000;
    does("R13 RET", 0xCE26);
    refuses("R13 after RET", 5);

    /* R15: two of four passes of SACL *+ are done. */
    fresh();
    m.ar[0] = 0xFFE; m.acc = 0x55;
    rom[0] = 0xCB03; rom[1] = 0x60A0;
    uint32_t steps;
    expect("R15", (uint64_t)run(9, &steps), 6);
    expect("R15 steps", steps, 3);
    expect("R15 word", data[0xFFE], 0x55);
    expect("R15 word 2", data[0xFFF], 0x55);
    expect("R15 AR0", m.ar[0], 0x1000);
    expect("R15 RPTC", m.rptc, 1);
    expect("R15 MID", m.mid, 1);
    expect("R15 PC", m.pc, 1);
}

static void sum_case(const char *what, unsigned word, uint32_t acc,
                     uint16_t operand, uint32_t c, uint32_t ovm, uint32_t sxm,
                     uint32_t acc_after, uint32_t ov_after, uint32_t c_after)
{
    fresh();
    m.dp = 6; data[0x300] = operand;
    m.acc = acc; m.c = c; m.ovm = ovm; m.sxm = sxm;
    does(what, word);
    expect(what, m.acc, acc_after);
    expect(what, m.ov, ov_after);
    expect(what, m.c, c_after);
    /* OV stays once it is 1 (D01). */
    fresh();
    m.dp = 6; data[0x300] = operand;
    m.acc = acc; m.c = c; m.ovm = ovm; m.sxm = sxm; m.ov = 1;
    does(what, word);
    expect(what, m.ov, 1);
}

static void rulings_arithmetic(void)
{
    /* R16 */
    fresh();
    m.p = 0x40000000; m.pm = 1;
    does("R16", 0xCE15);
    expect("R16 ACC", m.acc, 0x80000000);
    expect("R16 OV", m.ov, 0);
    expect("R16 C", m.c, 0);

    /* Columns: ACC, word, C, OVM, SXM; then ACC, OV, C. */
    /* R17: held in all 32 bits; C only set by ADDH, only reset by SUBH. */
    for (uint32_t c = 0; c <= 1; c++) {
        for (uint32_t sxm = 0; sxm <= 1; sxm++) {
            sum_case("ADDH held", 0x4800, 0x7FFF1234, 1, c, 1, sxm,
                     0x7FFFFFFF, 1, c);
            sum_case("ADDH not held", 0x4800, 0x7FFF1234, 1, c, 0, sxm,
                     0x80001234, 1, c);
            sum_case("ADDH carry", 0x4800, 0xFFFF1234, 1, c, 0, sxm,
                     0x00001234, 0, 1);
            sum_case("ADDH negative", 0x4800, 0x80001234, 0xFFFF, c, 1, sxm,
                     0x80000000, 1, 1);
            sum_case("SUBH held", 0x4400, 0x80001234, 1, c, 1, sxm,
                     0x80000000, 1, c);
            sum_case("SUBH not held", 0x4400, 0x80001234, 1, c, 0, sxm,
                     0x7FFF1234, 1, c);
            sum_case("SUBH borrow", 0x4400, 0x00001234, 1, c, 0, sxm,
                     0xFFFF1234, 0, 0);
            sum_case("SUBH negative", 0x4400, 0x7FFF1234, 0xFFFF, c, 1, sxm,
                     0x7FFFFFFF, 1, 0);
        }
        /* R18 */
        sum_case("SUBC wraps", 0x4700, 0x80000000, 1, c, 1, 1,
                 0xFFFF0001, 1, 1);
        sum_case("SUBC below", 0x4700, 0xFFFFFFFF, 1, c, 1, 1,
                 0xFFFFFFFE, 0, 1);
        sum_case("SUBC borrow", 0x4700, 0x7FFF, 1, c, 1, 1, 0xFFFE, 0, 0);
        sum_case("SUBC exact", 0x4700, 0x8000, 1, c, 1, 1, 1, 0, 1);
        sum_case("SUBC SXM 1", 0x4700, 0, 0xFFFF, c, 0, 1, 0x10001, 0, 0);
        sum_case("SUBC SXM 0", 0x4700, 0, 0xFFFF, c, 0, 0, 0, 0, 0);
        sum_case("SUBC doubling", 0x4700, 0x7FFF0000, 0, c, 1, 1,
                 0xFFFE0001, 0, 1);
        sum_case("SUBC wraps up", 0x4700, 0x7FFFFFFF, 0x8000, c, 1, 1,
                 0xFFFFFFFE, 1, 0);
        /* R19 */
        sum_case("NEG 0", 0xCE23, 0, 0, c, 0, 1, 0, 0, 1);
        sum_case("NEG 5", 0xCE23, 5, 0, c, 0, 1, 0xFFFFFFFB, 0, 0);
        sum_case("NEG least", 0xCE23, 0x80000000, 0, c, 0, 1,
                 0x80000000, 1, 0);
        sum_case("NEG least held", 0xCE23, 0x80000000, 0, c, 1, 1,
                 0x7FFFFFFF, 1, 0);
        sum_case("ABS 5", 0xCE1B, 5, 0, c, 0, 1, 5, 0, 0);
        sum_case("ABS -5", 0xCE1B, 0xFFFFFFFB, 0, c, 0, 1, 5, 0, 0);
        sum_case("ABS 0", 0xCE1B, 0, 0, c, 0, 1, 0, 0, 0);
        sum_case("ABS least", 0xCE1B, 0x80000000, 0, c, 0, 1,
                 0x80000000, 1, 0);
        sum_case("ABS least held", 0xCE1B, 0x80000000, 0, c, 1, 1,
                 0x7FFFFFFF, 1, 0);
        /* R20 */
        sum_case("SFL", 0xCE18, 0x40000001, 0, c, 1, 1, 0x80000002, 0, 0);
        sum_case("SFL carry", 0xCE18, 0x80000001, 0, c, 1, 1, 2, 0, 1);
        sum_case("SFR", 0xCE19, 0x80000001, 0, c, 1, 1, 0xC0000000, 0, 1);
        sum_case("SFR logical", 0xCE19, 0x80000001, 0, c, 1, 0,
                 0x40000000, 0, 1);
        /* R21, and the extension and shift of D01 */
        sum_case("SUB equal", 0x1000, 5, 5, c, 0, 1, 0, 0, 1);
        sum_case("SUBS equal", 0x4500, 5, 5, c, 0, 1, 0, 0, 1);
        sum_case("SUBH equal", 0x4400, 0x50000, 5, c, 0, 1, 0, 0, c);
        sum_case("SUBK equal", 0xCD05, 5, 0, c, 0, 1, 0, 0, 1);
        sum_case("SUB -1", 0x1000, 0, 0xFFFF, c, 0, 1, 1, 0, 0);
        sum_case("SUB FFFFh", 0x1000, 0, 0xFFFF, c, 0, 0, 0xFFFF0001, 0, 0);
        sum_case("SUBS FFFFh", 0x4500, 0, 0xFFFF, c, 0, 1, 0xFFFF0001, 0, 0);
        sum_case("ADD -1", 0x0000, 0, 0xFFFF, c, 0, 1, 0xFFFFFFFF, 0, 0);
        sum_case("ADD -1 and 1", 0x0000, 1, 0xFFFF, c, 0, 1, 0, 0, 1);
        sum_case("ADD FFFFh", 0x0000, 1, 0xFFFF, c, 0, 0, 0x10000, 0, 0);
        sum_case("ADDS FFFFh", 0x4900, 1, 0xFFFF, c, 0, 1, 0x10000, 0, 0);
        sum_case("ADD shift 15", 0x0F00, 0, 0x8000, c, 0, 1,
                 0xC0000000, 0, 0);
        sum_case("ADD shift 15, SXM 0", 0x0F00, 0, 0x8000, c, 0, 0,
                 0x40000000, 0, 0);
        sum_case("ADD below held", 0x0000, 0x80000000, 0xFFFF, c, 1, 1,
                 0x80000000, 1, 1);
        sum_case("SUB above held", 0x1000, 0x7FFFFFFF, 0xFFFF, c, 1, 1,
                 0x7FFFFFFF, 1, 0);
        sum_case("SUBK below held", 0xCD01, 0x80000000, 0, c, 1, 1,
                 0x80000000, 1, 1);
        /* R24 and the loads: C and OV are left alone. */
        sum_case("AND", 0x4E00, 0xFFFF0FF0, 0x3C3C, c, 0, 1, 0x0C30, 0, c);
        sum_case("OR", 0x4D00, 0xFFFF0FF0, 0x3C3C, c, 0, 1,
                 0xFFFF3FFC, 0, c);
        sum_case("XOR", 0x4C00, 0xFFFF0FF0, 0x3C3C, c, 0, 1,
                 0xFFFF33CC, 0, c);
        sum_case("LAC", 0x2400, 0x12345678, 0x8001, c, 0, 1,
                 0xFFF80010, 0, c);
        sum_case("LAC, SXM 0", 0x2400, 0x12345678, 0x8001, c, 0, 0,
                 0x80010, 0, c);
        sum_case("LACK", 0xCAFF, 0x12345678, 0, c, 0, 1, 0xFF, 0, c);
        sum_case("ZALH", 0x4000, 0x12345678, 0x8001, c, 0, 1,
                 0x80010000, 0, c);
        sum_case("ZALS", 0x4100, 0x12345678, 0x8001, c, 0, 1, 0x8001, 0, c);
    }

    /* SUBC, G 7840: 16 passes divide 65 by 7. */
    fresh();
    m.dp = 4; data[514] = 7; m.acc = 65;
    rom[0] = 0xCB0F; rom[1] = 0x4702;
    uint32_t steps;
    expect("division", (uint64_t)run(17, &steps), 0);
    expect("division ACC", m.acc, 9 | 2 << 16);
    expect("division PC", m.pc, 2);

    /* SACL and SACH (G 6782, 6835): shifts of 0 to 7. */
    for (unsigned shift = 0; shift < 8; shift++) {
        fresh();
        m.dp = 6; m.acc = 0x04208001;
        does("SACL", 0x6000 | shift << 8);
        expect("SACL word", data[0x300], (0x8001u << shift) & 0xFFFF);
        does("SACH", 0x6800 | shift << 8);
        expect("SACH word", data[0x300], (0x04208001u << shift) >> 16);
        expect("SACH ACC", m.acc, 0x04208001);
    }

    /* The product shift (SPM, G 7341). */
    static const uint32_t shifted[4] = {
        0x8000007F, 0x000000FE, 0x000007F0, 0xFE000001 };
    for (uint32_t pm = 0; pm < 4; pm++) {
        fresh();
        m.p = 0x8000007F; m.c = 0; m.ov = 1;
        does("SPM", 0xCE08 | pm);
        expect("SPM PM", m.pm, pm);
        does("PAC", 0xCE14);
        expect("PAC ACC", m.acc, shifted[pm]);
        expect("PAC C", m.c, 0);
        expect("PAC OV", m.ov, 1);
    }

    /* SPAC and APAC by the subtraction and addition rules (D01). */
    fresh();
    m.p = 0x80000000; m.acc = 0; m.ovm = 1;
    does("SPAC", 0xCE16);
    expect("SPAC ACC", m.acc, 0x7FFFFFFF);
    expect("SPAC OV", m.ov, 1);
    expect("SPAC C", m.c, 0);
}

/* R22: what leaves C and OV alone, over every word of these pages. */
static void rulings_flags(void)
{
    static const char *const quiet[] = { "LAC", "LACK", "ZALH", "ZALS", "AND",
        "OR", "XOR", "CMPL", "POP", "MPY", "MPYK", "SACL", "SACH", "SPL",
        "SPH", "SAR", "LT", "LTP", "PAC", "SPM", "LAR", "LARK", "MAR", "ADRK",
        "SBRK", "LDP", "LDPK", "B", "BANZ", "BZ", "BNZ", "BGZ", "BGEZ", "BLZ",
        "BLEZ", "CALL", "RET", "PUSH", "SOVM", "ROVM", "SSXM", "RSXM", "CNFD",
        "CNFP", "RPT", "RPTK", "DMOV", "IN", "OUT", NULL };
    fresh();
    for (unsigned word = 0; word < 0x10000; word++) {
        if (plain_decode((uint16_t)word) != 0
            || !listed(plain_name((uint16_t)word), quiet))
            continue;
        for (uint32_t flags = 0; flags < 4; flags++) {
            plain_reset(&m);
            m.dp = 6; m.ar[0] = 0x300; m.ovm = 1;
            m.acc = 0x80000000; m.p = 0x80000000; m.t = 0x8000;
            m.c = flags & 1; m.ov = flags >> 1;
            rom[0] = (uint16_t)word;
            data[0x300] = 0x8000;
            step();
            expect("R22 C", m.c, flags & 1);
            expect("R22 OV", m.ov, flags >> 1);
        }
    }
}

static void rulings_registers(void)
{
    /* R25: the load stays, ARP and ARB still change. */
    fresh();
    m.arp = 4; m.arb = 1; m.ar[4] = 0x400; data[0x400] = 0x32;
    does("R25 LAR AR4,*-,2", 0x349A);
    expect("R25 AR4", m.ar[4], 0x32);
    expect("R25 ARP", m.arp, 2);
    expect("R25 ARB", m.arb, 4);
    fresh();
    m.arp = 4; m.ar[4] = 0x400; m.ar[0] = 0x10; data[0x400] = 0x32;
    does("R25 LAR AR0,*0+", 0x30E0);
    expect("R25 AR0", m.ar[0], 0x32);
    expect("R25 AR4 moved", m.ar[4], 0x410);

    /* R26 */
    fresh();
    m.arp = 2; m.ar[2] = 0x400;
    does("R26 SAR AR2,*+,5", 0x72AD);
    expect("R26 word", data[0x400], 0x400);
    expect("R26 AR2", m.ar[2], 0x401);
    fresh();
    m.arp = 2; m.ar[2] = 0; m.ar[5] = 9;
    does2("R26 BANZ *-,5", 0xFB9D, 0x40);
    expect("R26 PC", m.pc, 2);
    expect("R26 BANZ AR2", m.ar[2], 0xFFFF);
    expect("R26 ARP", m.arp, 5);

    /* R27 */
    for (uint32_t acc = 0; acc <= 1; acc++) {
        fresh();
        m.acc = acc; m.arp = 3; m.ar[3] = 7;
        does2("R27 BZ *+,3", 0xF6AB, 0x40);
        expect("R27 AR3", m.ar[3], 8);
        expect("R27 ARP", m.arp, 3);
        expect("R27 ARB", m.arb, 3);
    }
    fresh(); /* CALL modifies too (G 3935) */
    m.arp = 1; m.ar[1] = 5;
    does2("CALL *-,6", 0xFE9E, 0x40);
    expect("CALL AR1", m.ar[1], 4);
    expect("CALL ARP", m.arp, 6);
    expect("CALL ARB", m.arb, 1);

    /* R28 */
    fresh();
    m.ar[0] = 0x1234;
    does("R28 *0+", 0x55E0);
    expect("R28 double", m.ar[0], 0x2468);
    does("R28 *0-", 0x55D0);
    expect("R28 zero", m.ar[0], 0);
    fresh();
    m.dp = 6; data[0x305] = 0xFE07;
    does("R28 LDP 5", 0x5205);
    expect("R28 DP", m.dp, 7);

    /* Bit 3 = 0: bits 2 to 0 change nothing (D01). */
    fresh();
    m.arp = 2; m.arb = 6; m.ar[2] = 9;
    does("free bits", 0x55A7);
    expect("free bits ARP", m.arp, 2);
    expect("free bits ARB", m.arb, 6);
    expect("free bits AR2", m.ar[2], 10);

    /* ARs turn over (D01). */
    fresh();
    m.ar[0] = 0xFFFF;
    does("AR up", 0x55A0);
    expect("AR up", m.ar[0], 0);
    does("AR down", 0x5590);
    expect("AR down", m.ar[0], 0xFFFF);
    does("ADRK over", 0x7E02);
    expect("ADRK over", m.ar[0], 1);

    /* Reversed carry: half the size in AR0 visits 16 points (G 1738). */
    static const uint32_t points[16] = {
        0, 8, 4, 12, 2, 10, 6, 14, 1, 9, 5, 13, 3, 11, 7, 15 };
    fresh();
    m.arp = 1; m.ar[0] = 8;
    for (int i = 0; i < 15; i++) {
        expect("BR0+", m.ar[1], points[i]);
        does("MAR *BR0+", 0x55F0);
    }
    for (int i = 15; i > 0; i--) {
        expect("BR0-", m.ar[1], points[i]);
        does("MAR *BR0-", 0x55C0);
    }
    expect("BR0- end", m.ar[1], 0);
    /* Reversed carry runs off the low end: 8000h reversed is 1. */
    fresh();
    m.arp = 1; m.ar[0] = 0x8000; m.ar[1] = 0xFFFF;
    does("BR0+ over", 0x55F0);
    expect("BR0+ over", m.ar[1], 0);
}

static void rulings_repeats(void)
{
    /* R29 */
    fresh();
    m.mid = 1; m.pfc = 0x500; rom[0x500] = 3; rom[0x600] = 5;
    data[0x60] = 7;
    does2("R29 MAC", 0x5D60, 0x600);
    expect("R29 P", m.p, 21);
    expect("R29 PFC", m.pfc, 0x501);
    expect("R29 MID", m.mid, 0);
    expect("R29 PC", m.pc, 2);
    fresh();
    m.mid = 1; m.pfc = 0x500; m.acc = 1;
    does("R29 CMPL", 0xCE27);
    expect("R29 CMPL MID", m.mid, 0);
    expect("R29 CMPL PFC", m.pfc, 0x500);

    /* PFC turns over (D01). */
    fresh();
    m.cnf = 1; data[0x2FF] = 4; data[0x60] = 6;
    does2("PFC over", 0x5D60, 0xFFFF);
    expect("PFC over", m.pfc, 0);
    expect("PFC over P", m.p, 24);

    /* R30: SACL *+,2 by AR1, then SACL *+,2 by AR2 twice. */
    fresh();
    m.arp = 1; m.ar[1] = 0x400; m.ar[2] = 0x500; m.acc = 9;
    rom[0] = 0xCB02; rom[1] = 0x60AA;
    uint32_t steps;
    expect("R30", (uint64_t)run(4, &steps), 0);
    expect("R30 AR1", m.ar[1], 0x401);
    expect("R30 AR2", m.ar[2], 0x502);
    expect("R30 words", (uint64_t)data[0x400] + data[0x500] + data[0x501],
           27);
    expect("R30 ARB", m.arb, 2);
    expect("R30 PC", m.pc, 2);

    /* R31: a dry port (D02) and a full one (D01) refuse that pass alone. */
    fresh();
    input_len = 2; input[0] = 0x11; input[1] = 0x22;
    m.ar[0] = 0x400; data[0x402] = 0x99; m.t = 0x77; m.acc = 0x88;
    rom[0] = 0xCB02; rom[1] = 0x80A0;
    expect("R31 IN", (uint64_t)run(4, &steps), 11);
    expect("R31 IN steps", steps, 3);
    expect("R31 IN 0", data[0x400], 0x11);
    expect("R31 IN 1", data[0x401], 0x22);
    expect("R31 IN dry", data[0x402], 0x99);
    expect("R31 IN cursor", m.input_cursor, 2);
    expect("R31 IN AR0", m.ar[0], 0x402);
    expect("R31 IN RPTC", m.rptc, 0);
    expect("R31 IN MID", m.mid, 1);
    fresh();
    output_len = 2; m.ar[0] = 0x400;
    data[0x400] = 0x11; data[0x401] = 0x22; data[0x402] = 0x33;
    rom[0] = 0xCB02; rom[1] = 0xE1A0;
    expect("R31 OUT", (uint64_t)run(4, &steps), 10);
    expect("R31 OUT steps", steps, 3);
    expect("R31 OUT 0", output[0], 0x11);
    expect("R31 OUT 1", output[1], 0x22);
    expect("R31 OUT cursor", m.output_cursor, 2);
    expect("R31 OUT AR0", m.ar[0], 0x402);
    expect("R31 OUT RPTC", m.rptc, 0);
    expect("R31 OUT MID", m.mid, 1);

    /* RPTK k: k + 1 passes, for every k (D01). */
    for (unsigned k = 0; k < 256; k++) {
        fresh();
        rom[0] = (uint16_t)(0xCB00 | k); rom[1] = 0x55A0;
        expect("RPTK k", (uint64_t)run((uint16_t)(k + 2), &steps), 0);
        expect("RPTK k passes", m.ar[0], k + 1);
        expect("RPTK k PC", m.pc, 2);
        expect("RPTK k MID", m.mid, 0);
    }
    /* RPT takes all eight low bits and no more (G 6553). */
    for (unsigned k = 0; k < 256; k++) {
        fresh();
        m.dp = 6; data[0x300] = (uint16_t)(0x5A00 | k);
        does("RPT k", 0x4B00);
        expect("RPT k RPTC", m.rptc, k);
        expect("RPT k PC", m.pc, 1);
        expect("RPT k MID", m.mid, 0);
    }
    /* 0Ch makes 13 passes (G 6561). */
    fresh();
    m.dp = 31; data[4095] = 0xFF0C; m.acc = 0x12345678;
    rom[0] = 0x4B7F; rom[1] = 0xCE19;
    expect("RPT", (uint64_t)run(14, &steps), 0);
    expect("RPT ACC", m.acc, 0x12345678 >> 13);
    expect("RPT PC", m.pc, 2);

    /* CNFP is seen by the next step; B0 then is program (D01). */
    fresh();
    data[0x200] = 0xCA07;
    rom[0] = 0xCE05; rom[1] = 0xFF80; rom[2] = 0xFF00;
    expect("CNFP", (uint64_t)run(3, &steps), 0);
    expect("CNFP ACC", m.acc, 7);
    expect("CNFP PC", m.pc, 0xFF01);
    data[0x201] = 0xCE04; /* CNFD from B0 itself */
    expect("CNFD", (uint64_t)run(9, &steps), 5);
    expect("CNFD steps", steps, 1);
    expect("CNFD PC", m.pc, 0xFF02);

    /* MACD without a move off the chip is MAC (G 5486). */
    fresh();
    m.ar[0] = 0x3FF; data[0x3FF] = 5; data[0x400] = 6; rom[0x100] = 7;
    does2("MACD at 3FFh", 0x5C80, 0x100);
    expect("MACD at 3FFh", data[0x400], 6);
    expect("MACD at 3FFh P", m.p, 35);
    /* LTD and the boundary of B0 and B1 (G 5155). */
    fresh();
    m.ar[0] = 0x2FF; data[0x2FF] = 5; m.p = 3; m.acc = 4;
    does("LTD at 2FFh", 0x3F80);
    expect("LTD moved", data[0x300], 5);
    expect("LTD T", m.t, 5);
    expect("LTD ACC", m.acc, 7);

    /* The stack (D01, G 6161). */
    fresh();
    for (uint32_t i = 1; i <= 9; i++) {
        m.acc = 0xABC00000 | i;
        m.pc = 0;
        does("PUSH", 0xCE1C);
    }
    static const uint32_t pushed[8] = { 9, 8, 7, 6, 5, 4, 3, 2 };
    static const uint32_t popped[8] = { 8, 7, 6, 5, 4, 3, 2, 2 };
    expect_stack("PUSH", pushed);
    does("POP", 0xCE1D);
    expect("POP ACC", m.acc, 9);
    expect_stack("POP", popped);
}

/* ---- The dry port (D02, request 2) -------------------------------------- */

/* Nothing moves, `refuses` sees to that; with a word there it is done. */
static void dry_steps(void)
{
    fresh();
    m.dp = 6; data[0x300] = 0x99; m.input_cursor = 4; rom[0] = 0x8000;
    refuses("11 direct", 11);
    input_len = 0; m.input_cursor = 0;
    refuses("11, empty slice", 11);

    fresh();
    m.arp = 2; m.arb = 6; m.ar[2] = 0x400; data[0x400] = 0x99;
    m.input_cursor = 3; input[3] = 0x1234; input_len = 3;
    rom[0] = 0x80AD; /* IN *+,PA0, next ARP 5 */
    refuses("11 *+,5", 11);
    expect("11 AR2", m.ar[2], 0x400);
    expect("11 ARP", m.arp, 2);
    expect("11 ARB", m.arb, 6);
    expect("11 word", data[0x400], 0x99);
    input_len = 4;
    does("a word more", 0x80AD);
    expect("a word more, AR2", m.ar[2], 0x401);
    expect("a word more, ARP", m.arp, 5);
    expect("a word more, ARB", m.arb, 2);
    expect("a word more, word", data[0x400], 0x1234);
    expect("a word more, cursor", m.input_cursor, 4);

    /* 1,024 words are the most; one more is check 2's. */
    fresh();
    m.dp = 6; input_len = 1024; m.input_cursor = 1024; rom[0] = 0x8000;
    refuses("11 after 1,024 words", 11);
    input_len = 1025;
    refuses("1,025 words", 2);
}

/* 5, 3, 9 and 6 before 11. */
static void dry_order(void)
{
    fresh();
    input_len = 0; rom[0] = 0x80B0;
    refuses("3 before 11", 3);
    for (unsigned port = 1; port < 16; port++) {
        rom[0] = (uint16_t)(0x8060 | port << 8);
        refuses("9 before 11", 9);
    }
    rom[0] = 0x8000;
    refuses("6 before 11, direct", 6);
    m.ar[0] = 0x1000; rom[0] = 0x80A0;
    refuses("6 before 11, indirect", 6);
    m.ar[0] = 0x200; m.cnf = 1;
    refuses("6 before 11, B0 in program space", 6);
    m.cnf = 0;
    refuses("11, B0 in data space", 11);
    m.pc = 0x1000;
    refuses("5 before 11", 5);
}

/* No word but IN from port 0 is asked. */
static void dry_others(void)
{
    fresh();
    input_len = 0; data[0x60] = 0x1234;
    does("OUT, input dry", 0xE160);
    expect("OUT, input dry: word", output[0], 0x1234);
    expect("OUT, input dry: cursor", m.output_cursor, 1);

    for (unsigned word = 0; word < 0x10000; word++) {
        plain_reset(&m);
        m.dp = 6; m.ar[0] = 0x300;
        rom[0] = (uint16_t)word;
        bool asked = word >> 8 == 0x80 && (word & 0xF0) != 0xB0;
        expect("11 of IN only", step() == 11, asked);
    }
}

/* RPTK 5; IN *+,PA0; LARP 1; RPTK 5; OUT *+,PA1; LACK 7: 16 steps. */
static void start_frame(size_t words)
{
    static const uint16_t program[] = { 0xCB05, 0x80A0, 0x5589, 0xCB05, 0xE1A0,
        0xCA07 };
    static const uint16_t frame[] = { 0x11, 0x22, 0x33, 0x44, 0x55, 0x66 };
    fresh();
    memcpy(rom, program, sizeof program);
    memcpy(input, frame, sizeof frame);
    m.ar[0] = m.ar[1] = 0x400;
    for (int i = 0; i < 6; i++)
        data[0x400 + i] = 0x99;
    input_len = words;
    output_len = 6;
}

/* A repeat stops before its fifth word and goes on with it. */
static void dry_repeat(void)
{
    uint32_t steps;
    start_frame(4);
    expect("dry", (uint64_t)run(16, &steps), 11);
    expect("dry steps", steps, 5);
    expect_external("dry external", 0, 4);
    expect("dry RPTC", m.rptc, 1);
    expect("dry MID", m.mid, 1);
    expect("dry PC", m.pc, 1);
    expect("dry AR0", m.ar[0], 0x404);
    expect("dry cursor", m.input_cursor, 4);
    expect("dry last word", data[0x403], 0x44);
    expect("dry missing word", data[0x404], 0x99);
    refuses("dry again", 11);
    expect("no new word", (uint64_t)run(11, &steps), 11);
    expect("no new word, steps", steps, 0);
    expect_external("no new word, external", 0, 0);
    expect("no new word, budget 0", (uint64_t)run(0, &steps), 0);

    input_len = 6;
    expect("going on", (uint64_t)run(11, &steps), 0);
    expect("going on, steps", steps, 11);
    expect_external("going on, external", 6, 2);
    expect("going on, PC", m.pc, 6);
    expect("going on, ACC", m.acc, 7);
    expect("going on, RPTC", m.rptc, 0);
    expect("going on, MID", m.mid, 0);
    for (unsigned i = 0; i < 6; i++)
        expect("going on, word", output[i], 0x11 * (i + 1));
}

/* The run of `words` words on the budget, brought in two parts if need be. */
static void run_in_parts(size_t first, size_t words, uint16_t budget)
{
    static struct plain_machine machine;
    static uint16_t data_whole[sizeof data / sizeof data[0]];
    static uint16_t output_whole[sizeof output / sizeof output[0]];
    uint32_t whole_steps, steps, more = 0;
    start_frame(words);
    int whole = run(budget, &whole_steps);
    struct plain_external total = external;
    machine = m;
    memcpy(data_whole, data, sizeof data);
    memcpy(output_whole, output, sizeof output);

    start_frame(first);
    int answer = run(budget, &steps);
    struct plain_external first_part = external;
    external = (struct plain_external){ 0, 0 };
    input_len = words;
    if (answer == 11)
        answer = run((uint16_t)(budget - steps), &more);
    expect_external("parts, external", total.reads - first_part.reads,
                    total.writes - first_part.writes);
    expect("parts, answer", (uint64_t)answer, (uint64_t)whole);
    expect("parts, steps", steps + more, whole_steps);
    expect("parts, cells", (uint64_t)memcmp(&machine, &m, sizeof m), 0);
    expect("parts, data", (uint64_t)memcmp(data_whole, data, sizeof data), 0);
    expect("parts, output",
           (uint64_t)memcmp(output_whole, output, sizeof output), 0);
}

/* On its unused budget, with the earlier words in front: the whole run. */
static void dry_parts(void)
{
    for (size_t words = 0; words <= 6; words++)
        for (size_t first = 0; first <= words; first++)
            for (uint16_t budget = 0; budget <= 18; budget++)
                run_in_parts(first, words, budget);
}

/* ---- On-chip or outside (D02, request 7) -------------------------------- */

/* The word at PC is stepped with these counts. */
static void counts(const char *what, unsigned word, uint32_t reads,
                   uint32_t writes)
{
    does(what, word);
    expect_external(what, reads, writes);
}

/* External RAM is 0400h to 0FFFh (D01, "The camera board"). */
static void outside_borders(void)
{
    fresh();
    m.dp = 8;
    counts("LAC 400h", 0x2000, 1, 0); /* G 4342 */
    counts("SACL 400h", 0x6000, 0, 1); /* G 6809 */
    counts("DMOV 400h", 0x5600, 1, 0); /* G 4168, X2 */
    m.dp = 6;
    counts("LAC 300h", 0x2000, 0, 0);
    m.dp = 7;
    counts("LAC 3FFh", 0x207F, 0, 0);
    counts("SACL 3FFh", 0x607F, 0, 0);
    counts("DMOV 3FFh", 0x567F, 0, 0); /* X2 */
    counts("DMOV 3FEh", 0x567E, 0, 0); /* moved, on chip */
    m.dp = 31;
    counts("LAC FFFh", 0x207F, 1, 0);
    counts("SACL FFFh", 0x607F, 0, 1);
    m.dp = 0;
    counts("LAC 60h", 0x2060, 0, 0);
    counts("SACL 7Fh", 0x607F, 0, 0);
    m.dp = 4;
    counts("LAC 200h", 0x2000, 0, 0);
    counts("SACL 200h", 0x6000, 0, 0);
    m.cnf = 1;
    m.dp = 8;
    counts("LAC 400h, CNF 1", 0x2000, 1, 0);
    counts("SACL 400h, CNF 1", 0x6000, 0, 1);
}

/* What a page does with its word; a word mentioned twice is one read (X1). */
static void outside_pages(void)
{
    fresh();
    for (int i = 0; i < 8; i++)
        m.ar[i] = 0x500;
    m.dp = 10;
    data[0x500] = 2;
    counts("SQRA *", 0x3980, 1, 0);    /* X1, G 7372 */
    counts("SQRS *", 0x5A80, 1, 0);    /* X1, G 7433 */
    counts("LTD *", 0x3F80, 1, 0);     /* X1, X2, G 5134 */
    counts("MAR *", 0x5580, 0, 0);     /* X4, R8 */
    counts("MAR 0", 0x5500, 0, 0);
    counts("SAR AR3", 0x7300, 0, 1);   /* G 6862 */
    counts("LAR AR4", 0x3400, 1, 0);   /* G 4533 */
    counts("SPH", 0x7D00, 0, 1);       /* G 7242 */
    counts("IN", 0x8000, 0, 1);        /* X3: the port is not counted */
    counts("OUT", 0xE100, 1, 0);       /* X3 */
    data[0x500] = 2;
    counts("RPT", 0x4B00, 1, 0);       /* R8 */
    counts("LAC, repeated", 0x2080, 1, 0);
    counts("LAC, repeated again", 0x2080, 1, 0);
    counts("LAC, the last", 0x2080, 1, 0);
    counts("LDP", 0x5280, 1, 0);       /* R8 */
    m.dp = 10;
    counts("LACK", 0xCA05, 0, 0);
    counts("PUSH", 0xCE1C, 0, 0);
    rom[m.pc + 1] = 0x0400;            /* an address of the program: X3, X4 */
    counts("CALL *", 0xFE80, 0, 0);
    rom[m.pc + 1] = 0x0500;
    counts("B *", 0xFF80, 0, 0);
    rom[m.pc + 1] = 0x0600;
    counts("MAC *", 0x5D80, 1, 0);     /* X1, X3: one data word, G 5281 */
    m.ar[0] = 0x300;
    counts("MAC *, on chip", 0x5D80, 0, 0);
    counts("MACD *, on chip", 0x5C80, 0, 0); /* moved there, G 5420 */
}

/* A refused step counts nothing, though its word was there to be read. */
static void outside_refused(void)
{
    fresh();
    m.dp = 8; m.output_cursor = 4; rom[0] = 0xE100;
    refuses("OUT 400h, full", 10);
    rom[0] = 0x8000; m.input_cursor = 4;
    refuses("IN 400h, dry", 11);
    rom[0] = 0x5D00; rom[1] = 0x1000;
    refuses("MAC 400h, no table word", 5);
    m.rptc = 1; rom[0] = 0x4B00;
    refuses("RPT 400h, not repeatable", 7);
}

/*
 * The pages that read (dma), and those that store into it, by the Execution
 * lines of section 4.3 (G 2252 to 8540). No other page has a data word.
 */
static void outside_words(void)
{
    static const char *const reading[] = { "ADD", "ADDH", "ADDS", "AND",
        "DMOV", "LAC", "LAR", "LDP", "LT", "LTA", "LTD", "LTP", "LTS", "MAC",
        "MACD", "MPY", "MPYA", "MPYS", "OR", "OUT", "RPT", "SQRA", "SQRS",
        "SUB", "SUBC", "SUBH", "SUBS", "XOR", "ZALH", "ZALS", NULL };
    static const char *const writing[] = { "IN", "SACH", "SACL", "SAR", "SPH",
        "SPL", NULL };
    fresh();
    for (uint32_t word = 0; word < 0x10000; word++)
        for (uint32_t far = 0; far <= 1; far++) {
            const char *name = plain_name((uint16_t)word);
            plain_reset(&m);
            m.dp = far ? 8 : 6;
            m.ar[0] = far ? 0x400 : 0x300;
            rom[0] = (uint16_t)word;
            bool done = step() == PLAIN_DONE;
            expect_external("every word", far && done && listed(name, reading),
                            far && done && listed(name, writing));
        }
}

/* RPTK 3; MAC 40h,*+ or MACD 40h,*+ from 3FEh: two of four words outside. */
static void outside_repeat(unsigned word)
{
    uint32_t steps;
    fresh();
    rom[0] = 0xCB03; rom[1] = (uint16_t)word; rom[2] = 0x0040;
    m.arp = 1; m.ar[1] = 0x3FE;
    for (int i = 0x3FE; i <= 0x402; i++)
        data[i] = (uint16_t)i;
    expect("RPTK 3", (uint64_t)run(5, &steps), 0);
    expect("RPTK 3, steps", steps, 5);
    expect_external("RPTK 3, external", 2, 0); /* X1, X2, X3 */
    expect("RPTK 3, AR1", m.ar[1], 0x402);
}

/* A run has the totals over its steps, the refused one not among them. */
static void outside_runs(void)
{
    uint32_t steps;
    outside_repeat(0x5DA0);
    expect("MAC moves nothing", data[0x3FF], 0x3FF);
    outside_repeat(0x5CA0);
    expect("MACD within B1", data[0x3FF], 0x3FE);
    expect("MACD past B1", data[0x400], 0x400);
    expect("MACD outside", data[0x401], 0x401);

    /* LAC 400h; SACL 401h; a word in no encoding. */
    fresh();
    m.dp = 8; rom[0] = 0x2000; rom[1] = 0x6001; rom[2] = 0x00B0;
    expect("third refused", (uint64_t)run(9, &steps), 3);
    expect("third refused, steps", steps, 2);
    expect_external("third refused, external", 1, 1);
    expect("refused again", (uint64_t)run(7, &steps), 3);
    expect_external("refused again, external", 0, 0);

    /* LAC 400h; OUT 400h twice, with room for one word. */
    fresh();
    m.dp = 8; rom[0] = 0x2000; rom[1] = rom[2] = 0xE100; output_len = 1;
    expect("output full", (uint64_t)run(3, &steps), 10);
    expect("output full, steps", steps, 2);
    expect_external("output full, external", 2, 0);

    m.pc = 0;
    expect("budget 0", (uint64_t)run(0, &steps), 0);
    expect_external("budget 0, external", 0, 0);
}

/* 255 times RPTK 255 and a word: 65,535 steps, exact totals (X5). */
static void outside_longest(unsigned word, uint32_t reads, uint32_t writes)
{
    uint32_t steps;
    fresh();
    m.ar[0] = 0xFFF;
    for (int i = 0; i < 510; i += 2) {
        rom[i] = 0xCBFF;
        rom[i + 1] = (uint16_t)word;
    }
    expect("longest run", (uint64_t)run(65535, &steps), 0);
    expect("longest run, steps", steps, 65535);
    expect_external("longest run, external", reads, writes);
}

/* Every way to make a run of 16 steps in two: the totals are the sums. */
static void outside_parts(void)
{
    uint32_t steps;
    for (uint16_t first = 0; first <= 16; first++) {
        start_frame(6);
        expect("first part", (uint64_t)run(first, &steps), 0);
        struct plain_external part = external;
        expect("second part", (uint64_t)run((uint16_t)(16 - first), &steps), 0);
        expect("parts, reads", part.reads + external.reads, 6);
        expect("parts, writes", part.writes + external.writes, 6);
    }
}

/* SOVM (G 7172), ROVM (R6), SSXM (G 7614), RSXM (G 6639), CNFD, CNFP. */
static void modes(void)
{
    for (uint32_t before = 0; before <= 1; before++) {
        fresh();
        m.ovm = m.sxm = m.cnf = before;
        does("ROVM", 0xCE02);
        expect("ROVM", m.ovm, 0);
        does("SOVM", 0xCE03);
        expect("SOVM", m.ovm, 1);
        does("ROVM again", 0xCE02);
        expect("ROVM again", m.ovm, 0);
        does("CNFD", 0xCE04);
        expect("CNFD", m.cnf, 0);
        does("CNFP", 0xCE05);
        expect("CNFP", m.cnf, 1);
        does("CNFD again", 0xCE04);
        expect("CNFD again", m.cnf, 0);
        does("RSXM", 0xCE06);
        expect("RSXM", m.sxm, 0);
        does("SSXM", 0xCE07);
        expect("SSXM", m.sxm, 1);
        does("RSXM again", 0xCE06);
        expect("RSXM again", m.sxm, 0);
    }
}

/* Whole fields: registers, pages and constants at their ends. */
static void fields(void)
{
    fresh();
    m.dp = 6; data[0x300] = 0xFFFF;
    does("LDP FFFFh", 0x5200); /* nine bits, G 4682 */
    expect("LDP FFFFh", m.dp, 0x1FF);
    does("LDPK 511", 0xC9FF);
    expect("LDPK 511", m.dp, 511);
    does("LDPK 0", 0xC800);
    expect("LDPK 0", m.dp, 0);

    for (unsigned r = 0; r < 8; r++) {
        fresh();
        m.dp = 6; data[0x300] = 0xFFFF;
        does("LAR", 0x3000 | r << 8);
        for (unsigned i = 0; i < 8; i++)
            expect("LAR registers", m.ar[i], i == r ? 0xFFFF : 0);
        does("LARK", 0xC0FF | r << 8);
        for (unsigned i = 0; i < 8; i++)
            expect("LARK registers", m.ar[i], i == r ? 0xFF : 0);
        m.ar[r] = 0x8421;
        does("SAR", 0x7000 | r << 8);
        expect("SAR register", data[0x300], 0x8421);
        does("LARP", 0x5588 | r);
        expect("LARP", m.arp, r);
    }

    fresh();
    m.acc = 0xFFFF8765;
    does("PUSH half", 0xCE1C);
    expect("PUSH half", m.stack[0], 0x8765);
    does("POP half", 0xCE1D);
    expect("POP half", m.acc, 0x8765);

    static const struct { uint32_t t, word, p; } mpyk[] = {
        { 0x8000, 0xB000, 0x08000000 }, /* -32768 times -4096 */
        { 0x8000, 0xAFFF, 0xF8008000 }, /* -32768 times 4095 */
        { 0x7FFF, 0xB000, 0xF8001000 }, /* 32767 times -4096 */
        { 0xFFFF, 0xBFFF, 0x00000001 }, /* -1 times -1 */
    };
    for (size_t i = 0; i < sizeof mpyk / sizeof mpyk[0]; i++) {
        fresh();
        m.t = mpyk[i].t;
        does("MPYK ends", mpyk[i].word);
        expect("MPYK ends", m.p, mpyk[i].p);
    }
}

/* Every page that uses the product takes it shifted by PM (G 9785). */
static void shifted_products(void)
{
    static const uint32_t shifted[4] = {
        0x8000007F, 0x000000FE, 0x000007F0, 0xFE000001 };
    for (uint32_t pm = 0; pm < 4; pm++) {
        static const uint32_t adding[] = { 0x3D00, 0x3F00, 0x3A00, 0x3900,
            0xCE15, 0x5D00, 0x5C00 };
        for (size_t i = 0; i < sizeof adding / sizeof adding[0]; i++) {
            fresh();
            m.pm = pm; m.p = 0x8000007F; m.acc = 0x100; m.dp = 6;
            does2("adds P", adding[i], 0x10);
            expect("adds P", m.acc, 0x100 + shifted[pm]);
            expect("adds P, C", m.c, 0);
        }
        static const uint32_t taking[] = { 0x5B00, 0x3B00, 0x5A00, 0xCE16 };
        for (size_t i = 0; i < sizeof taking / sizeof taking[0]; i++) {
            fresh();
            m.pm = pm; m.p = 0x8000007F; m.acc = 0xFFFFFFFF; m.dp = 6;
            does("takes P", taking[i]);
            expect("takes P", m.acc, 0xFFFFFFFF - shifted[pm]);
            expect("takes P, C", m.c, 1);
        }
        fresh();
        m.pm = pm; m.p = 0x8000007F; m.dp = 6;
        does("LTP", 0x3E00);
        expect("LTP", m.acc, shifted[pm]);
        does("SPH", 0x7D00);
        expect("SPH", data[0x300], shifted[pm] >> 16);
        does("SPL", 0x7C00);
        expect("SPL", data[0x300], shifted[pm] & 0xFFFF);
    }
}

/*
 * Random worlds: a refused step changes nothing, a step that is done leaves
 * every cell in its range and no absent data word changed (D01).
 */
static uint32_t random_bits(void)
{
    static uint64_t state = 1;
    state = state * 6364136223846793005u + 1442695040888963407u;
    return (uint32_t)(state >> 33);
}

static void random_worlds(void)
{
    static uint16_t before[sizeof data / sizeof data[0]];
    static uint16_t output_before[sizeof output / sizeof output[0]];
    unsigned long done = 0;
    for (int world = 0; world < 2000; world++) {
        fresh();
        for (int i = 0; i < PLAIN_ROM_WORDS; i++) {
            rom[i] = (uint16_t)random_bits();
            data[i] = (uint16_t)random_bits();
        }
        for (int i = 0; i < 4; i++)
            input[i] = (uint16_t)random_bits();
        m.acc = random_bits() << 1 ^ random_bits();
        m.p = random_bits() << 1 ^ random_bits();
        m.t = random_bits() & 0xFFFF;
        m.pc = random_bits() & 0xFFF;
        m.pfc = random_bits() & 0xFFF;
        for (int i = 0; i < 8; i++) {
            m.ar[i] = random_bits() & 0xFFF;
            m.stack[i] = random_bits() & 0xFFF;
        }
        m.arp = random_bits() & 7;
        m.arb = random_bits() & 7;
        m.dp = random_bits() & 31;
        m.pm = random_bits() & 3;
        m.ov = random_bits() & 1;
        m.ovm = random_bits() & 1;
        m.sxm = random_bits() & 1;
        m.c = random_bits() & 1;
        m.cnf = random_bits() & 1;
        m.mid = random_bits() & 1;
        for (int i = 0; i < 100; i++) {
            struct plain_machine machine_before = m;
            uint32_t steps;
            memcpy(before, data, sizeof data);
            memcpy(output_before, output, sizeof output);
            if (step() == PLAIN_DONE) {
                done++;
                expect("random: external",
                       external.reads <= 1 && external.writes <= 1, 1);
                expect("random: in range", (uint64_t)run(0, &steps), 0);
                for (uint32_t a = 0; a < 0x300; a++)
                    if (before[a] != data[a])
                        expect("random: absent word",
                               there(machine_before.cnf, a), 1);
                continue;
            }
            expect_external("random: refused, external", 0, 0);
            expect("random: refused, cells",
                   (uint64_t)memcmp(&machine_before, &m, sizeof m), 0);
            expect("random: refused, data",
                   (uint64_t)memcmp(before, data, sizeof data), 0);
            expect("random: refused, output", (uint64_t)memcmp(
                output_before, output, sizeof output), 0);
            m.pc = (m.pc + 1) & 0xFFF;
            m.rptc = 0;
        }
    }
    expect("random: many were done", done > 50000, 1);
}

static void reset(void)
{
    struct plain_machine want = { 0 };
    want.sxm = 1;
    want.c = 1;
    memset(&m, 0xFF, sizeof m);
    plain_reset(&m);
    expect("reset", (uint64_t)memcmp(&m, &want, sizeof m), 0);
}

/* ---- Run files ---------------------------------------------------------- */

static const uint8_t sample[26] = {
    0x01, 0x00, 0x05, 0x00, 0x10, 0x00, 0x00, 0x00, 0x1A, 0x00, 0x00, 0x00,
    0x1A, 0x00, 0x05, 0x00, 0x05, 0xCA, 0x07, 0xCC, 0x06, 0xC8, 0x00, 0x60,
    0x00, 0xE1 };
static const uint16_t sample_program[5] = {
    0xCA05, 0xCC07, 0xC806, 0x6000, 0xE100 };

static void expect_line(const char *what, const uint8_t *bytes, size_t length,
                        const char *want)
{
    static char line[PLAIN_LINE_ROOM];
    plain_replay(bytes, length, line);
    expect(what, (uint64_t)(strcmp(line, want) != 0), 0);
    if (strcmp(line, want) != 0)
        printf("  line: %s", line);
}

static void files(void)
{
    static struct plain_contents contents;
    uint8_t bytes[64];
    size_t length;

    expect_line("sample", sample, 26, "0 5 0005 0000000C 0 000C\n");
    expect("read", (uint64_t)plain_read(sample, 26, &contents), 0);
    expect("program", contents.program_count, 5);
    expect("data", contents.data_count, 0);
    expect("input", contents.input_count, 0);
    expect("budget", contents.budget, 5);
    expect("words", (uint64_t)memcmp(contents.program, sample_program, 10), 0);

    /* 20, 21, 22 in order. */
    for (size_t n = 0; n < 16; n++) {
        memset(bytes, 0, sizeof bytes);
        expect("20", (uint64_t)plain_read(bytes, n, &contents), 20);
        expect_line("20 line", bytes, n, "20\n");
    }
    memset(bytes, 0xFF, sizeof bytes);
    expect("21", (uint64_t)plain_read(bytes, 16, &contents), 21);
    expect_line("21 line", bytes, 16, "21\n");
    for (size_t at = 2; at < 14; at++) { /* each byte of counts and offsets */
        memcpy(bytes, sample, 26);
        bytes[at] ^= 1;
        expect("22", (uint64_t)plain_read(bytes, 26, &contents), 22);
        expect("no contents", contents.program_count + contents.data_count
            + contents.input_count + contents.budget, 0);
        expect_line("22 line", bytes, 26, "22\n");
    }
    memcpy(bytes, sample, 26);
    expect("short by one", (uint64_t)plain_read(bytes, 25, &contents), 22);
    expect("long by one", (uint64_t)plain_read(bytes, 27, &contents), 22);

    /* Writing gives the sample back; the exact length fits (R34). */
    memset(bytes, 0xEE, sizeof bytes);
    expect("write", (uint64_t)plain_write(sample_program, 5, NULL, 0, NULL, 0,
        5, bytes, 26, &length), 0);
    expect("write length", length, 26);
    expect("write bytes", (uint64_t)memcmp(bytes, sample, 26), 0);
    expect("past the end", bytes[26], 0xEE);
    memset(bytes, 0xEE, sizeof bytes);
    expect("23", (uint64_t)plain_write(sample_program, 5, NULL, 0, NULL, 0, 5,
        bytes, 25, &length), 23);
    expect("23 length", length, 0);
    for (size_t i = 0; i < sizeof bytes; i++)
        expect("23 bytes", bytes[i], 0xEE);

    /* The largest counts, and one more: 22 before 23. */
    static uint16_t words[4097];
    static uint8_t big[PLAIN_FILE_LONGEST + 1];
    for (size_t i = 0; i < 4097; i++)
        words[i] = (uint16_t)(i * 2654435761u >> 3);
    expect("22 program", (uint64_t)plain_write(words, 4097, words, 0, words, 0,
        0, bytes, 0, &length), 22);
    expect("22 data", (uint64_t)plain_write(words, 0, words, 3073, words, 0,
        0, bytes, 0, &length), 22);
    expect("22 input", (uint64_t)plain_write(words, 0, words, 0, words, 1025,
        0, bytes, 0, &length), 22);
    expect("longest", (uint64_t)plain_write(words, 4096, words + 1, 3072,
        words + 2, 1024, 65535, big, sizeof big, &length), 0);
    expect("longest length", length, 16400);
    expect("read longest", (uint64_t)plain_read(big, length, &contents), 0);
    expect("read program", contents.program_count, 4096);
    expect("read data", contents.data_count, 3072);
    expect("read input", contents.input_count, 1024);
    expect("read budget", contents.budget, 65535);
    expect("program words",
           (uint64_t)memcmp(contents.program, words, 2 * 4096), 0);
    expect("data words",
           (uint64_t)memcmp(contents.data, words + 1, 2 * 3072), 0);
    expect("input words",
           (uint64_t)memcmp(contents.input, words + 2, 2 * 1024), 0);
    expect("one byte more",
           (uint64_t)plain_read(big, length + 1, &contents), 22);

    /* Setting up (R33): every word of both memories. */
    fresh();
    memset(rom, 0xEE, sizeof rom);
    memset(data, 0xEE, sizeof data);
    memset(input, 0xEE, sizeof input);
    expect("write small", (uint64_t)plain_write(words, 3, words + 3, 2,
        words + 5, 1, 9, bytes, sizeof bytes, &length), 0);
    expect("write small length", length, 28);
    static const size_t lens[6][3] = { { 4095, 4096, 1 }, { 4097, 4096, 1 },
        { 4096, 4095, 1 }, { 4096, 4097, 1 }, { 4096, 4096, 0 },
        { 4096, 4096, 2 } };
    for (int i = 0; i < 6; i++)
        expect("set up 2", (uint64_t)plain_set_up(bytes, length, rom,
            lens[i][0], data, lens[i][1], input, lens[i][2]), 2);
    bytes[0] = 2; /* 21 goes before 2 */
    expect("set up 21", (uint64_t)plain_set_up(bytes, length, rom, 0, data, 0,
        input, 0), 21);
    bytes[0] = 1;
    for (int i = 0; i < PLAIN_ROM_WORDS; i++)
        expect("refused set up", (uint64_t)rom[i] + data[i], 2 * 0xEEEE);
    expect("set up", (uint64_t)plain_set_up(bytes, length, rom, 4096, data,
        4096, input, 1), 0);
    for (size_t i = 0; i < PLAIN_ROM_WORDS; i++) {
        expect("set up ROM", rom[i], i < 3 ? words[i] : 0);
        bool given = i == 0x400 || i == 0x401;
        expect("set up data", data[i], given ? words[3 + i - 0x400] : 0);
    }
    expect("set up input", input[0], words[5]);
    expect("set up input end", input[1], 0xEEEE);

    /* R35: a refused step has the whole line; OUT to a full port. */
    static const uint16_t pour[] = { 0xC808, 0xCBFF, 0xE100, 0xFF80, 0x0001 };
    static const uint16_t one[] = { 0xBEEF };
    expect("write pour", (uint64_t)plain_write(pour, 5, one, 1, NULL, 0,
        2000, bytes, sizeof bytes, &length), 0);
    static char want[PLAIN_LINE_ROOM];
    strcpy(want, "10 1034 0002 00000000 0");
    for (int i = 0; i < 1024; i++)
        strcat(want, " BEEF");
    strcat(want, "\n");
    expect_line("pour", bytes, length, want);
    /* Budget 0: nothing is done, the line is whole. */
    expect("write none", (uint64_t)plain_write(NULL, 0, NULL, 0, NULL, 0, 0,
        bytes, sizeof bytes, &length), 0);
    expect_line("none", bytes, length, "0 0 0000 00000000 0\n");
}

/* A loop takes two words and sends them, then it is 11 (D02, request 2). */
static void dry_line(void)
{
    static const uint16_t program[] = {
        0xC060,         /* LARK AR0,60h */
        0x8080,         /* 1: IN *,PA0 */
        0xE1A0,         /* OUT *+,PA1 */
        0xFF80, 0x0001, /* B 1 */
    };
    static const uint16_t two[] = { 0x1234, 0xABCD };
    uint8_t bytes[64];
    size_t length;
    expect("write dry", (uint64_t)plain_write(program, 5, NULL, 0, two, 2,
        100, bytes, sizeof bytes, &length), 0);
    expect_line("dry", bytes, length, "11 7 0001 00000000 0 1234 ABCD\n");
}

int main(void)
{
    decode_counts();
    decode_ce();
    decode_table();
    repeatability();
    bench();
    carry_figure();
    demand_3();
    guide_accumulator();
    guide_registers();
    guide_branches();
    guide_multiplier();
    guide_opcodes();
    memory_map();
    ranges();
    slices();
    order();
    rulings_order();
    rulings_arithmetic();
    rulings_flags();
    rulings_registers();
    rulings_repeats();
    dry_steps();
    dry_order();
    dry_others();
    dry_repeat();
    dry_parts();
    outside_borders();
    outside_pages();
    outside_refused();
    outside_words();
    outside_runs();
    outside_longest(0x2080, 65280, 0); /* LAC * */
    outside_longest(0x6080, 0, 65280); /* SACL * */
    outside_parts();
    modes();
    fields();
    shifted_products();
    random_worlds();
    reset();
    files();
    dry_line();
    printf("%lu checks, %lu failed\n", checks, failures);
    return failures != 0;
}

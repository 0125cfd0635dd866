/*
 * The plain interpreter: see plain.h for what the short marks mean.
 *
 * A step has two halves. `refused` asks the questions of the order, one after
 * another, and collects what the pass needs; nothing is changed there.
 * `perform` then does the page, and cannot fail.
 */
#include "plain.h"

#include <stdbool.h>
#include <stdio.h>

/* ---- Decoding: section 4.3, a row for each encoding --------------------- */

enum kind {
    ABS, ADD, ADDH, ADDK, ADDS, ADRK, AND, APAC, B, BANZ, BGEZ, BGZ, BLEZ, BLZ,
    BNV, BNZ, BV, BZ, CALL, CMPL, CNFD, CNFP, DMOV, IN, LAC, LACK, LAR, LARK,
    LDP, LDPK, LT, LTA, LTD, LTP, LTS, MAC, MACD, MAR, MPY, MPYA, MPYK, MPYS,
    NEG, OR, OUT, PAC, POP, PUSH, RET, ROVM, RPT, RPTK, RSXM, SACH, SACL, SAR,
    SBRK, SFL, SFR, SOVM, SPAC, SPH, SPL, SPM, SQRA, SQRS, SSXM, SUB, SUBC,
    SUBH, SUBK, SUBS, XOR, ZALH, ZALS,
    OTHER /* published, not built */
};

/* What the low byte of the word is. */
enum field {
    PLAIN,   /* no address field */
    ADDRESS, /* direct if bit 7 is 0, indirect if it is 1 */
    MODIFY   /* indirect only: bit 7 is 1 on the page (R2) */
};

/* What is done at the data address (R8). */
enum access { NONE, READS, WRITES };

enum repeat { ONCE, REPEATS };

struct row {
    const char *name;
    uint16_t mask;
    uint16_t bits;
    enum kind kind;
    enum field field;
    enum access access;
    unsigned words;
    enum repeat repeat;
};

/*
 * ZAC is LACK 0, NOP and LARP are MAR (D01), so they have no row. For the
 * instructions that are not built only mask, bits and field matter.
 */
static const struct row rows[] = {
    { "ABS",  0xFFFF, 0xCE1B, ABS,  PLAIN,   NONE,   1, REPEATS }, /* G 2252 */
    { "ADD",  0xF000, 0x0000, ADD,  ADDRESS, READS,  1, REPEATS }, /* G 2294 */
    { "ADDH", 0xFF00, 0x4800, ADDH, ADDRESS, READS,  1, REPEATS }, /* G 2409 */
    { "ADDK", 0xFF00, 0xCC00, ADDK, PLAIN,   NONE,   1, ONCE },    /* G 2455 */
    { "ADDS", 0xFF00, 0x4900, ADDS, ADDRESS, READS,  1, REPEATS }, /* G 2491 */
    { "ADRK", 0xFF00, 0x7E00, ADRK, PLAIN,   NONE,   1, ONCE },    /* G 2631 */
    { "AND",  0xFF00, 0x4E00, AND,  ADDRESS, READS,  1, REPEATS }, /* G 2662 */
    { "APAC", 0xFFFF, 0xCE15, APAC, PLAIN,   NONE,   1, REPEATS }, /* G 2743 */
    { "B",    0xFF00, 0xFF00, B,    MODIFY,  NONE,   2, ONCE },    /* G 2778 */
    { "BANZ", 0xFF00, 0xFB00, BANZ, MODIFY,  NONE,   2, ONCE },    /* G 2862 */
    { "BGEZ", 0xFF00, 0xF400, BGEZ, MODIFY,  NONE,   2, ONCE },    /* G 3072 */
    { "BGZ",  0xFF00, 0xF100, BGZ,  MODIFY,  NONE,   2, ONCE },    /* G 3116 */
    { "BLEZ", 0xFF00, 0xF200, BLEZ, MODIFY,  NONE,   2, ONCE },    /* G 3361 */
    { "BLZ",  0xFF00, 0xF300, BLZ,  MODIFY,  NONE,   2, ONCE },    /* G 3661 */
    { "BNV",  0xFF00, 0xF700, BNV,  MODIFY,  NONE,   2, ONCE },    /* G 3746 */
    { "BNZ",  0xFF00, 0xF500, BNZ,  MODIFY,  NONE,   2, ONCE },    /* G 3791 */
    { "BV",   0xFF00, 0xF000, BV,   MODIFY,  NONE,   2, ONCE },    /* G 3834 */
    { "BZ",   0xFF00, 0xF600, BZ,   MODIFY,  NONE,   2, ONCE },    /* R6 */
    { "CALL", 0xFF00, 0xFE00, CALL, MODIFY,  NONE,   2, ONCE },    /* G 3921 */
    { "CMPL", 0xFFFF, 0xCE27, CMPL, PLAIN,   NONE,   1, REPEATS }, /* G 3970 */
    { "CNFD", 0xFFFF, 0xCE04, CNFD, PLAIN,   NONE,   1, REPEATS }, /* G 4044 */
    { "CNFP", 0xFFFF, 0xCE05, CNFP, PLAIN,   NONE,   1, REPEATS }, /* G 4079 */
    { "DMOV", 0xFF00, 0x5600, DMOV, ADDRESS, READS,  1, REPEATS }, /* G 4150 */
    { "IN",   0xF000, 0x8000, IN,   ADDRESS, WRITES, 1, REPEATS }, /* G 4289 */
    { "LAC",  0xF000, 0x2000, LAC,  ADDRESS, READS,  1, REPEATS }, /* G 4342 */
    { "LACK", 0xFF00, 0xCA00, LACK, PLAIN,   NONE,   1, ONCE },    /* G 4402 */
    { "LAR",  0xF800, 0x3000, LAR,  ADDRESS, READS,  1, REPEATS }, /* G 4533 */
    { "LARK", 0xF800, 0xC000, LARK, PLAIN,   NONE,   1, ONCE },    /* G 4596 */
    { "LDP",  0xFF00, 0x5200, LDP,  ADDRESS, READS,  1, REPEATS }, /* G 4671 */
    { "LDPK", 0xFE00, 0xC800, LDPK, PLAIN,   NONE,   1, ONCE },    /* G 4724 */
    { "LT",   0xFF00, 0x3C00, LT,   ADDRESS, READS,  1, REPEATS }, /* G 5001 */
    { "LTA",  0xFF00, 0x3D00, LTA,  ADDRESS, READS,  1, REPEATS }, /* G 5055 */
    { "LTD",  0xFF00, 0x3F00, LTD,  ADDRESS, READS,  1, REPEATS }, /* G 5134 */
    { "LTP",  0xFF00, 0x3E00, LTP,  ADDRESS, READS,  1, REPEATS }, /* G 5188 */
    { "LTS",  0xFF00, 0x5B00, LTS,  ADDRESS, READS,  1, REPEATS }, /* G 5236 */
    { "MAC",  0xFF00, 0x5D00, MAC,  ADDRESS, READS,  2, REPEATS }, /* G 5281 */
    { "MACD", 0xFF00, 0x5C00, MACD, ADDRESS, READS,  2, REPEATS }, /* G 5420 */
    { "MAR",  0xFF00, 0x5500, MAR,  ADDRESS, NONE,   1, REPEATS }, /* G 5552 */
    { "MPY",  0xFF00, 0x3800, MPY,  ADDRESS, READS,  1, REPEATS }, /* G 5603 */
    { "MPYA", 0xFF00, 0x3A00, MPYA, ADDRESS, READS,  1, REPEATS }, /* G 5653 */
    { "MPYK", 0xE000, 0xA000, MPYK, PLAIN,   NONE,   1, ONCE },    /* G 5698 */
    { "MPYS", 0xFF00, 0x3B00, MPYS, ADDRESS, READS,  1, REPEATS }, /* G 5736 */
    { "NEG",  0xFFFF, 0xCE23, NEG,  PLAIN,   NONE,   1, REPEATS }, /* G 5823 */
    { "OR",   0xFF00, 0x4D00, OR,   ADDRESS, READS,  1, REPEATS }, /* G 5974 */
    { "OUT",  0xF000, 0xE000, OUT,  ADDRESS, READS,  1, REPEATS }, /* G 6060 */
    { "PAC",  0xFFFF, 0xCE14, PAC,  PLAIN,   NONE,   1, REPEATS }, /* G 6112 */
    { "POP",  0xFFFF, 0xCE1D, POP,  PLAIN,   NONE,   1, REPEATS }, /* G 6145 */
    { "PUSH", 0xFFFF, 0xCE1C, PUSH, PLAIN,   NONE,   1, REPEATS }, /* G 6289 */
    { "RET",  0xFFFF, 0xCE26, RET,  PLAIN,   NONE,   1, ONCE },    /* G 6353 */
    { "ROVM", 0xFFFF, 0xCE02, ROVM, PLAIN,   NONE,   1, REPEATS }, /* R6 */
    { "RPT",  0xFF00, 0x4B00, RPT,  ADDRESS, READS,  1, ONCE },    /* G 6546 */
    { "RPTK", 0xFF00, 0xCB00, RPTK, PLAIN,   NONE,   1, ONCE },    /* G 6598 */
    { "RSXM", 0xFFFF, 0xCE06, RSXM, PLAIN,   NONE,   1, REPEATS }, /* G 6639 */
    { "SACH", 0xF800, 0x6800, SACH, ADDRESS, WRITES, 1, REPEATS }, /* G 6758 */
    { "SACL", 0xF800, 0x6000, SACL, ADDRESS, WRITES, 1, REPEATS }, /* G 6809 */
    { "SAR",  0xF800, 0x7000, SAR,  ADDRESS, WRITES, 1, REPEATS }, /* G 6862 */
    { "SBRK", 0xFF00, 0x7F00, SBRK, PLAIN,   NONE,   1, ONCE },    /* G 6980 */
    { "SFL",  0xFFFF, 0xCE18, SFL,  PLAIN,   NONE,   1, REPEATS }, /* G 7009 */
    { "SFR",  0xFFFF, 0xCE19, SFR,  PLAIN,   NONE,   1, REPEATS }, /* G 7054 */
    { "SOVM", 0xFFFF, 0xCE03, SOVM, PLAIN,   NONE,   1, REPEATS }, /* G 7172 */
    { "SPAC", 0xFFFF, 0xCE16, SPAC, PLAIN,   NONE,   1, REPEATS }, /* G 7205 */
    { "SPH",  0xFF00, 0x7D00, SPH,  ADDRESS, WRITES, 1, REPEATS }, /* G 7242 */
    { "SPL",  0xFF00, 0x7C00, SPL,  ADDRESS, WRITES, 1, REPEATS }, /* G 7280 */
    { "SPM",  0xFFFC, 0xCE08, SPM,  PLAIN,   NONE,   1, ONCE },    /* G 7328 */
    { "SQRA", 0xFF00, 0x3900, SQRA, ADDRESS, READS,  1, REPEATS }, /* G 7372 */
    { "SQRS", 0xFF00, 0x5A00, SQRS, ADDRESS, READS,  1, REPEATS }, /* G 7433 */
    { "SSXM", 0xFFFF, 0xCE07, SSXM, PLAIN,   NONE,   1, REPEATS }, /* G 7614 */
    { "SUB",  0xF000, 0x1000, SUB,  ADDRESS, READS,  1, REPEATS }, /* G 7708 */
    { "SUBC", 0xFF00, 0x4700, SUBC, ADDRESS, READS,  1, REPEATS }, /* G 7813 */
    { "SUBH", 0xFF00, 0x4400, SUBH, ADDRESS, READS,  1, REPEATS }, /* G 7876 */
    { "SUBK", 0xFF00, 0xCD00, SUBK, PLAIN,   NONE,   1, ONCE },    /* G 7927 */
    { "SUBS", 0xFF00, 0x4500, SUBS, ADDRESS, READS,  1, REPEATS }, /* G 7962 */
    { "XOR",  0xFF00, 0x4C00, XOR,  ADDRESS, READS,  1, REPEATS }, /* G 8319 */
    { "ZALH", 0xFF00, 0x4000, ZALH, ADDRESS, READS,  1, REPEATS }, /* G 8442 */
    { "ZALS", 0xFF00, 0x4100, ZALS, ADDRESS, READS,  1, REPEATS }, /* G 8530 */

    { "ADDC", 0xFF00, 0x4300, OTHER, ADDRESS, NONE, 1, ONCE }, /* G 2355 */
    { "ADDT", 0xFF00, 0x4A00, OTHER, ADDRESS, NONE, 1, ONCE }, /* G 2538 */
    { "ADLK", 0xF0FF, 0xD002, OTHER, PLAIN,   NONE, 2, ONCE }, /* G 2589 */
    { "ANDK", 0xF0FF, 0xD004, OTHER, PLAIN,   NONE, 2, ONCE }, /* G 2713 */
    { "BACC", 0xFFFF, 0xCE25, OTHER, PLAIN,   NONE, 1, ONCE }, /* G 2828 */
    { "BBNZ", 0xFF00, 0xF900, OTHER, MODIFY,  NONE, 2, ONCE }, /* G 2930 */
    { "BBZ",  0xFF00, 0xF800, OTHER, MODIFY,  NONE, 2, ONCE }, /* G 2976 */
    { "BC",   0xFF00, 0x5E00, OTHER, MODIFY,  NONE, 2, ONCE }, /* G 3022 */
    { "BIOZ", 0xFF00, 0xFA00, OTHER, MODIFY,  NONE, 2, ONCE }, /* G 3160 */
    { "BIT",  0xF000, 0x9000, OTHER, ADDRESS, NONE, 1, ONCE }, /* G 3208 */
    { "BITT", 0xFF00, 0x5700, OTHER, ADDRESS, NONE, 1, ONCE }, /* G 3294 */
    { "BLKD", 0xFF00, 0xFD00, OTHER, ADDRESS, NONE, 2, ONCE }, /* G 3411 */
    { "BLKP", 0xFF00, 0xFC00, OTHER, ADDRESS, NONE, 2, ONCE }, /* G 3535 */
    { "BNC",  0xFF00, 0x5F00, OTHER, MODIFY,  NONE, 2, ONCE }, /* G 3702 */
    { "CALA", 0xFFFF, 0xCE24, OTHER, PLAIN,   NONE, 1, ONCE }, /* G 3880 */
    { "CMPR", 0xFFFC, 0xCE50, OTHER, PLAIN,   NONE, 1, ONCE }, /* G 4004 */
    { "DINT", 0xFFFF, 0xCE01, OTHER, PLAIN,   NONE, 1, ONCE }, /* G 4116 */
    { "EINT", 0xFFFF, 0xCE00, OTHER, PLAIN,   NONE, 1, ONCE }, /* G 4192 */
    { "FORT", 0xFFFE, 0xCE0E, OTHER, PLAIN,   NONE, 1, ONCE }, /* G 4222 */
    { "IDLE", 0xFFFF, 0xCE1F, OTHER, PLAIN,   NONE, 1, ONCE }, /* G 4252 */
    { "LACT", 0xFF00, 0x4200, OTHER, ADDRESS, NONE, 1, ONCE }, /* G 4439 */
    { "LALK", 0xF0FF, 0xD001, OTHER, PLAIN,   NONE, 2, ONCE }, /* G 4490 */
    { "LPH",  0xFF00, 0x5300, OTHER, ADDRESS, NONE, 1, ONCE }, /* G 4755 */
    { "LRLK", 0xF8FF, 0xD000, OTHER, PLAIN,   NONE, 2, ONCE }, /* G 4811 */
    { "LST",  0xFF00, 0x5000, OTHER, ADDRESS, NONE, 1, ONCE }, /* G 4846 */
    { "LST1", 0xFF00, 0x5100, OTHER, ADDRESS, NONE, 1, ONCE }, /* G 4924 */
    { "MPYU", 0xFF00, 0xCF00, OTHER, ADDRESS, NONE, 1, ONCE }, /* G 5783 */
    { "NORM", 0xFF8F, 0xCE82, OTHER, MODIFY,  NONE, 1, ONCE }, /* G 5889 */
    { "ORK",  0xF0FF, 0xD005, OTHER, PLAIN,   NONE, 2, ONCE }, /* G 6028 */
    { "POPD", 0xFF00, 0x7A00, OTHER, ADDRESS, NONE, 1, ONCE }, /* G 6185 */
    { "PSHD", 0xFF00, 0x5400, OTHER, ADDRESS, NONE, 1, ONCE }, /* G 6233 */
    { "RC",   0xFFFF, 0xCE30, OTHER, PLAIN,   NONE, 1, ONCE }, /* G 6322 */
    { "RFSM", 0xFFFF, 0xCE36, OTHER, PLAIN,   NONE, 1, ONCE }, /* G 6405 */
    { "RHM",  0xFFFF, 0xCE38, OTHER, PLAIN,   NONE, 1, ONCE }, /* G 6437 */
    { "ROL",  0xFFFF, 0xCE34, OTHER, PLAIN,   NONE, 1, ONCE }, /* G 6473 */
    { "ROR",  0xFFFF, 0xCE35, OTHER, PLAIN,   NONE, 1, ONCE }, /* G 6510 */
    { "RTC",  0xFFFF, 0xCE32, OTHER, PLAIN,   NONE, 1, ONCE }, /* G 6671 */
    { "RTXM", 0xFFFF, 0xCE20, OTHER, PLAIN,   NONE, 1, ONCE }, /* G 6698 */
    { "RXF",  0xFFFF, 0xCE0C, OTHER, PLAIN,   NONE, 1, ONCE }, /* G 6727 */
    { "SBLK", 0xF0FF, 0xD003, OTHER, PLAIN,   NONE, 2, ONCE }, /* G 6929 */
    { "SC",   0xFFFF, 0xCE31, OTHER, PLAIN,   NONE, 1, ONCE }, /* R6 */
    { "SFSM", 0xFFFF, 0xCE37, OTHER, PLAIN,   NONE, 1, ONCE }, /* G 7114 */
    { "SHM",  0xFFFF, 0xCE39, OTHER, PLAIN,   NONE, 1, ONCE }, /* G 7144 */
    { "SST",  0xFF00, 0x7800, OTHER, ADDRESS, NONE, 1, ONCE }, /* G 7494 */
    { "SST1", 0xFF00, 0x7900, OTHER, ADDRESS, NONE, 1, ONCE }, /* G 7555 */
    { "STC",  0xFFFF, 0xCE33, OTHER, PLAIN,   NONE, 1, ONCE }, /* G 7646 */
    { "STXM", 0xFFFF, 0xCE21, OTHER, PLAIN,   NONE, 1, ONCE }, /* G 7677 */
    { "SUBB", 0xFF00, 0x4F00, OTHER, ADDRESS, NONE, 1, ONCE }, /* G 7767 */
    { "SUBT", 0xFF00, 0x4600, OTHER, ADDRESS, NONE, 1, ONCE }, /* G 8006 */
    { "SXF",  0xFFFF, 0xCE0D, OTHER, PLAIN,   NONE, 1, ONCE }, /* G 8071 */
    { "TBLR", 0xFF00, 0x5800, OTHER, ADDRESS, NONE, 1, ONCE }, /* G 8102 */
    { "TBLW", 0xFF00, 0x5900, OTHER, ADDRESS, NONE, 1, ONCE }, /* G 8194 */
    { "TRAP", 0xFFFF, 0xCE1E, OTHER, PLAIN,   NONE, 1, ONCE }, /* G 8280 */
    { "XORK", 0xF0FF, 0xD006, OTHER, PLAIN,   NONE, 2, ONCE }, /* G 8371 */
    { "ZALR", 0xFF00, 0x7B00, OTHER, ADDRESS, NONE, 1, ONCE }, /* G 8489 */
};

enum { ROWS = sizeof rows / sizeof rows[0] };

/* The reserved modification 011 is in no encoding (G 1760, R1). */
static bool is_in(const struct row *row, unsigned word)
{
    if ((word & row->mask) != row->bits)
        return false;
    if (row->field == MODIFY && (word & 0x80u) == 0)
        return false;
    if (row->field != PLAIN && (word & 0xF0u) == 0xB0u)
        return false;
    return true;
}

static const struct row *find_row(unsigned word)
{
    for (int i = 0; i < ROWS; i++)
        if (is_in(&rows[i], word))
            return &rows[i];
    return NULL;
}

int plain_decode(uint16_t word)
{
    const struct row *row = find_row(word);
    if (row == NULL)
        return PLAIN_NO_ENCODING;
    return row->kind == OTHER ? PLAIN_NOT_IN_BASE : PLAIN_DONE;
}

const char *plain_name(uint16_t word)
{
    const struct row *row = find_row(word);
    return row == NULL ? "" : row->name;
}

unsigned plain_words(uint16_t word)
{
    const struct row *row = find_row(word);
    return row == NULL ? 0 : row->words;
}

int plain_has_address(uint16_t word)
{
    const struct row *row = find_row(word);
    return row != NULL && row->field != PLAIN;
}

int plain_matches(uint16_t word)
{
    int found = 0;
    for (int i = 0; i < ROWS; i++)
        if (is_in(&rows[i], word))
            found++;
    return found;
}

/* ---- The cells ---------------------------------------------------------- */

/* G 1148; what it leaves undefined, MID and the cursors are 0 (D01). */
void plain_reset(struct plain_machine *machine)
{
    *machine = (struct plain_machine){ .sxm = 1, .c = 1 };
}

/* Check 1: the ranges of D01, "The cells of the machine". */
static bool cells_in_range(const struct plain_machine *m)
{
    bool good = m->t <= 0xFFFF && m->pc <= 0xFFFF && m->pfc <= 0xFFFF
        && m->arp <= 7 && m->arb <= 7 && m->dp <= 511 && m->pm <= 3
        && m->ov <= 1 && m->ovm <= 1 && m->sxm <= 1 && m->c <= 1
        && m->cnf <= 1 && m->mid <= 1 && m->rptc <= 255
        && m->input_cursor <= PLAIN_PORT_WORDS
        && m->output_cursor <= PLAIN_PORT_WORDS;
    for (int i = 0; i < 8; i++)
        good = good && m->ar[i] <= 0xFFFF;
    for (int i = 0; i < PLAIN_STACK_WORDS; i++)
        good = good && m->stack[i] <= 0xFFFF;
    return good;
}

/* Push moves each word one down and loses the eighth (D01). */
static void push(struct plain_machine *m, uint32_t word)
{
    for (int i = PLAIN_STACK_WORDS - 1; i > 0; i--)
        m->stack[i] = m->stack[i - 1];
    m->stack[0] = word;
}

/* Pop moves each word one up; the eighth keeps its value (D01). */
static uint32_t pop(struct plain_machine *m)
{
    uint32_t top = m->stack[0];
    for (int i = 0; i < PLAIN_STACK_WORDS - 1; i++)
        m->stack[i] = m->stack[i + 1];
    return top;
}

/* ---- The board ---------------------------------------------------------- */

/* What is lent to a step. */
struct board {
    const uint16_t *rom;
    size_t rom_len;
    uint16_t *data;
    size_t data_len;
    const uint16_t *input;
    size_t input_len;
    uint16_t *output;
    size_t output_len;
};

/* Check 2 (D01); a cursor equal to its slice's length is fine (R14). */
static bool slices_right(const struct plain_machine *m, const struct board *b)
{
    return b->rom_len == PLAIN_ROM_WORDS && b->data_len == PLAIN_DATA_WORDS
        && b->input_len <= PLAIN_PORT_WORDS
        && b->output_len <= PLAIN_PORT_WORDS
        && m->input_cursor <= b->input_len
        && m->output_cursor <= b->output_len;
}

/*
 * The words from a program address to the end of its region: the ROM, or B0
 * at FF00h where CNF = 1. Elsewhere there are none (D01).
 */
static const uint16_t *window(uint32_t cnf, const uint16_t *rom,
                              const uint16_t *data, uint32_t address,
                              size_t *count)
{
    if (address < PLAIN_ROM_WORDS) {
        *count = PLAIN_ROM_WORDS - address;
        return rom + address;
    }
    if (cnf == 1 && address >= 0xFF00) {
        *count = 0x10000 - address;
        return data + 0x200 + (address - 0xFF00);
    }
    *count = 0;
    return NULL;
}

static bool fetch(const struct plain_machine *m, const struct board *b,
                  uint32_t address, uint32_t *word)
{
    size_t count;
    const uint16_t *words = window(m->cnf, b->rom, b->data, address, &count);
    if (count == 0)
        return false;
    *word = words[0];
    return true;
}

/* In an on-chip block that is in data space now: B2, B0 or B1 (D01). */
static bool on_chip(uint32_t cnf, uint32_t address)
{
    if (address >= 0x60 && address <= 0x7F)
        return true;
    if (address >= 0x200 && address <= 0x2FF)
        return cnf == 0;
    return address >= 0x300 && address <= 0x3FF;
}

/* In external RAM (D01, "The camera board"), whatever CNF is. */
static bool outside(uint32_t address)
{
    return address >= 0x400 && address <= 0xFFF;
}

static bool data_present(uint32_t cnf, uint32_t address)
{
    return on_chip(cnf, address) || outside(address);
}

int plain_window(const struct plain_machine *machine,
                 const uint16_t *rom, size_t rom_len,
                 const uint16_t *data, size_t data_len,
                 uint16_t address, const uint16_t **words, size_t *count)
{
    *words = NULL;
    *count = 0;
    if (!cells_in_range(machine))
        return PLAIN_CELL_OUT_OF_RANGE;
    if (rom_len != PLAIN_ROM_WORDS || data_len != PLAIN_DATA_WORDS)
        return PLAIN_SLICE_WRONG;
    *words = window(machine->cnf, rom, data, address, count);
    return *count == 0 ? PLAIN_PROGRAM_ABSENT : PLAIN_DONE;
}

int plain_words_sent(const struct plain_machine *machine,
                     const uint16_t *output, size_t output_len,
                     const uint16_t **words, size_t *count)
{
    *words = NULL;
    *count = 0;
    if (!cells_in_range(machine))
        return PLAIN_CELL_OUT_OF_RANGE;
    if (output_len > PLAIN_PORT_WORDS || machine->output_cursor > output_len)
        return PLAIN_SLICE_WRONG;
    *words = output;
    *count = machine->output_cursor;
    return PLAIN_DONE;
}

/* ---- Numbers ------------------------------------------------------------ */

static int64_t signed16(uint32_t word)
{
    return word < 0x8000 ? (int64_t)word : (int64_t)word - 0x10000;
}

static int64_t signed32(uint32_t word)
{
    return word < 0x80000000u ? (int64_t)word : (int64_t)word - 0x100000000;
}

/* The low 32 bits of an exact number. */
static uint32_t low32(int64_t number)
{
    return (uint32_t)((uint64_t)number & 0xFFFFFFFFu);
}

static uint32_t product(uint32_t a, uint32_t b)
{
    return low32(signed16(a) * signed16(b));
}

/* SPM (G 7328); the shifter's output is 32 bits (R16). */
static uint32_t shifted_p(const struct plain_machine *m)
{
    switch (m->pm) {
    case 1:
        return m->p << 1;
    case 2:
        return m->p << 4;
    case 3:
        return (m->p >> 6) | (m->p >= 0x80000000u ? 0xFC000000u : 0);
    default:
        return m->p;
    }
}

/* A data word extended by SXM and shifted left (D01: ADD, SUB, LAC). */
static uint32_t extended(const struct plain_machine *m, uint32_t word,
                         unsigned shift)
{
    uint32_t wide = word;
    if (m->sxm == 1 && word >= 0x8000)
        wide |= 0xFFFF0000u;
    return wide << shift;
}

/*
 * ACC takes an exact result: OV becomes 1 where it leaves 32 bits and is
 * left alone otherwise; OVM holds it (D01; SOVM, G 7172).
 */
static void settle(struct plain_machine *m, int64_t exact)
{
    bool above = exact > 0x7FFFFFFF;
    bool below = exact < -(int64_t)0x80000000;
    m->acc = low32(exact);
    if (above || below)
        m->ov = 1;
    if (above && m->ovm == 1)
        m->acc = 0x7FFFFFFFu;
    if (below && m->ovm == 1)
        m->acc = 0x80000000u;
}

/* C is the carry out of bit 31, before any holding (D01). */
static void add(struct plain_machine *m, uint32_t operand)
{
    m->c = (uint64_t)m->acc + operand > 0xFFFFFFFFu ? 1 : 0;
    settle(m, signed32(m->acc) + signed32(operand));
}

/* C is 0 on a borrow and 1 without (D01, R21). */
static void subtract(struct plain_machine *m, uint32_t operand)
{
    m->c = m->acc >= operand ? 1 : 0;
    settle(m, signed32(m->acc) - signed32(operand));
}

/* SUBC (G 7813, R18): no holding, and the doubling never sets OV. */
static void subtract_conditionally(struct plain_machine *m, uint32_t word)
{
    uint32_t operand = extended(m, word, 15);
    int64_t exact = signed32(m->acc) - signed32(operand);
    uint32_t difference = low32(exact);
    m->c = m->acc >= operand ? 1 : 0;
    if (exact != signed32(difference))
        m->ov = 1;
    if (difference < 0x80000000u)
        m->acc = (difference << 1) | 1u;
    else
        m->acc = m->acc << 1;
}

/* ---- Addressing --------------------------------------------------------- */

static uint32_t reversed16(uint32_t word)
{
    uint32_t result = 0;
    for (int i = 0; i < 16; i++)
        if (word & (1u << i))
            result |= 0x8000u >> i;
    return result;
}

/* Table 4-1 (G 1753); all sums modulo 65,536 (D01). */
static uint32_t modified(uint32_t ar, uint32_t ar0, uint32_t how)
{
    switch (how) {
    case 1:
        return (ar - 1) & 0xFFFF;
    case 2:
        return (ar + 1) & 0xFFFF;
    case 4:
        return reversed16((reversed16(ar) - reversed16(ar0)) & 0xFFFF);
    case 5:
        return (ar - ar0) & 0xFFFF;
    case 6:
        return (ar + ar0) & 0xFFFF;
    case 7:
        return reversed16((reversed16(ar) + reversed16(ar0)) & 0xFFFF);
    default:
        return ar;
    }
}

/* The old register first, then ARP (G 1711; D01, last error). */
static void modify_registers(struct plain_machine *m, uint32_t word)
{
    uint32_t now = m->arp;
    m->ar[now] = modified(m->ar[now], m->ar[0], (word >> 4) & 7);
    if (word & 8) {
        m->arb = now;
        m->arp = word & 7;
    }
}

/* ---- A step: the questions ---------------------------------------------- */

/* What a pass needs to know. */
struct pass {
    const struct row *row;
    uint32_t word;
    uint32_t second;        /* of a two-word instruction */
    uint32_t address;       /* in data memory, 16 bits */
    uint32_t operand;       /* the data word, where the page reads one */
    uint32_t table_address; /* MAC, MACD */
    uint32_t table_word;
    struct plain_external external; /* the accesses made so far */
};

/*
 * The one place where a data word is read. A pass keeps the word, so that one
 * which its page mentions twice is read once (X1).
 */
static uint32_t load_word(const struct board *b, struct pass *pass)
{
    if (outside(pass->address))
        pass->external.reads++;
    return b->data[pass->address];
}

/* The one place where a data word is written. */
static void store_word(const struct board *b, struct pass *pass,
                       uint32_t address, uint32_t value)
{
    if (outside(address))
        pass->external.writes++;
    b->data[address] = (uint16_t)(value & 0xFFFF);
}

/* The order of D01 and D02, 8 retired: 1, 2, 5, 3, 4, 7, 5, 9, 6, 11, 5, 10. */
static int refused(const struct plain_machine *m, const struct board *b,
                   struct pass *pass)
{
    if (!cells_in_range(m))
        return PLAIN_CELL_OUT_OF_RANGE;
    if (!slices_right(m, b))
        return PLAIN_SLICE_WRONG;

    *pass = (struct pass){ 0 };
    if (!fetch(m, b, m->pc, &pass->word))
        return PLAIN_PROGRAM_ABSENT;

    const struct row *row = find_row(pass->word);
    if (row == NULL)
        return PLAIN_NO_ENCODING;
    if (row->kind == OTHER)
        return PLAIN_NOT_IN_BASE;
    pass->row = row;

    /* R12: RPTC and the page only, never MID. */
    if (m->rptc > 0 && row->repeat == ONCE)
        return PLAIN_NOT_REPEATABLE;

    /* R10, R11: at PC + 1 turned over, used or not. */
    if (row->words == 2
        && !fetch(m, b, (m->pc + 1) & 0xFFFF, &pass->second))
        return PLAIN_PROGRAM_ABSENT;

    uint32_t port = (pass->word >> 8) & 15;
    if (row->kind == IN && port != 0)
        return PLAIN_WRONG_PORT;
    if (row->kind == OUT && port != 1)
        return PLAIN_WRONG_PORT;

    if (row->access != NONE) {
        /* By check 1 DP is at most 511, so page and offset end at 65,535. */
        if ((pass->word & 0x80) == 0)
            pass->address = 128 * m->dp + (pass->word & 0x7F);
        else
            pass->address = m->ar[m->arp];
        if (!data_present(m->cnf, pass->address))
            return PLAIN_DATA_ABSENT;
        if (row->access == READS)
            pass->operand = load_word(b, pass);
    }

    /* Nothing is stored for a missing word (D02, request 2). */
    if (row->kind == IN && m->input_cursor == b->input_len)
        return PLAIN_INPUT_DRY;

    /* The first pass takes the second word, later ones PFC (D01, R29). */
    if (row->kind == MAC || row->kind == MACD) {
        pass->table_address = m->mid == 0 ? pass->second : m->pfc;
        if (!fetch(m, b, pass->table_address, &pass->table_word))
            return PLAIN_PROGRAM_ABSENT;
    }

    if (row->kind == OUT && m->output_cursor == b->output_len)
        return PLAIN_OUTPUT_FULL;

    return PLAIN_DONE;
}

/* ---- A step: the pages -------------------------------------------------- */

static void store(const struct board *b, struct pass *pass, uint32_t value)
{
    store_word(b, pass, pass->address, value);
}

/* DMOV (G 4150): only within on-chip blocks now in data space (D01, X2). */
static void move_data(const struct plain_machine *m, const struct board *b,
                      struct pass *pass)
{
    if (on_chip(m->cnf, pass->address) && on_chip(m->cnf, pass->address + 1))
        store_word(b, pass, pass->address + 1, pass->operand);
}

/* MAC (G 5281), MACD (G 5420): the old product is added (D01). */
static void multiply_accumulate(struct plain_machine *m,
                                const struct pass *pass)
{
    add(m, shifted_p(m));
    m->t = pass->operand;
    m->p = product(pass->operand, pass->table_word);
    m->pfc = (pass->table_address + 1) & 0xFFFF;
}

/* MPYK (G 5698): 13 bits, sign-extended to 16. */
static uint32_t constant13(uint32_t word)
{
    uint32_t constant = word & 0x1FFF;
    return constant & 0x1000 ? constant | 0xE000 : constant;
}

/*
 * One pass of the instruction. `m` has its addresses modified already; `old`
 * is the machine before that. Gives the address of the next instruction.
 */
static uint32_t perform(struct plain_machine *m,
                        const struct plain_machine *old,
                        const struct board *b, struct pass *pass)
{
    uint32_t low_byte = pass->word & 0xFF;
    uint32_t reg = (pass->word >> 8) & 7;        /* LAR, SAR, LARK */
    unsigned shift16 = (pass->word >> 8) & 15;   /* ADD, SUB, LAC */
    unsigned shift8 = (pass->word >> 8) & 7;     /* SACL, SACH */
    uint32_t operand = pass->operand;
    uint32_t next = (m->pc + pass->row->words) & 0xFFFF;
    int64_t acc = signed32(m->acc);

    switch (pass->row->kind) {
    /* Accumulator */
    case ABS: /* G 2252, R19 */
        if (acc < 0)
            settle(m, -acc);
        m->c = 0;
        break;
    case ADD: /* G 2294 */
        add(m, extended(m, operand, shift16));
        break;
    case ADDH: /* G 2409, R17: C can only be set */
        add(m, operand << 16);
        m->c = m->c | old->c;
        break;
    case ADDK: /* G 2455 */
        add(m, low_byte);
        break;
    case ADDS: /* G 2491 */
        add(m, operand);
        break;
    case AND: /* G 2662: the upper half is cleared */
        m->acc = m->acc & operand;
        break;
    case CMPL: /* G 3970 */
        m->acc = ~m->acc;
        break;
    case LAC: /* G 4342 */
        m->acc = extended(m, operand, shift16);
        break;
    case LACK: /* G 4402; ZAC is LACK 0, G 8405 */
        m->acc = low_byte;
        break;
    case NEG: /* G 5823, R19 */
        m->c = m->acc == 0 ? 1 : 0;
        settle(m, -acc);
        break;
    case OR: /* G 5974 */
        m->acc = m->acc | operand;
        break;
    case SACH: /* G 6758: the whole 32 bits are shifted */
        store(b, pass, (m->acc << shift8) >> 16);
        break;
    case SACL: /* G 6809 */
        store(b, pass, m->acc << shift8);
        break;
    case SFL: /* G 7009, R20 */
        m->c = m->acc >> 31;
        m->acc = m->acc << 1;
        break;
    case SFR: /* G 7054, R20 */
        m->c = m->acc & 1;
        m->acc = (m->acc >> 1) | (m->sxm == 1 ? m->acc & 0x80000000u : 0);
        break;
    case SUB: /* G 7708 */
        subtract(m, extended(m, operand, shift16));
        break;
    case SUBC: /* G 7813 */
        subtract_conditionally(m, operand);
        break;
    case SUBH: /* G 7876, R17: C can only be reset */
        subtract(m, operand << 16);
        m->c = m->c & old->c;
        break;
    case SUBK: /* G 7927 */
        subtract(m, low_byte);
        break;
    case SUBS: /* G 7962 */
        subtract(m, operand);
        break;
    case XOR: /* G 8319 */
        m->acc = m->acc ^ operand;
        break;
    case ZALH: /* G 8442 */
        m->acc = operand << 16;
        break;
    case ZALS: /* G 8530 */
        m->acc = operand;
        break;

    /* Multiplier */
    case APAC: /* G 2743 */
        add(m, shifted_p(m));
        break;
    case LT: /* G 5001 */
        m->t = operand;
        break;
    case LTA: /* G 5055 */
        add(m, shifted_p(m));
        m->t = operand;
        break;
    case LTD: /* G 5134 */
        add(m, shifted_p(m));
        m->t = operand;
        move_data(m, b, pass);
        break;
    case LTP: /* G 5188 */
        m->acc = shifted_p(m);
        m->t = operand;
        break;
    case LTS: /* G 5236 */
        subtract(m, shifted_p(m));
        m->t = operand;
        break;
    case MAC: /* G 5281 */
        multiply_accumulate(m, pass);
        break;
    case MACD: /* G 5420 */
        multiply_accumulate(m, pass);
        move_data(m, b, pass);
        break;
    case MPY: /* G 5603 */
        m->p = product(m->t, operand);
        break;
    case MPYA: /* G 5653 */
        add(m, shifted_p(m));
        m->p = product(m->t, operand);
        break;
    case MPYK: /* G 5698 */
        m->p = product(m->t, constant13(pass->word));
        break;
    case MPYS: /* G 5736 */
        subtract(m, shifted_p(m));
        m->p = product(m->t, operand);
        break;
    case PAC: /* G 6112 */
        m->acc = shifted_p(m);
        break;
    case SPAC: /* G 7205 */
        subtract(m, shifted_p(m));
        break;
    case SPH: /* G 7242 */
        store(b, pass, shifted_p(m) >> 16);
        break;
    case SPL: /* G 7280 */
        store(b, pass, shifted_p(m));
        break;
    case SPM: /* G 7328 */
        m->pm = pass->word & 3;
        break;
    case SQRA: /* G 7372 */
        add(m, shifted_p(m));
        m->t = operand;
        m->p = product(operand, operand);
        break;
    case SQRS: /* G 7433 */
        subtract(m, shifted_p(m));
        m->t = operand;
        m->p = product(operand, operand);
        break;

    /* Auxiliary registers and data page */
    case ADRK: /* G 2631 */
        m->ar[m->arp] = (m->ar[m->arp] + low_byte) & 0xFFFF;
        break;
    case LAR: /* G 4533, R25: the load is after the modification */
        m->ar[reg] = operand;
        break;
    case LARK: /* G 4596 */
        m->ar[reg] = low_byte;
        break;
    case LDP: /* G 4671 */
        m->dp = operand & 0x1FF;
        break;
    case LDPK: /* G 4724 */
        m->dp = pass->word & 0x1FF;
        break;
    case MAR: /* G 5552; NOP, G 5856, and LARP, G 4632, are MAR */
        break;
    case SAR: /* G 6862, R26: the value before the modification */
        store(b, pass, old->ar[reg]);
        break;
    case SBRK: /* G 6980 */
        m->ar[m->arp] = (m->ar[m->arp] - low_byte) & 0xFFFF;
        break;

    /* Branches, calls and the stack */
    case B: /* G 2778 */
        next = pass->second;
        break;
    case BANZ: /* G 2862, R26: the old register, unmodified */
        if (old->ar[old->arp] != 0)
            next = pass->second;
        break;
    case BGEZ: /* G 3072 */
        if (acc >= 0)
            next = pass->second;
        break;
    case BGZ: /* G 3116 */
        if (acc > 0)
            next = pass->second;
        break;
    case BLEZ: /* G 3361 */
        if (acc <= 0)
            next = pass->second;
        break;
    case BLZ: /* G 3661 */
        if (acc < 0)
            next = pass->second;
        break;
    case BNV: /* G 3746, R23 */
        if (m->ov == 0)
            next = pass->second;
        m->ov = 0;
        break;
    case BNZ: /* G 3791 */
        if (acc != 0)
            next = pass->second;
        break;
    case BV: /* G 3834, R23 */
        if (m->ov == 1)
            next = pass->second;
        m->ov = 0;
        break;
    case BZ: /* R6 */
        if (acc == 0)
            next = pass->second;
        break;
    case CALL: /* G 3921 */
        push(m, next);
        next = pass->second;
        break;
    case POP: /* G 6145 */
        m->acc = pop(m);
        break;
    case PUSH: /* G 6289 */
        push(m, m->acc & 0xFFFF);
        break;
    case RET: /* G 6353 */
        next = pop(m);
        break;

    /* Modes */
    case CNFD: /* G 4044 */
        m->cnf = 0;
        break;
    case CNFP: /* G 4079 */
        m->cnf = 1;
        break;
    case ROVM: /* R6 */
        m->ovm = 0;
        break;
    case RSXM: /* G 6639 */
        m->sxm = 0;
        break;
    case SOVM: /* G 7172 */
        m->ovm = 1;
        break;
    case SSXM: /* G 7614 */
        m->sxm = 1;
        break;

    /* Repeats, data moves and ports */
    case DMOV: /* G 4150 */
        move_data(m, b, pass);
        break;
    case IN: /* G 4289 */
        store(b, pass, b->input[m->input_cursor++]);
        break;
    case OUT: /* G 6060 */
        b->output[m->output_cursor++] = (uint16_t)operand;
        break;
    case RPT: /* G 6546 */
        m->rptc = operand & 0xFF;
        break;
    case RPTK: /* G 6598 */
        m->rptc = low_byte;
        break;

    case OTHER: /* refused before */
        break;
    }
    return next;
}

/* D01, "Steps, repeats and runs". What the pass counts is added to *total. */
static int step(struct plain_machine *m, const struct board *b,
                struct plain_external *total)
{
    struct pass pass;
    int answer = refused(m, b, &pass);
    if (answer != PLAIN_DONE)
        return answer;

    const struct plain_machine old = *m;
    bool has_field = pass.row->field != PLAIN;
    if (has_field && (pass.word & 0x80))
        modify_registers(m, pass.word);

    uint32_t next = perform(m, &old, b, &pass);

    if (pass.row->repeat == REPEATS && m->rptc > 0) {
        m->rptc--;
        m->mid = 1;
    } else {
        m->mid = 0;
        m->pc = next;
    }
    total->reads += pass.external.reads;
    total->writes += pass.external.writes;
    return PLAIN_DONE;
}

int plain_step(struct plain_machine *machine,
               const uint16_t *rom, size_t rom_len,
               uint16_t *data, size_t data_len,
               const uint16_t *input, size_t input_len,
               uint16_t *output, size_t output_len,
               struct plain_external *external)
{
    const struct board board = { rom, rom_len, data, data_len,
                                 input, input_len, output, output_len };
    *external = (struct plain_external){ 0, 0 };
    return step(machine, &board, external);
}

int plain_run(struct plain_machine *machine,
              const uint16_t *rom, size_t rom_len,
              uint16_t *data, size_t data_len,
              const uint16_t *input, size_t input_len,
              uint16_t *output, size_t output_len,
              uint16_t budget, uint32_t *steps,
              struct plain_external *external)
{
    const struct board board = { rom, rom_len, data, data_len,
                                 input, input_len, output, output_len };
    *steps = 0;
    *external = (struct plain_external){ 0, 0 };
    /* Budget 0 makes checks 1 and 2 only. */
    if (!cells_in_range(machine))
        return PLAIN_CELL_OUT_OF_RANGE;
    if (!slices_right(machine, &board))
        return PLAIN_SLICE_WRONG;
    while (*steps < budget) {
        int answer = step(machine, &board, external);
        if (answer != PLAIN_DONE)
            return answer;
        (*steps)++;
    }
    return PLAIN_DONE;
}

/* ---- Run files (D01, "The run file and its one line") ------------------- */

static unsigned number_at(const uint8_t *bytes, size_t at)
{
    return bytes[at] | ((unsigned)bytes[at + 1] << 8);
}

static void put_number(uint8_t *bytes, size_t at, size_t number)
{
    bytes[at] = (uint8_t)(number & 0xFF);
    bytes[at + 1] = (uint8_t)((number >> 8) & 0xFF);
}

/* The header's numbers, in their order in the file. */
enum {
    AT_VERSION = 0,
    AT_PROGRAM_COUNT = 2,
    AT_PROGRAM_OFFSET = 4,
    AT_DATA_COUNT = 6,
    AT_DATA_OFFSET = 8,
    AT_INPUT_COUNT = 10,
    AT_INPUT_OFFSET = 12,
    AT_BUDGET = 14
};

static int file_refused(const uint8_t *bytes, size_t length)
{
    if (length < PLAIN_FILE_HEADER)
        return PLAIN_FILE_SHORT;
    if (number_at(bytes, AT_VERSION) != 1)
        return PLAIN_FILE_VERSION;

    size_t program_count = number_at(bytes, AT_PROGRAM_COUNT);
    size_t data_count = number_at(bytes, AT_DATA_COUNT);
    size_t input_count = number_at(bytes, AT_INPUT_COUNT);
    if (program_count > PLAIN_FILE_PROGRAM || data_count > PLAIN_FILE_DATA
        || input_count > PLAIN_FILE_INPUT)
        return PLAIN_FILE_RULES;

    size_t data_offset = PLAIN_FILE_HEADER + 2 * program_count;
    size_t input_offset = data_offset + 2 * data_count;
    size_t end = input_offset + 2 * input_count;
    if (number_at(bytes, AT_PROGRAM_OFFSET) != PLAIN_FILE_HEADER
        || number_at(bytes, AT_DATA_OFFSET) != data_offset
        || number_at(bytes, AT_INPUT_OFFSET) != input_offset
        || length != end)
        return PLAIN_FILE_RULES;
    return PLAIN_DONE;
}

static void read_words(const uint8_t *bytes, size_t at, size_t count,
                       uint16_t *words)
{
    for (size_t i = 0; i < count; i++)
        words[i] = (uint16_t)number_at(bytes, at + 2 * i);
}

int plain_read(const uint8_t *bytes, size_t length,
               struct plain_contents *contents)
{
    *contents = (struct plain_contents){ 0 };
    int answer = file_refused(bytes, length);
    if (answer != PLAIN_DONE)
        return answer;
    contents->program_count = number_at(bytes, AT_PROGRAM_COUNT);
    contents->data_count = number_at(bytes, AT_DATA_COUNT);
    contents->input_count = number_at(bytes, AT_INPUT_COUNT);
    contents->budget = (uint16_t)number_at(bytes, AT_BUDGET);
    read_words(bytes, number_at(bytes, AT_PROGRAM_OFFSET),
               contents->program_count, contents->program);
    read_words(bytes, number_at(bytes, AT_DATA_OFFSET),
               contents->data_count, contents->data);
    read_words(bytes, number_at(bytes, AT_INPUT_OFFSET),
               contents->input_count, contents->input);
    return PLAIN_DONE;
}

/* R33: every word of both memories is written, 0 where the file has none. */
int plain_set_up(const uint8_t *bytes, size_t length,
                 uint16_t *rom, size_t rom_len,
                 uint16_t *data, size_t data_len,
                 uint16_t *input, size_t input_len)
{
    int answer = file_refused(bytes, length);
    if (answer != PLAIN_DONE)
        return answer;
    size_t input_count = number_at(bytes, AT_INPUT_COUNT);
    if (rom_len != PLAIN_ROM_WORDS || data_len != PLAIN_DATA_WORDS
        || input_len != input_count)
        return PLAIN_SLICE_WRONG;

    for (size_t i = 0; i < rom_len; i++)
        rom[i] = 0;
    for (size_t i = 0; i < data_len; i++)
        data[i] = 0;
    read_words(bytes, number_at(bytes, AT_PROGRAM_OFFSET),
               number_at(bytes, AT_PROGRAM_COUNT), rom);
    read_words(bytes, number_at(bytes, AT_DATA_OFFSET),
               number_at(bytes, AT_DATA_COUNT), data + 0x400);
    read_words(bytes, number_at(bytes, AT_INPUT_OFFSET), input_count, input);
    return PLAIN_DONE;
}

static void write_words(uint8_t *bytes, size_t at, size_t count,
                        const uint16_t *words)
{
    for (size_t i = 0; i < count; i++)
        put_number(bytes, at + 2 * i, words[i]);
}

/* R34: the exact length fits; no byte is put down by a refused write. */
int plain_write(const uint16_t *program, size_t program_count,
                const uint16_t *data, size_t data_count,
                const uint16_t *input, size_t input_count,
                uint16_t budget,
                uint8_t *bytes, size_t room, size_t *length)
{
    *length = 0;
    if (program_count > PLAIN_FILE_PROGRAM || data_count > PLAIN_FILE_DATA
        || input_count > PLAIN_FILE_INPUT)
        return PLAIN_FILE_RULES;

    size_t data_offset = PLAIN_FILE_HEADER + 2 * program_count;
    size_t input_offset = data_offset + 2 * data_count;
    size_t end = input_offset + 2 * input_count;
    if (room < end)
        return PLAIN_FILE_NO_ROOM;

    put_number(bytes, AT_VERSION, 1);
    put_number(bytes, AT_PROGRAM_COUNT, program_count);
    put_number(bytes, AT_PROGRAM_OFFSET, PLAIN_FILE_HEADER);
    put_number(bytes, AT_DATA_COUNT, data_count);
    put_number(bytes, AT_DATA_OFFSET, data_offset);
    put_number(bytes, AT_INPUT_COUNT, input_count);
    put_number(bytes, AT_INPUT_OFFSET, input_offset);
    put_number(bytes, AT_BUDGET, budget);
    write_words(bytes, PLAIN_FILE_HEADER, program_count, program);
    write_words(bytes, data_offset, data_count, data);
    write_words(bytes, input_offset, input_count, input);
    *length = end;
    return PLAIN_DONE;
}

/* R35: the whole line also where a step was refused. */
void plain_replay(const uint8_t *bytes, size_t length,
                  char line[PLAIN_LINE_ROOM])
{
    struct plain_contents contents;
    int answer = plain_read(bytes, length, &contents);
    if (answer != PLAIN_DONE) {
        snprintf(line, PLAIN_LINE_ROOM, "%d\n", answer);
        return;
    }

    uint16_t rom[PLAIN_ROM_WORDS];
    uint16_t data[PLAIN_DATA_WORDS];
    uint16_t input[PLAIN_FILE_INPUT];
    uint16_t output[PLAIN_PORT_WORDS] = { 0 };
    plain_set_up(bytes, length, rom, PLAIN_ROM_WORDS, data, PLAIN_DATA_WORDS,
                 input, contents.input_count);

    struct plain_machine m;
    uint32_t steps;
    struct plain_external external; /* the line does not tell it */
    plain_reset(&m);
    answer = plain_run(&m, rom, PLAIN_ROM_WORDS, data, PLAIN_DATA_WORDS,
                       input, contents.input_count, output, PLAIN_PORT_WORDS,
                       contents.budget, &steps, &external);

    int at = snprintf(line, PLAIN_LINE_ROOM, "%d %u %04X %08X %u", answer,
                      (unsigned)steps, (unsigned)m.pc, (unsigned)m.acc,
                      (unsigned)m.ov);
    for (uint32_t i = 0; i < m.output_cursor; i++)
        at += snprintf(line + at, PLAIN_LINE_ROOM - (size_t)at, " %04X",
                       (unsigned)output[i]);
    snprintf(line + at, PLAIN_LINE_ROOM - (size_t)at, "\n");
}

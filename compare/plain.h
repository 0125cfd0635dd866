/*
 * A plain interpreter of the camera board's TMS320C25, written from the
 * documents alone. It is the second opinion on the proved emulator.
 *
 * "D01" is the scope paper, "D02" the change requests, "G n" line n of the
 * guide's text (document 003), "Rn" or "Xn" a ruling on an open point.
 */
#ifndef PLAIN_H
#define PLAIN_H

#include <stddef.h>
#include <stdint.h>

/* The board and the files (D01). */
enum {
    PLAIN_ROM_WORDS = 4096,
    PLAIN_DATA_WORDS = 4096,
    PLAIN_PORT_WORDS = 1024,
    PLAIN_STACK_WORDS = 8,
    PLAIN_FILE_HEADER = 16,
    PLAIN_FILE_PROGRAM = 4096,
    PLAIN_FILE_DATA = 3072,
    PLAIN_FILE_INPUT = 1024,
    PLAIN_FILE_LONGEST = PLAIN_FILE_HEADER
        + 2 * (PLAIN_FILE_PROGRAM + PLAIN_FILE_DATA + PLAIN_FILE_INPUT),
    /* Answer, steps, PC, ACC, OV, 1,024 words, newline and the closing zero. */
    PLAIN_LINE_ROOM = 64 + 5 * PLAIN_PORT_WORDS
};

/* Numbers that come back (D01). D02 adds 11 (request 2), retires 8 (10). */
enum {
    PLAIN_DONE = 0,
    PLAIN_CELL_OUT_OF_RANGE = 1,
    PLAIN_SLICE_WRONG = 2,
    PLAIN_NO_ENCODING = 3,
    PLAIN_NOT_IN_BASE = 4,
    PLAIN_PROGRAM_ABSENT = 5,
    PLAIN_DATA_ABSENT = 6,
    PLAIN_NOT_REPEATABLE = 7,
    PLAIN_WRONG_PORT = 9,
    PLAIN_OUTPUT_FULL = 10,
    PLAIN_INPUT_DRY = 11,
    PLAIN_FILE_SHORT = 20,
    PLAIN_FILE_VERSION = 21,
    PLAIN_FILE_RULES = 22,
    PLAIN_FILE_NO_ROOM = 23
};

/*
 * The cells of the machine (D01), 34 numbers of 32 bits and nothing else, so
 * that a value outside a cell's range can be given. stack[0] is the top.
 */
struct plain_machine {
    uint32_t acc;
    uint32_t p;
    uint32_t t;
    uint32_t pc;
    uint32_t pfc;
    uint32_t ar[8];
    uint32_t arp;
    uint32_t arb;
    uint32_t dp;
    uint32_t pm;
    uint32_t ov;
    uint32_t ovm;
    uint32_t sxm;
    uint32_t c;
    uint32_t cnf;
    uint32_t mid;
    uint32_t rptc;
    uint32_t stack[PLAIN_STACK_WORDS];
    uint32_t input_cursor;
    uint32_t output_cursor;
};

enum { PLAIN_CELLS = 34 };
_Static_assert(sizeof(struct plain_machine) == PLAIN_CELLS * sizeof(uint32_t),
               "the machine is 34 cells");

/* Reset (G 1148; D01, "The cells of the machine"). */
void plain_reset(struct plain_machine *machine);

/* The data words read from and written to external RAM (D02, request 7). */
struct plain_external {
    uint32_t reads;
    uint32_t writes;
};

/*
 * One pass. Gives 0, or the number of a refusal that changed nothing;
 * *external is what the pass counts, nothing where it is refused.
 */
int plain_step(struct plain_machine *machine,
               const uint16_t *rom, size_t rom_len,
               uint16_t *data, size_t data_len,
               const uint16_t *input, size_t input_len,
               uint16_t *output, size_t output_len,
               struct plain_external *external);

/*
 * At most `budget` steps; *steps is the count of the steps done, *external
 * the totals over them.
 */
int plain_run(struct plain_machine *machine,
              const uint16_t *rom, size_t rom_len,
              uint16_t *data, size_t data_len,
              const uint16_t *input, size_t input_len,
              uint16_t *output, size_t output_len,
              uint16_t budget, uint32_t *steps,
              struct plain_external *external);

/* The fetch window at a program address: 0, 1, 2 or 5; empty when refused. */
int plain_window(const struct plain_machine *machine,
                 const uint16_t *rom, size_t rom_len,
                 const uint16_t *data, size_t data_len,
                 uint16_t address, const uint16_t **words, size_t *count);

/* The words sent so far: 0, 1 or 2; empty when refused. */
int plain_words_sent(const struct plain_machine *machine,
                     const uint16_t *output, size_t output_len,
                     const uint16_t **words, size_t *count);

/* A word alone: 0 for a built instruction, else 3 or 4. */
int plain_decode(uint16_t word);

/* The name of a word's page, or "" for a word in no encoding. */
const char *plain_name(uint16_t word);

/* How many words an instruction has, 0 for a word in no encoding. */
unsigned plain_words(uint16_t word);

/* Whether the low byte is an address field, direct or indirect. */
int plain_has_address(uint16_t word);

/* How many encodings a word is in: 0 or 1 if the table is right. */
int plain_matches(uint16_t word);

/* A file's contents: its three word lists and the budget (D01). */
struct plain_contents {
    size_t program_count;
    size_t data_count;
    size_t input_count;
    uint16_t budget;
    uint16_t program[PLAIN_FILE_PROGRAM];
    uint16_t data[PLAIN_FILE_DATA];
    uint16_t input[PLAIN_FILE_INPUT];
};

/* Reads a run file: 0, 20, 21 or 22. A refused file has no contents. */
int plain_read(const uint8_t *bytes, size_t length,
               struct plain_contents *contents);

/* Fills the lent memories from a run file: 0, 20, 21, 22 or 2. */
int plain_set_up(const uint8_t *bytes, size_t length,
                 uint16_t *rom, size_t rom_len,
                 uint16_t *data, size_t data_len,
                 uint16_t *input, size_t input_len);

/* Writes a run file: 0, 22 or 23; *length is the count of bytes written. */
int plain_write(const uint16_t *program, size_t program_count,
                const uint16_t *data, size_t data_count,
                const uint16_t *input, size_t input_count,
                uint16_t budget,
                uint8_t *bytes, size_t room, size_t *length);

/* The one line of `replay` for a run file, its newline included. */
void plain_replay(const uint8_t *bytes, size_t length,
                  char line[PLAIN_LINE_ROOM]);

#endif

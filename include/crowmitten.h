/*
 * Crowmitten: the TMS320C25 on the camera's board, for programs in C.
 *
 * The library keeps nothing between calls: the machine is the caller's own
 * numbers, its 34 cells, two memories and two ports. A slice is a pointer and
 * its length in elements; where the length is 0 the pointer may be NULL. No two
 * slices or numbers that are lent to one call overlap unless both are const.
 *
 * Every function returns an answer of the table below. A refusal changes no
 * cell, no memory and no port, and the numbers that it hands out are 0; only
 * results of a wrong length are left as they are. Only a run keeps, and counts,
 * the steps that were done before the refused one.
 */
#ifndef CROWMITTEN_H
#define CROWMITTEN_H

#include <stddef.h>
#include <stdint.h>

#ifdef __cplusplus
extern "C" {
#endif

enum crowmitten_answer {
    CROWMITTEN_DONE = 0,
    CROWMITTEN_CELL_OUT_OF_RANGE = 1, /* a cell is outside its range */
    CROWMITTEN_SLICES_UNFIT = 2,      /* a slice is not of its size, or a cursor is past its slice */
    CROWMITTEN_NO_ENCODING = 3,       /* the word at PC is in no encoding */
    CROWMITTEN_NOT_BUILT = 4,         /* a published instruction that is not built */
    CROWMITTEN_PROGRAM_ABSENT = 5,    /* no such program address on the board */
    CROWMITTEN_DATA_ABSENT = 6,       /* no such data address on the board */
    CROWMITTEN_NOT_REPEATABLE = 7,    /* RPTC above 0, and the instruction cannot be repeated */
    /* 8 is retired: it is not given, and no other answer gets the number. */
    CROWMITTEN_WRONG_PORT = 9,        /* IN from a port other than 0, OUT to one other than 1 */
    CROWMITTEN_OUTPUT_FULL = 10,      /* OUT with the output slice full */
    CROWMITTEN_INPUT_DRY = 11,        /* IN with no word left in the input slice */
    CROWMITTEN_FILE_SHORT = 20,       /* a run file of fewer than 16 bytes */
    CROWMITTEN_FILE_VERSION = 21,     /* its version is not 1 */
    CROWMITTEN_FILE_RULES = 22,       /* its counts, offsets or length are against the rules */
    CROWMITTEN_FILE_NO_ROOM = 23      /* the file does not fit the lent bytes */
};

/* The earlier name of CROWMITTEN_NOT_BUILT. */
#define CROWMITTEN_NOT_IN_BASE CROWMITTEN_NOT_BUILT

/* The cells: one number each, in this order. */
enum crowmitten_cell {
    CROWMITTEN_ACC = 0,    /* 32 bits */
    CROWMITTEN_P = 1,      /* 32 bits */
    CROWMITTEN_T = 2,      /* 16 bits */
    CROWMITTEN_PC = 3,     /* 16 bits */
    CROWMITTEN_PFC = 4,    /* 16 bits */
    CROWMITTEN_AR0 = 5,    /* AR0 to AR7 are 5 to 12; 16 bits each */
    CROWMITTEN_ARP = 13,   /* 0 to 7 */
    CROWMITTEN_ARB = 14,   /* 0 to 7 */
    CROWMITTEN_DP = 15,    /* 0 to 511 */
    CROWMITTEN_PM = 16,    /* 0 to 3 */
    CROWMITTEN_OV = 17,    /* 0 or 1, like the five after it */
    CROWMITTEN_OVM = 18,
    CROWMITTEN_SXM = 19,
    CROWMITTEN_C = 20,
    CROWMITTEN_CNF = 21,
    CROWMITTEN_MID = 22,   /* 1: the current instruction has had a pass already */
    CROWMITTEN_RPTC = 23,  /* 0 to 255 */
    CROWMITTEN_STACK = 24, /* the eight words are 24 to 31, the top first; 16 bits each */
    CROWMITTEN_INPUT_CURSOR = 32,  /* 0 to 1,024: words taken from input */
    CROWMITTEN_OUTPUT_CURSOR = 33, /* 0 to 1,024: words sent to output */
    CROWMITTEN_CELLS = 34
};

enum {
    CROWMITTEN_MEMORY_WORDS = 4096,    /* of rom, and of data */
    CROWMITTEN_PORT_WORDS_MAX = 1024,  /* of input, and of output */
    CROWMITTEN_FILE_BYTES_MAX = 16400  /* of a run file */
};

/*
 * A call that takes cells returns 2 if cells_length is not 34, then, except for
 * reset, 1 if a number is outside its cell's range, then what stands beside the
 * function. crowmitten_run_with looks at the length of its results before.
 */

/* The cells after reset, whatever they held: 0, or 2. */
uint32_t crowmitten_reset(uint32_t *cells, size_t cells_length);

/* One pass of the instruction at PC: 0 to 7, or 9 to 11. */
uint32_t crowmitten_step(uint32_t *cells, size_t cells_length,
                         const uint16_t *rom, size_t rom_length,
                         uint16_t *data, size_t data_length,
                         const uint16_t *input, size_t input_length,
                         uint16_t *output, size_t output_length);

/*
 * At most budget steps, up to the first that is refused: 0 to 7, or 9 to 11.
 * *steps: the steps done, the refused one not counted. After 11, a call with
 * more words behind those of input (at most 1,024 together), budget - *steps,
 * and all else as this call left it goes on: both calls together do what one
 * call with all the words does.
 */
uint32_t crowmitten_run(uint32_t *cells, size_t cells_length,
                        const uint16_t *rom, size_t rom_length,
                        uint16_t *data, size_t data_length,
                        const uint16_t *input, size_t input_length,
                        uint16_t *output, size_t output_length,
                        uint16_t budget, uint32_t *steps);

/* What a run hands out: one number each, in this order. */
enum crowmitten_result {
    CROWMITTEN_STEPS = 0,  /* the steps done, the refused one not counted */
    CROWMITTEN_READS = 1,  /* their data reads from external RAM, 0400h to 0FFFh */
    CROWMITTEN_WRITES = 2, /* their data writes to it */
    CROWMITTEN_RESULTS = 3
};

/*
 * A run, with all that it hands out, each number at its place in results. 2 if
 * results_length is not CROWMITTEN_RESULTS, before anything else: results is
 * then left as it is. Otherwise the answer of crowmitten_run, and results is
 * always written: all 0 if the cells or the slices are refused, else the
 * numbers of the steps done. Fetches, table words of MAC and MACD, and ports
 * are not counted; a data move writes nothing outside. After 11, go on as after
 * crowmitten_run: the numbers of both calls add. With budget 1 this is
 * crowmitten_step, with the step's own counts.
 */
uint32_t crowmitten_run_with(uint32_t *cells, size_t cells_length,
                             const uint16_t *rom, size_t rom_length,
                             uint16_t *data, size_t data_length,
                             const uint16_t *input, size_t input_length,
                             uint16_t *output, size_t output_length,
                             uint16_t budget,
                             uint32_t *results, size_t results_length);

/* The words sent are the first *count words of output: 0, 1 or 2. */
uint32_t crowmitten_words_sent(const uint32_t *cells, size_t cells_length,
                               const uint16_t *output, size_t output_length,
                               size_t *count);

/*
 * The fetch window, the program words from address to the end of its region,
 * is the *count words from *from on in rom (*memory 1) or in data (*memory 2):
 * 0, 1, 2 or 5. If refused, *memory is 0.
 */
uint32_t crowmitten_window(const uint32_t *cells, size_t cells_length,
                           const uint16_t *rom, size_t rom_length,
                           const uint16_t *data, size_t data_length,
                           uint16_t address,
                           uint32_t *memory, size_t *from, size_t *count);

/* How many input words a run file has, and its budget: 0, 20, 21 or 22. */
uint32_t crowmitten_read(const uint8_t *bytes, size_t bytes_length,
                         size_t *input_count, uint16_t *budget);

/*
 * Every word of both memories and of input from a run file: 0, 20, 21, 22, or
 * 2 if a memory is not of 4,096 words or input_length is not the file's count.
 */
uint32_t crowmitten_set_up(const uint8_t *bytes, size_t bytes_length,
                           uint16_t *rom, size_t rom_length,
                           uint16_t *data, size_t data_length,
                           uint16_t *input, size_t input_length);

/*
 * A run file, written to the first *count of bytes: 0, 22 or 23. At most 4,096
 * program words, 3,072 data words (for addresses 0400h on) and 1,024 input
 * words.
 */
uint32_t crowmitten_write(const uint16_t *program, size_t program_length,
                          const uint16_t *data, size_t data_length,
                          const uint16_t *input, size_t input_length,
                          uint16_t budget,
                          uint8_t *bytes, size_t bytes_length, size_t *count);

#ifdef __cplusplus
}
#endif

#endif

/*
 * A world lent to both emulators: what they only read once, what they may
 * change three times. "plain" is this folder's interpreter, "proved" the
 * library, "counted" the library again, by crowmitten_run_with.
 */
#ifndef WORLD_H
#define WORLD_H

#include "draw.h"
#include "plain.h"

/* Some room behind every slice, so that a store past its end shows. */
enum {
    CELL_ROOM = 40,
    MEMORY_ROOM = 4096 + 64,
    PORT_ROOM = 1024 + 64,
    RESULT_ROOM = 8,
    WIDE_ROOM = 65536 + 4096, /* a length whose low 16 bits are right */
    WIDE_RESULTS = 65536 + 3  /* and one for the results */
};

struct side {
    union {
        struct plain_machine machine;
        uint32_t cells[CELL_ROOM];
    };
    uint16_t data[MEMORY_ROOM];
    uint16_t output[PORT_ROOM];
};

struct world {
    uint16_t rom[MEMORY_ROOM];
    uint16_t input[PORT_ROOM];
    size_t cells_length;
    size_t rom_length;
    size_t data_length;
    size_t input_length;
    size_t output_length;
    struct side plain;
    struct side proved;
    struct side counted;
};

/* What a step or a run hands out. */
struct outcome {
    uint32_t answer;
    uint32_t steps;  /* done: of a step 0 or 1 */
    uint32_t reads;  /* from external RAM (D02, request 7) */
    uint32_t writes; /* to it */
    uint32_t past;   /* how many numbers behind the results were changed */
};

/* The same step or run on every side. The proved one has no counts. */
struct outcomes {
    struct outcome plain;
    struct outcome proved;
    struct outcome counted;
};

/* One step or one run of one side. Cells that are not 34 are answer 2. */
struct outcome step_plain(struct world *w);
struct outcome step_proved(struct world *w);
struct outcome run_plain(struct world *w, uint16_t budget);
struct outcome run_proved(struct world *w, uint16_t budget);
struct outcome run_counted(struct world *w, uint16_t budget);

/* One step or one run of each side; the counted one's step is budget 1. */
struct outcomes step_all(struct world *w);
struct outcomes run_all(struct world *w, uint16_t budget);

/*
 * A run on the counted side, lent results of a wrong length. Whether it is
 * refused with 2 and the side is as the plain one, the results as they were.
 */
bool results_refused(struct world *w, uint16_t budget, size_t length);

/* The slice that is lent: the own words, or a wide one if they are too few. */
const uint16_t *lent_rom(const struct world *w);
uint16_t *lent_data(const struct world *w, struct side *side);

/* Whether a step has such an answer: 0 to 11 without 8, which is retired. */
bool is_step_answer(uint32_t answer);

/* The same answer, one that a step has, the same steps and counts. */
bool outcomes_same(const struct outcomes *out);

/* The plain and the proved side alone. */
bool sides_same(const struct world *w);

/* All three sides, and what they handed out. */
bool all_same(const struct world *w, const struct outcomes *out);

/* The other two sides take what the plain side has: all of it, or the cells. */
void sides_level(struct world *w);
void cells_level(struct world *w);

/* Whether the wide slices, which nobody may change, are as they were. */
bool wide_untouched(void);

/* The word of program memory at an address, on every side. */
void put_program(struct world *w, uint32_t address, uint16_t word);
uint32_t program_word(const struct world *w, uint32_t address);

/* A data word on every side. */
void put_data(struct world *w, uint32_t address, uint16_t word);

/* Cells in their ranges, on the plain side. */
void draw_cells(struct draw *d, struct plain_machine *m);

/* Right lengths, and cursors that go with them. */
void draw_slices(struct draw *d, struct world *w);

/* Puts a cell out of its range or a length against the rules. */
void spoil(struct draw *d, struct world *w);

#endif

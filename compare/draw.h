/*
 * Drawing by chance, the same on every machine: splitmix64. Every case has a
 * sequence of its own, so that a case depends on the seed and its number only.
 */
#ifndef DRAW_H
#define DRAW_H

#include <stdbool.h>
#include <stddef.h>
#include <stdint.h>

struct draw {
    uint64_t state;
};

/* The sequence of one case. `kind` keeps the kinds of cases apart. */
struct draw draw_case(uint64_t seed, uint64_t kind, uint64_t number);

uint64_t draw_bits(struct draw *d);

/* 0 to limit - 1. */
uint32_t draw_below(struct draw *d, uint32_t limit);

bool draw_percent(struct draw *d, uint32_t percent);

/* One of a list. */
uint32_t draw_of(struct draw *d, const uint32_t *list, size_t count);
#define DRAW_OF(d, list) draw_of((d), (list), sizeof (list) / sizeof (list)[0])

/* 16 and 32 bits with the edges favoured. */
uint16_t draw_word(struct draw *d);
uint32_t draw_long(struct draw *d);

/* Even bits for a whole memory. */
void draw_fill(struct draw *d, uint16_t *words, size_t count);

/* The borders of the board's blocks, on either side. */
uint32_t draw_border(struct draw *d);

/* A data address, most often one that the board has with this CNF. */
uint32_t draw_data_address(struct draw *d, uint32_t cnf);

/* A program address, most often one that the board has with this CNF. */
uint32_t draw_program_address(struct draw *d, uint32_t cnf);

/* Whether the board has the address (D01, "The camera board"). */
bool data_on_board(uint32_t cnf, uint32_t address);
bool program_on_board(uint32_t cnf, uint32_t address);

#endif

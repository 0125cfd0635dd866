/* The 65,536 words sorted by page, and the modes of the address field. */
#ifndef WORDS_H
#define WORDS_H

#include "draw.h"

enum {
    BUILT_PAGES = 75, /* D01, "Instructions of the base" */
    MODES = 15       /* direct; seven modifications, next ARP or none */
};

/* Sorts the words. False where not 75 pages are built. */
bool words_sort(void);

const char *page_name(int page);

/* The page of a word that is built, else -1. */
int page_of(uint16_t word);

/* The mode of a word with an address field, else -1. */
int mode_of(uint16_t word);

const char *mode_name(int mode);

/* Whether some word of the page has the mode. */
bool page_has_mode(int page, int mode);

/* A built word, all pages alike; ports mostly the right ones. */
uint16_t draw_built_word(struct draw *d);

/* A word in no encoding, or published and not built. */
uint16_t draw_other_word(struct draw *d);

#endif

#include "words.h"

#include "plain.h"

#include <string.h>

enum { WORDS = 65536 };

static const char *names[BUILT_PAGES];
static int pages;
static int8_t page_at[WORDS];
static int8_t mode_at[WORDS];
static bool has_mode[BUILT_PAGES][MODES];

/* The words page after page; a page's stand from first[page] on. */
static uint16_t built_words[WORDS];
static uint32_t first[BUILT_PAGES + 1];
static uint16_t other_words[2][WORDS]; /* answers 3 and 4 */
static uint32_t other_count[2];

/* Bit 7, then bits 6 to 4 without the reserved 011, then bit 3. */
static int find_mode(uint16_t word)
{
    static const int8_t place[8] = { 0, 1, 2, -1, 3, 4, 5, 6 };
    if (!plain_has_address(word))
        return -1;
    if ((word & 0x80) == 0)
        return 0;
    return 1 + 2 * place[(word >> 4) & 7] + ((word >> 3) & 1);
}

/* The page's number, a new one at its first word; -1 for a page too many. */
static int find_page(const char *name)
{
    for (int i = 0; i < pages; i++)
        if (strcmp(names[i], name) == 0)
            return i;
    if (pages == BUILT_PAGES)
        return -1;
    names[pages] = name;
    return pages++;
}

static bool sort_word(uint16_t word)
{
    int answer = plain_decode(word);
    page_at[word] = -1;
    mode_at[word] = -1;
    if (answer != PLAIN_DONE) {
        int list = answer == PLAIN_NOT_IN_BASE;
        other_words[list][other_count[list]++] = word;
        return true;
    }
    int page = find_page(plain_name(word));
    if (page < 0)
        return false;
    page_at[word] = (int8_t)page;
    mode_at[word] = (int8_t)find_mode(word);
    if (mode_at[word] >= 0)
        has_mode[page][mode_at[word]] = true;
    return true;
}

bool words_sort(void)
{
    bool good = true;
    for (uint32_t word = 0; word < WORDS; word++)
        good = sort_word((uint16_t)word) && good;
    uint32_t count = 0;
    for (int page = 0; page < pages; page++) {
        first[page] = count;
        for (uint32_t word = 0; word < WORDS; word++)
            if (page_at[word] == page)
                built_words[count++] = (uint16_t)word;
    }
    first[pages] = count;
    return good && pages == BUILT_PAGES;
}

const char *page_name(int page)
{
    return names[page];
}

int page_of(uint16_t word)
{
    return page_at[word];
}

int mode_of(uint16_t word)
{
    return mode_at[word];
}

const char *mode_name(int mode)
{
    static const char *const mode_names[MODES] = {
        "direct", "*", "*,next", "*-", "*-,next", "*+", "*+,next",
        "*BR0-", "*BR0-,next", "*0-", "*0-,next", "*0+", "*0+,next",
        "*BR0+", "*BR0+,next",
    };
    return mode_names[mode];
}

bool page_has_mode(int page, int mode)
{
    return has_mode[page][mode];
}

uint16_t draw_built_word(struct draw *d)
{
    uint32_t page = draw_below(d, BUILT_PAGES);
    uint32_t count = first[page + 1] - first[page];
    uint16_t word = built_words[first[page] + draw_below(d, count)];
    if (draw_percent(d, 8))
        return word;
    if ((word & 0xF000) == 0x8000) /* IN, port 0 */
        return word & 0xF0FF;
    if ((word & 0xF000) == 0xE000) /* OUT, port 1 */
        return (word & 0xF0FF) | 0x0100;
    return word;
}

uint16_t draw_other_word(struct draw *d)
{
    int list = (int)draw_below(d, 2);
    return other_words[list][draw_below(d, other_count[list])];
}

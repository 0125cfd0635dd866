#include "draw.h"

uint64_t draw_bits(struct draw *d)
{
    uint64_t z = d->state += 0x9E3779B97F4A7C15u;
    z = (z ^ (z >> 30)) * 0xBF58476D1CE4E5B9u;
    z = (z ^ (z >> 27)) * 0x94D049BB133111EBu;
    return z ^ (z >> 31);
}

struct draw draw_case(uint64_t seed, uint64_t kind, uint64_t number)
{
    struct draw d = { seed };
    d.state = draw_bits(&d) ^ kind;
    d.state = draw_bits(&d) ^ number;
    d.state = draw_bits(&d);
    return d;
}

uint32_t draw_below(struct draw *d, uint32_t limit)
{
    return (uint32_t)(((draw_bits(d) >> 32) * limit) >> 32);
}

bool draw_percent(struct draw *d, uint32_t percent)
{
    return draw_below(d, 100) < percent;
}

uint32_t draw_of(struct draw *d, const uint32_t *list, size_t count)
{
    return list[draw_below(d, (uint32_t)count)];
}

uint16_t draw_word(struct draw *d)
{
    static const uint32_t edges[] = {
        0, 1, 2, 0x00FF, 0x0100, 0x7FFE, 0x7FFF, 0x8000, 0x8001, 0xFFFE, 0xFFFF,
    };
    uint32_t how = draw_below(d, 10);
    if (how < 5)
        return (uint16_t)DRAW_OF(d, edges);
    if (how < 6)
        return (uint16_t)(1u << draw_below(d, 16));
    if (how < 7)
        return (uint16_t)draw_below(d, 256);
    return (uint16_t)draw_bits(d);
}

uint32_t draw_long(struct draw *d)
{
    static const uint32_t edges[] = {
        0, 1, 2, 0x7FFF, 0x8000, 0xFFFF, 0x10000, 0x3FFFFFFF, 0x40000000,
        0x7FFF0000, 0x7FFF8000, 0x7FFFFFFE, 0x7FFFFFFF, 0x80000000, 0x80000001,
        0x80008000, 0xC0000000, 0xFFFF0000, 0xFFFF8000, 0xFFFFFFFE, 0xFFFFFFFF,
    };
    uint32_t how = draw_below(d, 10);
    if (how < 4)
        return DRAW_OF(d, edges);
    if (how < 6)
        return DRAW_OF(d, edges) + draw_word(d) - draw_word(d);
    if (how < 8)
        return (uint32_t)draw_word(d) << 16 | draw_word(d);
    return (uint32_t)(draw_bits(d) >> draw_below(d, 48));
}

void draw_fill(struct draw *d, uint16_t *words, size_t count)
{
    for (size_t i = 0; i < count; i += 4) {
        uint64_t bits = draw_bits(d);
        for (size_t j = i; j < i + 4 && j < count; j++) {
            words[j] = (uint16_t)bits;
            bits >>= 16;
        }
    }
}

uint32_t draw_border(struct draw *d)
{
    static const uint32_t borders[] = {
        0x0000, 0x0005, 0x0006, 0x005F, 0x0060, 0x007F, 0x0080, 0x01FF, 0x0200,
        0x02FF, 0x0300, 0x03FF, 0x0400, 0x0FFE, 0x0FFF, 0x1000, 0xFEFF, 0xFF00,
        0xFFFE, 0xFFFF,
    };
    return DRAW_OF(d, borders);
}

/* From first to last, the two ends favoured. */
static uint32_t draw_between(struct draw *d, uint32_t first, uint32_t last)
{
    switch (draw_below(d, 8)) {
    case 0:
        return first;
    case 1:
        return last;
    case 2:
        return last - 1;
    default:
        return first + draw_below(d, last - first + 1);
    }
}

uint32_t draw_data_address(struct draw *d, uint32_t cnf)
{
    uint32_t how = draw_below(d, 100);
    if (how < 5)
        return draw_border(d);
    if (how < 8)
        return draw_word(d);
    switch (draw_below(d, 4)) {
    case 0:
        return draw_between(d, 0x60, 0x7F);
    case 1:
        return cnf == 0 ? draw_between(d, 0x200, 0x2FF)
                        : draw_between(d, 0x300, 0x3FF);
    case 2:
        return draw_between(d, 0x300, 0x3FF);
    default:
        return draw_between(d, 0x400, 0xFFF);
    }
}

uint32_t draw_program_address(struct draw *d, uint32_t cnf)
{
    uint32_t how = draw_below(d, 100);
    if (how < 4)
        return draw_border(d);
    if (how < 6)
        return draw_word(d);
    if (cnf == 1 && draw_percent(d, 50))
        return draw_between(d, 0xFF00, 0xFFFF);
    return draw_between(d, 0, 0xFFF);
}

bool data_on_board(uint32_t cnf, uint32_t address)
{
    if (address >= 0x200 && address <= 0x2FF)
        return cnf == 0;
    return (address >= 0x60 && address <= 0x7F)
        || (address >= 0x300 && address <= 0xFFF);
}

bool program_on_board(uint32_t cnf, uint32_t address)
{
    return address <= 0xFFF || (cnf == 1 && address >= 0xFF00);
}

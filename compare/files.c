/* Run files: read, set up, written; good ones and damaged ones. */
#include "cases.h"
#include "report.h"

#include "crowmitten.h"

#include <inttypes.h>
#include <stdio.h>
#include <string.h>

/* Counts one over the rules still fit, and a lengthened file too. */
enum { ANSWERS = 24, FILE_ROOM = PLAIN_FILE_LONGEST + 128, FIELDS = 8 };

/* What one side sets up and writes, with room behind. */
struct memories {
    uint16_t rom[MEMORY_ROOM];
    uint16_t data[MEMORY_ROOM];
    uint16_t input[PORT_ROOM];
    uint8_t bytes[FILE_ROOM];
};

static uint64_t reads[ANSWERS];
static uint64_t set_ups[ANSWERS];
static uint64_t writes[ANSWERS];
static uint64_t written_back;

static uint8_t file[FILE_ROOM];
static size_t file_length;
static struct plain_contents contents;
static struct memories plain;
static struct memories proved;

/* ---- Making a file ------------------------------------------------------ */

static unsigned field_at(int field)
{
    return file[2 * field] | (unsigned)file[2 * field + 1] << 8;
}

static void put_field(int field, size_t number)
{
    file[2 * field] = (uint8_t)number;
    file[2 * field + 1] = (uint8_t)(number >> 8);
}

/* 0, 1, the most, one over rarely, else few words and seldom many. */
static size_t draw_count(struct draw *d, uint32_t most)
{
    uint32_t how = draw_below(d, 100);
    if (how < 12)
        return how / 6;
    if (how < 20)
        return how < 18 ? most : most - 1;
    if (how < 22)
        return most + 1;
    return draw_below(d, how < 85 ? 48 : most);
}

/* Laid out by the rules, a count over its limit excepted (D01). */
static void draw_file(struct draw *d)
{
    bool bare = draw_percent(d, 3); /* no words at all: 16 bytes */
    size_t program = bare ? 0 : draw_count(d, PLAIN_FILE_PROGRAM);
    size_t data = bare ? 0 : draw_count(d, PLAIN_FILE_DATA);
    size_t input = bare ? 0 : draw_count(d, PLAIN_FILE_INPUT);
    put_field(0, 1);
    put_field(1, program);
    put_field(2, 16);
    put_field(3, data);
    put_field(4, 16 + 2 * program);
    put_field(5, input);
    put_field(6, 16 + 2 * program + 2 * data);
    put_field(7, draw_word(d));
    file_length = 16 + 2 * (program + data + input);
    for (size_t i = 16; i < FILE_ROOM; i += 8) {
        uint64_t bits = draw_bits(d);
        memcpy(file + i, &bits, 8);
    }
}

/* A section moved by a gap that the later offsets follow. */
static void put_gap(int field)
{
    for (; field <= 6; field += 2)
        put_field(field, field_at(field) + 2u);
    file_length += 2;
}

static void damage(struct draw *d)
{
    int field = (int)draw_below(d, FIELDS);
    int count = 1 + 2 * (int)draw_below(d, 3);
    switch (draw_below(d, 10)) {
    case 0:
        put_field(field, field_at(field) + 1u);
        break;
    case 1:
        put_field(field, field_at(field) - 1u);
        break;
    case 2:
        put_field(field, draw_word(d));
        break;
    case 3:
        file[draw_below(d, 16)] ^= (uint8_t)(1u << draw_below(d, 8));
        break;
    case 4: /* twice the count has the same 16 bits */
        put_field(count, field_at(count) ^ 0x8000u);
        break;
    case 5:
        put_gap(2 * (1 + (int)draw_below(d, 3)));
        break;
    case 6:
        put_field(field, field_at((int)draw_below(d, FIELDS)));
        break;
    case 7:
        file_length -= 1 + draw_below(d, 2);
        break;
    case 8:
        file_length += 1 + draw_below(d, 8);
        break;
    default: /* the head itself is cut, or just whole */
        file_length = draw_below(d, 2) ? 14 + draw_below(d, 4)
                                       : draw_below(d, 64);
        break;
    }
}

/* ---- Reading and setting up --------------------------------------------- */

static uint32_t compare_read(uint64_t seed, uint64_t number)
{
    size_t input_count = 777;
    uint16_t budget = 77;
    uint32_t want = (uint32_t)plain_read(file, file_length, &contents);
    uint32_t got = crowmitten_read(file, file_length, &input_count, &budget);
    reads[want]++;
    if (want == got && input_count == contents.input_count
        && budget == contents.budget)
        return want;
    if (report_difference("file read", seed, number)) {
        printf("  plain's answer %" PRIu32 ", length %zu\n", want, file_length);
        report_number("answer", want, got);
        report_number("input count", contents.input_count, input_count);
        report_number("budget", contents.budget, budget);
    }
    return want;
}

/* The same noise on both sides. */
static void draw_noise(struct draw *d)
{
    draw_fill(d, plain.rom, MEMORY_ROOM);
    draw_fill(d, plain.data, MEMORY_ROOM);
    draw_fill(d, plain.input, PORT_ROOM);
    memset(plain.bytes, (int)draw_below(d, 256), sizeof plain.bytes);
    proved = plain;
}

static void report_memories(void)
{
    report_words("rom", plain.rom, proved.rom, MEMORY_ROOM);
    report_words("data", plain.data, proved.data, MEMORY_ROOM);
    report_words("input", plain.input, proved.input, PORT_ROOM);
    for (size_t i = 0, found = 0; i < FILE_ROOM && found < 4; i++)
        if (plain.bytes[i] != proved.bytes[i] && ++found)
            printf("  byte %zu: plain %02X, proved %02X\n", i, plain.bytes[i],
                   proved.bytes[i]);
}

static bool memories_same(void)
{
    return memcmp(&plain, &proved, sizeof plain) == 0;
}

/* Lengths of the three lent memories, one of them sometimes wrong. */
static void draw_lengths(struct draw *d, size_t lengths[3])
{
    static const uint32_t wrong[] = { 0, 4095, 4097, MEMORY_ROOM };
    uint32_t how = draw_below(d, 100);
    lengths[0] = PLAIN_ROM_WORDS;
    lengths[1] = PLAIN_DATA_WORDS;
    lengths[2] = file_length < 16 ? 0 : field_at(5);
    if (lengths[2] > PORT_ROOM)
        lengths[2] = PORT_ROOM;
    if (how < 8)
        lengths[how & 1] = DRAW_OF(d, wrong);
    else if (how < 12 && lengths[2] < PORT_ROOM)
        lengths[2] += 1;
    else if (how < 16 && lengths[2] > 0)
        lengths[2] -= 1;
}

static uint32_t compare_set_up(struct draw *d, uint64_t seed, uint64_t number)
{
    size_t lengths[3];
    draw_lengths(d, lengths);
    uint32_t want = (uint32_t)plain_set_up(file, file_length,
                                           plain.rom, lengths[0],
                                           plain.data, lengths[1],
                                           plain.input, lengths[2]);
    uint32_t got = crowmitten_set_up(file, file_length, proved.rom, lengths[0],
                                     proved.data, lengths[1],
                                     proved.input, lengths[2]);
    set_ups[want]++;
    if (want == got && memories_same())
        return want;
    if (report_difference("file set up", seed, number)) {
        printf("  plain's answer %" PRIu32 ", length %zu, lent %zu %zu %zu\n",
               want, file_length, lengths[0], lengths[1], lengths[2]);
        report_number("answer", want, got);
        report_memories();
    }
    return want;
}

/* ---- Writing ------------------------------------------------------------ */

/* Writes lists on both sides. Gives the plain side's count of bytes. */
static size_t compare_write(uint64_t seed, uint64_t number,
                            const struct memories *from,
                            const size_t counts[3], uint16_t budget,
                            size_t room)
{
    size_t want_count = 0;
    size_t got_count = 777;
    const uint16_t *data = from->data + 0x400;
    uint32_t want = (uint32_t)plain_write(from->rom, counts[0], data, counts[1],
                                          from->input, counts[2], budget,
                                          plain.bytes, room, &want_count);
    uint32_t got = crowmitten_write(from->rom, counts[0], data, counts[1],
                                    from->input, counts[2], budget,
                                    proved.bytes, room, &got_count);
    writes[want]++;
    if (want == got && want_count == got_count && memories_same())
        return want_count;
    if (report_difference("file write", seed, number)) {
        printf("  plain's answer %" PRIu32 ", counts %zu %zu %zu, room %zu\n",
               want, counts[0], counts[1], counts[2], room);
        report_number("answer", want, got);
        report_number("bytes", want_count, got_count);
        report_memories();
    }
    return want_count;
}

/* What was set up from a file is written back to the file's own bytes. */
static void compare_back(uint64_t seed, uint64_t number)
{
    const size_t counts[3] = { contents.program_count, contents.data_count,
                               contents.input_count };
    static struct memories from;
    from = proved;
    written_back++;
    size_t length = compare_write(seed, number, &from, counts, contents.budget,
                                  file_length);
    if (length == file_length && memcmp(proved.bytes, file, length) == 0)
        return;
    if (report_difference("file written back", seed, number))
        report_number("bytes", file_length, length);
}

/* Lists up to one over their limits, room about the file's length. */
static void write_case(struct draw *d, uint64_t seed, uint64_t number)
{
    static const uint32_t rooms[] = { 0, 15, 16, 17, PLAIN_FILE_LONGEST };
    static struct memories from;
    const size_t counts[3] = { draw_count(d, PLAIN_FILE_PROGRAM),
                               draw_count(d, PLAIN_FILE_DATA),
                               draw_count(d, PLAIN_FILE_INPUT) };
    size_t room = 16 + 2 * (counts[0] + counts[1] + counts[2]);
    uint32_t how = draw_below(d, 100);
    if (how < 25)
        room -= 1 + draw_below(d, 2);
    else if (how < 50)
        room += draw_below(d, 16);
    else if (how < 60)
        room = DRAW_OF(d, rooms);
    from = proved;
    compare_write(seed, number, &from, counts, draw_word(d), room);
}

static void file_case(uint64_t seed, uint64_t number)
{
    struct draw d = draw_case(seed, KIND_FILE, number);
    draw_file(&d);
    draw_noise(&d);
    for (uint32_t n = draw_below(&d, 5); n > 2; n--)
        damage(&d);
    compare_read(seed, number);
    if (compare_set_up(&d, seed, number) == PLAIN_DONE)
        compare_back(seed, number);
    proved = plain;
    write_case(&d, seed, number);
}

/* ---- The counts --------------------------------------------------------- */

static void print_counts(const char *what, const uint64_t *counts,
                         const int *answers, int count)
{
    char number[4];
    printf("  %s by answer:", what);
    for (int i = 0; i < count; i++)
        printf(" %d: %" PRIu64 "%s", answers[i], counts[answers[i]],
               i + 1 < count ? "," : "");
    printf("\n");
    for (int i = 0; i < count; i++) {
        snprintf(number, sizeof number, "%d", answers[i]);
        if (counts[answers[i]] == 0)
            report_missing(what, number);
    }
}

void compare_files(uint64_t seed, uint64_t cases)
{
    static const int reading[] = { 0, 20, 21, 22 };
    static const int setting_up[] = { 0, 2, 20, 21, 22 };
    static const int writing[] = { 0, 22, 23 };
    for (uint64_t i = 0; i < cases; i++)
        file_case(seed, i);
    printf("run files: %" PRIu64 ", of them written back %" PRIu64 "\n", cases,
           written_back);
    print_counts("read", reads, reading, 4);
    print_counts("set up", set_ups, setting_up, 5);
    print_counts("written", writes, writing, 3);
}

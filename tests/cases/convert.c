/* A list turned into the other edition: lists in both editions, each made of the other, of every n and up to the greatest length. What is refused is
 * in bad_convert.c, and both lists are played in converted.c. */
#include <string.h>

#include "lines.h"
#include "weights.h"

/* A list in the first edition and in the second. */
struct editions {
    const char *name;
    const uint8_t *first;
    size_t first_length;
    const uint8_t *second;
    size_t second_length;
};

/* Headers alone, one of each n. */
static const struct editions headers[] = {
    {"convert three sites", BYTES(3, 2, 2, 7, 0), BYTES(130, 3, 2, 0, 2, 0, 7, 0, 1, 1, 1)},
    {"convert four sites", BYTES(4, 2, 3, 9, 0), BYTES(130, 4, 2, 0, 3, 0, 9, 0, 1, 1, 1, 1)},
    {"convert five sites", BYTES(5, 4, 2, 16, 0), BYTES(SECOND(5, 4, 2, 16), FOUR(1), 1)},
    {"convert six sites", BYTES(6, 4, 3, 62, 0), BYTES(SECOND(6, 4, 3, 62), FOUR(1), 1, 1)},
    {"convert seven sites", BYTES(7, 2, 6, 64, 0), BYTES(SECOND(7, 2, 6, 64), FOUR(1), 1, 1, 1)},
    {"convert eight sites", BYTES(8, 5, 4, 255, 0), BYTES(SECOND(8, 5, 4, 255), FOUR(1), FOUR(1))},
    {"convert nine sites", BYTES(9, 8, 8, 0, 1), BYTES(SECOND(9, 8, 8, 256), FOUR(1), FOUR(1), 1)},
    {"convert ten sites", BYTES(10, 6, 5, 255, 3), BYTES(SECOND(10, 6, 5, 1023), FOUR(1), FOUR(1), 1, 1)},
    {"convert eleven sites", BYTES(11, 10, 2, 1, 4), BYTES(SECOND(11, 10, 2, 1025), FOUR(1), FOUR(1), 1, 1, 1)},
    {"convert twelve sites", BYTES(12, 2, 11, 0, 8), BYTES(SECOND(12, 2, 11, 2048), FOUR(1), FOUR(1), FOUR(1))},
    {"convert thirteen sites", BYTES(13, 12, 12, 2, 16), BYTES(SECOND(13, 12, 12, 4098), FOUR(1), FOUR(1), FOUR(1), 1)},
    {"convert fourteen sites", BYTES(14, 7, 8, 254, 63), BYTES(SECOND(14, 7, 8, 16382), FOUR(1), FOUR(1), FOUR(1), 1, 1)},
    {"convert fifteen sites", BYTES(15, 14, 3, 1, 64), BYTES(SECOND(15, 14, 3, 16385), FIFTEEN(1))},
    {"convert sixteen sites", BYTES(16, 9, 8, 255, 255), BYTES(130, 16, 9, 0, 8, 0, 255, 255, SIXTEEN(1))},
};

static const struct editions sizes[] = {
    {"4 convert n 4, C 3, A 2", BYTES(4, 3, 2, 15, 0), BYTES(SECOND(4, 3, 2, 15), FOUR(1))},
    {"4 convert n 4, C 3, A 3", BYTES(4, 3, 3, 15, 0), BYTES(SECOND(4, 3, 3, 15), FOUR(1))},
    {"4 convert n 16, C 15, A 15", BYTES(16, 15, 15, 0, 0), BYTES(SECOND(16, 15, 15, 0), SIXTEEN(1))},
    {"4 convert n 16, C 15, A 2", BYTES(16, 15, 2, 0, 0), BYTES(SECOND(16, 15, 2, 0), SIXTEEN(1))},
    {"4 convert n 16, C 2, A 15", BYTES(16, 2, 15, 0, 0), BYTES(SECOND(16, 2, 15, 0), SIXTEEN(1))},
    {"5 convert none willing", BYTES(3, 2, 2, 0, 0), BYTES(SECOND(3, 2, 2, 0), 1, 1, 1)},
    {"5 convert site n - 1 willing", BYTES(3, 2, 2, 4, 0), BYTES(SECOND(3, 2, 2, 4), 1, 1, 1)},
    {"5 convert site 7 of sixteen willing", BYTES(16, 9, 8, 128, 0), BYTES(SECOND(16, 9, 8, 128), SIXTEEN(1))},
    {"5 convert site 8 of sixteen willing", BYTES(16, 9, 8, 0, 1), BYTES(SECOND(16, 9, 8, 256), SIXTEEN(1))},
    {"5 convert site 15 of sixteen willing", BYTES(16, 9, 8, 0, 128), BYTES(SECOND(16, 9, 8, 32768), SIXTEEN(1))},
    {"5 convert willing 52 and 18", BYTES(16, 9, 8, 52, 18), BYTES(130, 16, 9, 0, 8, 0, 52, 18, SIXTEEN(1))},
};

/* Commands are neither touched nor played: the day M3, and bytes at which a play or the writer of lines would stop. */
#define M3 1, 2, 0, 0, 1, 2, 1, 0, 0, 3, 0, 2, 2, 0, 2, 2, 3, 0, 0, 3, 0

static const struct editions commands[] = {
    {"convert M2", BYTES(HEADER, 1), BYTES(ONES, 1)},
    {"convert M3", BYTES(HEADER, M3), BYTES(ONES, M3)},
    {"convert START twice", BYTES(HEADER, 1, 1), BYTES(ONES, 1, 1)},
    {"convert a command byte 0", BYTES(HEADER, 0), BYTES(ONES, 0)},
    {"convert a command byte 6", BYTES(HEADER, 6), BYTES(ONES, 6)},
    {"convert a command byte 255", BYTES(HEADER, 255), BYTES(ONES, 255)},
    {"convert a command byte 130", BYTES(HEADER, 130), BYTES(ONES, 130)},
    {"convert a DELIVER that is cut", BYTES(HEADER, 2, 0), BYTES(ONES, 2, 0)},
    {"convert a TIMEOUT that is cut", BYTES(HEADER, 3), BYTES(ONES, 3)},
    {"convert site 255 and row 65,535", BYTES(HEADER, 4, 255, 2, 255, 255, 255), BYTES(ONES, 4, 255, 2, 255, 255, 255)},
    {"convert a header for commands", BYTES(HEADER, HEADER), BYTES(ONES, HEADER)},
    {"convert a header of the second edition for commands", BYTES(HEADER, ONES), BYTES(ONES, ONES)},
    {"convert ones for commands", BYTES(HEADER, 1, 1, 1, 1), BYTES(ONES, 1, 1, 1, 1)},
    {"convert zeros for commands", BYTES(HEADER, 0, 0, 0, 0, 0, 0, 0), BYTES(ONES, 0, 0, 0, 0, 0, 0, 0)},
    {"convert a weight's worth of 2 for commands", BYTES(HEADER, 2, 2, 2), BYTES(ONES, 2, 2, 2)},
};

/* Each is made of the other, so forth and back gives the first bytes again. */
static void both_editions(const struct editions *one)
{
    accept(qc_convert, one->name, one->first, one->first_length, one->second, one->second_length);
    accept(qc_convert, one->name, one->second, one->second_length, one->first, one->first_length);
}

static void convert_all(const struct editions *table, size_t count)
{
    size_t i;
    for (i = 0; i < count; i++)
        both_editions(&table[i]);
}

static uint8_t first[QC_LIST_BYTES], second[QC_LIST_BYTES];

/* Two headers, and after each so many bytes, every value in turn. */
static void convert_long(const char *name, const struct editions *header, size_t more)
{
    const struct editions lists = {name, first, header->first_length + more, second, header->second_length + more};
    size_t k;
    memcpy(first, header->first, header->first_length);
    memcpy(second, header->second, header->second_length);
    for (k = 0; k < more; k++)
        first[header->first_length + k] = second[header->second_length + k] = (uint8_t)k;
    both_editions(&lists);
}

/* By n: how many bytes of commands make a list of 32,768 bytes in the second edition, where 8 + n are the header's. */
static const struct {
    const char *name;
    unsigned n;
    size_t commands, first_length;
} longest[] = {
    {"1 convert 32,762 bytes of three sites", 3, 32757, 32762},
    {"1 convert 32,761 bytes of four sites", 4, 32756, 32761},
    {"1 convert 32,756 bytes of nine sites", 9, 32751, 32756},
    {"1 convert 32,750 bytes of fifteen sites", 15, 32745, 32750},
    {"1 convert 32,749 bytes of sixteen sites", 16, 32744, 32749},
};

static void convert_longest(void)
{
    size_t i;
    for (i = 0; i < COUNT(longest); i++) {
        const struct editions *header = &headers[longest[i].n - 3];
        convert_long(longest[i].name, header, longest[i].commands);
        expect("length in the first edition", header->first_length + longest[i].commands, longest[i].first_length);
        expect("length in the second edition", header->second_length + longest[i].commands, QC_LIST_BYTES);
    }
}

void convert_cases(void)
{
    convert_all(headers, COUNT(headers));
    convert_all(sizes, COUNT(sizes));
    convert_all(commands, COUNT(commands));
    convert_long("convert every byte as a command", &headers[0], 256);
    convert_longest();
}

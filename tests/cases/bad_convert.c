/* Lists that are not turned into the other edition: 1 to 5, 21 and 22, each also where 20 would come, the order of these, and 17. The place is always
 * 0. */
#include <string.h>

#include "lines.h"
#include "weights.h"

static const struct line_case lengths[] = {
    {"2 one byte to convert", BYTES(3), 2, 0},
    {"2 four bytes to convert", BYTES(3, 2, 2, 7), 2, 0},
    {"2 130 alone to convert", BYTES(130), 2, 0},
    {"2 130 and three bytes to convert", BYTES(130, 3, 2, 0), 2, 0},
    {"2 131 and three bytes to convert", BYTES(131, 3, 2, 0), 2, 0},
    {"2 132 and three bytes to convert", BYTES(132, 3, 2, 0), 2, 0},
    {"2 a header going back, five bytes", BYTES(130, 3, 2, 0, 2), 2, 0},
    {"2 a header going back, without weights", BYTES(SECOND(3, 2, 2, 7)), 2, 0},
    {"2 a header going back, a byte short", BYTES(SECOND(3, 2, 2, 7), 1, 1), 2, 0},
    {"2 a header of 3 going back for 4", BYTES(SECOND(4, 2, 3, 15), 1, 1, 1), 2, 0},
    {"2 a header of 16 going back, a byte short", BYTES(SECOND(16, 9, 8, 0), FIFTEEN(1)), 2, 0},
};

/* 130 is never an n of the first edition; every other first byte is, 131 and 132 too. */
static const struct line_case site_numbers[] = {
    {"3 n of 0 going forward", BYTES(0, 2, 2, 0, 0), 3, 0},
    {"3 n of 1 going forward", BYTES(1, 2, 2, 0, 0), 3, 0},
    {"3 n of 2 going forward", BYTES(2, 2, 2, 0, 0), 3, 0},
    {"3 n of 17 going forward", BYTES(17, 15, 15, 0, 0), 3, 0},
    {"3 n of 128 going forward", BYTES(128, 15, 15, 0, 0), 3, 0},
    {"3 n of 129 going forward", BYTES(129, 15, 15, 0, 0), 3, 0},
    {"3 n of 131 going forward", BYTES(131, 15, 15, 0, 0), 3, 0},
    {"3 n of 132 going forward", BYTES(132, 15, 15, 0, 0), 3, 0},
    {"3 n of 255 going forward", BYTES(255, 15, 15, 0, 0), 3, 0},
    {"3 a second-edition header that begins with 129", BYTES(129, 3, 2, 0, 2, 0, 7, 0, 1, 1, 1), 3, 0},
    {"3 a second-edition header that begins with 131", BYTES(131, 3, 2, 0, 2, 0, 7, 0, 1, 1, 1), 3, 0},
    {"3 a second-edition header that begins with 132", BYTES(132, 3, 2, 0, 2, 0, 7, 0, 1, 1, 1), 3, 0},
    {"3 131, a count and a header without its 130", BYTES(131, 1, 3, 2, 0, 2, 0, 7, 0, 1, 1, 1), 3, 0},
    {"3 n of 0 going back", BYTES(SECOND(0, 2, 2, 0), 1, 1, 1), 3, 0},
    {"3 n of 2 going back", BYTES(SECOND(2, 2, 2, 3), 1, 1), 3, 0},
    {"3 n of 17 going back", BYTES(SECOND(17, 9, 9, 0), SIXTEEN(1), 1), 3, 0},
    {"3 n of 130 going back", BYTES(SECOND(130, 9, 9, 0), SIXTEEN(1)), 3, 0},
    {"3 n of 255 going back", BYTES(SECOND(255, 9, 9, 0), SIXTEEN(1)), 3, 0},
};

static const struct line_case quorums[] = {
    {"4 C + A of n going forward", BYTES(4, 2, 2, 0, 0), 4, 0},
    {"4 C equal to n going forward", BYTES(4, 4, 3, 0, 0), 4, 0},
    {"4 A equal to n going forward", BYTES(4, 3, 4, 0, 0), 4, 0},
    {"4 C of 1 going forward", BYTES(4, 1, 3, 0, 0), 4, 0},
    {"4 A of 0 going forward", BYTES(4, 3, 0, 0, 0), 4, 0},
    {"4 C of 255 going forward", BYTES(16, 255, 15, 0, 0), 4, 0},
    {"4 A of 255 going forward", BYTES(16, 15, 255, 0, 0), 4, 0},
    {"4 C + A of n going back", BYTES(SECOND(4, 2, 2, 0), FOUR(1)), 4, 0},
    {"4 C equal to n going back", BYTES(SECOND(4, 4, 3, 0), FOUR(1)), 4, 0},
    {"4 A equal to n going back", BYTES(SECOND(4, 3, 4, 0), FOUR(1)), 4, 0},
    {"4 C of 258 is not 2 going back", BYTES(SECOND(3, 258, 2, 7), 1, 1, 1), 4, 0},
    {"4 A of 258 is not 2 going back", BYTES(SECOND(3, 2, 258, 7), 1, 1, 1), 4, 0},
    {"4 C of 65,535, C + A comes round to n + 1", BYTES(SECOND(3, 65535, 5, 7), 1, 1, 1), 4, 0},
    {"4 C of W - h + 1 going back", BYTES(SEVEN(5, 4)), 4, 0},
    {"4 C + A of W going back", BYTES(HUNDRED(60, 40)), 4, 0},
};

static const struct line_case willing[] = {
    {"5 willing bit at n going forward", BYTES(3, 2, 2, 8, 0), 5, 0},
    {"5 willing bit 8 of 8 sites going forward", BYTES(8, 5, 5, 0, 1), 5, 0},
    {"5 willing bit 15 of 15 sites going forward", BYTES(15, 8, 8, 0, 128), 5, 0},
    {"5 willing bit at n going back", BYTES(SECOND(3, 2, 2, 8), 1, 1, 1), 5, 0},
    {"5 willing bit 8 of 8 sites going back", BYTES(SECOND(8, 5, 5, 256), FOUR(1), FOUR(1)), 5, 0},
    {"5 willing bit 15 of 15 sites going back", BYTES(SECOND(15, 8, 8, 0x8000), FIFTEEN(1)), 5, 0},
};

static const struct line_case zero_weights[] = {
    {"21 a weight of 0 at site 0 going back", BYTES(SECOND(3, 2, 2, 7), 0, 1, 1), 21, 0},
    {"21 a weight of 0 at site 1 going back", BYTES(SECOND(3, 2, 2, 7), 1, 0, 1), 21, 0},
    {"21 a weight of 0 at n - 1 going back", BYTES(SECOND(3, 2, 2, 7), 1, 1, 0), 21, 0},
    {"21 weights of 0 alone going back", BYTES(SECOND(3, 2, 2, 7), 0, 0, 0), 21, 0},
    {"21 a weight of 0 at 15 of 16 going back", BYTES(SECOND(16, 8, 8, 0), FIFTEEN(1), 0), 21, 0},
};

/* Four sites of which one weighs 2: W 5, h 2, so C = A = 3 and no other, which is allowed for four sites of 1 too. Sixteen of which one weighs 2: W 17. */
static const struct line_case uneven[] = {
    {"22 a weight of 2 at site 0", BYTES(SECOND(4, 3, 3, 15), 2, 1, 1, 1), 22, 0},
    {"22 a weight of 2 at site 1", BYTES(SECOND(4, 3, 3, 15), 1, 2, 1, 1), 22, 0},
    {"22 a weight of 2 at n - 1", BYTES(SECOND(4, 3, 3, 15), 1, 1, 1, 2), 22, 0},
    {"22 a weight of 2 and commands", BYTES(SECOND(4, 3, 3, 15), 1, 1, 2, 1, 1, 3, 0), 22, 0},
    {"22 a weight of 2 at 0 of 16", BYTES(SECOND(16, 9, 9, 0), 2, FIFTEEN(1)), 22, 0},
    {"22 a weight of 2 at 8 of 16", BYTES(SECOND(16, 9, 9, 0), FOUR(1), FOUR(1), 2, FOUR(1), 1, 1, 1), 22, 0},
    {"22 a weight of 2 at 15 of 16", BYTES(SECOND(16, 9, 9, 0), FIFTEEN(1), 2), 22, 0},
    {"22 a weight of 14 among fifteen of 1", BYTES(SECOND(16, 15, 15, 0), FIFTEEN(1), 14), 22, 0},
    {"22 one weight of 1 at site 0", BYTES(SECOND(3, 256, 256, 7), 1, 255, 255), 22, 0},
    {"22 one weight of 1 at site 1", BYTES(SECOND(3, 256, 256, 7), 255, 1, 255), 22, 0},
    {"22 one weight of 1 at n - 1", BYTES(SECOND(3, 256, 256, 7), 255, 255, 1), 22, 0},
    {"22 weights of 2 alone", BYTES(SECOND(3, 4, 3, 7), 2, 2, 2), 22, 0},
    {"22 weights of 3, 2 and 2", BYTES(SEVEN(4, 4)), 22, 0},
    {"22 weights of 10, 20, 30 and 40", BYTES(HUNDRED(60, 41)), 22, 0},
    {"22 weights of 200", BYTES(SIX_HUNDRED(258, 343)), 22, 0},
    {"22 sixteen weights of 255", BYTES(MOST(3825, 3825)), 22, 0},
};

/* Each number before those that come after it. Three sites of 2, 1 and 1 have no quorums, so there 4 is always before 22. */
static const struct line_case order[] = {
    {"2 before 3 going forward", BYTES(2, 2, 2, 8), 2, 0},
    {"2 before 3 going back", BYTES(130, 2, 2, 0), 2, 0},
    {"3 before 4 and 5 going forward", BYTES(2, 2, 2, 8, 0), 3, 0},
    {"4 before 5 going forward", BYTES(3, 3, 2, 8, 0), 4, 0},
    {"3 before 2 of a cut header going back", BYTES(130, 2, 2, 0, 2), 3, 0},
    {"3 before 21 going back", BYTES(SECOND(2, 2, 2, 3), 0, 0), 3, 0},
    {"3 before 4, 5 and 22 going back", BYTES(SECOND(17, 0, 0, 0xffff), SIXTEEN(2), 2), 3, 0},
    {"2 of a cut header before 21 going back", BYTES(SECOND(3, 2, 2, 7), 0, 1), 2, 0},
    {"2 of a cut header before 4 going back", BYTES(SECOND(3, 9, 9, 7), 1, 1), 2, 0},
    {"2 of a cut header before 5 going back", BYTES(SECOND(3, 2, 2, 8), 1, 1), 2, 0},
    {"2 of a cut header before 22", BYTES(SECOND(4, 3, 3, 15), 2, 1, 1), 2, 0},
    {"21 before 4 going back", BYTES(SECOND(3, 9, 9, 7), 1, 0, 1), 21, 0},
    {"21 before 5 going back", BYTES(SECOND(4, 2, 2, 16), 1, 1, 1, 0), 21, 0},
    {"21 before 22, the weight of 0 later", BYTES(SECOND(4, 3, 3, 15), 2, 2, 1, 0), 21, 0},
    {"21 before 22, the weight of 0 earlier", BYTES(SECOND(4, 3, 3, 15), 0, 2, 2, 1), 21, 0},
    {"4 before 5 going back", BYTES(SECOND(3, 3, 2, 8), 1, 1, 1), 4, 0},
    {"4 before 22, a weight of 2 of three sites", BYTES(SECOND(3, 2, 2, 7), 2, 1, 1), 4, 0},
    {"4 before 22, a weight of 255 of three sites", BYTES(SECOND(3, 2, 2, 7), 1, 1, 255), 4, 0},
    {"4 before 22, C + A of W", BYTES(SECOND(4, 3, 2, 15), 2, 1, 1, 1), 4, 0},
    {"5 before 22", BYTES(SECOND(4, 3, 3, 16), 2, 1, 1, 1), 5, 0},
};

/* A header, and so many bytes in all. Where the list goes back it becomes shorter, so 1 comes first there or not at all. */
struct long_list {
    const char *name;
    uint8_t header[QC_SECOND_HEADER_BYTES(QC_SITES)];
    size_t length;
    unsigned answer;
};

static const struct long_list long_lists[] = {
    {"1 32,763 bytes of three sites going forward", {HEADER}, 32763, 1},
    {"1 32,762 bytes of four sites going forward", {4, 3, 3, 15, 0}, 32762, 1},
    {"1 32,757 bytes of nine sites going forward", {9, 5, 5, 0, 1}, 32757, 1},
    {"1 32,751 bytes of fifteen sites going forward", {15, 8, 8, 0, 0}, 32751, 1},
    {"1 32,750 bytes of sixteen sites going forward", {16, 9, 8, 0, 0}, 32750, 1},
    {"1 32,768 bytes of three sites going forward", {HEADER}, 32768, 1},
    {"1 32,768 bytes of sixteen sites going forward", {16, 9, 8, 0, 0}, 32768, 1},
    {"1 32,769 bytes going forward", {HEADER}, 32769, 1},
    {"1 a megabyte going forward", {HEADER}, 1048576, 1},
    {"1 32,769 bytes going back", {ONES}, 32769, 1},
    {"1 32,769 bytes of sixteen sites going back", {SECOND(16, 9, 8, 0), SIXTEEN(1)}, 32769, 1},
    {"1 a megabyte going back", {ONES}, 1048576, 1},
    {"22 32,768 bytes going back", {SECOND(4, 3, 3, 15), 2, 1, 1, 1}, 32768, 22},
    {"1 before 3 going forward", {2, 2, 2, 7, 0}, 32769, 1},
    {"1 before 3, the first byte 131", {131, 2, 2, 7, 0}, 32769, 1},
    {"1 before 3 going back", {SECOND(2, 2, 2, 3), 1, 1}, 32769, 1},
    {"1 before 21 going back", {SECOND(3, 2, 2, 7), 1, 0, 1}, 32769, 1},
    {"1 before 4 going back", {SECOND(3, 9, 9, 7), 1, 1, 1}, 32769, 1},
    {"1 before 22", {SECOND(4, 3, 3, 15), 2, 1, 1, 1}, 32769, 1},
    {"3 before 1 of the list to be written", {2, 2, 2, 7, 0}, 32768, 3},
    {"3 before 1 of the list to be written, n of 17", {17, 9, 9, 0, 0}, 32768, 3},
    {"4 before 1 of the list to be written", {3, 3, 2, 7, 0}, 32768, 4},
    {"5 before 1 of the list to be written", {3, 2, 2, 8, 0}, 32763, 5},
};

static uint8_t list[1048576];

static void refuse_long(const struct long_list *one)
{
    const struct line_case given = {one->name, list, one->length, one->answer, 0};
    memcpy(list, one->header, sizeof one->header);
    refuse(qc_convert, &given);
}

/* 17 comes before 1, 2, 3 and 22, and where nothing else is wrong. */
static void refuse_all_results(void)
{
    static const uint8_t forward[] = {HEADER}, back[] = {ONES}, bad[] = {2, 2, 2, 7, 0}, heavy[] = {SEVEN(4, 4)};
    refuse_results(qc_convert, forward, sizeof forward);
    refuse_results(qc_convert, back, sizeof back);
    refuse_results(qc_convert, list, QC_LIST_BYTES + 1);
    refuse_results(qc_convert, list, 0);
    refuse_results(qc_convert, bad, sizeof bad);
    refuse_results(qc_convert, heavy, sizeof heavy);
}

void bad_convert_cases(void)
{
    const struct line_case none = {"2 no bytes to convert", list, 0, 2, 0};
    size_t i;
    refuse(qc_convert, &none);
    refuse_all(qc_convert, lengths, COUNT(lengths));
    refuse_all(qc_convert, site_numbers, COUNT(site_numbers));
    refuse_all(qc_convert, quorums, COUNT(quorums));
    refuse_all(qc_convert, willing, COUNT(willing));
    refuse_all(qc_convert, zero_weights, COUNT(zero_weights));
    refuse_all(qc_convert, uneven, COUNT(uneven));
    refuse_all(qc_convert, order, COUNT(order));
    for (i = 0; i < COUNT(long_lists); i++)
        refuse_long(&long_lists[i]);
    refuse_all_results();
}

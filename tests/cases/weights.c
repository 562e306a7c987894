/* Headers of the second edition: numbers 1 to 5, 16 and 21, and their order. The worlds that they give are in editions.c, what weights do to quorums in
 * weighing.c, and 17 for a world's weights in worlds.c. */
#include <string.h>

#include "weights.h"

static const struct list_case lengths[] = {
    {"2 130 alone", BYTES(130), 2, 0, 0},
    {"2 four bytes of the second edition", BYTES(130, 3, 2, 0), 2, 0, 0},
    {"2 four bytes, before 3", BYTES(130, 2, 2, 0), 2, 0, 0},
    {"2 four bytes, the first 131", BYTES(131, 3, 2, 0), 2, 0, 0},
    {"2 a header of the second edition cut after five bytes", BYTES(130, 3, 2, 0, 2), 2, 0, 0},
    {"2 a header cut before its weights", BYTES(SECOND(3, 2, 2, 7)), 2, 0, 0},
    {"2 a header cut by one byte", BYTES(SECOND(3, 2, 2, 7), 1, 1), 2, 0, 0},
    {"2 a whole header passes", BYTES(ONES), 0, 0, 11},
    {"2 a header of 3 is cut for 4", BYTES(SECOND(4, 2, 3, 15), 1, 1, 1), 2, 0, 0},
    {"2 a header of 4 passes", BYTES(SECOND(4, 2, 3, 15), 1, 1, 1, 1), 0, 0, 12},
    {"2 a header of 16 cut by one byte", BYTES(SECOND(16, 9, 8, 0), FIFTEEN(1)), 2, 0, 0},
    {"2 a header of 16 passes", BYTES(SECOND(16, 9, 8, 0), SIXTEEN(1)), 0, 0, 24},
};

static const struct list_case site_numbers[] = {
    {"3 n of 0, second edition", BYTES(SECOND(0, 2, 2, 0), 1, 1, 1), 3, 0, 0},
    {"3 n of 2, second edition", BYTES(SECOND(2, 2, 2, 3), 1, 1), 3, 0, 0},
    {"3 n of 3 passes, second edition", BYTES(SECOND(3, 2, 2, 0), 1, 1, 1), 0, 0, 11},
    {"3 n of 16 passes, second edition", BYTES(SECOND(16, 15, 15, 0), SIXTEEN(1)), 0, 0, 24},
    {"3 n of 17, second edition", BYTES(SECOND(17, 9, 9, 0), SIXTEEN(1), 1), 3, 0, 0},
    {"3 n of 130, second edition", BYTES(SECOND(130, 9, 9, 0), SIXTEEN(1)), 3, 0, 0},
    {"3 n of 255, second edition", BYTES(SECOND(255, 9, 9, 0), SIXTEEN(1)), 3, 0, 0},
    {"3 the first byte 129", BYTES(129, 3, 2, 0, 2, 0, 7, 0, 1, 1, 1), 3, 0, 0},
    {"3 the first byte 131", BYTES(131, 3, 2, 0, 2, 0, 7, 0, 1, 1, 1), 3, 0, 0},
    {"3 the first byte 132", BYTES(132, 3, 2, 0, 2, 0, 7, 0, 1, 1, 1), 3, 0, 0},
    {"3 the first byte 131 of five", BYTES(131, 3, 2, 0, 2), 3, 0, 0},
    {"3 the first byte 132 of five", BYTES(132, 3, 2, 0, 2), 3, 0, 0},
};

static const struct list_case zero_weights[] = {
    {"21 a weight of 0 at site 0", BYTES(SECOND(3, 2, 2, 7), 0, 1, 1), 21, 0, 0},
    {"21 a weight of 0 at site 1", BYTES(SECOND(3, 2, 2, 7), 1, 0, 1), 21, 0, 0},
    {"21 a weight of 0 at n - 1", BYTES(SECOND(3, 2, 2, 7), 1, 1, 0), 21, 0, 0},
    {"21 weights of 0 alone", BYTES(SECOND(3, 2, 2, 7), 0, 0, 0), 21, 0, 0},
    {"21 a weight of 0, the others have quorums", BYTES(SECOND(4, 2, 2, 15), 1, 1, 1, 0), 21, 0, 0},
    {"21 a weight of 0 at 15 of 16", BYTES(SECOND(16, 8, 8, 0), FIFTEEN(1), 0), 21, 0, 0},
    {"21 weights of 1 pass", BYTES(ONES), 0, 0, 11},
    {"21 a weight of 255 passes", BYTES(SECOND(3, 256, 256, 7), 1, 255, 255), 0, 0, 11},
    {"21 a byte of 0 after the weights is a command: 6", BYTES(ONES, 0), 6, 0, 11},
};

static const struct list_case quorums[] = {
    {"4 W of 2 h + 1, C = A = W - h passes", BYTES(SEVEN(4, 4)), 0, 0, 11},
    {"4 W of 2 h + 1, C of W - h + 1", BYTES(SEVEN(5, 4)), 4, 0, 0},
    {"4 W of 2 h + 1, A of W - h + 1", BYTES(SEVEN(4, 5)), 4, 0, 0},
    {"4 W of 2 h + 1, C + A of W, C less", BYTES(SEVEN(3, 4)), 4, 0, 0},
    {"4 W of 2 h + 1, C + A of W, A less", BYTES(SEVEN(4, 3)), 4, 0, 0},
    {"4 C = A = W - h passes", BYTES(HUNDRED(60, 60)), 0, 0, 12},
    {"4 C of W - h + 1", BYTES(HUNDRED(61, 60)), 4, 0, 0},
    {"4 A of W - h + 1", BYTES(HUNDRED(60, 61)), 4, 0, 0},
    {"4 C + A of W + 1 passes, C the most", BYTES(HUNDRED(60, 41)), 0, 0, 12},
    {"4 C + A of W, C the most", BYTES(HUNDRED(60, 40)), 4, 0, 0},
    {"4 C + A of W + 1 passes, A the most", BYTES(HUNDRED(41, 60)), 0, 0, 12},
    {"4 C + A of W, A the most", BYTES(HUNDRED(40, 60)), 4, 0, 0},
    {"4 C + A of W + 1 passes, about halves", BYTES(HUNDRED(51, 50)), 0, 0, 12},
    {"4 C + A of W, halves", BYTES(HUNDRED(50, 50)), 4, 0, 0},
    {"4 C + A over W, but C over W - h", BYTES(HUNDRED(99, 2)), 4, 0, 0},
    {"4 C + A over W, but A over W - h", BYTES(HUNDRED(2, 99)), 4, 0, 0},
    {"4 C and A of W", BYTES(HUNDRED(100, 100)), 4, 0, 0},
    {"4 C 0", BYTES(HUNDRED(0, 60)), 4, 0, 0},
    {"4 A 0", BYTES(HUNDRED(60, 0)), 4, 0, 0},
    {"4 C and A as if all weighed 1", BYTES(HUNDRED(3, 3)), 4, 0, 0},
};

/* The heaviest wherever it stands, and as heavy as all others together. */
static const struct list_case heaviest[] = {
    {"4 the heaviest first passes", BYTES(SECOND(4, 60, 60, 15), 40, 30, 20, 10), 0, 0, 12},
    {"4 the heaviest first, C of W - h + 1", BYTES(SECOND(4, 61, 60, 15), 40, 30, 20, 10), 4, 0, 0},
    {"4 the heaviest in between passes", BYTES(SECOND(4, 60, 60, 15), 10, 40, 30, 20), 0, 0, 12},
    {"4 the heaviest in between, A of W - h + 1", BYTES(SECOND(4, 60, 61, 15), 10, 40, 30, 20), 4, 0, 0},
    {"4 two heaviest pass", BYTES(SECOND(3, 3, 3, 7), 2, 2, 1), 0, 0, 11},
    {"4 two heaviest, C of W - h + 1", BYTES(SECOND(3, 4, 3, 7), 2, 2, 1), 4, 0, 0},
    {"4 W of 2 h, C = A = W - h", BYTES(SECOND(3, 2, 2, 7), 2, 1, 1), 4, 0, 0},
    {"4 W of 2 h, C of W - h + 1", BYTES(SECOND(3, 3, 2, 7), 2, 1, 1), 4, 0, 0},
    {"4 W of 2 h, A of W - h + 1", BYTES(SECOND(3, 2, 3, 7), 2, 1, 1), 4, 0, 0},
    {"4 W under 2 h, C = A = W - h", BYTES(SECOND(3, 2, 2, 7), 255, 1, 1), 4, 0, 0},
    {"4 W under 2 h, C + A of W + 1", BYTES(SECOND(3, 129, 129, 7), 255, 1, 1), 4, 0, 0},
    {"4 255 against 255, C = A = W - h", BYTES(SECOND(3, 255, 255, 7), 127, 255, 128), 4, 0, 0},
    {"4 255 against 255, C of W - h + 1", BYTES(SECOND(3, 256, 255, 7), 127, 255, 128), 4, 0, 0},
    {"4 255 against 256 passes", BYTES(SECOND(3, 256, 256, 7), 128, 255, 128), 0, 0, 11},
    {"4 sixteen, one against fifteen of 1", BYTES(SECOND(16, 15, 15, 0), FIFTEEN(1), 15), 4, 0, 0},
    {"4 sixteen, one of 14 passes", BYTES(SECOND(16, 15, 15, 0), FIFTEEN(1), 14), 0, 0, 24},
};

static const struct list_case high_bytes[] = {
    {"4 C = A = 400 of 600 pass", BYTES(SIX_HUNDRED(400, 400)), 0, 0, 11},
    {"4 C 401 of 600", BYTES(SIX_HUNDRED(401, 400)), 4, 0, 0},
    {"4 A 401 of 600", BYTES(SIX_HUNDRED(400, 401)), 4, 0, 0},
    {"4 C + A of 601 passes", BYTES(SIX_HUNDRED(400, 201)), 0, 0, 11},
    {"4 C + A of 600", BYTES(SIX_HUNDRED(400, 200)), 4, 0, 0},
    {"4 C 256, its low byte 0, passes", BYTES(SIX_HUNDRED(256, 345)), 0, 0, 11},
    {"4 A 256, its low byte 0, passes", BYTES(SIX_HUNDRED(345, 256)), 0, 0, 11},
    {"4 C 256, C + A of 600", BYTES(SIX_HUNDRED(256, 344)), 4, 0, 0},
    {"4 C 258 is not 2", BYTES(SECOND(3, 258, 2, 7), 1, 1, 1), 4, 0, 0},
    {"4 A 258 is not 2", BYTES(SECOND(3, 2, 258, 7), 1, 1, 1), 4, 0, 0},
    {"4 C 512, its bytes the other way round", BYTES(SECOND(3, 512, 2, 7), 1, 1, 1), 4, 0, 0},
    {"4 A 512, its bytes the other way round", BYTES(SECOND(3, 2, 512, 7), 1, 1, 1), 4, 0, 0},
    {"4 C and A 65,535", BYTES(SECOND(3, 65535, 65535, 7), 1, 1, 1), 4, 0, 0},
    {"4 C 65,535, C + A comes round to W + 1", BYTES(SECOND(3, 65535, 5, 7), 1, 1, 1), 4, 0, 0},
    {"4 A 65,535, C + A comes round to W + 1", BYTES(SECOND(3, 5, 65535, 7), 1, 1, 1), 4, 0, 0},
    {"4 sixteen of 255, C = A = 3,825 pass", BYTES(MOST(3825, 3825)), 0, 0, 24},
    {"4 sixteen of 255, C 3,826", BYTES(MOST(3826, 3825)), 4, 0, 0},
    {"4 sixteen of 255, A 3,826", BYTES(MOST(3825, 3826)), 4, 0, 0},
    {"4 sixteen of 255, C + A of 4,081 passes, C the most", BYTES(MOST(3825, 256)), 0, 0, 24},
    {"4 sixteen of 255, C + A of 4,080, C the most", BYTES(MOST(3825, 255)), 4, 0, 0},
    {"4 sixteen of 255, C + A of 4,081 passes, A the most", BYTES(MOST(256, 3825)), 0, 0, 24},
    {"4 sixteen of 255, C + A of 4,080, A the most", BYTES(MOST(255, 3825)), 4, 0, 0},
    {"4 sixteen of 255, C + A of 4,081 passes", BYTES(MOST(2041, 2040)), 0, 0, 24},
    {"4 sixteen of 255, C + A of 4,080", BYTES(MOST(2040, 2040)), 4, 0, 0},
};

static const struct list_case willing[] = {
    {"5 willing bit at n, second edition", BYTES(SECOND(3, 2, 2, 8), 1, 1, 1), 5, 0, 0},
    {"5 willing bit at n - 1 passes, second edition", BYTES(SECOND(3, 2, 2, 4), 1, 1, 1), 0, 0, 11},
    {"5 willing bit 8 of 8 sites, second edition", BYTES(SECOND(8, 5, 5, 256), FOUR(1), FOUR(1)), 5, 0, 0},
    {"5 willing bit 8 of 9 sites passes, second edition", BYTES(SECOND(9, 5, 5, 256), FOUR(1), FOUR(1), 1), 0, 0, 17},
    {"5 willing bit 15 of 15 sites, second edition", BYTES(SECOND(15, 8, 8, 0x8000), FIFTEEN(1)), 5, 0, 0},
    {"5 all sixteen willing pass, second edition", BYTES(SECOND(16, 9, 8, 0xffff), SIXTEEN(1)), 0, 0, 24},
};

/* Each number before each that comes after it. */
static const struct list_case order[] = {
    {"3 before 2 of a cut header, n of 2", BYTES(130, 2, 2, 0, 2), 3, 0, 0},
    {"3 before 2 of a cut header, n of 17", BYTES(130, 17, 2, 0, 2), 3, 0, 0},
    {"3 before 21", BYTES(SECOND(2, 2, 2, 3), 0, 0), 3, 0, 0},
    {"3 before 4 and 5, second edition", BYTES(SECOND(17, 0, 0, 0xffff), SIXTEEN(1), 1), 3, 0, 0},
    {"2 of a cut header before 21", BYTES(SECOND(3, 2, 2, 7), 0, 1), 2, 0, 0},
    {"2 of a cut header before 21, all there is 0", BYTES(SECOND(3, 2, 2, 7), 0, 0), 2, 0, 0},
    {"2 of a cut header before 4", BYTES(SECOND(3, 9, 9, 7), 1, 1), 2, 0, 0},
    {"2 of a cut header before 5", BYTES(SECOND(3, 2, 2, 8), 1, 1), 2, 0, 0},
    {"21 before 4, quorums too large", BYTES(SECOND(3, 9, 9, 7), 1, 0, 1), 21, 0, 0},
    {"21 before 4, quorums too small", BYTES(SECOND(4, 2, 2, 7), 1, 1, 1, 0), 21, 0, 0},
    {"21 before 5", BYTES(SECOND(4, 2, 2, 16), 1, 1, 1, 0), 21, 0, 0},
    {"21 before 4 and 5", BYTES(SECOND(3, 0, 0, 0xffff), 0, 1, 1), 21, 0, 0},
    {"21 before 6", BYTES(SECOND(3, 2, 2, 7), 1, 1, 0, 0), 21, 0, 0},
    {"4 before 5, second edition", BYTES(SECOND(3, 3, 2, 8), 1, 1, 1), 4, 0, 0},
    {"4 before 6, second edition", BYTES(SECOND(3, 3, 2, 7), 1, 1, 1, 0), 4, 0, 0},
    {"5 before 6, second edition", BYTES(SECOND(3, 2, 2, 8), 1, 1, 1, 0), 5, 0, 0},
};

/* The first command is at 8 + n. */
static const struct list_case first_commands[] = {
    {"6 command 0 after three weights", BYTES(ONES, 0), 6, 0, 11},
    {"6 command 6 after three weights", BYTES(ONES, 6), 6, 0, 11},
    {"6 START after three weights passes", BYTES(ONES, 1), 0, 1, 12},
    {"6 START after sixteen weights passes", BYTES(MOST(3825, 3825), 1), 0, 1, 25},
    {"6 command 6 after sixteen weights", BYTES(MOST(3825, 3825), 6), 6, 0, 24},
    {"7 TIMEOUT cut after three weights", BYTES(ONES, 3), 7, 0, 11},
    {"7 DELIVER cut after START", BYTES(ONES, 1, 2, 0, 0), 7, 1, 12},
    {"8 TIMEOUT 3 of 3, second edition", BYTES(ONES, 3, 3), 8, 0, 11},
    {"8 TIMEOUT 15 of 16 passes, second edition", BYTES(MOST(3825, 3825), 3, 15), 0, 1, 26},
    {"14 START twice, second edition", BYTES(ONES, 1, 1), 14, 1, 12},
    {"13 RECOVER while up, second edition", BYTES(SEVEN(4, 4), 5, 1), 13, 0, 11},
};

/* A store that is a byte short: 16 comes before the header. */
static const struct list_case short_store[] = {
    {"16 before 2 of a cut header", BYTES(SECOND(3, 2, 2, 7), 1, 1), 16, 0, 0},
    {"16 before 21", BYTES(SECOND(3, 2, 2, 7), 0, 1, 1), 16, 0, 0},
    {"16 and a good header of the second edition", BYTES(ONES), 16, 0, 0},
};

/* START, then CRASH 1 and RECOVER 1 in turn: 12 bytes and 8,189 times 4. */
static void longest_lists(void)
{
    static uint8_t list[QC_LIST_BYTES + 1] = {ONES, QC_START};
    const struct list_case longest = {"1 32,768 bytes pass, second edition", list, QC_LIST_BYTES, 0, 16379, QC_LIST_BYTES};
    const struct list_case longer = {"1 32,769 bytes, second edition", list, QC_LIST_BYTES + 1, 1, 0, 0};
    size_t at;
    for (at = 12; at < QC_LIST_BYTES; at += 2) {
        list[at] = at % 4 == 0 ? QC_CRASH : QC_RECOVER;
        list[at + 1] = 1;
    }
    expect_list(&longest);
    expect_list(&longer);
}

/* Too long, and something else that is wrong with the header. */
static void long_before_others(void)
{
    static const struct {
        const char *name;
        uint8_t header[QC_SECOND_HEADER_BYTES(3)];
    } headers[] = {
        {"1 before 3, second edition", {SECOND(2, 2, 2, 7), 1, 1, 1}},
        {"1 before 21", {SECOND(3, 2, 2, 7), 1, 0, 1}},
        {"1 before 4, second edition", {SECOND(3, 9, 9, 7), 1, 1, 1}},
    };
    static uint8_t list[QC_LIST_BYTES + 1];
    size_t i;
    for (i = 0; i < COUNT(headers); i++) {
        const struct list_case longer = {headers[i].name, list, sizeof list, 1, 0, 0};
        memcpy(list, headers[i].header, sizeof headers[i].header);
        expect_list(&longer);
    }
}

void weight_cases(void)
{
    expect_lists(lengths, COUNT(lengths));
    expect_lists(site_numbers, COUNT(site_numbers));
    expect_lists(zero_weights, COUNT(zero_weights));
    expect_lists(quorums, COUNT(quorums));
    expect_lists(heaviest, COUNT(heaviest));
    expect_lists(high_bytes, COUNT(high_bytes));
    expect_lists(willing, COUNT(willing));
    expect_lists(order, COUNT(order));
    expect_lists(first_commands, COUNT(first_commands));
    longest_lists();
    long_before_others();
    expect_lists_in(QC_STORE_BYTES - 1, short_store, COUNT(short_store));
}

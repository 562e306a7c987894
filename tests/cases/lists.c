/* Numbers of a whole list of the first edition: 1 to 7, 15 and 16, and those that a restart leads to. The second is in weights.c. */
#include <string.h>

#include "cases.h"

/* Three sites, C = A = 2, all willing. */
#define HEADER 3, 2, 2, 7, 0

/* What lent buffers hold before a play. */
enum { FILL = 0xee };

static uint8_t store[QC_STORE_BYTES];
static uint8_t world[QC_WORLD_BYTES];
static uint8_t result[QC_RESULT_BYTES];

static const struct list_case sizes[] = {
    {"2 four bytes", BYTES(3, 2, 2, 7), 2, 0, 0},
    {"2 five bytes pass", BYTES(HEADER), 0, 0, 5},
    {"3 n of 0", BYTES(0, 2, 2, 0, 0), 3, 0, 0},
    {"3 n of 2", BYTES(2, 2, 2, 0, 0), 3, 0, 0},
    {"3 n of 3 passes", BYTES(3, 2, 2, 0, 0), 0, 0, 5},
    {"3 n of 16 passes", BYTES(16, 15, 15, 0, 0), 0, 0, 5},
    {"3 n of 17", BYTES(17, 15, 15, 0, 0), 3, 0, 0},
    {"3 n of 129", BYTES(129, 15, 15, 0, 0), 3, 0, 0},
    {"3 n of 131", BYTES(131, 15, 15, 0, 0), 3, 0, 0},
    {"3 n of 132", BYTES(132, 15, 15, 0, 0), 3, 0, 0},
    {"3 n of 255", BYTES(255, 15, 15, 0, 0), 3, 0, 0},
    {"4 n 4, C 2, A 2", BYTES(4, 2, 2, 0, 0), 4, 0, 0},
    {"4 n 4, C 2, A 3 passes", BYTES(4, 2, 3, 0, 0), 0, 0, 5},
    {"4 n 4, C 3, A 2 passes", BYTES(4, 3, 2, 0, 0), 0, 0, 5},
    {"4 n 4, C 1, A 3", BYTES(4, 1, 3, 0, 0), 4, 0, 0},
    {"4 n 4, C 3, A 1", BYTES(4, 3, 1, 0, 0), 4, 0, 0},
    {"4 n 16, C 8, A 8", BYTES(16, 8, 8, 0, 0), 4, 0, 0},
    {"4 n 16, C 8, A 9 passes", BYTES(16, 8, 9, 0, 0), 0, 0, 5},
    {"4 C equal to n", BYTES(4, 4, 3, 0, 0), 4, 0, 0},
    {"4 A equal to n", BYTES(4, 3, 4, 0, 0), 4, 0, 0},
    {"4 C and A of n - 1 pass", BYTES(4, 3, 3, 0, 0), 0, 0, 5},
    {"4 C of 16 in 16", BYTES(16, 16, 15, 0, 0), 4, 0, 0},
    {"4 A of 16 in 16", BYTES(16, 15, 16, 0, 0), 4, 0, 0},
    {"5 willing bit at n", BYTES(3, 2, 2, 8, 0), 5, 0, 0},
    {"5 willing bit at n - 1 passes", BYTES(3, 2, 2, 4, 0), 0, 0, 5},
    {"5 willing bit 8 of 8 sites", BYTES(8, 5, 5, 0, 1), 5, 0, 0},
    {"5 willing bit 8 of 9 sites passes", BYTES(9, 5, 5, 0, 1), 0, 0, 5},
    {"5 willing bit 15 of 15 sites", BYTES(15, 8, 8, 0, 0x80), 5, 0, 0},
    {"5 all sixteen willing pass", BYTES(16, 15, 15, 0xff, 0xff), 0, 0, 5},
    {"3 before 4 and 5", BYTES(2, 2, 2, 8, 0), 3, 0, 0},
    {"4 before 5", BYTES(3, 3, 2, 8, 0), 4, 0, 0},
    {"5 before 6", BYTES(3, 2, 2, 8, 0, 0), 5, 0, 0},
};

static const struct list_case commands[] = {
    {"6 command 0", BYTES(HEADER, 0), 6, 0, 5},
    {"6 command 6", BYTES(HEADER, 6), 6, 0, 5},
    {"6 command 255", BYTES(HEADER, 255), 6, 0, 5},
    {"6 command 6 after START", BYTES(HEADER, 1, 6, 0), 6, 1, 6},
    {"6 command 1 is read", BYTES(HEADER, 1), 0, 1, 6},
    {"6 command 2 is read", BYTES(HEADER, 1, 2, 0, 0, 1), 0, 2, 10},
    {"6 command 3 is read", BYTES(HEADER, 3, 0), 0, 1, 7},
    {"6 command 4 is read", BYTES(HEADER, 4, 0), 0, 1, 7},
    {"6 command 5 is read", BYTES(HEADER, 4, 0, 5, 0), 0, 2, 9},
    {"7 DELIVER with no operand byte", BYTES(HEADER, 2), 7, 0, 5},
    {"7 DELIVER cut after one", BYTES(HEADER, 2, 0), 7, 0, 5},
    {"7 DELIVER cut after two", BYTES(HEADER, 2, 0, 0), 7, 0, 5},
    {"7 TIMEOUT cut", BYTES(HEADER, 3), 7, 0, 5},
    {"7 CRASH cut", BYTES(HEADER, 4), 7, 0, 5},
    {"7 RECOVER cut", BYTES(HEADER, 5), 7, 0, 5},
    {"7 cut after START", BYTES(HEADER, 1, 2, 0), 7, 1, 6},
    {"7 DELIVER whole, to 9", BYTES(HEADER, 2, 0, 0, 1), 9, 0, 5},
    {"7 RECOVER whole, to 13", BYTES(HEADER, 5, 1), 13, 0, 5},
    {"7 START has no operand", BYTES(HEADER, 1), 0, 1, 6},
};

/* A site that restarts with an empty log has aborted: no START, and its next TIMEOUT sends the outcome. */
static const struct list_case restarts[] = {
    {"14 START after a restart of site 0", BYTES(HEADER, 4, 0, 5, 0, 1), 14, 2, 9},
    {"14 START after a restart of site 1 passes", BYTES(HEADER, 4, 1, 5, 1, 1), 0, 3, 10},
    {"13 a second RECOVER", BYTES(HEADER, 4, 1, 5, 1, 5, 1), 13, 2, 9},
    {"9 no row after a restart", BYTES(HEADER, 4, 1, 5, 1, 2, 0, 0, 0), 9, 2, 9},
    {"9 a row after a restart and TIMEOUT passes", BYTES(HEADER, 4, 1, 5, 1, 3, 1, 2, 0, 0, 0), 0, 4, 15},
};

/* The store's length comes before the list's. */
static const struct list_case short_store[] = {
    {"16 a store of 20,479 bytes", BYTES(HEADER, 1), 16, 0, 0},
    {"16 before 2", BYTES(3, 2, 2, 7), 16, 0, 0},
    {"16 before 3", BYTES(2, 2, 2, 7, 0), 16, 0, 0},
};

static const struct list_case least_store[] = {
    {"16 a store of 20,480 bytes passes", BYTES(HEADER, 1), 0, 1, 6},
};

const uint8_t *listed_world(void)
{
    return world;
}

const uint8_t *listed_store(void)
{
    return store;
}

/* Is nothing played: 16, 1 to 5 and 21? */
static int has_no_world(unsigned answer)
{
    return (answer >= QC_LIST_LONG && answer <= QC_BAD_WILLING) || answer == QC_STORE_SHORT || answer == QC_BAD_WEIGHT;
}

static void expect_nothing_played(void)
{
    static const uint8_t zeros[QC_WORLD_BYTES] = {QC_LAYOUT};
    static uint8_t untouched[QC_STORE_BYTES];
    memset(untouched, FILL, sizeof untouched);
    expect("refused, not the world of zeros", memcmp(world, zeros, sizeof world) != 0, 0);
    expect("refused, store changed", memcmp(store, untouched, sizeof store) != 0, 0);
}

static void expect_list_in(size_t store_length, const struct list_case *one)
{
    begin(one->name);
    memset(store, FILL, sizeof store);
    memset(world, FILL, sizeof world);
    expect("number", qc_play_list(one->list, one->length, store, store_length, world, sizeof world, result, sizeof result), one->answer);
    expect("events", qc_result_events(result), one->events);
    expect("place", qc_result_place(result), one->place);
    if (has_no_world(one->answer))
        expect_nothing_played();
}

void expect_lists_in(size_t store_length, const struct list_case *table, size_t count)
{
    size_t i;
    for (i = 0; i < count; i++)
        expect_list_in(store_length, &table[i]);
}

void expect_lists(const struct list_case *table, size_t count)
{
    expect_lists_in(QC_STORE_BYTES, table, count);
}

void expect_list(const struct list_case *one)
{
    expect_list_in(QC_STORE_BYTES, one);
}

/* START, then CRASH 1 and RECOVER 1 in turn: 1 byte and 8,190 times 4, and the last crash. */
static void lengths(void)
{
    static uint8_t list[QC_LIST_BYTES + 1] = {HEADER, QC_START};
    const struct list_case none = {"2 no byte", list, 0, 2, 0, 0};
    const struct list_case longest = {"1 32,768 bytes pass", list, QC_LIST_BYTES, 0, 16382, QC_LIST_BYTES};
    const struct list_case longer = {"1 32,769 bytes", list, QC_LIST_BYTES + 1, 1, 0, 0};
    size_t at;
    for (at = 6; at < QC_LIST_BYTES; at += 2) {
        list[at] = at % 4 == 2 ? QC_CRASH : QC_RECOVER;
        list[at + 1] = 1;
    }
    expect_list(&none);
    expect_list(&longest);
    expect_list(&longer);
}

/* n 4, C = A = 3: TIMEOUT 3 again and again. The first writes abort, each later one sends the outcome. */
static void rows(void)
{
    static uint8_t list[QC_HEADER_BYTES + 2 * (QC_ROWS + 2)] = {4, 3, 3, 3, 0};
    const struct list_case last = {"15 row 1,023 as the 1,024th passes", list, 2055, 0, 1025, 2055};
    const struct list_case more = {"15 row 1,024 as the 1,025th", list, 2057, 15, 1025, 2055};
    memset(list + QC_HEADER_BYTES, QC_TIMEOUT, sizeof list - QC_HEADER_BYTES);
    expect_list(&last);
    expect_list(&more);
}

void list_cases(void)
{
    lengths();
    expect_lists(sizes, COUNT(sizes));
    expect_lists(commands, COUNT(commands));
    expect_lists(restarts, COUNT(restarts));
    rows();
    expect_lists_in(QC_STORE_BYTES - 1, short_store, COUNT(short_store));
    expect_lists_in(QC_STORE_BYTES, least_store, COUNT(least_store));
}

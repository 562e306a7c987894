/* A list and the same list in the other edition, played: equal worlds, stores, events and numbers, and places that differ by n + 3, what the second
 * edition's header is longer. */
#include <string.h>

#include "lines.h"

/* First-edition lists, as they must be played. */
static const struct list_case days[] = {
    {"convert and play M1", BYTES(HEADER), 0, 0, 5},
    {"convert and play M2", BYTES(HEADER, 1), 0, 1, 6},
    {"convert and play M3", BYTES(HEADER, 1, 2, 0, 0, 1, 2, 1, 0, 0, 3, 0, 2, 2, 0, 2, 2, 3, 0, 0, 3, 0), 0, 7, 26},
    {"convert and play M4", BYTES(3, 2, 2, 5, 0, 1, 2, 0, 0, 1, 2, 1, 0, 0), 0, 3, 14},
    {"convert and play M5", BYTES(HEADER, 1, 4, 0, 5, 0, 3, 0), 0, 4, 12},
    {"convert and play M6", BYTES(HEADER, 1, 2, 0, 0, 1, 2, 0, 0, 1), 0, 3, 14},
    {"convert and play M7", BYTES(HEADER, 3, 2), 0, 1, 7},
    {"convert and play M8", BYTES(HEADER, 1, 1), 14, 1, 6},
    {"convert and play M9", BYTES(HEADER, 1, 2, 0, 0, 0), 11, 1, 6},
    {"convert and play M10", BYTES(HEADER, 5, 1), 13, 0, 5},
    {"convert and play a restart", BYTES(HEADER, 4, 1, 5, 1), 0, 2, 9},
    {"convert and play an unwilling host", BYTES(3, 2, 2, 6, 0, 1, 2, 0, 0, 2), 0, 2, 10},
    {"convert and play a commit by two of four",
     BYTES(4, 2, 3, 15, 0, 1, 2, 0, 0, 1, 2, 0, 0, 2, 2, 0, 0, 3, 2, 1, 0, 0, 2, 2, 0, 0, 2, 3, 0, 0, 3, 0, 2, 4, 0, 1, 2, 5, 0, 0, 3, 0), 0, 11, 42},
    {"convert and play the last of sixteen", BYTES(16, 9, 8, 255, 255, 1, 2, 0, 0, 15, 2, 1, 0, 0, 4, 15), 0, 4, 16},
};

/* Of 6 to 14; 10 is met by no list, for its rows are those that it sent itself. */
static const struct list_case stops[] = {
    {"6 convert and play command 0", BYTES(HEADER, 0), 6, 0, 5},
    {"6 convert and play command 130", BYTES(HEADER, 1, 130), 6, 1, 6},
    {"6 convert and play command 6 of sixteen sites", BYTES(16, 9, 8, 0, 128, 4, 15, 6), 6, 1, 7},
    {"7 convert and play a cut DELIVER", BYTES(HEADER, 1, 2, 0), 7, 1, 6},
    {"7 convert and play a cut TIMEOUT", BYTES(HEADER, 3), 7, 0, 5},
    {"8 convert and play TIMEOUT 3 of 3", BYTES(HEADER, 3, 3), 8, 0, 5},
    {"8 convert and play TIMEOUT 16 of 16", BYTES(16, 9, 8, 0, 0, 3, 15, 3, 16), 8, 1, 7},
    {"9 convert and play row 0 of none", BYTES(HEADER, 2, 0, 0, 1), 9, 0, 5},
    {"9 convert and play row 1 of one", BYTES(HEADER, 1, 2, 1, 0, 1), 9, 1, 6},
    {"11 convert and play a vote to site 2", BYTES(HEADER, 1, 2, 0, 0, 1, 2, 1, 0, 2), 11, 2, 10},
    {"12 convert and play TIMEOUT at a site that is down", BYTES(HEADER, 4, 1, 3, 1), 12, 1, 7},
    {"12 convert and play DELIVER to a site that is down", BYTES(HEADER, 1, 4, 1, 2, 0, 0, 1), 12, 2, 8},
    {"13 convert and play RECOVER twice", BYTES(HEADER, 4, 1, 5, 1, 5, 1), 13, 2, 9},
    {"14 convert and play START after a restart", BYTES(HEADER, 4, 0, 5, 0, 1), 14, 2, 9},
};

/* A store that is a byte short has place 0, whatever the edition. */
static const struct list_case short_store[] = {
    {"16 convert and play M1", BYTES(HEADER), 16, 0, 0},
    {"16 convert and play M2", BYTES(HEADER, 1), 16, 0, 0},
    {"16 convert and play M8", BYTES(HEADER, 1, 1), 16, 0, 0},
};

static uint8_t converted[QC_LIST_BYTES];

static size_t convert(const uint8_t *list, size_t length)
{
    uint8_t result[QC_LINES_RESULT_BYTES];
    expect("number of the conversion", qc_convert(list, length, converted, sizeof converted, result, sizeof result), 0);
    expect("place of the conversion", qc_lines_place(result), length);
    return (size_t)qc_lines_length(result);
}

/* What the first list's play left, while the other is played. */
static struct {
    uint8_t world[QC_WORLD_BYTES], store[QC_STORE_BYTES];
} first;

/* Plays a first-edition list, and what it is converted to, in stores of this length that hold the same before. */
static void play_both(size_t store_length, const struct list_case *one)
{
    const unsigned shift = one->list[0] + 3u;
    struct list_case other = *one;
    expect_lists_in(store_length, one, 1);
    memcpy(first.world, listed_world(), sizeof first.world);
    memcpy(first.store, listed_store(), sizeof first.store);
    other.length = convert(one->list, one->length);
    other.list = converted;
    other.place = store_length < QC_STORE_BYTES ? 0 : one->place + shift;
    expect_lists_in(store_length, &other, 1);
    expect("length in the second edition", other.length, one->length + shift);
    expect("another world", memcmp(first.world, listed_world(), sizeof first.world) != 0, 0);
    expect("another store", memcmp(first.store, listed_store(), sizeof first.store) != 0, 0);
}

static void play_all(size_t store_length, const struct list_case *table, size_t count)
{
    size_t i;
    for (i = 0; i < count; i++)
        play_both(store_length, &table[i]);
}

/* The quiet day of each n: 3 + 6 (n - 1) events, 10 + 24 (n - 1) bytes. */
static void quiet_days(void)
{
    uint8_t list[QC_QUIET_BYTES], result[QC_LINES_RESULT_BYTES];
    size_t n;
    for (n = 3; n <= QC_SITES; n++) {
        const struct list_case day = {"convert and play a quiet day", list, 24 * n - 14, 0, (unsigned)(6 * n - 3), (unsigned)(24 * n - 14)};
        expect("number of the quiet day", qc_write_quiet(n, n - 1, 2, list, sizeof list, result, sizeof result), 0);
        play_both(QC_STORE_BYTES, &day);
        expect("rows", qc_row_count(listed_world()), 3 * n);
    }
}

/* n 4, C = A = 3: TIMEOUT 3 again and again. The first writes abort, each later one sends the outcome. */
static void full_store(void)
{
    static uint8_t list[QC_HEADER_BYTES + 2 * (QC_ROWS + 2)] = {4, 3, 3, 3, 0};
    const struct list_case last = {"15 convert and play row 1,023", list, 2055, 0, 1025, 2055};
    const struct list_case more = {"15 convert and play row 1,024", list, 2057, 15, 1025, 2055};
    memset(list + QC_HEADER_BYTES, QC_TIMEOUT, sizeof list - QC_HEADER_BYTES);
    play_both(QC_STORE_BYTES, &last);
    play_both(QC_STORE_BYTES, &more);
}

/* START, then CRASH 1 and RECOVER 1 in turn: 32,762 bytes, 32,768 in the second edition. */
static void longest_list(void)
{
    static uint8_t list[QC_LIST_BYTES - 6] = {HEADER, QC_START};
    const struct list_case longest = {"1 convert and play 32,762 bytes", list, 32762, 0, 16379, 32762};
    size_t at;
    for (at = 6; at < sizeof list; at += 2) {
        list[at] = at % 4 == 2 ? QC_CRASH : QC_RECOVER;
        list[at + 1] = 1;
    }
    play_both(QC_STORE_BYTES, &longest);
}

void converted_cases(void)
{
    play_all(QC_STORE_BYTES, days, COUNT(days));
    play_all(QC_STORE_BYTES, stops, COUNT(stops));
    play_all(QC_STORE_BYTES - 1, short_store, COUNT(short_store));
    quiet_days();
    full_store();
    longest_list();
}

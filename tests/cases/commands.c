/* One command: its place, numbers 6 to 8 and 12 to 17, and which comes first. Rows to be delivered are in rows.c. */
#include "cases.h"

struct command_case {
    const char *name;
    struct change changes[CHANGES];
    struct command command;
};

/* No change. */
#define FRESH {{0, 0, 0}}

/* Site 0 has timed out while active. */
#define ABORTED OUTCOME(0, QC_ABORT), CODE(0, 0, QC_ABORTED)

#define SIXTEEN SITES(16), COMMIT_QUORUM(9), ABORT_QUORUM(8), WILLING(0xffff), UP(15), WEIGHTS16(1)

static const struct command_case reading[] = {
    {"6 a place at the end", FRESH, {BYTES(1), 1, 6, 0}},
    {"6 a place past the end", FRESH, {BYTES(1), 2, 6, 0}},
    {"6 a place far past the end", FRESH, {BYTES(1), SIZE_MAX, 6, 0}},
    {"6 the last byte passes", FRESH, {BYTES(0, 1), 1, 0, 2}},
    {"6 one command of byte 0", FRESH, {BYTES(0), 0, 6, 0}},
    {"6 one command of byte 6", FRESH, {BYTES(6, 0), 0, 6, 0}},
    {"7 one TIMEOUT cut", FRESH, {BYTES(1, 3), 1, 7, 0}},
    {"7 one TIMEOUT whole", FRESH, {BYTES(1, 3, 1), 1, 0, 3}},
    {"7 one DELIVER cut after one", FRESH, {BYTES(2, 0), 0, 7, 0}},
    {"7 one DELIVER cut after two", FRESH, {BYTES(2, 0, 0), 0, 7, 0}},
    {"7 one DELIVER whole, to 9", FRESH, {BYTES(2, 0, 0, 0), 0, 9, 0}},
};

static const struct command_case sites[] = {
    {"8 TIMEOUT 3 of 3", FRESH, {BYTES(3, 3), 0, 8, 0}},
    {"8 TIMEOUT 2 of 3 passes", FRESH, {BYTES(3, 2), 0, 0, 2}},
    {"8 CRASH 3 of 3", FRESH, {BYTES(4, 3), 0, 8, 0}},
    {"8 CRASH 2 of 3 passes", FRESH, {BYTES(4, 2), 0, 0, 2}},
    {"8 RECOVER 3 of 3", FRESH, {BYTES(5, 3), 0, 8, 0}},
    {"8 RECOVER 2 of 3 passes", {DOWN(2)}, {BYTES(5, 2), 0, 0, 2}},
    {"8 TIMEOUT 16 of 16", {SIXTEEN}, {BYTES(3, 16), 0, 8, 0}},
    {"8 TIMEOUT 15 of 16 passes", {SIXTEEN}, {BYTES(3, 15), 0, 0, 2}},
    {"8 CRASH 255 of 16", {SIXTEEN}, {BYTES(4, 255), 0, 8, 0}},
    {"8 DELIVER to 16 of 16, before 9", {SIXTEEN}, {BYTES(2, 0, 0, 16), 0, 8, 0}},
    {"9 DELIVER to 15 of 16, no row", {SIXTEEN}, {BYTES(2, 0, 0, 15), 0, 9, 0}},
    {"12 START while site 0 is down", {DOWN(0)}, {BYTES(1), 0, 12, 0}},
    {"12 START while site 1 is down passes", {DOWN(1)}, {BYTES(1), 0, 0, 1}},
    {"12 TIMEOUT of a site that is down", {DOWN(2)}, {BYTES(3, 2), 0, 12, 0}},
    {"12 TIMEOUT of another passes", {DOWN(2)}, {BYTES(3, 1), 0, 0, 2}},
    {"12 CRASH of a site that is down", {DOWN(2)}, {BYTES(4, 2), 0, 12, 0}},
    {"12 CRASH of another passes", {DOWN(2)}, {BYTES(4, 1), 0, 0, 2}},
    {"13 RECOVER while up", FRESH, {BYTES(5, 1), 0, 13, 0}},
    {"13 RECOVER while down passes", {DOWN(1)}, {BYTES(5, 1), 0, 0, 2}},
    {"13 RECOVER while another is down", {DOWN(2)}, {BYTES(5, 1), 0, 13, 0}},
    {"14 START while site 0 is active passes", FRESH, {BYTES(1), 0, 0, 1}},
    {"14 START while site 0 is aborted", {ABORTED}, {BYTES(1), 0, 14, 0}},
};

static const struct command_case room[] = {
    {"15 START with 1,023 rows passes", {ROWS(1023)}, {BYTES(1), 0, 0, 1}},
    {"15 START with 1,024 rows", {ROWS(1024)}, {BYTES(1), 0, 15, 0}},
    {"15 a TIMEOUT that sends nothing passes", {ROWS(1024)}, {BYTES(3, 2), 0, 0, 2}},
    {"15 CRASH with 1,024 rows passes", {ROWS(1024)}, {BYTES(4, 2), 0, 0, 2}},
    {"15 RECOVER with an empty log and 1,024 rows passes", {DOWN(2), ROWS(1024)}, {BYTES(5, 2), 0, 0, 2}},
    {"15 TIMEOUT aborted, 1,024 rows", {ABORTED, ROWS(1024)}, {BYTES(3, 0), 0, 15, 0}},
    {"15 TIMEOUT aborted, 1,023 rows passes", {ABORTED, ROWS(1023)}, {BYTES(3, 0), 0, 0, 2}},
};

static const struct command_case order[] = {
    {"14 before 15", {ABORTED, ROWS(1024)}, {BYTES(1), 0, 14, 0}},
    {"12 before 15", {DOWN(0), ROWS(1024)}, {BYTES(1), 0, 12, 0}},
    {"17 before 8", {ROWS(1025)}, {BYTES(3, 3), 0, 17, 0}},
    {"17 before 6", {ALL_ZERO}, {BYTES(1), 1, 17, 0}},
    {"17 the world of zeros", {ALL_ZERO}, {BYTES(1), 0, 17, 0}},
};

static const struct command_case short_store[] = {
    {"16 one command, a store of 20,479 bytes", FRESH, {BYTES(1), 0, 16, 0}},
    {"16 before 17", {ALL_ZERO}, {BYTES(1), 0, 16, 0}},
};

static const struct command_case least_store[] = {
    {"16 one command, a store of 20,480 bytes passes", FRESH, {BYTES(1), 0, 0, 1}},
};

static void play_all(const struct command_case *table, size_t count, size_t store_length)
{
    static const uint8_t no_row[QC_ROW_BYTES];
    size_t i;
    for (i = 0; i < count; i++) {
        begin(table[i].name);
        expect_command(&table[i].command, table[i].changes, no_row, store_length);
    }
}

/* A list of no bytes. */
static void empty(void)
{
    static const struct change none[CHANGES];
    static const uint8_t no_row[QC_ROW_BYTES];
    const struct command command = {no_row, 0, 0, 6, 0};
    begin("6 a place in an empty list");
    expect_command(&command, none, no_row, QC_STORE_BYTES);
}

void command_cases(void)
{
    play_all(reading, COUNT(reading), QC_STORE_BYTES);
    empty();
    play_all(sites, COUNT(sites), QC_STORE_BYTES);
    play_all(room, COUNT(room), QC_STORE_BYTES);
    play_all(order, COUNT(order), QC_STORE_BYTES);
    play_all(short_store, COUNT(short_store), QC_STORE_BYTES - 1);
    play_all(least_store, COUNT(least_store), QC_STORE_BYTES);
}

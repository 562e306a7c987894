/* Cases just inside and just outside of every number, of merging, of weights, of editions and of single sites, as tables: what the tables share.
 *
 * What a case must give is worked out by hand from documents 01 and 02, and it is played through the C functions. A refused command, report or step must
 * leave every buffer as it was, and refused lines and conversions their buffer. A difference is told with the case's name, and ends the program.
 */
#ifndef CASES_H
#define CASES_H

#include "../../include/quorum_read.h"

/* One for each file. */
void list_cases(void);
void command_cases(void);
void row_cases(void);
void world_cases(void);
void merging_cases(void);
void news_cases(void);
void report_cases(void);
void line_cases(void);
void bad_line_cases(void);
void long_line_cases(void);
void quiet_cases(void);
void weight_cases(void);
void edition_cases(void);
void weighing_cases(void);
void timeout_cases(void);
void convert_cases(void);
void bad_convert_cases(void);
void converted_cases(void);
void step_refusal_cases(void);
void step_cases(void);

/* The case that is played from here on; and what was got of it. */
void begin(const char *name);
void expect(const char *what, uint64_t got, uint64_t wanted);

#define COUNT(table) (sizeof(table) / sizeof(table)[0])

/* Bytes written in a table, and their length. */
#define BYTES(...) (const uint8_t[]){__VA_ARGS__}, sizeof((const uint8_t[]){__VA_ARGS__})

/* A number of 16 bits as two bytes of a list. */
#define NUMBER16(number) (uint8_t)((number) & 255), (uint8_t)((number) >> 8)

/* A header of the second edition, but for its weights. */
#define SECOND(n, c, a, willing) QC_SECOND_EDITION, n, NUMBER16(c), NUMBER16(a), NUMBER16(willing)

/* A whole list, and what playing it gives. */
struct list_case {
    const char *name;
    const uint8_t *list;
    size_t length;
    unsigned answer, events, place;
};

/* Plays it. Where the store's length or the list's, or its header, is refused, the world must be that of zeros and the store untouched. */
void expect_list(const struct list_case *one);
void expect_lists(const struct list_case *table, size_t count);
void expect_lists_in(size_t store_length, const struct list_case *table, size_t count);

/* The world after the last such list, and its store. */
const uint8_t *listed_world(void);
const uint8_t *listed_store(void);

/* What a world has other than a fresh one of three sites, C = A = 2, all willing, weights 1: a number at a place of its bytes, low byte first. */
struct change {
    unsigned at, bytes, value;
};

/* At most so many; the others are 0 and change nothing. */
#define CHANGES 16

#define LAYOUT_NUMBER(number) {0, 1, number}
#define SITES(n) {1, 1, n}
#define COMMIT_QUORUM(c) {2, 2, c}
#define ABORT_QUORUM(a) {4, 2, a}
#define WILLING(bits) {6, 2, bits}
#define ROWS(count) {8, 2, count}
#define NEWS(count) {10, 4, count}
#define RESERVED(at) {at, 1, 1}
#define WEIGHT(site, weight) {16 + (site), 1, weight}
#define WEIGHTS4(site, weight) {16 + (site), 4, 0x01010101u * (weight)}
#define WEIGHTS16(weight) WEIGHTS4(0, weight), WEIGHTS4(4, weight), WEIGHTS4(8, weight), WEIGHTS4(12, weight)
#define OF_SITE(site, at, value) {32 + 40 * (site) + (at), 1, value}
#define DOWN(site) OF_SITE(site, 0, 0)
#define UP(site) OF_SITE(site, 0, 1)
#define LEADS(site) OF_SITE(site, 1, QC_COORDINATOR)
#define PREPARED(site) OF_SITE(site, 2, 1)
#define GROUP(site, record) OF_SITE(site, 3, record)
#define OUTCOME(site, record) OF_SITE(site, 4, record)
#define CODE(site, of, code) OF_SITE(site, 8 + (of), code)
#define GROUP_CODE(site, of, code) OF_SITE(site, 24 + (of), code)
#define ALL_ZERO {1, QC_WORLD_BYTES - 1, 0}

void make_world(uint8_t *world, const struct change *changes);
void make_changes(uint8_t *bytes, const struct change *changes);

/* One command of a list; for one that is accepted, the place after it. */
struct command {
    const uint8_t *list;
    size_t length, at;
    unsigned answer;
    uint64_t place;
};

/* Plays the command in the world with these changes, and a store of this length: the bytes of a row 0, then zeros. Gives the world after it. */
const uint8_t *expect_command(const struct command *command, const struct change *changes, const uint8_t *row, size_t store_length);

/* The store after the last such command. */
const uint8_t *store_after(void);

#endif

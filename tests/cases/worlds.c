/* Number 17: the world handed in, to one command (CRASH 2) and to the report alike. */
#include <string.h>

#include "cases.h"

struct world_case {
    const char *name;
    struct change changes[CHANGES];
    unsigned answer;
};

#define SIZES(n, c, a, willing) SITES(n), COMMIT_QUORUM(c), ABORT_QUORUM(a), WILLING(willing)

/* Site 0 in a group: the record's first four codes and the site's first three. */
#define GROUPED(record, a, b, c, d, own, second, third)                                                                     \
    GROUP(0, record), GROUP_CODE(0, 0, a), GROUP_CODE(0, 1, b), GROUP_CODE(0, 2, c), GROUP_CODE(0, 3, d), CODE(0, 0, own), \
        CODE(0, 1, second), CODE(0, 2, third)

static const struct world_case worlds[] = {
    {"17 layout number 1", {LAYOUT_NUMBER(1)}, 17},
    {"17 layout number 2", {LAYOUT_NUMBER(2)}, 17},
    {"17 layout number 3 passes", {LAYOUT_NUMBER(3)}, 0},
    {"17 layout number 4", {LAYOUT_NUMBER(4)}, 17},
    {"17 reserved byte 14", {RESERVED(14)}, 17},
    {"17 reserved byte 15", {RESERVED(15)}, 17},
    {"17 no rows pass", {ROWS(0)}, 0},
    {"17 1,024 rows pass", {ROWS(1024)}, 0},
    {"17 1,025 rows", {ROWS(1025)}, 17},
    {"17 no news pass", {NEWS(0)}, 0},
    {"17 491,520 news pass", {NEWS(491520)}, 0},
    {"17 491,521 news", {NEWS(491521)}, 17},
    {"17 16,777,216 news", {NEWS(16777216)}, 17},
    {"17 n of 2", {SIZES(2, 2, 2, 0), WEIGHT(2, 0)}, 17},
    {"17 n of 3 passes", {SIZES(3, 2, 2, 0)}, 0},
    {"17 n of 16 passes", {SIZES(16, 15, 15, 0), WEIGHTS16(1)}, 0},
    {"17 n of 17", {SIZES(17, 15, 15, 0), WEIGHTS16(1)}, 17},
    {"17 C equal to n", {SIZES(3, 3, 2, 7)}, 17},
    {"17 A equal to n", {SIZES(3, 2, 3, 7)}, 17},
    {"17 C + A equal to n", {SIZES(4, 2, 2, 7), WEIGHT(3, 1)}, 17},
    {"17 C + A of n + 1 passes", {SIZES(4, 2, 3, 7), WEIGHT(3, 1)}, 0},
    {"17 willing bit at n", {SIZES(3, 2, 2, 8)}, 17},
    {"17 willing bit at n - 1 passes", {SIZES(3, 2, 2, 4)}, 0},
    {"17 code 5 passes", {CODE(0, 1, 5)}, 0},
    {"17 code 6", {CODE(0, 1, 6)}, 17},
    {"17 code 6 at site 2", {CODE(2, 0, 6)}, 17},
    {"17 entry n - 1 passes", {CODE(0, 2, 1)}, 0},
    {"17 entry n", {CODE(0, 3, 1)}, 17},
    {"17 own entry 1 while active", {CODE(1, 1, 1)}, 17},
    {"17 own entry 1 while prepared passes", {PREPARED(1), CODE(1, 1, 1)}, 0},
    {"17 own entry 0 while prepared", {PREPARED(1)}, 17},
    {"17 another's entry 1 while active passes", {CODE(1, 0, 1)}, 0},
    {"17 own entry 4 while committed passes", {PREPARED(1), OUTCOME(1, QC_COMMIT), CODE(1, 1, 4)}, 0},
    {"17 own entry 5 while committed", {PREPARED(1), OUTCOME(1, QC_COMMIT), CODE(1, 1, 5)}, 17},
    {"17 own entry 5 while aborted passes", {OUTCOME(1, QC_ABORT), CODE(1, 1, 5)}, 0},
    {"17 own entry 4 while aborted", {OUTCOME(1, QC_ABORT), CODE(1, 1, 4)}, 17},
    {"17 own entry 1 while aborted", {PREPARED(1), OUTCOME(1, QC_ABORT), CODE(1, 1, 1)}, 17},
    {"17 commit group 2 passes", {GROUPED(QC_COMMIT, 2, 1, 1, 0, 2, 1, 1)}, 0},
    {"17 commit group, own entry 3", {GROUPED(QC_COMMIT, 3, 1, 1, 0, 2, 1, 1)}, 17},
    {"17 commit group, own entry 0", {GROUPED(QC_COMMIT, 0, 1, 1, 0, 2, 1, 1)}, 17},
    {"17 commit group, entry n", {GROUPED(QC_COMMIT, 2, 1, 1, 1, 2, 1, 1)}, 17},
    {"17 commit group, code 6", {GROUPED(QC_COMMIT, 2, 6, 1, 0, 2, 1, 1)}, 17},
    {"17 commit group, code 5 passes", {GROUPED(QC_COMMIT, 2, 5, 1, 0, 2, 1, 1)}, 0},
    {"17 abort group 3 passes", {GROUPED(QC_ABORT, 3, 0, 0, 0, 3, 1, 1)}, 0},
    {"17 abort group, own entry 2", {GROUPED(QC_ABORT, 2, 0, 0, 0, 3, 1, 1)}, 17},
    {"17 abort group, entry n", {GROUPED(QC_ABORT, 3, 0, 0, 1, 3, 1, 1)}, 17},
    {"17 abort group, own entry not its state", {GROUPED(QC_ABORT, 3, 0, 0, 0, 2, 1, 1)}, 17},
    {"17 no group, vector of 0 passes", {GROUPED(QC_NO_RECORD, 0, 0, 0, 0, 0, 1, 0)}, 0},
    {"17 no group, an entry 1", {GROUPED(QC_NO_RECORD, 0, 1, 0, 0, 0, 1, 0)}, 17},
    {"17 no group, entry n", {GROUPED(QC_NO_RECORD, 0, 0, 0, 1, 0, 1, 0)}, 17},
    {"17 code 6 at a site from n up passes", {UP(3), CODE(3, 0, 6)}, 0},
    {"17 code 6 at site 15 passes", {UP(15), PREPARED(15), CODE(15, 0, 6), CODE(15, 15, 6)}, 0},
    {"17 the world of zeros for both", {ALL_ZERO}, 17},
};

/* Three weights. */
#define WEIGHTS(a, b, c) WEIGHT(0, a), WEIGHT(1, b), WEIGHT(2, c)

/* Weights of 3, 2 and 2 have C = A = 4 and no other quorums; those of 40, 30 and 31 have quorums from 41 to 61 of at least 102 together. */
static const struct world_case weights[] = {
    {"17 a weight of 0 at site 0", {WEIGHT(0, 0)}, 17},
    {"17 a weight of 0 at n - 1", {WEIGHT(2, 0)}, 17},
    {"17 a weight of 0 at n - 1, the others have quorums", {SIZES(4, 2, 2, 15)}, 17},
    {"17 a weight of 0 at site 0, the others have quorums", {SIZES(4, 2, 2, 15), WEIGHT(0, 0), WEIGHT(3, 1)}, 17},
    {"17 a weight of 1 at n - 1 passes", {SIZES(4, 2, 3, 15), WEIGHT(3, 1)}, 0},
    {"17 a weight of 1 at n", {WEIGHT(3, 1)}, 17},
    {"17 a weight of 1 at 15", {WEIGHT(15, 1)}, 17},
    {"17 a weight of 255 at n", {WEIGHT(3, 255)}, 17},
    {"17 a weight of 1 at 15 of 15", {SIZES(15, 8, 8, 0), WEIGHTS16(1)}, 17},
    {"17 a weight of 0 at 15 of 15 passes", {SIZES(15, 8, 8, 0), WEIGHTS16(1), WEIGHT(15, 0)}, 0},
    {"17 a weight of 0 at 15 of 16", {SIZES(16, 8, 9, 0), WEIGHTS16(1), WEIGHT(15, 0)}, 17},
    {"17 W of 2 h + 1 passes", {SIZES(3, 4, 4, 7), WEIGHTS(3, 2, 2)}, 0},
    {"17 W of 2 h + 1, C over W - h", {SIZES(3, 5, 4, 7), WEIGHTS(3, 2, 2)}, 17},
    {"17 W of 2 h + 1, A over W - h", {SIZES(3, 4, 5, 7), WEIGHTS(3, 2, 2)}, 17},
    {"17 W of 2 h + 1, C + A of W, C less", {SIZES(3, 3, 4, 7), WEIGHTS(3, 2, 2)}, 17},
    {"17 W of 2 h + 1, C + A of W, A less", {SIZES(3, 4, 3, 7), WEIGHTS(3, 2, 2)}, 17},
    {"17 W of 2 h, C = A = W - h", {SIZES(3, 2, 2, 7), WEIGHTS(2, 1, 1)}, 17},
    {"17 W of 2 h, C over W - h", {SIZES(3, 3, 2, 7), WEIGHTS(2, 1, 1)}, 17},
    {"17 W of 2 h, A over W - h", {SIZES(3, 2, 3, 7), WEIGHTS(2, 1, 1)}, 17},
    {"17 C = A = W - h passes", {SIZES(3, 61, 61, 7), WEIGHTS(40, 30, 31)}, 0},
    {"17 C of W - h + 1", {SIZES(3, 62, 61, 7), WEIGHTS(40, 30, 31)}, 17},
    {"17 A of W - h + 1", {SIZES(3, 61, 62, 7), WEIGHTS(40, 30, 31)}, 17},
    {"17 C + A of W + 1 passes, C the most", {SIZES(3, 61, 41, 7), WEIGHTS(40, 30, 31)}, 0},
    {"17 C + A of W + 1 passes, A the most", {SIZES(3, 41, 61, 7), WEIGHTS(40, 30, 31)}, 0},
    {"17 C + A of W, C the most", {SIZES(3, 61, 40, 7), WEIGHTS(40, 30, 31)}, 17},
    {"17 C + A of W, A the most", {SIZES(3, 40, 61, 7), WEIGHTS(40, 30, 31)}, 17},
    {"17 the heaviest last passes", {SIZES(3, 61, 61, 7), WEIGHTS(30, 31, 40)}, 0},
    {"17 the heaviest last, C of W - h + 1", {SIZES(3, 62, 61, 7), WEIGHTS(30, 31, 40)}, 17},
    {"17 quorums of 2 for three weights of 2", {SIZES(3, 2, 2, 7), WEIGHTS(2, 2, 2)}, 17},
    {"17 C of 258 is not 2", {SIZES(3, 258, 2, 7)}, 17},
    {"17 A of 258 is not 2", {SIZES(3, 2, 258, 7)}, 17},
    {"17 C of 65,535, C + A comes round to W + 1", {SIZES(3, 65535, 5, 7)}, 17},
    {"17 A of 65,535, C + A comes round to W + 1", {SIZES(3, 5, 65535, 7)}, 17},
    {"17 sixteen weights of 255, C = A = 3,825 pass", {SIZES(16, 3825, 3825, 0), WEIGHTS16(255)}, 0},
    {"17 sixteen weights of 255, C 3,826", {SIZES(16, 3826, 3825, 0), WEIGHTS16(255)}, 17},
    {"17 sixteen weights of 255, A 3,826", {SIZES(16, 3825, 3826, 0), WEIGHTS16(255)}, 17},
    {"17 sixteen weights of 255, C + A of 4,081 passes", {SIZES(16, 2041, 2040, 0), WEIGHTS16(255)}, 0},
    {"17 sixteen weights of 255, C + A of 4,080", {SIZES(16, 2040, 2040, 0), WEIGHTS16(255)}, 17},
    {"17 a willing bit at n beside weights", {SIZES(3, 4, 4, 8), WEIGHTS(3, 2, 2)}, 17},
};

static unsigned report_number(const struct change *changes)
{
    uint8_t world[QC_WORLD_BYTES], text[QC_REPORT_BYTES], result[QC_RESULT_BYTES];
    make_world(world, changes);
    return qc_report(world, sizeof world, 0, 0, 0, text, sizeof text, result, sizeof result);
}

static void hand_in(const struct world_case *table, size_t count)
{
    static const uint8_t no_row[QC_ROW_BYTES];
    static const uint8_t crash[] = {QC_CRASH, 2};
    size_t i;
    for (i = 0; i < count; i++) {
        const struct command command = {crash, sizeof crash, 0, table[i].answer, sizeof crash};
        begin(table[i].name);
        expect_command(&command, table[i].changes, no_row, QC_STORE_BYTES);
        expect("the report's number", report_number(table[i].changes), table[i].answer);
    }
}

/* Lengths of a world; 656 is that of layouts 1 and 2. */
static const struct {
    const char *name;
    size_t length;
    unsigned answer;
} lengths[] = {
    {"17 a world of no bytes", 0, 17},
    {"17 a world of 656 bytes", 656, 17},
    {"17 a world of 671 bytes", 671, 17},
    {"17 a world of 672 bytes passes", 672, 0},
    {"17 a world of 673 bytes", 673, 17},
};

static struct {
    uint8_t world[QC_WORLD_BYTES + 1], store[QC_STORE_BYTES], text[QC_REPORT_BYTES], result[QC_RESULT_BYTES];
} lent, untouched;

/* Each call with a world of this length; a refused one touches nothing. */
static void expect_length(size_t length, unsigned answer)
{
    static const struct change none[CHANGES];
    static const uint8_t list[] = {3, 2, 2, 7, 0, QC_START};
    memset(&lent, 7, sizeof lent);
    make_world(lent.world, none);
    untouched = lent;
    expect("the report's number",
           qc_report(lent.world, length, 0, 0, 0, lent.text, sizeof lent.text, lent.result, sizeof lent.result), answer);
    expect("the command's number",
           qc_play_command(lent.world, length, lent.store, sizeof lent.store, list, sizeof list, 5, lent.result, sizeof lent.result), answer);
    expect("the list's number",
           qc_play_list(list, sizeof list, lent.store, sizeof lent.store, lent.world, length, lent.result, sizeof lent.result), answer);
    expect("refused, and buffers unchanged", memcmp(&lent, &untouched, sizeof lent) == 0, answer != QC_ACCEPTED);
}

void world_cases(void)
{
    size_t i;
    hand_in(worlds, COUNT(worlds));
    hand_in(weights, COUNT(weights));
    for (i = 0; i < COUNT(lengths); i++) {
        begin(lengths[i].name);
        expect_length(lengths[i].length, lengths[i].answer);
    }
}

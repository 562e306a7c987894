/* The numbers of qc_step, just inside and just outside: 17 of lengths, terms and site, 6 to 8, 10 to 14, and which comes first. */
#include <string.h>

#include "cases.h"

/* Terms and the site behind them stand as a world's head and its site 0 do, so the changes of a world are made to them: those of site 0 are of the one
 * site. Without changes: n 3, C = A = 2, weights 1, own number 1, willing; a fresh site. */
#define OWN(number) {6, 1, number}
#define WILLS(willing) {7, 1, willing}
#define SIZES(n, c, a) SITES(n), COMMIT_QUORUM(c), ABORT_QUORUM(a)
#define FRESH {{0, 0, 0}}

/* This site as prepared, with its own code. */
#define IS_PREPARED PREPARED(0), CODE(0, 1, QC_PREPARED)

struct step_case {
    const char *name;
    struct change changes[CHANGES];
    const uint8_t *command;
    size_t length;
    unsigned answer;
};

enum { FILL = 0xee, SPARE = 1 };

/* Each with a byte to spare, which no call touches. */
static struct {
    uint8_t terms[QC_TERMS_BYTES + SPARE], site[QC_SITE_BYTES + SPARE], row[QC_ROW_BYTES + SPARE], result[QC_STEP_RESULT_BYTES + SPARE];
} lent, before;

static void lend(const struct change *changes)
{
    static const uint8_t three[] = {3, 3, 2, 0, 2, 0, 1, 1, 0, 0, 0, 0, 0, 0, 0, 0, 1, 1, 1};
    uint8_t bytes[QC_TERMS_BYTES + QC_SITE_BYTES] = {[QC_TERMS_BYTES] = 1};
    memcpy(bytes, three, sizeof three);
    make_changes(bytes, changes);
    memset(&lent, FILL, sizeof lent);
    memcpy(lent.terms, bytes, QC_TERMS_BYTES);
    memcpy(lent.site, bytes + QC_TERMS_BYTES, QC_SITE_BYTES);
    before = lent;
}

/* A refused step touches nothing; an accepted one writes its row and result whole, and nothing else but the site. */
static void expect_touched(unsigned answer)
{
    if (answer != QC_ACCEPTED) {
        expect("refused, buffers changed", memcmp(&lent, &before, sizeof lent) != 0, 0);
        return;
    }
    expect("terms changed", memcmp(lent.terms, before.terms, sizeof lent.terms) != 0, 0);
    expect("byte after the site", lent.site[QC_SITE_BYTES], FILL);
    expect("byte after the row", lent.row[QC_ROW_BYTES], FILL);
    expect("byte after the result", lent.result[QC_STEP_RESULT_BYTES], FILL);
    expect("last byte of the row not written", lent.row[QC_ROW_BYTES - 1] == FILL, 0);
    expect("reserved byte of the result", lent.result[3], 0);
}

static void give_step(const struct step_case *one)
{
    begin(one->name);
    lend(one->changes);
    expect("number", qc_step(lent.terms, QC_TERMS_BYTES, lent.site, QC_SITE_BYTES, one->command, one->length, lent.row, QC_ROW_BYTES, lent.result,
                             QC_STEP_RESULT_BYTES), one->answer);
    expect_touched(one->answer);
}

static void give_steps(const struct step_case *table, size_t count)
{
    size_t i;
    for (i = 0; i < count; i++)
        give_step(&table[i]);
}

/* Commands; the row is from site 0 to sites 1 and 2, with this kind and first code. */
#define START_IT BYTES(QC_START)
#define TIMEOUT_IT BYTES(QC_TIMEOUT)
#define CRASH_IT BYTES(QC_CRASH)
#define RECOVER_IT BYTES(QC_RECOVER)
#define ZEROS13 0, 0, 0, 0, 0, 0, 0, 0, 0, 0, 0, 0, 0
#define DELIVER_OF(kind, sender, destinations, a, b, c) BYTES(QC_DELIVER, kind, sender, NUMBER16(destinations), a, b, c, ZEROS13)
#define DELIVER_IT DELIVER_OF(QC_PREPARE, 0, 6, 1, 0, 0)

/* Lengths: those of terms, site, row and result. */
static const struct {
    const char *name;
    size_t terms, site, row, result;
    unsigned answer;
} lengths[] = {
    {"17 step, lengths 32, 40, 20, 8 pass", 32, 40, 20, 8, 0},
    {"17 step, terms of no bytes", 0, 40, 20, 8, 17},
    {"17 step, terms of 31 bytes", 31, 40, 20, 8, 17},
    {"17 step, terms of 33 bytes", 33, 40, 20, 8, 17},
    {"17 step, a site of no bytes", 32, 0, 20, 8, 17},
    {"17 step, a site of 39 bytes", 32, 39, 20, 8, 17},
    {"17 step, a site of 41 bytes", 32, 41, 20, 8, 17},
    {"17 step, a row of no bytes", 32, 40, 0, 8, 17},
    {"17 step, a row of 19 bytes", 32, 40, 19, 8, 17},
    {"17 step, a row of 21 bytes", 32, 40, 21, 8, 17},
    {"17 step, a result of no bytes", 32, 40, 20, 0, 17},
    {"17 step, a result of 7 bytes", 32, 40, 20, 7, 17},
    {"17 step, a result of 9 bytes", 32, 40, 20, 9, 17},
};

static void give_lengths(void)
{
    static const struct change none[CHANGES];
    static const uint8_t timeout[] = {QC_TIMEOUT};
    size_t i;
    for (i = 0; i < COUNT(lengths); i++) {
        begin(lengths[i].name);
        lend(none);
        expect("number", qc_step(lent.terms, lengths[i].terms, lent.site, lengths[i].site, timeout, sizeof timeout, lent.row, lengths[i].row,
                                 lent.result, lengths[i].result), lengths[i].answer);
        expect_touched(lengths[i].answer);
    }
}

static const struct step_case layout[] = {
    {"17 step, layout number 2", {LAYOUT_NUMBER(2)}, TIMEOUT_IT, 17},
    {"17 step, layout number 3 passes", {LAYOUT_NUMBER(3)}, TIMEOUT_IT, 0},
    {"17 step, layout number 4", {LAYOUT_NUMBER(4)}, TIMEOUT_IT, 17},
    {"17 step, willing 0 passes", {WILLS(0)}, TIMEOUT_IT, 0},
    {"17 step, willing 2", {WILLS(2)}, TIMEOUT_IT, 17},
    {"17 step, willing 255", {WILLS(255)}, TIMEOUT_IT, 17},
    {"17 step, reserved byte 8", {RESERVED(8)}, TIMEOUT_IT, 17},
    {"17 step, reserved byte 9", {RESERVED(9)}, TIMEOUT_IT, 17},
    {"17 step, reserved byte 10", {RESERVED(10)}, TIMEOUT_IT, 17},
    {"17 step, reserved byte 11", {RESERVED(11)}, TIMEOUT_IT, 17},
    {"17 step, reserved byte 12", {RESERVED(12)}, TIMEOUT_IT, 17},
    {"17 step, reserved byte 13", {RESERVED(13)}, TIMEOUT_IT, 17},
    {"17 step, reserved byte 14", {RESERVED(14)}, TIMEOUT_IT, 17},
    {"17 step, reserved byte 15", {RESERVED(15)}, TIMEOUT_IT, 17},
    {"17 step, up 2", {OF_SITE(0, 0, 2)}, TIMEOUT_IT, 17},
    {"17 step, role 1 passes", {LEADS(0)}, TIMEOUT_IT, 0},
    {"17 step, role 2", {OF_SITE(0, 1, 2)}, TIMEOUT_IT, 17},
    {"17 step, prepare record 2", {OF_SITE(0, 2, 2), CODE(0, 1, 1)}, TIMEOUT_IT, 17},
    {"17 step, group record 3", {GROUP(0, 3)}, TIMEOUT_IT, 17},
    {"17 step, outcome record 3", {OUTCOME(0, 3)}, TIMEOUT_IT, 17},
    {"17 step, a site's reserved byte 5", {OF_SITE(0, 5, 1)}, TIMEOUT_IT, 17},
    {"17 step, a site's reserved byte 6", {OF_SITE(0, 6, 1)}, TIMEOUT_IT, 17},
    {"17 step, a site's reserved byte 7", {OF_SITE(0, 7, 1)}, TIMEOUT_IT, 17},
};

#define WEIGHTS(a, b, c) WEIGHT(0, a), WEIGHT(1, b), WEIGHT(2, c)

/* Weights of 40, 30 and 31 have quorums from 41 to 61 of at least 102 together. */
static const struct step_case sizes[] = {
    {"17 step, n of 2", {SIZES(2, 2, 2), WEIGHT(2, 0)}, TIMEOUT_IT, 17},
    {"17 step, n of 0", {SIZES(0, 2, 2), WEIGHTS(0, 0, 0)}, TIMEOUT_IT, 17},
    {"17 step, n of 16 passes", {SIZES(16, 15, 15), WEIGHTS16(1)}, TIMEOUT_IT, 0},
    {"17 step, n of 17", {SIZES(17, 15, 15), WEIGHTS16(1)}, TIMEOUT_IT, 17},
    {"17 step, n of 255", {SIZES(255, 15, 15), WEIGHTS16(1)}, TIMEOUT_IT, 17},
    {"17 step, a weight of 0 at site 0", {WEIGHT(0, 0)}, TIMEOUT_IT, 17},
    {"17 step, a weight of 0 at its own site", {SIZES(4, 2, 2), WEIGHT(1, 0), WEIGHT(3, 1)}, TIMEOUT_IT, 17},
    {"17 step, a weight of 0 at n - 1", {SIZES(4, 2, 2)}, TIMEOUT_IT, 17},
    {"17 step, a weight of 1 at n - 1 passes", {SIZES(4, 2, 3), WEIGHT(3, 1)}, TIMEOUT_IT, 0},
    {"17 step, a weight of 1 at n", {WEIGHT(3, 1)}, TIMEOUT_IT, 17},
    {"17 step, a weight of 1 at 15", {WEIGHT(15, 1)}, TIMEOUT_IT, 17},
    {"17 step, C = A = W - h pass", {SIZES(3, 61, 61), WEIGHTS(40, 30, 31)}, TIMEOUT_IT, 0},
    {"17 step, C of W - h + 1", {SIZES(3, 62, 61), WEIGHTS(40, 30, 31)}, TIMEOUT_IT, 17},
    {"17 step, A of W - h + 1", {SIZES(3, 61, 62), WEIGHTS(40, 30, 31)}, TIMEOUT_IT, 17},
    {"17 step, C + A of W + 1 passes", {SIZES(3, 61, 41), WEIGHTS(40, 30, 31)}, TIMEOUT_IT, 0},
    {"17 step, C + A of W, C the most", {SIZES(3, 61, 40), WEIGHTS(40, 30, 31)}, TIMEOUT_IT, 17},
    {"17 step, C + A of W, A the most", {SIZES(3, 40, 61), WEIGHTS(40, 30, 31)}, TIMEOUT_IT, 17},
    {"17 step, C of 258 is not 2", {SIZES(3, 258, 2)}, TIMEOUT_IT, 17},
    {"17 step, A of 258 is not 2", {SIZES(3, 2, 258)}, TIMEOUT_IT, 17},
    {"17 step, C of 65,535, C + A comes round to W + 1", {SIZES(3, 65535, 5)}, TIMEOUT_IT, 17},
    {"17 step, sixteen weights of 255, C = A = 3,825 pass", {SIZES(16, 3825, 3825), WEIGHTS16(255)}, TIMEOUT_IT, 0},
    {"17 step, sixteen weights of 255, C 3,826", {SIZES(16, 3826, 3825), WEIGHTS16(255)}, TIMEOUT_IT, 17},
};

/* This site, number 1, in a group: the record's first four codes and its own state. */
#define GROUPED(record, a, b, c, d, own) \
    GROUP(0, record), GROUP_CODE(0, 0, a), GROUP_CODE(0, 1, b), GROUP_CODE(0, 2, c), GROUP_CODE(0, 3, d), CODE(0, 1, own)

static const struct step_case sites[] = {
    {"17 step, another's code 5 passes", {CODE(0, 2, 5)}, CRASH_IT, 0},
    {"17 step, another's code 6", {CODE(0, 2, 6)}, CRASH_IT, 17},
    {"17 step, another's code 255", {CODE(0, 0, 255)}, CRASH_IT, 17},
    {"17 step, entry n", {CODE(0, 3, 1)}, CRASH_IT, 17},
    {"17 step, entry 15", {CODE(0, 15, 1)}, CRASH_IT, 17},
    {"17 step, entry 15 of 16 passes", {SIZES(16, 15, 15), WEIGHTS16(1), CODE(0, 15, 1)}, CRASH_IT, 0},
    {"17 step, own entry 1 while active", {CODE(0, 1, 1)}, CRASH_IT, 17},
    {"17 step, entry 1 of site 0 is not its own", {CODE(0, 0, 1)}, CRASH_IT, 0},
    {"17 step, entry 1 of site 0 is its own", {OWN(0), CODE(0, 0, 1)}, CRASH_IT, 17},
    {"17 step, own entry 1 while prepared passes", {IS_PREPARED}, CRASH_IT, 0},
    {"17 step, own entry 0 while prepared", {PREPARED(0)}, CRASH_IT, 17},
    {"17 step, own entry 4 while committed passes", {OUTCOME(0, QC_COMMIT), CODE(0, 1, 4)}, CRASH_IT, 0},
    {"17 step, own entry 5 while committed", {OUTCOME(0, QC_COMMIT), CODE(0, 1, 5)}, CRASH_IT, 17},
    {"17 step, own entry 4 while aborted", {OUTCOME(0, QC_ABORT), CODE(0, 1, 4)}, CRASH_IT, 17},
    {"17 step, own entry 1 while prepared and aborted", {PREPARED(0), OUTCOME(0, QC_ABORT), CODE(0, 1, 1)}, CRASH_IT, 17},
    {"17 step, commit group passes", {GROUPED(QC_COMMIT, 1, 2, 1, 0, 2)}, CRASH_IT, 0},
    {"17 step, commit group, own entry not its group", {GROUPED(QC_COMMIT, 1, 3, 1, 0, 2)}, CRASH_IT, 17},
    {"17 step, commit group, own entry 0", {GROUPED(QC_COMMIT, 1, 0, 1, 0, 2)}, CRASH_IT, 17},
    {"17 step, commit group, its entry at site 0", {GROUPED(QC_COMMIT, 2, 1, 1, 0, 2)}, CRASH_IT, 17},
    {"17 step, commit group, a code 5 passes", {GROUPED(QC_COMMIT, 1, 2, 5, 0, 2)}, CRASH_IT, 0},
    {"17 step, commit group, a code 6", {GROUPED(QC_COMMIT, 1, 2, 6, 0, 2)}, CRASH_IT, 17},
    {"17 step, commit group, entry n", {GROUPED(QC_COMMIT, 1, 2, 1, 1, 2)}, CRASH_IT, 17},
    {"17 step, commit group, state of the abort group", {GROUPED(QC_COMMIT, 1, 2, 1, 0, 3)}, CRASH_IT, 17},
    {"17 step, abort group passes", {GROUPED(QC_ABORT, 0, 3, 0, 0, 3)}, CRASH_IT, 0},
    {"17 step, abort group, own entry not its group", {GROUPED(QC_ABORT, 0, 2, 0, 0, 3)}, CRASH_IT, 17},
    {"17 step, a group and an outcome pass", {GROUPED(QC_ABORT, 0, 3, 0, 0, 4), OUTCOME(0, QC_COMMIT)}, CRASH_IT, 0},
    {"17 step, no group, an entry 1", {GROUPED(QC_NO_RECORD, 1, 0, 0, 0, 0)}, CRASH_IT, 17},
    {"17 step, no group, entry 15", {GROUP_CODE(0, 15, 1)}, CRASH_IT, 17},
    {"17 step, a site of zeros passes as one that is down", {DOWN(0)}, RECOVER_IT, 0},
};

/* 6 to 8. From n up the site's own number is 8, and of the site only the layout is asked. */
static const struct step_case reading[] = {
    {"6 step, command 0", FRESH, BYTES(0), 6},
    {"6 step, command 6", FRESH, BYTES(6), 6},
    {"6 step, command 255", FRESH, BYTES(255, 1), 6},
    {"6 step, START with more bytes passes", {OWN(0)}, BYTES(1, 255, 0), 0},
    {"6 step, TIMEOUT with more bytes passes", FRESH, BYTES(3, 255), 0},
    {"7 step, DELIVER and nothing more", FRESH, BYTES(2), 7},
    {"7 step, DELIVER and 19 bytes", FRESH, BYTES(QC_DELIVER, QC_PREPARE, 0, 6, 0, 1, 0, 0, 0, 0, 0, 0, 0, 0, 0, 0, 0, 0, 0, 0), 7},
    {"7 step, DELIVER and 20 bytes pass", FRESH, DELIVER_IT, 0},
    {"7 step, DELIVER and 22 bytes pass", FRESH, BYTES(QC_DELIVER, QC_PREPARE, 0, 6, 0, 1, 0, 0, ZEROS13, 255, 255), 0},
    {"8 step, site 3 of 3", {OWN(3)}, TIMEOUT_IT, 8},
    {"8 step, site 2 of 3 passes", {OWN(2)}, TIMEOUT_IT, 0},
    {"8 step, site 255", {OWN(255)}, CRASH_IT, 8},
    {"8 step, site 16 of 16", {SIZES(16, 15, 15), WEIGHTS16(1), OWN(16)}, TIMEOUT_IT, 8},
    {"8 step, site 15 of 16 passes", {SIZES(16, 15, 15), WEIGHTS16(1), OWN(15)}, TIMEOUT_IT, 0},
    {"8 step, site 3 of 3, START", {OWN(3)}, START_IT, 8},
    {"8 step, site 3 of 3, DELIVER", {OWN(3)}, DELIVER_OF(QC_PREPARE, 0, 15, 1, 0, 0), 8},
    {"8 step, site 3 of 3, CRASH", {OWN(3)}, CRASH_IT, 8},
    {"8 step, site 3 of 3, RECOVER", {OWN(3), DOWN(0)}, RECOVER_IT, 8},
    {"8 step, site 3 of 3, a code 6 and an entry n", {OWN(3), CODE(0, 1, 6), CODE(0, 3, 1)}, TIMEOUT_IT, 8},
    {"8 step, site 3 of 3, a group record's codes without a group", {OWN(3), GROUP_CODE(0, 0, 1)}, TIMEOUT_IT, 8},
    {"17 step, site 3 of 3, layout number 4", {OWN(3), LAYOUT_NUMBER(4)}, TIMEOUT_IT, 17},
    {"17 step, site 3 of 3, willing 2", {OWN(3), WILLS(2)}, TIMEOUT_IT, 17},
    {"17 step, site 3 of 3, reserved byte 15", {OWN(3), RESERVED(15)}, TIMEOUT_IT, 17},
    {"17 step, site 3 of 3, up 2", {OWN(3), OF_SITE(0, 0, 2)}, TIMEOUT_IT, 17},
    {"17 step, site 3 of 3, role 2", {OWN(3), OF_SITE(0, 1, 2)}, TIMEOUT_IT, 17},
    {"17 step, site 3 of 3, prepare record 2", {OWN(3), OF_SITE(0, 2, 2)}, TIMEOUT_IT, 17},
    {"17 step, site 3 of 3, group record 3", {OWN(3), GROUP(0, 3)}, TIMEOUT_IT, 17},
    {"17 step, site 3 of 3, outcome record 3", {OWN(3), OUTCOME(0, 3)}, TIMEOUT_IT, 17},
    {"17 step, site 3 of 3, a site's reserved byte 5", {OWN(3), OF_SITE(0, 5, 1)}, TIMEOUT_IT, 17},
    {"17 step, site 3 of 3, a site's reserved byte 7", {OWN(3), OF_SITE(0, 7, 1)}, TIMEOUT_IT, 17},
    {"17 step, site 3 of 3, a weight of 0", {OWN(3), WEIGHT(0, 0)}, TIMEOUT_IT, 17},
    {"17 step, site 3 of 3, C + A of W", {OWN(3), COMMIT_QUORUM(1)}, TIMEOUT_IT, 17},
};

static const struct step_case rows[] = {
    {"10 step, kind 0", FRESH, DELIVER_OF(0, 0, 6, 1, 0, 0), 10},
    {"10 step, kind 1 passes", FRESH, DELIVER_OF(1, 0, 6, 1, 0, 0), 0},
    {"10 step, kind 2 passes", FRESH, DELIVER_OF(2, 0, 6, 1, 0, 0), 0},
    {"10 step, kind 3 passes", FRESH, DELIVER_OF(3, 0, 6, 1, 0, 0), 0},
    {"10 step, kind 4 passes", FRESH, DELIVER_OF(4, 0, 6, 1, 0, 0), 0},
    {"10 step, kind 5 passes", FRESH, DELIVER_OF(5, 0, 6, 1, 0, 0), 0},
    {"10 step, kind 6 passes", FRESH, DELIVER_OF(6, 0, 6, 1, 0, 0), 0},
    {"10 step, kind 7 passes", FRESH, DELIVER_OF(7, 0, 6, 1, 0, 0), 0},
    {"10 step, kind 8", FRESH, DELIVER_OF(8, 0, 6, 1, 0, 0), 10},
    {"10 step, kind 255", FRESH, DELIVER_OF(255, 0, 6, 1, 0, 0), 10},
    {"10 step, sender 2 of 3 passes", FRESH, DELIVER_OF(1, 2, 6, 1, 0, 0), 0},
    {"10 step, sender 3 of 3", FRESH, DELIVER_OF(1, 3, 6, 1, 0, 0), 10},
    {"10 step, sender 255", FRESH, DELIVER_OF(1, 255, 6, 1, 0, 0), 10},
    {"10 step, code 6 at site 0", FRESH, DELIVER_OF(1, 0, 6, 6, 0, 0), 10},
    {"10 step, code 6 at its own site", FRESH, DELIVER_OF(1, 0, 6, 1, 6, 0), 10},
    {"10 step, code 6 at n - 1", FRESH, DELIVER_OF(1, 0, 6, 1, 0, 6), 10},
    {"10 step, code 5 at n - 1 passes", FRESH, DELIVER_OF(1, 0, 6, 1, 0, 5), 0},
    {"10 step, code 6 at n passes", FRESH, BYTES(QC_DELIVER, 1, 0, 6, 0, 1, 0, 0, 6, 0, 0, 0, 0, 0, 0, 0, 0, 0, 0, 0, 0), 0},
    {"10 step, code 255 at 15 passes", FRESH, BYTES(QC_DELIVER, 1, 0, 6, 0, 1, 0, 0, 0, 0, 0, 0, 0, 0, 0, 0, 0, 0, 0, 0, 255), 0},
    {"11 step, this site alone passes", FRESH, DELIVER_OF(1, 0, 2, 1, 0, 0), 0},
    {"11 step, all but this site", FRESH, DELIVER_OF(1, 0, 0xfffd, 1, 0, 0), 11},
    {"11 step, nobody", FRESH, DELIVER_OF(1, 0, 0, 1, 0, 0), 11},
    {"11 step, site 15 passes", {SIZES(16, 15, 15), WEIGHTS16(1), OWN(15)}, DELIVER_OF(1, 0, 0x8000, 1, 0, 0), 0},
    {"11 step, all but site 15", {SIZES(16, 15, 15), WEIGHTS16(1), OWN(15)}, DELIVER_OF(1, 0, 0x7fff, 1, 0, 0), 11},
    {"11 step, site 8 is not site 0", {SIZES(16, 15, 15), WEIGHTS16(1), OWN(0)}, DELIVER_OF(1, 1, 0x0100, 1, 0, 0), 11},
    {"12 step, DELIVER while down", {DOWN(0)}, DELIVER_IT, 12},
};

static const struct step_case states[] = {
    {"12 step, START while down", {OWN(0), DOWN(0)}, START_IT, 12},
    {"12 step, TIMEOUT while down", {DOWN(0)}, TIMEOUT_IT, 12},
    {"12 step, CRASH while down", {DOWN(0)}, CRASH_IT, 12},
    {"12 step, CRASH while up passes", FRESH, CRASH_IT, 0},
    {"13 step, RECOVER while up", FRESH, RECOVER_IT, 13},
    {"13 step, RECOVER while down passes", {DOWN(0)}, RECOVER_IT, 0},
    {"14 step, START at site 0 passes", {OWN(0)}, START_IT, 0},
    {"14 step, START at site 0, unwilling, passes", {OWN(0), WILLS(0)}, START_IT, 0},
    {"14 step, START at site 1", FRESH, START_IT, 14},
    {"14 step, START at site 2", {OWN(2)}, START_IT, 14},
    {"14 step, START at site 15 of 16", {SIZES(16, 15, 15), WEIGHTS16(1), OWN(15)}, START_IT, 14},
    {"14 step, START while prepared", {OWN(0), PREPARED(0), CODE(0, 0, 1)}, START_IT, 14},
    {"14 step, START while in the abort group", {OWN(0), GROUP(0, QC_ABORT), GROUP_CODE(0, 0, 3), CODE(0, 0, 3)}, START_IT, 14},
    {"14 step, START while aborted", {OWN(0), OUTCOME(0, QC_ABORT), CODE(0, 0, 5)}, START_IT, 14},
    {"14 step, START as a coordinator that is active passes", {OWN(0), LEADS(0)}, START_IT, 0},
};

/* Two that apply: the first is given. */
static const struct step_case order[] = {
    {"17 step, before 6", {WEIGHT(0, 0)}, BYTES(6), 17},
    {"17 step, of the site before 6", {CODE(0, 2, 6)}, BYTES(6), 17},
    {"17 step, before 7", {CODE(0, 2, 6)}, BYTES(2), 17},
    {"17 step, before 8", {OWN(3), SITES(2)}, TIMEOUT_IT, 17},
    {"17 step, before 12", {DOWN(0), PREPARED(0)}, TIMEOUT_IT, 17},
    {"6 step, before 8", {OWN(3)}, BYTES(0), 6},
    {"7 step, before 8", {OWN(3)}, BYTES(2, 1), 7},
    {"7 step, before 12", {DOWN(0)}, BYTES(2, 1), 7},
    {"8 step, before 10", {OWN(3)}, DELIVER_OF(0, 0, 6, 1, 0, 0), 8},
    {"8 step, before 12", {OWN(3), DOWN(0)}, TIMEOUT_IT, 8},
    {"8 step, before 13", {OWN(3)}, RECOVER_IT, 8},
    {"10 step, before 11", FRESH, DELIVER_OF(0, 0, 0, 1, 0, 0), 10},
    {"10 step, before 12", {DOWN(0)}, DELIVER_OF(1, 3, 6, 1, 0, 0), 10},
    {"11 step, before 12", {DOWN(0)}, DELIVER_OF(1, 0, 4, 1, 0, 0), 11},
    {"12 step, before 14 at site 1", {DOWN(0)}, START_IT, 12},
    {"12 step, before 14 at site 0, aborted", {OWN(0), DOWN(0), OUTCOME(0, QC_ABORT), CODE(0, 0, 5)}, START_IT, 12},
};

/* A command of no bytes. */
static void give_nothing(void)
{
    static const uint8_t unread[] = {QC_TIMEOUT};
    const struct step_case nothing = {"6 step, no byte", FRESH, unread, 0, 6};
    const struct step_case beyond = {"6 step, no byte, before 8", {OWN(3)}, unread, 0, 6};
    give_step(&nothing);
    give_step(&beyond);
}

void step_refusal_cases(void)
{
    give_lengths();
    give_steps(layout, COUNT(layout));
    give_steps(sizes, COUNT(sizes));
    give_steps(sites, COUNT(sites));
    give_steps(reading, COUNT(reading));
    give_nothing();
    give_steps(rows, COUNT(rows));
    give_steps(states, COUNT(states));
    give_steps(order, COUNT(order));
}

/* What a TIMEOUT weighs: a coordinator's group in a world that is handed in; and what it does not weigh. */
#include "cases.h"

/* A TIMEOUT of a site in a world handed in: the row that it sends, and the site's group and outcome. */
struct timeout {
    const char *name;
    struct change changes[CHANGES];
    uint8_t site;
    unsigned kind, group, outcome;
};

/* Three sites: their weights, and C and A alike. */
#define WEIGHED(a, b, c, quorum) WEIGHT(0, a), WEIGHT(1, b), WEIGHT(2, c), COMMIT_QUORUM(quorum), ABORT_QUORUM(quorum)

/* Site 0 as a coordinator in a group, or prepared, and its three codes. */
#define IN_COMMIT(a, b, c) LEADS(0), PREPARED(0), GROUP(0, QC_COMMIT), GROUP_CODE(0, 0, 2), CODE(0, 0, a), CODE(0, 1, b), CODE(0, 2, c)
#define IN_ABORT(a, b, c) LEADS(0), GROUP(0, QC_ABORT), GROUP_CODE(0, 0, 3), CODE(0, 0, a), CODE(0, 1, b), CODE(0, 2, c)
#define ALL_PREPARED(a, b, c) LEADS(0), PREPARED(0), CODE(0, 0, a), CODE(0, 1, b), CODE(0, 2, c)

#define COMMITS QC_OUTCOME, QC_COMMIT, QC_COMMIT
#define ABORTS QC_OUTCOME, QC_ABORT, QC_ABORT
#define JOINS_COMMIT QC_JOIN_COMMIT, QC_COMMIT, QC_NO_RECORD
#define JOINS_ABORT QC_JOIN_ABORT, QC_ABORT, QC_NO_RECORD

/* Only the group's own code weighs. */
static const struct timeout groups[] = {
    {"weighing 2, 2, 0: 5 of 4", {WEIGHED(3, 2, 2, 4), IN_COMMIT(2, 2, 0)}, 0, COMMITS},
    {"weighing 2, 0, 2: 5 of 4", {WEIGHED(3, 2, 2, 4), IN_COMMIT(2, 0, 2)}, 0, COMMITS},
    {"weighing 2, 0, 0: 3 of 4", {WEIGHED(3, 2, 2, 4), IN_COMMIT(2, 0, 0)}, 0, JOINS_COMMIT},
    {"weighing 2, 1, 1: 3 of 4", {WEIGHED(3, 2, 2, 4), IN_COMMIT(2, 1, 1)}, 0, JOINS_COMMIT},
    {"weighing 2, 3, 3: 3 of 4", {WEIGHED(3, 2, 2, 4), IN_COMMIT(2, 3, 3)}, 0, JOINS_COMMIT},
    {"weighing 2, 4, 4: 3 of 4", {WEIGHED(3, 2, 2, 4), IN_COMMIT(2, 4, 4)}, 0, JOINS_COMMIT},
    {"weighing 2, 5, 5: 3 of 4", {WEIGHED(3, 2, 2, 4), IN_COMMIT(2, 5, 5)}, 0, JOINS_COMMIT},
    {"weighing 2, 3, 2: 5 of 4", {WEIGHED(3, 2, 2, 4), IN_COMMIT(2, 3, 2)}, 0, COMMITS},
    {"weighing 2, 2, 0: 4 of 4", {WEIGHED(2, 2, 3, 4), IN_COMMIT(2, 2, 0)}, 0, COMMITS},
    {"weighing 2, 0, 2: 4 of 4", {WEIGHED(2, 3, 2, 4), IN_COMMIT(2, 0, 2)}, 0, COMMITS},
    {"weighing 3, 3, 0: 5 of 4", {WEIGHED(3, 2, 2, 4), IN_ABORT(3, 3, 0)}, 0, ABORTS},
    {"weighing 3, 0, 3: 5 of 4", {WEIGHED(3, 2, 2, 4), IN_ABORT(3, 0, 3)}, 0, ABORTS},
    {"weighing 3, 0, 0: 3 of 4", {WEIGHED(3, 2, 2, 4), IN_ABORT(3, 0, 0)}, 0, JOINS_ABORT},
    {"weighing 3, 1, 1: 3 of 4", {WEIGHED(3, 2, 2, 4), IN_ABORT(3, 1, 1)}, 0, JOINS_ABORT},
    {"weighing 3, 2, 2: 3 of 4", {WEIGHED(3, 2, 2, 4), IN_ABORT(3, 2, 2)}, 0, JOINS_ABORT},
    {"weighing 3, 4, 4: 3 of 4", {WEIGHED(3, 2, 2, 4), IN_ABORT(3, 4, 4)}, 0, JOINS_ABORT},
    {"weighing 3, 5, 5: 3 of 4", {WEIGHED(3, 2, 2, 4), IN_ABORT(3, 5, 5)}, 0, JOINS_ABORT},
    {"weighing 3, 2, 3: 5 of 4", {WEIGHED(3, 2, 2, 4), IN_ABORT(3, 2, 3)}, 0, ABORTS},
    {"weighing 3, 3, 0: 4 of 4", {WEIGHED(2, 2, 3, 4), IN_ABORT(3, 3, 0)}, 0, ABORTS},
    {"weighing 3, 0, 3: 4 of 4", {WEIGHED(2, 3, 2, 4), IN_ABORT(3, 0, 3)}, 0, ABORTS},
};

/* Before a group is joined codes are asked and not weighed; and a subordinate decides nothing, whatever its group weighs. */
static const struct timeout unweighed[] = {
    {"not weighed: all three prepared", {WEIGHED(3, 3, 1, 4), ALL_PREPARED(1, 1, 1)}, 0, JOINS_COMMIT},
    {"not weighed: all prepared but the lightest", {WEIGHED(3, 3, 1, 4), ALL_PREPARED(1, 1, 0)}, 0, JOINS_ABORT},
    {"not weighed: the lightest in the commit group", {WEIGHED(3, 3, 1, 4), ALL_PREPARED(1, 0, 2)}, 0, JOINS_COMMIT},
    {"not weighed: the lightest in the abort group", {WEIGHED(3, 3, 1, 4), ALL_PREPARED(1, 1, 3)}, 0, JOINS_ABORT},
    {"not weighed: a subordinate in the commit group", {WEIGHED(3, 2, 2, 4), IN_COMMIT(2, 2, 2), OF_SITE(0, 1, QC_SUBORDINATE)}, 0, JOINS_COMMIT},
    {"not weighed: a subordinate in the abort group", {WEIGHED(3, 2, 2, 4), IN_ABORT(3, 3, 3), OF_SITE(0, 1, QC_SUBORDINATE)}, 0, JOINS_ABORT},
};

/* Site 2 of three as coordinator in a group, with its code of site 0; site 15 of sixteen that weigh 255, likewise. */
#define LAST_OF_THREE(record, code, first) LEADS(2), GROUP(2, record), GROUP_CODE(2, 2, code), CODE(2, 2, code), CODE(2, 0, first)
#define LAST_OF_SIXTEEN(c, a, record, code, first)                                                                                         \
    SITES(16), COMMIT_QUORUM(c), ABORT_QUORUM(a), WEIGHTS16(255), UP(15), LEADS(15), GROUP(15, record), GROUP_CODE(15, 15, code), \
        CODE(15, 15, code), CODE(15, 0, first)

static const struct timeout last_sites[] = {
    {"site 2 weighs 2 and 1: 3 of 3", {WEIGHED(1, 2, 2, 3), LAST_OF_THREE(QC_COMMIT, 2, 2)}, 2, COMMITS},
    {"site 2 weighs 2: 2 of 3", {WEIGHED(1, 2, 2, 3), LAST_OF_THREE(QC_COMMIT, 2, 1)}, 2, JOINS_COMMIT},
    {"site 2 weighs 2 and 1 for abort: 3 of 3", {WEIGHED(1, 2, 2, 3), LAST_OF_THREE(QC_ABORT, 3, 3)}, 2, ABORTS},
    {"site 2 weighs 2 for abort: 2 of 3", {WEIGHED(1, 2, 2, 3), LAST_OF_THREE(QC_ABORT, 3, 1)}, 2, JOINS_ABORT},
    {"site 15 and site 0: 510 of 256", {LAST_OF_SIXTEEN(256, 3825, QC_COMMIT, 2, 2)}, 15, COMMITS},
    {"site 15 alone: 255 of 256", {LAST_OF_SIXTEEN(256, 3825, QC_COMMIT, 2, 1)}, 15, JOINS_COMMIT},
    {"site 15 and site 0 for abort: 510 of 256", {LAST_OF_SIXTEEN(3825, 256, QC_ABORT, 3, 3)}, 15, ABORTS},
    {"site 15 alone for abort: 255 of 256", {LAST_OF_SIXTEEN(3825, 256, QC_ABORT, 3, 1)}, 15, JOINS_ABORT},
};

static void time_out(const struct timeout *one)
{
    static const uint8_t no_row[QC_ROW_BYTES];
    const uint8_t list[] = {QC_TIMEOUT, one->site};
    const struct command command = {list, sizeof list, 0, QC_ACCEPTED, sizeof list};
    const uint8_t *world;
    begin(one->name);
    world = expect_command(&command, one->changes, no_row, QC_STORE_BYTES);
    expect("rows", qc_row_count(world), 1);
    expect("kind", qc_row_kind(store_after(), 0), one->kind);
    expect("group", qc_log_group(world, one->site), one->group);
    expect("outcome", qc_log_outcome(world, one->site), one->outcome);
}

static void time_out_all(const struct timeout *table, size_t count)
{
    size_t i;
    for (i = 0; i < count; i++)
        time_out(&table[i]);
}

void timeout_cases(void)
{
    time_out_all(groups, COUNT(groups));
    time_out_all(unweighed, COUNT(unweighed));
    time_out_all(last_sites, COUNT(last_sites));
}

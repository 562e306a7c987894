/* Merging: the sender's entry and the others', a row from the receiver itself, and the lowest site's outcome, whoever sent the row. */
#include "cases.h"

/* Row 0, a vote from this sender to all three sites, which is not replied to: its codes, delivered to site 1. */
#define FROM(sender, a, b, c) {QC_VOTE, sender, 7, 0, a, b, c}

/* What site 1 is told, and then: its three codes, its outcome record and the world's news. */
struct merging_case {
    const char *name;
    struct change changes[CHANGES];
    uint8_t row[QC_ROW_BYTES];
    uint8_t codes[3];
    unsigned outcome;
    uint32_t news;
};

static const struct merging_case senders[] = {
    {"merging: the sender's entry alone", {ROWS(1)}, FROM(2, 0, 0, 2), {0, 0, 2}, QC_NO_RECORD, 1},
    {"merging: the sender's entry and site 0's", {ROWS(1)}, FROM(2, 1, 0, 2), {1, 0, 2}, QC_NO_RECORD, 2},
    {"merging: site 0's entry alone", {ROWS(1), CODE(1, 2, 2)}, FROM(2, 1, 0, 2), {1, 0, 2}, QC_NO_RECORD, 1},
    {"merging: site 2's entry alone", {ROWS(1), CODE(1, 0, 2)}, FROM(0, 2, 0, 1), {2, 0, 1}, QC_NO_RECORD, 1},
    {"merging: the sender's entry is no higher", {ROWS(1), CODE(1, 2, 2)}, FROM(2, 0, 0, 3), {0, 0, 2}, QC_NO_RECORD, 0},
};

/* A store can say that site 1 itself sent the row: its own entry is not taken. */
static const struct merging_case own_rows[] = {
    {"merging: the receiver's row, others", {ROWS(1)}, FROM(1, 1, 0, 2), {1, 0, 2}, QC_NO_RECORD, 2},
    {"merging: the receiver's row, others and itself", {ROWS(1)}, FROM(1, 1, 3, 2), {1, 0, 2}, QC_NO_RECORD, 2},
    {"merging: the receiver's row, itself", {ROWS(1)}, FROM(1, 0, 5, 0), {0, 0, 0}, QC_NO_RECORD, 0},
    {"merging: the receiver's row, another's outcome", {ROWS(1)}, FROM(1, 0, 4, 5), {0, 5, 5}, QC_ABORT, 1},
};

static const struct merging_case choices[] = {
    {"merging: site 0 aborted, the sender committed", {ROWS(1)}, FROM(2, 5, 0, 4), {5, 5, 4}, QC_ABORT, 2},
    {"merging: site 0 committed, the sender aborted", {ROWS(1)}, FROM(2, 4, 0, 5), {4, 4, 5}, QC_COMMIT, 2},
    {"merging: the sender, site 0, committed, site 2 aborted", {ROWS(1)}, FROM(0, 4, 0, 5), {4, 4, 5}, QC_COMMIT, 2},
    {"merging: site 0 known to have aborted", {ROWS(1), CODE(1, 0, 5)}, FROM(2, 0, 0, 4), {5, 5, 4}, QC_ABORT, 1},
};

static const struct command delivered = {BYTES(QC_DELIVER, 0, 0, 1), 0, 0, 4};

static void play_one(const struct merging_case *wanted)
{
    const uint8_t *world;
    unsigned of;
    begin(wanted->name);
    world = expect_command(&delivered, wanted->changes, wanted->row, QC_STORE_BYTES);
    for (of = 0; of < 3; of++)
        expect("code", qc_site_code(world, 1, of), wanted->codes[of]);
    expect("outcome", qc_log_outcome(world, 1), wanted->outcome);
    expect("news", qc_news(world), wanted->news);
}

static void play_all(const struct merging_case *table, size_t count)
{
    size_t i;
    for (i = 0; i < count; i++)
        play_one(&table[i]);
}

/* A prepare that site 1 itself sent: it writes P, merges, and replies to the row's sender, itself. */
static void play_own_prepare(void)
{
    static const struct change one_row[CHANGES] = {ROWS(1)};
    static const uint8_t prepare[QC_ROW_BYTES] = {QC_PREPARE, 1, 7, 0, 1, 3, 2};
    const uint8_t *world;
    begin("merging: the receiver's own prepare");
    world = expect_command(&delivered, one_row, prepare, QC_STORE_BYTES);
    expect("state", qc_site_state(world, 1), QC_PREPARED);
    expect("news", qc_news(world), 2);
    expect("rows", qc_row_count(world), 2);
    expect("kind", qc_row_kind(store_after(), 1), QC_VOTE);
    expect("destinations", qc_row_destinations(store_after(), 1), 2);
    expect("code of site 0", qc_row_code(store_after(), 1, 0), 1);
    expect("code of site 1", qc_row_code(store_after(), 1, 1), 1);
    expect("code of site 2", qc_row_code(store_after(), 1, 2), 2);
}

void merging_cases(void)
{
    play_all(senders, COUNT(senders));
    play_all(own_rows, COUNT(own_rows));
    play_all(choices, COUNT(choices));
    play_own_prepare();
}

/* The rounds in worlds that are worked out: the bounds are met, one round is not enough, and what comes of it where something is missing that the
 * request asks for: rows, C + A = W + 1, or a site. */
#include <stdio.h>
#include <string.h>

#include "all_back.h"

#define DELIVER(row, site) QC_DELIVER, row, 0, site
#define TIMEOUT(site) QC_TIMEOUT, site
#define CRASH(site) QC_CRASH, site
#define RECOVER(site) QC_RECOVER, site

/* Three sites, C = A = 2: all have prepared, and all votes are in. 5 events, 3 rows, news 4; the sites know 111, 110 and 101. */
static const uint8_t voted[] = {3, 2, 2, 7, 0, QC_START, DELIVER(0, 1), DELIVER(0, 2), DELIVER(1, 0), DELIVER(2, 0)};

static void reach_by(const char *name, const uint8_t *list, size_t length)
{
    sprintf(current, "%s", name);
    memcpy(day.list, list, length);
    day.length = length;
    reach();
}

static void expect_states(unsigned state, unsigned sites)
{
    static const char *const states[] = {"active sites", "prepared sites", "sites in the commit group", "sites in the abort group",
                                         "committed sites", "aborted sites"};
    expect(states[state], sites_in(day.world, state), sites);
}

/* 45 events and 27 rows, as many as may be. */
static void the_bounds(void)
{
    reach_by("the bounds", voted, sizeof voted);
    expect("number of the rounds", three_rounds(), QC_ACCEPTED);
    expect("events", day.events, 5 + 45);
    expect("rows", qc_row_count(day.world), 3 + 27);
    expect("news", qc_news(day.world), 4 + 14);
    expect_states(QC_COMMITTED, 3);
    expect_whole_list();
}

/* So many bytes of that list: in the first round all come into the same group, and in the second site 0, which has heard of them, decides. */
static void one_is_not_enough(const char *name, size_t length, unsigned group, unsigned outcome)
{
    reach_by(name, voted, length);
    expect("number of the first round", one_round(), QC_ACCEPTED);
    expect_states(group, 3);
    expect("number of the second round", one_round(), QC_ACCEPTED);
    expect_states(outcome, 3);
}

/* Row 0 comes to site 1 again and again, and each time it votes, until so many rows are free. */
static void leave_free(unsigned rows)
{
    reach_by("rows are filled", voted, sizeof voted);
    while (qc_row_count(day.world) < QC_ROWS - rows)
        expect("number of a prepare", deliver(0, 1), QC_ACCEPTED);
    expect_whole_list();
}

/* Each turn takes three rows: one with its TIMEOUT, and with each of two deliveries a reply, which is delivered too. In the fourth turn site 0 commits
 * and then each of the others as it replies. So with under 27 rows the rounds are refused, and with under 12 a site is left without an outcome; for
 * good, since none can send anything any more. */
static void rounds_with(unsigned rows)
{
    static const unsigned part[] = {0, 1, 3};
    const unsigned is_enough = rows >= 27;
    unsigned events, site;
    leave_free(rows);
    sprintf(current, "%u rows free", rows);
    events = day.events;
    expect("number of the rounds", three_rounds(), is_enough ? QC_ACCEPTED : QC_STORE_FULL);
    expect("events", day.events - events, is_enough ? 45 : rows / 3 * 5 + part[rows % 3]);
    expect("rows left", QC_ROWS - qc_row_count(day.world), is_enough ? rows - 27 : 0);
    expect_states(QC_COMMITTED, rows < 9 ? 0 : rows < 12 ? rows - 9 : 3);
    for (site = 0; site < 3 && !is_enough; site++)
        expect("number of a TIMEOUT", at_site(QC_TIMEOUT, site), QC_STORE_FULL);
}

/* Four sites, all prepared. Site 0, which has all votes, joins the commit group, and then site 1; site 2 restarts and joins the abort group, and then
 * site 3. */
static void reach_two_groups(const char *name, unsigned commit_quorum, unsigned abort_quorum)
{
    const uint8_t list[] = {4, (uint8_t)commit_quorum, (uint8_t)abort_quorum, 15, 0,
                            QC_START, DELIVER(0, 1), DELIVER(0, 2), DELIVER(0, 3), DELIVER(1, 0), DELIVER(2, 0), DELIVER(3, 0),
                            TIMEOUT(0), DELIVER(4, 1), CRASH(2), RECOVER(2), TIMEOUT(2), TIMEOUT(2), DELIVER(7, 3)};
    reach_by(name, list, sizeof list);
    expect_states(QC_COMMIT_GROUP, 2);
    expect_states(QC_ABORT_GROUP, 2);
}

/* C + A is W + 1: two sites are a quorum of one kind. */
static void two_groups_end(const char *name, unsigned commit_quorum, unsigned abort_quorum, unsigned outcome)
{
    reach_two_groups(name, commit_quorum, abort_quorum);
    expect("number of the rounds", three_rounds(), QC_ACCEPTED);
    expect_states(outcome, 4);
}

/* C + A is W + 2: two sites are a quorum of neither kind, and so it stays. */
static void two_groups_stay(void)
{
    reach_two_groups("C 3, A 3", 3, 3);
    expect("number of the rounds", three_rounds(), QC_ACCEPTED);
    expect("sites with an outcome", ended(day.world), 0);
    expect("number of three more", three_rounds(), QC_ACCEPTED);
    expect_states(QC_COMMIT_GROUP, 2);
    expect_states(QC_ABORT_GROUP, 2);
}

/* A site that stays down is 12 after so many events, at its turn or where a row comes to it. Once it is back they finish. */
static void stays_down(unsigned site, unsigned events)
{
    reach_by("a site stays down", voted, sizeof voted);
    expect("number of CRASH", at_site(QC_CRASH, site), QC_ACCEPTED);
    expect("number of the rounds", three_rounds(), QC_SITE_DOWN);
    expect("events", day.events, 5 + 1 + events);
    expect("sites with an outcome", ended(day.world), 0);
    expect("sites down", bring_back(), 1);
    expect("number of the rounds with it", three_rounds(), QC_ACCEPTED);
    expect_states(QC_COMMITTED, 3);
}

/* From here the rounds tell 14 codes. After a list the news is far from its limit, but in a world handed in it may be near. */
static void rounds_with_news(const char *name, unsigned news, uint32_t number)
{
    reach_by(name, voted, sizeof voted);
    put_number16(day.world + 10, news & 0xffff);
    put_number16(day.world + 12, news >> 16);
    expect("number of the rounds", three_rounds(), number);
}

void worlds_by_hand(void)
{
    unsigned rows;
    the_bounds();
    one_is_not_enough("all votes are in", sizeof voted, QC_COMMIT_GROUP, QC_COMMITTED);
    one_is_not_enough("START alone", QC_HEADER_BYTES + 1, QC_ABORT_GROUP, QC_ABORTED);
    for (rows = 0; rows <= 28; rows++)
        rounds_with(rows);
    two_groups_end("C 2, A 3", 2, 3, QC_COMMITTED);
    two_groups_end("C 3, A 2", 3, 2, QC_ABORTED);
    two_groups_stay();
    stays_down(0, 0);
    stays_down(1, 1);
    stays_down(2, 3);
    rounds_with_news("14 below the limit of news", QC_NEWS - 14, QC_ACCEPTED);
    rounds_with_news("13 below the limit of news", QC_NEWS - 13, QC_BAD_WORLD);
    printf("all back: by hand, both bounds are met, and one round, C + A of W + 2, a row too few or a site that stays down is not enough\n");
}

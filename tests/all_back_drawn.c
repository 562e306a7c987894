/* The rounds in drawn worlds. Lists of all sorts, with C + A = W + 1, are drawn so that at least 3 n n rows stay free. No event of the rounds may be
 * refused, what they cost is held to the request's numbers, and all sites must end with the same outcome. Played as one list, all of it must leave the
 * same bytes. Of each sort of world there must be enough. */
#include <stdio.h>
#include <string.h>

#include "all_back.h"

enum { WORLDS = 6000, FEWEST_SITES = 3 };

/* Sorts of worlds, and how many of each there must be at least. */
enum sort {
    FIRST_EDITION,
    SECOND_EDITION,
    UNEVEN,
    NOT_ALL_WILLING,
    STOPPED,
    ALL_ACTIVE,
    SOME_ACTIVE,
    ALL_PREPARED,
    BOTH_COMMIT,
    BOTH_ABORT,
    PARTLY_ENDED,
    DUEL,
    RESTARTED,
    BROUGHT_BACK,
    JUST_ENOUGH_ROWS,
    MOST_EVENTS,
    COMMITS,
    ABORTS,
    SORTS
};

static const struct {
    const char *name;
    unsigned least;
} sorts[SORTS] = {
    [FIRST_EDITION] = {"of the first edition", 1000},
    [SECOND_EDITION] = {"of the second", 1000},
    [UNEVEN] = {"with weights other than 1", 1000},
    [NOT_ALL_WILLING] = {"with an unwilling site", 500},
    [STOPPED] = {"from a list that was stopped", 500},
    [ALL_ACTIVE] = {"all active", 100},
    [SOME_ACTIVE] = {"some active", 500},
    [ALL_PREPARED] = {"all prepared", 100},
    [BOTH_COMMIT] = {"in both groups that commit", 50},
    [BOTH_ABORT] = {"in both groups that abort", 50},
    [PARTLY_ENDED] = {"with an outcome at some sites", 500},
    [DUEL] = {"with two coordinators or more", 500},
    [RESTARTED] = {"with restarts in the list", 500},
    [BROUGHT_BACK] = {"with sites down at its end", 500},
    [JUST_ENOUGH_ROWS] = {"with just enough rows", 100},
    [MOST_EVENTS] = {"with as many events as may be", 500},
    [COMMITS] = {"that commit", 1000},
    [ABORTS] = {"that abort", 1000},
};

static unsigned seen[SORTS];

/* Worlds in which all sites have an outcome after so many rounds, and not before. */
static unsigned ended_after[ROUNDS + 1];

/* What the rounds cost, and the largest share of each bound that was seen, in hundredths. */
enum figure { EVENTS, ROWS, NEWS, FIGURES };

static const char *const over[FIGURES] = {"events over the bound", "rows over the bound", "news over the bound"};
static unsigned shares[FIGURES];

/* A competition's numbers; sites from n up weigh 0. */
struct sizes {
    unsigned edition, n, commit_quorum, abort_quorum, willing;
    uint8_t weights[QC_SITES];
};

/* A number from least to most, the same ones in every run. */
static unsigned draw(unsigned least, unsigned most)
{
    static uint64_t random = 8;
    random = random * 6364136223846793005u + 1442695040888963407u;
    return least + (unsigned)(random >> 33) % (most - least + 1);
}

/* Sizes. */

static void weigh(struct sizes *sizes, unsigned least, unsigned most)
{
    unsigned site;
    memset(sizes->weights, 0, sizeof sizes->weights);
    for (site = 0; site < sizes->n; site++)
        sizes->weights[site] = (uint8_t)draw(least, most);
}

/* One site weighs as much as it may: one less than the others together, or 255. */
static void make_heavy(struct sizes *sizes, unsigned site)
{
    const unsigned others = all_weight(sizes->n, sizes->weights) - sizes->weights[site];
    sizes->weights[site] = (uint8_t)(others > QC_WEIGHT ? QC_WEIGHT : others - 1);
}

/* Alike, or drawn up to a bound, with legal quorums; and now and then one that is heavy. */
static void draw_weights(struct sizes *sizes)
{
    static const unsigned bounds[] = {1, 2, 5, 40, QC_WEIGHT};
    const unsigned most = bounds[draw(0, 4)], least = draw(0, 3) == 0 ? most : 1;
    do
        weigh(sizes, least, most);
    while (all_weight(sizes->n, sizes->weights) <= 2 * heaviest(sizes->n, sizes->weights));
    if (draw(0, 3) == 0)
        make_heavy(sizes, draw(0, sizes->n - 1));
}

/* C from h + 1 to W - h, at either end or between, and A = W + 1 - C, which is as legal. */
static void draw_quorums(struct sizes *sizes)
{
    const unsigned sum = all_weight(sizes->n, sizes->weights), largest = heaviest(sizes->n, sizes->weights);
    const unsigned least = largest + 1, most = sum - largest, way = draw(0, 3);
    sizes->commit_quorum = way == 0 ? least : way == 1 ? most : draw(least, most);
    sizes->abort_quorum = sum + 1 - sizes->commit_quorum;
}

/* Mostly all sites; or any of them, or all but one. */
static unsigned draw_willing(unsigned n)
{
    const unsigned all = (1u << n) - 1, way = draw(0, 9);
    if (way == 0)
        return draw(0, all);
    return way == 1 ? all & ~(1u << draw(0, n - 1)) : all;
}

static void draw_sizes(struct sizes *sizes)
{
    sizes->edition = draw(1, 2);
    sizes->n = draw(FEWEST_SITES, QC_SITES);
    if (sizes->edition == 1)
        weigh(sizes, 1, 1);
    else
        draw_weights(sizes);
    draw_quorums(sizes);
    sizes->willing = draw_willing(sizes->n);
}

static void count_sizes(const struct sizes *sizes)
{
    seen[sizes->edition == 1 ? FIRST_EDITION : SECOND_EDITION]++;
    seen[UNEVEN] += all_weight(sizes->n, sizes->weights) != sizes->n;
    seen[NOT_ALL_WILLING] += sizes->willing != (1u << sizes->n) - 1;
}

static void name_world(unsigned number, const struct sizes *sizes)
{
    unsigned site;
    int length = sprintf(current, "world %u, edition %u, n %u, C %u, A %u, willing %u, weights", number, sizes->edition, sizes->n,
                         sizes->commit_quorum, sizes->abort_quorum, sizes->willing);
    for (site = 0; site < sizes->n; site++)
        length += sprintf(current + length, " %u", (unsigned)sizes->weights[site]);
}

static void put_first_header(const struct sizes *sizes)
{
    day.list[0] = (uint8_t)sizes->n;
    day.list[1] = (uint8_t)sizes->commit_quorum;
    day.list[2] = (uint8_t)sizes->abort_quorum;
    put_number16(day.list + 3, sizes->willing);
    day.length = QC_HEADER_BYTES;
}

static void put_second_header(const struct sizes *sizes)
{
    day.list[0] = QC_SECOND_EDITION;
    day.list[1] = (uint8_t)sizes->n;
    put_number16(day.list + 2, sizes->commit_quorum);
    put_number16(day.list + 4, sizes->abort_quorum);
    put_number16(day.list + 6, sizes->willing);
    memcpy(day.list + 8, sizes->weights, sizes->n);
    day.length = QC_SECOND_HEADER_BYTES(sizes->n);
}

/* A header alone: the fresh world of these sizes. */
static void draw_fresh_world(unsigned number)
{
    struct sizes sizes;
    draw_sizes(&sizes);
    count_sizes(&sizes);
    name_world(number, &sizes);
    if (sizes.edition == 1)
        put_first_header(&sizes);
    else
        put_second_header(&sizes);
    reach();
}

/* Openings: how far site 0 gets before all else. */

static void first_deliveries(void)
{
    unsigned site;
    for (site = 1; site < qc_site_count(day.world); site++)
        expect("number of a first delivery", deliver(0, site), QC_ACCEPTED);
}

static void first_replies(void)
{
    unsigned site;
    for (site = 1; site < qc_site_count(day.world); site++)
        expect("number of a first reply", deliver(site, 0), QC_ACCEPTED);
}

/* The last row comes to some of its sites. */
static void spread_last_row(void)
{
    const unsigned row = qc_row_count(day.world) - 1;
    unsigned site;
    for (site = 0; site < qc_site_count(day.world); site++)
        if (draw(0, 1))
            deliver(row, site);
}

/* Site 0's join comes to some; another site restarts, so that it knows of nobody, and leads some into the abort group. */
static void split(unsigned site)
{
    spread_last_row();
    at_site(QC_CRASH, site);
    at_site(QC_RECOVER, site);
    at_site(QC_TIMEOUT, site);
    at_site(QC_TIMEOUT, site);
    spread_last_row();
}

/* Nowhere; to its START, the prepares, the votes, the next TIMEOUT; or to where another leads beside it. */
static void draw_opening(void)
{
    const unsigned stage = draw(0, 5);
    if (stage > 0)
        expect("number of START", start(), QC_ACCEPTED);
    if (stage > 1)
        first_deliveries();
    if (stage > 2)
        first_replies();
    if (stage > 3)
        expect("number of a first TIMEOUT", at_site(QC_TIMEOUT, 0), QC_ACCEPTED);
    if (stage > 4)
        split(draw(1, qc_site_count(day.world) - 1));
}

/* Events after that. */

/* How they are drawn: of a hundred so many TIMEOUTs, crashes and recoveries; the others are deliveries, or START where there is no row yet. */
struct mood {
    unsigned timeouts, crashes, recoveries;
    unsigned starts, patient; /* starts: there may be such a START; patient: no site times out while it is active */
};

static struct mood draw_mood(void)
{
    static const unsigned timeouts[] = {1, 5, 20, 50}, crashes[] = {0, 0, 2, 10}, recoveries[] = {0, 5, 25};
    struct mood mood;
    mood.timeouts = timeouts[draw(0, 3)];
    mood.crashes = crashes[draw(0, 3)];
    mood.recoveries = recoveries[draw(0, 2)];
    mood.starts = draw(0, 1);
    mood.patient = draw(0, 3) > 0;
    return mood;
}

/* Any row, or one of the last, to one of its sites, where it may have been before. */
static void draw_delivery(void)
{
    const unsigned n = qc_site_count(day.world), rows = qc_row_count(day.world), any = rows < n || draw(0, 1);
    const unsigned row = draw(any ? 0 : rows - n, rows - 1);
    unsigned site = draw(0, n - 1);
    while (!qc_row_goes_to(day.store, row, site))
        site = (site + 1) % n;
    deliver(row, site);
}

static void draw_event(const struct mood *mood)
{
    const unsigned site = draw(0, qc_site_count(day.world) - 1), drawn = draw(0, 99);
    if (drawn < mood->timeouts) {
        if (!mood->patient || qc_site_state(day.world, site) != QC_ACTIVE)
            at_site(QC_TIMEOUT, site);
    } else if (drawn < mood->timeouts + mood->crashes) {
        at_site(QC_CRASH, site);
    } else if (drawn < mood->timeouts + mood->crashes + mood->recoveries) {
        at_site(QC_RECOVER, site);
    } else if (qc_row_count(day.world) > 0) {
        draw_delivery();
    } else if (mood->starts) {
        start();
    }
}

/* From nothing to some thousand events; at least 3 n n rows stay free. */
static void draw_list(void)
{
    static const unsigned lengths[] = {0, 4, 40, 200, 800, 5000};
    const unsigned n = qc_site_count(day.world), most_rows = QC_ROWS - 3 * n * n, most = lengths[draw(0, 5)];
    const unsigned length = draw(most / 2, most);
    const struct mood mood = draw_mood();
    unsigned event;
    draw_opening();
    for (event = 0; event < length && qc_row_count(day.world) < most_rows; event++)
        draw_event(&mood);
    seen[JUST_ENOUGH_ROWS] += qc_row_count(day.world) == most_rows;
    seen[RESTARTED] += day.restarts > 0;
}

/* The list's end, or a stop. */

/* Bytes that stop any of these lists: the number of the first command, and after some of them one that is not reached. */
static const struct {
    uint32_t number;
    size_t length;
    uint8_t bytes[6];
} stops[] = {
    {QC_NO_COMMAND, 3, {0, QC_CRASH, 0}},
    {QC_NO_COMMAND, 1, {6}},
    {QC_CUT_SHORT, 2, {QC_DELIVER, 0}},
    {QC_CUT_SHORT, 1, {QC_TIMEOUT}},
    {QC_NO_SITE, 4, {QC_TIMEOUT, QC_SITES, QC_CRASH, 0}},
    {QC_NO_ROW, 6, {QC_DELIVER, 0, 4, 0, QC_CRASH, 0}},
};

enum { STOPS = sizeof stops / sizeof stops[0] };

/* One of these, or a command for which this site is up or down where it must not be. */
static void stop_list(unsigned site)
{
    const unsigned up = qc_site_up(day.world, site), which = draw(0, STOPS);
    const uint8_t wrong[] = {up ? QC_RECOVER : QC_TIMEOUT, (uint8_t)site, QC_CRASH, 0};
    if (which < STOPS)
        expect_same_list(stops[which].number, stops[which].bytes, stops[which].length);
    else
        expect_same_list(up ? QC_SITE_UP : QC_SITE_DOWN, wrong, sizeof wrong);
}

/* As a list in one call, to its end or to a stop there, it has the world that its commands have left. */
static void end_list(void)
{
    const unsigned stops_here = draw(0, 3) == 0;
    if (stops_here)
        stop_list(draw(0, qc_site_count(day.world) - 1));
    else
        expect_whole_list();
    seen[STOPPED] += stops_here;
}

/* The rounds, and what must come of them. */

static unsigned coordinators(const uint8_t *world)
{
    unsigned site, count = 0;
    for (site = 0; site < qc_site_count(world); site++)
        count += qc_site_role(world, site) == QC_COORDINATOR;
    return count;
}

static void count_states(const uint8_t *world)
{
    const unsigned n = qc_site_count(world), active = sites_in(world, QC_ACTIVE), ends = ended(world);
    seen[ALL_ACTIVE] += active == n;
    seen[SOME_ACTIVE] += active > 0 && active < n;
    seen[ALL_PREPARED] += sites_in(world, QC_PREPARED) == n;
    seen[PARTLY_ENDED] += ends > 0 && ends < n;
    seen[DUEL] += coordinators(world) > 1;
}

/* Before the rounds some are in the commit group, some in the abort group, and none has an outcome; after them they have this one. */
static void count_end(const uint8_t *before, unsigned commits)
{
    const unsigned both = ended(before) == 0 && sites_in(before, QC_COMMIT_GROUP) > 0 && sites_in(before, QC_ABORT_GROUP) > 0;
    seen[commits ? BOTH_COMMIT : BOTH_ABORT] += both;
    seen[commits ? COMMITS : ABORTS]++;
}

/* Three of them, and how many were needed. */
static void give_rounds(void)
{
    unsigned round, needed = 0;
    for (round = 0; round < ROUNDS; round++) {
        needed += ended(day.world) < qc_site_count(day.world);
        expect("number of a round", one_round(), QC_ACCEPTED);
    }
    ended_after[needed]++;
}

static void expect_within(enum figure figure, unsigned got, unsigned most)
{
    expect(over[figure], got > most, 0);
    if (got * 100 / most > shares[figure])
        shares[figure] = got * 100 / most;
}

/* A turn has 2 n - 1 events and n rows if its site sends a row, else one event; what a site knows of another rises three times at most. */
static void expect_cost(const uint8_t *before, unsigned events)
{
    const unsigned n = qc_site_count(before), rows = qc_row_count(day.world) - qc_row_count(before);
    expect_within(EVENTS, events, 3 * n * (2 * n - 1));
    expect_within(ROWS, rows, 3 * n * n);
    expect_within(NEWS, qc_news(day.world) - qc_news(before), 3 * n * (n - 1));
    expect("rows of a turn that is not whole", rows % n, 0);
    expect("events for these rows", events, 3 * n + 2 * (n - 1) * (rows / n));
    seen[MOST_EVENTS] += events == 3 * n * (2 * n - 1);
}

/* Every site has the same outcome, and the one that it had before if it had one; it is commit only where all are willing and have prepared. */
static void expect_one_outcome(const uint8_t *before)
{
    const unsigned n = qc_site_count(before), outcome = qc_log_outcome(day.world, 0), commits = outcome == QC_COMMIT;
    unsigned site;
    expect("site 0 without an outcome", outcome == QC_NO_RECORD, 0);
    expect("commit with an unwilling site", commits && qc_willing(before) != (1u << n) - 1, 0);
    for (site = 0; site < n; site++) {
        expect("outcome", qc_log_outcome(day.world, site), outcome);
        expect("another outcome before", qc_site_terminated(before, site) && qc_log_outcome(before, site) != outcome, 0);
        expect("commit without a prepare record", commits && !qc_log_prepare(day.world, site), 0);
    }
    count_end(before, commits);
}

static void finish(void)
{
    static uint8_t before[QC_WORLD_BYTES];
    const unsigned events = day.events;
    memcpy(before, day.world, sizeof before);
    count_states(before);
    give_rounds();
    expect_cost(before, day.events - events);
    expect_one_outcome(before);
    expect_whole_list();
}

static void expect_sorts(void)
{
    unsigned i;
    sprintf(current, "%u worlds", (unsigned)WORLDS);
    for (i = 0; i < SORTS; i++)
        if (seen[i] < sorts[i].least)
            expect(sorts[i].name, seen[i], sorts[i].least);
}

static void print_worlds(void)
{
    unsigned i;
    printf("all back: %u worlds of 3 to 16 sites end in one outcome: %u have it before the rounds, %u after one, %u after two, %u after three; "
           "events, rows and news are at most %u%%, %u%% and %u%% of their bounds\n",
           (unsigned)WORLDS, ended_after[0], ended_after[1], ended_after[2], ended_after[3], shares[EVENTS], shares[ROWS], shares[NEWS]);
    printf("all back: of these worlds");
    for (i = 0; i < SORTS; i++)
        printf("%s %u %s", i == 0 ? "" : ",", seen[i], sorts[i].name);
    printf("\n");
}

void drawn_worlds(void)
{
    unsigned number;
    for (number = 0; number < WORLDS; number++) {
        draw_fresh_world(number);
        draw_list();
        end_list();
        seen[BROUGHT_BACK] += bring_back() > 0;
        finish();
    }
    expect_sorts();
    print_worlds();
}

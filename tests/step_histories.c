/* Histories of single sites: n of them, each with its own terms and record, that have nothing in common but the rows they send. Rows are lost, repeated
 * and late, sites time out, and some stop and come back from their logs. The same events are played on one world, which must stay the same: each site,
 * each row, each number and the news. And over all records that the steps have written, what is promised of them must hold.
 * Exits 0 if all is as it should be, 1 after the first difference.
 */
#include <stdio.h>
#include <string.h>

#include "../include/quorum_step.h"
#include "shared.h"

const char *const test_name = "step histories";

enum { HISTORIES = 6000, FEWEST_SITES = 3 };

/* Sorts of histories, and how many of each there must be at least. */
enum sort { COMMITS, ABORTS, UNWILLING, UNEVEN, RESTARTS, EMPTY_LOGS, DUELS, SORTS };

static const struct {
    const char *name;
    unsigned least;
} sorts[SORTS] = {
    [COMMITS] = {"that commit", 500},
    [ABORTS] = {"that abort", 500},
    [UNWILLING] = {"with an unwilling site", 500},
    [UNEVEN] = {"with uneven weights", 500},
    [RESTARTS] = {"with restarts", 500},
    [EMPTY_LOGS] = {"with a restart from an empty log", 500},
    [DUELS] = {"with two coordinators or more", 500},
};

static unsigned seen[SORTS];

/* The sites, what they have written, and the world. */
static struct {
    unsigned n, willing;
    uint8_t terms[QC_SITES][QC_TERMS_BYTES], sites[QC_SITES][QC_SITE_BYTES];
    unsigned prepares[QC_SITES], groups[QC_SITES], outcomes[QC_SITES], kinds[3];
    unsigned news, steps, stops, empty; /* empty: stops with an empty log */
    uint8_t world[QC_WORLD_BYTES], store[QC_STORE_BYTES];
} all;

/* A number from least to most, the same ones in every run. */
static unsigned draw(unsigned least, unsigned most)
{
    static uint64_t random = 4;
    random = random * 6364136223846793005u + 1442695040888963407u;
    return least + (unsigned)(random >> 33) % (most - least + 1);
}

static int chance(unsigned percent)
{
    return draw(1, 100) <= percent;
}

/* Beginning. */

/* The world from a header of the second edition that says what all terms say. */
static void make_world(unsigned commit, unsigned abort, const uint8_t *weights)
{
    uint8_t list[QC_SECOND_HEADER_BYTES(QC_SITES)] = {QC_SECOND_EDITION, (uint8_t)all.n};
    uint8_t result[QC_RESULT_BYTES];
    qc_put_number16(list + 2, commit);
    qc_put_number16(list + 4, abort);
    qc_put_number16(list + 6, all.willing);
    memcpy(list + 8, weights, all.n);
    expect("number of the header", qc_play_list(list, QC_SECOND_HEADER_BYTES(all.n), all.store, sizeof all.store, all.world, sizeof all.world, result,
                                                sizeof result), QC_ACCEPTED);
}

static void make_sites(void)
{
    const unsigned most = chance(50) ? 1 : draw(2, QC_WEIGHT);
    uint8_t weights[QC_SITES];
    unsigned site, sum, largest, commit, abort;
    memset(&all, 0, sizeof all);
    all.n = draw(FEWEST_SITES, chance(70) ? 6 : QC_SITES);
    all.willing = (1u << all.n) - 1;
    if (chance(20))
        all.willing &= ~(1u << draw(0, all.n - 1));
    do
        for (site = 0; site < all.n; site++)
            weights[site] = (uint8_t)draw(1, most);
    while (all_weight(all.n, weights) <= 2 * heaviest(all.n, weights));
    sum = all_weight(all.n, weights);
    largest = heaviest(all.n, weights);
    commit = draw(largest + 1, sum - largest);
    abort = draw(sum + 1 - commit, chance(70) ? sum + 1 - commit : sum - largest);
    for (site = 0; site < all.n; site++) {
        qc_make_terms(all.terms[site], all.n, commit, abort, weights, site, (int)(all.willing >> site & 1));
        qc_make_site(all.sites[site]);
    }
    make_world(commit, abort, weights);
    seen[UNEVEN] += sum != all.n;
    seen[UNWILLING] += all.willing != (1u << all.n) - 1;
}

/* Events. */

/* The world after an event: the site, the row that was sent, if any, and the news are those of the step. */
static void compare(unsigned site, unsigned rows, const uint8_t *row)
{
    expect_same("bytes of the site alike", all.sites[site], qc_site(all.world, site), QC_SITE_BYTES);
    expect("rows sent", qc_row_count(all.world) - rows, qc_step_sends(row) != 0);
    if (qc_step_sends(row))
        expect_same("bytes of the row alike", row, qc_row(all.store, rows), QC_ROW_BYTES);
    expect("news", all.news, qc_news(all.world));
}

static void count(unsigned site, const uint8_t *result)
{
    all.prepares[site] += qc_step_prepare(result);
    all.groups[site] += qc_step_group(result) != QC_NO_RECORD;
    all.outcomes[site] += qc_step_outcome(result) != QC_NO_RECORD;
    all.kinds[qc_step_outcome(result)]++;
    all.news += qc_step_news(result);
    all.steps++;
}

/* An event at a site, as its step and in the world. A row is one of the world's. */
static void give(unsigned site, enum qc_command command, unsigned number)
{
    const uint8_t list[] = {(uint8_t)command, (uint8_t)(command == QC_DELIVER ? number & 255 : site), (uint8_t)(number >> 8), (uint8_t)site};
    const size_t length = command == QC_START ? 1 : command == QC_DELIVER ? 4 : 2;
    const unsigned rows = qc_row_count(all.world);
    uint8_t bytes[QC_COMMAND_BYTES] = {(uint8_t)command}, row[QC_ROW_BYTES], result[QC_STEP_RESULT_BYTES], place[QC_RESULT_BYTES];
    uint32_t played;
    if (command == QC_DELIVER)
        qc_make_delivery(bytes, qc_row(all.store, number));
    played = qc_play_command(all.world, sizeof all.world, all.store, sizeof all.store, list, length, 0, place, sizeof place);
    expect("number", qc_step(all.terms[site], QC_TERMS_BYTES, all.sites[site], QC_SITE_BYTES, bytes, command == QC_DELIVER ? sizeof bytes : 1, row,
                             sizeof row, result, sizeof result), played);
    if (played == QC_ACCEPTED) {
        count(site, result);
        compare(site, rows, row);
    }
}

/* A machine stops, and of its site there is only the log; the world is told of a crash. */
static void stop(unsigned site)
{
    const uint8_t list[] = {QC_CRASH, (uint8_t)site};
    uint8_t *own = all.sites[site], log[QC_SITES], place[QC_RESULT_BYTES];
    const unsigned prepare = qc_own_prepare(own), group = qc_own_group(own), outcome = qc_own_outcome(own);
    memcpy(log, own + 24, sizeof log);
    expect("number of a crash", qc_play_command(all.world, sizeof all.world, all.store, sizeof all.store, list, sizeof list, 0, place, sizeof place),
           QC_ACCEPTED);
    qc_make_site_of_log(own, qc_terms_own(all.terms[site]), prepare, group, log, outcome);
    expect_same("bytes of the site made of its log alike", own, qc_site(all.world, site), QC_SITE_BYTES);
    all.stops++;
    all.empty += !prepare && group == QC_NO_RECORD && outcome == QC_NO_RECORD;
}

/* One of the last rows, or of all, goes to one of its destinations. */
static void deliver_some(void)
{
    const unsigned rows = qc_row_count(all.world), late = chance(10) || rows < 2 * all.n;
    const unsigned number = draw(late ? 0 : rows - 2 * all.n, rows - 1), site = draw(0, all.n - 1);
    if (qc_row_goes_to(all.store, number, site))
        give(site, QC_DELIVER, number);
}

/* How many sites lead? */
static unsigned leaders(void)
{
    unsigned site, found = 0;
    for (site = 0; site < all.n; site++)
        found += qc_own_role(all.sites[site]) == QC_COORDINATOR;
    return found;
}

/* At first nobody times out, for a while or not; then some do, and some stop, so many out of a hundred. */
static void play_history(unsigned impatient, unsigned frail)
{
    const unsigned events = 80 * all.n, patient = chance(60) ? 30 * all.n : 0;
    unsigned event, duel = 0;
    if (chance(95))
        give(0, QC_START, 0);
    for (event = 0; event < events; event++) {
        const unsigned site = draw(0, all.n - 1);
        if (event >= patient && chance(impatient))
            give(site, QC_TIMEOUT, 0);
        else if (chance(frail) && qc_own_up(all.sites[site]))
            stop(site);
        else if (!qc_own_up(all.sites[site]) && chance(20))
            give(site, QC_RECOVER, 0);
        else if (qc_row_count(all.world) > 0)
            deliver_some();
        duel |= leaders() > 1;
    }
    seen[DUELS] += duel;
    seen[RESTARTS] += all.stops > 0;
    seen[EMPTY_LOGS] += all.empty > 0;
}

/* What is promised, over all records that were written. */
static void expect_promise(void)
{
    unsigned site;
    expect("two outcomes", all.kinds[QC_COMMIT] > 0 && all.kinds[QC_ABORT] > 0, 0);
    for (site = 0; site < all.n; site++) {
        expect("more than one group record", all.groups[site] > 1, 0);
        expect("more than one outcome record", all.outcomes[site] > 1, 0);
        if (all.kinds[QC_COMMIT] > 0)
            expect("prepare records of a site where there is a commit", all.prepares[site], 1);
    }
    if (all.kinds[QC_COMMIT] > 0)
        expect("willing sites where there is a commit", all.willing, (1u << all.n) - 1);
    seen[COMMITS] += all.kinds[QC_COMMIT] > 0;
    seen[ABORTS] += all.kinds[QC_ABORT] > 0;
}

int main(void)
{
    unsigned history, sort, steps = 0;
    for (history = 0; history < HISTORIES; history++) {
        snprintf(current, sizeof current, "history %u", history);
        make_sites();
        play_history(draw(1, 4), draw(0, 1));
        expect_promise();
        steps += all.steps;
    }
    snprintf(current, sizeof current, "all histories");
    for (sort = 0; sort < SORTS; sort++)
        if (seen[sort] < sorts[sort].least)
            expect(sorts[sort].name, seen[sort], sorts[sort].least);
    printf("step histories: %u of single sites, %u steps, each as in a world:", HISTORIES, steps);
    for (sort = 0; sort < SORTS; sort++)
        printf("%s %u %s", sort == 0 ? "" : ",", seen[sort], sorts[sort].name);
    printf("\n");
    return 0;
}

/* Steps of a single site beside a world: a site is drawn, whatever its record may be, and stands in a world whose other sites are blank. Commands are
 * given to it by qc_step and in the world by qc_play_command, with rows that are drawn too. Both must give the same number and leave the same site, row,
 * records and news, and so where the terms or the site are damaged. After each CRASH the site must be the one that is made of its log. Of each number,
 * command and record there must be enough.
 * Exits 0 if all is as it should be, 1 after the first difference.
 */
#include <stdio.h>
#include <string.h>

#include "../include/quorum_step.h"
#include "shared.h"

const char *const test_name = "step worlds";

enum { WORLDS = 20000, STEPS = 12, FEWEST_SITES = 3, FILL = 0xee };

/* What was seen, and how often it must be at least. */
enum sort {
    STARTS,
    DELIVERIES,
    TIMEOUTS,
    CRASHES,
    RECOVERIES,
    PREPARES,
    GROUPS,
    OUTCOMES,
    SENT,
    NEWS,
    UNEVEN,
    DAMAGED,
    BEYOND,
    SORTS
};

static const char *const sort_names[SORTS] = {
    [STARTS] = "START",
    [DELIVERIES] = "DELIVER",
    [TIMEOUTS] = "TIMEOUT",
    [CRASHES] = "CRASH",
    [RECOVERIES] = "RECOVER",
    [PREPARES] = "prepare records",
    [GROUPS] = "group records",
    [OUTCOMES] = "outcome records",
    [SENT] = "rows that are sent",
    [NEWS] = "steps with news",
    [UNEVEN] = "uneven weights",
    [DAMAGED] = "damaged terms or sites",
    [BEYOND] = "sites beyond n",
};

enum { LEAST_OF_A_SORT = 300, LEAST_OF_A_NUMBER = 200 };

static unsigned seen[SORTS], numbers[QC_ANSWER_COUNT];

/* The site with its terms, as a server has them; and the world with the site in it. */
static uint8_t terms[QC_TERMS_BYTES], site[QC_SITE_BYTES];
static uint8_t world[QC_WORLD_BYTES], store[QC_STORE_BYTES];

/* A number from least to most, the same ones in every run. */
static unsigned draw(unsigned least, unsigned most)
{
    static uint64_t random = 17;
    random = random * 6364136223846793005u + 1442695040888963407u;
    return least + (unsigned)(random >> 33) % (most - least + 1);
}

/* Terms and sites. */

static void draw_terms(void)
{
    const unsigned n = draw(FEWEST_SITES, QC_SITES), most = draw(0, 1) ? 1 : draw(2, QC_WEIGHT), own = draw(0, 2) ? draw(0, n - 1) : 0;
    uint8_t weights[QC_SITES] = {0};
    unsigned at, sum, largest, commit;
    do
        for (at = 0; at < n; at++)
            weights[at] = (uint8_t)draw(1, most);
    while (all_weight(n, weights) <= 2 * heaviest(n, weights));
    sum = all_weight(n, weights);
    largest = heaviest(n, weights);
    commit = draw(largest + 1, sum - largest);
    qc_make_terms(terms, n, commit, draw(sum + 1 - commit, sum - largest), weights, own, draw(0, 3) != 0);
    seen[UNEVEN] += sum != n;
}

/* Codes up to the most for the n sites, mostly of few kinds. */
static void draw_codes(uint8_t *codes, unsigned most)
{
    const unsigned least = draw(0, most);
    unsigned at;
    for (at = 0; at < qc_site_count(terms); at++)
        codes[at] = (uint8_t)(draw(0, 3) == 0 ? draw(0, most) : least);
}

/* Any log, and any knowledge of the others beside it. */
static void draw_site(void)
{
    const unsigned own = qc_terms_own(terms), way = draw(0, 9);
    uint8_t codes[QC_SITES] = {0};
    const unsigned group = way > 5 ? draw(QC_COMMIT, QC_ABORT) : QC_NO_RECORD, outcome = way == 4 || way == 9 ? draw(QC_COMMIT, QC_ABORT) : QC_NO_RECORD;
    draw_codes(codes, QC_ABORTED);
    codes[own] = (uint8_t)(group == QC_COMMIT ? QC_COMMIT_GROUP : QC_ABORT_GROUP);
    qc_make_site_of_log(site, own, way > 1 && draw(0, 9) > 0, group, codes, outcome);
    codes[own] = site[8 + own];
    draw_codes(codes, draw(0, 3) == 0 ? QC_ABORTED : QC_ABORT_GROUP);
    codes[own] = site[8 + own];
    memcpy(site + 8, codes, sizeof codes);
    site[0] = draw(0, 6) > 0;
    site[1] = (uint8_t)draw(0, 1);
}

/* One byte of the sizes, the weights or the site is another. A site beyond sixteen has no place in a world, so it is left as it is. */
static void damage(void)
{
    const unsigned last = qc_terms_own(terms) < QC_SITES || qc_site_count(terms) < QC_SITES ? 21 + QC_SITE_BYTES : 21;
    const unsigned at = draw(0, last);
    uint8_t *byte = at < 6 ? terms + at : at < 22 ? terms + 16 + (at - 6) : site + (at - 22);
    *byte = (uint8_t)(draw(0, 1) ? *byte ^ 1u << draw(0, 7) : draw(0, 255));
    seen[DAMAGED]++;
}

/* The world with this site in it, as the first beyond n where its number is n or more; the others are blank and up, and only this one can be willing. */
static void make_world(void)
{
    const unsigned n = qc_site_count(terms), own = qc_terms_own(terms);
    unsigned at;
    memset(world, 0, sizeof world);
    memcpy(world, terms, 6);
    memcpy(world + 16, terms + 16, QC_SITES);
    if (own < n)
        world[6 + own / 8] = (uint8_t)(qc_terms_willing(terms) << own % 8);
    for (at = 0; at < n && at < QC_SITES; at++)
        world[32 + QC_SITE_BYTES * at] = 1;
    at = own < n ? own : n;
    if (at < QC_SITES)
        memcpy(world + 32 + QC_SITE_BYTES * at, site, QC_SITE_BYTES);
}

/* Commands. */

/* A row: most are in order and go to this site. */
static void draw_row(uint8_t *row)
{
    const unsigned n = qc_site_count(terms), own = qc_terms_own(terms);
    memset(row, 0, QC_ROW_BYTES);
    row[0] = (uint8_t)draw(QC_PREPARE, QC_OUTCOME_ACK);
    row[1] = (uint8_t)draw(0, n - 1);
    row[2] = (uint8_t)draw(0, 255);
    row[3] = (uint8_t)draw(0, 255);
    if (draw(0, 9) > 0 && own < QC_SITES)
        row[2 + own / 8] |= (uint8_t)(1u << own % 8);
    draw_codes(row + 4, draw(0, 3) == 0 ? QC_ABORTED : QC_ABORT_GROUP);
    if (draw(0, 9) == 0)
        row[draw(0, QC_ROW_BYTES - 1)] = (uint8_t)draw(0, 255);
}

/* The command for qc_step, and as a list's for the world; the row, if any, is row 0 there. Gives both lengths. */
struct command {
    uint8_t bytes[QC_COMMAND_BYTES], list[4];
    size_t length, list_length;
};

static void draw_command(struct command *command)
{
    const unsigned way = draw(0, 19), own = qc_terms_own(terms);
    const unsigned kind = way == 0 ? draw(0, 255) : way < 9 ? QC_DELIVER : way < 14 ? QC_TIMEOUT : draw(QC_START, QC_RECOVER);
    uint8_t row[QC_ROW_BYTES];
    draw_row(row);
    qc_make_delivery(command->bytes, row);
    command->bytes[0] = command->list[0] = (uint8_t)kind;
    command->length = kind == QC_DELIVER && draw(0, 19) > 0 ? QC_COMMAND_BYTES : draw(0, 9) > 0 ? 1 : draw(0, QC_COMMAND_BYTES);
    command->list_length = command->length > 0;
    if (kind == QC_DELIVER && command->length == QC_COMMAND_BYTES) {
        command->list[1] = command->list[2] = 0;
        command->list[3] = (uint8_t)own;
        command->list_length = 4;
    } else if (kind >= QC_TIMEOUT && kind <= QC_RECOVER && command->length > 0) {
        command->list[1] = (uint8_t)own;
        command->list_length = 2;
    }
}

/* What the world's call gives; START at a site other than 0 is asked as TIMEOUT there, and then it is 14. */
static uint32_t play_in_world(const struct command *command)
{
    const int elsewhere = command->list_length > 0 && command->list[0] == QC_START && qc_terms_own(terms) != 0;
    const uint8_t timeout[] = {QC_TIMEOUT, terms[6]};
    uint8_t result[QC_RESULT_BYTES];
    uint32_t number;
    memcpy(store, command->bytes + 1, QC_ROW_BYTES);
    world[8] = 1;
    number = qc_play_command(world, sizeof world, store, sizeof store, elsewhere ? timeout : command->list,
                             elsewhere ? sizeof timeout : command->list_length, 0, result, sizeof result);
    return elsewhere && number == QC_ACCEPTED ? QC_STARTED : number;
}

/* What the step has left, beside the world before and after. */
static void compare(const uint8_t *was, const uint8_t *row, const uint8_t *result)
{
    static const uint8_t no_row[QC_ROW_BYTES];
    const uint8_t *now = qc_site(world, qc_terms_own(terms));
    expect_same("bytes of the site alike", site, now, QC_SITE_BYTES);
    expect_same("bytes of the row alike", row, qc_row_count(world) > 1 ? qc_row(store, 1) : no_row, QC_ROW_BYTES);
    expect("prepare record", qc_step_prepare(result), qc_own_prepare(now) - qc_own_prepare(was));
    expect("group record", qc_step_group(result), qc_own_group(now) - qc_own_group(was));
    expect("outcome record", qc_step_outcome(result), qc_own_outcome(now) - qc_own_outcome(was));
    expect("reserved byte", result[3], 0);
    expect("news", qc_step_news(result), qc_news(world));
    seen[PREPARES] += qc_step_prepare(result);
    seen[GROUPS] += qc_step_group(result) != QC_NO_RECORD;
    seen[OUTCOMES] += qc_step_outcome(result) != QC_NO_RECORD;
    seen[SENT] += qc_step_sends(row) != 0;
    seen[NEWS] += qc_step_news(result) > 0;
}

/* A site that has crashed is the one that is made of its log. */
static void compare_with_log(const uint8_t *was)
{
    uint8_t made[QC_SITE_BYTES];
    memset(made, FILL, sizeof made);
    qc_make_site_of_log(made, qc_terms_own(terms), qc_own_prepare(was), qc_own_group(was), was + 24, qc_own_outcome(was));
    expect_same("bytes of the site made of its log alike", made, site, sizeof made);
}

static void make_step(const struct command *command)
{
    uint8_t was[QC_SITE_BYTES], row[QC_ROW_BYTES], result[QC_STEP_RESULT_BYTES], filled[QC_ROW_BYTES];
    uint32_t number;
    memcpy(was, site, sizeof was);
    memset(filled, FILL, sizeof filled);
    memset(row, FILL, sizeof row);
    memset(result, FILL, sizeof result);
    make_world();
    number = qc_step(terms, sizeof terms, site, sizeof site, command->bytes, command->length, row, sizeof row, result, sizeof result);
    expect("number", number, play_in_world(command));
    numbers[number]++;
    if (number != QC_ACCEPTED) {
        expect_same("bytes of a refused site untouched", site, was, sizeof was);
        expect_same("bytes of a refused row untouched", row, filled, sizeof row);
        expect_same("bytes of a refused result untouched", result, filled, sizeof result);
        return;
    }
    compare(was, row, result);
    seen[STARTS + (command->bytes[0] - QC_START)]++;
    if (command->bytes[0] == QC_CRASH)
        compare_with_log(was);
}

static void play_one(unsigned number)
{
    struct command command;
    unsigned step;
    int beyond;
    draw_terms();
    draw_site();
    beyond = draw(0, 9) == 0;
    if (beyond)
        terms[6] = (uint8_t)draw(qc_site_count(terms), UINT8_MAX);
    seen[BEYOND] += beyond != 0;
    for (step = 0; step < STEPS; step++) {
        snprintf(current, sizeof current, "world %u, step %u", number, step);
        if (draw(0, 3) == 0 && !beyond)
            draw_site();
        draw_command(&command);
        if (step == STEPS - 1 && draw(0, 1))
            damage();
        make_step(&command);
    }
}

int main(void)
{
    static const unsigned met[] = {0, 6, 7, 8, 10, 11, 12, 13, 14, 17};
    unsigned world_number, i, steps = 0;
    for (world_number = 0; world_number < WORLDS; world_number++)
        play_one(world_number);
    snprintf(current, sizeof current, "all worlds");
    for (i = 0; i < SORTS; i++)
        if (seen[i] < LEAST_OF_A_SORT)
            expect(sort_names[i], seen[i], LEAST_OF_A_SORT);
    for (i = 0; i < sizeof met / sizeof met[0]; i++) {
        snprintf(current, sizeof current, "number %u", met[i]);
        if (numbers[met[i]] < LEAST_OF_A_NUMBER)
            expect("times", numbers[met[i]], LEAST_OF_A_NUMBER);
        steps += numbers[met[i]];
    }
    snprintf(current, sizeof current, "all worlds");
    expect("steps with these numbers", steps, WORLDS * STEPS);
    printf("step worlds: %u steps of drawn sites as in a world, %u of them accepted, %u refused with 17\n", steps, numbers[0], numbers[17]);
    return 0;
}

/* Readers and makers of a single site: their bytes, and M3 played by three sites that have nothing in common but the rows. Part of readers; also checked
 * as C++. */
#include <stdio.h>
#include <string.h>

#include "../include/quorum_step.h"
#include "readers.h"

/* Three sites with their terms; the row and the result of the last step. */
static uint8_t terms[3][QC_TERMS_BYTES], sites[3][QC_SITE_BYTES];
static uint8_t row[QC_ROW_BYTES], result[QC_STEP_RESULT_BYTES];

static void check_bytes(const char *where, const uint8_t *got, const uint8_t *wanted, size_t length)
{
    size_t at;
    for (at = 0; at < length; at++)
        check(where, got[at], wanted[at]);
}

#define CHECK_BYTES(got, wanted) check_bytes(HERE, got, wanted, sizeof wanted)

static void step_results(void)
{
    static const uint8_t none[] = {0, 0, 0, 0, 4, 3, 2, 0xf1}, prepare[] = {1, 0, 0, 0, 0, 0, 0, 0}, group[] = {0, 2, 0, 0, 0, 0, 0, 0},
                         outcome[] = {0, 0, 1, 0, 0, 0, 0, 0}, no_row[QC_ROW_BYTES] = {0}, ack[QC_ROW_BYTES] = {QC_OUTCOME_ACK};
    CHECK(QC_STEP_RESULT_BYTES, sizeof none);
    CHECK((uint64_t)qc_step_wrote(none), 0);
    CHECK(qc_step_news(none), 0xf1020304);
    CHECK(qc_step_prepare(prepare), 1);
    CHECK((uint64_t)qc_step_wrote(prepare), 1);
    CHECK(qc_step_group(group), QC_ABORT);
    CHECK(qc_step_outcome(group), QC_NO_RECORD);
    CHECK((uint64_t)qc_step_wrote(group), 1);
    CHECK(qc_step_outcome(outcome), QC_COMMIT);
    CHECK(qc_step_group(outcome), QC_NO_RECORD);
    CHECK((uint64_t)qc_step_wrote(outcome), 1);
    CHECK((uint64_t)qc_step_sends(no_row), 0);
    CHECK((uint64_t)qc_step_sends(ack), 1);
}

/* Of each field, its byte. */
static void sites_read(void)
{
    static const uint8_t site[QC_SITE_BYTES] = {1,  2,  3,  4,  5,  0,  0,  0,  8,  9,  10, 11, 12, 13, 14, 15, 16, 17, 18, 19,
                                                20, 21, 22, 23, 24, 25, 26, 27, 28, 29, 30, 31, 32, 33, 34, 35, 36, 37, 38, 39};
    static const uint8_t undecided[QC_SITE_BYTES] = {1, 1, 1, 1, 0};
    CHECK(qc_own_up(site), 1);
    CHECK(qc_own_role(site), 2);
    CHECK(qc_own_prepare(site), 3);
    CHECK(qc_own_group(site), 4);
    CHECK(qc_own_outcome(site), 5);
    CHECK(qc_own_code(site, 0), 8);
    CHECK(qc_own_code(site, 15), 23);
    CHECK(qc_own_group_code(site, 0), 24);
    CHECK(qc_own_group_code(site, 15), 39);
    CHECK((uint64_t)qc_own_terminated(site), 1);
    CHECK((uint64_t)qc_own_terminated(undecided), 0);
}

static void terms_made(void)
{
    static const uint8_t weights[] = {10, 20, 30, 255};
    static const uint8_t weighed[QC_TERMS_BYTES] = {3, 4, 60, 0, 0x2c, 1, 3, 1, 0, 0, 0, 0, 0, 0, 0, 0, 10, 20, 30, 255};
    static const uint8_t even[QC_TERMS_BYTES] = {3, 5, 3, 0, 3, 0, 0, 0, 0, 0, 0, 0, 0, 0, 0, 0, 1, 1, 1, 1, 1};
    uint8_t got[QC_TERMS_BYTES];
    memset(got, 0xee, sizeof got);
    qc_make_terms(got, 4, 60, 300, weights, 3, 5);
    CHECK_BYTES(got, weighed);
    CHECK(qc_site_count(got), 4);
    CHECK(qc_commit_quorum(got), 60);
    CHECK(qc_abort_quorum(got), 300);
    CHECK(qc_terms_own(got), 3);
    CHECK(qc_terms_willing(got), 1);
    CHECK(qc_weight(got, 3), 255);
    CHECK(qc_weight(got, 4), 0);
    memset(got, 0xee, sizeof got);
    qc_make_terms(got, 5, 3, 3, NULL, 0, 0);
    CHECK_BYTES(got, even);
    CHECK(qc_terms_willing(got), 0);
}

/* Numbers that do not fit are not taken for others that do: 259 is not 3, 65,538 is not 2, 256 is not 0. */
static void terms_too_large(void)
{
    static const uint8_t timeout[] = {QC_TIMEOUT};
    static const struct {
        unsigned n, commit, abort, own, answer;
    } wrong[] = {{259, 2, 2, 0, QC_BAD_WORLD}, {3, 65538, 2, 0, QC_BAD_WORLD}, {3, 2, 65538, 0, QC_BAD_WORLD}, {3, 2, 2, 256, QC_NO_SITE}};
    uint8_t got[QC_TERMS_BYTES], site[QC_SITE_BYTES];
    size_t i;
    for (i = 0; i < sizeof wrong / sizeof wrong[0]; i++) {
        qc_make_terms(got, wrong[i].n, wrong[i].commit, wrong[i].abort, NULL, wrong[i].own, 1);
        qc_make_site(site);
        CHECK(qc_step(got, sizeof got, site, sizeof site, timeout, sizeof timeout, row, sizeof row, result, sizeof result), wrong[i].answer);
    }
}

static void sites_made(void)
{
    static const uint8_t codes[QC_SITES] = {1, 0, 3, 1, 0, 0, 0, 0, 0, 0, 0, 0, 0, 0, 0, 5};
    static const uint8_t fresh[QC_SITE_BYTES] = {1}, empty[QC_SITE_BYTES] = {0},
                         prepared[QC_SITE_BYTES] = {0, 0, 1, 0, 0, 0, 0, 0, 0, 0, 1},
                         aborted[QC_SITE_BYTES] = {0, 0, 0, 0, 2, 0, 0, 0, 5},
                         member[QC_SITE_BYTES] = {0, 0, 1, 2, 0, 0, 0, 0, 1, 0, 3, 1, 0, 0, 0, 0, 0, 0, 0, 0,
                                                  0, 0, 0, 5, 1, 0, 3, 1, 0, 0, 0, 0, 0, 0, 0, 0, 0, 0, 0, 5},
                         ended[QC_SITE_BYTES] = {0, 0, 1, 2, 1, 0, 0, 0, 1, 0, 4, 1, 0, 0, 0, 0, 0, 0, 0, 0,
                                                 0, 0, 0, 5, 1, 0, 3, 1, 0, 0, 0, 0, 0, 0, 0, 0, 0, 0, 0, 5};
    uint8_t got[QC_SITE_BYTES];
    memset(got, 0xee, sizeof got);
    qc_make_site(got);
    CHECK_BYTES(got, fresh);
    qc_make_site_of_log(got, 1, 0, QC_NO_RECORD, NULL, QC_NO_RECORD);
    CHECK_BYTES(got, empty);
    qc_make_site_of_log(got, 2, 1, QC_NO_RECORD, codes, QC_NO_RECORD);
    CHECK_BYTES(got, prepared);
    qc_make_site_of_log(got, 0, 0, QC_NO_RECORD, NULL, QC_ABORT);
    CHECK_BYTES(got, aborted);
    qc_make_site_of_log(got, 2, 1, QC_ABORT, codes, QC_NO_RECORD);
    CHECK_BYTES(got, member);
    qc_make_site_of_log(got, 2, 1, QC_ABORT, codes, QC_COMMIT);
    CHECK_BYTES(got, ended);
}

static void deliveries_made(void)
{
    static const uint8_t sent[] = {1, 2, 3, 4, 5, 6, 7, 8, 9, 10, 11, 12, 13, 14, 15, 16, 17, 18, 19, 20};
    static const uint8_t wanted[] = {QC_DELIVER, 1, 2, 3, 4, 5, 6, 7, 8, 9, 10, 11, 12, 13, 14, 15, 16, 17, 18, 19, 20};
    uint8_t got[QC_COMMAND_BYTES];
    qc_make_delivery(got, sent);
    CHECK(sizeof got, sizeof wanted);
    CHECK_BYTES(got, wanted);
}

/* M3, three sites. */

static uint32_t step(unsigned site, const uint8_t *command, size_t length)
{
    return qc_step(terms[site], QC_TERMS_BYTES, sites[site], QC_SITE_BYTES, command, length, row, sizeof row, result, sizeof result);
}

static void give(const char *where, unsigned site, uint8_t command)
{
    check(where, step(site, &command, 1), QC_ACCEPTED);
}

/* Delivers a row, and keeps the one that is sent, if any, in its place. */
static void pass(const char *where, unsigned site, uint8_t *sent)
{
    uint8_t command[QC_COMMAND_BYTES];
    qc_make_delivery(command, sent);
    check(where, step(site, command, sizeof command), QC_ACCEPTED);
    memcpy(sent, row, sizeof row);
}

/* The log's three places and the three codes, as the report has them. */
static const char *site_text(unsigned site)
{
    static char text[40];
    const uint8_t *own = sites[site];
    sprintf(text, "%s %s %c%c%c %u%u%u", qc_own_up(own) ? "up" : "down", qc_own_role(own) == QC_COORDINATOR ? "coordinator" : "subordinate",
            "-P"[qc_own_prepare(own)], "-CA"[qc_own_group(own)], "-ca"[qc_own_outcome(own)], qc_own_code(own, 0), qc_own_code(own, 1),
            qc_own_code(own, 2));
    return text;
}

/* The row that the last step sent. */
static const char *row_text(void)
{
    static char text[40];
    sprintf(text, "kind %u from %u to %u: %u%u%u", qc_row_kind(row, 0), qc_row_sender(row, 0), qc_row_destinations(row, 0), qc_row_code(row, 0, 0),
            qc_row_code(row, 0, 1), qc_row_code(row, 0, 2));
    return text;
}

static void three_sites(void)
{
    uint8_t sent[QC_ROW_BYTES];
    unsigned site;
    for (site = 0; site < 3; site++) {
        qc_make_terms(terms[site], 3, 2, 2, NULL, site, 1);
        qc_make_site(sites[site]);
    }
    give(HERE, 0, QC_START);
    CHECK(qc_step_prepare(result), 1);
    CHECK_TEXT(row_text(), "kind 1 from 0 to 6: 100");
    memcpy(sent, row, sizeof row);
    pass(HERE, 1, sent);
    CHECK_TEXT(row_text(), "kind 2 from 1 to 1: 110");
    CHECK(qc_step_news(result), 1);
    pass(HERE, 0, sent);
    CHECK((uint64_t)qc_step_sends(sent), 0);
    CHECK((uint64_t)qc_step_wrote(result), 0);
    give(HERE, 0, QC_TIMEOUT);
    CHECK(qc_step_group(result), QC_ABORT);
    CHECK_TEXT(row_text(), "kind 4 from 0 to 6: 310");
    memcpy(sent, row, sizeof row);
    pass(HERE, 2, sent);
    CHECK(qc_step_news(result), 2);
    CHECK_TEXT(row_text(), "kind 5 from 2 to 1: 313");
    pass(HERE, 0, sent);
    give(HERE, 0, QC_TIMEOUT);
    CHECK(qc_step_outcome(result), QC_ABORT);
    CHECK_TEXT(row_text(), "kind 6 from 0 to 6: 513");
    CHECK_TEXT(site_text(0), "up coordinator PAa 513");
    CHECK_TEXT(site_text(1), "up subordinate P-- 110");
    CHECK_TEXT(site_text(2), "up subordinate -A- 313");
    CHECK(qc_own_group_code(sites[0], 1), 1);
    CHECK(qc_own_group_code(sites[2], 0), 3);
}

void step_readers(void)
{
    step_results();
    sites_read();
    terms_made();
    terms_too_large();
    sites_made();
    deliveries_made();
    three_sites();
}

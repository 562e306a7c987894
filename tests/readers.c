/* Plays lists through the library and holds what the header's readers say to what documents 01 and 02 give, worked out by hand.
 * Exits 0 if all is as it should be, 1 after the first difference. Also checked as C++. Lists as lines, and in the other edition, are in line_readers.c,
 * single sites in step_readers.c.
 */
#include <stdio.h>
#include <stdlib.h>
#include <string.h>

#include "readers.h"

static uint8_t store[QC_STORE_BYTES];
static uint8_t world[QC_WORLD_BYTES];
static uint8_t text[QC_REPORT_BYTES];
static uint8_t result[QC_RESULT_BYTES];
static unsigned checks;

void check(const char *where, uint64_t got, uint64_t wanted)
{
    checks++;
    if (got != wanted) {
        printf("readers: %s: %llu, not %llu\n", where, (unsigned long long)got, (unsigned long long)wanted);
        exit(1);
    }
}

void check_text(const char *where, const char *got, const char *wanted)
{
    checks++;
    if (strcmp(got, wanted) != 0) {
        printf("readers: %s: '%s', not '%s'\n", where, got, wanted);
        exit(1);
    }
}

/* Commands, for lists below. */
#define HEADER(n, c, a, low, high) n, c, a, low, high
#define NUMBER16(number) (uint8_t)((number) & 255), (uint8_t)((number) >> 8)
#define SECOND(n, c, a, willing) QC_SECOND_EDITION, n, NUMBER16(c), NUMBER16(a), NUMBER16(willing)
#define START QC_START
#define DELIVER(row, site) QC_DELIVER, row, 0, site
#define TIMEOUT(site) QC_TIMEOUT, site
#define CRASH(site) QC_CRASH, site
#define RECOVER(site) QC_RECOVER, site

static uint32_t play(const uint8_t *list, size_t length)
{
    return qc_play_list(list, length, store, sizeof store, world, sizeof world, result, sizeof result);
}

/* Plays a list and asks for its answer, accepted events and end place. */
static void check_play(const char *where, const uint8_t *list, size_t length, unsigned answer, unsigned events, unsigned place)
{
    check(where, play(list, length), answer);
    check(where, qc_result_events(result), events);
    check(where, qc_result_place(result), place);
}

#define CHECK_PLAY(list, answer, events, place) check_play(HERE, list, sizeof list, answer, events, place)

/* Codes as digits. */
static const char *digits(unsigned (*code)(const uint8_t *, unsigned, unsigned), const uint8_t *bytes, unsigned of)
{
    static char codes[QC_SITES + 1];
    unsigned site, n = qc_site_count(world);
    for (site = 0; site < n; site++)
        codes[site] = (char)('0' + code(bytes, of, site));
    codes[n] = 0;
    return codes;
}

/* A site in the words of the report, all of it from the readers. */
static const char *site_line(unsigned site)
{
    static const char *const roles[] = {"subordinate", "coordinator"};
    static const char *const states[] = {"active", "prepared", "commit-group", "abort-group", "committed", "aborted"};
    static char line[80];
    sprintf(line, "%u %s %s %s %c%c%c %s", site, qc_site_up(world, site) ? "up" : "down", roles[qc_site_role(world, site)],
            states[qc_site_state(world, site)], "-P"[qc_log_prepare(world, site)], "-CA"[qc_log_group(world, site)],
            "-ca"[qc_log_outcome(world, site)], digits(qc_site_code, world, site));
    return line;
}

static void check_row(const char *where, unsigned row, unsigned kind, unsigned sender, unsigned destinations, const char *codes)
{
    unsigned site;
    check(where, qc_row_kind(store, row), kind);
    check(where, qc_row_sender(store, row), sender);
    check(where, qc_row_destinations(store, row), destinations);
    for (site = 0; site < QC_SITES; site++)
        check(where, (uint64_t)qc_row_goes_to(store, row, site), destinations >> site & 1);
    check_text(where, digits(qc_row_code, store, row), codes);
}

#define CHECK_ROW(row, kind, sender, destinations, codes) check_row(HERE, row, kind, sender, destinations, codes)

/* The world's sixteen weights. */
static void check_weights(const char *where, const uint8_t *weights)
{
    unsigned site;
    for (site = 0; site < QC_SITES; site++)
        check(where, qc_weight(world, site), weights[site]);
}

#define CHECK_WEIGHTS(weights) check_weights(HERE, weights)

static const uint8_t m3[] = {HEADER(3, 2, 2, 7, 0), START,         DELIVER(0, 1), DELIVER(1, 0), TIMEOUT(0),
                             DELIVER(2, 2),         DELIVER(3, 0), TIMEOUT(0)};

static void fresh_worlds(void)
{
    static const uint8_t m1[] = {HEADER(3, 2, 2, 7, 0)};
    static const uint8_t uneven[] = {HEADER(4, 2, 3, 9, 0)};
    static const uint8_t ones[QC_SITES] = {1, 1, 1, 1};
    CHECK_PLAY(m1, QC_ACCEPTED, 0, 5);
    CHECK(world[0], QC_LAYOUT);
    CHECK(qc_row_count(world), 0);
    CHECK(qc_news(world), 0);
    CHECK_TEXT(site_line(2), "2 up subordinate active --- 000");
    CHECK(qc_site_up(world, 3), 0);
    CHECK_PLAY(uneven, QC_ACCEPTED, 0, 5);
    CHECK(qc_site_count(world), 4);
    CHECK(qc_commit_quorum(world), 2);
    CHECK(qc_abort_quorum(world), 3);
    CHECK(qc_willing(world), 9);
    CHECK_WEIGHTS(ones);
}

/* Second-edition headers: the least and the most weights, and what a cut one leaves. */
static void fresh_weights(void)
{
    static const uint8_t light[] = {SECOND(4, 60, 41, 9), 10, 20, 30, 40};
    static const uint8_t heavy[] = {SECOND(16, 3825, 3824, 0xffff), 255, 255, 255, 255, 255, 255, 255, 255,
                                    255, 255, 255, 255, 255, 255, 255, 255};
    static const uint8_t light_weights[QC_SITES] = {10, 20, 30, 40}, none[QC_SITES] = {0};
    CHECK_PLAY(light, QC_ACCEPTED, 0, QC_SECOND_HEADER_BYTES(4));
    CHECK(world[0], QC_LAYOUT);
    CHECK(qc_site_count(world), 4);
    CHECK(qc_commit_quorum(world), 60);
    CHECK(qc_abort_quorum(world), 41);
    CHECK(qc_willing(world), 9);
    CHECK(qc_row_count(world), 0);
    CHECK(qc_news(world), 0);
    CHECK_WEIGHTS(light_weights);
    CHECK_TEXT(site_line(3), "3 up subordinate active --- 0000");
    CHECK(qc_site_up(world, 4), 0);
    CHECK_PLAY(heavy, QC_ACCEPTED, 0, QC_SECOND_HEADER_BYTES(QC_SITES));
    CHECK(qc_commit_quorum(world), 3825);
    CHECK(qc_abort_quorum(world), 3824);
    CHECK_WEIGHTS(heavy + 8);
    CHECK_TEXT(site_line(15), "15 up subordinate active --- 0000000000000000");
    CHECK(play(heavy, sizeof heavy - 1), QC_LIST_SHORT);
    CHECK_WEIGHTS(none);
}

/* Weights 2, 1, 3 and 2, C 5: sites 0 and 1 weigh 3, which is not enough; with site 2 they weigh 6. */
static void a_weighed_commit(void)
{
    static const uint8_t list[] = {SECOND(4, 5, 5, 15), 2, 1, 3, 2,
                                   START, DELIVER(0, 1), DELIVER(0, 2), DELIVER(0, 3), DELIVER(1, 0), DELIVER(2, 0), DELIVER(3, 0),
                                   TIMEOUT(0), DELIVER(4, 1), DELIVER(5, 0), TIMEOUT(0), DELIVER(6, 2), DELIVER(7, 0), TIMEOUT(0)};
    static const uint8_t weights[QC_SITES] = {2, 1, 3, 2};
    CHECK_PLAY(list, QC_ACCEPTED, 14, 59);
    CHECK_WEIGHTS(weights);
    CHECK_TEXT(site_line(0), "0 up coordinator committed PCc 4221");
    CHECK_TEXT(site_line(1), "1 up subordinate commit-group PC- 2211");
    CHECK_TEXT(site_line(2), "2 up subordinate commit-group PC- 2221");
    CHECK_TEXT(site_line(3), "3 up subordinate prepared P-- 1001");
    CHECK_ROW(6, QC_JOIN_COMMIT, 0, 14, "2211");
    CHECK_ROW(8, QC_OUTCOME, 0, 14, "4221");
}

/* M2, and M3 with its rows; site 0 joined knowing 3, 1, 0. */
static void an_abort(void)
{
    static const uint8_t m2[] = {HEADER(3, 2, 2, 7, 0), START};
    CHECK_PLAY(m2, QC_ACCEPTED, 1, 6);
    CHECK_TEXT(site_line(0), "0 up coordinator prepared P-- 100");
    CHECK_PLAY(m3, QC_ACCEPTED, 7, 26);
    CHECK(qc_site_count(world), 3);
    CHECK(qc_row_count(world), 5);
    CHECK(qc_news(world), 5);
    CHECK_TEXT(site_line(0), "0 up coordinator aborted PAa 513");
    CHECK_TEXT(site_line(1), "1 up subordinate prepared P-- 110");
    CHECK_TEXT(site_line(2), "2 up subordinate abort-group -A- 313");
    CHECK_TEXT(digits(qc_log_group_code, world, 0), "310");
    CHECK_TEXT(digits(qc_log_group_code, world, 1), "000");
    CHECK_TEXT(digits(qc_log_group_code, world, 2), "313");
    CHECK((uint64_t)qc_site_terminated(world, 0), 1);
    CHECK((uint64_t)qc_site_terminated(world, 2), 0);
    CHECK_ROW(0, QC_PREPARE, 0, 6, "100");
    CHECK_ROW(1, QC_VOTE, 1, 1, "110");
    CHECK_ROW(2, QC_JOIN_ABORT, 0, 6, "310");
    CHECK_ROW(3, QC_IN_GROUP, 2, 1, "313");
    CHECK_ROW(4, QC_OUTCOME, 0, 6, "513");
}

/* All prepare; sites 0 and 1 make a commit quorum, and site 1 hears of the outcome. */
static void a_commit(void)
{
    static const uint8_t list[] = {HEADER(3, 2, 2, 7, 0), START,         DELIVER(0, 1), DELIVER(0, 2), DELIVER(1, 0), DELIVER(2, 0),
                                   TIMEOUT(0),            DELIVER(3, 1), DELIVER(4, 0), TIMEOUT(0),    DELIVER(5, 1)};
    CHECK_PLAY(list, QC_ACCEPTED, 10, 38);
    CHECK(qc_news(world), 8);
    CHECK_TEXT(site_line(0), "0 up coordinator committed PCc 421");
    CHECK_TEXT(site_line(1), "1 up subordinate committed PCc 441");
    CHECK_TEXT(site_line(2), "2 up subordinate prepared P-- 101");
    CHECK_TEXT(digits(qc_log_group_code, world, 1), "221");
    CHECK_ROW(3, QC_JOIN_COMMIT, 0, 6, "211");
    CHECK_ROW(4, QC_IN_GROUP, 1, 1, "221");
    CHECK_ROW(5, QC_OUTCOME, 0, 6, "421");
    CHECK_ROW(6, QC_OUTCOME_ACK, 1, 1, "441");
}

/* M4 to M7. */
static void short_lists(void)
{
    static const uint8_t m4[] = {HEADER(3, 2, 2, 5, 0), START, DELIVER(0, 1), DELIVER(1, 0)};
    static const uint8_t m5[] = {HEADER(3, 2, 2, 7, 0), START, CRASH(0), RECOVER(0), TIMEOUT(0)};
    static const uint8_t m6[] = {HEADER(3, 2, 2, 7, 0), START, DELIVER(0, 1), DELIVER(0, 1)};
    static const uint8_t m7[] = {HEADER(3, 2, 2, 7, 0), TIMEOUT(2)};
    CHECK_PLAY(m4, QC_ACCEPTED, 3, 14);
    CHECK_TEXT(site_line(0), "0 up coordinator aborted P-a 550");
    CHECK_TEXT(site_line(1), "1 up subordinate aborted --a 150");
    CHECK_ROW(1, QC_VOTE, 1, 1, "150");
    CHECK(play(m5, 8), QC_ACCEPTED);
    CHECK_TEXT(site_line(0), "0 down subordinate prepared P-- 100");
    CHECK_PLAY(m5, QC_ACCEPTED, 4, 12);
    CHECK_TEXT(site_line(0), "0 up coordinator prepared P-- 100");
    CHECK_ROW(1, QC_PREPARE, 0, 6, "100");
    CHECK_PLAY(m6, QC_ACCEPTED, 3, 14);
    CHECK(qc_row_count(world), 3);
    CHECK(qc_news(world), 1);
    CHECK_TEXT(site_line(1), "1 up subordinate prepared P-- 110");
    CHECK_ROW(2, QC_VOTE, 1, 1, "110");
    CHECK_PLAY(m7, QC_ACCEPTED, 1, 7);
    CHECK(qc_row_count(world), 0);
    CHECK_TEXT(site_line(2), "2 up subordinate aborted --a 005");
}

/* Site 1 restarts before it has voted: R1, R2; site 0 before START: R3. */
static void restarts(void)
{
    static const uint8_t voted[] = {HEADER(3, 2, 2, 7, 0), START, CRASH(1), RECOVER(1), DELIVER(0, 1), DELIVER(1, 0)};
    static const uint8_t before_start[] = {HEADER(3, 2, 2, 7, 0), CRASH(0), RECOVER(0), START};
    CHECK(play(voted, 10), QC_ACCEPTED);
    CHECK(qc_row_count(world), 1);
    CHECK_TEXT(site_line(1), "1 up subordinate aborted --a 050");
    CHECK_PLAY(voted, QC_ACCEPTED, 5, 18);
    CHECK_TEXT(site_line(0), "0 up coordinator aborted P-a 550");
    CHECK_TEXT(site_line(1), "1 up subordinate aborted --a 150");
    CHECK_ROW(1, QC_VOTE, 1, 1, "150");
    CHECK_PLAY(before_start, QC_STARTED, 2, 9);
    CHECK_TEXT(site_line(0), "0 up subordinate aborted --a 500");
}

/* Site 1 as a world may be handed in: down, coordinator, knowing 1, its own code and 4; with an empty log, which aborts all the same, and with a
 * prepare record. */
static void restarts_of_a_coordinator(void)
{
    static const uint8_t recover[] = {RECOVER(1)};
    static const uint8_t fresh[] = {HEADER(3, 2, 2, 7, 0)};
    uint8_t *site = world + 32 + 40;
    unsigned record;
    for (record = 0; record < 2; record++) {
        CHECK(play(fresh, sizeof fresh), QC_ACCEPTED);
        site[0] = 0;
        site[1] = QC_COORDINATOR;
        site[2] = (uint8_t)record;
        site[8] = QC_PREPARED;
        site[9] = record ? QC_PREPARED : QC_ACTIVE;
        site[10] = QC_COMMITTED;
        CHECK(qc_play_command(world, sizeof world, store, sizeof store, recover, sizeof recover, 0, result, sizeof result), QC_ACCEPTED);
        CHECK(qc_row_count(world), 0);
        CHECK_TEXT(site_line(1), record ? "1 up coordinator prepared P-- 114" : "1 up subordinate aborted --a 154");
    }
}

/* Sixteen sites: the high bytes of willing sites and destinations, and the last site. */
static void the_most_sites(void)
{
    static const uint8_t list[] = {HEADER(16, 15, 2, 0xff, 0xff), START, DELIVER(0, 15)};
    CHECK_PLAY(list, QC_ACCEPTED, 2, 10);
    CHECK(qc_willing(world), 0xffff);
    CHECK_TEXT(site_line(15), "15 up subordinate prepared P-- 1000000000000001");
    CHECK_ROW(0, QC_PREPARE, 0, 0xfffe, "1000000000000000");
    CHECK_ROW(1, QC_VOTE, 15, 1, "1000000000000001");
}

static const uint8_t no_weight[] = {SECOND(3, 2, 2, 7), 1, 1, 0};

/* M8 to M10, the cut command, headers and lengths. */
static void refusals(void)
{
    static const uint8_t m8[] = {HEADER(3, 2, 2, 7, 0), START, START};
    static const uint8_t m9[] = {HEADER(3, 2, 2, 7, 0), START, DELIVER(0, 0)};
    static const uint8_t m10[] = {HEADER(3, 2, 2, 7, 0), RECOVER(1)};
    static const uint8_t cut[] = {HEADER(3, 2, 2, 7, 0), START, QC_DELIVER, 0};
    static const uint8_t two[] = {HEADER(2, 2, 2, 3, 0)};
    static const uint8_t apart[] = {HEADER(4, 2, 2, 15, 0)};
    static const uint8_t willing[] = {HEADER(3, 2, 2, 8, 0)};
    static const uint8_t long_list[QC_LIST_BYTES + 1] = {0};
    CHECK_PLAY(m8, QC_STARTED, 1, 6);
    CHECK_PLAY(m9, QC_NOT_SENT, 1, 6);
    CHECK_PLAY(m10, QC_SITE_UP, 0, 5);
    CHECK_PLAY(cut, QC_CUT_SHORT, 1, 6);
    CHECK_PLAY(two, QC_BAD_SITES, 0, 0);
    CHECK_PLAY(apart, QC_BAD_QUORUMS, 0, 0);
    CHECK_PLAY(willing, QC_BAD_WILLING, 0, 0);
    CHECK_PLAY(long_list, QC_LIST_LONG, 0, 0);
    CHECK_PLAY(no_weight, QC_BAD_WEIGHT, 0, 0);
    CHECK(play(m8, 4), QC_LIST_SHORT);
    CHECK(qc_site_count(world), 0);
}

/* Row 1,024 as the 1,025th. */
static void a_full_store(void)
{
    static uint8_t list[QC_HEADER_BYTES + 1 + 2 * QC_ROWS] = {HEADER(3, 2, 2, 7, 0), START};
    unsigned at;
    for (at = QC_HEADER_BYTES + 1; at < sizeof list; at += 2)
        list[at] = QC_TIMEOUT;
    CHECK_PLAY(list, QC_STORE_FULL, 1024, 2052);
    CHECK(qc_row_count(world), 1024);
    CHECK_ROW(1023, QC_JOIN_ABORT, 0, 6, "300");
}

/* M3 again, a command at a time. */
static void one_at_a_time(void)
{
    static const unsigned places[] = {6, 10, 14, 16, 20, 24, 26};
    static uint8_t rows[5 * QC_ROW_BYTES];
    static uint8_t end[QC_WORLD_BYTES];
    uint64_t at = QC_HEADER_BYTES;
    unsigned turn;
    CHECK(play(m3, sizeof m3), QC_ACCEPTED);
    memcpy(rows, store, sizeof rows);
    memcpy(end, world, sizeof end);
    CHECK(play(m3, QC_HEADER_BYTES), QC_ACCEPTED);
    memset(store, 0xee, sizeof store);
    for (turn = 0; turn < 7; turn++) {
        CHECK(qc_play_command(world, sizeof world, store, sizeof store, m3, sizeof m3, (size_t)at, result, sizeof result), QC_ACCEPTED);
        at = qc_result_next_place(result);
        CHECK(at, places[turn]);
    }
    CHECK((uint64_t)(memcmp(world, end, sizeof end) == 0), 1);
    CHECK((uint64_t)(memcmp(store, rows, sizeof rows) == 0), 1);
    CHECK(qc_play_command(world, sizeof world, store, sizeof store, m3, sizeof m3, 26, result, sizeof result), QC_NO_COMMAND);
}

/* The report of M3; and 17 for the world that 16, 1 to 5 and 21 leave. */
static void reports(void)
{
    static const char wanted[] = "sites 3 commit 2 abort 2 events 7 rows 5 news 5\n0 up coordinator aborted PAa 513\n"
                                 "1 up subordinate prepared P-- 110\n2 up subordinate abort-group -A- 313\nend 26\n";
    CHECK(play(m3, sizeof m3), QC_ACCEPTED);
    CHECK(qc_report(world, sizeof world, 7, 0, 26, text, sizeof text, result, sizeof result), QC_ACCEPTED);
    CHECK(qc_result_length(result), strlen(wanted));
    CHECK((uint64_t)(memcmp(text, wanted, strlen(wanted)) == 0), 1);
    CHECK(qc_report(world, sizeof world, 7, 0, 26, text, sizeof text - 1, result, sizeof result), QC_REPORT_SHORT);
    CHECK(play(m3, 3), QC_LIST_SHORT);
    CHECK(qc_report(world, sizeof world, 0, 2, 0, text, sizeof text, result, sizeof result), QC_BAD_WORLD);
    CHECK(play(no_weight, sizeof no_weight), QC_BAD_WEIGHT);
    CHECK(qc_report(world, sizeof world, 0, 21, 0, text, sizeof text, result, sizeof result), QC_BAD_WORLD);
    CHECK(qc_play_list(m3, sizeof m3, store, sizeof store - 1, world, sizeof world, result, sizeof result), QC_STORE_SHORT);
    CHECK(qc_report(world, sizeof world, 0, 16, 0, text, sizeof text, result, sizeof result), QC_BAD_WORLD);
}

static void numbers(void)
{
    static const uint8_t bytes[] = {1, 2, 3, 4, 5, 6, 7, 0xf8};
    static const uint8_t head[] = {QC_LAYOUT, 3,  0xf1, 14, 0xf2, 13, 7,  0x80, 9,  4,  1,  2,  3,  0xf4, 0,  0,
                                   16,        17, 18,   19, 20,   21, 22, 23,   24, 25, 26, 27, 28, 29,   30, 31, 1};
    CHECK(qc_number16(bytes + 6), 0xf807);
    CHECK(qc_result_events(bytes), 0x04030201);
    CHECK(qc_result_place(bytes), 0xf8070605);
    CHECK(qc_result_next_place(bytes), 0xf807060504030201u);
    CHECK(qc_result_length(bytes), 0xf807060504030201u);
    CHECK(qc_site_count(head), 3);
    CHECK(qc_commit_quorum(head), 0x0ef1);
    CHECK(qc_abort_quorum(head), 0x0df2);
    CHECK(qc_willing(head), 0x8007);
    CHECK(qc_row_count(head), 0x0409);
    CHECK(qc_news(head), 0xf4030201);
    CHECK(qc_weight(head, 0), 16);
    CHECK(qc_weight(head, 15), 31);
    CHECK(qc_site_up(head, 0), 1);
    CHECK(QC_WORLD_BYTES, QC_TERMS_BYTES + QC_SITE_BYTES * QC_SITES);
    CHECK(QC_TERMS_BYTES, 32);
    CHECK(QC_SITE_BYTES, 40);
    CHECK(QC_SECOND_HEADER_BYTES(QC_SITES), 24);
    CHECK(QC_SECOND_EDITION, 130);
    CHECK(QC_WEIGHT, UINT8_MAX);
    CHECK(QC_NEWS, 15 * QC_LIST_BYTES);
}

/* Every answer has a text of its own, and no other number has one. */
static void texts(void)
{
    const char *none = qc_answer_text(QC_ANSWER_COUNT);
    uint32_t one, other;
    CHECK(QC_ANSWER_COUNT, 23);
    CHECK_TEXT(none, "no answer of this library");
    CHECK_TEXT(qc_answer_text(UINT32_MAX), none);
    CHECK_TEXT(qc_answer_text(QC_ACCEPTED), "accepted");
    CHECK_TEXT(qc_answer_text(12), "the site is down");
    CHECK_TEXT(qc_answer_text(QC_STARTED), "START while site 0 is not active, or at another site");
    CHECK_TEXT(qc_answer_text(19), "a line is not in the form, or a number in it is past its range");
    CHECK_TEXT(qc_answer_text(20), "the buffer is shorter than what is to be written to it");
    CHECK_TEXT(qc_answer_text(21), "a site's weight is 0");
    CHECK_TEXT(qc_answer_text(QC_UNEVEN_WEIGHT), "a site's weight is not 1, so the first edition cannot have the list");
    for (one = 0; one < 23; one++) {
        CHECK((uint64_t)(strlen(qc_answer_text(one)) > 0), 1);
        for (other = one + 1; other <= 23; other++)
            CHECK((uint64_t)(strcmp(qc_answer_text(one), qc_answer_text(other)) != 0), 1);
    }
}

int main(void)
{
    fresh_worlds();
    fresh_weights();
    an_abort();
    a_commit();
    a_weighed_commit();
    short_lists();
    restarts();
    restarts_of_a_coordinator();
    the_most_sites();
    refusals();
    a_full_store();
    one_at_a_time();
    reports();
    line_readers();
    step_readers();
    numbers();
    texts();
    printf("readers: %u checks of the C header's readers against the worked days\n", checks);
    return 0;
}

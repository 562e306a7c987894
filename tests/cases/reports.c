/* Numbers 17 and 18 of the report: its own numbers and its buffer; a report with weights, and the longest. */
#include <stdio.h>
#include <string.h>

#include "cases.h"

struct report_case {
    const char *name;
    struct change changes[CHANGES];
    size_t events;
    uint32_t number;
    size_t place, buffer_length;
    unsigned answer;
};

#define FRESH {{0, 0, 0}}

static const struct report_case reports[] = {
    {"17 32,768 events pass", FRESH, 32768, 0, 0, 1024, 0},
    {"17 32,769 events", FRESH, 32769, 0, 0, 1024, 17},
    {"17 place 32,768 passes", FRESH, 0, 0, 32768, 1024, 0},
    {"17 place 32,769", FRESH, 0, 0, 32769, 1024, 17},
    {"17 stop number 0 passes", FRESH, 0, 0, 5, 1024, 0},
    {"17 stop number 1 passes", FRESH, 0, 1, 5, 1024, 0},
    {"17 stop number 18 passes", FRESH, 0, 18, 5, 1024, 0},
    {"17 stop number 19 passes", FRESH, 0, 19, 5, 1024, 0},
    {"17 stop number 20 passes", FRESH, 0, 20, 5, 1024, 0},
    {"17 stop number 21 passes", FRESH, 0, 21, 5, 1024, 0},
    {"17 stop number 22 passes", FRESH, 0, 22, 5, 1024, 0},
    {"17 stop number 23", FRESH, 0, 23, 5, 1024, 17},
    {"17 stop number 255", FRESH, 0, 255, 5, 1024, 17},
    {"17 stop number 256", FRESH, 0, 256, 5, 1024, 17},
    {"18 a buffer of 1,023 bytes", FRESH, 0, 0, 5, 1023, 18},
    {"18 a buffer of 1,024 bytes passes", FRESH, 0, 0, 5, 1024, 0},
    {"17 before 18", {ALL_ZERO}, 0, 0, 5, 1023, 17},
};

static struct {
    uint8_t text[QC_REPORT_BYTES], result[QC_RESULT_BYTES];
} now, before;

static void report_numbers(void)
{
    uint8_t world[QC_WORLD_BYTES];
    size_t i;
    for (i = 0; i < COUNT(reports); i++) {
        const struct report_case *one = &reports[i];
        begin(one->name);
        make_world(world, one->changes);
        now = before;
        expect("number",
               qc_report(world, sizeof world, one->events, one->number, one->place, now.text, one->buffer_length, now.result, sizeof now.result),
               one->answer);
        expect("refused, and buffers unchanged", memcmp(&now, &before, sizeof now) == 0, one->answer != QC_ACCEPTED);
    }
}

/* A report must be this text, and leave the bytes beyond it. */
static void expect_text(const uint8_t *world, const struct report_case *asked, const char *text)
{
    const size_t length = strlen(text);
    begin(asked->name);
    now = before;
    expect("number", qc_report(world, QC_WORLD_BYTES, asked->events, asked->number, asked->place, now.text, sizeof now.text, now.result,
                               sizeof now.result), asked->answer);
    expect("length", qc_result_length(now.result), length);
    expect("another text", memcmp(now.text, text, length) != 0, 0);
    expect("bytes beyond the text", memcmp(now.text + length, before.text + length, sizeof now.text - length) != 0, 0);
}

/* Quorums are printed as they are, and weights are not. */
static const struct report_case weighed = {
    "report of weights 200, 200 and 199",
    {COMMIT_QUORUM(399), ABORT_QUORUM(256), WEIGHT(0, 200), WEIGHT(1, 200), WEIGHT(2, 199)}, 0, 0, 11, 1024, 0,
};

static void report_weights(void)
{
    uint8_t world[QC_WORLD_BYTES];
    make_world(world, weighed.changes);
    expect_text(world, &weighed,
                "sites 3 commit 399 abort 256 events 0 rows 0 news 0\n0 up subordinate active --- 000\n"
                "1 up subordinate active --- 000\n2 up subordinate active --- 000\nend 11\n");
}

/* The longest report: sixteen sites, all numbers of the most digits, every site down and in the commit group. */
static const struct report_case longest = {
    "the longest report",
    {SITES(16), COMMIT_QUORUM(3825), ABORT_QUORUM(3825), ROWS(1024), NEWS(491520), WEIGHTS16(255)}, 32768, 22, 32768, 1024, 0,
};

/* The site as a line of its report, and as its bytes. */
static char *put_longest_site(char *line, uint8_t *world, unsigned site)
{
    static const char codes[] = "0000000000000000";
    uint8_t *record = world + 32 + 40 * site;
    record[0] = 0;
    record[3] = QC_COMMIT;
    record[8 + site] = record[24 + site] = QC_COMMIT_GROUP;
    line += sprintf(line, "%u down subordinate commit-group -C- %s\n", site, codes);
    line[(int)site - 17] = '2';
    return line;
}

static void report_longest(void)
{
    char text[QC_REPORT_BYTES], *line = text;
    uint8_t world[QC_WORLD_BYTES];
    unsigned site;
    make_world(world, longest.changes);
    line += sprintf(line, "sites 16 commit 3825 abort 3825 events 32768 rows 1024 news 491520\n");
    for (site = 0; site < QC_SITES; site++)
        line = put_longest_site(line, world, site);
    sprintf(line, "refused 22 at 32768\n");
    expect_text(world, &longest, text);
    expect("its length", strlen(text), 941);
}

void report_cases(void)
{
    memset(&before, 7, sizeof before);
    report_numbers();
    report_weights();
    report_longest();
}

/* A club's log in the example network, cut off at every byte: what is whole is read back, the rest is taken off, and the next record stands after it.
 * Exits 0 if all is as it should be, 1 after the first difference. Writes club2.log in the working directory.
 */
#define _POSIX_C_SOURCE 200809L

#include <errno.h>
#include <stdio.h>
#include <stdlib.h>
#include <unistd.h>

#include "../examples/network.h"
#include "shared.h"

const char *const test_name = "network log";

enum { OWN = 2, TEXT_BYTES = 160 };

/* A log, and what it says. */
struct told {
    const char *text;
    unsigned prepare, group, outcome;
    const char *codes;
};

#define BEGUN "club 2\n"

/* Whole logs, and what they say. */
static const struct told logs[] = {
    {BEGUN, 0, QC_NO_RECORD, QC_NO_RECORD, "00000"},
    {BEGUN "prepare\n", 1, QC_NO_RECORD, QC_NO_RECORD, "00000"},
    {BEGUN "prepare\ngroup commit 11211\n", 1, QC_COMMIT, QC_NO_RECORD, "11211"},
    {BEGUN "prepare\ngroup commit 11211\noutcome commit\n", 1, QC_COMMIT, QC_COMMIT, "11211"},
    {BEGUN "prepare\ngroup commit 11211\noutcome abort\n", 1, QC_COMMIT, QC_ABORT, "11211"},
    {BEGUN "prepare\ngroup abort 10340\n", 1, QC_ABORT, QC_NO_RECORD, "10340"},
    {BEGUN "prepare\noutcome commit\n", 1, QC_NO_RECORD, QC_COMMIT, "00000"},
    {BEGUN "group abort 30300\n", 0, QC_ABORT, QC_NO_RECORD, "30300"},
    {BEGUN "group abort 30300\noutcome abort\n", 0, QC_ABORT, QC_ABORT, "30300"},
    {BEGUN "outcome abort\n", 0, QC_NO_RECORD, QC_ABORT, "00000"},
};

/* Files that no kill leaves: a line with its line feed that is not in the form, or cannot stand there. */
static const char *const damaged[] = {
    "\n", "club 3\n", "club 2 \n", "club 22\n", "prepare\n", BEGUN "\n", BEGUN "prepar\n", BEGUN "prepared\n", BEGUN BEGUN, BEGUN "prepare\nprepare\n",
    BEGUN "group commit 1121\n", BEGUN "group commit 112111\n", BEGUN "group commit 11261\n", BEGUN "group commit\n", BEGUN "group none 11211\n",
    BEGUN "group abort 30300\nprepare\n", BEGUN "group abort 30300\ngroup abort 30300\n", BEGUN "outcome commi\n", BEGUN "outcome  commit\n",
    BEGUN "outcome abort\nprepare\n", BEGUN "outcome abort\noutcome abort\n", BEGUN "outcome abort\ngroup abort 30300\n",
    BEGUN "prepare\ngroup commit 11211\noutcome commit\nand many more bytes than a log can have, which are no line of one, whole or not",
};

/* What a step has written, and its line. */
static const struct {
    uint8_t result[QC_STEP_RESULT_BYTES];
    const char *line;
} records[] = {
    {{1}, "prepare\n"},
    {{0, QC_COMMIT}, "group commit 13245\n"},
    {{0, QC_ABORT}, "group abort 13245\n"},
    {{0, 0, QC_COMMIT}, "outcome commit\n"},
    {{0, 0, QC_ABORT}, "outcome abort\n"},
};

static unsigned cuts, found_damaged;

static void put_file(const char *text, size_t length)
{
    FILE *file = fopen("club2.log", "wb");
    if (file == NULL || fwrite(text, 1, length, file) != length || fclose(file) != 0)
        exit(2);
}

static void expect_file(const char *wanted)
{
    char text[TEXT_BYTES];
    FILE *file = fopen("club2.log", "rb");
    size_t length = file == NULL ? 0 : fread(text, 1, sizeof text - 1, file);
    text[length] = 0;
    if (file != NULL)
        fclose(file);
    expect("bytes of the file", length, strlen(wanted));
    expect_same("bytes of the file that are right", (const uint8_t *)text, (const uint8_t *)wanted, length);
}

/* The longest log of the table that stands whole in a text. */
static const struct told *whole_of(const char *text)
{
    const struct told *best = NULL;
    size_t i;
    for (i = 0; i < sizeof logs / sizeof logs[0]; i++)
        if (strncmp(text, logs[i].text, strlen(logs[i].text)) == 0 && (best == NULL || strlen(logs[i].text) > strlen(best->text)))
            best = &logs[i];
    return best;
}

static void expect_told(const struct log *log, const struct told *told)
{
    unsigned site;
    expect("prepare", log->prepare, told->prepare);
    expect("group", log->group, told->group);
    expect("outcome", log->outcome, told->outcome);
    for (site = 0; site < SITES; site++)
        expect("a code", log->group_codes[site], (uint64_t)(told->codes[site] - '0'));
}

/* A log cut after so many bytes, and then one of the records. */
static void cut(const char *text, size_t length)
{
    const size_t record = length % (sizeof records / sizeof records[0]);
    const uint8_t site[QC_SITE_BYTES] = {[24] = 1, 3, 2, 4, 5};
    char kept[TEXT_BYTES], then[TEXT_BYTES];
    const struct told *told;
    struct log log;
    snprintf(current, sizeof current, "%u bytes of '%s', then '%s'", (unsigned)length, text, records[record].line);
    snprintf(kept, sizeof kept, "%.*s", (int)length, text);
    told = whole_of(kept);
    put_file(text, length);
    expect("new or old", log_open(&log, OWN), told == NULL ? LOG_NEW : LOG_OLD);
    expect_told(&log, told == NULL ? &logs[0] : told);
    expect_file(told == NULL ? BEGUN : told->text);
    expect("written", (uint64_t)log_write(&log, site, records[record].result), 1);
    snprintf(then, sizeof then, "%s%s", told == NULL ? BEGUN : told->text, records[record].line);
    expect_file(then);
    close(log.file);
    cuts++;
}

static void refuse(const char *text)
{
    struct log log;
    snprintf(current, sizeof current, "damaged: '%s'", text);
    put_file(text, strlen(text));
    errno = ENOENT;
    expect("a damaged log", log_open(&log, OWN), LOG_FAILED);
    expect("errno", (uint64_t)errno, 0);
    close(log.file);
    expect_file(text);
    found_damaged++;
}

/* Where its last line begins. */
static size_t last_line(const char *text)
{
    size_t at = strlen(text) - 1;
    while (at > 0 && text[at - 1] != '\n')
        at--;
    return at;
}

/* Each log is cut in its last line: all that stands before is a log of the table too. */
int main(void)
{
    size_t i, length;
    for (i = 0; i < sizeof logs / sizeof logs[0]; i++)
        for (length = last_line(logs[i].text); length <= strlen(logs[i].text); length++)
            cut(logs[i].text, length);
    for (i = 0; i < sizeof damaged / sizeof damaged[0]; i++)
        refuse(damaged[i]);
    unlink("club2.log");
    printf("network: a log cut off at %u places is read back and goes on; %u damaged logs are refused\n", cuts, found_damaged);
    return 0;
}

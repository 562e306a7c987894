/* A club's log: a file of lines, one record a line.
 *     club 2                the first line, written before the site's first step: it has begun
 *     prepare               the prepare record
 *     group commit 22111    the group record, commit or abort, with what the site knew then of each site
 *     outcome commit        the outcome record, commit or abort
 *
 * A line is written with its line feed at once, and forced to disk before the step's row is sent. So a last line without a line feed was being written
 * when the club was killed: nothing was sent that rests on it, and it is taken off. Any other line that is not in the form means a damaged file.
 */
#define _POSIX_C_SOURCE 200809L

#include <errno.h>
#include <fcntl.h>
#include <stdio.h>
#include <unistd.h>

#include "network.h"

/* Every log is shorter: four lines of at most 19 bytes. */
enum { LOG_BYTES = 80 };

/* As enum qc_record has them. */
static const char *const kinds[] = {"", "commit", "abort"};

/* Lines read. */

static int is_outcome(const char *line, unsigned kind)
{
    char wanted[LOG_BYTES];

    snprintf(wanted, sizeof wanted, "outcome %s", kinds[kind]);
    return strcmp(line, wanted) == 0;
}

/* The codes in it, if it is a group record of this kind. */
static const char *codes_of_group(const char *line, unsigned kind)
{
    char wanted[LOG_BYTES];
    const size_t length = (size_t)snprintf(wanted, sizeof wanted, "group %s ", kinds[kind]);

    if (strncmp(line, wanted, length) != 0 || strlen(line) != length + SITES || strspn(line + length, "012345") != SITES)
        return NULL;
    return line + length;
}

static void take_group(struct log *log, unsigned kind, const char *codes)
{
    unsigned site;

    log->group = kind;
    for (site = 0; site < SITES; site++)
        log->group_codes[site] = (uint8_t)(codes[site] - '0');
}

/* Takes a line after the first into the log. 0 if it is none, or cannot stand there. */
static int take_record(struct log *log, const char *line)
{
    const int joined = log->group != QC_NO_RECORD, ended = log->outcome != QC_NO_RECORD;
    unsigned kind;

    if (strcmp(line, "prepare") == 0 && !log->prepare && !joined && !ended) {
        log->prepare = 1;
        return 1;
    }
    for (kind = QC_COMMIT; kind <= QC_ABORT; kind++) {
        const char *codes = codes_of_group(line, kind);
        if (codes != NULL && !joined && !ended) {
            take_group(log, kind, codes);
            return 1;
        }
        if (is_outcome(line, kind) && !ended) {
            log->outcome = kind;
            return 1;
        }
    }
    return 0;
}

static int is_first(const struct log *log, const char *line)
{
    char wanted[NAME_BYTES];

    snprintf(wanted, sizeof wanted, "club %u", log->own);
    return strcmp(line, wanted) == 0;
}

/* Takes in all whole lines, and gives how many bytes they have; -1 if the file cannot be read, or, with errno 0, is damaged. */
static long take_lines(struct log *log)
{
    char text[LOG_BYTES], *line = text, *end;
    const ssize_t length = read(log->file, text, sizeof text);

    if (length < 0)
        return -1;
    errno = 0;
    if (length == LOG_BYTES)
        return -1;
    for (; (end = (char *)memchr(line, '\n', (size_t)(text + length - line))) != NULL; line = end + 1) {
        *end = 0;
        if (strlen(line) != (size_t)(end - line) || !(line == text ? is_first(log, line) : take_record(log, line)))
            return -1;
    }
    return line - text;
}

/* Lines written. */

static int write_lines(const struct log *log, const char *text)
{
    return write(log->file, text, strlen(text)) == (ssize_t)strlen(text) && fsync(log->file) == 0;
}

/* Forces the file, and that it is in its directory. */
static int force_all(const struct log *log)
{
    const int directory = open(".", O_RDONLY);
    int forced = directory >= 0 && fsync(log->file) == 0 && fsync(directory) == 0;

    if (directory >= 0)
        close(directory);
    return forced;
}

enum log_found log_open(struct log *log, unsigned own)
{
    char text[NAME_BYTES];
    long whole;

    memset(log, 0, sizeof *log);
    log->own = own;
    club_name(text, own, ".log");
    log->file = open(text, O_RDWR | O_CREAT | O_APPEND, 0666);
    if (log->file < 0)
        return LOG_FAILED;
    whole = take_lines(log);
    if (whole < 0 || ftruncate(log->file, whole) != 0)
        return LOG_FAILED;
    snprintf(text, sizeof text, "club %u\n", own);
    if ((whole == 0 && !write_lines(log, text)) || !force_all(log))
        return LOG_FAILED;
    return whole == 0 ? LOG_NEW : LOG_OLD;
}

int log_write(const struct log *log, const uint8_t *site, const uint8_t *result)
{
    char text[LOG_BYTES] = "";
    char *end = text;
    unsigned of;

    if (qc_step_prepare(result))
        end += sprintf(end, "prepare\n");
    if (qc_step_group(result) != QC_NO_RECORD) {
        end += sprintf(end, "group %s ", kinds[qc_step_group(result)]);
        for (of = 0; of < SITES; of++)
            end += sprintf(end, "%u", qc_own_group_code(site, of));
        end += sprintf(end, "\n");
    }
    if (qc_step_outcome(result) != QC_NO_RECORD)
        end += sprintf(end, "outcome %s\n", kinds[qc_step_outcome(result)]);
    return write_lines(log, text);
}

/* Plays a day of clubs of different weight and prints its report. The arguments are C, A and a weight for each site; they make a list of the second
 * edition (include/quorum.h, WEIGHTS).
 *   cc -Wall -Wextra -Werror -Iinclude examples/weights.c target/staticlib/libquorum.a -o target/weights
 *   target/weights 51 50 40 25 15 10 10
 *
 * All sites are willing and prepare. Then the host, site 0, lets others into the commit group, from site 1 up, until the group weighs C; it commits
 * and tells all. So in the report the log of a site that was needed for the quorum is PCc, and that of the others P-c.
 *
 * Exit status: 0 the day was played; 1 C, A, the weights or how many there are were refused, and standard error says why; 2 the arguments are not
 * numbers in their range, or the report could not be printed.
 */
#include <errno.h>
#include <stdlib.h>

#include "played.h"

enum { HOST = 0 };

/* The numbers of a list's header; all sites are willing. */
struct sizes {
    unsigned n, commit_quorum, abort_quorum;
    unsigned weights[QC_SITES];
};

/* A list as it is written. */
struct list {
    uint8_t bytes[QC_LIST_BYTES];
    size_t length;
};

static void put_byte(struct list *list, unsigned byte)
{
    if (list->length < sizeof list->bytes)
        list->bytes[list->length++] = (uint8_t)byte;
}

/* Low byte first. */
static void put_number16(struct list *list, unsigned number)
{
    put_byte(list, number & 0xff);
    put_byte(list, number >> 8);
}

/* The second edition's header: QC_SECOND_HEADER_BYTES(n) bytes. */
static void put_header(struct list *list, const struct sizes *sizes)
{
    unsigned site;

    put_byte(list, QC_SECOND_EDITION);
    put_byte(list, sizes->n);
    put_number16(list, sizes->commit_quorum);
    put_number16(list, sizes->abort_quorum);
    put_number16(list, (1u << sizes->n) - 1);
    for (site = 0; site < sizes->n; site++)
        put_byte(list, sizes->weights[site]);
}

static void put_delivery(struct list *list, unsigned row, unsigned site)
{
    put_byte(list, QC_DELIVER);
    put_number16(list, row);
    put_byte(list, site);
}

static void put_host_timeout(struct list *list)
{
    put_byte(list, QC_TIMEOUT);
    put_byte(list, HOST);
}

/* The host's row goes to the sites from 1 to the last, and their replies, the rows after it, to the host. Gives the number of the row after those. */
static unsigned put_round(struct list *list, unsigned row, unsigned last)
{
    unsigned site;

    for (site = 1; site <= last; site++)
        put_delivery(list, row, site);
    for (site = 1; site <= last; site++)
        put_delivery(list, row + site, HOST);
    return row + last + 1;
}

/* The last site that the host needs for a commit quorum, if it takes them from 1 up. */
static unsigned last_needed(const struct sizes *sizes)
{
    unsigned last = HOST, weight = sizes->weights[HOST];

    while (last + 1 < sizes->n && weight < sizes->commit_quorum)
        weight += sizes->weights[++last];
    return last;
}

/* All prepare; as many as are needed join; all hear of the outcome. */
static void put_day(struct list *list, const struct sizes *sizes)
{
    unsigned row;

    put_header(list, sizes);
    put_byte(list, QC_START);
    row = put_round(list, 0, sizes->n - 1);
    put_host_timeout(list);
    row = put_round(list, row, last_needed(sizes));
    put_host_timeout(list);
    put_round(list, row, sizes->n - 1);
}

/* A decimal that is all of an argument and at most so large; gives 0 if it is none. */
static int read_number(const char *text, unsigned most, unsigned *number)
{
    char *end;
    unsigned long value;

    if (*text < '0' || *text > '9')
        return 0;
    errno = 0;
    value = strtoul(text, &end, 10);
    *number = (unsigned)value;
    return *end == '\0' && errno == 0 && value <= most;
}

/* C, A and one to sixteen weights; gives 0 if the arguments are others. */
static int read_sizes(int count, char **arguments, struct sizes *sizes)
{
    unsigned site;

    if (count < 4 || count > 3 + QC_SITES)
        return 0;
    sizes->n = (unsigned)count - 3;
    for (site = 0; site < sizes->n; site++)
        if (!read_number(arguments[3 + site], QC_WEIGHT, &sizes->weights[site]))
            return 0;
    return read_number(arguments[1], UINT16_MAX, &sizes->commit_quorum) && read_number(arguments[2], UINT16_MAX, &sizes->abort_quorum);
}

int main(int count, char **arguments)
{
    static struct list list;
    struct sizes sizes;
    struct played played;
    int status;

    if (!read_sizes(count, arguments, &sizes)) {
        fprintf(stderr, "usage: weights COMMIT ABORT WEIGHT..\n");
        return FAILED;
    }
    put_day(&list, &sizes);
    played = play(list.bytes, list.length);
    status = print_report(played);
    if (played.number != QC_ACCEPTED)
        fprintf(stderr, "refused: %s\n", qc_answer_text(played.number));
    return printed(status);
}

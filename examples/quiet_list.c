/* Writes the list of a quiet day to standard output: so many sites, all willing, nothing lost, late or repeated. The arguments are n, C and A.
 *   cc -Wall -Wextra -Werror -Iinclude examples/quiet_list.c target/staticlib/libquorum.a -o target/quiet_list
 *   target/quiet_list 3 2 2 > day.bin && target/play_day day.bin
 *
 * Exit status: 0 the list was written; 1 n, C or A was refused, and standard error says why; 2 the arguments are not three numbers, or the list could
 * not be written.
 */
#include <errno.h>
#include <stdlib.h>

#include "../include/quorum_read.h"
#include "list_file.h"

/* Exit statuses. */
enum { WRITTEN = 0, REFUSED = 1, FAILED = 2 };

/* A decimal that is all of an argument; gives 0 if it is none, or too large. */
static int read_size(const char *text, size_t *size)
{
    char *end;
    unsigned long value;

    if (*text < '0' || *text > '9')
        return 0;
    errno = 0;
    value = strtoul(text, &end, 10);
    *size = value;
    return *end == '\0' && errno == 0;
}

int main(int count, char **arguments)
{
    uint8_t list[QC_QUIET_BYTES], result[QC_LINES_RESULT_BYTES];
    size_t n, commit_quorum, abort_quorum;
    uint32_t refused;

    if (count != 4 || !read_size(arguments[1], &n) || !read_size(arguments[2], &commit_quorum) || !read_size(arguments[3], &abort_quorum)) {
        fprintf(stderr, "usage: quiet_list SITES COMMIT ABORT\n");
        return FAILED;
    }
    refused = qc_write_quiet(n, commit_quorum, abort_quorum, list, sizeof list, result, sizeof result);
    if (refused != QC_ACCEPTED) {
        fprintf(stderr, "refused %u: %s\n", (unsigned)refused, qc_answer_text(refused));
        return REFUSED;
    }
    return write_list(list, (size_t)qc_lines_length(result)) == 0 ? WRITTEN : FAILED;
}

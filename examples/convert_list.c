/* Turns a list into the other edition (include/quorum.h, EDITIONS) and writes it to standard output: the list file named by the argument, or standard
 * input.
 *   cc -Wall -Wextra -Werror -Iinclude examples/convert_list.c target/staticlib/libquorum.a -o target/convert_list
 *   target/convert_list examples/m3.bin > second.bin && target/convert_list second.bin | cmp - examples/m3.bin
 *
 * Exit status: 0 the list was written; 1 it was refused, standard error says why, and nothing is written; 2 it could not be read or written.
 */
#include "../include/quorum_read.h"
#include "list_file.h"

/* Exit statuses. */
enum { WRITTEN = 0, REFUSED = 1, FAILED = 2 };

/* Says why a list of this length is refused; 1 may be for the list that would be written. */
static void say_why(uint32_t number, size_t length)
{
    const int in_the_other = number == QC_LIST_LONG && length <= QC_LIST_BYTES;

    fprintf(stderr, "refused %u: %s%s\n", (unsigned)number, in_the_other ? "in the other edition " : "", qc_answer_text(number));
}

int main(int count, char **arguments)
{
    static uint8_t list[FILE_ROOM], converted[QC_LIST_BYTES];
    uint8_t result[QC_LINES_RESULT_BYTES];
    size_t length;
    uint32_t refused;

    if (count > 2) {
        fprintf(stderr, "usage: convert_list [LIST]\n");
        return FAILED;
    }
    if (read_list(count > 1 ? arguments[1] : NULL, list, &length) != 0)
        return FAILED;
    refused = qc_convert(list, length, converted, sizeof converted, result, sizeof result);
    if (refused != QC_ACCEPTED) {
        say_why(refused, length);
        return REFUSED;
    }
    return write_list(converted, (size_t)qc_lines_length(result)) == 0 ? WRITTEN : FAILED;
}

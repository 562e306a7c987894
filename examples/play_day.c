/* Plays a list and prints its report: the list file named by the argument, or the day M3.
 *   cc -Wall -Wextra -Werror -Iinclude examples/play_day.c target/staticlib/libquorum.a -o target/play_day
 *
 * Exit status: 0 the list was played to its end; 1 it was refused, and the last line printed says with which number and where; 2 it could not be
 * read, or its report could not be printed.
 */
#include "list_file.h"
#include "played.h"

static const uint8_t day[] = {0x03, 0x02, 0x02, 0x07, 0x00, 0x01, 0x02, 0x00, 0x00, 0x01, 0x02, 0x01, 0x00,
                              0x00, 0x03, 0x00, 0x02, 0x02, 0x00, 0x02, 0x02, 0x03, 0x00, 0x00, 0x03, 0x00};

int main(int argc, char **argv)
{
    static uint8_t file_bytes[FILE_ROOM];
    const uint8_t *list = day;
    size_t length = sizeof day;
    struct played played;
    int status;

    if (argc > 1) {
        if (read_list(argv[1], file_bytes, &length) != 0)
            return FAILED;
        list = file_bytes;
    }
    played = play(list, length);
    status = print_report(played);
    if (played.number != QC_ACCEPTED)
        fprintf(stderr, "refused: %s\n", qc_answer_text(played.number));
    return printed(status);
}

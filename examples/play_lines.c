/* Plays a day that was typed as lines (include/quorum.h, LINES) and prints its report: the text file named by the argument, or standard input.
 *   cc -Wall -Wextra -Werror -Iinclude examples/play_lines.c target/staticlib/libquorum.a -o target/play_lines && target/play_lines examples/m3.txt
 *
 * Exit status: 0 the list was played to its end; 1 it was refused, the last line printed says with which number and where, and standard error shows
 * the line at fault; 2 the text could not be read, or the report not printed.
 */
#include <stdlib.h>

#include "played.h"

/* Of a line at fault, so many bytes are shown at most. */
enum { SHOWN = 72 };

/* Reads to the end, however far it is: a bad line in a text that is too long is still a bad line. NULL if that fails. */
static uint8_t *read_all(FILE *file, size_t *length)
{
    size_t room = QC_TEXT_BYTES;
    uint8_t *text = malloc(room), *longer;

    *length = 0;
    while (text != NULL) {
        *length += fread(text + *length, 1, room - *length, file);
        if (*length < room)
            break;
        room *= 2;
        longer = realloc(text, room);
        if (longer == NULL)
            free(text);
        text = longer;
    }
    if (text != NULL && ferror(file)) {
        free(text);
        return NULL;
    }
    return text;
}

/* A file's text, or that of standard input where there is no name. */
static uint8_t *read_text(const char *name, size_t *length)
{
    FILE *file = name == NULL ? stdin : fopen(name, "rb");
    uint8_t *text = file == NULL ? NULL : read_all(file, length);

    if (text == NULL)
        perror(name == NULL ? "standard input" : name);
    if (file != NULL && name != NULL)
        fclose(file);
    return text;
}

/* The first byte of the line after so many lines of a text that was read. */
static size_t line_place(const uint8_t *text, size_t lines)
{
    size_t at = 0;

    while (lines > 0)
        lines -= text[at++] == '\n';
    return at;
}

/* The number of the line that begins at a byte; the first is 1. */
static size_t line_number(const uint8_t *text, size_t at)
{
    size_t line = 1;

    while (at > 0)
        line += text[--at] == '\n';
    return line;
}

/* Where the line that begins at a byte ends: at its line feed, or at the text's end. */
static size_t line_end(const uint8_t *text, size_t length, size_t at)
{
    while (at < length && text[at] != '\n')
        at++;
    return at;
}

/* Shows a line's bytes, and one that would not show in hex; of a long line SHOWN of them, and two dots. */
static void show_bytes(const uint8_t *bytes, size_t length)
{
    size_t k;

    for (k = 0; k < length && k < SHOWN; k++) {
        if (bytes[k] >= ' ' && bytes[k] <= '~')
            fputc(bytes[k], stderr);
        else
            fprintf(stderr, "\\x%02x", (unsigned)bytes[k]);
    }
    if (k < length)
        fputs("..", stderr);
}

/* Says why a line is refused: its number, the line itself, and the reason. */
static void show_line(const uint8_t *text, size_t length, size_t at, uint32_t number)
{
    const size_t end = line_end(text, length, at);

    fprintf(stderr, "line %zu: \"", line_number(text, at));
    show_bytes(text + at, end - at);
    fprintf(stderr, "\"%s: %s\n", end < length ? "" : ", without a line feed", qc_answer_text(number));
}

/* Turns the text into a list, plays it and prints the report. Gives the exit status. */
static int play_text(const uint8_t *text, size_t length)
{
    static uint8_t list[QC_LIST_BYTES];
    uint8_t result[QC_LINES_RESULT_BYTES];
    uint32_t number = qc_read_lines(text, length, list, sizeof list, result, sizeof result);
    struct played played;
    int status;

    if (number != QC_ACCEPTED) {
        printf("refused %u at %llu\n", (unsigned)number, (unsigned long long)qc_lines_place(result));
        if (number == QC_LIST_LONG)
            fprintf(stderr, "refused: %s\n", qc_answer_text(number));
        else
            show_line(text, length, (size_t)qc_lines_place(result), number);
        return REFUSED;
    }
    played = play(list, (size_t)qc_lines_length(result));
    status = print_report(played);
    if (played.number != QC_ACCEPTED)
        show_line(text, length, line_place(text, (size_t)played.events + 1), played.number);
    return status;
}

int main(int argc, char **argv)
{
    size_t length;
    uint8_t *text = read_text(argc > 1 ? argv[1] : NULL, &length);
    int status;

    if (text == NULL)
        return FAILED;
    status = play_text(text, length);
    free(text);
    return printed(status);
}

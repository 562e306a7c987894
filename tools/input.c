/* An input, and the list that it holds. */
#include <errno.h>
#include <string.h>

#include "tool.h"
#include "words.h"

int say_failed(const char *name)
{
    const char *why = strerror(errno);

    fprintf(stderr, "quorum: %s: %s\n", name, why);
    return FAILED;
}

int read_input(struct input *input, const char *name)
{
    const char *shown = name == NULL ? "standard input" : name;
    FILE *file = name == NULL ? stdin : fopen(name, "rb");
    int status;

    if (file == NULL)
        return say_failed(shown);
    input->length = fread(input->bytes, 1, INPUT_BYTES + 1, file);
    status = ferror(file) ? say_failed(shown) : DONE;
    input->bytes[input->length] = 0;
    if (name != NULL)
        fclose(file);
    return status;
}

int is_lines(const struct input *input)
{
    return input->length > 0 && shows(input->bytes[0]);
}

struct answer list_of_lines(const struct input *input, struct list *list)
{
    static uint8_t bytes[QC_LIST_BYTES];
    uint8_t result[QC_LINES_RESULT_BYTES];
    struct answer answer = {QC_LIST_LONG, 0};

    memset(list, 0, sizeof *list);
    list->text = input->bytes;
    list->text_length = input->length;
    if (input->length > INPUT_BYTES)
        return answer;
    answer.number = qc_read_lines(input->bytes, input->length, bytes, sizeof bytes, result, sizeof result);
    answer.place = (size_t)qc_lines_place(result);
    if (answer.number == QC_ACCEPTED) {
        list->bytes = bytes;
        list->length = (size_t)qc_lines_length(result);
    }
    return answer;
}

struct answer list_of_input(const struct input *input, struct list *list)
{
    const struct answer accepted = {QC_ACCEPTED, 0};

    if (is_lines(input))
        return list_of_lines(input, list);
    list->bytes = input->bytes;
    list->length = input->length;
    list->text = NULL;
    list->text_length = 0;
    return accepted;
}

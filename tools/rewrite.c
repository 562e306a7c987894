/* quorum lines, list and convert: a list written as something else, or lines as a list. A refusal writes nothing to the output. */
#include "reasons.h"

/* A call that writes a list, or its lines. */
typedef uint32_t writer(const uint8_t *from, size_t from_length, uint8_t *to, size_t to_length, uint8_t *result, size_t result_length);

static int refuse(struct answer answer, const struct list *list, FILE *err)
{
    const struct refusal refusal = {answer, list, NULL, 0};

    return print_refusal(err, &refusal);
}

/* What a call makes of a list's bytes. */
static int rewrite(writer *write, const struct input *input, FILE *out, FILE *err)
{
    static uint8_t written[QC_TEXT_BYTES];
    const struct list list = {input->bytes, input->length, NULL, 0};
    uint8_t result[QC_LINES_RESULT_BYTES];
    struct answer answer;

    answer.number = write(list.bytes, list.length, written, sizeof written, result, sizeof result);
    answer.place = (size_t)qc_lines_place(result);
    if (answer.number != QC_ACCEPTED)
        return refuse(answer, &list, err);
    fwrite(written, 1, (size_t)qc_lines_length(result), out);
    return DONE;
}

int run_lines(const struct input *input, FILE *out, FILE *err)
{
    return rewrite(qc_write_lines, input, out, err);
}

int run_convert(const struct input *input, FILE *out, FILE *err)
{
    return rewrite(qc_convert, input, out, err);
}

int run_list(const struct input *input, FILE *out, FILE *err)
{
    struct list list;
    const struct answer answer = list_of_lines(input, &list);

    if (answer.number != QC_ACCEPTED)
        return refuse(answer, &list, err);
    fwrite(list.bytes, 1, list.length, out);
    return DONE;
}

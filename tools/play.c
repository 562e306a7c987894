/* quorum play: the report of a list, as the player prints it. */
#include "reasons.h"

/* A refusal as the player prints it. */
static void print_bare(FILE *out, struct answer answer)
{
    fprintf(out, "refused %u at %lu\n", (unsigned)answer.number, (unsigned long)answer.place);
}

/* The report of what was played, or the refusal alone where there is no world. */
static void print_report(FILE *out, const struct day *day)
{
    uint8_t text[QC_REPORT_BYTES], result[QC_RESULT_BYTES];

    if (has_no_world(day->stop.number))
        print_bare(out, day->stop);
    else if (qc_report(day->world, sizeof day->world, day->count, day->stop.number, day->stop.place, text, sizeof text, result, sizeof result) ==
             QC_ACCEPTED)
        fwrite(text, 1, (size_t)qc_result_length(result), out);
}

int run_play(const struct input *input, FILE *out, FILE *err)
{
    static struct day day;
    struct list list;
    struct refusal refusal = {list_of_input(input, &list), &list, NULL, 0};

    if (refusal.answer.number == QC_ACCEPTED) {
        play_at_once(&day, &list);
        print_report(out, &day);
        refusal = refusal_of(&day, &list);
    } else {
        print_bare(out, refusal.answer);
    }
    return refusal.answer.number == QC_ACCEPTED ? DONE : print_refusal(err, &refusal);
}

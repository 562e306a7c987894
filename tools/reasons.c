#include <string.h>

#include "why.h"

/* The line with which a command, or a header, was typed; the first is 1. */
static size_t line_of(const struct refusal *refusal)
{
    return refusal->world == NULL ? 1 : refusal->events + 2;
}

/* The reasons that say more than the header's table. */
static why *const reasons[QC_ANSWER_COUNT] = {
    [QC_LIST_LONG] = why_long,
    [QC_LIST_SHORT] = why_short,
    [QC_BAD_SITES] = why_sites,
    [QC_BAD_QUORUMS] = why_quorums,
    [QC_BAD_WILLING] = why_willing,
    [QC_NO_COMMAND] = why_command,
    [QC_CUT_SHORT] = why_cut,
    [QC_NO_SITE] = why_no_site,
    [QC_NO_ROW] = why_no_message,
    [QC_NOT_SENT] = why_not_sent,
    [QC_SITE_DOWN] = why_down,
    [QC_SITE_UP] = why_up,
    [QC_STARTED] = why_started,
    [QC_STORE_FULL] = why_full,
    [QC_BAD_LINE] = why_line,
    [QC_BAD_WEIGHT] = why_weight,
    [QC_UNEVEN_WEIGHT] = why_uneven,
};

/* Is the line not told yet? That of 19 is, and 1 is of all lines. */
static int has_line(const struct refusal *refusal)
{
    return refusal->list->text != NULL && refusal->answer.number != QC_BAD_LINE && refusal->answer.number != QC_LIST_LONG;
}

/* Does a list begin with these bytes and then with one that shows? */
static int shows_after(const struct list *list, const char *bytes)
{
    const size_t length = strlen(bytes);

    return list->length > length && memcmp(list->bytes, bytes, length) == 0 && shows(list->bytes[length]);
}

/* Is it lines after an empty line, a tab or a byte order mark, and so taken for a list? Then its numbers say little. */
static int looks_typed(const struct list *list)
{
    static const char *const before[] = {"\n", "\r\n", "\t", "\xef\xbb\xbf", "\xff\xfe"};
    unsigned k;

    for (k = 0; k < sizeof before / sizeof before[0]; k++)
        if (shows_after(list, before[k]))
            return 1;
    return 0;
}

/* Is that a reason for what is refused? */
static int may_be_typed(const struct refusal *refusal)
{
    return refusal->list->text == NULL && refusal->world == NULL && looks_typed(refusal->list);
}

void add_refusal(struct words *words, const struct refusal *refusal)
{
    const uint32_t number = refusal->answer.number;

    add(words, "refused %u at %lu: ", (unsigned)number, (unsigned long)refusal->answer.place);
    if (number < QC_ANSWER_COUNT && reasons[number] != NULL)
        reasons[number](words, refusal);
    else
        add(words, "%s", qc_answer_text(number));
    if (has_line(refusal))
        add(words, " (line %lu)", (unsigned long)line_of(refusal));
    if (may_be_typed(refusal))
        add(words, "; if this is lines, they must be plain ASCII and begin with 'sites'");
}

int print_refusal(FILE *to, const struct refusal *refusal)
{
    struct words words;

    no_words(&words);
    add_refusal(&words, refusal);
    fprintf(to, "%s\n", words.text);
    return REFUSED;
}

struct refusal refusal_of(const struct day *day, const struct list *list)
{
    const struct refusal refusal = {day->stop, list, has_no_world(day->stop.number) ? NULL : day->world, day->count};

    return refusal;
}

void add_stop(struct words *words, const struct day *day, const struct list *list)
{
    const struct refusal refusal = refusal_of(day, list);

    if (day->stop.number != QC_ACCEPTED) {
        add_refusal(words, &refusal);
        return;
    }
    add(words, "end %lu: ", (unsigned long)day->stop.place);
    add_counts(words, day);
}

/* Why a line is refused. */
#include "why.h"

/* Of a line at fault, so many bytes are shown at most. */
enum { SHOWN = 72 };

/* The number of the line that begins at a byte; the first is 1. */
static size_t line_at(const uint8_t *text, size_t at)
{
    size_t line = 1;

    while (at > 0)
        line += text[--at] == '\n';
    return line;
}

/* Where the line that begins at a byte ends: at its line feed, or at the text's end. */
static size_t line_end(const struct list *list, size_t at)
{
    while (at < list->text_length && list->text[at] != '\n')
        at++;
    return at;
}

/* A line's bytes, and one that would not show in hex; of a long line SHOWN of them, and two dots. */
static void add_shown(struct words *words, const uint8_t *bytes, size_t length)
{
    size_t k;

    for (k = 0; k < length && k < SHOWN; k++)
        add(words, shows(bytes[k]) ? "%c" : "\\x%02x", bytes[k]);
    if (k < length)
        add(words, "..");
}

/* Is a byte, and at once another, somewhere in a line? */
static int has_pair(const uint8_t *line, size_t length, uint8_t first, uint8_t second)
{
    size_t k;

    for (k = 0; k + 1 < length; k++)
        if (line[k] == first && line[k + 1] == second)
            return 1;
    return 0;
}

/* What is wrong within a line, as far as it is easily told. */
static const char *fault_within(const uint8_t *line, size_t length, int is_first)
{
    if (line[length - 1] == '\r')
        return "a carriage return before its line feed: save the text with Unix line ends";
    if (line[0] == ' ' || line[length - 1] == ' ' || has_pair(line, length, ' ', ' '))
        return "one blank between words, and no other";
    return is_first ? "the first line must be as 'sites 3 commit 2 abort 2 willing 7', with numbers in their range"
                    : "a command is 'start', 'deliver MESSAGE SITE', 'timeout SITE', 'crash SITE' or 'recover SITE', with numbers in their range";
}

/* What is wrong with the line that begins and ends at these bytes. */
static const char *fault_of(const struct list *list, size_t at, size_t end)
{
    if (list->text_length == 0)
        return "the text is empty";
    if (!shows(list->text[0]))
        return "this is no text; if it is a list, 'quorum lines' makes lines of it";
    if (end == list->text_length)
        return "no line feed after it";
    if (end == at)
        return "an empty line";
    return fault_within(list->text + at, end - at, at == 0);
}

void why_line(struct words *words, const struct refusal *refusal)
{
    const struct list *list = refusal->list;
    const size_t at = refusal->answer.place, end = line_end(list, at);

    add(words, "line %u, \"", (unsigned)line_at(list->text, at));
    add_shown(words, list->text + at, end - at);
    add(words, "\": %s", fault_of(list, at, end));
}

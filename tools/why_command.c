/* Why a command is refused. */
#include "why.h"

/* The command that is refused, and its operands. */
static unsigned command_of(const struct refusal *refusal)
{
    return refusal->list->bytes[refusal->answer.place];
}

static unsigned message_of(const struct refusal *refusal)
{
    return qc_number16(refusal->list->bytes + refusal->answer.place + 1);
}

static unsigned site_of(const struct refusal *refusal)
{
    const uint8_t *command = refusal->list->bytes + refusal->answer.place;

    if (command[0] == QC_START)
        return 0;
    return command[0] == QC_DELIVER ? command[3] : command[1];
}

void why_command(struct words *words, const struct refusal *refusal)
{
    add(words, "the byte %u is no command; commands are 1 to 5", command_of(refusal));
}

void why_cut(struct words *words, const struct refusal *refusal)
{
    const unsigned operands = command_of(refusal) == QC_DELIVER ? 3 : 1;
    const size_t there = refusal->list->length - refusal->answer.place - 1;

    add(words, "the list ends within %s: it has ", command_words(command_of(refusal)));
    add_counted(words, operands, "operand byte");
    add(words, ", and %u %s there", (unsigned)there, there == 1 ? "is" : "are");
}

void why_no_site(struct words *words, const struct refusal *refusal)
{
    add(words, "there is no site %u, only 0 to %u", site_of(refusal), qc_site_count(refusal->world) - 1);
}

void why_no_message(struct words *words, const struct refusal *refusal)
{
    const unsigned sent = qc_row_count(refusal->world);

    add(words, "there is no message %u: ", message_of(refusal));
    if (sent == 0)
        add(words, "none has been sent");
    else
        add(words, "only 0 to %u have been sent", sent - 1);
}

void why_not_sent(struct words *words, const struct refusal *refusal)
{
    add(words, "message %u was not sent to site %u", message_of(refusal), site_of(refusal));
}

void why_down(struct words *words, const struct refusal *refusal)
{
    add(words, "site %u is down", site_of(refusal));
}

void why_up(struct words *words, const struct refusal *refusal)
{
    add(words, "site %u is up", site_of(refusal));
}

void why_started(struct words *words, const struct refusal *refusal)
{
    add(words, "site 0 is %s, no longer active", state_words(qc_site_state(refusal->world, 0)));
}

void why_full(struct words *words, const struct refusal *refusal)
{
    (void)refusal;
    add(words, "a message is due, and %u have been sent, which is all that there is room for", (unsigned)QC_ROWS);
}

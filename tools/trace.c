/* quorum trace: one line an event, in words. */
#include "reasons.h"

/* Where the columns begin. */
enum { EVENT_COLUMN = 7, LOG_COLUMN = 24, CODES_COLUMN = 29 };

/* Codes and words: the codes of n sites, and their heading. */
static size_t words_column(unsigned n)
{
    const unsigned heading = sizeof "knows" - 1;

    return CODES_COLUMN + (n > heading ? n : heading) + 2;
}

static void print_heading(FILE *out, const struct day *day)
{
    struct words sizes, line;

    no_words(&sizes);
    add_sizes(&sizes, day->world);
    no_words(&line);
    add(&line, "place");
    add_blanks(&line, EVENT_COLUMN);
    add(&line, "event");
    add_blanks(&line, LOG_COLUMN);
    add(&line, "log");
    add_blanks(&line, CODES_COLUMN);
    add(&line, "knows");
    add_blanks(&line, words_column(qc_site_count(day->world)));
    fprintf(out, "%s\n%swhat happens\n", sizes.text, line.text);
}

/* Which message arrived and how much it told; or the site alone. */
static void add_subject(struct words *line, const struct day *day, const struct event *event)
{
    if (event->message == NO_MESSAGE) {
        add(line, "site %u ", (unsigned)event->site);
        return;
    }
    add_message(line, day, event->message);
    add(line, " from site %u, brings site %u ", qc_row_sender(day->store, event->message), (unsigned)event->site);
    add(line, event->told == 0 ? "nothing new" : "news of ");
    if (event->told != 0)
        add_counted(line, event->told, "site");
    add(line, "; it ");
}

/* What the site was and is. */
static void add_change(struct words *line, const struct event *event)
{
    const unsigned was = state_of(event, event->was), is = state_of(event, event->is);
    const int turns = qc_own_up(event->was) != qc_own_up(event->is);

    if (turns)
        add(line, "%s%s", qc_own_up(event->is) != 0 ? "comes back" : "goes down", was != is ? ", " : " ");
    if (was != is)
        add(line, "was %s, is %s", state_words(was), state_words(is));
    else
        add(line, "%s%s", turns ? "" : "stays ", state_words(is));
    if (qc_own_role(event->was) != qc_own_role(event->is))
        add(line, qc_own_role(event->is) == QC_COORDINATOR ? ", becomes coordinator" : ", is no longer coordinator");
}

/* Which message the site sent, and to whom. */
static void add_sending(struct words *line, const struct day *day, const struct event *event)
{
    const unsigned others = all_sites(qc_site_count(day->world)) & ~(1u << event->site);
    unsigned to;

    if (event->sent == NO_MESSAGE)
        return;
    to = qc_row_destinations(day->store, event->sent);
    add(line, "; sends ");
    add_message(line, day, event->sent);
    add(line, ", to ");
    if (to == others)
        add(line, "all others");
    else
        add_sites(line, to);
}

static void print_event(FILE *out, const struct day *day, const struct event *event)
{
    const unsigned n = qc_site_count(day->world);
    struct words line;

    no_words(&line);
    add(&line, "%5lu", (unsigned long)event->place);
    add_blanks(&line, EVENT_COLUMN);
    add_event(&line, event);
    add_blanks(&line, LOG_COLUMN);
    add_log(&line, event->is);
    add_blanks(&line, CODES_COLUMN);
    add_codes(&line, event->is, n);
    add_blanks(&line, words_column(n));
    add_subject(&line, day, event);
    add_change(&line, event);
    if (letter_of(event) != 0)
        add(&line, "; writes %s", record_words(letter_of(event)));
    add_sending(&line, day, event);
    fprintf(out, "%s\n", line.text);
}

static void print_events(FILE *out, const struct day *day)
{
    unsigned k;

    for (k = 0; k < day->count; k++)
        print_event(out, day, &day->events[k]);
}

int run_trace(const struct input *input, FILE *out, FILE *err)
{
    static struct day day;
    struct list list;
    struct words stop;
    const struct refusal refusal = {list_of_input(input, &list), &list, NULL, 0};

    (void)err; /* the stop is the trace's last line */
    if (refusal.answer.number != QC_ACCEPTED)
        return print_refusal(out, &refusal);
    play_events(&day, &list);
    if (!has_no_world(day.stop.number)) {
        print_heading(out, &day);
        print_events(out, &day);
    }
    no_words(&stop);
    add_stop(&stop, &day, &list);
    fprintf(out, "%s\n", stop.text);
    return day.stop.number == QC_ACCEPTED ? DONE : REFUSED;
}

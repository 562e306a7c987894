/* The messages of a picture: arrows, stubs and labels. */
#include "picture.h"

/* `message 0, prepare, from site 0`. */
static void add_from(struct words *words, const struct picture *picture, unsigned message)
{
    add_message(words, picture->day, message);
    add(words, ", from site %u", qc_row_sender(picture->day->store, message));
}

/* The class of a message's lines. */
static const char *class_of(const struct picture *picture, unsigned message)
{
    return kind_class(qc_row_kind(picture->day->store, message));
}

/* An arrow from where the message was sent to where the event has it delivered. */
static void draw_arrow(const struct picture *picture, unsigned k, int again)
{
    const struct event *event = &picture->day->events[k];
    const unsigned message = event->message, sender = qc_row_sender(picture->day->store, message);
    const int side = event->site < sender ? -1 : 1;
    const struct point from = beside_event(picture, picture->sent_by[message], side), to = beside_event(picture, k, -side);
    struct words classes, title;

    no_words(&classes);
    add(&classes, "arrow pointed %s%s", class_of(picture, message), again ? " again" : "");
    no_words(&title);
    add_from(&title, picture, message);
    add(&title, " to site %u", (unsigned)event->site);
    svg_curve(picture->out, classes.text, from, bend(from, to, side > 0 ? event->site - sender : sender - event->site), to, title.text);
}

void draw_arrows(const struct picture *picture)
{
    unsigned seen[QC_ROWS] = {0}, k, bit;
    const struct event *event;

    for (k = 0; k < picture->drawn; k++) {
        event = &picture->day->events[k];
        if (event->message != NO_MESSAGE) {
            bit = 1u << event->site;
            draw_arrow(picture, k, (seen[event->message] & bit) != 0);
            seen[event->message] |= bit;
        }
    }
}

/* A stub of a message, to a point beside where it was sent. */
static void draw_stub(const struct picture *picture, const char *class, unsigned message, struct point to, const char *title)
{
    const unsigned event = picture->sent_by[message];
    const struct point from = beside_event(picture, event, to.x < 0 ? -1 : 1);
    struct words classes;

    no_words(&classes);
    add(&classes, "%s %s", class, class_of(picture, message));
    svg_line(picture->out, classes.text, from, beside(event_at(picture, event), to.x, to.y), title);
}

/* The sites of a set, or how many they are where that is shorter. */
static void add_missed(struct words *words, unsigned missed)
{
    unsigned count = 0, left;

    add_set(words, missed);
    for (left = missed; left != 0; left &= left - 1)
        count++;
    if (words->length > 10) {
        no_words(words);
        add_counted(words, count, "site");
    }
}

/* A stub to the left (-1) or the right (1) for the sites there that a message never reaches. */
static void draw_lost(const struct picture *picture, unsigned message, unsigned lost, int side)
{
    const struct point to = {side * 16, 18}, at = event_at(picture, picture->sent_by[message]);
    struct words title, sites;

    if (lost == 0)
        return;
    no_words(&title);
    add_from(&title, picture, message);
    add(&title, ", never delivered to ");
    add_sites(&title, lost);
    draw_stub(picture, "lost dashed", message, to, title.text);
    no_words(&sites);
    add_missed(&sites, lost);
    draw_words(picture->out, "missed", beside(at, to.x + side * 3, to.y + 4), side, sites.text);
}

/* The same for those that it reaches after what is drawn; the title alone names them. */
static void draw_late(const struct picture *picture, unsigned message, unsigned late, int side)
{
    const struct point to = {side * 22, 8};
    struct words title;

    if (late == 0)
        return;
    no_words(&title);
    add_from(&title, picture, message);
    add(&title, ", delivered to ");
    add_sites(&title, late);
    add(&title, " later");
    draw_stub(picture, "later", message, to, title.text);
}

void draw_missed(const struct picture *picture, unsigned k)
{
    const unsigned message = picture->day->events[k].sent;
    unsigned lower, missed, late, lost;

    if (message == NO_MESSAGE)
        return;
    lower = all_sites(qc_row_sender(picture->day->store, message));
    missed = qc_row_destinations(picture->day->store, message) & ~picture->reached[message];
    late = missed & picture->reached_late[message];
    lost = missed & ~late;
    draw_lost(picture, message, lost & lower, -1);
    draw_lost(picture, message, lost & ~lower, 1);
    draw_late(picture, message, late & lower, -1);
    draw_late(picture, message, late & ~lower, 1);
}

/* A message's number and kind: of a reply on the side from which no arrow arrives, below those that pass. */
void draw_sent(const struct picture *picture, unsigned k)
{
    const struct event *event = &picture->day->events[k];
    const int reply = event->message != NO_MESSAGE;
    const int side = reply && qc_row_sender(picture->day->store, event->message) > event->site ? -1 : 1;
    struct words words;

    if (event->sent == NO_MESSAGE)
        return;
    no_words(&words);
    add(&words, "%u %s", (unsigned)event->sent, kind_words(qc_row_kind(picture->day->store, event->sent)));
    draw_words(picture->out, "message", beside(event_at(picture, k), side * 12, reply ? 11 : -5), side, words.text);
}

/* The sites of a picture: their lines, and what happens on them. */
#include "../include/quorum_step.h"
#include "picture.h"

/* The sites' numbers are shown again before every so many events. */
enum { NUMBERS_APART = 25 };

/* A site as the first so many events leave it. */
static const uint8_t *site_after(const struct picture *picture, unsigned site, unsigned events)
{
    static uint8_t fresh[QC_SITE_BYTES];

    while (events > 0 && picture->day->events[events - 1].site != site)
        events--;
    qc_make_site(fresh);
    return events > 0 ? picture->day->events[events - 1].is : fresh;
}

/* A site's line between two heights, as the site is there. */
static void draw_stretch(const struct picture *picture, unsigned number, const uint8_t *site, int from, int to)
{
    const char *state = state_name(qc_own_code(site, number));
    struct words classes;

    no_words(&classes);
    if (qc_own_up(site) == 0) {
        add(&classes, "down broken %s", state);
        svg_line(picture->out, classes.text, site_at(picture, number, from), site_at(picture, number, to), NULL);
    } else {
        add(&classes, "stretch %s%s", state, qc_own_role(site) == QC_COORDINATOR ? " coordinator" : "");
        svg_bar(picture->out, classes.text, site_at(picture, number, from), 8, to - from);
    }
}

/* Does an event change what a site's line shows? */
static int changes(const struct event *event)
{
    return qc_own_up(event->was) != qc_own_up(event->is) || qc_own_role(event->was) != qc_own_role(event->is) || letter_of(event) != 0;
}

/* A site's line from top to bottom. */
static void draw_site(const struct picture *picture, unsigned site)
{
    int from = picture->top, to;
    unsigned k;

    for (k = 0; k < picture->drawn; k++) {
        if (picture->day->events[k].site == site && changes(&picture->day->events[k])) {
            to = event_at(picture, k).y;
            draw_stretch(picture, site, picture->day->events[k].was, from, to);
            from = to;
        }
    }
    draw_stretch(picture, site, site_after(picture, site, picture->drawn), from, picture->bottom);
}

/* The site's number, and below it what is special about it. */
static void draw_head(const struct picture *picture, unsigned site)
{
    const uint8_t *world = picture->day->world;
    struct words words;

    no_words(&words);
    add(&words, "site %u", site);
    svg_text(picture->out, "head", site_at(picture, site, picture->top - 42), words.text);
    no_words(&words);
    add(&words, "weighs %u", qc_weight(world, site));
    if (qc_weight(world, site) != 1)
        svg_text(picture->out, "note", site_at(picture, site, picture->top - 27), words.text);
    if ((qc_willing(world) >> site & 1) == 0)
        svg_text(picture->out, "note", site_at(picture, site, picture->top - 13), "unwilling");
}

/* The site's number, state, log and codes at the end of its line. */
static void draw_final(const struct picture *picture, unsigned site)
{
    const uint8_t *left = site_after(picture, site, picture->drawn);
    struct words words;

    no_words(&words);
    add(&words, "site %u", site);
    svg_text(picture->out, "foot", site_at(picture, site, picture->bottom + 16), words.text);
    no_words(&words);
    add(&words, "%s%s", qc_own_up(left) != 0 ? "" : "down, ", state_name(qc_own_code(left, site)));
    svg_text(picture->out, "final", site_at(picture, site, picture->bottom + 30), words.text);
    no_words(&words);
    add_log(&words, left);
    svg_text(picture->out, "final codes", site_at(picture, site, picture->bottom + 44), words.text);
    no_words(&words);
    add_codes(&words, left, picture->n);
    svg_text(picture->out, "final codes", site_at(picture, site, picture->bottom + 58), words.text);
}

void draw_sites(const struct picture *picture)
{
    unsigned site;

    for (site = 0; site < picture->n; site++) {
        draw_head(picture, site);
        draw_site(picture, site);
        draw_final(picture, site);
    }
}

/* The sites' numbers once more on their lines, before an event. */
static void draw_numbers(const struct picture *picture, unsigned k)
{
    const int y = event_at(picture, k).y - 18;
    struct words words;
    unsigned site;

    for (site = 0; site < picture->n; site++) {
        no_words(&words);
        add(&words, "%u", site);
        svg_box(picture->out, "pill", site_at(picture, site, y), 18, 12);
        svg_text(picture->out, "number", site_at(picture, site, y + 4), words.text);
    }
}

/* A crash is a cross, a return a ring; a record's letter may stand in it. */
static void draw_turn(const struct picture *picture, unsigned k, int written)
{
    const struct event *event = &picture->day->events[k];
    struct words title;

    no_words(&title);
    add(&title, "site %u %s", (unsigned)event->site, event->command == QC_CRASH ? "goes down" : "comes back");
    if (event->command == QC_CRASH)
        svg_cross(picture->out, "crash cross", event_at(picture, k), 6, title.text);
    else
        svg_circle(picture->out, "recover ring", event_at(picture, k), written ? 12 : 6, title.text);
}

/* What an event is on its site's line: a cross or a ring, a letter, or a dot. */
void draw_mark(const struct picture *picture, unsigned k)
{
    const struct event *event = &picture->day->events[k];
    const int turns = qc_own_up(event->was) != qc_own_up(event->is);
    const char letter = letter_of(event);

    if (k > 0 && k % NUMBERS_APART == 0)
        draw_numbers(picture, k);
    if (turns)
        draw_turn(picture, k, letter != 0);
    if (letter != 0)
        draw_record(picture->out, "letter", event_at(picture, k), state_name(state_of(event, event->is)), letter);
    else if (!turns)
        svg_circle(picture->out, "dot", event_at(picture, k), 3, NULL);
}

/* quorum draw: a day as a picture. Time runs downwards, a row for each event; sites stand side by side. */
#include "picture.h"
#include "reasons.h"

/* Where words begin; where places end and commands begin; where the lines across do. */
enum { MARGIN = 16, PLACE_COLUMN = 56, EVENT_COLUMN = 66, ROW_BEGIN = 172 };

/* Something of each event that is drawn. */
static void draw_each(const struct picture *picture, void (*draw)(const struct picture *picture, unsigned event))
{
    unsigned k;

    for (k = 0; k < picture->drawn; k++)
        draw(picture, k);
}

/* The command's place and words, and a line across; where no message has brought it about, one that leads to the site. */
static void draw_row(const struct picture *picture, unsigned k)
{
    const struct event *event = &picture->day->events[k];
    const struct point at = event_at(picture, k), begin = {ROW_BEGIN, at.y}, end = site_at(picture, picture->n - 1, at.y);
    const struct point place = {PLACE_COLUMN, at.y + 4}, command = {EVENT_COLUMN, at.y + 4};
    struct words words;

    svg_line(picture->out, "row", begin, end, NULL);
    if (event->message == NO_MESSAGE)
        svg_line(picture->out, "leader", begin, beside_event(picture, k, -1), NULL);
    no_words(&words);
    add(&words, "%lu", (unsigned long)event->place);
    svg_text(picture->out, "place", place, words.text);
    no_words(&words);
    add_event(&words, event);
    svg_text(picture->out, "event", command, words.text);
}

/* How the day ended, and whether all of it is drawn. */
static void draw_stop(const struct picture *picture, const struct list *list)
{
    const struct point stop = {MARGIN, picture->bottom + 88}, cut = {MARGIN, picture->bottom + 106};
    const int refused = picture->day->stop.number != QC_ACCEPTED;
    struct words words;

    no_words(&words);
    add_stop(&words, picture->day, list);
    svg_text(picture->out, refused ? "stop refused" : "stop", stop, words.text);
    no_words(&words);
    add(&words, "the first %u of %u events are drawn", picture->drawn, picture->day->count);
    if (picture->drawn < picture->day->count)
        svg_text(picture->out, "cut refused", cut, words.text);
}

/* The sizes, the counts, and what the two columns on the left are. */
static void draw_title(const struct picture *picture, const char *sizes)
{
    const struct point heading = {MARGIN, 34}, counts = {MARGIN, 54};
    const struct point place = {PLACE_COLUMN, picture->top - 13}, event = {EVENT_COLUMN, picture->top - 13};
    struct words words;

    svg_text(picture->out, "heading", heading, sizes);
    no_words(&words);
    add_counts(&words, picture->day);
    add(&words, picture->drawn < picture->day->count ? "; not all events are drawn" : "");
    svg_text(picture->out, "counts", counts, words.text);
    svg_text(picture->out, "column before", place, "place");
    svg_text(picture->out, "column", event, "event");
}

/* What is drawn later lies over what was drawn before. */
static void draw_day(const struct day *day, const struct list *list, FILE *out)
{
    static struct picture picture;
    struct words sizes;

    plan_picture(&picture, day, out);
    no_words(&sizes);
    add_sizes(&sizes, day->world);
    svg_begin(out, picture_width(&picture), picture_height(&picture), sizes.text);
    draw_title(&picture, sizes.text);
    draw_each(&picture, draw_row);
    draw_sites(&picture);
    draw_arrows(&picture);
    draw_each(&picture, draw_missed);
    draw_each(&picture, draw_mark);
    draw_each(&picture, draw_sent);
    draw_stop(&picture, list);
    draw_key(&picture);
    svg_end(out);
}

int run_draw(const struct input *input, FILE *out, FILE *err)
{
    static struct day day;
    struct list list;
    struct refusal refusal = {list_of_input(input, &list), &list, NULL, 0};

    if (refusal.answer.number == QC_ACCEPTED) {
        play_events(&day, &list);
        refusal = refusal_of(&day, &list);
        if (!has_no_world(day.stop.number))
            draw_day(&day, &list, out);
        if (day.count > DRAWN)
            fprintf(err, "the first %u of %u events are drawn\n", (unsigned)DRAWN, day.count);
    }
    return refusal.answer.number == QC_ACCEPTED ? DONE : print_refusal(err, &refusal);
}

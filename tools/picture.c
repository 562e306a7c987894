#include <string.h>

#include "picture.h"

/* The first site's column; where the sites' lines begin; how far events are apart; what is left free beside and below the lines. */
enum { FIRST_COLUMN = 262, LINES_TOP = 128, EVENTS_APART = 36, BESIDE = 104, KEY_WIDTH = 236, BELOW = 122 };

/* How far a line ends from a dot and from a letter's box. */
enum { FROM_DOT = 6, FROM_BOX = 10 };

/* How far columns are apart: the fewer they are, the farther. */
static int columns_apart(unsigned n)
{
    if (n <= 4)
        return 180;
    return n <= 8 ? 140 : 110;
}

static int event_y(unsigned event)
{
    return LINES_TOP + EVENTS_APART * ((int)event + 1);
}

struct point site_at(const struct picture *picture, unsigned site, int y)
{
    const struct point at = {FIRST_COLUMN + columns_apart(picture->n) * (int)site, y};

    return at;
}

struct point event_at(const struct picture *picture, unsigned event)
{
    return site_at(picture, picture->day->events[event].site, event_y(event));
}

struct point key_at(const struct picture *picture)
{
    struct point at = site_at(picture, picture->n - 1, LINES_TOP - 42);

    at.x += BESIDE;
    return at;
}

int picture_width(const struct picture *picture)
{
    return key_at(picture).x + KEY_WIDTH;
}

int picture_height(const struct picture *picture)
{
    const int key = key_at(picture).y + key_height(picture), lines = picture->bottom + BELOW;

    return key > lines ? key : lines;
}

/* Notes which event sends a message, and which sites it reaches. */
static void note_event(struct picture *picture, unsigned k)
{
    const struct event *event = &picture->day->events[k];
    unsigned *reached = k < picture->drawn ? picture->reached : picture->reached_late;

    if (event->sent != NO_MESSAGE)
        picture->sent_by[event->sent] = k;
    if (event->message != NO_MESSAGE)
        reached[event->message] |= 1u << event->site;
}

void plan_picture(struct picture *picture, const struct day *day, FILE *out)
{
    unsigned k;

    memset(picture, 0, sizeof *picture);
    picture->out = out;
    picture->day = day;
    picture->n = qc_site_count(day->world);
    picture->drawn = day->count < DRAWN ? day->count : DRAWN;
    picture->top = LINES_TOP;
    picture->bottom = event_y(picture->drawn);
    for (k = 0; k < day->count; k++)
        note_event(picture, k);
}

struct point beside(struct point at, int x, int y)
{
    const struct point point = {at.x + x, at.y + y};

    return point;
}

struct point beside_event(const struct picture *picture, unsigned event, int side)
{
    const int away = letter_of(&picture->day->events[event]) != 0 ? FROM_BOX : FROM_DOT;

    return beside(event_at(picture, event), side * away, 0);
}

/* Arrows to sites in a row, delivered one after the other, would all lie on one line, and look as if each site handed the message on. So an arrow that
 * passes other columns is bent: it passes over the next column as many units higher as there are columns, and some more, but never leads upwards. */
struct point bend(struct point from, struct point to, unsigned columns)
{
    const int passed = (int)columns, higher = 11 + passed;
    struct point by = {(from.x + to.x) / 2, (from.y + to.y) / 2};

    if (passed > 1)
        by.y -= higher * passed * passed / (2 * (passed - 1));
    if (by.y < from.y)
        by.y = from.y;
    return by;
}

void draw_words(FILE *out, const char *class, struct point at, int side, const char *text)
{
    const int width = 6 * (int)strlen(text);
    struct words classes;

    no_words(&classes);
    add(&classes, "%s%s", class, side < 0 ? " before" : "");
    svg_box(out, "under", beside(at, side * width / 2, -4), width, 10);
    svg_text(out, classes.text, at, text);
}

void draw_record(FILE *out, const char *class, struct point at, const char *state, char letter)
{
    const char text[] = {letter, 0};
    struct words classes;

    no_words(&classes);
    add(&classes, "%s-box boxed %s", class, state);
    svg_box(out, classes.text, at, 16, 16);
    no_words(&classes);
    add(&classes, "%s%s", class, letter >= 'a' ? " light" : "");
    svg_text(out, classes.text, beside(at, 0, 4), text);
}

const char *kind_class(unsigned kind)
{
    if (kind <= QC_VOTE)
        return "asks";
    return kind <= QC_IN_GROUP ? "joins" : "tells";
}

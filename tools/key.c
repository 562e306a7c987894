/* The key of the picture: what colours, letters and lines mean. */
#include "picture.h"

enum { ENTRIES_APART = 20, SAMPLE = 34 };

/* Entries come in four parts: states, sites' lines, messages' lines, remarks. */
enum { STATES = 6, COORDINATOR = STATES, DOWN, DOT, MESSAGES };

static const struct {
    const char *classes, *words;
} messages[] = {
    {"pointed asks", "prepare, vote"},
    {"pointed joins", "join, in-group"},
    {"pointed tells", "outcome, outcome-ack"},
    {"pointed again asks", "delivered again"},
    {"dashed asks", "never delivered to these"},
    {"asks", "delivered later, not drawn"},
};

static const char *const remarks[] = {
    "deliver 0 1: message 0 reaches site 1",
    "0 prepare: message 0 is sent, a prepare",
    "below a site: its state, its log, and",
    "what it knows of each site",
};

enum { REMARKS = sizeof remarks / sizeof remarks[0] };

/* The last one is of a picture alone that does not show all events. */
static unsigned message_count(const struct picture *picture)
{
    const unsigned all = sizeof messages / sizeof messages[0];

    return picture->drawn < picture->day->count ? all : all - 1;
}

int key_height(const struct picture *picture)
{
    return ENTRIES_APART * (MESSAGES + (int)message_count(picture) + REMARKS + 2);
}

/* The beginning of an entry's sample, and the words beside it. */
static struct point entry_at(const struct picture *picture, unsigned entry)
{
    return beside(key_at(picture), 0, ENTRIES_APART * ((int)entry + 1));
}

static void draw_meaning(const struct picture *picture, unsigned entry, const char *words)
{
    svg_text(picture->out, "entry", beside(entry_at(picture, entry), SAMPLE + 10, 4), words);
}

/* A state's colour, with the letter of the record that leads to it. */
static void draw_state(const struct picture *picture, unsigned code)
{
    const struct point middle = beside(entry_at(picture, code), SAMPLE / 2, 0);
    const char letter = "-PCAca"[code];

    svg_box(picture->out, state_name(code), middle, SAMPLE, 8);
    if (code != QC_ACTIVE)
        draw_record(picture->out, "record", middle, state_name(code), letter);
    draw_meaning(picture, code, state_words(code));
}

static void draw_site_lines(const struct picture *picture)
{
    const struct point down = entry_at(picture, DOWN), back = beside(down, SAMPLE, 0);

    svg_box(picture->out, "active coordinator", beside(entry_at(picture, COORDINATOR), SAMPLE / 2, 0), SAMPLE, 8);
    draw_meaning(picture, COORDINATOR, "coordinator, outlined");
    svg_line(picture->out, "broken", down, back, NULL);
    svg_cross(picture->out, "cross", down, 5, NULL);
    svg_circle(picture->out, "ring", back, 6, NULL);
    draw_meaning(picture, DOWN, "down, from crash to return");
    svg_circle(picture->out, "dot", beside(entry_at(picture, DOT), SAMPLE / 2, 0), 3, NULL);
    draw_meaning(picture, DOT, "an event, no record written");
}

static void draw_message_line(const struct picture *picture, unsigned k)
{
    const struct point from = entry_at(picture, MESSAGES + k);

    svg_line(picture->out, messages[k].classes, from, beside(from, SAMPLE, 0), NULL);
    draw_meaning(picture, MESSAGES + k, messages[k].words);
}

/* Something of entries, from the first to before the last. */
static void draw_entries(const struct picture *picture, unsigned count, void (*draw)(const struct picture *picture, unsigned entry))
{
    unsigned k;

    for (k = 0; k < count; k++)
        draw(picture, k);
}

static void draw_remark(const struct picture *picture, unsigned k)
{
    const unsigned entry = MESSAGES + message_count(picture) + k;

    svg_text(picture->out, "entry", beside(entry_at(picture, entry), 0, 4), remarks[k]);
}

void draw_key(const struct picture *picture)
{
    svg_text(picture->out, "key", key_at(picture), "Key (letters: log records)");
    draw_entries(picture, STATES, draw_state);
    draw_site_lines(picture);
    draw_entries(picture, message_count(picture), draw_message_line);
    draw_entries(picture, REMARKS, draw_remark);
}

/* The picture of a day: where everything stands in it. */
#ifndef PICTURE_H
#define PICTURE_H

#include "day.h"
#include "svg.h"

/* So many events are drawn at most, the first ones. */
enum { DRAWN = 300 };

struct picture {
    FILE *out;
    const struct day *day;
    unsigned n;                     /* sites */
    unsigned drawn;                 /* events */
    int top, bottom;                /* of the sites' lines */
    unsigned sent_by[QC_ROWS];      /* the event that sent each message */
    unsigned reached[QC_ROWS];      /* the sites that each message is delivered to, in events that are drawn */
    unsigned reached_late[QC_ROWS]; /* and those that it is delivered to only after these */
};

/* Where things stand. */
void plan_picture(struct picture *picture, const struct day *day, FILE *out);
int picture_width(const struct picture *picture);
int picture_height(const struct picture *picture);
struct point site_at(const struct picture *picture, unsigned site, int y);
struct point event_at(const struct picture *picture, unsigned event);
struct point key_at(const struct picture *picture);

/* A point beside another. */
struct point beside(struct point at, int x, int y);

/* Where a line begins or ends that leads to an event, from the left (-1) or the right (1). */
struct point beside_event(const struct picture *picture, unsigned event, int side);

/* Towards where an arrow leads first, from a point to another so many columns on. */
struct point bend(struct point from, struct point to, unsigned columns);

/* Words that end (-1) or begin (1) at a point, readable over what is drawn already. */
void draw_words(FILE *out, const char *class, struct point at, int side, const char *text);

/* A log letter in a box of the state's colour. */
void draw_record(FILE *out, const char *class, struct point at, const char *state, char letter);

/* The class of a message's lines. */
const char *kind_class(unsigned kind);

/* draw_sites.c: the sites' lines; the mark of an event on its site's line. */
void draw_sites(const struct picture *picture);
void draw_mark(const struct picture *picture, unsigned event);

/* draw_messages.c: all arrows; the stubs and the label of what an event sends. */
void draw_arrows(const struct picture *picture);
void draw_missed(const struct picture *picture, unsigned event);
void draw_sent(const struct picture *picture, unsigned event);

/* key.c: what the colours, letters and lines mean; how high that is. */
void draw_key(const struct picture *picture);
int key_height(const struct picture *picture);

#endif

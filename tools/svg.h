/* Elements of an SVG, with coordinates in whole numbers. Classes say what a thing is and how it looks (the style is in svg.c). */
#ifndef SVG_H
#define SVG_H

#include <stdio.h>

struct point {
    int x, y;
};

/* The picture's beginning, with its title and a white ground, and its end. */
void svg_begin(FILE *out, int width, int height, const char *title);
void svg_end(FILE *out);

void svg_text(FILE *out, const char *classes, struct point at, const char *text);

/* The title of what follows is shown where the mouse rests on it; NULL for none. */
void svg_line(FILE *out, const char *classes, struct point from, struct point to, const char *title);

/* From one point towards a second, and from there to a third, in a curve. */
void svg_curve(FILE *out, const char *classes, struct point from, struct point by, struct point to, const char *title);

void svg_circle(FILE *out, const char *classes, struct point at, int radius, const char *title);

/* A cross around a point. */
void svg_cross(FILE *out, const char *classes, struct point at, int radius, const char *title);

/* A rectangle around a point, and one below a point. */
void svg_box(FILE *out, const char *classes, struct point at, int width, int height);
void svg_bar(FILE *out, const char *classes, struct point top, int width, int height);

#endif

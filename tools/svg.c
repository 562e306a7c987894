#include "svg.h"

/* The colours of messages, by what they are for. */
#define ASKS "#2f6db3"
#define JOINS "#8a4fbf"
#define TELLS "#333"

static const char style[] =
    "text{font-family:'DejaVu Sans',Helvetica,Arial,sans-serif;font-size:11px;fill:#222}\n"
    ".heading{font-size:16px;font-weight:bold}\n"
    ".head{font-size:13px;font-weight:bold;text-anchor:middle}\n"
    ".note,.final,.number,.foot{font-size:10px;text-anchor:middle}\n"
    ".foot,.key{font-weight:bold}\n"
    ".place,.event,.codes{font-family:'DejaVu Sans Mono',Menlo,Consolas,monospace}\n"
    ".place,.before{text-anchor:end}\n"
    ".place,.missed,.column{fill:#777}\n"
    ".message,.missed{font-size:10px}\n"
    ".letter,.record{font-weight:bold;text-anchor:middle}\n"
    ".light{fill:#fff}\n"
    ".stop,.cut{font-size:12px;font-weight:bold}\n"
    ".refused{fill:#b3261e}\n"
    "line,path{fill:none}\n"
    ".row{stroke:#eef0f3}\n"
    ".leader{stroke:#a9b0ba;stroke-dasharray:1 3}\n"
    ".active{fill:#d5dae1}\n"
    ".prepared{fill:#f5cd5b}\n"
    ".commit-group{fill:#a5d8b0}\n"
    ".abort-group{fill:#f5b3a8}\n"
    ".committed{fill:#2c8f57}\n"
    ".aborted{fill:#c8402f}\n"
    ".coordinator{stroke:#222;stroke-width:1.6}\n"
    ".boxed{stroke:#222;stroke-width:1}\n"
    ".broken{stroke:#8a919b;stroke-width:2;stroke-dasharray:3 5}\n"
    ".cross{stroke:#b3261e;stroke-width:2.4}\n"
    ".ring{fill:#fff;stroke:#222;stroke-width:1.6}\n"
    ".dot{fill:#222}\n"
    ".under{fill:#fff;fill-opacity:.8}\n"
    ".pill{fill:#fff;stroke:#a9b0ba}\n"
    ".asks{stroke:" ASKS "}\n"
    ".joins{stroke:" JOINS "}\n"
    ".tells{stroke:" TELLS "}\n"
    ".asks,.joins,.tells{stroke-width:1.4}\n"
    ".pointed.asks{marker-end:url(#asks)}\n"
    ".pointed.joins{marker-end:url(#joins)}\n"
    ".pointed.tells{marker-end:url(#tells)}\n"
    ".again{stroke-dasharray:9 4}\n"
    ".dashed{stroke-dasharray:3 3}\n";

/* What stands for a character that has a meaning of its own; NULL for any other. */
static const char *escape(char character)
{
    switch (character) {
    case '<':
        return "&lt;";
    case '>':
        return "&gt;";
    case '&':
        return "&amp;";
    case '"':
        return "&quot;";
    default:
        return NULL;
    }
}

static void put_escaped(FILE *out, const char *text)
{
    const char *instead;

    for (; *text != 0; text++) {
        instead = escape(*text);
        if (instead != NULL)
            fputs(instead, out);
        else
            fputc(*text, out);
    }
}

static void put_title(FILE *out, const char *title)
{
    fputs("<title>", out);
    put_escaped(out, title);
    fputs("</title>", out);
}

/* The end of an element, which has a title or nothing in it. */
static void put_end(FILE *out, const char *name, const char *title)
{
    if (title == NULL) {
        fputs("/>\n", out);
        return;
    }
    fputs(">", out);
    put_title(out, title);
    fprintf(out, "</%s>\n", name);
}

/* An arrow's head. */
static void put_head(FILE *out, const char *name, const char *colour)
{
    fprintf(out, "<marker id=\"%s\" markerUnits=\"userSpaceOnUse\" markerWidth=\"9\" markerHeight=\"8\" refX=\"9\" refY=\"4\" orient=\"auto\">", name);
    fprintf(out, "<polygon points=\"0 0 9 4 0 8\" fill=\"%s\"/></marker>\n", colour);
}

void svg_begin(FILE *out, int width, int height, const char *title)
{
    fprintf(out, "<?xml version=\"1.0\" encoding=\"UTF-8\"?>\n");
    fprintf(out, "<svg xmlns=\"http://www.w3.org/2000/svg\" version=\"1.1\" role=\"img\" width=\"%d\" height=\"%d\" viewBox=\"0 0 %d %d\">\n", width,
            height, width, height);
    put_title(out, title);
    fprintf(out, "\n<style>\n%s</style>\n<defs>\n", style);
    put_head(out, "asks", ASKS);
    put_head(out, "joins", JOINS);
    put_head(out, "tells", TELLS);
    fprintf(out, "</defs>\n<rect x=\"0\" y=\"0\" width=\"%d\" height=\"%d\" fill=\"#fff\"/>\n", width, height);
}

void svg_end(FILE *out)
{
    fputs("</svg>\n", out);
}

void svg_text(FILE *out, const char *classes, struct point at, const char *text)
{
    fprintf(out, "<text class=\"%s\" x=\"%d\" y=\"%d\">", classes, at.x, at.y);
    put_escaped(out, text);
    fputs("</text>\n", out);
}

void svg_line(FILE *out, const char *classes, struct point from, struct point to, const char *title)
{
    fprintf(out, "<line class=\"%s\" x1=\"%d\" y1=\"%d\" x2=\"%d\" y2=\"%d\"", classes, from.x, from.y, to.x, to.y);
    put_end(out, "line", title);
}

void svg_curve(FILE *out, const char *classes, struct point from, struct point by, struct point to, const char *title)
{
    fprintf(out, "<path class=\"%s\" d=\"M %d %d Q %d %d %d %d\"", classes, from.x, from.y, by.x, by.y, to.x, to.y);
    put_end(out, "path", title);
}

void svg_circle(FILE *out, const char *classes, struct point at, int radius, const char *title)
{
    fprintf(out, "<circle class=\"%s\" cx=\"%d\" cy=\"%d\" r=\"%d\"", classes, at.x, at.y, radius);
    put_end(out, "circle", title);
}

void svg_cross(FILE *out, const char *classes, struct point at, int radius, const char *title)
{
    const int left = at.x - radius, right = at.x + radius, over = at.y - radius, under = at.y + radius;

    fprintf(out, "<path class=\"%s\" d=\"M %d %d L %d %d M %d %d L %d %d\"", classes, left, over, right, under, right, over, left, under);
    put_end(out, "path", title);
}

void svg_bar(FILE *out, const char *classes, struct point top, int width, int height)
{
    fprintf(out, "<rect class=\"%s\" x=\"%d\" y=\"%d\" width=\"%d\" height=\"%d\"/>\n", classes, top.x - width / 2, top.y, width, height);
}

void svg_box(FILE *out, const char *classes, struct point at, int width, int height)
{
    const struct point top = {at.x, at.y - height / 2};

    svg_bar(out, classes, top, width, height);
}

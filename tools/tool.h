/* What the files of the tool `quorum` share: an input, the list that it holds, and the commands.
 *
 * All that the tool shows comes from the calls of include/quorum.h, which are proved. What stands in these files is not.
 */
#ifndef TOOL_H
#define TOOL_H

#include <stdio.h>

#include "../include/quorum_read.h"

/* Exit statuses. */
enum { DONE = 0, REFUSED = 1, FAILED = 2 };

/* So much is read at most. The text of a list is never as long, so more than this is a list that is too long, whatever it says. */
enum { INPUT_BYTES = 262144 };

/* What was read, with a zero byte after it. */
struct input {
    uint8_t bytes[INPUT_BYTES + 2];
    size_t length; /* at most INPUT_BYTES + 1 */
};

/* A list, and the lines that it was typed as, if it was. */
struct list {
    const uint8_t *bytes; /* NULL where lines are refused */
    size_t length;
    const uint8_t *text; /* NULL where it was not typed */
    size_t text_length;
};

/* What a call answers: 0 or a refusal's number, and its place. */
struct answer {
    uint32_t number;
    size_t place;
};

/* input.c */

/* Says that something cannot be read or written, and why. Gives FAILED. */
int say_failed(const char *name);

/* Reads a file, or standard input where there is no name. Gives DONE, or says why that cannot be done and gives FAILED. */
int read_input(struct input *input, const char *name);

/* Is it lines? They begin with a byte of 32 to 126, which no list does. */
int is_lines(const struct input *input);

/* Lines as a list, by qc_read_lines; list->bytes stays until the next call. */
struct answer list_of_lines(const struct input *input, struct list *list);

/* The list of an input, of bytes or of lines. */
struct answer list_of_input(const struct input *input, struct list *list);

/* The commands: each prints to out, tells there or err why a list is refused, and gives DONE or REFUSED. */
int run_play(const struct input *input, FILE *out, FILE *err);    /* play.c */
int run_trace(const struct input *input, FILE *out, FILE *err);   /* trace.c */
int run_draw(const struct input *input, FILE *out, FILE *err);    /* draw.c */
int run_lines(const struct input *input, FILE *out, FILE *err);   /* rewrite.c, as the next two */
int run_list(const struct input *input, FILE *out, FILE *err);
int run_convert(const struct input *input, FILE *out, FILE *err);

#endif

/* Why a list is refused, in words. */
#ifndef REASONS_H
#define REASONS_H

#include "day.h"

/* A refusal, and what its reason is told from. */
struct refusal {
    struct answer answer;
    const struct list *list;
    const uint8_t *world; /* before the refused command; NULL where none was played */
    size_t events;        /* accepted before it */
};

/* `refused 12 at 26: site 1 is down`, and of a list that was typed the line. */
void add_refusal(struct words *words, const struct refusal *refusal);

/* The same as a line. Gives REFUSED. */
int print_refusal(FILE *to, const struct refusal *refusal);

/* The refusal of a list that was played. */
struct refusal refusal_of(const struct day *day, const struct list *list);

/* How a play ended: `end 26: 7 events, 5 messages, news 5`, or its refusal. */
void add_stop(struct words *words, const struct day *day, const struct list *list);

#endif

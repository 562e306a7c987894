/* A list that is played, at once or an event at a time. */
#ifndef DAY_H
#define DAY_H

#include "tool.h"
#include "words.h"

/* START has one byte and is accepted once, every other command has two or more: a list never has as many events. */
enum { EVENTS = QC_LIST_BYTES / 2 };

/* In place of a message where there is none. */
enum { NO_MESSAGE = QC_ROWS };

/* An accepted event, with the site that it was at, before and after it. */
struct event {
    uint32_t place;
    uint8_t command; /* enum qc_command */
    uint8_t site;
    uint16_t message; /* that was delivered, or NO_MESSAGE */
    uint16_t sent;    /* by the site, or NO_MESSAGE */
    uint16_t told;    /* news */
    uint8_t was[QC_SITE_BYTES], is[QC_SITE_BYTES];
};

struct day {
    uint8_t world[QC_WORLD_BYTES], store[QC_STORE_BYTES]; /* as the last event has left them */
    unsigned count;                                       /* of events */
    struct event events[EVENTS];                          /* of play_events alone */
    struct answer stop;                                   /* with the list's length as the place where it was played to its end */
};

/* Is there no world? Some numbers are for a list's length or header. */
int has_no_world(uint32_t number);

/* Plays a list at once, by qc_play_list; and its header so, then a command at a time, by qc_play_command. */
void play_at_once(struct day *day, const struct list *list);
void play_events(struct day *day, const struct list *list);

/* A site's state after or before an event, as in was and is. */
unsigned state_of(const struct event *event, const uint8_t *site);

/* The log letter that an event has written, or 0. */
char letter_of(const struct event *event);

/* The command as it is typed. */
void add_event(struct words *words, const struct event *event);

/* `7 events, 5 messages, news 5`. */
void add_counts(struct words *words, const struct day *day);

/* `message 0, prepare`. */
void add_message(struct words *words, const struct day *day, unsigned message);

#endif

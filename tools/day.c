#include <string.h>

#include "day.h"

int has_no_world(uint32_t number)
{
    return (number >= QC_LIST_LONG && number <= QC_BAD_WILLING) || number == QC_BAD_WEIGHT;
}

void play_at_once(struct day *day, const struct list *list)
{
    uint8_t result[QC_RESULT_BYTES];

    day->stop.number = qc_play_list(list->bytes, list->length, day->store, sizeof day->store, day->world, sizeof day->world, result, sizeof result);
    day->stop.place = qc_result_place(result);
    day->count = qc_result_events(result);
}

/* The command at the stop, if it is accepted, is one more event. */
static void play_event(struct day *day, const struct list *list)
{
    struct event *event = &day->events[day->count];
    const uint8_t *command = list->bytes + day->stop.place;
    uint8_t before[QC_WORLD_BYTES], result[QC_RESULT_BYTES];

    memcpy(before, day->world, sizeof before);
    day->stop.number = qc_play_command(day->world, sizeof day->world, day->store, sizeof day->store, list->bytes, list->length, day->stop.place,
                                       result, sizeof result);
    if (day->stop.number != QC_ACCEPTED)
        return;
    event->place = (uint32_t)day->stop.place;
    day->stop.place = (size_t)qc_result_next_place(result);
    event->command = command[0];
    event->site = command[0] == QC_START ? 0 : list->bytes[day->stop.place - 1];
    event->message = (uint16_t)(command[0] == QC_DELIVER ? qc_number16(command + 1) : NO_MESSAGE);
    event->sent = (uint16_t)(qc_row_count(day->world) > qc_row_count(before) ? qc_row_count(before) : NO_MESSAGE);
    event->told = (uint16_t)(qc_news(day->world) - qc_news(before));
    memcpy(event->was, qc_site(before, event->site), QC_SITE_BYTES);
    memcpy(event->is, qc_site(day->world, event->site), QC_SITE_BYTES);
    day->count++;
}

void play_events(struct day *day, const struct list *list)
{
    struct list header = *list;

    play_at_once(day, list);
    if (has_no_world(day->stop.number))
        return;
    header.length = list->bytes[0] == QC_SECOND_EDITION ? QC_SECOND_HEADER_BYTES(list->bytes[1]) : QC_HEADER_BYTES;
    play_at_once(day, &header);
    while (day->stop.number == QC_ACCEPTED && day->stop.place < list->length)
        play_event(day, list);
}

unsigned state_of(const struct event *event, const uint8_t *site)
{
    return qc_own_code(site, event->site);
}

char letter_of(const struct event *event)
{
    const uint8_t *was = event->was, *is = event->is;

    if (qc_own_outcome(was) != qc_own_outcome(is))
        return "-ca"[qc_own_outcome(is)];
    if (qc_own_group(was) != qc_own_group(is))
        return "-CA"[qc_own_group(is)];
    return qc_own_prepare(was) != qc_own_prepare(is) ? 'P' : 0;
}

void add_event(struct words *words, const struct event *event)
{
    add(words, "%s", command_words(event->command));
    if (event->message != NO_MESSAGE)
        add(words, " %u", (unsigned)event->message);
    if (event->command != QC_START)
        add(words, " %u", (unsigned)event->site);
}

void add_counts(struct words *words, const struct day *day)
{
    add_counted(words, day->count, "event");
    add(words, ", ");
    add_counted(words, qc_row_count(day->world), "message");
    add(words, ", news %lu", (unsigned long)qc_news(day->world));
}

void add_message(struct words *words, const struct day *day, unsigned message)
{
    add(words, "message %u, %s", message, kind_words(qc_row_kind(day->store, message)));
}

/* The network between the clubs. Each club sends its rows to the relay, which hands them to their destinations: most soon, some late, some more than
 * once, some never, as a seed has it. It hands over the bytes that a club sent, and no others.
 */
#define _POSIX_C_SOURCE 200809L

#include <sys/socket.h>

#include "network.h"

/* Out of a hundred: rows lost, rows that arrive again, rows that are late. */
enum { LOST = 20, REPEATED = 15, LATE = 5 };

/* Milliseconds on the way, least and most. */
enum { SOON_LEAST = 1, SOON_MOST = 8, LATE_LEAST = 40, LATE_MOST = 200 };

int relay_open(struct relay *relay, uint64_t seed)
{
    memset(relay, 0, sizeof *relay);
    relay->random = seed;
    relay->socket = open_socket(RELAY_NAME);
    return relay->socket >= 0;
}

static int chance(struct relay *relay, unsigned percent)
{
    return draw(&relay->random, 1, 100) <= percent;
}

/* Puts a row on its way to a site. */
static void post(struct relay *relay, const uint8_t *row, unsigned to)
{
    const int late = chance(relay, LATE);
    const unsigned way = draw(&relay->random, late ? LATE_LEAST : SOON_LEAST, late ? LATE_MOST : SOON_MOST);
    struct message *message = &relay->messages[relay->count];

    if (relay->count == ON_THE_WAY)
        return;
    memcpy(message->row, row, QC_ROW_BYTES);
    message->to = to;
    message->due = milliseconds() + (long)way;
    relay->count++;
}

void relay_take(struct relay *relay)
{
    uint8_t row[QC_ROW_BYTES + 1];
    unsigned to;

    while (recv(relay->socket, row, sizeof row, MSG_DONTWAIT) == QC_ROW_BYTES) {
        relay->join_seen |= qc_row_kind(row, 0) == QC_JOIN_COMMIT;
        for (to = 0; to < SITES; to++) {
            if (!qc_row_goes_to(row, 0, to) || chance(relay, LOST))
                continue;
            post(relay, row, to);
            if (chance(relay, REPEATED))
                post(relay, row, to);
        }
    }
}

/* Does the cut lie between the sender and the destination? */
static int is_cut(const struct relay *relay, const struct message *message)
{
    return relay->apart && (qc_row_sender(message->row, 0) < 2) != (message->to < 2);
}

void relay_hand_over(struct relay *relay)
{
    const long now = milliseconds();
    unsigned at = 0;

    while (at < relay->count) {
        struct message *message = &relay->messages[at];
        char name[NAME_BYTES];
        if (message->due > now) {
            at++;
            continue;
        }
        if (!is_cut(relay, message)) {
            club_name(name, message->to, "");
            send_to(relay->socket, name, message->row);
            relay->carried++;
        }
        *message = relay->messages[--relay->count];
    }
}

long relay_next(const struct relay *relay, long latest)
{
    unsigned at;

    for (at = 0; at < relay->count; at++)
        if (relay->messages[at].due < latest)
            latest = relay->messages[at].due;
    return latest;
}

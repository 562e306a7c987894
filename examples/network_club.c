/* One club's server: one site, its log in a file, and a socket on which rows arrive. This is the part to copy from.
 *
 * After each step the records that it has written are forced to disk, and only then its row is sent. A club that comes back makes its site from the log.
 */
#define _POSIX_C_SOURCE 200809L

#include <errno.h>
#include <poll.h>
#include <stdio.h>
#include <stdlib.h>
#include <sys/socket.h>
#include <unistd.h>

#include "network.h"

/* Milliseconds. A club waits the least time and more the higher its number, so that no two wait alike; half as long again after a TIMEOUT that brought
 * nothing, up to the most. One that is active waits longer: its TIMEOUT aborts. A command is sent again while its replies are waited for. */
enum { WAIT_LEAST = 100, WAIT_MORE = 20, WAIT_MOST = 400, WAIT_ACTIVE = 600, SEND_AGAIN = 15 };

struct club {
    unsigned own;
    uint8_t terms[QC_TERMS_BYTES], site[QC_SITE_BYTES], row[QC_ROW_BYTES], result[QC_STEP_RESULT_BYTES];
    uint8_t asked[QC_ROW_BYTES]; /* the command whose replies it waits for; of kind 0 if there is none */
    struct log log;
    int socket;
    long wait, timeout_at, again_at;
    uint32_t news; /* since its last TIMEOUT */
};

static void fail(const struct club *c, const char *what, const char *why)
{
    fprintf(stderr, "club %u: %s: %s\n", c->own, what, why);
    exit(FAILED);
}

/* Steps. */

static void force_log(const struct club *c)
{
    if (qc_step_wrote(c->result) && !log_write(&c->log, c->site, c->result))
        fail(c, "the log cannot be written", strerror(errno));
}

static void send_row(const struct club *c, const uint8_t *row)
{
    if (qc_step_sends(row))
        send_to(c->socket, RELAY_NAME, row);
}

/* A step: its number. The records of an accepted one are on disk before its row is sent. */
static uint32_t step(struct club *c, const uint8_t *command, size_t length)
{
    const uint32_t number = qc_step(c->terms, sizeof c->terms, c->site, sizeof c->site, command, length, c->row, sizeof c->row, c->result,
                                    sizeof c->result);

    if (number != QC_ACCEPTED)
        return number;
    c->news += qc_step_news(c->result);
    force_log(c);
    send_row(c, c->row);
    return number;
}

static void wait_from_now(struct club *c)
{
    const long now = milliseconds();

    c->timeout_at = now + (qc_own_code(c->site, c->own) == QC_ACTIVE ? WAIT_ACTIVE : c->wait);
    c->again_at = now + SEND_AGAIN;
}

/* START, TIMEOUT or RECOVER, which cannot be refused here. A row that it sends is a command. */
static void step_alone(struct club *c, enum qc_command command)
{
    const uint8_t byte = (uint8_t)command;
    const uint32_t number = step(c, &byte, 1);

    if (number != QC_ACCEPTED)
        fail(c, "a step was refused", qc_answer_text(number));
    memcpy(c->asked, c->row, sizeof c->asked);
    wait_from_now(c);
}

static long least_wait(const struct club *c)
{
    return WAIT_LEAST + WAIT_MORE * (long)c->own;
}

static void time_out(struct club *c)
{
    const long longer = c->wait * 3 / 2;

    c->wait = c->news > 0 ? least_wait(c) : longer < WAIT_MOST ? longer : WAIT_MOST;
    c->news = 0;
    step_alone(c, QC_TIMEOUT);
}

/* Bytes that are not a row for this site are dropped. Whoever follows waits anew from each row; whoever leads has its replies to wait for. */
static void deliver(struct club *c, const uint8_t *row)
{
    uint8_t command[QC_COMMAND_BYTES];

    qc_make_delivery(command, row);
    if (step(c, command, sizeof command) != QC_ACCEPTED)
        return;
    if (qc_step_wrote(c->result))
        memset(c->asked, 0, sizeof c->asked); /* it says what was so before */
    if (qc_own_role(c->site) == QC_SUBORDINATE)
        wait_from_now(c);
}

/* The beginning, or coming back. */

static void open_all(struct club *c)
{
    const enum log_found found = log_open(&c->log, c->own);
    char name[NAME_BYTES];

    if (found == LOG_FAILED)
        fail(c, "the log cannot be used", errno == 0 ? "it is damaged" : strerror(errno));
    if (found == LOG_NEW)
        qc_make_site(c->site);
    else
        qc_make_site_of_log(c->site, c->own, c->log.prepare, c->log.group, c->log.group_codes, c->log.outcome);
    club_name(name, c->own, "");
    c->socket = open_socket(name);
    if (c->socket < 0)
        fail(c, "no socket", strerror(errno));
}

static void begin(struct club *c, unsigned own)
{
    memset(c, 0, sizeof *c);
    c->own = own;
    qc_make_terms(c->terms, SITES, COMMIT_QUORUM, ABORT_QUORUM, NULL, own, 1);
    c->wait = least_wait(c);
    open_all(c);
    if (!qc_own_up(c->site))
        step_alone(c, QC_RECOVER);
    else if (own == HOST)
        step_alone(c, QC_START);
    wait_from_now(c);
}

/* Life. */

/* Does it know that every site has an outcome? Then it only answers. */
static int rests(const struct club *c)
{
    unsigned site;

    for (site = 0; site < SITES; site++)
        if (qc_own_code(c->site, site) < QC_COMMITTED)
            return 0;
    return 1;
}

/* Milliseconds until there is something to do by itself; -1 for never. */
static int idle_time(const struct club *c)
{
    const long next = qc_step_sends(c->asked) && c->again_at < c->timeout_at ? c->again_at : c->timeout_at;
    const long now = milliseconds();

    if (rests(c))
        return -1;
    return next > now ? (int)(next - now) : 0;
}

/* What is due by the clock. */
static void act_in_time(struct club *c)
{
    const long now = milliseconds();

    if (rests(c))
        return;
    if (now >= c->timeout_at) {
        time_out(c);
    } else if (qc_step_sends(c->asked) && now >= c->again_at) {
        send_row(c, c->asked);
        c->again_at = now + SEND_AGAIN;
    }
}

int run_club(unsigned own, int lifeline)
{
    struct club c;
    struct pollfd events[2];
    uint8_t row[QC_ROW_BYTES + 1];

    begin(&c, own);
    events[0].fd = c.socket;
    events[1].fd = lifeline;
    events[0].events = events[1].events = POLLIN;
    for (;;) {
        const int happened = poll(events, 2, idle_time(&c));
        if (happened > 0 && events[1].revents != 0)
            return AGREED;
        if (happened > 0 && recv(c.socket, row, sizeof row, MSG_DONTWAIT) == QC_ROW_BYTES)
            deliver(&c, row);
        act_in_time(&c);
    }
}

/* A competition of five clubs' sites, played one command at a time. All are willing and have prepared when the host, site 0, crashes; the other four
 * finish without it, and it learns the outcome when it is back. On the way messages are lost, repeated and late, as a seed has it:
 *   cc -Wall -Wextra -Werror -Iinclude examples/club.c target/staticlib/libquorum.a -o target/club && target/club 7
 *
 * Prints the report of the world at the end, then how many messages were delivered and how many of them told their site nothing new. Exit status: 0 all
 * sites that are up have the same outcome; 1 they do not; 2 a command or the report was refused, or the seed is not a number.
 */
#include <stdio.h>
#include <stdlib.h>

#include "../include/quorum_read.h"

enum { SITES = 5, QUORUM = 3, HOST = 0, EVERY_SITE = (1 << SITES) - 1 };
enum { AGREED = 0, DISAGREED = 1, REFUSED = 2 };

/* Out of a hundred: messages lost, more of them where the sender is down; messages that arrive again; turns in which a site will not wait. */
enum { LOST = 25, LOST_SENDER_DOWN = 60, REPEATED = 20, IMPATIENT = 6 };

/* A row on its way to a site. */
struct message {
    unsigned row, site;
};

struct competition {
    uint8_t world[QC_WORLD_BYTES];
    uint8_t store[QC_STORE_BYTES];
    uint8_t list[QC_LIST_BYTES]; /* the header and every command so far: a list that could be played again */
    size_t length;
    size_t events;
    unsigned deliveries, idle; /* idle: the delivery told its site nothing new of the others */
    struct message mail[QC_ROWS * (SITES - 1)]; /* in no order, so any message may be late */
    unsigned mail_count;
    uint64_t random;
};

static struct competition club;

static void stop_if_refused(uint32_t number, const char *what)
{
    if (number != QC_ACCEPTED) {
        fprintf(stderr, "%s refused: %s\n", what, qc_answer_text(number));
        exit(REFUSED);
    }
}

/* A number below a bound, the same ones for the same seed. */
static unsigned draw(struct competition *c, unsigned bound)
{
    c->random = c->random * 6364136223846793005u + 1442695040888963407u;
    return (unsigned)(c->random >> 33) % bound;
}

static int chance(struct competition *c, unsigned percent)
{
    return draw(c, 100) < percent;
}

/* A header alone gives the fresh world. */
static void begin(struct competition *c, uint64_t seed)
{
    const uint8_t header[QC_HEADER_BYTES] = {SITES, QUORUM, QUORUM, EVERY_SITE, 0};
    uint8_t result[QC_RESULT_BYTES];

    for (c->length = 0; c->length < sizeof header; c->length++)
        c->list[c->length] = header[c->length];
    stop_if_refused(qc_play_list(c->list, c->length, c->store, sizeof c->store, c->world, sizeof c->world, result, sizeof result), "header");
    c->random = seed;
}

/* Puts a row under way to each of its sites. Nobody waits for an acknowledgement, so those are left alone. */
static void post(struct competition *c, unsigned row)
{
    unsigned site;

    if (qc_row_kind(c->store, row) == QC_OUTCOME_ACK)
        return;
    for (site = 0; site < qc_site_count(c->world); site++) {
        if (qc_row_goes_to(c->store, row, site) && c->mail_count < sizeof c->mail / sizeof c->mail[0]) {
            c->mail[c->mail_count].row = row;
            c->mail[c->mail_count].site = site;
            c->mail_count++;
        }
    }
}

/* Plays a command of so many bytes, and sends the row that it adds, if any. */
static void play(struct competition *c, const uint8_t *command, size_t size)
{
    uint8_t result[QC_RESULT_BYTES];
    unsigned rows = qc_row_count(c->world);
    size_t at = c->length, k;

    for (k = 0; k < size && c->length < sizeof c->list; k++)
        c->list[c->length++] = command[k];
    stop_if_refused(qc_play_command(c->world, sizeof c->world, c->store, sizeof c->store, c->list, c->length, at, result, sizeof result),
                    "command");
    c->length = (size_t)qc_result_next_place(result);
    c->events++;
    if (qc_row_count(c->world) > rows)
        post(c, rows);
}

/* START, TIMEOUT, CRASH or RECOVER; START has no operand. */
static void play_at(struct competition *c, enum qc_command command, unsigned site)
{
    const uint8_t bytes[2] = {(uint8_t)command, (uint8_t)site};
    play(c, bytes, command == QC_START ? 1 : 2);
}

static void deliver(struct competition *c, struct message m)
{
    const uint8_t bytes[4] = {QC_DELIVER, (uint8_t)(m.row & 0xff), (uint8_t)(m.row >> 8), (uint8_t)m.site};
    uint32_t news = qc_news(c->world);

    play(c, bytes, sizeof bytes);
    c->deliveries++;
    if (qc_news(c->world) == news)
        c->idle++;
}

/* One of the messages under way, an old or a new one, is lost or arrives, and may stay to arrive again. */
static void carry(struct competition *c)
{
    unsigned at = draw(c, c->mail_count);
    struct message m = c->mail[at];
    int sender_up = (int)qc_site_up(c->world, qc_row_sender(c->store, m.row));
    int lost = chance(c, sender_up ? LOST : LOST_SENDER_DOWN);

    if (lost || !chance(c, REPEATED))
        c->mail[at] = c->mail[--c->mail_count];
    if (!lost && qc_site_up(c->world, m.site))
        deliver(c, m);
}

/* How far along a state is. */
static int level(unsigned state)
{
    if (state >= QC_COMMITTED)
        return 3;
    return state >= QC_COMMIT_GROUP ? 2 : (int)state;
}

/* One of the sites that are up and furthest along. Were a prepared site to lead beside one that is in a group already, the four could come to stand
 * two against two; that is safe, but then nothing is decided until the host is back. */
static unsigned leader(struct competition *c)
{
    unsigned site, best = 0, count = 0, found[SITES];

    for (site = 0; site < SITES; site++) {
        unsigned state = qc_site_state(c->world, site);
        if (!qc_site_up(c->world, site) || (count > 0 && level(state) < level(best)))
            continue;
        if (count > 0 && level(state) > level(best))
            count = 0;
        best = state;
        found[count++] = site;
    }
    return found[draw(c, count)];
}

/* Are all sites that are up at least so far along? */
static int all_at(const struct competition *c, int least)
{
    unsigned site;

    for (site = 0; site < SITES; site++)
        if (qc_site_up(c->world, site) && level(qc_site_state(c->world, site)) < least)
            return 0;
    return 1;
}

/* The host asks everyone to prepare, again where it must. */
static void prepare_all(struct competition *c)
{
    play_at(c, QC_START, HOST);
    while (!all_at(c, level(QC_PREPARED))) {
        if (c->mail_count == 0)
            post(c, 0);
        else
            carry(c);
    }
}

/* Messages arrive, and sites time out, until every site that is up has an outcome. Each round spends rows, so this ends. */
static void finish(struct competition *c)
{
    while (!all_at(c, level(QC_COMMITTED))) {
        if (c->mail_count == 0 || chance(c, IMPATIENT))
            play_at(c, QC_TIMEOUT, leader(c));
        else
            carry(c);
    }
}

/* Have all sites that are up one outcome? */
static int agree(const struct competition *c)
{
    unsigned site, outcome = QC_NO_RECORD;

    for (site = 0; site < SITES; site++) {
        if (!qc_site_up(c->world, site))
            continue;
        if (!qc_site_terminated(c->world, site))
            return 0;
        if (outcome != QC_NO_RECORD && qc_log_outcome(c->world, site) != outcome)
            return 0;
        outcome = qc_log_outcome(c->world, site);
    }
    return outcome != QC_NO_RECORD;
}

static void print_report(const struct competition *c)
{
    uint8_t text[QC_REPORT_BYTES], result[QC_RESULT_BYTES];

    stop_if_refused(qc_report(c->world, sizeof c->world, c->events, QC_ACCEPTED, c->length, text, sizeof text, result, sizeof result), "report");
    fwrite(text, 1, (size_t)qc_result_length(result), stdout);
    printf("delivered %u idle %u\n", c->deliveries, c->idle);
}

int main(int argc, char **argv)
{
    char *end = NULL;
    unsigned long seed = argc > 1 ? strtoul(argv[1], &end, 10) : 1;
    int survivors_agree;

    if (end != NULL && (end == argv[1] || *end != 0)) {
        fprintf(stderr, "usage: club [SEED]\n");
        return REFUSED;
    }
    begin(&club, seed);
    prepare_all(&club);
    play_at(&club, QC_CRASH, HOST);
    finish(&club);
    survivors_agree = agree(&club);
    play_at(&club, QC_RECOVER, HOST);
    finish(&club);
    print_report(&club);
    if (!survivors_agree || !agree(&club)) {
        fprintf(stderr, "the sites do not agree\n");
        return DISAGREED;
    }
    return AGREED;
}

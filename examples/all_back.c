/* Finishes a competition once everyone is back (include/quorum.h, WHEN EVERYONE IS BACK), and prints its report. The list file named by the argument,
 * or standard input, is played; every site that is down recovers; then the sites get their turns, three rounds of them.
 *   cc -Wall -Wextra -Werror -Iinclude examples/all_back.c target/staticlib/libquorum.a -o target/all_back && target/all_back examples/m3.bin
 *
 * The report counts the list's events and those added, and its last line is of the list alone. Standard error says how many events and rows were
 * added. If a command of the list was refused, it says that too; the world before that command is then the one to go on from.
 *
 * Exit status: 0 all rounds were given, and every site has the same outcome; 1 not so, and standard error says why: the list was refused at its
 * header, an event of the rounds was refused, or the sites stay undecided; 2 the list could not be read, or the report not printed.
 */
#include "list_file.h"
#include "played.h"

enum { ROUNDS = 3 };

/* Exit statuses, beside FAILED. */
enum { FINISHED = 0, UNFINISHED = 1 };

/* What comes after the list: the events accepted, and the number of the first one that is refused. After that one nothing is played. */
struct added {
    unsigned events;
    uint32_t number;
};

static void add(struct added *added, const uint8_t *command, size_t size)
{
    uint8_t result[QC_RESULT_BYTES];

    if (added->number != QC_ACCEPTED)
        return;
    added->number = qc_play_command(world, sizeof world, store, sizeof store, command, size, 0, result, sizeof result);
    if (added->number == QC_ACCEPTED)
        added->events++;
}

/* TIMEOUT or RECOVER. */
static void add_at(struct added *added, enum qc_command name, unsigned site)
{
    const uint8_t command[] = {(uint8_t)name, (uint8_t)site};

    add(added, command, sizeof command);
}

static void add_delivery(struct added *added, unsigned row, unsigned site)
{
    const uint8_t command[] = {QC_DELIVER, (uint8_t)(row & 0xff), (uint8_t)(row >> 8), (uint8_t)site};

    add(added, command, sizeof command);
}

/* RECOVER for every site that is down. It still has what it has logged; if that is nothing, it aborts. */
static void bring_back(struct added *added)
{
    unsigned site;

    for (site = 0; site < qc_site_count(world); site++)
        if (!qc_site_up(world, site))
            add_at(added, QC_RECOVER, site);
}

/* A site's row goes to another one, whose reply, the row that this adds, comes back before anything else. */
static void ask(struct added *added, unsigned site, unsigned row, unsigned other)
{
    const unsigned reply = qc_row_count(world);

    add_delivery(added, row, other);
    if (qc_row_count(world) > reply)
        add_delivery(added, reply, site);
}

/* A site times out and asks all others, in number order. One that is active aborts by itself, and has no row to ask with. */
static void give_turn(struct added *added, unsigned site)
{
    const unsigned row = qc_row_count(world);
    unsigned other;

    add_at(added, QC_TIMEOUT, site);
    if (qc_row_count(world) == row)
        return;
    for (other = 0; other < qc_site_count(world); other++)
        if (other != site)
            ask(added, site, row, other);
}

static void give_rounds(struct added *added)
{
    const unsigned n = qc_site_count(world);
    unsigned turn;

    for (turn = 0; turn < ROUNDS * n; turn++)
        give_turn(added, turn % n);
}

/* Has every site the same outcome? */
static int is_decided(void)
{
    const unsigned outcome = qc_log_outcome(world, 0);
    unsigned site;

    for (site = 0; site < qc_site_count(world); site++)
        if (qc_log_outcome(world, site) != outcome)
            return 0;
    return outcome != QC_NO_RECORD;
}

/* W, what all sites weigh together. */
static unsigned all_weight(void)
{
    unsigned site, sum = 0;

    for (site = 0; site < qc_site_count(world); site++)
        sum += qc_weight(world, site);
    return sum;
}

/* Says how it ended, and why if it is not finished: so many rows were free before the rounds. Gives the exit status. */
static int say_end(const struct added *added, unsigned free_rows)
{
    const unsigned n = qc_site_count(world), quorums = qc_commit_quorum(world) + qc_abort_quorum(world);

    if (added->number == QC_ACCEPTED && is_decided())
        return FINISHED;
    if (added->number != QC_ACCEPTED)
        fprintf(stderr, "the rounds were refused: %s\n", qc_answer_text(added->number));
    else
        fprintf(stderr, "the sites stay undecided\n");
    if (free_rows < 3 * n * n)
        fprintf(stderr, "%u rows were free, and the rounds may take %u\n", free_rows, 3 * n * n);
    if (quorums > all_weight() + 1)
        fprintf(stderr, "C + A is %u, over W + 1, which is %u: both groups may be left without their quorum\n", quorums, all_weight() + 1);
    return UNFINISHED;
}

/* Goes on from the world after the list, and prints the report. Gives the exit status. */
static int finish(struct played played)
{
    const unsigned rows = qc_row_count(world);
    struct added added = {0, QC_ACCEPTED};

    bring_back(&added);
    give_rounds(&added);
    played.events += added.events;
    if (print_report(played) == FAILED)
        return FAILED;
    fprintf(stderr, "added %u events and %u rows\n", added.events, qc_row_count(world) - rows);
    return say_end(&added, QC_ROWS - rows);
}

int main(int count, char **arguments)
{
    static uint8_t list[FILE_ROOM];
    size_t length;
    struct played played;

    if (count > 2) {
        fprintf(stderr, "usage: all_back [LIST]\n");
        return FAILED;
    }
    if (read_list(count > 1 ? arguments[1] : NULL, list, &length) != 0)
        return FAILED;
    played = play(list, length);
    if (played.number != QC_ACCEPTED)
        fprintf(stderr, "the list was refused at %u: %s\n", (unsigned)played.place, qc_answer_text(played.number));
    return printed(has_no_world(played.number) ? print_report(played) : finish(played));
}

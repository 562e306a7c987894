/* Five clubs' own servers, each a process with its log in a file, on a network that loses, repeats and delays. All are willing; the host is club 0.
 *   cc -std=c99 -Iinclude examples/network*.c target/staticlib/libquorum_step.a -o target/network && target/network 7
 *
 * network [SEED [STORY [DIR]]], where the seed draws what the network does and who is killed, and the story is one of these:
 *   host    (as without one) once all have prepared, the host is killed. The others finish among themselves; it comes back and learns the outcome
 *   kills   clubs are killed at any moment, several times, the host among them, and come back
 *   split   from the first JOIN COMMIT on clubs 0 and 1 and the others do not hear of each other, for a while
 * To kill is SIGKILL: a club has no chance to tidy up. Time has a say too, so two runs with one seed may differ.
 * The logs are in a directory of their own, which is removed at the end; or in DIR, where they stay, and from which clubs come back if they are there.
 *
 * Prints each club's log as it grows, then all outcomes side by side. Exit status: 0 all clubs have an outcome, and the same; 1 not so, or it took
 * TIME_MOST milliseconds or ROWS_MOST rows, and was stopped; 2 a usage or system error.
 *
 * network_club.c is a club's server, network_log.c its log, network_relay.c the network, network_servers.c the clubs' processes.
 */
#define _POSIX_C_SOURCE 200809L

#include <errno.h>
#include <fcntl.h>
#include <poll.h>
#include <signal.h>
#include <stdio.h>
#include <stdlib.h>
#include <sys/stat.h>
#include <unistd.h>

#include "network.h"

/* The bounds of a run: milliseconds, and rows that the network hands over. Most runs take less than one second and 300 rows. */
enum { TIME_MOST = 15000, ROWS_MOST = 20000 };

/* Milliseconds: between two looks at the logs; for which the host stays away at most; from one kill to the next; for which the network is split. */
enum { LOOK = 3, HOST_AWAY = 1500, KILL_LEAST = 5, KILL_MOST = 120, SPLIT_LEAST = 100, SPLIT_MOST = 900 };

/* How often clubs are killed in the story of kills. */
enum { KILLS_LEAST = 3, KILLS_MOST = 6 };

struct run {
    struct servers servers;
    struct relay relay;
    uint64_t random;
    unsigned kills_left;
    long kill_at, heal_at;
};

static volatile sig_atomic_t interrupted;

static void interrupt(int signal_number)
{
    interrupted = signal_number;
}

/* The stories. */

/* How many clubs from this one on have an outcome? */
static unsigned count_ended(const struct run *run, unsigned from)
{
    unsigned club, count = 0;

    for (club = from; club < SITES; club++)
        count += run->servers.clubs[club].outcome != QC_NO_RECORD;
    return count;
}

static int all_prepared(const struct run *run)
{
    unsigned club, count = 0;

    for (club = 0; club < SITES; club++)
        count += run->servers.clubs[club].prepared != 0;
    return count == SITES;
}

/* The host is called as soon as the others have an outcome, or comes after a while: four can be two and two, and then they need it. */
static void tell_of_host(struct run *run)
{
    struct server *host = &run->servers.clubs[HOST];

    if (run->servers.kills == 0 && host->process != 0 && all_prepared(run)) {
        kill_club(&run->servers, HOST);
        host->start_at = milliseconds() + HOST_AWAY;
    }
    if (host->process == 0 && count_ended(run, HOST + 1) == SITES - 1)
        host->start_at = milliseconds();
}

/* Kills a club that is up: the first one from a drawn one on. */
static void tell_of_kills(struct run *run)
{
    unsigned turn, first;

    if (run->kills_left == 0 || milliseconds() < run->kill_at)
        return;
    first = draw(&run->random, 0, SITES - 1);
    for (turn = first; turn < first + SITES; turn++) {
        if (run->servers.clubs[turn % SITES].process != 0) {
            kill_club(&run->servers, turn % SITES);
            break;
        }
    }
    run->kills_left--;
    run->kill_at = milliseconds() + (long)draw(&run->random, KILL_LEAST, KILL_MOST);
}

static void tell_of_split(struct run *run)
{
    if (run->relay.join_seen && run->heal_at == 0) {
        run->relay.apart = 1;
        run->heal_at = milliseconds() + (long)draw(&run->random, SPLIT_LEAST, SPLIT_MOST);
        tell(&run->servers, "the network", "is cut between clubs 0 and 1 and the others");
    }
    if (run->relay.apart && milliseconds() >= run->heal_at) {
        run->relay.apart = 0;
        tell(&run->servers, "the network", "is whole again");
    }
}

static const struct story {
    const char *name;
    void (*tell)(struct run *);
    unsigned kills_least, kills_most;
} stories[] = {{"host", tell_of_host, 0, 0}, {"kills", tell_of_kills, KILLS_LEAST, KILLS_MOST}, {"split", tell_of_split, 0, 0}};

static const struct story *story_named(const char *name)
{
    size_t at;

    for (at = 0; at < sizeof stories / sizeof stories[0]; at++)
        if (strcmp(stories[at].name, name) == 0)
            return &stories[at];
    return NULL;
}

/* A run. */

static int is_over(const struct run *run)
{
    unsigned club;

    for (club = 0; club < SITES; club++)
        if (run->servers.clubs[club].process == 0)
            return 0;
    return count_ended(run, 0) == SITES && run->kills_left == 0 && !run->relay.apart;
}

static int is_within_bounds(const struct run *run)
{
    return milliseconds() - run->servers.began < TIME_MOST && run->relay.carried < ROWS_MOST;
}

/* Waits for the next row to come or to be due, and no longer than to the next look. */
static void wait_for_rows(const struct run *run)
{
    struct pollfd rows = {run->relay.socket, POLLIN, 0};
    const long now = milliseconds(), next = relay_next(&run->relay, now + LOOK);

    poll(&rows, 1, next > now ? (int)(next - now) : 0);
}

static void play(struct run *run, const struct story *story, uint64_t seed)
{
    memset(run, 0, sizeof *run);
    run->random = 3 * seed; /* three seeds, so that what the network does and what is killed have nothing in common */
    run->kills_left = draw(&run->random, story->kills_least, story->kills_most);
    run->kill_at = milliseconds() + (long)draw(&run->random, KILL_LEAST, KILL_MOST);
    stop_if(!relay_open(&run->relay, 3 * seed + 1), RELAY_NAME);
    servers_open(&run->servers, 3 * seed + 2);
    while (!is_over(run) && is_within_bounds(run) && !run->servers.failed && !interrupted) {
        wait_for_rows(run);
        relay_take(&run->relay);
        show_logs(&run->servers);
        story->tell(run);
        mind_clubs(&run->servers);
        relay_hand_over(&run->relay);
    }
    servers_close(&run->servers);
}

/* The outcomes side by side; the exit status. */
static int compare(const struct run *run)
{
    static const char *const outcomes[] = {"none", "commit", "abort"};
    const struct server *clubs = run->servers.clubs;
    const int within = is_within_bounds(run);
    unsigned club;
    int agree = 1;

    printf("club   ");
    for (club = 0; club < SITES; club++)
        printf("%8u", club);
    printf("\noutcome");
    for (club = 0; club < SITES; club++) {
        printf("%8s", outcomes[clubs[club].outcome]);
        agree &= clubs[club].outcome != QC_NO_RECORD && clubs[club].outcome == clubs[HOST].outcome;
    }
    printf("\nms %ld rows %lu kills %u%s\n", milliseconds() - run->servers.began, run->relay.carried, run->servers.kills,
           within ? "" : ": stopped, that is too much");
    if (run->servers.failed || interrupted)
        return FAILED;
    return agree && within ? AGREED : DISAGREED;
}

/* Directories and arguments. */

/* Goes to the directory of the logs: the one that is named, or a new one, whose name is given back. */
static void enter(char *made, size_t size, const char *named)
{
    const char *where = getenv("TMPDIR");

    if (named != NULL) {
        stop_if(mkdir(named, 0777) != 0 && errno != EEXIST, named);
        stop_if(chdir(named) != 0, named);
        return;
    }
    snprintf(made, size, "%s/network-XXXXXX", where != NULL && where[0] != 0 ? where : "/tmp");
    stop_if(mkdtemp(made) == NULL || chdir(made) != 0, made);
}

/* Removes the sockets, and the logs and their directory where that was made here. */
static void tidy(const char *made, int back)
{
    unsigned club;
    char name[NAME_BYTES];

    unlink(RELAY_NAME);
    for (club = 0; club < SITES; club++) {
        club_name(name, club, "");
        unlink(name);
        club_name(name, club, ".log");
        if (made[0] != 0)
            unlink(name);
    }
    if (made[0] != 0)
        stop_if(fchdir(back) != 0 || rmdir(made) != 0, made);
}

int main(int argc, char **argv)
{
    static struct run run;
    const struct sigaction on_signal = {.sa_handler = interrupt};
    const struct story *story = story_named(argc > 2 ? argv[2] : "host");
    const int back = open(".", O_RDONLY);
    char made[4096] = "", *rest = NULL;
    const unsigned long seed = argc > 1 ? strtoul(argv[1], &rest, 10) : 1;
    int status;

    if (argc > 4 || story == NULL || (rest != NULL && (rest == argv[1] || *rest != 0))) {
        fprintf(stderr, "usage: network [SEED [host | kills | split [DIR]]]\n");
        return FAILED;
    }
    sigaction(SIGINT, &on_signal, NULL);
    sigaction(SIGTERM, &on_signal, NULL);
    enter(made, sizeof made, argc > 3 ? argv[3] : NULL);
    play(&run, story, seed);
    status = compare(&run);
    tidy(made, back);
    stop_if(fflush(stdout) != 0, "standard output");
    return status;
}

/* The clubs' processes and their logs, as whoever looks on has them: started, killed, started again; each line of a log shown once it is there. */
#define _POSIX_C_SOURCE 200809L

#include <fcntl.h>
#include <signal.h>
#include <stdio.h>
#include <stdlib.h>
#include <sys/wait.h>
#include <unistd.h>

#include "network.h"

/* Milliseconds for which a club that was killed stays away. */
enum { AWAY_LEAST = 20, AWAY_MOST = 400 };

void stop_if(int failed, const char *what)
{
    if (failed) {
        perror(what);
        exit(FAILED);
    }
}

void tell(const struct servers *servers, const char *who, const char *what)
{
    printf("%5ld ms  %s  %s\n", milliseconds() - servers->began, who, what);
}

static void tell_of(const struct servers *servers, unsigned club, const char *what)
{
    char who[NAME_BYTES];

    snprintf(who, sizeof who, "club %u", club);
    tell(servers, who, what);
}

/* Logs. */

static void show_line(struct servers *servers, unsigned club, const char *line)
{
    struct server *server = &servers->clubs[club];

    tell_of(servers, club, server->shown == 0 ? "begins" : line);
    server->prepared |= strcmp(line, "prepare") == 0;
    if (strcmp(line, "outcome commit") == 0)
        server->outcome = QC_COMMIT;
    if (strcmp(line, "outcome abort") == 0)
        server->outcome = QC_ABORT;
}

/* Shows the whole lines that have come to a log. */
static void show_log(struct servers *servers, unsigned club)
{
    struct server *server = &servers->clubs[club];
    char text[128], name[NAME_BYTES], *line = text, *end;
    ssize_t length;

    club_name(name, club, ".log");
    if (server->log < 0)
        server->log = open(name, O_RDONLY);
    if (server->log < 0)
        return;
    length = pread(server->log, text, sizeof text - 1, server->shown);
    stop_if(length < 0, name);
    text[length] = 0;
    for (; (end = strchr(line, '\n')) != NULL; line = end + 1) {
        *end = 0;
        show_line(servers, club, line);
        server->shown += end + 1 - line;
    }
}

void show_logs(struct servers *servers)
{
    unsigned club;

    for (club = 0; club < SITES; club++)
        show_log(servers, club);
}

/* Processes. */

static void start_club(struct servers *servers, unsigned club)
{
    struct server *server = &servers->clubs[club];

    fflush(stdout);
    server->process = fork();
    stop_if(server->process < 0, "fork");
    if (server->process == 0) {
        close(servers->lifeline[1]);
        _exit(run_club(club, servers->lifeline[0]));
    }
}

void servers_open(struct servers *servers, uint64_t seed)
{
    unsigned club;

    memset(servers, 0, sizeof *servers);
    servers->random = seed;
    servers->began = milliseconds();
    stop_if(pipe(servers->lifeline) != 0, "pipe");
    for (club = 0; club < SITES; club++) {
        servers->clubs[club].log = -1;
        start_club(servers, club);
    }
}

/* A club that was killed comes back. Any other end is a failure. */
static void mind_ended(struct servers *servers, unsigned club, int status)
{
    servers->clubs[club].process = 0;
    servers->clubs[club].start_at = milliseconds() + (long)draw(&servers->random, AWAY_LEAST, AWAY_MOST);
    servers->failed |= !WIFSIGNALED(status) || WTERMSIG(status) != SIGKILL;
}

void kill_club(struct servers *servers, unsigned club)
{
    const pid_t process = servers->clubs[club].process;
    int status;

    tell_of(servers, club, "is killed");
    servers->kills++;
    kill(process, SIGKILL);
    stop_if(waitpid(process, &status, 0) != process, "waitpid");
    mind_ended(servers, club, status);
}

void mind_clubs(struct servers *servers)
{
    unsigned club;
    int status;

    for (club = 0; club < SITES; club++) {
        struct server *server = &servers->clubs[club];
        if (server->process != 0 && waitpid(server->process, &status, WNOHANG) > 0)
            mind_ended(servers, club, status);
        if (server->process == 0 && milliseconds() >= server->start_at) {
            tell_of(servers, club, "comes back");
            start_club(servers, club);
        }
    }
}

void servers_close(struct servers *servers)
{
    unsigned club;

    close(servers->lifeline[1]);
    for (club = 0; club < SITES; club++)
        if (servers->clubs[club].process != 0)
            waitpid(servers->clubs[club].process, NULL, 0);
    show_logs(servers);
}

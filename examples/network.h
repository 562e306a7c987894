/* What the files of the example network share. network.c says what it shows; network_club.c is one club's server, the part to copy from. */
#ifndef NETWORK_H
#define NETWORK_H

#include <sys/types.h>

#include "../include/quorum_read.h"
#include "../include/quorum_step.h"

enum { SITES = 5, COMMIT_QUORUM = 3, ABORT_QUORUM = 3, HOST = 0 };

/* Exit statuses: all have the same outcome; they have not; a usage or system error. */
enum { AGREED = 0, DISAGREED = 1, FAILED = 2 };

/* network_common.c: time, draws and sockets. */

/* Milliseconds on a clock that only goes forward. */
long milliseconds(void);

/* A number from least to most, the same ones for the same seed. */
unsigned draw(uint64_t *random, unsigned least, unsigned most);

/* The name of a club's socket or log: club2, club2.log. */
enum { NAME_BYTES = 16 };
void club_name(char *name, unsigned club, const char *end);

/* A Unix datagram socket of this name in the working directory; -1 with errno where there is none to be had. */
int open_socket(const char *name);

/* Sends a row to the socket of this name. It may not arrive: the socket may be gone, or full. */
void send_to(int socket, const char *name, const uint8_t *row);

#define RELAY_NAME "relay"

/* network_log.c: a club's log, a file of lines. */

struct log {
    int file;
    unsigned own, prepare, group, outcome; /* its number, and the records that the log had when it was opened */
    uint8_t group_codes[QC_SITES];
};

enum log_found { LOG_FAILED, LOG_NEW, LOG_OLD };

/* Opens a club's log, and forces it to disk as it is. It is new, with its first line written, or old, with the records of an earlier run; a last line
 * that was cut off is taken off. LOG_FAILED where the file cannot be had, with errno, or is damaged, with errno 0. */
enum log_found log_open(struct log *log, unsigned own);

/* Writes the records that a step has written, the result says which, and forces them. 0 where that failed, with errno. */
int log_write(const struct log *log, const uint8_t *site, const uint8_t *result);

/* network_club.c */

/* A club's server: runs until the other end of the lifeline is closed. Gives an exit status. */
int run_club(unsigned own, int lifeline);

/* network_relay.c: the network between the clubs. */

/* Rows on their way at once: at most; more are lost. */
enum { ON_THE_WAY = 1024 };

/* A row on its way to a site. */
struct message {
    uint8_t row[QC_ROW_BYTES];
    unsigned to;
    long due;
};

struct relay {
    int socket;
    uint64_t random;
    struct message messages[ON_THE_WAY];
    unsigned count;
    unsigned long carried; /* rows handed to clubs so far */
    int join_seen;         /* has a JOIN COMMIT come by? */
    int apart;             /* is the network cut between sites 0 and 1 and the others? */
};

/* 0 where its socket cannot be had, with errno. */
int relay_open(struct relay *relay, uint64_t seed);

/* Takes in all rows that clubs have sent; hands over those that are due. */
void relay_take(struct relay *relay);
void relay_hand_over(struct relay *relay);

/* When the next row is due, and no later than latest. */
long relay_next(const struct relay *relay, long latest);

/* network_servers.c: the clubs' processes, and their logs as they grow. */

/* A club's process, and its log as far as it was shown. */
struct server {
    pid_t process; /* 0 while it is down, */
    long start_at; /* and then it comes back at this time */
    int log;       /* -1 until there is one */
    off_t shown;
    int prepared;
    unsigned outcome;
};

struct servers {
    struct server clubs[SITES];
    int lifeline[2]; /* a pipe that nobody writes to: a club ends when its other end is closed, however this process ends */
    uint64_t random;
    long began;
    unsigned kills;
    int failed; /* has a club ended by itself? */
};

/* Starts all clubs. */
void servers_open(struct servers *servers, uint64_t seed);

/* Kills a club with SIGKILL; it comes back after a while. */
void kill_club(struct servers *servers, unsigned club);

/* Shows what has come to the logs; minds clubs that have ended, and starts those whose time has come. */
void show_logs(struct servers *servers);
void mind_clubs(struct servers *servers);

/* Closes the lifeline, and waits for all clubs to end. */
void servers_close(struct servers *servers);

/* Prints what has happened, with the time. */
void tell(const struct servers *servers, const char *who, const char *what);

/* Ends the program with FAILED if a call of the system has failed. */
void stop_if(int failed, const char *what);

#endif

/* Quorum commitment: the calls offered to C.
 *
 * Link with target/staticlib/libquorum.a (x86-64 Linux); for qc_step with libquorum_step.a beside it, which has that call and nothing else. A program may
 * link both. Beside this file, include/quorum_read.h reads worlds, sites, rows and results, and include/quorum_step.h makes what qc_step takes.
 *
 * WHAT THIS IS. There are two ways to use it:
 * - A player of whole days. One world holds ALL sites of one competition, in one process, and events are played on it: a message arrives, a site has
 *   waited long enough, crashes or comes back. The caller chooses the events; the library says what each does. No choice of events from a fresh world
 *   can end in two outcomes, as long as world and store are handed back as the call before left them. All calls but one are for this.
 * - A club's own server. A program holds ONE site, its club's, keeps that site's log on disk and exchanges rows with the other clubs' servers over a
 *   network. qc_step makes its site's steps: it takes the site and what has happened, a row that has arrived among others, and gives the site after it,
 *   the row to send, and what must be on disk before that is sent (see A CLUB'S OWN SERVER).
 * The rules that a site goes by are the same in both.
 *
 * Of every call:
 * - It allocates nothing and always returns. No state is kept between calls, so any threads may call at once on different buffers.
 * - A buffer is a pointer and its length in bytes. No pointer is NULL, a buffer's bytes are all the caller's, and a buffer that a call may
 *   write (not const) overlaps no other buffer of that call. Nothing else is asked: any bytes, lengths and numbers may be handed in.
 * - Numbers in buffers have their low byte first. A world is QC_WORLD_BYTES bytes, laid out as docs/LAYOUT.md says; a C program need only keep
 *   it and hand it back.
 * - The answer is QC_ACCEPTED, or the number of the first check that failed. They are made in the order 16, 17, 1 to 3, 2 again for a second-edition
 *   header that is cut, 21, 4 to 15, 18; last of all, for a delivery in a world, 17 again (see NEWS). The two calls between lists and lines have an order
 *   of their own (see LINES), and so has qc_convert (see EDITIONS); qc_write_quiet has 17, 3, 4, 20, and qc_step 17, 6 to 8, 10 to 14.
 *
 * A list is a header and then commands. There are two editions of the header; 130 as the first byte, which is no number of sites, begins the second:
 *     header      first edition, QC_HEADER_BYTES bytes: n, the number of sites; C, the commit quorum; A, the abort quorum; the willing sites as
 *                 16 bits, bit i for site i. Each site weighs 1
 *       or        second edition, QC_SECOND_HEADER_BYTES(n) bytes: QC_SECOND_EDITION; n; C and A, 16 bits each; the willing sites, 16 bits; n weights,
 *                 one byte each, from site 0 up (see WEIGHTS)
 *     1 START     no operand: site 0 begins
 *     2 DELIVER   row number (16 bits), site (1 byte): the row is delivered to that site; it may be again, or never
 *     3 TIMEOUT   site (1 byte): the site has waited long enough
 *     4 CRASH     site (1 byte)
 *     5 RECOVER   site (1 byte)
 *
 * A row is a message that a site has sent, QC_ROW_BYTES bytes in the store; row k is at QC_ROW_BYTES * k, and rows are numbered from 0 as they
 * are sent. A world knows how many there are. Each event sends at most one.
 *     byte 0         its kind (enum qc_kind)
 *     byte 1         the site that sent it
 *     bytes 2 and 3  the sites that it goes to, as 16 bits: all but the sender for a command, the command's sender alone for a reply
 *     bytes 4 to 19  what its sender knows of each site, one code (enum qc_code) a site
 *
 * WHAT EACH COMMAND DOES. A site's state is its outcome if it has one, else its group, else prepared, else active. "Joins" writes the group record
 * with the codes as they are then; n, C and A are the list's, or the terms' of qc_step. What a site knows is n codes, its own among them.
 *
 *   START      site 0, active
 *                willing        writes prepare, becomes coordinator, sends PREPARE
 *                unwilling      writes abort, becomes coordinator, sends OUTCOME
 *   TIMEOUT    active           writes abort, sends nothing; the role stays
 *              subordinate      becomes coordinator, decides nothing, sends the command of its state:
 *                               prepared PREPARE, commit group JOIN COMMIT, abort group JOIN ABORT, terminated OUTCOME
 *              coordinator      moves on with whatever has arrived:
 *                prepared       joins the commit group if all n codes are 1 or any is 2, else the abort group; sends that JOIN
 *                commit group   if the sites with code 2 weigh at least C, writes commit and sends OUTCOME; else sends JOIN COMMIT again
 *                abort group    if the sites with code 3 weigh at least A, writes abort and sends OUTCOME; else sends JOIN ABORT again
 *                terminated     sends OUTCOME
 *   DELIVER    first            for every other site, takes the row's code if its level is higher than that of the one held. Levels: 0; 1; 2, 3; 4, 5
 *              then             if not terminated and some code is 4 or 5, writes that outcome, the lowest site's
 *              then, by kind
 *                PREPARE        active: writes prepare if willing, else abort. Replies VOTE in every state
 *                JOIN COMMIT    prepared: joins the commit group. Replies IN GROUP in every state
 *                JOIN ABORT     prepared, or active (and then without a prepare record): joins the abort group. Replies IN GROUP in every state
 *                OUTCOME        replies OUTCOME ACK
 *                a reply        nothing more
 *   CRASH      down, subordinate. The log stays; what it knew is lost: its codes are those of its group record, or all 0, and its own its state
 *   RECOVER    empty log        up, subordinate; writes abort, sends nothing; its codes of other sites stay. (Document 01 had it active as at the
 *                               start, and so did version 1. Document 02 corrected that: it has lost what it knew, and must not say yes to a round
 *                               that it no longer has. So where site 0 restarts before START, START is 14.)
 *              any record       up; nothing else
 *              either way       the next TIMEOUT makes it coordinator, and it sends the command of its state
 *
 * WEIGHTS. A site weighs 1 to 255, and a quorum is a weight: sites that together weigh as much, or more, reach it. With W the weight of all n sites and
 * h that of the heaviest, C and A are each at most W - h, and C + A is at least W + 1. (In a first-edition list W is n and h is 1.) So:
 * - There are such C and A exactly where W is at least 2 h + 1: no site may weigh as much as all the others together. A list where one does is 4,
 *   whatever its C and A are. Where none does, C = A = W - h will do, and so will C = W / 2 + 1 with A = W - W / 2, in whole numbers.
 * - No site is a quorum by itself, for C and A are each at least h + 1; and none is needed for one, for the others weigh enough for either.
 * - Weights count in quorums and nowhere else. A commit still takes every site, however light, to be willing and to prepare; what a heavy site says is
 *   taken as any other's.
 * A competition's weights never change.
 *
 * A world has room for QC_ROWS rows, and none is ever given back. Each TIMEOUT of a site that is not active spends one, even where nothing has
 * arrived since the last; so 15 (QC_STORE_FULL) can end a competition undecided. A caller should let replies arrive before it lets a site time out, and
 * keep rows for the end (see WHEN EVERYONE IS BACK).
 *
 * NEWS. A world knows how many codes its sites have taken from rows, over all accepted deliveries; a site's own code is never among them. A delivery
 * that does not raise this number was idle: it told its site nothing new of the others (the site may still have written a record or replied). What a
 * CRASH makes a site forget is not taken off, and counts again when it is told again. No call leaves more than QC_NEWS: a world handed in with more is
 * 17, and so is, after all other checks, a delivery that would pass it. No list is long enough for that.
 *
 * WHEN EVERYONE IS BACK. Whatever was lost or late, whoever crashed or led beside others, a competition can be brought to its end. RECOVER every site
 * that is down. Then give sites 0 to n - 1 a turn each, three rounds running. A turn is TIMEOUT at the site; the row that this sends, if any, delivered
 * to all other sites in number order; and after each of these deliveries the row that it adds, the reply, delivered back to the site before the next.
 * Where C + A is W + 1 and at least 3 n n rows are free as the rounds begin:
 * - No event of the rounds is refused.
 * - Every site ends with the same outcome; if a site had one before, it is that one. A caller may stop as soon as all have it.
 * - There are at most 3 n (2 n - 1) events, and at most 3 n n rows are sent: 45 and 27 for 3 sites, 1,488 and 768 for 16.
 * This holds of every world that calls have left, from a fresh one on, with the store that they have left. Its news must be at most
 * QC_NEWS - 3 n (n - 1), which is all that the rounds can tell; after a list it always is, and single commands without end may bring it higher.
 * Nothing is promised in other cases:
 * - C + A over W + 1: some sites may be in the commit group and all others in the abort group, neither with its quorum, and stay so for good. So choose
 *   C + A = W + 1 unless there is a reason for more; C = W / 2 + 1 with A = W - W / 2 is such a pair.
 * - Fewer rows free: 15 may come before the outcome.
 * - A site that stays down: 12 comes where it has its turn or a row is delivered to it. Without it the others may have a quorum, or may not.
 * - Turns in another order, fewer of them, or replies that are lost or late: there may be an outcome, or none yet.
 * examples/all_back.c plays a list and then does all of this.
 *
 * A CLUB'S OWN SERVER. Each call of qc_step is one step of one site. A server has for it:
 *     terms       what never changes: n, C, A and the weights, this site's number, and whether it is willing. n, C, A and the weights must be the same at
 *                 every site: each server hands in its own, and no call can see that another's differ. Make them with qc_make_terms
 *     site        the site's record, as in a world; kept in memory, and handed back as the call before left it. Begin with qc_make_site
 *     command     one byte as in a list, and no site after it. DELIVER is followed by the row that has arrived (qc_make_delivery)
 *     row         gets the row to send: its QC_ROW_BYTES bytes as they are, to each of its destinations; or kind 0, and nothing is sent (qc_step_sends)
 *     result      gets the records that the step has written, and its news
 * And what it gives when:
 *     START       once, at site 0: the competition begins. Elsewhere it is 14
 *     DELIVER     a row has arrived
 *     TIMEOUT     it has waited long enough, for a command or for replies. How long is the server's choice: let it differ from site to site, and grow
 *                 where a TIMEOUT has brought nothing, so that sites do not lead beside each other for ever
 *     RECOVER     its machine is back, and the site is made from its log
 *     CRASH       never, for a machine that crashes calls nothing; it is there for programs that try out what a crash does
 *
 * What must be on disk. The log is three places of the site: the prepare record; the group record, with its codes; the outcome record. After each step
 * that is accepted (one that is refused leaves row and result as they were):
 *   1. If the result says that a record was written (qc_step_wrote), it is written to disk and forced (fsync; of a new file, its directory's entry too).
 *   2. Only then the row is sent, if there is one. It may be sent again as often as the server likes.
 * A step writes at most one record, so it is on disk whole or not at all. A machine that stops before 1 has not made the step; one that stops between the
 * two has lost a row, and rows may be lost. One that sends first can break everything: a site sends the vote that it has prepared, and stops before its
 * prepare record is on disk. The others count on it and commit; it comes back with an empty log and aborts.
 *
 * How a server comes back. Of what a site knows only the log survives: qc_make_site_of_log makes of its three places the site that CRASH leaves, and
 * RECOVER brings that up. Force what RECOVER writes, as after any step. Three things to mind:
 * - An empty log is not a new one. A site that has begun and has no record no longer knows what it was asked: it is made from its log as any other, and
 *   RECOVER has it abort. Only a site that has never made a step begins with qc_make_site. So a server creates its log, and forces it, before the first.
 * - A record that was cut off while it was written was not forced, so no row was sent that rests on it. Take it off before the next one is written.
 * - A record that is whole may not have been forced either: force the log that was read before the first step.
 *
 * What the network may do. A row may be lost, arrive any number of times, late, and after rows that were sent later. It must never be made up or
 * changed. The library asks of a row only that it has the form (10) and goes to this site (11); it cannot know who has sent it. Where others can write
 * to the network, or bytes can be damaged, the server must find that out and drop such a row, and so a row of another competition.
 *
 * What is promised. Take n sites with the same n, C, A and weights that begin fresh, and any steps at them, in any order, where each row that is
 * delivered is one that some site has sent before. Then over all records that the steps write:
 * - There is at most one outcome, commit or abort.
 * - A commit means that each of the n sites writes exactly one prepare record, and that all are willing.
 * - No site writes a second group record or a second outcome record.
 * It is not promised that there is an outcome:
 * - Where the network loses everything, or cuts sites off, some may wait as long as it does. What they have written stays right.
 * - C + A over W + 1: two groups can be stuck beside each other, even with everyone there (see WHEN EVERYONE IS BACK).
 * - A site that stays down: the others may come to an outcome without it, or have to wait for it.
 * examples/network.c runs five such servers, each a process with its log in a file, on a network that loses, repeats and delays; some are killed.
 *
 * LINES. A list can also be typed: a line for its header, then one line a command. Each line with the bytes that it stands for:
 *     sites 3 commit 2 abort 2 willing 7    03 02 02 07 00
 *     start                                 01
 *     deliver 258 1                         02 02 01 01    the row, then the site
 *     timeout 0                             03 00
 *     crash 0                               04 00
 *     recover 0                             05 00
 * Numbers are decimal, without leading noughts (but 0 is `0`): willing and the row to 65,535, all others to 255. Between words stands one blank, and no
 * other. Each line ends with a line feed, the last one too; there is no carriage return, no tab and no empty line. So a list has one text:
 * qc_write_lines and qc_read_lines undo each other, and a text that is spelt otherwise is refused. Commands are read here, and neither played nor held
 * to the header: a site or row that is not there may be written, and stops the list when it is played. Only lists of the first edition have lines: the
 * first byte is always taken as n, so 130 is 3. (Where all sites weigh 1, a list of the second edition can be brought back to the first: see EDITIONS.)
 * Both calls check 17 first, which here is a result of another length and nothing else. Then qc_write_lines checks 1 to 7, and qc_read_lines 19
 * over the whole text, 1, 3 to 5; last of all 20.
 *
 * EDITIONS. A club with an old player, from before the second edition, can play lists of the first edition only. qc_convert turns a list of either
 * edition into the other: one that begins with 130 goes back to the first, any other goes forward to the second (its first byte is n, so 131 is 3).
 * - The new header says the same n, C, A and willing sites. Going forward, each of the n sites gets a weight of 1.
 * - The commands, all bytes after the header, are copied as they are. They are not played, and may be any bytes.
 * - Going back is possible exactly where every site weighs 1, for a first-edition header cannot say anything else; otherwise the list is 22.
 * - Both lists play alike, with the same world, rows, events and answer. Only places differ: the second edition's header is n + 3 bytes longer, so
 *   there the end of the list, or the command that stopped it, is n + 3 bytes further on. (16 has place 0 for both.)
 * - A list that is converted and converted again is the same list, byte for byte.
 * - The converted list, too, has at most QC_LIST_BYTES bytes, so a first-edition list goes forward only if it has at most QC_LIST_BYTES - (n + 3).
 * qc_convert checks 17 first, which again is a result of another length and nothing else; then the list's length and its header, 1 to 3, 2 again for a
 * second-edition header that is cut, 21, 4, 5; then 22, and 1 where the converted list would be too long; last of all 20. Every refusal has place 0.
 */
#ifndef QUORUM_H
#define QUORUM_H

#include <stddef.h>
#include <stdint.h>

/* The major number goes up when a program may have to change, the minor one when something is added. Version 3: a world has its news (layout 2),
 * and the report's first line ends with it. 3.1 adds lists as lines, with 19 and 20. 3.2 adds the list of a quiet day. Version 4: a world
 * has weights (layout 3, 672 bytes), and a list may be of the second edition, with 21. 4.1 adds the call from one edition to the other, with 22. 4.2 adds
 * the step of a single site. */
#define QC_VERSION_MAJOR 4
#define QC_VERSION_MINOR 2
#define QC_LAYOUT 3 /* of a world's bytes and of terms: their first byte */

#define QC_SITES 16              /* site records of a world, its weights, and codes of a row */
#define QC_ROWS 1024             /* rows: at most */
#define QC_NEWS 491520           /* news: at most */
#define QC_WEIGHT 255            /* a site's weight: at most; at least 1 */
#define QC_HEADER_BYTES 5        /* a header of the first edition */
#define QC_SECOND_EDITION 130    /* the first byte of a list of the second edition */
#define QC_SECOND_HEADER_BYTES(n) (8 + (n)) /* a header of the second edition, for n sites; its weights begin at 8 */
#define QC_LIST_BYTES 32768      /* a whole list: at most */
#define QC_QUIET_BYTES 370       /* a quiet day's list: at most; a buffer of as many always has room for it */
#define QC_TEXT_BYTES 196620     /* a list's text: at most; a buffer of as many always has room for it */
#define QC_ROW_BYTES 20          /* a row */
#define QC_WORLD_BYTES 672       /* a world: exactly */
#define QC_TERMS_BYTES 32        /* the terms of a single site: exactly */
#define QC_SITE_BYTES 40         /* a site: exactly */
#define QC_STORE_BYTES 20480     /* a store of rows: at least */
#define QC_REPORT_BYTES 1024     /* a report buffer: at least */
#define QC_RESULT_BYTES 8        /* a result of the calls that play or report: exactly */
#define QC_LINES_RESULT_BYTES 16 /* a result of the calls that write a list or its lines: exactly */
#define QC_STEP_RESULT_BYTES 8   /* a result of qc_step: exactly */

/* Every answer: its name, number and meaning. 1 is a list handed in, or, for qc_read_lines and qc_convert, one that would be written. 2 is a list
 * of under 5 bytes, whatever the first is, and, checked after 3, a second-edition header that is cut. 4 is C or A over W - h, or C + A under W + 1 (see
 * WEIGHTS). 14 is START while site 0 is not active, and for qc_step START at any other site too. 17 is a buffer whose length must be exact and is not, a
 * world's bytes outside the layout, a world whose values do not fit together (its quorums and weights among them: a weight is 0 exactly from n up) or
 * whose news is over 491,520, the same of terms and a site, for the report also an event count, place or number out of its range, and, checked last,
 * after 15, a delivery in a world that would bring the news over 491,520. 19 is met by qc_read_lines alone, 20 by it, qc_write_lines, qc_write_quiet and
 * qc_convert, 21 by qc_play_list and qc_convert, 22 by qc_convert alone. */
#define QC_ANSWERS(answer)                                                                                      \
    answer(QC_ACCEPTED, 0, "accepted")                                                                          \
    answer(QC_LIST_LONG, 1, "the list is longer than 32,768 bytes")                                             \
    answer(QC_LIST_SHORT, 2, "the list is shorter than its header")                                             \
    answer(QC_BAD_SITES, 3, "the number of sites is not 3 to 16")                                               \
    answer(QC_BAD_QUORUMS, 4,                                                                                   \
           "a quorum is over all weights but the largest, or both together are not over all weights")           \
    answer(QC_BAD_WILLING, 5, "a willing bit at n or above")                                                    \
    answer(QC_NO_COMMAND, 6, "no command byte, or not 1 to 5")                                                  \
    answer(QC_CUT_SHORT, 7, "the command's operands are cut short")                                             \
    answer(QC_NO_SITE, 8, "site number n or more")                                                              \
    answer(QC_NO_ROW, 9, "row number not below the row count")                                                  \
    answer(QC_BAD_ROW, 10, "the row is not a row: its kind, sender or a code is out of range")                  \
    answer(QC_NOT_SENT, 11, "the site is not among the row's destinations")                                     \
    answer(QC_SITE_DOWN, 12, "the site is down")                                                                \
    answer(QC_SITE_UP, 13, "RECOVER while the site is up")                                                      \
    answer(QC_STARTED, 14, "START while site 0 is not active, or at another site")                              \
    answer(QC_STORE_FULL, 15, "a row is to be added and 1,024 are there")                                       \
    answer(QC_STORE_SHORT, 16, "the store is shorter than 20,480 bytes")                                        \
    answer(QC_BAD_WORLD, 17,                                                                                    \
           "the world, the terms, the site, a length or a report number is wrong, or news would pass 491,520")  \
    answer(QC_REPORT_SHORT, 18, "the report buffer is shorter than 1,024 bytes")                                \
    answer(QC_BAD_LINE, 19, "a line is not in the form, or a number in it is past its range")                   \
    answer(QC_ROOM_SHORT, 20, "the buffer is shorter than what is to be written to it")                         \
    answer(QC_BAD_WEIGHT, 21, "a site's weight is 0")                                                           \
    answer(QC_UNEVEN_WEIGHT, 22, "a site's weight is not 1, so the first edition cannot have the list")

#define QC_ENTRY(name, number, text) name = number,
enum qc_answer { QC_ANSWERS(QC_ENTRY) QC_ANSWER_COUNT };
#undef QC_ENTRY

/* Command bytes. */
enum qc_command { QC_START = 1, QC_DELIVER = 2, QC_TIMEOUT = 3, QC_CRASH = 4, QC_RECOVER = 5 };

/* Kinds of rows. PREPARE, the JOINs and OUTCOME are commands; the others are replies to them. */
enum qc_kind {
    QC_PREPARE = 1,
    QC_VOTE = 2,
    QC_JOIN_COMMIT = 3,
    QC_JOIN_ABORT = 4,
    QC_IN_GROUP = 5,
    QC_OUTCOME = 6,
    QC_OUTCOME_ACK = 7
};

/* A site's state, and what one site knows of another, where QC_ACTIVE also stands for unknown. */
enum qc_code {
    QC_ACTIVE = 0,
    QC_PREPARED = 1,
    QC_COMMIT_GROUP = 2,
    QC_ABORT_GROUP = 3,
    QC_COMMITTED = 4,
    QC_ABORTED = 5
};

enum qc_role { QC_SUBORDINATE = 0, QC_COORDINATOR = 1 };

/* What a log's group record or outcome record says. */
enum qc_record { QC_NO_RECORD = 0, QC_COMMIT = 1, QC_ABORT = 2 };

#ifdef __cplusplus
extern "C" {
#endif

/* Play a whole list, to its end or the first command that is refused. A list that is a header alone gives a fresh world.
 * store:  may hold anything; gets the rows sent from its beginning, and is left as it was beyond the last row.
 * world:  may hold anything; gets the world at the end, or before the refused command. For 16, 1 to 5 and 21 it gets the world of zeros.
 * result: bytes 0 to 3 get the count of accepted events, bytes 4 to 7 the place: the list's length at its end, the refused command's
 *         byte at a stop. For 16, 1 to 5 and 21 both are 0.
 * Gives 0 if the list was played to its end; else 16, 17, 1 to 5 or 21 for its length or header, 6 to 15 for the command that stopped it. If world or
 * result has another length than it must, no buffer is touched. */
uint32_t qc_play_list(const uint8_t *list, size_t list_length,
                      uint8_t *store, size_t store_length,
                      uint8_t *world, size_t world_length,
                      uint8_t *result, size_t result_length);

/* Play one command: the one whose byte is list[at]. The header is not read, and a list may be longer than 32,768 bytes.
 * world:  the world before, as an earlier call left it (for a first world play a header alone with qc_play_list); gets the world after.
 * store:  as the earlier call left it; gets the row that the command sends, if any.
 * result: bytes 0 to 7 get the place after the command's operands, 64 bits: where the next command stands.
 * Gives 0 if accepted; else 16, 17, 6 to 15, or 17 for a delivery that would pass QC_NEWS, and no buffer is touched. */
uint32_t qc_play_command(uint8_t *world, size_t world_length,
                         uint8_t *store, size_t store_length,
                         const uint8_t *list, size_t list_length,
                         size_t at,
                         uint8_t *result, size_t result_length);

/* Write the report of a world as text: a line of sizes and counts, a line for each site, and `end PLACE`, or `refused NUMBER at PLACE` where number
 * is not 0. Lines end with a newline byte; there is no zero byte at the end.
 * events, number, place: what qc_play_list gave; events and place at most 32,768, number at most 22.
 * buffer: may hold anything; gets the text from its beginning, and is left as it was beyond it.
 * result: bytes 0 to 7 get the text's length, 64 bits (at most 941).
 * Gives 0 if written; else 17, then 18, and no buffer is touched. After 16, 1 to 5 and 21 of qc_play_list the world is that of zeros, and here 17. */
uint32_t qc_report(const uint8_t *world, size_t world_length,
                   size_t events, uint32_t number, size_t place,
                   uint8_t *buffer, size_t buffer_length,
                   uint8_t *result, size_t result_length);

/* Write a list of the first edition as lines (see LINES above). There is no zero byte at the end.
 * list:   any bytes.
 * buffer: may hold anything; gets the text from its beginning, and is left as it was beyond it. QC_TEXT_BYTES bytes are always enough.
 * result: QC_LINES_RESULT_BYTES bytes. 0 to 7 get the text's length, 64 bits; 8 to 15 the place, 64 bits: the list's length. Where the call is refused
 *         the length is 0, and the place is the command's byte for 6 and 7, else 0.
 * Gives 0 if written; else 17, and nothing is touched; or 1 to 7 for the list, 20 for the buffer, and the buffer is untouched. A list that ends
 * after a whole command is not 6. */
uint32_t qc_write_lines(const uint8_t *list, size_t list_length,
                        uint8_t *buffer, size_t buffer_length,
                        uint8_t *result, size_t result_length);

/* Read lines (see LINES above) as a list of the first edition.
 * text:   any bytes, of any length.
 * buffer: may hold anything; gets the list from its beginning, and is left as it was beyond it. QC_LIST_BYTES bytes are always enough.
 * result: QC_LINES_RESULT_BYTES bytes. 0 to 7 get the list's length, 64 bits; 8 to 15 the place, 64 bits: the text's length. Where the call is refused
 *         the length is 0, and the place is the first byte of the first bad line for 19 (0 in an empty text), else 0.
 * Gives 0 if read; else 17, and nothing is touched; or 19 for a line, 1 where the list would be longer than QC_LIST_BYTES, 3 to 5 for its header,
 * 20 for the buffer, and the buffer is untouched. */
uint32_t qc_read_lines(const uint8_t *text, size_t text_length,
                       uint8_t *buffer, size_t buffer_length,
                       uint8_t *result, size_t result_length);

/* Write the list of a quiet day: all sites are willing, none goes down, and nothing is lost, late or repeated. START and two TIMEOUTs make site 0 send
 * its commands, rows 0, n and 2 n. Each is delivered to all other sites, from site 1 up; after that their replies, the n - 1 rows after it, to site 0.
 * The list is of the first edition. Its commands, from QC_HEADER_BYTES on, depend on n alone: after a second-edition header in which all n sites are
 * willing they are the quiet day of sites with those weights.
 * n, commit, abort: the sizes n, C and A.
 * buffer: may hold anything; gets the list from its beginning, and is left as it was beyond it. The list has 10 + 24 (n - 1) bytes; QC_QUIET_BYTES
 *         bytes are always enough.
 * result: QC_LINES_RESULT_BYTES bytes. 0 to 7 get the list's length, 64 bits, or 0 where the call is refused; 8 to 15 the place, which is always 0 here.
 * Gives 0 if written; else 17 for the result, and nothing is touched; or 3 for n, 4 for C or A, 20 for the buffer, and the buffer is untouched. */
uint32_t qc_write_quiet(size_t n, size_t commit, size_t abort,
                        uint8_t *buffer, size_t buffer_length,
                        uint8_t *result, size_t result_length);

/* Turn a list of either edition into the other (see EDITIONS above).
 * list:   any bytes.
 * buffer: may hold anything; gets the list of the other edition from its beginning, and is left as it was beyond it. QC_LIST_BYTES bytes are always
 *         enough.
 * result: QC_LINES_RESULT_BYTES bytes. 0 to 7 get the length of the list written, 64 bits; 8 to 15 the place, 64 bits: the length of the list handed
 *         in. Where the call is refused both are 0.
 * Gives 0 if written; else 17, and nothing is touched; or 1 to 5 and 21 for the list's length and header, 22 for a weight that is not 1, 1 where the
 * list to be written would be longer than QC_LIST_BYTES, 20 for the buffer, and the buffer is untouched. */
uint32_t qc_convert(const uint8_t *list, size_t list_length,
                    uint8_t *buffer, size_t buffer_length,
                    uint8_t *result, size_t result_length);

/* Make one step of one site (see A CLUB'S OWN SERVER above).
 * terms:   QC_TERMS_BYTES bytes. 0 is QC_LAYOUT; 1 is n; 2 and 3 are C; 4 and 5 are A; 6 is this site's number; 7 is 1 if it is willing, else 0; 8 to 15
 *          are 0; 16 to 31 are the weights, 1 to 255 below n and 0 from n up.
 * site:    QC_SITE_BYTES bytes, as a site's in a world: the site before; gets the site after. A fresh one has 1 as its first byte and 0 elsewhere.
 * command: QC_START, QC_TIMEOUT, QC_CRASH or QC_RECOVER; or QC_DELIVER and then a row's QC_ROW_BYTES bytes. What follows it is not read.
 * row:     QC_ROW_BYTES bytes, may hold anything; gets the row that the step sends, or zeros where it sends none.
 * result:  QC_STEP_RESULT_BYTES bytes, may hold anything; gets the records that the step writes: byte 0 the prepare record, 1 or 0; byte 1 the group
 *          record and byte 2 the outcome record, enum qc_record. Byte 3 gets 0, bytes 4 to 7 the news: how many codes the site takes from a row, 32 bits.
 * Gives 0 if accepted; else 17 for terms and site, 6 or 7 for the command, 8 for this site's number, 10 or 11 for the row, 12 to 14, and no buffer is
 * touched. There is no 9, 15 or 16, and news has no limit here. */
uint32_t qc_step(const uint8_t *terms, size_t terms_length,
                 uint8_t *site, size_t site_length,
                 const uint8_t *command, size_t command_length,
                 uint8_t *row, size_t row_length,
                 uint8_t *result, size_t result_length);

#ifdef __cplusplus
}
#endif

#endif

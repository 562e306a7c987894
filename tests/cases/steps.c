/* Steps of a single site, every byte by hand: document 01's days as the sites see them, each rule in each state, and RECOVER as document 02 has it. */
#include <string.h>

#include "cases.h"

/* A step that is accepted: what is handed in, and all that it leaves. */
struct step_case {
    const char *name;
    uint8_t terms[QC_TERMS_BYTES], site[QC_SITE_BYTES];
    const uint8_t *command;
    size_t length;
    uint8_t after[QC_SITE_BYTES], row[QC_ROW_BYTES], result[QC_STEP_RESULT_BYTES];
};

/* Three sites that weigh 1, C = A = 2: the terms of one. */
#define TERMS(own, willing) {3, 3, 2, 0, 2, 0, own, willing, [16] = 1, 1, 1}
#define SITE0 TERMS(0, 1)
#define SITE1 TERMS(1, 1)
#define SITE2 TERMS(2, 1)

/* A log's three places, as the report has them. */
#define LOG___ 0, 0, 0
#define LOG_P__ 1, 0, 0
#define LOG_P_a 1, 0, 2
#define LOG_P_c 1, 0, 1
#define LOG___a 0, 0, 2
#define LOG_PC_ 1, 1, 0
#define LOG_PCc 1, 1, 1
#define LOG_PCa 1, 1, 2
#define LOG_PA_ 1, 2, 0
#define LOG_PAa 1, 2, 2
#define LOG__A_ 0, 2, 0
#define LOG__Aa 0, 2, 2

/* Up or down, subordinate or coordinator; its log; its three codes; and, of a member, those of its group record. */
#define UP_S 1, 0
#define UP_C 1, 1
#define DOWN_S 0, 0
#define DOWN_C 0, 1
#define SITE(stands, log, a, b, c) {stands, log, [8] = a, b, c}
#define MEMBER(stands, log, a, b, c, ga, gb, gc) {stands, log, [8] = a, b, c, [24] = ga, gb, gc}
#define FRESH SITE(UP_S, LOG___, 0, 0, 0)

#define GIVE(command) BYTES(command)
#define DELIVER(kind, sender, destinations, a, b, c) \
    BYTES(QC_DELIVER, kind, sender, NUMBER16(destinations), a, b, c, 0, 0, 0, 0, 0, 0, 0, 0, 0, 0, 0, 0, 0)
#define ROW(kind, sender, destinations, a, b, c) {kind, sender, NUMBER16(destinations), a, b, c}
#define NO_ROW {0}

/* What is written, and how many entries rise. */
#define NOTHING(news) {0, 0, 0, 0, news}
#define WROTE_P(news) {1, 0, 0, 0, news}
#define WROTE_C(news) {0, 1, 0, 0, news}
#define WROTE_A(news) {0, 2, 0, 0, news}
#define WROTE_c(news) {0, 0, 1, 0, news}
#define WROTE_a(news) {0, 0, 2, 0, news}

/* M2 to M7, each event at its site. */
static const struct step_case days[] = {
    {"step M2: START", SITE0, FRESH, GIVE(QC_START), SITE(UP_C, LOG_P__, 1, 0, 0), ROW(QC_PREPARE, 0, 6, 1, 0, 0), WROTE_P(0)},
    {"step M3: row 0 to site 1", SITE1, FRESH, DELIVER(QC_PREPARE, 0, 6, 1, 0, 0), SITE(UP_S, LOG_P__, 1, 1, 0), ROW(QC_VOTE, 1, 1, 1, 1, 0),
     WROTE_P(1)},
    {"step M3: row 1 to site 0", SITE0, SITE(UP_C, LOG_P__, 1, 0, 0), DELIVER(QC_VOTE, 1, 1, 1, 1, 0), SITE(UP_C, LOG_P__, 1, 1, 0), NO_ROW,
     NOTHING(1)},
    {"step M3: TIMEOUT 0", SITE0, SITE(UP_C, LOG_P__, 1, 1, 0), GIVE(QC_TIMEOUT), MEMBER(UP_C, LOG_PA_, 3, 1, 0, 3, 1, 0),
     ROW(QC_JOIN_ABORT, 0, 6, 3, 1, 0), WROTE_A(0)},
    {"step M3: row 2 to site 2", SITE2, FRESH, DELIVER(QC_JOIN_ABORT, 0, 6, 3, 1, 0), MEMBER(UP_S, LOG__A_, 3, 1, 3, 3, 1, 3),
     ROW(QC_IN_GROUP, 2, 1, 3, 1, 3), WROTE_A(2)},
    {"step M3: row 3 to site 0", SITE0, MEMBER(UP_C, LOG_PA_, 3, 1, 0, 3, 1, 0), DELIVER(QC_IN_GROUP, 2, 1, 3, 1, 3),
     MEMBER(UP_C, LOG_PA_, 3, 1, 3, 3, 1, 0), NO_ROW, NOTHING(1)},
    {"step M3: TIMEOUT 0 again", SITE0, MEMBER(UP_C, LOG_PA_, 3, 1, 3, 3, 1, 0), GIVE(QC_TIMEOUT), MEMBER(UP_C, LOG_PAa, 5, 1, 3, 3, 1, 0),
     ROW(QC_OUTCOME, 0, 6, 5, 1, 3), WROTE_a(0)},
    {"step M4: row 0 to site 1, unwilling", TERMS(1, 0), FRESH, DELIVER(QC_PREPARE, 0, 6, 1, 0, 0), SITE(UP_S, LOG___a, 1, 5, 0),
     ROW(QC_VOTE, 1, 1, 1, 5, 0), WROTE_a(1)},
    {"step M4: row 1 to site 0", SITE0, SITE(UP_C, LOG_P__, 1, 0, 0), DELIVER(QC_VOTE, 1, 1, 1, 5, 0), SITE(UP_C, LOG_P_a, 5, 5, 0), NO_ROW,
     WROTE_a(1)},
    {"step M5: CRASH 0", SITE0, SITE(UP_C, LOG_P__, 1, 0, 0), GIVE(QC_CRASH), SITE(DOWN_S, LOG_P__, 1, 0, 0), NO_ROW, NOTHING(0)},
    {"step M5: RECOVER 0", SITE0, SITE(DOWN_S, LOG_P__, 1, 0, 0), GIVE(QC_RECOVER), SITE(UP_S, LOG_P__, 1, 0, 0), NO_ROW, NOTHING(0)},
    {"step M5: TIMEOUT 0", SITE0, SITE(UP_S, LOG_P__, 1, 0, 0), GIVE(QC_TIMEOUT), SITE(UP_C, LOG_P__, 1, 0, 0), ROW(QC_PREPARE, 0, 6, 1, 0, 0),
     NOTHING(0)},
    {"step M6: row 0 to site 1 again", SITE1, SITE(UP_S, LOG_P__, 1, 1, 0), DELIVER(QC_PREPARE, 0, 6, 1, 0, 0), SITE(UP_S, LOG_P__, 1, 1, 0),
     ROW(QC_VOTE, 1, 1, 1, 1, 0), NOTHING(0)},
    {"step M7: TIMEOUT 2 at once", SITE2, FRESH, GIVE(QC_TIMEOUT), SITE(UP_S, LOG___a, 0, 0, 5), NO_ROW, WROTE_a(0)},
};

static const struct step_case starts_and_timeouts[] = {
    {"step START, unwilling", TERMS(0, 0), FRESH, GIVE(QC_START), SITE(UP_C, LOG___a, 5, 0, 0), ROW(QC_OUTCOME, 0, 6, 5, 0, 0), WROTE_a(0)},
    {"step START, told of a site already", SITE0, SITE(UP_S, LOG___, 0, 0, 1), GIVE(QC_START), SITE(UP_C, LOG_P__, 1, 0, 1),
     ROW(QC_PREPARE, 0, 6, 1, 0, 1), WROTE_P(0)},
    {"step TIMEOUT active, a coordinator", SITE0, SITE(UP_C, LOG___, 0, 1, 0), GIVE(QC_TIMEOUT), SITE(UP_C, LOG___a, 5, 1, 0), NO_ROW, WROTE_a(0)},
    {"step TIMEOUT active, unwilling", TERMS(1, 0), FRESH, GIVE(QC_TIMEOUT), SITE(UP_S, LOG___a, 0, 5, 0), NO_ROW, WROTE_a(0)},
    {"step TIMEOUT subordinate, prepared, all prepared", SITE1, SITE(UP_S, LOG_P__, 1, 1, 1), GIVE(QC_TIMEOUT), SITE(UP_C, LOG_P__, 1, 1, 1),
     ROW(QC_PREPARE, 1, 5, 1, 1, 1), NOTHING(0)},
    {"step TIMEOUT subordinate, commit group with its quorum", SITE1, MEMBER(UP_S, LOG_PC_, 2, 2, 1, 2, 2, 1), GIVE(QC_TIMEOUT),
     MEMBER(UP_C, LOG_PC_, 2, 2, 1, 2, 2, 1), ROW(QC_JOIN_COMMIT, 1, 5, 2, 2, 1), NOTHING(0)},
    {"step TIMEOUT subordinate, abort group", SITE2, MEMBER(UP_S, LOG__A_, 3, 1, 3, 3, 1, 3), GIVE(QC_TIMEOUT),
     MEMBER(UP_C, LOG__A_, 3, 1, 3, 3, 1, 3),
     ROW(QC_JOIN_ABORT, 2, 3, 3, 1, 3), NOTHING(0)},
    {"step TIMEOUT subordinate, committed", SITE1, SITE(UP_S, LOG_P_c, 4, 4, 0), GIVE(QC_TIMEOUT), SITE(UP_C, LOG_P_c, 4, 4, 0),
     ROW(QC_OUTCOME, 1, 5, 4, 4, 0), NOTHING(0)},
    {"step TIMEOUT all prepared", SITE0, SITE(UP_C, LOG_P__, 1, 1, 1), GIVE(QC_TIMEOUT), MEMBER(UP_C, LOG_PC_, 2, 1, 1, 2, 1, 1),
     ROW(QC_JOIN_COMMIT, 0, 6, 2, 1, 1), WROTE_C(0)},
    {"step TIMEOUT prepared, one in the commit group", SITE2, SITE(UP_C, LOG_P__, 0, 2, 1), GIVE(QC_TIMEOUT), MEMBER(UP_C, LOG_PC_, 0, 2, 2, 0, 2, 2),
     ROW(QC_JOIN_COMMIT, 2, 3, 0, 2, 2), WROTE_C(0)},
    {"step TIMEOUT prepared, one in the abort group", SITE2, SITE(UP_C, LOG_P__, 1, 3, 1), GIVE(QC_TIMEOUT), MEMBER(UP_C, LOG_PA_, 1, 3, 3, 1, 3, 3),
     ROW(QC_JOIN_ABORT, 2, 3, 1, 3, 3), WROTE_A(0)},
    {"step TIMEOUT commit group of 2", SITE0, MEMBER(UP_C, LOG_PC_, 2, 1, 2, 2, 1, 1), GIVE(QC_TIMEOUT), MEMBER(UP_C, LOG_PCc, 4, 1, 2, 2, 1, 1),
     ROW(QC_OUTCOME, 0, 6, 4, 1, 2), WROTE_c(0)},
    {"step TIMEOUT commit group of 1", SITE0, MEMBER(UP_C, LOG_PC_, 2, 1, 1, 2, 1, 1), GIVE(QC_TIMEOUT), MEMBER(UP_C, LOG_PC_, 2, 1, 1, 2, 1, 1),
     ROW(QC_JOIN_COMMIT, 0, 6, 2, 1, 1), NOTHING(0)},
    {"step TIMEOUT abort group of 1", SITE2, MEMBER(UP_C, LOG_PA_, 1, 1, 3, 1, 1, 3), GIVE(QC_TIMEOUT), MEMBER(UP_C, LOG_PA_, 1, 1, 3, 1, 1, 3),
     ROW(QC_JOIN_ABORT, 2, 3, 1, 1, 3), NOTHING(0)},
    {"step TIMEOUT aborted", SITE2, MEMBER(UP_C, LOG_PAa, 3, 1, 5, 3, 1, 3), GIVE(QC_TIMEOUT), MEMBER(UP_C, LOG_PAa, 3, 1, 5, 3, 1, 3),
     ROW(QC_OUTCOME, 2, 3, 3, 1, 5), NOTHING(0)},
};

/* Weights of 3, 2 and 2, C = A = 4: the terms of site 0 and of site 2. And site 15 of sixteen that weigh 255. */
#define HEAVY {3, 3, 4, 0, 4, 0, 0, 1, [16] = 3, 2, 2}
#define LIGHT {3, 3, 4, 0, 4, 0, 2, 1, [16] = 3, 2, 2}
#define SIXTEEN {3, 16, 0xf1, 14, 0xf1, 14, 15, 1, [16] = 255, 255, 255, 255, 255, 255, 255, 255, 255, 255, 255, 255, 255, 255, 255, 255}

static const struct step_case weights[] = {
    {"step TIMEOUT 3 of 4", HEAVY, MEMBER(UP_C, LOG_PC_, 2, 1, 1, 2, 1, 1), GIVE(QC_TIMEOUT), MEMBER(UP_C, LOG_PC_, 2, 1, 1, 2, 1, 1),
     ROW(QC_JOIN_COMMIT, 0, 6, 2, 1, 1), NOTHING(0)},
    {"step TIMEOUT 5 of 4", HEAVY, MEMBER(UP_C, LOG_PC_, 2, 1, 2, 2, 1, 1), GIVE(QC_TIMEOUT), MEMBER(UP_C, LOG_PCc, 4, 1, 2, 2, 1, 1),
     ROW(QC_OUTCOME, 0, 6, 4, 1, 2), WROTE_c(0)},
    {"step TIMEOUT 4 of 4 for abort", LIGHT, MEMBER(UP_C, LOG__A_, 1, 3, 3, 1, 0, 3), GIVE(QC_TIMEOUT), MEMBER(UP_C, LOG__Aa, 1, 3, 5, 1, 0, 3),
     ROW(QC_OUTCOME, 2, 3, 1, 3, 5), WROTE_a(0)},
    {"step TIMEOUT 2 of 4 for abort", LIGHT, MEMBER(UP_C, LOG__A_, 2, 2, 3, 1, 0, 3), GIVE(QC_TIMEOUT), MEMBER(UP_C, LOG__A_, 2, 2, 3, 1, 0, 3),
     ROW(QC_JOIN_ABORT, 2, 3, 2, 2, 3), NOTHING(0)},
    {"step of site 15 of sixteen", SIXTEEN, FRESH, BYTES(QC_DELIVER, QC_PREPARE, 14, 0, 0xbf, 1, 1, 1, 1, 1, 1, 1, 1, 1, 1, 1, 1, 1, 1, 1, 5),
     {UP_S, LOG_P__, [8] = 1, 1, 1, 1, 1, 1, 1, 1, 1, 1, 1, 1, 1, 1, 1, 1},
     {QC_VOTE, 15, 0, 0x40, 1, 1, 1, 1, 1, 1, 1, 1, 1, 1, 1, 1, 1, 1, 1, 1}, WROTE_P(15)},
    {"step of site 15 of sixteen that leads", SIXTEEN, {UP_S, LOG_P__, [23] = 1}, GIVE(QC_TIMEOUT), {UP_C, LOG_P__, [23] = 1},
     {QC_PREPARE, 15, 0xff, 0x7f, [19] = 1}, NOTHING(0)},
};

/* Merging, and what is taken from whom: a higher level from anyone, nothing of its own, nothing from n up. */
static const struct step_case merges[] = {
    {"step DELIVER of two entries", SITE1, SITE(UP_S, LOG_P__, 1, 1, 0), DELIVER(QC_VOTE, 2, 2, 2, 0, 1), SITE(UP_S, LOG_P__, 2, 1, 1), NO_ROW,
     NOTHING(2)},
    {"step DELIVER of the same level", SITE1, SITE(UP_S, LOG_P__, 2, 1, 3), DELIVER(QC_VOTE, 2, 2, 3, 0, 2), SITE(UP_S, LOG_P__, 2, 1, 3), NO_ROW,
     NOTHING(0)},
    {"step DELIVER of a lower level", SITE1, SITE(UP_S, LOG_P__, 2, 1, 3), DELIVER(QC_VOTE, 2, 2, 1, 0, 0), SITE(UP_S, LOG_P__, 2, 1, 3), NO_ROW,
     NOTHING(0)},
    {"step DELIVER of its own entry", SITE1, SITE(UP_S, LOG_P__, 1, 1, 0), DELIVER(QC_VOTE, 2, 2, 1, 5, 0), SITE(UP_S, LOG_P__, 1, 1, 0), NO_ROW,
     NOTHING(0)},
    {"step DELIVER of entries from n up", SITE1, SITE(UP_S, LOG_P__, 1, 1, 0),
     BYTES(QC_DELIVER, QC_PREPARE, 0, 2, 0, 1, 0, 0, 5, 255, 7, 7, 7, 7, 7, 7, 7, 7, 7, 7, 7), SITE(UP_S, LOG_P__, 1, 1, 0), ROW(QC_VOTE, 1, 1, 1, 1, 0),
     NOTHING(0)},
    {"step DELIVER from itself", SITE1, SITE(UP_S, LOG_P__, 1, 1, 0), DELIVER(QC_PREPARE, 1, 7, 1, 0, 1), SITE(UP_S, LOG_P__, 1, 1, 1),
     ROW(QC_VOTE, 1, 2, 1, 1, 1), NOTHING(1)},
    {"step DELIVER of two outcomes, the lowest site's", SITE1, SITE(UP_S, LOG_P__, 1, 1, 1), DELIVER(QC_VOTE, 2, 2, 5, 0, 4),
     SITE(UP_S, LOG_P_a, 5, 5, 4),
     NO_ROW, WROTE_a(2)},
    {"step DELIVER of an outcome held already", SITE1, SITE(UP_S, LOG_P__, 1, 1, 4), DELIVER(QC_IN_GROUP, 0, 2, 1, 0, 0),
     SITE(UP_S, LOG_P_c, 1, 4, 4), NO_ROW,
     WROTE_c(0)},
    {"step DELIVER of another outcome than its own", SITE1, SITE(UP_S, LOG_P_a, 1, 5, 1), DELIVER(QC_OUTCOME, 0, 6, 4, 0, 0),
     SITE(UP_S, LOG_P_a, 4, 5, 1),
     ROW(QC_OUTCOME_ACK, 1, 1, 4, 5, 1), NOTHING(1)},
};

/* Each kind in each state. */
static const struct step_case kinds[] = {
    {"step PREPARE in the commit group", SITE1, MEMBER(UP_S, LOG_PC_, 2, 2, 1, 2, 2, 1), DELIVER(QC_PREPARE, 2, 3, 1, 0, 1),
     MEMBER(UP_S, LOG_PC_, 2, 2, 1, 2, 2, 1), ROW(QC_VOTE, 1, 4, 2, 2, 1), NOTHING(0)},
    {"step PREPARE with an outcome in it, active", SITE1, FRESH, DELIVER(QC_PREPARE, 2, 3, 5, 0, 1), SITE(UP_S, LOG___a, 5, 5, 1),
     ROW(QC_VOTE, 1, 4, 5, 5, 1), WROTE_a(2)},
    {"step JOIN COMMIT, active", SITE1, FRESH, DELIVER(QC_JOIN_COMMIT, 0, 6, 2, 1, 1), SITE(UP_S, LOG___, 2, 0, 1), ROW(QC_IN_GROUP, 1, 1, 2, 0, 1),
     NOTHING(2)},
    {"step JOIN COMMIT, prepared", SITE1, SITE(UP_S, LOG_P__, 1, 1, 0), DELIVER(QC_JOIN_COMMIT, 0, 6, 2, 1, 1),
     MEMBER(UP_S, LOG_PC_, 2, 2, 1, 2, 2, 1),
     ROW(QC_IN_GROUP, 1, 1, 2, 2, 1), WROTE_C(2)},
    {"step JOIN COMMIT, prepared coordinator", SITE2, SITE(UP_C, LOG_P__, 1, 0, 1), DELIVER(QC_JOIN_COMMIT, 0, 6, 2, 1, 1),
     MEMBER(UP_C, LOG_PC_, 2, 1, 2, 2, 1, 2), ROW(QC_IN_GROUP, 2, 1, 2, 1, 2), WROTE_C(2)},
    {"step JOIN COMMIT, commit group", SITE1, MEMBER(UP_S, LOG_PC_, 2, 2, 1, 2, 2, 1), DELIVER(QC_JOIN_COMMIT, 0, 6, 2, 1, 2),
     MEMBER(UP_S, LOG_PC_, 2, 2, 2, 2, 2, 1), ROW(QC_IN_GROUP, 1, 1, 2, 2, 2), NOTHING(1)},
    {"step JOIN COMMIT, abort group", SITE1, MEMBER(UP_S, LOG_PA_, 0, 3, 3, 0, 3, 3), DELIVER(QC_JOIN_COMMIT, 0, 6, 2, 1, 1),
     MEMBER(UP_S, LOG_PA_, 2, 3, 3, 0, 3, 3), ROW(QC_IN_GROUP, 1, 1, 2, 3, 3), NOTHING(1)},
    {"step JOIN ABORT, active and unwilling", TERMS(1, 0), FRESH, DELIVER(QC_JOIN_ABORT, 2, 3, 0, 0, 3), MEMBER(UP_S, LOG__A_, 0, 3, 3, 0, 3, 3),
     ROW(QC_IN_GROUP, 1, 4, 0, 3, 3), WROTE_A(1)},
    {"step JOIN ABORT, prepared", SITE1, SITE(UP_S, LOG_P__, 1, 1, 0), DELIVER(QC_JOIN_ABORT, 0, 6, 3, 0, 1), MEMBER(UP_S, LOG_PA_, 3, 3, 1, 3, 3, 1),
     ROW(QC_IN_GROUP, 1, 1, 3, 3, 1), WROTE_A(2)},
    {"step JOIN ABORT, commit group", SITE1, MEMBER(UP_S, LOG_PC_, 2, 2, 1, 2, 2, 1), DELIVER(QC_JOIN_ABORT, 2, 3, 1, 0, 3),
     MEMBER(UP_S, LOG_PC_, 2, 2, 3, 2, 2, 1), ROW(QC_IN_GROUP, 1, 4, 2, 2, 3), NOTHING(1)},
    {"step JOIN ABORT with an outcome in it", SITE1, SITE(UP_S, LOG_P__, 1, 1, 0), DELIVER(QC_JOIN_ABORT, 2, 3, 4, 0, 3),
     SITE(UP_S, LOG_P_c, 4, 4, 3),
     ROW(QC_IN_GROUP, 1, 4, 4, 4, 3), WROTE_c(2)},
    {"step OUTCOME, active", SITE1, FRESH, DELIVER(QC_OUTCOME, 0, 6, 5, 0, 0), SITE(UP_S, LOG___a, 5, 5, 0), ROW(QC_OUTCOME_ACK, 1, 1, 5, 5, 0),
     WROTE_a(1)},
    {"step OUTCOME, commit group, and it aborts", SITE1, MEMBER(UP_S, LOG_PC_, 2, 2, 1, 2, 2, 1), DELIVER(QC_OUTCOME, 2, 3, 1, 0, 5),
     MEMBER(UP_S, LOG_PCa, 2, 5, 5, 2, 2, 1), ROW(QC_OUTCOME_ACK, 1, 4, 2, 5, 5), WROTE_a(1)},
    {"step OUTCOME without an outcome in it", SITE1, SITE(UP_S, LOG_P__, 1, 1, 0), DELIVER(QC_OUTCOME, 0, 6, 1, 0, 0), SITE(UP_S, LOG_P__, 1, 1, 0),
     ROW(QC_OUTCOME_ACK, 1, 1, 1, 1, 0), NOTHING(0)},
    {"step VOTE at a coordinator", SITE0, SITE(UP_C, LOG_P__, 1, 1, 0), DELIVER(QC_VOTE, 2, 1, 1, 0, 1), SITE(UP_C, LOG_P__, 1, 1, 1), NO_ROW,
     NOTHING(1)},
    {"step OUTCOME ACK", SITE0, SITE(UP_C, LOG_P_c, 4, 1, 1), DELIVER(QC_OUTCOME_ACK, 1, 1, 4, 4, 1), SITE(UP_C, LOG_P_c, 4, 4, 1), NO_ROW,
     NOTHING(1)},
};

/* CRASH forgets all but the log. RECOVER with an empty log writes abort, whatever else the site knows. */
static const struct step_case restarts[] = {
    {"step CRASH of a fresh site", SITE1, FRESH, GIVE(QC_CRASH), SITE(DOWN_S, LOG___, 0, 0, 0), NO_ROW, NOTHING(0)},
    {"step CRASH, active and told of all", SITE1, SITE(UP_C, LOG___, 2, 0, 1), GIVE(QC_CRASH), SITE(DOWN_S, LOG___, 0, 0, 0), NO_ROW, NOTHING(0)},
    {"step CRASH, prepared", SITE1, SITE(UP_C, LOG_P__, 1, 1, 1), GIVE(QC_CRASH), SITE(DOWN_S, LOG_P__, 0, 1, 0), NO_ROW, NOTHING(0)},
    {"step CRASH, commit group", SITE1, MEMBER(UP_C, LOG_PC_, 2, 2, 2, 1, 2, 1), GIVE(QC_CRASH), MEMBER(DOWN_S, LOG_PC_, 1, 2, 1, 1, 2, 1), NO_ROW,
     NOTHING(0)},
    {"step CRASH, abort group and aborted", SITE2, MEMBER(UP_C, LOG__Aa, 5, 5, 5, 3, 1, 3), GIVE(QC_CRASH),
     MEMBER(DOWN_S, LOG__Aa, 3, 1, 5, 3, 1, 3), NO_ROW,
     NOTHING(0)},
    {"step CRASH, committed", SITE0, SITE(UP_C, LOG_P_c, 4, 4, 4), GIVE(QC_CRASH), SITE(DOWN_S, LOG_P_c, 4, 0, 0), NO_ROW, NOTHING(0)},
    {"step RECOVER with an empty log", SITE1, SITE(DOWN_S, LOG___, 0, 0, 0), GIVE(QC_RECOVER), SITE(UP_S, LOG___a, 0, 5, 0), NO_ROW, WROTE_a(0)},
    {"step RECOVER with an empty log, a coordinator", SITE1, SITE(DOWN_C, LOG___, 1, 0, 4), GIVE(QC_RECOVER), SITE(UP_S, LOG___a, 1, 5, 4), NO_ROW,
     WROTE_a(0)},
    {"step RECOVER prepared, a coordinator", SITE1, SITE(DOWN_C, LOG_P__, 1, 1, 4), GIVE(QC_RECOVER), SITE(UP_C, LOG_P__, 1, 1, 4), NO_ROW,
     NOTHING(0)},
    {"step RECOVER, abort group", SITE2, MEMBER(DOWN_S, LOG__A_, 3, 1, 3, 3, 1, 3), GIVE(QC_RECOVER), MEMBER(UP_S, LOG__A_, 3, 1, 3, 3, 1, 3),
     NO_ROW, NOTHING(0)},
    {"step RECOVER, aborted", SITE2, SITE(DOWN_S, LOG___a, 0, 0, 5), GIVE(QC_RECOVER), SITE(UP_S, LOG___a, 0, 0, 5), NO_ROW, NOTHING(0)},
};

static void expect_bytes(const char *what, const uint8_t *got, const uint8_t *wanted, size_t length)
{
    size_t at = 0;
    while (at < length && got[at] == wanted[at])
        at++;
    expect(what, at, length);
}

/* Row and result are filled before, so that all of them must be written. */
static void make_step(const struct step_case *one)
{
    uint8_t site[QC_SITE_BYTES], row[QC_ROW_BYTES], result[QC_STEP_RESULT_BYTES];
    begin(one->name);
    memcpy(site, one->site, sizeof site);
    memset(row, 0xee, sizeof row);
    memset(result, 0xee, sizeof result);
    expect("number", qc_step(one->terms, sizeof one->terms, site, sizeof site, one->command, one->length, row, sizeof row, result, sizeof result), 0);
    expect_bytes("first wrong byte of the site", site, one->after, sizeof site);
    expect_bytes("first wrong byte of the row", row, one->row, sizeof row);
    expect_bytes("first wrong byte of the result", result, one->result, sizeof result);
}

static void make_steps(const struct step_case *table, size_t count)
{
    size_t i;
    for (i = 0; i < count; i++)
        make_step(&table[i]);
}

void step_cases(void)
{
    make_steps(days, COUNT(days));
    make_steps(starts_and_timeouts, COUNT(starts_and_timeouts));
    make_steps(weights, COUNT(weights));
    make_steps(merges, COUNT(merges));
    make_steps(kinds, COUNT(kinds));
    make_steps(restarts, COUNT(restarts));
}

/* Quorums are weights: days on which a group weighs just enough or one too little, or is many and light or few and heavy, each as a list and as single
 * calls. What a TIMEOUT weighs in a world that is handed in is in timeouts.c. */
#include <string.h>

#include "weights.h"

enum { LONGEST_DAY = 512 };

/* A day in the second edition, all willing. The host, site 0, joins a group, and so do these sites; then the host times out: do they weigh enough? */
struct day {
    const char *name;
    unsigned n, commit, abort;
    uint8_t weights[QC_SITES];
    unsigned group; /* bit i for site i; the host is always in */
    int reached;
};

#define ALL_255 {SIXTEEN(255)}
#define RISING {1, 2, 3, 4, 5, 6, 7, 8, 9, 10, 11, 12, 13, 14, 15, 16}

static const struct day commits[] = {
    {"commit: two of five, 6 of 6", 5, 6, 6, {5, 3, 1, 1, 1}, 0x11, 1},
    {"commit: the heaviest alone, 5 of 6", 5, 6, 6, {5, 3, 1, 1, 1}, 0x01, 0},
    {"commit: two heavy of five, 8 of 6", 5, 6, 6, {5, 3, 1, 1, 1}, 0x03, 1},
    {"commit: all five, 11 of 6", 5, 6, 6, {5, 3, 1, 1, 1}, 0x1f, 1},
    {"commit: three light of five, 3 of 6", 5, 6, 6, {1, 1, 1, 3, 5}, 0x07, 0},
    {"commit: three of five, 5 of 6", 5, 6, 6, {1, 1, 1, 3, 5}, 0x0b, 0},
    {"commit: all but the heaviest, 6 of 6", 5, 6, 6, {1, 1, 1, 3, 5}, 0x0f, 1},
    {"commit: a light and the heaviest, 6 of 6", 5, 6, 6, {1, 1, 1, 3, 5}, 0x11, 1},
    {"commit: C 60, 50", 4, 60, 41, {10, 20, 30, 40}, 0x9, 0},
    {"commit: C 60, 60", 4, 60, 41, {10, 20, 30, 40}, 0x7, 1},
    {"commit: C 60, 70", 4, 60, 41, {10, 20, 30, 40}, 0xb, 1},
    {"commit: C 41, 40", 4, 41, 60, {10, 20, 30, 40}, 0x5, 0},
    {"commit: C 41, 50", 4, 41, 60, {10, 20, 30, 40}, 0x9, 1},
    {"commit: C 256, 255", 3, 256, 256, {255, 255, 1}, 0x1, 0},
    {"commit: C 256, 256", 3, 256, 256, {255, 255, 1}, 0x5, 1},
    {"commit: C 256, 510", 3, 256, 256, {255, 255, 1}, 0x3, 1},
    {"commit: C 256 is not 0, 200", 3, 256, 345, {200, 200, 200}, 0x1, 0},
    {"commit: C 400, 200", 3, 400, 201, {200, 200, 200}, 0x1, 0},
    {"commit: C 400, 400", 3, 400, 201, {200, 200, 200}, 0x5, 1},
    {"commit: fourteen of 255, C 3,825", 16, 3825, 256, ALL_255, 0x3fff, 0},
    {"commit: fifteen of 255, C 3,825", 16, 3825, 256, ALL_255, 0x7fff, 1},
    {"commit: sixteen of 255, C 3,825", 16, 3825, 256, ALL_255, 0xffff, 1},
    {"commit: one of 255, C 256", 16, 256, 3825, ALL_255, 0x0001, 0},
    {"commit: two of 255, C 256", 16, 256, 3825, ALL_255, 0x8001, 1},
    {"commit: 1 to 16 without 16, 120 of 120", 16, 120, 17, RISING, 0x7fff, 1},
    {"commit: 1 to 16 without 16 and 2, 118 of 120", 16, 120, 17, RISING, 0x7ffd, 0},
    {"commit: 1 to 16 without 15 and 2, 119 of 120", 16, 120, 17, RISING, 0xbffd, 0},
    {"commit: 1 to 16 without 14 and 2, 120 of 120", 16, 120, 17, RISING, 0xdffd, 1},
    {"commit: two of five that weigh 1, C 3", 5, 3, 3, {1, 1, 1, 1, 1}, 0x03, 0},
    {"commit: three of five that weigh 1, C 3", 5, 3, 3, {1, 1, 1, 1, 1}, 0x13, 1},
};

static const struct day aborts[] = {
    {"abort: two of five, 6 of 6", 5, 6, 6, {5, 3, 1, 1, 1}, 0x11, 1},
    {"abort: the heaviest alone, 5 of 6", 5, 6, 6, {5, 3, 1, 1, 1}, 0x01, 0},
    {"abort: all five, 11 of 6", 5, 6, 6, {5, 3, 1, 1, 1}, 0x1f, 1},
    {"abort: three light of five, 3 of 6", 5, 6, 6, {1, 1, 1, 3, 5}, 0x07, 0},
    {"abort: three of five, 5 of 6", 5, 6, 6, {1, 1, 1, 3, 5}, 0x0b, 0},
    {"abort: all but the heaviest, 6 of 6", 5, 6, 6, {1, 1, 1, 3, 5}, 0x0f, 1},
    {"abort: a light and the heaviest, 6 of 6", 5, 6, 6, {1, 1, 1, 3, 5}, 0x11, 1},
    {"abort: A 41, 40", 4, 60, 41, {10, 20, 30, 40}, 0x5, 0},
    {"abort: A 41, 50", 4, 60, 41, {10, 20, 30, 40}, 0x9, 1},
    {"abort: A 60, 50", 4, 41, 60, {10, 20, 30, 40}, 0x9, 0},
    {"abort: A 60, 60", 4, 41, 60, {10, 20, 30, 40}, 0x7, 1},
    {"abort: A 256, 255", 3, 256, 256, {255, 255, 1}, 0x1, 0},
    {"abort: A 256, 256", 3, 256, 256, {255, 255, 1}, 0x5, 1},
    {"abort: A 256 is not 0, 200", 3, 345, 256, {200, 200, 200}, 0x1, 0},
    {"abort: A 400, 400", 3, 201, 400, {200, 200, 200}, 0x5, 1},
    {"abort: fourteen of 255, A 3,825", 16, 256, 3825, ALL_255, 0x3fff, 0},
    {"abort: fifteen of 255, A 3,825", 16, 256, 3825, ALL_255, 0x7fff, 1},
    {"abort: one of 255, A 256", 16, 3825, 256, ALL_255, 0x0001, 0},
    {"abort: two of 255, A 256", 16, 3825, 256, ALL_255, 0x8001, 1},
    {"abort: 1 and 16, 17 of 17", 16, 120, 17, RISING, 0x8001, 1},
    {"abort: 1 and 15, 16 of 17", 16, 120, 17, RISING, 0x4001, 0},
    {"abort: 1 to 5, 15 of 17", 16, 120, 17, RISING, 0x001f, 0},
    {"abort: 1, 2, 3, 4 and 7, 17 of 17", 16, 120, 17, RISING, 0x004f, 1},
    {"abort: two of five that weigh 1, A 3", 5, 3, 3, {1, 1, 1, 1, 1}, 0x03, 0},
    {"abort: three of five that weigh 1, A 3", 5, 3, 3, {1, 1, 1, 1, 1}, 0x13, 1},
};

/* A list being written. */
struct list {
    uint8_t bytes[LONGEST_DAY];
    size_t length;
    unsigned events;
};

static void put(struct list *list, const uint8_t *bytes, size_t count)
{
    memcpy(list->bytes + list->length, bytes, count);
    list->length += count;
}

static void put_header(struct list *list, const struct day *day)
{
    const uint8_t head[] = {SECOND((uint8_t)day->n, day->commit, day->abort, (1u << day->n) - 1)};
    list->length = 0;
    list->events = 0;
    put(list, head, sizeof head);
    put(list, day->weights, day->n);
}

static void put_start(struct list *list)
{
    const uint8_t command[] = {QC_START};
    put(list, command, sizeof command);
    list->events++;
}

static void put_host_timeout(struct list *list)
{
    const uint8_t command[] = {QC_TIMEOUT, 0};
    put(list, command, sizeof command);
    list->events++;
}

static void put_delivery(struct list *list, unsigned row, unsigned site)
{
    const uint8_t command[] = {QC_DELIVER, (uint8_t)row, 0, (uint8_t)site};
    put(list, command, sizeof command);
    list->events++;
}

/* The host's row goes to these sites, then each reply to the host. Gives the number of the row after them. */
static unsigned put_round(struct list *list, unsigned row, unsigned sites)
{
    unsigned site, reply, next = row + 1;
    for (site = 1; site < QC_SITES; site++)
        if (sites >> site & 1) {
            put_delivery(list, row, site);
            next++;
        }
    for (reply = row + 1; reply < next; reply++)
        put_delivery(list, reply, 0);
    return next;
}

/* All prepare, and the host joins the commit group: row n. */
static unsigned put_commit(struct list *list, const struct day *day)
{
    unsigned row;
    put_header(list, day);
    put_start(list);
    row = put_round(list, 0, (1u << day->n) - 1);
    put_host_timeout(list);
    row = put_round(list, row, day->group);
    put_host_timeout(list);
    return row;
}

/* None answers the prepare, and the host joins the abort group: row 1. */
static unsigned put_abort(struct list *list, const struct day *day)
{
    unsigned row;
    put_header(list, day);
    put_start(list);
    put_host_timeout(list);
    row = put_round(list, 1, day->group);
    put_host_timeout(list);
    return row;
}

/* The same commands one at a time, from the header's world: the same bytes. */
static void expect_same_by_calls(const struct list *list, size_t header)
{
    static uint8_t world[QC_WORLD_BYTES], store[QC_STORE_BYTES];
    uint8_t result[QC_RESULT_BYTES];
    size_t at = header;
    memset(store, listed_store()[QC_STORE_BYTES - 1], sizeof store);
    expect("number of the header", qc_play_list(list->bytes, header, store, sizeof store, world, sizeof world, result, sizeof result), 0);
    while (at < list->length) {
        expect("number of a call", qc_play_command(world, sizeof world, store, sizeof store, list->bytes, list->length, at, result, sizeof result), 0);
        at = (size_t)qc_result_next_place(result);
    }
    expect("another world by calls", memcmp(world, listed_world(), sizeof world) != 0, 0);
    expect("other rows by calls", memcmp(store, listed_store(), sizeof store) != 0, 0);
}

/* The world still has the list's weights. */
static void expect_weights(const uint8_t *weights)
{
    unsigned site;
    for (site = 0; site < QC_SITES; site++)
        expect("weight", qc_weight(listed_world(), site), weights[site]);
}

/* What the last row says, and the host's log. */
static void expect_end(const struct day *day, unsigned row, unsigned record, unsigned join)
{
    expect("rows", qc_row_count(listed_world()), row + 1);
    expect("the last row's kind", qc_row_kind(listed_store(), row), day->reached ? QC_OUTCOME : join);
    expect("the host's group", qc_log_group(listed_world(), 0), record);
    expect("the host's outcome", qc_log_outcome(listed_world(), 0), day->reached ? record : QC_NO_RECORD);
}

static void play_day(const struct day *day, unsigned record)
{
    static struct list list;
    const unsigned row = record == QC_COMMIT ? put_commit(&list, day) : put_abort(&list, day);
    const struct list_case whole = {day->name, list.bytes, list.length, QC_ACCEPTED, list.events, (unsigned)list.length};
    expect_list(&whole);
    expect_end(day, row, record, record == QC_COMMIT ? QC_JOIN_COMMIT : QC_JOIN_ABORT);
    expect_weights(day->weights);
    expect_same_by_calls(&list, QC_SECOND_HEADER_BYTES(day->n));
}

static void play_days(const struct day *table, size_t count, unsigned record)
{
    size_t i;
    for (i = 0; i < count; i++)
        play_day(&table[i], record);
}

/* No command changes a weight: START, DELIVER, CRASH, RECOVER and TIMEOUT. */
static const struct list_case every_command = {"weights stay", BYTES(SECOND(3, 4, 4, 7), 3, 2, 2, 1, 2, 0, 0, 1, 4, 1, 5, 1, 3, 1), 0, 5, 22};

static void weights_stay(void)
{
    static const uint8_t weights[QC_SITES] = {3, 2, 2};
    expect_list(&every_command);
    expect_weights(weights);
}

void weighing_cases(void)
{
    play_days(commits, COUNT(commits), QC_COMMIT);
    play_days(aborts, COUNT(aborts), QC_ABORT);
    weights_stay();
}

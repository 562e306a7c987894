/* The list of a quiet day: its bytes, and numbers 3, 4, 17 and 20. It is played in ../quiet_day.c. */
#include <stdint.h>

#include "lines.h"

/* Three sites, command by command: rows 0, 3 and 6 go out, and after each the two replies come back. */
static const uint8_t three[] = {
    3, 2, 2, 7, 0,
    1,                      /* START, row 0 */
    2, 0, 0, 1, 2, 0, 0, 2, /* to sites 1 and 2 */
    2, 1, 0, 0, 2, 2, 0, 0, /* rows 1 and 2 to site 0 */
    3, 0,                   /* TIMEOUT, row 3 */
    2, 3, 0, 1, 2, 3, 0, 2, /* to sites 1 and 2 */
    2, 4, 0, 0, 2, 5, 0, 0, /* rows 4 and 5 to site 0 */
    3, 0,                   /* TIMEOUT, row 6 */
    2, 6, 0, 1, 2, 6, 0, 2, /* to sites 1 and 2 */
    2, 7, 0, 0, 2, 8, 0, 0, /* rows 7 and 8 to site 0 */
};

struct sizes {
    const char *name;
    size_t n, commit, abort;
    unsigned answer;
};

static const struct sizes written[] = {
    {"quiet day of three", 3, 2, 2, QC_ACCEPTED},
    {"quiet day of 8, the last with one byte of willing", 8, 5, 4, QC_ACCEPTED},
    {"quiet day of 9, the first with two", 9, 5, 5, QC_ACCEPTED},
    {"3 quiet day of 16", 16, 9, 8, QC_ACCEPTED},
    {"4 quiet day, n 4, C 3, A 2", 4, 3, 2, QC_ACCEPTED},
    {"4 quiet day, n 4, C 2, A 3", 4, 2, 3, QC_ACCEPTED},
    {"4 quiet day, n 4, C 3, A 3", 4, 3, 3, QC_ACCEPTED},
    {"4 quiet day, n 16, C 15, A 2", 16, 15, 2, QC_ACCEPTED},
    {"4 quiet day, n 16, C 2, A 15", 16, 2, 15, QC_ACCEPTED},
    {"4 quiet day, n 16, C 15, A 15", 16, 15, 15, QC_ACCEPTED},
};

static const struct sizes refused[] = {
    {"3 quiet day, n 0", 0, 2, 2, QC_BAD_SITES},
    {"3 quiet day, n 1", 1, 2, 2, QC_BAD_SITES},
    {"3 quiet day, n 2", 2, 2, 2, QC_BAD_SITES},
    {"3 quiet day, n 17", 17, 9, 9, QC_BAD_SITES},
    {"3 quiet day, n 64", 64, 33, 32, QC_BAD_SITES},
    {"3 quiet day, n 130", 130, 66, 65, QC_BAD_SITES},
    {"3 quiet day, n 131", 131, 66, 66, QC_BAD_SITES},
    {"3 quiet day, n 132", 132, 67, 66, QC_BAD_SITES},
    {"3 quiet day, n 2^8 and 3", 259, 2, 2, QC_BAD_SITES},
    {"3 quiet day, n 2^16 and 3", 65539, 2, 2, QC_BAD_SITES},
    {"3 quiet day, n 2^32 and 3", 4294967299, 2, 2, QC_BAD_SITES},
    {"3 quiet day, the greatest n", SIZE_MAX, 2, 2, QC_BAD_SITES},
    {"3 before 4 of a quiet day, n, C and A 0", 0, 0, 0, QC_BAD_SITES},
    {"3 before 4 of a quiet day, n 2", 2, 9, 0, QC_BAD_SITES},
    {"3 before 4 of a quiet day, C + A of n", 2, 1, 1, QC_BAD_SITES},
    {"3 before 4 of a quiet day, n 17", 17, 17, 0, QC_BAD_SITES},
    {"4 quiet day, C equal to n", 4, 4, 3, QC_BAD_QUORUMS},
    {"4 quiet day, A equal to n", 4, 3, 4, QC_BAD_QUORUMS},
    {"4 quiet day, C + A of n", 4, 2, 2, QC_BAD_QUORUMS},
    {"4 quiet day, C 1, C + A of n", 4, 1, 3, QC_BAD_QUORUMS},
    {"4 quiet day, C 0", 4, 0, 3, QC_BAD_QUORUMS},
    {"4 quiet day, A 0", 4, 3, 0, QC_BAD_QUORUMS},
    {"4 quiet day, n 16, C 16", 16, 16, 15, QC_BAD_QUORUMS},
    {"4 quiet day, n 16, A 16", 16, 15, 16, QC_BAD_QUORUMS},
    {"4 quiet day, n 16, C + A of n", 16, 8, 8, QC_BAD_QUORUMS},
    {"4 quiet day, C 2^8 and 2", 3, 258, 2, QC_BAD_QUORUMS},
    {"4 quiet day, A 2^8 and 2", 3, 2, 258, QC_BAD_QUORUMS},
    {"4 quiet day, C 2^16 and 2", 3, 65538, 2, QC_BAD_QUORUMS},
    {"4 quiet day, A 2^16 and 2", 3, 2, 65538, QC_BAD_QUORUMS},
    {"4 quiet day, C 2^32 and 2", 3, 4294967298, 2, QC_BAD_QUORUMS},
    {"4 quiet day, A 2^32 and 2", 3, 2, 4294967298, QC_BAD_QUORUMS},
    {"4 quiet day, the greatest C", 3, SIZE_MAX, 2, QC_BAD_QUORUMS},
    {"4 quiet day, the greatest A", 3, 2, SIZE_MAX, QC_BAD_QUORUMS},
    {"4 quiet day, the greatest C and A", 3, SIZE_MAX, SIZE_MAX, QC_BAD_QUORUMS},
    {"4 quiet day, n 16, the greatest C and A", 16, SIZE_MAX, SIZE_MAX, QC_BAD_QUORUMS},
    {"4 quiet day, the greatest C, C + A comes round to n + 1", 3, SIZE_MAX, 5, QC_BAD_QUORUMS},
    {"4 quiet day, the greatest A, C + A comes round to n + 1", 3, 5, SIZE_MAX, QC_BAD_QUORUMS},
};

static void expect_quiet(const struct sizes *sizes, size_t room, unsigned answer, const uint8_t *list, size_t length)
{
    struct lent *lent = lend();
    unsigned got = qc_write_quiet(sizes->n, sizes->commit, sizes->abort, lent->buffer, room, lent->result, QC_LINES_RESULT_BYTES);
    expect_left(got, answer, 0, list, length);
}

/* Refused alike with much room and with none, since 20 comes last. */
static void refuse_quiet(const struct sizes *sizes)
{
    begin(sizes->name);
    expect_quiet(sizes, QC_TEXT_BYTES, sizes->answer, three, 0);
    expect_quiet(sizes, 0, sizes->answer, three, 0);
}

/* Written with much room and with just enough; 20 with a byte less and with none. */
static void accept_quiet(const struct sizes *sizes, const uint8_t *list, size_t length)
{
    expect("length of the day", length, 10 + 24 * (sizes->n - 1));
    expect_quiet(sizes, QC_TEXT_BYTES, sizes->answer, list, length);
    expect_quiet(sizes, length, sizes->answer, list, length);
    expect_quiet(sizes, length - 1, QC_ROOM_SHORT, list, 0);
    expect_quiet(sizes, 0, QC_ROOM_SHORT, list, 0);
}

static uint8_t *put_delivery(uint8_t *at, size_t row, size_t site)
{
    at[0] = QC_DELIVER;
    at[1] = (uint8_t)row;
    at[2] = 0;
    at[3] = (uint8_t)site;
    return at + 4;
}

/* Row `row` to the other sites. */
static uint8_t *put_command(uint8_t *at, size_t row, size_t n)
{
    size_t site;
    for (site = 1; site < n; site++)
        at = put_delivery(at, row, site);
    return at;
}

/* The rows after it, its replies, to site 0. */
static uint8_t *put_replies(uint8_t *at, size_t row, size_t n)
{
    size_t site;
    for (site = 1; site < n; site++)
        at = put_delivery(at, row + site, 0);
    return at;
}

/* The day as quorum.h tells it, and its length. No row of it passes 255. */
static size_t put_day(uint8_t *list, const struct sizes *sizes)
{
    size_t round;
    uint8_t *at = list + QC_HEADER_BYTES;
    list[0] = (uint8_t)sizes->n;
    list[1] = (uint8_t)sizes->commit;
    list[2] = (uint8_t)sizes->abort;
    list[3] = (uint8_t)(sizes->n < 8 ? (1u << sizes->n) - 1 : 255);
    list[4] = (uint8_t)(sizes->n < 8 ? 0 : (1u << (sizes->n - 8)) - 1);
    for (round = 0; round < 3; round++) {
        *at++ = round == 0 ? QC_START : QC_TIMEOUT;
        if (round > 0)
            *at++ = 0;
        at = put_command(at, round * sizes->n, sizes->n);
        at = put_replies(at, round * sizes->n, sizes->n);
    }
    return (size_t)(at - list);
}

/* 17 comes before 3 and 20, and nothing is touched. */
static void results(size_t n, size_t room)
{
    size_t i;
    for (i = 0; i < BAD_RESULTS; i++) {
        struct lent *lent = lend();
        begin(bad_results[i].name);
        expect("number", qc_write_quiet(n, 2, 2, lent->buffer, room, lent->result, bad_results[i].length), QC_BAD_WORLD);
        expect_untouched();
    }
}

static void write_all(void)
{
    static uint8_t list[QC_QUIET_BYTES];
    size_t i;
    for (i = 0; i < COUNT(written); i++) {
        begin(written[i].name);
        accept_quiet(&written[i], list, put_day(list, &written[i]));
    }
}

static void refuse_sizes(void)
{
    size_t i;
    for (i = 0; i < COUNT(refused); i++)
        refuse_quiet(&refused[i]);
}

void quiet_cases(void)
{
    begin("quiet day of three, byte by byte");
    accept_quiet(&written[0], three, sizeof three);
    write_all();
    refuse_sizes();
    results(3, QC_TEXT_BYTES);
    results(3, 0);
    results(2, QC_TEXT_BYTES);
}

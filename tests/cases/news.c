/* News: how far a delivery raises it, the limit of 491,520, and 17 for a delivery that would pass it, checked last. */
#include "cases.h"

/* A command on a world with these changes, row 0 in the store; the news after it. */
struct news_case {
    const char *name;
    struct change changes[CHANGES];
    uint8_t row[QC_ROW_BYTES];
    struct command command;
    uint32_t news;
};

#define LIMIT 491520

/* Row 0, from site 0 to sites 1 and 2: its kind and its first three codes. A vote is merged and nothing more; a prepare is replied to. */
#define VOTE(a, b, c) {QC_VOTE, 0, 6, 0, a, b, c}
#define PREPARE(a, b, c) {QC_PREPARE, 0, 6, 0, a, b, c}
#define NO_ROW {0}

/* To site 1, which is fresh unless the case says otherwise. */
#define DELIVERED(answer) {BYTES(QC_DELIVER, 0, 0, 1), 0, answer, 4}

#define SIXTEEN SITES(16), COMMIT_QUORUM(15), ABORT_QUORUM(15), WEIGHTS16(1)

static const struct news_case merges[] = {
    {"news of none", {ROWS(1)}, VOTE(0, 0, 0), DELIVERED(0), 0},
    {"news of one", {ROWS(1)}, VOTE(1, 0, 0), DELIVERED(0), 1},
    {"news of two", {ROWS(1)}, VOTE(1, 0, 1), DELIVERED(0), 2},
    {"news is added", {ROWS(1), NEWS(65535)}, VOTE(1, 0, 1), DELIVERED(0), 65537},
    {"news of a row that is replied to", {ROWS(1)}, PREPARE(1, 0, 0), DELIVERED(0), 1},
    {"news: three levels are one entry", {ROWS(1)}, VOTE(5, 0, 0), DELIVERED(0), 1},
    {"news: 1 over 1 is none", {ROWS(1), CODE(1, 0, 1)}, VOTE(1, 0, 0), DELIVERED(0), 0},
    {"news: 2 over 1", {ROWS(1), CODE(1, 0, 1)}, VOTE(2, 0, 0), DELIVERED(0), 1},
    {"news: 1 over 2 is none", {ROWS(1), CODE(1, 0, 2)}, VOTE(1, 0, 0), DELIVERED(0), 0},
    {"news: 3 over 2 is none", {ROWS(1), CODE(1, 0, 2)}, VOTE(3, 0, 0), DELIVERED(0), 0},
    {"news: 4 over 3", {ROWS(1), CODE(1, 0, 3)}, VOTE(4, 0, 0), DELIVERED(0), 1},
    {"news: 5 over 4 is none", {ROWS(1), CODE(1, 0, 4)}, VOTE(5, 0, 0), DELIVERED(0), 0},
    {"news: the receiver's own entry is none", {ROWS(1)}, VOTE(0, 5, 0), DELIVERED(0), 0},
    {"news: codes from n up are none", {ROWS(1)}, {QC_VOTE, 0, 6, 0, 0, 0, 0, 1, 5}, DELIVERED(0), 0},
};

static const struct news_case limits[] = {
    {"17 two entries to 491,520 pass", {ROWS(1), NEWS(LIMIT - 2)}, VOTE(1, 0, 1), DELIVERED(0), LIMIT},
    {"17 two entries to 491,521", {ROWS(1), NEWS(LIMIT - 1)}, VOTE(1, 0, 1), DELIVERED(17), LIMIT - 1},
    {"17 one entry to 491,520 passes", {ROWS(1), NEWS(LIMIT - 1)}, VOTE(1, 0, 0), DELIVERED(0), LIMIT},
    {"17 one entry to 491,521", {ROWS(1), NEWS(LIMIT)}, VOTE(1, 0, 0), DELIVERED(17), LIMIT},
    {"17 a reply with 491,520 passes", {ROWS(1), NEWS(LIMIT - 1)}, PREPARE(1, 0, 0), DELIVERED(0), LIMIT},
    {"17 a reply with 491,521", {ROWS(1), NEWS(LIMIT)}, PREPARE(1, 0, 0), DELIVERED(17), LIMIT},
    {"17 an outcome with 491,520 passes", {ROWS(1), NEWS(LIMIT - 1)}, VOTE(5, 0, 0), DELIVERED(0), LIMIT},
    {"17 an outcome with 491,521", {ROWS(1), NEWS(LIMIT)}, VOTE(5, 0, 0), DELIVERED(17), LIMIT},
    {"17 fifteen entries to 491,520 pass", {SIXTEEN, ROWS(1), NEWS(LIMIT - 15)},
     {QC_VOTE, 0, 6, 0, 1, 1, 1, 1, 1, 1, 1, 1, 1, 1, 1, 1, 1, 1, 1, 1}, DELIVERED(0), LIMIT},
    {"17 fifteen entries to 491,521", {SIXTEEN, ROWS(1), NEWS(LIMIT - 14)},
     {QC_VOTE, 0, 6, 0, 1, 1, 1, 1, 1, 1, 1, 1, 1, 1, 1, 1, 1, 1, 1, 1}, DELIVERED(17), LIMIT - 14},
};

/* Nothing rises: the limit does not matter. */
static const struct news_case at_the_limit[] = {
    {"17 an idle vote at 491,520 passes", {ROWS(1), NEWS(LIMIT)}, VOTE(0, 0, 0), DELIVERED(0), LIMIT},
    {"17 an idle prepare at 491,520 passes", {ROWS(1), NEWS(LIMIT)}, PREPARE(0, 0, 0), DELIVERED(0), LIMIT},
    {"17 a vote heard again at 491,520 passes", {ROWS(1), NEWS(LIMIT), CODE(1, 0, 1)}, VOTE(1, 0, 0), DELIVERED(0), LIMIT},
    {"17 START at 491,520 passes", {NEWS(LIMIT)}, NO_ROW, {BYTES(1), 0, 0, 1}, LIMIT},
    {"17 TIMEOUT at 491,520 passes", {NEWS(LIMIT)}, NO_ROW, {BYTES(3, 2), 0, 0, 2}, LIMIT},
    {"17 a TIMEOUT that sends at 491,520 passes", {NEWS(LIMIT), PREPARED(2), CODE(2, 2, 1)}, NO_ROW, {BYTES(3, 2), 0, 0, 2}, LIMIT},
    {"17 CRASH at 491,520 passes", {NEWS(LIMIT)}, NO_ROW, {BYTES(4, 2), 0, 0, 2}, LIMIT},
    {"17 RECOVER at 491,520 passes", {NEWS(LIMIT), DOWN(2)}, NO_ROW, {BYTES(5, 2), 0, 0, 2}, LIMIT},
};

/* A delivery that would pass the limit, and something else that is wrong with it. */
static const struct news_case order[] = {
    {"15 before 17", {ROWS(1024), NEWS(LIMIT)}, PREPARE(1, 0, 0), DELIVERED(15), LIMIT},
    {"17 with 1,023 rows", {ROWS(1023), NEWS(LIMIT)}, PREPARE(1, 0, 0), DELIVERED(17), LIMIT},
    {"17 with 1,024 rows and no reply", {ROWS(1024), NEWS(LIMIT)}, VOTE(1, 0, 0), DELIVERED(17), LIMIT},
    {"12 before 17", {DOWN(1), ROWS(1), NEWS(LIMIT)}, VOTE(1, 0, 0), DELIVERED(12), LIMIT},
    {"11 before 17", {ROWS(1), NEWS(LIMIT)}, {QC_VOTE, 0, 4, 0, 1}, DELIVERED(11), LIMIT},
    {"10 before 17", {ROWS(1), NEWS(LIMIT)}, VOTE(1, 0, 6), DELIVERED(10), LIMIT},
    {"17 of the world before 12", {DOWN(1), ROWS(1), NEWS(LIMIT + 1)}, VOTE(1, 0, 0), DELIVERED(17), LIMIT + 1},
};

static void play_all(const struct news_case *table, size_t count)
{
    size_t i;
    for (i = 0; i < count; i++) {
        begin(table[i].name);
        expect("news", qc_news(expect_command(&table[i].command, table[i].changes, table[i].row, QC_STORE_BYTES)), table[i].news);
    }
}

void news_cases(void)
{
    play_all(merges, COUNT(merges));
    play_all(limits, COUNT(limits));
    play_all(at_the_limit, COUNT(at_the_limit));
    play_all(order, COUNT(order));
}

/* Every quiet day (document 02, request (v)) from C: for each number of sites and all legal quorums the library's own list is played whole, one
 * command at a time, and once more in another order, each reply right after the delivery that made it. What is counted on the way is held to the
 * request's numbers, and all three ways must leave the same bytes. Then the same commands after headers of the second edition (request (vi)): with
 * weights of 1, which must leave the first edition's bytes, and with many other weightings, their quorums at the bounds and between.
 * The list's bytes and its refusals are in cases/quiet.c.
 * Exits 0 if all is as it should be, 1 after the first difference.
 */
#include <stdio.h>
#include <string.h>

#include "shared.h"

const char *const test_name = "quiet day";

enum { FEWEST_SITES = 3, FILL = 0xee };

/* Weightings that are drawn for each number of sites. */
enum { DRAWN = 40 };

/* What a day costs. */
enum figure { BYTES, EVENTS, DELIVERIES, ROWS, RECORDS, NEWS, FIGURES };

static const char *const names[FIGURES] = {"bytes of the list", "events", "deliveries", "rows", "log records", "news"};

/* A competition's numbers; sites from n up weigh 0. */
struct sizes {
    unsigned n, commit_quorum, abort_quorum;
    uint8_t weights[QC_SITES];
};

/* A competition, and what it has cost so far. */
struct day {
    uint8_t world[QC_WORLD_BYTES], store[QC_STORE_BYTES];
    unsigned figures[FIGURES];
};

/* The day's list in either edition: the bytes of its header, and all of them. */
static struct {
    uint8_t bytes[QC_QUIET_BYTES - QC_HEADER_BYTES + QC_SECOND_HEADER_BYTES(QC_SITES)];
    size_t header, length;
} list;

static struct day first_edition, whole, replies_last, replies_at_once;
static uint8_t result[QC_LINES_RESULT_BYTES];
static unsigned days;

/* The day being played, for what is said of a difference. */
static void name_day(const char *edition, const struct sizes *sizes)
{
    unsigned site;
    int length = sprintf(current, "%s edition, n %u, C %u, A %u, weights", edition, sizes->n, sizes->commit_quorum, sizes->abort_quorum);
    for (site = 0; site < sizes->n; site++)
        length += sprintf(current + length, " %u", (unsigned)sizes->weights[site]);
}

/* The list as the library writes it. */
static void write_quiet(unsigned n, unsigned commit_quorum, unsigned abort_quorum)
{
    expect("number of the list", qc_write_quiet(n, commit_quorum, abort_quorum, list.bytes, QC_QUIET_BYTES, result, sizeof result), QC_ACCEPTED);
    expect("list longer than its buffer", qc_lines_length(result) > QC_QUIET_BYTES, 0);
    list.length = (size_t)qc_lines_length(result);
}

static void write_first_edition(const struct sizes *sizes)
{
    name_day("first", sizes);
    write_quiet(sizes->n, sizes->commit_quorum, sizes->abort_quorum);
    list.header = QC_HEADER_BYTES;
}

static void put_number16(uint8_t *bytes, unsigned number)
{
    bytes[0] = (uint8_t)number;
    bytes[1] = (uint8_t)(number >> 8);
}

/* The library's commands, which depend on n alone, after a header of the second edition. */
static void write_second_edition(const struct sizes *sizes)
{
    name_day("second", sizes);
    write_quiet(sizes->n, 2, sizes->n - 1);
    list.header = QC_SECOND_HEADER_BYTES(sizes->n);
    memmove(list.bytes + list.header, list.bytes + QC_HEADER_BYTES, list.length - QC_HEADER_BYTES);
    list.length += list.header - QC_HEADER_BYTES;
    list.bytes[0] = QC_SECOND_EDITION;
    list.bytes[1] = (uint8_t)sizes->n;
    put_number16(list.bytes + 2, sizes->commit_quorum);
    put_number16(list.bytes + 4, sizes->abort_quorum);
    put_number16(list.bytes + 6, (1u << sizes->n) - 1);
    memcpy(list.bytes + 8, sizes->weights, sizes->n);
}

/* The fresh world, from the list's header alone. */
static void begin(struct day *day)
{
    memset(day, 0, sizeof *day);
    memset(day->store, FILL, sizeof day->store);
    expect("number of the header", qc_play_list(list.bytes, list.header, day->store, sizeof day->store, day->world, sizeof day->world, result,
                                                QC_RESULT_BYTES), QC_ACCEPTED);
    day->figures[BYTES] = (unsigned)list.header;
}

/* The log records of a site. */
static unsigned site_records(const uint8_t *world, unsigned site)
{
    return (qc_log_prepare(world, site) != 0) + (qc_log_group(world, site) != QC_NO_RECORD) + (qc_log_outcome(world, site) != QC_NO_RECORD);
}

static unsigned records(const uint8_t *world)
{
    unsigned site, sum = 0;
    for (site = 0; site < QC_SITES; site++)
        sum += site_records(world, site);
    return sum;
}

/* Plays one command, which must be accepted, and counts what it has brought: at most one row and one record. Gives the place after it. */
static size_t play(struct day *day, const uint8_t *commands, size_t length, size_t at)
{
    const unsigned rows = qc_row_count(day->world), held = records(day->world);
    const uint32_t news = qc_news(day->world);
    const uint32_t number = qc_play_command(day->world, sizeof day->world, day->store, sizeof day->store, commands, length, at, result,
                                            QC_RESULT_BYTES);
    const size_t next = (size_t)qc_result_next_place(result);
    expect("number of a command", number, QC_ACCEPTED);
    expect("more than one row of a command", qc_row_count(day->world) - rows > 1, 0);
    expect("more than one record of a command", records(day->world) - held > 1, 0);
    day->figures[BYTES] += (unsigned)(next - at);
    day->figures[EVENTS]++;
    day->figures[DELIVERIES] += commands[at] == QC_DELIVER;
    day->figures[ROWS] += qc_row_count(day->world) - rows;
    day->figures[RECORDS] += records(day->world) - held;
    day->figures[NEWS] += qc_news(day->world) - news;
    return next;
}

/* The library's list, one command at a time. */
static void play_each(struct day *day)
{
    size_t at = list.header;
    begin(day);
    while (at < list.length)
        at = play(day, list.bytes, list.length, at);
    expect("end", at, list.length);
}

static void deliver(struct day *day, unsigned row, unsigned site)
{
    const uint8_t command[] = {QC_DELIVER, (uint8_t)row, (uint8_t)(row >> 8), (uint8_t)site};
    play(day, command, sizeof command, 0);
}

/* Site 0 sends the row of this number to the others, and each reply comes back at once. */
static void round_at_once(struct day *day, unsigned n, unsigned row, const uint8_t *opening, size_t length)
{
    unsigned site;
    play(day, opening, length, 0);
    for (site = 1; site < n; site++) {
        deliver(day, row, site);
        deliver(day, row + site, 0);
    }
}

static void play_at_once(struct day *day, unsigned n)
{
    static const uint8_t start[] = {QC_START}, timeout[] = {QC_TIMEOUT, 0};
    begin(day);
    round_at_once(day, n, 0, start, sizeof start);
    round_at_once(day, n, n, timeout, sizeof timeout);
    round_at_once(day, n, 2 * n, timeout, sizeof timeout);
}

/* The library's list in one call; the other ways have counted its events. */
static void play_whole(struct day *day)
{
    begin(day);
    expect("number of the whole list", qc_play_list(list.bytes, list.length, day->store, sizeof day->store, day->world, sizeof day->world, result,
                                                    QC_RESULT_BYTES), QC_ACCEPTED);
    expect("events of the whole list", qc_result_events(result), replies_last.figures[EVENTS]);
    expect("end of the whole list", qc_result_place(result), list.length);
}

/* The request's numbers, and what follows for the list and the news. */
static void expect_cost(const struct day *day, unsigned n)
{
    const unsigned others = n - 1;
    const unsigned due[FIGURES] = {
        [BYTES] = (unsigned)list.header + 5 + 24 * others,
        [EVENTS] = 3 + 6 * others,
        [DELIVERIES] = 6 * others,
        [ROWS] = 3 * n,
        [RECORDS] = 3 * n,
        [NEWS] = 4 * others + 2 * others * others,
    };
    unsigned i;
    for (i = 0; i < FIGURES; i++)
        expect(names[i], day->figures[i], due[i]);
}

/* The header says what was asked for, and that all are willing. */
static void expect_sizes(const uint8_t *world, const struct sizes *sizes)
{
    unsigned site;
    expect("sites", qc_site_count(world), sizes->n);
    expect("commit quorum", qc_commit_quorum(world), sizes->commit_quorum);
    expect("abort quorum", qc_abort_quorum(world), sizes->abort_quorum);
    expect("willing sites", qc_willing(world), (1u << sizes->n) - 1);
    for (site = 0; site < QC_SITES; site++)
        expect("weight", qc_weight(world, site), sizes->weights[site]);
}

/* Prepared, in the commit group, committed; no record at sites from n up. */
static void expect_logs(const uint8_t *world, unsigned n)
{
    unsigned site;
    for (site = 0; site < QC_SITES; site++) {
        const unsigned is_there = site < n;
        expect("prepare record", qc_log_prepare(world, site), is_there);
        expect("group record", qc_log_group(world, site), is_there ? QC_COMMIT : QC_NO_RECORD);
        expect("outcome record", qc_log_outcome(world, site), is_there ? QC_COMMIT : QC_NO_RECORD);
    }
}

static void expect_same_end(const struct day *day, const struct day *other)
{
    expect_same("same bytes of the world", day->world, other->world, sizeof day->world);
    expect_same("same bytes of the store", day->store, other->store, sizeof day->store);
}

/* The day of the list, in all three ways. */
static void play_list(const struct sizes *sizes)
{
    play_each(&replies_last);
    play_at_once(&replies_at_once, sizes->n);
    play_whole(&whole);
    expect_cost(&replies_last, sizes->n);
    expect_cost(&replies_at_once, sizes->n);
    expect_sizes(whole.world, sizes);
    expect_logs(whole.world, sizes->n);
    expect_same_end(&replies_last, &whole);
    expect_same_end(&replies_at_once, &whole);
    days++;
}

/* Each site below n weighs so much. */
static void weigh_alike(struct sizes *sizes, unsigned weight)
{
    memset(sizes->weights, 0, sizeof sizes->weights);
    memset(sizes->weights, (int)weight, sizes->n);
}

/* One day of sites that weigh 1, in both editions: the same end. */
static void play_both_editions(struct sizes *sizes)
{
    weigh_alike(sizes, 1);
    write_first_edition(sizes);
    play_list(sizes);
    first_edition = replies_last;
    write_second_edition(sizes);
    play_list(sizes);
    expect_same_end(&first_edition, &whole);
}

static void days_with_commit_quorum(struct sizes *sizes)
{
    sizes->abort_quorum = sizes->n + 1 - sizes->commit_quorum;
    for (; sizes->abort_quorum < sizes->n; sizes->abort_quorum++)
        play_both_editions(sizes);
}

static void days_of(struct sizes *sizes)
{
    for (sizes->commit_quorum = 2; sizes->commit_quorum < sizes->n; sizes->commit_quorum++)
        days_with_commit_quorum(sizes);
}

static void print_cost(const struct day *day, unsigned n)
{
    printf("quiet day: %u sites: %u events, %u of them deliveries; %u rows, %u log records, news %u; a list of %u bytes\n", n,
           day->figures[EVENTS], day->figures[DELIVERIES], day->figures[ROWS], day->figures[RECORDS], day->figures[NEWS], day->figures[BYTES]);
}

/* n sites have (n - 1)(n - 2) / 2 legal pairs of quorums; from 3 to 16 that is 16 * 15 * 14 / 6. */
static void all_days(void)
{
    struct sizes sizes;
    for (sizes.n = FEWEST_SITES; sizes.n <= QC_SITES; sizes.n++) {
        days_of(&sizes);
        if (sizes.n == 3 || sizes.n == 8 || sizes.n == 16)
            print_cost(&first_edition, sizes.n);
    }
    expect("days", days, 2 * 560);
    printf("quiet day: 560 days of 3 to 16 sites with all legal quorums, each in two orders and as a list, and in both editions\n");
}

static void play_quorums(struct sizes *sizes, unsigned commit_quorum, unsigned abort_quorum)
{
    sizes->commit_quorum = commit_quorum;
    sizes->abort_quorum = abort_quorum;
    write_second_edition(sizes);
    play_list(sizes);
}

/* A number from least to most, the same ones in every run. */
static unsigned draw(unsigned least, unsigned most)
{
    static uint64_t random = 6;
    random = random * 6364136223846793005u + 1442695040888963407u;
    return least + (unsigned)(random >> 33) % (most - least + 1);
}

/* With W and h as in the request: each the most, C the most and A the least, the other way round, both about half of W, and a pair that is drawn. */
static void play_weights(struct sizes *sizes)
{
    const unsigned sum = all_weight(sizes->n, sizes->weights), largest = heaviest(sizes->n, sizes->weights);
    const unsigned most = sum - largest, least = largest + 1;
    const unsigned drawn = draw(least, most);
    play_quorums(sizes, most, most);
    play_quorums(sizes, most, least);
    play_quorums(sizes, least, most);
    play_quorums(sizes, sum / 2 + 1, sum - sum / 2);
    play_quorums(sizes, drawn, draw(sum + 1 - drawn, most));
}

/* Are there legal quorums? */
static int is_legal(const struct sizes *sizes)
{
    return all_weight(sizes->n, sizes->weights) > 2 * heaviest(sizes->n, sizes->weights);
}

/* All weigh 255; from 2 up by one each, and down. */
static void play_regular(struct sizes *sizes)
{
    unsigned site;
    weigh_alike(sizes, QC_WEIGHT);
    play_weights(sizes);
    for (site = 0; site < sizes->n; site++)
        sizes->weights[site] = (uint8_t)(site + 2);
    play_weights(sizes);
    for (site = 0; site < sizes->n; site++)
        sizes->weights[site] = (uint8_t)(sizes->n + 1 - site);
    play_weights(sizes);
}

/* One site weighs 1, the others 255; it weighs one less than the others together, which weigh 1 each; the same, and it weighs 255. */
static void play_odd_one(struct sizes *sizes, unsigned one)
{
    const unsigned others = sizes->n - 1;
    weigh_alike(sizes, QC_WEIGHT);
    sizes->weights[one] = 1;
    play_weights(sizes);
    weigh_alike(sizes, 1);
    sizes->weights[one] = (uint8_t)(others - 1);
    play_weights(sizes);
    weigh_alike(sizes, 256 / others);
    sizes->weights[one == 0] = (uint8_t)(256 / others + 256 % others);
    sizes->weights[one] = 255;
    expect("weight of the others", all_weight(sizes->n, sizes->weights) - 255, 256);
    play_weights(sizes);
}

static void draw_weights(struct sizes *sizes)
{
    unsigned site;
    weigh_alike(sizes, 0);
    for (site = 0; site < sizes->n; site++)
        sizes->weights[site] = (uint8_t)draw(1, QC_WEIGHT);
}

static void play_drawn(struct sizes *sizes)
{
    unsigned played = 0;
    while (played < DRAWN) {
        draw_weights(sizes);
        if (is_legal(sizes)) {
            play_weights(sizes);
            played++;
        }
    }
}

static void weightings_of(struct sizes *sizes)
{
    unsigned one;
    play_regular(sizes);
    for (one = 0; one < sizes->n; one++)
        play_odd_one(sizes, one);
    play_drawn(sizes);
}

/* For n sites 3 regular weightings, 3 n with an odd one and those drawn, each with 5 pairs of quorums; 3 to 16 add up to 133. */
static void all_weightings(void)
{
    struct sizes sizes;
    days = 0;
    for (sizes.n = FEWEST_SITES; sizes.n <= QC_SITES; sizes.n++)
        weightings_of(&sizes);
    expect("days with weights", days, 5 * (14 * (3 + DRAWN) + 3 * 133));
    printf("quiet day: %u days of sites with different weights, at the bounds of their quorums and between, played the same ways\n", days);
}

int main(void)
{
    all_days();
    all_weightings();
    return 0;
}
